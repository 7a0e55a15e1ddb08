#!/usr/bin/env python3
"""Writes what krb_kpasswdd is run on, and what it has to answer: accounts, refused and words of this folder, and ../args, ../stdin, ../stdout.

It shares no code with the program. Requests and replies are those of password_changes.py and password_replies.py in
crates/replay_crypto/data, by the same keys. Each run writes the same files.

Run it in this folder: python3 record.py
"""
import struct
import sys

sys.dont_write_bytecode = True
sys.path.insert(0, "../../replay_crypto/data")
from first_tokens import octet_string, sequence
from password_changes import AUTH, DENIED, FLAG, HARD, MALFORMED, REALM, SOFT, SUCCESS, VERSION, Request
from password_frames import CHANGE, frame
from password_replies import ap_rep, krb_error, krb_priv
from tokens import check_against_the_standards

MOMENT = "20000101000000Z"
# What a user reads of a result code.
TEXTS = {
    SUCCESS: "",
    MALFORMED: "The request is malformed.",
    HARD: "The password was not changed: the server can't do it now.",
    AUTH: "The request is not authenticated.",
    SOFT: "The password is too short, or a word that is refused.",
    DENIED: "The client may not set the password of this account.",
    VERSION: "The version of the request is not known.",
    FLAG: "The ticket has to be got by the password.",
}
ARGUMENTS = ["--least", "8", "--refused", "refused", "--suite", "aes128-cts-hmac-sha1-96", "--address", "127.0.0.1", "--at", MOMENT, "accounts", "accounts.cdb", "words"]
ACCOUNTS = f"""#admins\troot/admin
realm\t{REALM}\t300\t36000
kadmin/changepw\taes256-cts-hmac-sha1-96\t1\t-\t{'01' * 32}
krbtgt/{REALM}\taes256-cts-hmac-sha1-96\t1\t-\t{'05' * 32}
other\taes128-cts-hmac-sha1-96\t1\t-\t{'02' * 16}
root/admin\taes128-cts-hmac-sha1-96\t1\t-\t{'03' * 16}
spent\taes128-cts-hmac-sha1-96\t4294967295\t-\t{'06' * 16}
user\taes128-cts-hmac-sha1-96\t1\t-\t{'04' * 16}
"""


def encrypted(request, code):
    return request.message(), frame(CHANGE, ap_rep(request), krb_priv(request, code, TEXTS[code]))


def plain(message, code):
    """The KRB-ERROR, at the moment of the run."""
    return message, frame(CHANGE, b"", krb_error(0, code, TEXTS[code]))


def messages():
    own = Request(CHANGE)
    yield encrypted(own, SUCCESS)
    yield plain(own.message(), AUTH)
    yield encrypted(Request(), SUCCESS)
    yield encrypted(Request(subkey=None, session=17), SUCCESS)
    yield encrypted(Request(password=b"short"), SOFT)
    yield encrypted(Request(password=b"letmein!!"), SOFT)
    yield encrypted(Request(flags=0), FLAG)
    yield encrypted(Request(target=("other",), target_realm=REALM), DENIED)
    yield encrypted(Request(client=("root", "admin"), target=("other",), target_realm=REALM), SUCCESS)
    yield encrypted(Request(client=("root", "admin"), target=("krbtgt", REALM), target_realm=REALM), DENIED)
    yield encrypted(Request(client=("spent",)), HARD)
    yield encrypted(Request(client=("nobody",)), HARD)
    yield encrypted(Request(own_number=7), AUTH)
    yield encrypted(Request(user_data=sequence((0, octet_string(b"")))[:-1]), MALFORMED)
    yield plain(Request(service=("kadmin", "admin")).message(), AUTH)
    yield plain(Request(subkey=99, under="session").message(), AUTH)
    yield plain(Request(version=2).message(), VERSION)
    yield plain(b"", MALFORMED)
    yield encrypted(Request(CHANGE, password=b"the last password"), SUCCESS)


def framed(message):
    return struct.pack(">I", len(message)) + message


def main():
    check_against_the_standards()
    pairs = list(messages())
    with open("accounts", "w", encoding="ascii") as it:
        it.write(ACCOUNTS)
    with open("refused", "w", encoding="ascii") as it:
        it.write("password\nletmein!!\n")
    with open("words", "wb") as it:
        it.write(bytes(range(96)) * len(pairs))
    with open("../args", "w", encoding="ascii") as it:
        it.write("".join(f"{word}\n" for word in ARGUMENTS))
    with open("../stdin", "wb") as it:
        it.write(b"".join(framed(message) for message, _ in pairs))
    with open("../stdout", "wb") as it:
        it.write(b"".join(framed(reply) for _, reply in pairs))


if __name__ == "__main__":
    main()
