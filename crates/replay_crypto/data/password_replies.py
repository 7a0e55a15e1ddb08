#!/usr/bin/env python3
"""Writes password_replies.txt: the replies to requests to change a password (RFC 3244, section 2), octet by octet.

It shares no code with the program that replays the rows: encryption and DER are those of tokens.py and first_tokens.py, and the requests those
of password_changes.py, whose service, rules and accounts these are. Keys and random octets are fixed, so each run writes the same file.

A row is LABEL | MICROSECONDS after 2000-01-01 | MESSAGE | TEXT for the user | REPLY, octets in hexadecimal. The first one is `keytab | OCTETS`. The
random octets of each call are 0 to 31: the confounder of the AP-REP, and that of the KRB-PRIV. The service's address is 127.0.0.1. A text `-` is
none.

Run it in this folder: python3 password_replies.py
"""
import struct
import sys

sys.dont_write_bytecode = True
from first_tokens import MUTUAL_REQUIRED, application, der, encrypted, integer, name, octet_string, sequence, text
from keytab_rows import keytab, record
from password_changes import AUTH, DENIED, FLAG, KEY, KVNO, MALFORMED, REALM, SERVICE, SOFT, SUCCESS, SUITE, TIME, VERSION, Request
from password_frames import CHANGE, frame
from tokens import check_against_the_standards

HEAD = """# Replies to requests to change a password (RFC 3244, section 2). Written by password_replies.py, which says what the rows are.
"""
WORDS = bytes(range(32))
ADDRESS = sequence((0, integer(2)), (1, octet_string(bytes([127, 0, 0, 1]))))
KRB_ERR_GENERIC = 60


def data_of(code, said):
    return struct.pack(">H", code) + said.encode()


def ap_rep(request):
    """The authenticator's time alone, under the session key."""
    part = application(27, (0, der(0x18, TIME)), (1, integer(request.micros)))
    sealed = encrypted(request.session, request.session_key(), 12, WORDS[:16], part)
    return application(15, (0, integer(5)), (1, integer(15)), (2, sealed))


def krb_priv(request, code, said):
    part = application(28, (0, octet_string(data_of(code, said))), (3, integer(0)), (4, ADDRESS))
    suite, key = (request.session, request.session_key()) if request.subkey is None else (request.subkey, request.sub_key())
    return application(21, (0, integer(5)), (1, integer(21)), (3, encrypted(suite, key, 13, WORDS[16:32], part)))


def krb_error(micros, code, said):
    return application(
        30, (0, integer(5)), (1, integer(30)), (4, der(0x18, TIME)), (5, integer(micros)), (6, integer(KRB_ERR_GENERIC)), (9, text(REALM)),
        (10, name(*SERVICE)), (12, octet_string(data_of(code, said))),
    )


def encrypted_reply(request, code, said=""):
    return request, said, frame(CHANGE, ap_rep(request), krb_priv(request, code, said))


def plain_reply(request, code, said=""):
    return request, said, frame(CHANGE, b"", krb_error(request.micros, code, said))


def rows():
    yield "changed", *encrypted_reply(Request(), SUCCESS)
    yield "changed, version 1", *encrypted_reply(Request(CHANGE), SUCCESS, "Password changed.")
    yield "changed, and asks for an AP-REP", *encrypted_reply(Request(options=MUTUAL_REQUIRED), SUCCESS)
    yield "changed, under the session key", *encrypted_reply(Request(subkey=None), SUCCESS)
    yield "changed, under a session key of another suite", *encrypted_reply(Request(subkey=None, session=17), SUCCESS)
    yield "changed, under a subkey of another suite", *encrypted_reply(Request(subkey=17), SUCCESS)
    yield "too short", *encrypted_reply(Request(password=b"short"), SOFT, "The password is too short.")
    yield "not initial", *encrypted_reply(Request(flags=0), FLAG)
    yield "another's", *encrypted_reply(Request(target=("other",), target_realm=REALM), DENIED)
    yield "other sequence number", *encrypted_reply(Request(own_number=1001), AUTH)
    yield "no KRB-PRIV", *encrypted_reply(Request(private=b""), MALFORMED)
    once = Request()
    yield "changed, once", *encrypted_reply(once, SUCCESS)
    yield "changed, again", *plain_reply(Request(again=once), AUTH, "Request is a replay")
    yield "subkey of no suite", *plain_reply(Request(subkey=99, under="session"), AUTH)
    yield "other service", *plain_reply(Request(service=("kadmin", "admin")), AUTH)
    yield "no AP-REQ", *plain_reply(Request(ap=b""), MALFORMED)
    yield "version 2", *plain_reply(Request(version=2), VERSION)
    yield "octet behind", *plain_reply(Request(behind_frame=b"\0"), MALFORMED, "Malformed request")


def main():
    check_against_the_standards()
    with open("password_replies.txt", "w", encoding="ascii") as it:
        it.write(HEAD)
        it.write(f"keytab | {keytab([record((KVNO, SUITE, KEY), REALM.encode(), tuple(map(str.encode, SERVICE)))])}\n")
        for label, request, said, reply in rows():
            it.write(f"{label} | {request.micros} | {request.message().hex()} | {said or '-'} | {reply.hex()}\n")


if __name__ == "__main__":
    main()
