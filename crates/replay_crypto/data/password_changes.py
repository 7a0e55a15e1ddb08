#!/usr/bin/env python3
"""Writes password_changes.txt: requests to change a password (RFC 3244, section 2), and what is granted of each.

It shares no code with the program that replays the rows: encryption and DER are those of tokens.py and first_tokens.py. Keys
and random octets are fixed, so each run writes the same file. Each outcome stands here by name, and `judged` computes it a second time by
the table's rows from what the request was made of.

A row is LABEL | MICROSECONDS after 2000-01-01 | MESSAGE | OUTCOME. The first one is `keytab | OCTETS`: the keytab of the service, which is
kadmin/changepw of R, with a key of 32 octets 01, etype 18 and kvno 1. Its administrator is root/admin, the least length is 8, and the words
`password` and `letmein!!` are refused. New keys are of etype 17. Each request meets the accounts root/admin, other and user with kvno 1, and
spent with the greatest. An outcome is a result code, or the realm, the name, the new password and the account's kvno and key, octets in
hexadecimal.

Run it in this folder: python3 password_changes.py
"""
import hashlib
import sys

sys.dont_write_bytecode = True
from first_tokens import application, bits, der, encrypted, integer, key_of, name, octet_string, sequence, text
from keytab_rows import keytab, record
from tokens import KEY_SIZES, check_against_the_standards, derive_by_blocks
from password_frames import AP, CHANGE, SET, frame, named

HEAD = """# Requests to change a password (RFC 3244, section 2), and what is granted of each. Written by password_changes.py, which says what the rows are.
"""
KEY, SUITE, KVNO, REALM, SERVICE = b"\1" * 32, 18, 1, "R", ("kadmin", "changepw")
ADMINS, LEAST, WORDS = [("root", "admin")], 8, [b"password", b"letmein!!"]
ACCOUNTS = [("root", "admin"), ("other",), ("user",)]
INITIAL = 1 << (31 - 9)
TIME = b"20000101000000Z"
SUCCESS, MALFORMED, HARD, AUTH, SOFT, DENIED, VERSION, FLAG = range(8)


class Request:
    """A request, which can be told to deviate."""

    count = 0

    def __init__(self, version=SET, client=("user",), realm=REALM, password=b"new password", target=None, target_realm=None, flags=INITIAL,
                 subkey=18, number=1000, own_number="same", pvno=5, kind=21, usage=13, under="subkey", user_data=None, behind=b"",
                 service=SERVICE, session=18, private=None, ap=None, again=None, behind_frame=b"", options=0):
        Request.count += again is None
        self.__dict__.update(locals())
        self.micros = Request.count if again is None else again.micros
        if own_number == "same":
            self.own_number = number
        if subkey is None and under == "subkey":
            self.under = "session"

    def session_key(self):
        return bytes([2]) * KEY_SIZES[self.session]

    def sub_key(self):
        return bytes([3]) * KEY_SIZES.get(self.subkey, 16)

    def ap_req(self):
        part = application(
            3, (0, bits(self.flags)), (1, key_of(self.session, self.session_key())), (2, text(self.realm)), (3, name(*self.client)),
            (4, sequence((0, integer(1)), (1, octet_string(b"")))), (5, der(0x18, TIME)), (7, der(0x18, b"20000101100000Z")),
        )
        sealed = encrypted(SUITE, KEY, 2, bytes(16), part, kvno=KVNO)
        ticket = application(1, (0, integer(5)), (1, text(REALM)), (2, name(*self.service)), (3, sealed))
        own = application(
            2, (0, integer(5)), (1, text(self.realm)), (2, name(*self.client)), (4, integer(self.micros)), (5, der(0x18, TIME)),
            (6, None if self.subkey is None else key_of(self.subkey, self.sub_key())), (7, None if self.number is None else integer(self.number)),
        )
        own = encrypted(self.session, self.session_key(), 11, bytes(16), own)
        return application(14, (0, integer(5)), (1, integer(14)), (2, bits(self.options)), (3, ticket), (4, own))

    def change(self):
        if self.user_data is not None:
            return self.user_data
        if self.version == CHANGE:
            return self.password
        return sequence(
            (0, octet_string(self.password)), (1, None if self.target is None else name(*self.target)),
            (2, None if self.target_realm is None else text(self.target_realm)),
        )

    def krb_priv(self):
        if self.private is not None:
            return self.private
        part = application(
            28, (0, octet_string(self.change())), (3, None if self.own_number is None else integer(self.own_number)),
            (4, sequence((0, integer(2)), (1, octet_string(bytes(4))))),
        )
        suite, key = (self.subkey, self.sub_key()) if self.under == "subkey" else (self.session, self.session_key())
        sealed = encrypted(suite, key, self.usage, bytes(16), part + self.behind)
        return application(21, (0, integer(self.pvno)), (1, integer(self.kind)), (3, sealed))

    def message(self):
        return frame(self.version, self.ap_req() if self.ap is None else self.ap, self.krb_priv()) + self.behind_frame

    def judged(self):
        """The outcome by the rows of the table, from what the request was made of."""
        if self.behind_frame:
            return named(MALFORMED)
        if self.version not in (CHANGE, SET):
            return named(VERSION)
        if self.ap is not None:
            return named(MALFORMED)
        if self.again is not None or self.service != SERVICE:
            return named(AUTH)
        if self.private is not None or self.pvno != 5 or self.kind != 21:
            return named(MALFORMED)
        key = "session" if self.subkey is None else "subkey"
        if self.usage != 13 or self.under != key or self.behind or (self.subkey not in (None, *KEY_SIZES)):
            return named(AUTH)
        if (self.number or 0) != (self.own_number or 0):
            return named(AUTH)
        if self.user_data is not None and self.version == SET:
            return named(MALFORMED)
        given = self.version == SET
        target, target_realm = (self.target, self.target_realm) if given else (None, None)
        if (target is None) != (target_realm is None):
            return named(MALFORMED)
        own = (self.realm, self.client)
        target = own if target is None else (target_realm, target)
        if not self.flags & INITIAL:
            return named(FLAG)
        if target != own and not (self.realm == REALM and self.client in ADMINS):
            return named(DENIED)
        if target[0] != REALM:
            return named(DENIED)
        password = self.password if self.user_data is None else self.user_data
        if len(password) < LEAST or password in WORDS:
            return named(SOFT)
        if target[1] not in ACCOUNTS:
            return named(HARD)
        return granted(password, "/".join(target[1]), target[0])


def granted(password=b"new password", who="user", realm=REALM):
    """A granted change, and the account after it (RFC 3962, section 4)."""
    salt = (realm + who.replace("/", "")).encode()
    key = derive_by_blocks(hashlib.pbkdf2_hmac("sha1", password, salt, 4096, 16), b"kerberos")
    return f"{realm} {who} {password.hex()} 2 {key.hex()}"


def rows():
    for version, said in ((CHANGE, "version 1"), (SET, "version 0xFF80")):
        yield f"{said}: own password", Request(version), granted()
        yield f"{said}: under the session key", Request(version, subkey=None), granted()
        yield f"{said}: subkey of another suite", Request(version, subkey=17), granted()
        yield f"{said}: no sequence number at all", Request(version, number=None), granted()
        yield f"{said}: no number and number 0", Request(version, number=None, own_number=0), granted()
        yield f"{said}: ticket isn't initial", Request(version, flags=0), named(FLAG)
        yield f"{said}: too short", Request(version, password=b"seven!!"), named(SOFT)
        yield f"{said}: just long enough", Request(version, password=b"eight!!!"), granted(b"eight!!!")
        yield f"{said}: refused word", Request(version, password=b"letmein!!"), named(SOFT)
        yield f"{said}: no password", Request(version, password=b""), named(SOFT)
        yield f"{said}: other sequence number", Request(version, own_number=1001), named(AUTH)
        yield f"{said}: missing sequence number", Request(version, own_number=None), named(AUTH)
        yield f"{said}: KRB-PRIV under the session key beside a subkey", Request(version, under="session"), named(AUTH)
        yield f"{said}: KRB-PRIV for key usage 12", Request(version, usage=12), named(AUTH)
        yield f"{said}: octets behind the part", Request(version, behind=b"\0"), named(AUTH)
        yield f"{said}: KRB-PRIV of version 4", Request(version, pvno=4), named(MALFORMED)
        yield f"{said}: KRB-PRIV of type 20", Request(version, kind=20), named(MALFORMED)
        yield f"{said}: no KRB-PRIV", Request(version, private=b""), named(MALFORMED)
        yield f"{said}: AP-REQ in place of the KRB-PRIV", Request(version, private=AP), named(MALFORMED)
        yield f"{said}: client of another realm", Request(version, realm="Q"), named(DENIED)
    yield "user-data that are no ChangePasswdData", Request(user_data=b"new password"), named(MALFORMED)
    yield "user-data that are empty", Request(user_data=b""), named(MALFORMED)
    yield "user-data in version 1 that are a ChangePasswdData", Request(CHANGE, user_data=sequence((0, octet_string(b"new password")))), \
        granted(sequence((0, octet_string(b"new password"))))
    yield "own name as target", Request(target=("user",), target_realm=REALM), granted()
    yield "target without realm", Request(target=("user",)), named(MALFORMED)
    yield "realm without target", Request(target_realm=REALM), named(MALFORMED)
    yield "other target", Request(target=("other",), target_realm=REALM), named(DENIED)
    yield "target with a further component", Request(target=("user", "admin"), target_realm=REALM), named(DENIED)
    yield "own name in another realm", Request(target=("user",), target_realm="Q"), named(DENIED)
    yield "administrator's own password", Request(client=("root", "admin")), granted(who="root/admin")
    yield "administrator sets another's", Request(client=("root", "admin"), target=("other",), target_realm=REALM), granted(who="other")
    yield "administrator in another realm's", Request(client=("root", "admin"), target=("other",), target_realm="Q"), named(DENIED)
    yield "administrator of another realm", Request(client=("root", "admin"), realm="Q", target=("other",), target_realm=REALM), named(DENIED)
    yield "administrator's ticket isn't initial", Request(client=("root", "admin"), target=("other",), target_realm=REALM, flags=0), named(FLAG)
    yield "administrator sets the password of no account", Request(client=("root", "admin"), target=("nobody",), target_realm=REALM), named(HARD)
    yield "account with the greatest kvno", Request(client=("spent",)), named(HARD)
    yield "client without an account", Request(client=("nobody",)), named(HARD)
    once = Request()
    yield "once", once, granted()
    yield "the same request again", Request(again=once), named(AUTH)
    yield "the same authenticator, and another password", Request(again=once, password=b"other password"), named(AUTH)
    yield "subkey of an unknown suite", Request(subkey=99, under="session"), named(AUTH)
    yield "ticket for another service", Request(service=("kadmin", "admin")), named(AUTH)
    yield "no AP-REQ", Request(ap=b""), named(MALFORMED)
    yield "KRB-PRIV in place of the AP-REQ", Request(ap=Request().krb_priv()), named(MALFORMED)
    yield "request of version 2", Request(version=2), named(VERSION)
    yield "octet behind the message", Request(behind_frame=b"\0"), named(MALFORMED)
    yield "administrator sets too short a password", Request(client=("root", "admin"), target=("other",), target_realm=REALM, password=b"short"), \
        named(SOFT)


def main():
    check_against_the_standards()
    with open("password_changes.txt", "w", encoding="ascii") as it:
        it.write(HEAD)
        it.write(f"keytab | {keytab([record((KVNO, SUITE, KEY), REALM.encode(), tuple(map(str.encode, SERVICE)))])}\n")
        for label, request, outcome in rows():
            assert request.judged() == outcome, (label, request.judged(), outcome)
            it.write(f"{label} | {request.micros} | {request.message().hex()} | {outcome}\n")


if __name__ == "__main__":
    main()
