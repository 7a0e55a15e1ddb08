#!/usr/bin/env python3
"""Writes keytab_rows.txt: calls of a service whose keys are those of a keytab, and of a later keytab, in the form of replay_cache.txt.

The requests are made by the independent writer first_tokens.py. It shares no code with the program that replays the rows. Keys and random octets are fixed, so each run writes the same file. Each answer stands here by the rules: RFC 4120,
section 3.2.3, and of a ticket without a kvno the first entry of its etype.

Run it in this folder: python3 keytab_rows.py
"""
import struct
import sys

sys.dont_write_bytecode = True
from first_tokens import application, bits, der, encrypted, integer, key_of, name, octet_string, sequence, text
from tokens import SUITES, check_against_the_standards

HEAD = """# Calls of a service h of realm R by keytab, in the form of replay_cache.txt. A line `sequence N skew S keytab K` begins a service with the keys
# of this keytab, and `keytab K | ANSWER` replaces them. The last column of a call is its label. Written by keytab_rows.py.
"""
# The keys: kvno, etype and octets.
OLD, NEW, SECOND, LATER = (1, 18, b"\1" * 32), (2, 18, b"\2" * 32), (2, 20, b"\3" * 32), (3, 18, b"\4" * 32)
ZERO = (0, 18, b"\5" * 32)
TIME = b"20000101000000Z"


def record(key, realm=b"R", components=(b"h",)):
    kvno, etype, octets = key
    return realm, components, kvno, etype, octets


def counted(it):
    return struct.pack(">H", len(it)) + it


def keytab(records):
    """A keytab of these records (MIT's file keytab format, version 0x0502)."""
    whole = b"\5\2"
    for realm, components, kvno, etype, octets in records:
        body = struct.pack(">H", len(components)) + counted(realm) + b"".join(map(counted, components))
        body += struct.pack(">IIBH", 1, 0, kvno & 255, etype) + counted(octets) + struct.pack(">I", kvno)
        whole += struct.pack(">I", len(body)) + body
    return whole.hex()


def request(key, micros, kvno=None, etype=None, realm="R", service="h", usage=11):
    """The AP-REQ of client a, with a ticket under a key, which may name another kvno (-1: none) and another etype. The usage is that of its authenticator."""
    own_kvno, suite, octets = key
    session = bytes(32)
    part = application(
        3, (0, bits(0)), (1, key_of(18, session)), (2, text("R")), (3, name("a")), (4, sequence((0, integer(1)), (1, octet_string(b"")))),
        (5, der(0x18, TIME)), (7, der(0x18, b"20000101100000Z")),
    )
    number = own_kvno if kvno is None else kvno
    sealed = SUITES[suite].encrypt(octets, 2, bytes(16), part)
    data = sequence((0, integer(etype or suite)), (1, None if number < 0 else integer(number)), (2, octet_string(sealed)))
    ticket = application(1, (0, integer(5)), (1, text(realm)), (2, name(service)), (3, data))
    own = application(2, (0, integer(5)), (1, text("R")), (2, name("a")), (4, integer(micros)), (5, der(0x18, TIME)))
    own = encrypted(18, session, usage, bytes(16), own)
    return application(14, (0, integer(5)), (1, integer(14)), (2, bits(0)), (3, ticket), (4, own))


def rows():
    others = [
        record((1, 18, b"\6" * 32), b"Q"), record((1, 18, b"\7" * 32), components=(b"g",)), record((1, 18, b"\7" * 32), components=(b"h", b"h")),
        record(ZERO), record((1, 1, b"\6" * 8)), record((1, 17, b"\6" * 32)),
    ]
    refused = "the keytab has no key of the service"
    yield "sequence 0 skew 300 keytab " + keytab(others + [record(it) for it in (OLD, NEW, SECOND)])
    admitted = "Ok R a"
    yield 0, request(OLD, 0), admitted, 1, "old key"
    yield 0, request(OLD, 0), "Krb(34)", 1, "again"
    yield 0, request(NEW, 0), "Krb(34)", 1, "again under another key"
    yield 0, request(NEW, 1), admitted, 2, "new key"
    yield 0, request(OLD, 2, kvno=-1), admitted, 3, "no kvno"
    yield 0, request(NEW, 3, kvno=-1), "Krb(31)", 3, "no kvno and not the first of its etype"
    yield 0, request(SECOND, 4, kvno=-1), admitted, 4, "no kvno and the only one of its etype"
    yield 0, request(SECOND, 5), admitted, 5, "second suite"
    yield 0, request(NEW, 6, kvno=1), "Krb(31)", 5, "kvno of another key"
    yield 0, request(LATER, 6), "Krb(44)", 5, "unknown kvno"
    yield 0, request(LATER, 6, etype=17), "Krb(44)", 5, "unknown kvno and other etype"
    yield 0, request(OLD, 6, etype=17), "Krb(45)", 5, "other etype"
    yield 0, request(OLD, 6, etype=17, kvno=-1), "Krb(45)", 5, "other etype and no kvno"
    yield 0, request(SECOND, 6, kvno=1), "Krb(45)", 5, "etype of another kvno"
    yield 0, request(NEW, 6, etype=17), "Krb(45)", 5, "other etype of the second kvno"
    yield 0, request(ZERO, 6), "Krb(44)", 5, "other records: kvno 0"
    yield 0, request(OLD, 6, realm="Q"), "Krb(35)", 5, "other realm"
    yield 0, request(OLD, 6, service="g"), "Krb(35)", 5, "other name"
    yield 0, request(OLD, 6, usage=7), "Krb(31)", 5, "authenticator for key usage 7"
    yield 0, b"", "Unreadable", 5, "no request"
    # The first key goes, and a later one comes.
    yield "keytab " + keytab([record(LATER), record(NEW)]) + " | Ok"
    yield 0, request(OLD, 0), "Krb(44)", 5, "under a key that is gone"
    yield 0, request(OLD, 2, kvno=-1), "Krb(31)", 5, "no kvno and under a key that is gone"
    yield 0, request(LATER, 0), "Krb(34)", 5, "again under a key that came"
    yield 0, request(NEW, 1), "Krb(34)", 5, "again under a key that stayed"
    yield 0, request(LATER, 6), admitted, 6, "key that came"
    # A keytab without a key of the service leaves the keys as they are.
    yield "keytab " + keytab(others) + " | " + refused
    yield "keytab " + keytab([]) + " | " + refused
    yield 0, request(LATER, 7), admitted, 7, "key that stayed"
    # The first key comes back: what was admitted under it isn't admitted again.
    yield "keytab " + keytab([record(OLD)]) + " | Ok"
    yield 0, request(OLD, 0), "Krb(34)", 7, "again under a key that was gone"
    yield 0, request(OLD, 6), "Krb(34)", 7, "what another key admitted"
    yield 0, request(OLD, 8), admitted, 8, "key that came back"
    # The window is of the pairs of all keys. Of the eight 301 seconds later none is left.
    yield 300_000_004, b"", "Unreadable", 5, "window of all keys"
    yield 301_000_000, request(OLD, 0), "Krb(37)", 0, "past the window"


def main():
    check_against_the_standards()
    greatest = 0
    with open("keytab_rows.txt", "w", encoding="ascii") as it:
        it.write(HEAD)
        for row in rows():
            if isinstance(row, str):
                it.write(row + "\n")
                continue
            moment, message, answer, kept, label = row
            greatest = max(greatest, moment)
            it.write(f"{moment} | {message.hex()} | {answer} | {kept} | {greatest} | {label}\n")


if __name__ == "__main__":
    main()
