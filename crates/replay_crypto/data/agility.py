#!/usr/bin/env python3
"""Writes agility.txt: keys of shared secrets by the key derivation functions of RFC 8636, by its section 6 and hashlib alone.

usage: python3 agility.py > agility.txt
"""
import hashlib

HASH = {1: "sha1", 2: "sha256", 3: "sha512"}
SEED = {16: 21, 17: 16, 18: 32, 19: 16, 20: 32}


def element(tag, content):
    n = len(content)
    if n < 128:
        return bytes([tag, n]) + content
    length = n.to_bytes((n.bit_length() + 7) // 8, "big")
    return bytes([tag, 0x80 | len(length)]) + length + content


def integer(n):
    return element(2, n.to_bytes(n.bit_length() // 8 + 1, "big", signed=True))


def party(realm, kind, *components):
    text = lambda s: element(0x1B, s.encode())
    name = element(0xA0, integer(kind)) + element(0xA1, element(0x30, b"".join(map(text, components))))
    return element(0x30, element(0xA0, text(realm)) + element(0xA1, element(0x30, name)))


def other_info(function, suite, client, service, as_req, rep):
    oid = element(6, bytes([0x2B, 6, 1, 5, 2, 3, 6, function]))
    seen = element(0xA0, integer(suite)) + element(0xA1, element(4, as_req)) + element(0xA2, element(4, rep))
    return element(
        0x30,
        element(0x30, oid)
        + element(0xA0, element(4, client))
        + element(0xA1, element(4, service))
        + element(0xA2, element(4, element(0x30, seen))),
    )


def octets(function, size, x):
    made, counter = b"", 1
    while len(made) < size:
        made += hashlib.new(HASH[function], counter.to_bytes(4, "big") + x).digest()
        counter += 1
    return made[:size]


def odd(octet):
    return octet & 0xFE | (bin(octet & 0xFE).count("1") + 1) % 2


def key_of(suite, seed):
    if suite != 16:
        return seed
    key = b""
    for at in range(0, 21, 7):
        part = seed[at : at + 7]
        last = sum((octet & 1) << (place + 1) for place, octet in enumerate(part))
        key += bytes(odd(octet) for octet in part) + bytes([odd(last)])
    return key


def row(suite, function, secret, client, service, as_req, rep):
    key = b""
    if function in HASH:
        x = secret + other_info(function, suite, client, service, as_req, rep)
        key = key_of(suite, octets(function, SEED[suite], x))
    columns = [secret, client, service, as_req, rep, key]
    print(f"kdf {suite} {function} | " + " ".join(column.hex() or "-" for column in columns))
    return key.hex()


print("# Keys of shared secrets by RFC 8636 (agility.py): kdf SUITE FUNCTION | SECRET CLIENT SERVICE AS_REQ PA_PK_AS_REP KEY")
print("# FUNCTION is the last arc of its identifier. Client and service are each a KRB5PrincipalName. No key where the function isn't known.")
print("# RFC 8636, section 8: SHA-1, SHA-256 and SHA-512.")
lha, tgs = party("SU.SE", 1, "lha"), party("SU.SE", 1, "krbtgt", "SU.SE")
common = (bytes(256), lha, tgs, b"\xaa" * 10, b"\xbb" * 9)
assert row(18, 1, *common) == "e6ab38c9413e035bb079201ed0b6b73d8d49a814a737c04ee6649614206f73ad"
assert row(18, 2, *common) == "77ef4e48c420ae3fec75109d7981697eed5d295c90c62564f7bfd101fa9bc1d5"
assert row(16, 3, *common) == "d3c78a79d65213efe9a826f75dfb01f72362fb16fb01dad6"
print("# Each suite with each function: another secret and other names, messages past 127 and 255 octets.")
secret = bytes(i * 7 % 256 for i in range(256))
alice, krbtgt = party("EXAMPLE.COM", 1, "alice"), party("EXAMPLE.COM", 2, "krbtgt", "EXAMPLE.COM")
request, reply = bytes(i % 256 for i in range(700)), bytes(255 - i % 256 for i in range(300))
for suite in SEED:
    for function in HASH:
        row(suite, function, secret, alice, krbtgt, request, reply)
print("# The name types are part of it (RFC 8636, section 6), and so are a name's components.")
row(18, 2, secret, party("EXAMPLE.COM", 10, "alice"), krbtgt, request, reply)
row(18, 2, secret, alice, party("EXAMPLE.COM", 1, "krbtgt", "EXAMPLE.COM"), request, reply)
row(18, 2, secret, party("EXAMPLE.COM", 1, "alice", "admin"), krbtgt, request, reply)
print("# So is each octet of request and reply, and a secret of another length.")
row(18, 2, secret, alice, krbtgt, request[:-1] + b"\0", reply)
row(18, 2, secret, alice, krbtgt, request, reply[:-1])
row(18, 2, secret[:128], alice, krbtgt, b"", b"")
print("# SHA-384 isn't known here, nor an arc that RFC 8636 doesn't have.")
row(18, 4, secret, alice, krbtgt, request, reply)
row(18, 5, secret, alice, krbtgt, request, reply)
print("# A PA-PK-AS-REP that names the function (RFC 8636, section 6): reply 0 FUNCTION | SIGNED_DATA PA_PK_AS_REP")
for signed, function in ((b"signed", 1), (b"signed", 2), (b"signed", 3), (reply, 2)):
    named = element(0x30, element(0xA0, element(6, bytes([0x2B, 6, 1, 5, 2, 3, 6, function]))))
    made = element(0xA0, element(0x30, element(0x80, signed) + element(0xA2, named)))
    print(f"reply 0 {function} | {signed.hex()} {made.hex()}")
