#!/usr/bin/env python3
"""Writes the rows of verified_pac.txt: PACs in authorization data, and what a service learns of them or why it refuses them. A signer and a
verifier of their own make them by MS-PAC, RFC 3962 and RFC 8009, with the standard library alone."""
import hashlib
import hmac
import random
import struct
from calendar import timegm
from time import strptime

from pac import Refused, all_sid, attributes_text, changed, logon_octets, sid_octets, some_logon, units_text, upn_octets, upn_text

LOGON, SERVER, KDC, CLIENT, UPN, TICKET, ATTRIBUTES, REQUESTOR, FULL = 1, 6, 7, 10, 12, 16, 17, 18, 19


# ---- Checksums --------------------------------------------------------------------------------------------------------------

def times_x(octet):
    return (octet << 1 ^ (0x11B if octet & 0x80 else 0)) & 0xFF


def product(a, b):
    total = 0
    while b:
        total, a, b = total ^ (a if b & 1 else 0), times_x(a), b >> 1
    return total


def substituted(octet):
    inverse = next((other for other in range(256) if product(octet, other) == 1), 0)
    return sum(((inverse >> bit ^ inverse >> (bit + 4) % 8 ^ inverse >> (bit + 5) % 8 ^ inverse >> (bit + 6) % 8 ^ inverse >> (bit + 7) % 8
                 ^ 0x63 >> bit) & 1) << bit for bit in range(8))


SUBSTITUTED = bytes(map(substituted, range(256)))


def round_keys(key):
    size = len(key) // 4
    words, constant = [key[at:at + 4] for at in range(0, len(key), 4)], 1
    for at in range(size, 4 * (size + 7)):
        word = words[-1]
        if at % size == 0:
            word = bytes(SUBSTITUTED[octet] for octet in word[1:] + word[:1])
            word, constant = bytes([word[0] ^ constant]) + word[1:], times_x(constant)
        elif size > 6 and at % size == 4:
            word = bytes(SUBSTITUTED[octet] for octet in word)
        words.append(bytes(a ^ b for a, b in zip(words[at - size], word)))
    return [b"".join(words[at:at + 4]) for at in range(0, len(words), 4)]


def aes(key, block):
    """FIPS 197, section 5.1."""
    first, *middle, last = round_keys(key)
    added = lambda state, round_key: bytes(a ^ b for a, b in zip(state, round_key))
    shifted = lambda state: bytes(SUBSTITUTED[state[(at + 4 * (at % 4)) % 16]] for at in range(16))
    state = added(block, first)
    for round_key in middle:
        state = shifted(state)
        state = bytes(
            times_x(state[at]) ^ product(3, state[4 * (at // 4) + (at + 1) % 4]) ^ state[4 * (at // 4) + (at + 2) % 4]
            ^ state[4 * (at // 4) + (at + 3) % 4] for at in range(16))
        state = added(state, round_key)
    return added(shifted(state), last)


def folded(octets, size):
    """RFC 3961, section 5.1: copies, each rotated by 13 bits more, added with the carry round the end."""
    bits = "".join(f"{octet:08b}" for octet in octets)
    whole = ""
    while not whole or len(whole) % (8 * size):
        turn = 13 * (len(whole) // len(bits)) % len(bits)
        whole += bits[-turn:] + bits[:-turn] if turn else bits
    total = sum(int(whole[at:at + 8 * size], 2) for at in range(0, len(whole), 8 * size))
    while total >> 8 * size:
        total = (total >> 8 * size) + (total & (1 << 8 * size) - 1)
    return total.to_bytes(size, "big")


def checksum(etype, key, octets, usage=17):
    label = usage.to_bytes(4, "big") + b"\x99"
    if etype in (17, 18):
        block, derived = folded(label, 16), b""
        while len(derived) < len(key):
            block = aes(key, block)
            derived += block
        return hmac.new(derived[:len(key)], octets, "sha1").digest()[:12]
    hash_name, key_size, size = {19: ("sha256", 16, 16), 20: ("sha384", 24, 24)}[etype]
    derived = hmac.new(key, b"\0\0\0\1" + label + b"\0" + (8 * key_size).to_bytes(4, "big"), hash_name).digest()[:key_size]
    return hmac.new(derived, octets, hash_name).digest()[:size]


# FIPS 197, appendix C, RFC 3961, appendix A, and RFC 8009, appendix A, have these values.
assert aes(bytes(range(16)), bytes(0x11 * n for n in range(16))).hex() == "69c4e0d86a7b0430d8cdb78070b4c55a"
assert aes(bytes(range(32)), bytes(0x11 * n for n in range(16))).hex() == "8ea2b7ca516745bfeafc49904b496089"
assert folded(b"kerberos", 16).hex() == "6b65726265726f737b9b5b2b93132b93"
assert checksum(19, bytes.fromhex("3705D96080C17728A0E800EAB6E0D23C"), bytes(range(21)), 2).hex() == "d78367186643d67b411cba9139fc1dee"
CHECKSUM_TYPE = {16: 12, 17: 15, 18: 16, 19: 19, 20: 20}


# ---- A writer ---------------------------------------------------------------------------------------------------------------

def element(tag, content):
    size = len(content)
    octets = size.to_bytes((size.bit_length() + 7) // 8 or 1, "big")
    return bytes([tag]) + (bytes([size]) if size < 128 else bytes([0x80 + len(octets)]) + octets) + content


def entry(kind, octets):
    number = kind.to_bytes(kind.bit_length() // 8 + 1, "big", signed=True)
    return element(0x30, element(0xA0, element(2, number)) + element(0xA1, element(4, octets)))


def elements(*entries):
    return element(0x30, b"".join(entries))


def relevant(*entries):
    return entry(1, elements(*entries))


def file_time(authtime):
    return 10**7 * (timegm(strptime(authtime, "%Y%m%d%H%M%SZ")) + 11644473600)


def client_octets(name, moment):
    units = name if isinstance(name, bytes) else name.encode("utf-16-le")
    return struct.pack("<QH", moment, len(units)) + units


def pac_octets(buffers):
    """The table, and each content at a multiple of 8."""
    offset, table, contents = 8 + 16 * len(buffers), b"", b""
    for kind, content in buffers:
        table += struct.pack("<IIQ", kind, len(content), offset + len(contents))
        contents += content + bytes(-len(content) % 8)
    return struct.pack("<II", len(buffers), 0) + table + contents


def place_of(pac, wanted):
    for at in range(8, 8 + 16 * struct.unpack("<I", pac[:4])[0], 16):
        kind, size, offset = struct.unpack("<IIQ", pac[at:at + 16])
        if kind == wanted:
            return offset, size
    return None


def signed(pac, etype, key, usage=17):
    """The PAC, whose signatures are zero, with a server signature."""
    offset, _ = place_of(pac, SERVER)
    return changed(pac, offset + 4, checksum(etype, key, pac, usage))


def filled(pac, octets):
    """The PAC with another KDC signature."""
    offset, size = place_of(pac, KDC)
    return changed(pac, offset + 4, octets[:size - 4])


# ---- A verifier -------------------------------------------------------------------------------------------------------------

def read_element(octets, at, tag):
    if octets[at] != tag:
        raise ValueError
    size, at = octets[at + 1], at + 2
    if size > 127:
        count = size - 128
        size, at = int.from_bytes(octets[at:at + count], "big"), at + count
        if not 0 < count < 9 or size < 128 or size >> 8 * (count - 1) == 0:
            raise ValueError
    if len(octets) < at + size:
        raise ValueError
    return octets[at:at + size], at + size


def only(octets, tag):
    content, end = read_element(octets, 0, tag)
    if end != len(octets):
        raise ValueError
    return content


def entries_of(octets):
    octets, at, found = only(octets, 0x30), 0, []
    while at < len(octets):
        inside, at = read_element(octets, at, 0x30)
        first, end = read_element(inside, 0, 0xA0)
        number, data = only(first, 2), only(only(inside[end:], 0xA1), 4)
        if not number or (len(number) > 1 and number[0] in (0, 255) and (number[0] ^ number[1]) < 128):
            raise ValueError
        found.append((int.from_bytes(number, "big", signed=True), data))
    return found


def pac_of(octets):
    pacs = []
    for kind, data in entries_of(octets):
        if kind == 1:
            try:
                pacs += [inner for number, inner in entries_of(data) if number == 128]
            except (ValueError, IndexError):
                raise Refused("AuthorizationData")
    if len(pacs) != 1:
        raise Refused("Twice" if pacs else "NoPac")
    return pacs[0]


def rows_of(pac):
    if len(pac) < 8:
        raise Refused("Short")
    count, version = struct.unpack("<II", pac[:8])
    if version:
        raise Refused("Version")
    if len(pac) < 8 + 16 * count:
        raise Refused("Short")
    return [struct.unpack("<IIQ", pac[8 + 16 * at:24 + 16 * at]) for at in range(count)]


def row_of(rows, kind, needed=True):
    found = [row for row in rows if row[0] == kind]
    if len(found) > 1:
        raise Refused("Twice")
    if needed and not found:
        raise Refused("Missing")
    return found[0] if found else None


def content_of(pac, row):
    _, size, offset = row
    if len(pac) < offset + size:
        raise Refused("Range")
    return pac[offset:offset + size]


def zeroed(pac, row):
    _, size, offset = row
    if size < 4:
        raise Refused("Short")
    content_of(pac, row)
    return changed(pac, offset + 4, bytes(size - 4))


def judge_signature(pac, etype, key):
    rows = rows_of(pac)
    server, kdc = row_of(rows, SERVER), row_of(rows, KDC)
    octets = zeroed(zeroed(pac, server), kdc)
    content = content_of(pac, server)
    kind = struct.unpack("<I", content[:4])[0]
    if etype == 16 or kind != CHECKSUM_TYPE[etype]:
        raise Refused("SignatureType")
    if content[4:] != checksum(etype, key, octets):
        raise Refused("Signature")


def judge_client(pac, name, authtime):
    content = content_of(pac, row_of(rows_of(pac), CLIENT))
    if len(content) < 10:
        raise Refused("Short")
    moment, size = struct.unpack("<QH", content[:10])
    if len(content) != 10 + size or size % 2:
        raise Refused("Lengths")
    if moment != file_time(authtime):
        raise Refused("ClientTime")
    if content[10:] != name.encode("utf-16-le"):
        raise Refused("ClientName")


def part_text(pac, kind, reader):
    try:
        row = row_of(rows_of(pac), kind, False)
        return reader(content_of(pac, row)) if row else "."
    except Refused as fault:
        return "refused " + str(fault)


def verdict(etype, key, name, authtime, octets):
    try:
        pac = pac_of(octets)
        judge_signature(pac, etype, key)
        judge_client(pac, name, authtime)
    except Refused as fault:
        return "refused " + str(fault)
    readers = ((REQUESTOR, all_sid), (ATTRIBUTES, attributes_text), (UPN, upn_text))
    return "; ".join(part_text(pac, kind, reader) for kind, reader in readers)


# ---- Rows -------------------------------------------------------------------------------------------------------------------

NAME, AUTHTIME = "alice", "20261130120000Z"
SID = (5, [21, 1, 2, 3, 1103])


def row(etype, key, octets, name=NAME, authtime=AUTHTIME):
    print(" | ".join([str(etype), key.hex(), name, authtime, octets.hex(), verdict(etype, key, name, authtime, octets)]))


def signature(etype):
    return struct.pack("<I", CHECKSUM_TYPE[etype]) + bytes({17: 12, 18: 12, 19: 16, 20: 24}[etype])


def buffers_of(etype, name=NAME, moment=None, kdc=struct.pack("<I", 16) + bytes(12)):
    """The buffers that a service needs, and two that it reads."""
    moment = file_time(AUTHTIME) if moment is None else moment
    return [
        (CLIENT, client_octets(name, moment)), (REQUESTOR, sid_octets(SID)), (ATTRIBUTES, struct.pack("<II", 2, 1)),
        (SERVER, signature(etype)), (KDC, kdc),
    ]


def carried(pac):
    return elements(relevant(entry(128, pac)))


def good_rows(dice, keys):
    for etype, key in keys.items():
        whole = [(LOGON, logon_octets(some_logon(dice))), (UPN, upn_octets("alice@example.com", "EXAMPLE.COM", 2, (NAME, SID), 0))]
        whole += buffers_of(etype) + [(kind, struct.pack("<I", 16) + dice.randbytes(12)) for kind in (TICKET, FULL)]
        dice.shuffle(whole)
        pac = filled(signed(pac_octets(whole), etype, key), dice.randbytes(12))
        row(etype, key, carried(pac))
        row(etype, dice.randbytes(len(key)), carried(pac))
        pac = pac_octets(buffers_of(etype))
        row(etype, key, carried(signed(pac, etype, key, 6)))
        for other, other_key in keys.items():
            if other != etype:
                row(other, other_key, carried(signed(pac, etype, key)))
    # HMAC-MD5 for the KDC signature, and a KDC that is read only: RODCIdentifier, behind its Signature, isn't signed.
    for kdc in (struct.pack("<I", 0xFFFFFF76) + bytes(16), struct.pack("<I", 16) + bytes(14)):
        pac = filled(signed(pac_octets(buffers_of(18, kdc=kdc)), 18, keys[18]), dice.randbytes(len(kdc) - 4))
        row(18, keys[18], carried(pac))
        offset, size = place_of(pac, KDC)
        row(18, keys[18], carried(changed(pac, offset + size - 1, bytes([pac[offset + size - 1] ^ 1]))))
    row(18, keys[18], carried(signed(pac_octets(buffers_of(18, kdc=struct.pack("<I", 16) + bytes(12) + b"\x34\x12")), 18, keys[18])))
    # A key of triple DES.
    row(16, bytes.fromhex("850bb51358548cd05e86768c313e3bfef7511937dcf72c3e"), carried(pac_octets(
        buffers_of(18)[:3] + [(SERVER, struct.pack("<I", 12) + bytes(20)), (KDC, struct.pack("<I", 12) + bytes(20))])))


def changed_rows(dice, key):
    pac = filled(signed(pac_octets(buffers_of(18)), 18, key), dice.randbytes(12))
    for place in range(0, len(pac)):
        row(18, key, carried(changed(pac, place, bytes([pac[place] ^ dice.choice([1, 0x80, 0xFF])]))))
    for size in range(0, len(pac), 8):
        row(18, key, carried(pac[:size]))
    row(18, key, carried(pac + b"\0"))
    # Counts, sizes and offsets of 2^32 - 1 and 2^64 - 1.
    for place in range(0, 88, 4):
        row(18, key, carried(changed(pac, place, b"\xff" * 4)))
    for place in range(16, 88, 16):
        row(18, key, carried(changed(pac, place, b"\xff" * 8)))


def table_rows(key):
    """Buffers that are missing, there twice, of another type, empty, or short. Each PAC is signed where it can be."""
    whole = buffers_of(18)
    for at, (kind, content) in enumerate(whole):
        tables = [whole[:at] + whole[at + 1:], whole + [whole[at]], whole[:at] + [(99, content)] + whole[at + 1:]]
        tables += [whole[:at] + [(kind, content[:size])] + whole[at + 1:] for size in (0, 3, 4, 9, len(content) - 1)]
        tables += [whole[:at] + [(kind, content + b"\0")] + whole[at + 1:]]
        for table in tables:
            pac = pac_octets(table)
            offset, size = place_of(pac, SERVER) or (0, 0)
            row(18, key, carried(signed(pac, 18, key) if size == 16 else pac))
    row(18, key, carried(signed(pac_octets(whole + [(99, b"later"), (99, b"twice")]), 18, key)))


def client_rows(key):
    now = file_time(AUTHTIME)
    for stated, name, moment in (
        ("bob", NAME, now), (NAME, "Alice", now), (NAME, NAME, now + 1), (NAME, NAME, now + 10**7), (NAME, NAME, 0), (NAME, NAME, 2**64 - 1),
        ("host/www.example.com", "host/www.example.com", now), ("host", "host/www.example.com", now), ("Ωmega", "omega", now),
        ("\u0161lice", "alice", now), (b"\x35\xd8a\0", NAME, now), (b"a\0\x35\xd8", "a", now), ("a/b", "a/b/c", now), ("/alice", NAME, now),
        ("", NAME, now), ("alice ", NAME, now),
        (b"a\0b", "a", now),
    ):
        row(18, key, carried(signed(pac_octets(buffers_of(18, stated, moment)), 18, key)), name)
    for authtime in ("20261130120001Z", "16010101000000Z", "16001231235959Z", "00000101000000Z", "99991231235959Z"):
        early = int(authtime[:4]) < 1601
        moment = 0 if early else file_time(authtime)
        if early:
            octets = carried(signed(pac_octets(buffers_of(18, NAME, moment)), 18, key))
            print(" | ".join(["18", key.hex(), NAME, authtime, octets.hex(), "refused ClientTime"]))
        else:
            row(18, key, carried(signed(pac_octets(buffers_of(18, NAME, moment)), 18, key)), NAME, authtime)


def element_rows(key):
    pac = signed(pac_octets(buffers_of(18)), 18, key)
    for octets in (
        elements(), elements(entry(128, pac)), elements(relevant()), elements(relevant(entry(1, elements(entry(128, pac))))),
        elements(entry(512, pac), relevant(entry(141, b""), entry(128, pac)), entry(-1, b"x")),
        elements(relevant(entry(142, b"x")), relevant(entry(128, pac))), elements(relevant(entry(128, pac), entry(128, pac))),
        elements(relevant(entry(128, pac)), relevant(entry(128, pac))), elements(relevant(entry(128, b""))),
        elements(entry(1, b""), relevant(entry(128, pac))), elements(relevant(entry(128, pac)), entry(1, elements() + b"\0")),
        elements(entry(1, element(0x31, entry(128, pac)))), elements(entry(1, elements(entry(128, pac))[:-1])),
        elements(entry(-127, elements(entry(128, pac))), entry(257, elements(entry(128, pac)))),
        elements(relevant(entry(-128, pac), entry(384, pac))),
    ):
        row(18, key, octets)


dice = random.Random(88)
keys = {etype: dice.randbytes(size) for etype, size in ((17, 16), (18, 32), (19, 16), (20, 32))}
if __name__ == "__main__":
    print("# PACs by verified_pac.py: the etype and the key of a service | the client and its authtime | the authorization data")
    print("# of a ticket, in hexadecimal | the requestor, the attributes, and the UPN, or 'refused' and the fault.")
    good_rows(dice, keys)
    changed_rows(dice, keys[18])
    table_rows(keys[18])
    client_rows(keys[18])
    element_rows(keys[18])
