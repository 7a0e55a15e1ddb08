#!/usr/bin/env python3
"""Writes auth_packs.txt: AuthPacks with fields that later documents add, and what a KDC judges of them.

What is read is computed here by RFC 4556, section 3.2.1, RFC 8636, section 6, RFC 8070, section 4, and X.690 alone.

usage: auth_packs.py > auth_packs.txt
"""
import datetime


class Bad(Exception):
    pass


def tlv(tag, *parts):
    content = b"".join(parts)
    n = len(content)
    if n < 128:
        return bytes([tag, n]) + content
    digits = n.to_bytes((n.bit_length() + 7) // 8, "big")
    return bytes([tag, 128 + len(digits)]) + digits + content


def integer(n):
    return tlv(2, n.to_bytes(n.bit_length() // 8 + 1, "big", signed=True))


def oid(digits):
    return tlv(6, bytes.fromhex(digits))


def explicit(n, *inner):
    return tlv(0xA0 + n, *inner)


def one(octets, at=0):
    """The element at a place: its tag, its content, and where it ends."""
    if at + 2 > len(octets) or octets[at] & 31 == 31:
        raise Bad
    size, start = octets[at + 1], at + 2
    if size & 128:
        digits = octets[start : start + (size & 127)]
        if not digits or len(digits) < size & 127 or digits[0] == 0:
            raise Bad
        size, start = int.from_bytes(digits, "big"), start + len(digits)
        if size < 128:
            raise Bad
    if start + size > len(octets):
        raise Bad
    return octets[at], octets[start : start + size], start + size


def whole(octets, tag):
    first, content, end = one(octets)
    if first != tag or end != len(octets):
        raise Bad
    return content


def elements(content):
    found, at = [], 0
    while at < len(content):
        tag, inner, at = one(content, at)
        found.append((tag, inner))
    return found


def number(octets):
    content = whole(octets, 2)
    if not content or len(content) > 1 and (content[0] == 0 and content[1] < 128 or content[0] == 255 and content[1] > 127):
        raise Bad
    return content


def fields(octets):
    """The fields [0] to [4], each once and in their order. Behind them the numbers of context-specific elements from [5] to [30]."""
    found, further = {}, []
    for tag, inner in elements(whole(octets, 0x30)):
        if tag & 0xC0 != 0x80:
            raise Bad
        if tag & 31 >= 5:
            further.append(tag & 31)
        elif further or found and tag <= max(found) or tag & 0x20 == 0:
            raise Bad
        else:
            found[tag] = inner
    return {tag & 31: inner for tag, inner in found.items()}, further


def is_ascending(numbers):
    return all(one < other for one, other in zip(numbers, numbers[1:]))


def microseconds(authenticator):
    """Since the beginning of the year 0, which has 366 days. None where cusec is no part of a second."""
    second = datetime.datetime.strptime(whole(authenticator[1], 0x18).decode(), "%Y%m%d%H%M%SZ")
    cusec = int.from_bytes(number(authenticator[0]), "big", signed=True)
    days = (second.date() - datetime.date(1, 1, 1)).days + 366
    return "none" if not 0 <= cusec < 1_000_000 else str((days * 86_400 + second.hour * 3600 + second.minute * 60 + second.second) * 1_000_000 + cusec)


def function(octets):
    """The key derivation function that an element names: 1 to 3, or 0 for another."""
    inner = elements(whole(octets, 0x30))
    if not inner or inner[0][0] != 0xA0:
        raise Bad
    content = whole(inner[0][1], 6)
    return {bytes([0x2B, 6, 1, 5, 2, 3, 6, n]): n for n in (1, 2, 3)}.get(content, 0)


def judged(octets):
    pack, further = fields(octets)
    authenticator, behind = fields(pack[0])
    value = pack.get(1, b"")
    if 1 in pack:
        one(value)
        if one(value)[2] != len(value):
            raise Bad
    elements(whole(pack.get(2, tlv(0x30)), 0x30))
    whole(pack.get(3, tlv(4)), 4)
    listed = [function(tlv(*it)) for it in elements(whole(pack.get(4, tlv(0x30)), 0x30))]
    whole(authenticator.get(4, tlv(4)), 4)
    checksum, nonce, time = whole(authenticator.get(3, tlv(4)), 4), number(authenticator[2]), microseconds(authenticator)
    if not is_ascending(further) or not is_ascending(behind):
        return "unordered | -"
    columns = (value, checksum, nonce)
    return f"{next((it for it in listed if it), 0)} {time} | " + " ".join(it.hex() or "-" for it in columns)


NULL = tlv(5)
VALUE = tlv(0x30, tlv(0x30, oid("2a8648ce3e0201")), tlv(3, b"\0", integer(12345)))


def authenticator(*more, checksum=bytes(range(20)), time="20261201120000Z", cusec=500, nonce=77):
    parts = [explicit(0, integer(cusec)), explicit(1, tlv(0x18, time.encode())), explicit(2, integer(nonce))]
    return tlv(0x30, *parts, *([explicit(3, tlv(4, checksum))] if checksum else []), *more)


def pack(*more, by=None, value=VALUE):
    return tlv(0x30, explicit(0, by or authenticator()), *([explicit(1, value)] if value else []), *more)


def kdfs(*numbers, more=b""):
    return explicit(4, tlv(0x30, *(tlv(0x30, explicit(0, tlv(6, bytes([0x2B, 6, 1, 5, 2, 3, 6, n]))), more) for n in numbers)))


def row(label, octets):
    try:
        wanted = judged(octets)
    except (Bad, KeyError, ValueError):
        wanted = "refused | -"
    assert wanted.startswith("refused") == label.startswith("refused"), label
    assert wanted.startswith("unordered") == label.startswith("unordered"), label
    print(f"{label} | {octets.hex() or '-'} | {wanted}")


print("# AuthPacks (auth_packs.py): LABEL | AUTHPACK | WANTED. WANTED: `refused`, `unordered`, or `KDF MICROSECONDS | VALUE PACHECKSUM NONCE`.")
print("# KDF: the last arc of the function that is chosen, 0 for none. MICROSECONDS: since 0000-01-01.")
print("# RFC 4556.")
row("plain", pack())
row("client nonce", pack(explicit(3, tlv(4, bytes(32)))))
row("without a public value", pack(value=None))
row("without paChecksum", pack(by=authenticator(checksum=b"")))
row("cusec 1000000", pack(by=authenticator(cusec=1_000_000)))
row("cusec below 0", pack(by=authenticator(cusec=-1)))
print("# What stock clients send beyond it.")
row("CMS types of MIT", pack(explicit(2, tlv(0x30, tlv(0x30, oid("2a864886f70d0307"))))))
row("CMS types of Heimdal", pack(explicit(2, tlv(0x30, NULL, tlv(0x30, oid("2a8570"), NULL)))))
row("KDFs 2, 1, 3", pack(kdfs(2, 1, 3)))
row("KDFs 3, 2", pack(kdfs(3, 2)))
row("KDF 1 alone", pack(kdfs(1)))
row("KDFs 4 then 2", pack(kdfs(4, 2)))
row("KDF 4 alone", pack(kdfs(4)))
row("no KDF listed", pack(kdfs()))
row("KDF with a further field", pack(kdfs(2, more=explicit(1, NULL))))
row("field [6]", pack(explicit(6, NULL)))
row("fields [5], [7] and [30]", pack(explicit(5, NULL), tlv(0x87, b"any"), explicit(30, integer(7))))
row("fields behind KDFs", pack(kdfs(2), tlv(0x85), explicit(9)))
row("freshness token", pack(by=authenticator(explicit(4, tlv(4, b"token")))))
row("paChecksum2", pack(by=authenticator(explicit(5, tlv(0x30, explicit(0, tlv(4, bytes(32))))))))
row("paChecksum2 behind a token", pack(by=authenticator(explicit(4, tlv(4, b"token")), explicit(5, NULL))))
print("# A tag's number once, ascending.")
row("unordered: field [6] twice", pack(explicit(6, NULL), explicit(6, NULL)))
row("unordered: fields [7], [6]", pack(explicit(7, NULL), explicit(6, NULL)))
row("unordered: fields [6] of two forms", pack(tlv(0x86), explicit(6, NULL)))
row("unordered: PKAuthenticator, field [6] twice", pack(by=authenticator(explicit(6, NULL), explicit(6, NULL))))
print("# One spelling: DER, no known field twice or behind its place.")
row("refused: field [2] behind [4]", pack(kdfs(2), explicit(2, tlv(0x30))))
row("refused: field [2] behind [5]", pack(explicit(5, NULL), explicit(2, tlv(0x30))))
row("refused: KDFs twice", pack(kdfs(2), kdfs(2)))
row("refused: KDFs no list", pack(explicit(4, NULL)))
row("refused: KDF without identifier", pack(explicit(4, tlv(0x30, tlv(0x30)))))
row("refused: field [4] of primitive form", pack(tlv(0x84)))
row("refused: universal element behind", pack(NULL))
row("refused: element of an application behind", pack(tlv(0x66, NULL)))
row("refused: private element behind", pack(tlv(0xE6, NULL)))
row("refused: tag of several octets behind", pack(b"\xBF\x1F\x02\x05\x00"))
row("refused: long length in a further field", pack(b"\xA6\x81\x02\x05\x00"))
row("refused: CMS types no list", pack(explicit(2, NULL)))
row("refused: two elements in clientPublicValue", pack(value=VALUE + NULL))
row("refused: 00 behind", pack() + b"\0")
row("refused: cut", pack()[:-1])
row("refused: AuthPack empty", tlv(0x30))
row("refused: no octets", b"")
row("refused: without nonce", pack(by=tlv(0x30, explicit(0, integer(1)), explicit(1, tlv(0x18, b"20261201120000Z")))))
