#!/usr/bin/env python3
"""Writes general_form.txt: signed data as stock clients, a KDC and openssl write it, and forms of it, with what is read of each.

What is read is computed here by RFC 5652, section 5, RFC 5280, X.690 and hashlib alone. The signatures of forms are any octets.

usage: general_form.py STOCK_CLIENTS > general_form.txt    new keys each time; needs openssl 3. STOCK_CLIENTS is stock_clients.txt.
"""
import hashlib, os, subprocess, sys, tempfile

DIGESTS = {"2b0e03021a": "SHA-1", "608648016503040201": "SHA-256", "608648016503040202": "SHA-384", "608648016503040203": "SHA-512"}
SHA224 = "608648016503040204"
SIGNED_DATA, CONTENT_TYPE, MESSAGE_DIGEST, KEY_ID = "2a864886f70d010702", "2a864886f70d010903", "2a864886f70d010904", "551d0e"
AUTH_DATA, DH_KEY_DATA = "2b060105020301", "2b060105020302"
NULL = b"\x05\0"


class Bad(Exception):
    pass


def tlv(tag, *parts):
    content = b"".join(parts)
    n = len(content)
    if n < 128:
        return bytes([tag, n]) + content
    digits = n.to_bytes((n.bit_length() + 7) // 8, "big")
    return bytes([tag, 128 + len(digits)]) + digits + content


def integer(n):
    return tlv(2, n.to_bytes(n.bit_length() // 8 + 1, "big", signed=True))


def oid(digits):
    return tlv(6, bytes.fromhex(digits))


def one(octets, at=0):
    """The element at a place: its tag, its content, its whole, and where it ends."""
    if at + 2 > len(octets) or octets[at] & 31 == 31:
        raise Bad
    size, start = octets[at + 1], at + 2
    if size & 128:
        digits = octets[start : start + (size & 127)]
        if not digits or len(digits) < size & 127 or digits[0] == 0:
            raise Bad
        size, start = int.from_bytes(digits, "big"), start + len(digits)
        if size < 128:
            raise Bad
    if start + size > len(octets):
        raise Bad
    return octets[at], octets[start : start + size], octets[at : start + size], start + size


def whole(octets, tag):
    first, content, _, end = one(octets)
    if first != tag or end != len(octets):
        raise Bad
    return content


def elements(content):
    found, at = [], 0
    while at < len(content):
        *element, at = one(content, at)
        found.append(element)
    return found


def tagged(content, *tags):
    found = elements(content)
    if [it[0] for it in found] != [*tags]:
        raise Bad
    return found


def digest_named(octets):
    """The digest algorithm that an identifier names with no parameters or NULL."""
    parts = elements(octets)
    if not parts or parts[0][0] != 6:
        raise Bad
    return DIGESTS.get(parts[0][1].hex()) if [it[2] for it in parts[1:]] in ([], [NULL]) else None


def sole(attributes, kind):
    """The one value of the one attribute of this type."""
    found = []
    for tag, body, _ in elements(attributes):
        if tag != 0x30:
            raise Bad
        name, values = tagged(body, 6, 0x31)
        values = elements(values[1])
        found += [values] if name[1].hex() == kind else []
    if len(found) != 1 or len(found[0]) != 1:
        raise Bad
    return found[0][0]


def parts_of(certificate):
    """The issuer, the serial number and the key identifier, if there is one. The first version has no field for it."""
    fields = elements(elements(whole(certificate, 0x30))[0][1])
    fields = fields[1:] if fields[0][0] == 0xA0 else fields
    extensions = [elements(it[1]) for field in fields if field[0] == 0xA3 for it in elements(whole(field[1], 0x30))]
    return fields[2][2], fields[0][2], next((whole(it[-1][1], 4) for it in extensions if it[0][1].hex() == KEY_ID), None)


def names(sid, certificate):
    """Whether the signer names the certificate. What isn't one has no names."""
    try:
        issuer, serial, key_id = parts_of(certificate)
    except (Bad, IndexError):
        return False
    return sid[2] == tlv(0x30, issuer, serial) or key_id is not None and sid[2] in (tlv(0x80, key_id), tlv(0xA0, tlv(4, key_id)))


def told(octets):
    """What is read of signed data."""
    outer, inner = tagged(whole(octets, 0x30), 6, 0xA0)
    version, listed, encapsulated, certificates, signers = tagged(whole(inner[1], 0x30), 2, 0x31, 0x30, 0xA0, 0x31)
    kind, content = tagged(encapsulated[1], 6, 0xA0)
    elements(listed[1])
    signer = elements(whole(signers[1], 0x30))
    if [signer[n][0] for n in range(len(signer)) if n not in (1, 4)] != [2, 0x30, 0xA0, 4]:
        raise Bad
    own, sid, algorithm, attributes, signing, signature = signer
    named = digest_named(algorithm[1])
    versions = (b"\x01",) if sid[0] == 0x30 else (b"\x01", b"\x03")
    of_type, of_digest = sole(attributes[1], CONTENT_TYPE), sole(attributes[1], MESSAGE_DIGEST)
    if outer[1].hex() != SIGNED_DATA or version[1] != b"\x03" or own[1] not in versions or named is None:
        raise Bad
    if of_type[:2] != [6, kind[1]] or of_digest[0] != 4:
        raise Bad
    content = whole(content[1], 4)
    right = hashlib.new(named.replace("-", "").lower(), content).digest() == of_digest[1]
    place = next((n for n, it in enumerate(elements(certificates[1])) if names(sid, it[2])), "none")
    columns = (kind[1], content, of_digest[1], b"\x31" + attributes[2][1:], signing[2], signature[1], sid[2])
    return f"{named if right else 'differs'} {place} | " + " ".join(it.hex() or "-" for it in columns)


def row(label, octets):
    try:
        wanted = told(octets)
    except (Bad, IndexError):
        wanted = "refused | -"
    assert wanted.startswith("refused") == label.startswith("refused"), (label, wanted)
    print(f"{label} | {octets.hex() or '-'} | {wanted}")


def attribute(kind, *values):
    return tlv(0x30, oid(kind), tlv(0x31, *values))


def of_type(kind=AUTH_DATA):
    return attribute(CONTENT_TYPE, oid(kind))


def of_digest(*values):
    return attribute(MESSAGE_DIGEST, *(values or [tlv(4, hashlib.sha256(CONTENT).digest())]))


def signing_time():
    return attribute("2a864886f70d010905", tlv(0x17, b"261201120000Z"))


CONTENT = b"what is signed"


def form(certificates, sid, version=1, name="SHA-256", null=NULL, kind=AUTH_DATA, **other):
    """Signed data of a form, with any octets as the signature."""
    number = {it: digits for digits, it in DIGESTS.items()}.get(name, SHA224)
    algorithm = tlv(0x30, oid(number), null)
    digest = hashlib.new(name.replace("-", "").lower(), CONTENT).digest()
    attributes = other.get("attributes", [of_type(kind), of_digest(tlv(4, digest))])
    signing = other.get("signing", tlv(0x30, oid("2a864886f70d01010b"), NULL))
    signer = tlv(0x30, integer(version), sid, algorithm, tlv(0xA0, *attributes), signing, tlv(4, b"any signature"), *other.get("unsigned", []))
    data = tlv(
        0x30, integer(other.get("data_version", 3)), tlv(0x31, *other.get("algorithms", [algorithm])),
        tlv(0x30, oid(kind), tlv(0xA0, tlv(4, CONTENT))), tlv(0xA0, *certificates), *other.get("crls", []), tlv(0x31, *[signer] * other.get("signers", 1)),
    )
    return tlv(0x30, oid(other.get("outer", SIGNED_DATA)), tlv(0xA0, data))


def openssl(folder, *words):
    return subprocess.run(["openssl", *words], cwd=folder, capture_output=True, check=True).stdout


def written_by_openssl(folder):
    openssl(folder, "req", "-x509", "-newkey", "rsa:2048", "-nodes", "-keyout", "own", "-out", "own.pem", "-subj", "/CN=signer", "-days", "3650")
    openssl(folder, "req", "-x509", "-newkey", "rsa:2048", "-nodes", "-keyout", "other", "-out", "other.pem", "-subj", "/CN=other", "-days", "3650")
    with open(f"{folder}/content", "wb") as it:
        it.write(CONTENT)
    sign = ["cms", "-sign", "-binary", "-nodetach", "-in", "content", "-signer", "own.pem", "-inkey", "own", "-outform", "DER", "-econtent_type", "1.3.6.1.5.2.3.1"]
    for name in ("SHA-1", "SHA-256", "SHA-384", "SHA-512"):
        row(f"openssl by key identifier, {name}", openssl(folder, *sign, "-keyid", "-md", name.replace("-", "").lower()))
    row("openssl by serial number, two certificates", openssl(folder, *sign, "-certfile", "other.pem"))
    row("openssl with RSA-PSS", openssl(folder, *sign, "-keyopt", "rsa_padding_mode:pss"))
    row("refused: openssl without signed attributes", openssl(folder, *sign, "-noattr"))
    row("refused: openssl without certificates", openssl(folder, *sign, "-nocerts"))


def stock(path):
    """The signed data of stock clients by their labels."""
    return {line.split("\t")[0]: bytes.fromhex(line.split("\t")[1]) for line in open(path) if line[0] != "#"}


def certificate_in(octets):
    data = elements(whole(elements(whole(octets, 0x30))[1][1], 0x30))
    return next(it for it in data if it[0] == 0xA0)[1]


def without_null(certificate):
    """The certificate with its signature algorithms spelled without NULL."""
    held, algorithm, signature = (it[2] for it in elements(whole(certificate, 0x30)))
    plain = tlv(0x30, elements(whole(algorithm, 0x30))[0][2])
    fields = [it[2] for it in elements(whole(held, 0x30))]
    return tlv(0x30, tlv(0x30, *fields[:2], plain, *fields[3:]), plain, signature)


def signers(own, other, plain):
    issuer, serial, key_id = parts_of(own)
    by_serial, under, explicitly = tlv(0x30, issuer, serial), tlv(0x80, key_id), tlv(0xA0, tlv(4, key_id))
    print("# Identifiers of signers.")
    row("by serial number", form([own], by_serial))
    row("key identifier", form([own], under, 3))
    row("key identifier, version 1", form([own], under))
    row("key identifier of Heimdal", form([own], explicitly))
    row("key identifier explicit, version 3", form([own], explicitly, 3))
    row("refused: version 2 by key identifier", form([own], under, 2))
    row("refused: version 3 by serial", form([own], by_serial, 3))
    row("other key identifier", form([own], tlv(0x80, bytes(20)), 3))
    row("other key identifier of Heimdal", form([own], tlv(0xA0, tlv(4, bytes(20)))))
    row("key identifier in a constructed OCTET STRING", form([own], tlv(0xA0, tlv(0x24, key_id))))
    row("key identifier under [1]", form([own], tlv(0x81, key_id)))
    row("key identifier of a certificate without", form([plain], under, 3))
    row("other serial", form([own], tlv(0x30, issuer, tlv(2, b"\x01"))))
    row("other issuer", form([own], tlv(0x30, parts_of(other)[0], serial)))
    row("serial number before issuer", form([own], tlv(0x30, serial, issuer)))
    print("# Certificates.")
    row("signer's certificate second", form([other, own], by_serial))
    row("another certificate second", form([own, other], by_serial))
    row("one certificate twice", form([own, own], by_serial))
    row("attribute certificate first", form([tlv(0xA2, b"any"), own], by_serial))
    row("certificate with a deviation", form([without_null(own)], by_serial))
    row("no certificate", form([], by_serial))
    row("another certificate alone", form([other], by_serial))


def forms(own):
    issuer, serial, _ = parts_of(own)
    sid = tlv(0x30, issuer, serial)
    print("# Digests.")
    for name in ("SHA-1", "SHA-256", "SHA-384", "SHA-512"):
        row(f"digest {name}", form([own], sid, name=name))
        row(f"digest {name} without NULL", form([own], sid, name=name, null=b""))
    row("refused: digest SHA-224", form([own], sid, name="SHA-224"))
    row("refused: digest parameters octets", form([own], sid, null=tlv(4)))
    row("refused: digest parameters NULL twice", form([own], sid, null=NULL + NULL))
    row("refused: digest parameters NULL with an octet", form([own], sid, null=b"\x05\x01\x00"))
    row("digest of other content", form([own], sid, attributes=[of_type(), of_digest(tlv(4, bytes(32)))]))
    row("digest of another length", form([own], sid, attributes=[of_type(), of_digest(tlv(4))]))
    print("# Signed attributes.")
    row("signing time first", form([own], sid, attributes=[signing_time(), of_type(), of_digest()]))
    row("digest first", form([own], sid, attributes=[of_digest(), of_type()]))
    row("signing time twice", form([own], sid, attributes=[of_type(), signing_time(), of_digest(), signing_time()]))
    row("attribute without value", form([own], sid, attributes=[of_type(), of_digest(), attribute("2a8570")]))
    row("refused: no digest", form([own], sid, attributes=[of_type()]))
    row("refused: no content type", form([own], sid, attributes=[of_digest()]))
    row("refused: no attributes", form([own], sid, attributes=[]))
    row("refused: content type twice", form([own], sid, attributes=[of_type(), of_type(), of_digest()]))
    row("refused: digest twice", form([own], sid, attributes=[of_type(), of_digest(), of_digest()]))
    row("refused: digest of two values", form([own], sid, attributes=[of_type(), of_digest(tlv(4, bytes(32)), tlv(4))]))
    row("refused: digest without value", form([own], sid, attributes=[of_type(), attribute(MESSAGE_DIGEST)]))
    row("refused: digest no OCTET STRING", form([own], sid, attributes=[of_type(), of_digest(tlv(12, bytes(32)))]))
    row("refused: content type of replies", form([own], sid, attributes=[of_type(DH_KEY_DATA), of_digest()]))
    row("refused: content type no identifier", form([own], sid, attributes=[attribute(CONTENT_TYPE, tlv(4, bytes.fromhex(AUTH_DATA))), of_digest()]))
    print("# The form.")
    row("no digest algorithms", form([own], sid, algorithms=[]))
    row("digest algorithm SHA-1 in the list", form([own], sid, algorithms=[tlv(0x30, oid("2b0e03021a")), NULL]))
    row("signature algorithm NULL", form([own], sid, signing=NULL))
    row("refused: outer type data", form([own], sid, outer="2a864886f70d010701"))
    row("refused: version 1 of SignedData", form([own], sid, data_version=1))
    row("refused: crls", form([own], sid, crls=[tlv(0xA1)]))
    row("refused: unsigned attributes", form([own], sid, unsigned=[tlv(0xA1, signing_time())]))
    row("refused: two signers", form([own], sid, signers=2))
    row("refused: no signer", form([own], sid, signers=0))
    row("refused: 00 behind", form([own], sid) + b"\0")
    row("refused: cut", form([own], sid)[:-1])
    row("refused: no octets", b"")


if __name__ == "__main__":
    sent = stock(sys.argv[1])
    print("# Signed data (general_form.py): LABEL | SIGNEDDATA | WANTED. WANTED: `refused`, or")
    print("# `DIGEST PLACE | TYPE CONTENT DIGEST COVERED SIGNING SIGNATURE SID`: `differs` for a digest of another content, and the place of the first")
    print("# certificate that the signer names.")
    print("# As stock clients, a KDC and openssl wrote it (stock_clients.txt).")
    for label, octets in sent.items():
        row("refused: " + label if label == "heimdal_ec" else label, octets)
    print("# By openssl.")
    with tempfile.TemporaryDirectory() as folder:
        written_by_openssl(folder)
    own, other, plain = (certificate_in(sent[label]) for label in ("heimdal_rsa", "mit_multi", "mit_noext"))
    signers(own, other, plain)
    forms(own)
