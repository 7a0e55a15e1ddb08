#!/usr/bin/env python3
"""Writes policies.txt: requests by certificate at a realm without a policy and with one, and what the realm makes of them.

Each request is judged here by RFC 4556, RFC 5652, RFC 8636 and MS-PKCA alone: DER, digests and powers are this file's and hashlib's, RSA
and certificates are those of Python's cryptography.

usage: policies.py STOCK > policies.txt    new keys each time. STOCK has lines NAME HEX of captured AS-REQs (docs/TESTED.md).
"""
import datetime, hashlib, sys
from cryptography import x509
from cryptography.hazmat.primitives import hashes, serialization
from cryptography.hazmat.primitives.asymmetric import padding, rsa, utils
from cryptography.x509.oid import NameOID

PRIME = int(
    "FFFFFFFFFFFFFFFFC90FDAA22168C234C4C6628B80DC1CD129024E088A67CC74020BBEA63B139B22514A08798E3404DDEF9519B3CD3A431B"
    "302B0A6DF25F14374FE1356D6D51C245E485B576625E7EC6F44C42E9A637ED6B0BFF5CB6F406B7EDEE386BFB5A899FA5AE9F24117C4B1FE6"
    "49286651ECE45B3DC2007CB8A163BF0598DA48361C55D39A69163FA8FD24CF5F83655D23DCA3AD961C62F356208552BB9ED529077096966D"
    "670C354E4ABC9804F1746C08CA18217C32905E462E36CE3BE39E772C180E86039B2783A2EC07A28FB5C55DF06F4C52C9DE2BCBF695581718"
    "3995497CEA956AE515D2261898FA051015728E5A8AACAA68FFFFFFFFFFFFFFFF", 16)
WORDS = bytes(range(128))
REALM, CLIENT = "EXAMPLE.COM", "alice"
SKEW = 300_000_000
NOW = datetime.datetime(2026, 12, 1, 12, 0, 0)
NO_PADATA, FAILED, SKEWED, WEAK = 16, 24, 37, 65
BAD_SIGNATURE, UNVERIFIED, INVALID, OTHER_NAME, DIGEST = 64, 70, 71, 75, 80

DIGESTS = {"2b0e03021a": "sha1", "608648016503040201": "sha256", "608648016503040202": "sha384", "608648016503040203": "sha512"}
RSA_WITH = {"2a864886f70d010105": "sha1", "2a864886f70d01010b": "sha256", "2a864886f70d01010c": "sha384", "2a864886f70d01010d": "sha512"}
RSA_ALONE = "2a864886f70d010101"
KDF = {bytes([0x2B, 6, 1, 5, 2, 3, 6, n]): n for n in (1, 2, 3)}
SIGNED_DATA, CONTENT_TYPE, MESSAGE_DIGEST = "2a864886f70d010702", "2a864886f70d010903", "2a864886f70d010904"
AUTH_DATA, DH_KEY_DATA = "2b060105020301", "2b060105020302"


class Bad(Exception):
    pass


# ---- DER, written and read


def tlv(tag, *parts):
    content = b"".join(parts)
    n = len(content)
    if n < 128:
        return bytes([tag, n]) + content
    digits = n.to_bytes((n.bit_length() + 7) // 8, "big")
    return bytes([tag, 128 + len(digits)]) + digits + content


def integer(n):
    return tlv(2, n.to_bytes(n.bit_length() // 8 + 1, "big", signed=True))


def oid(content):
    return tlv(6, bytes.fromhex(content))


def one(octets, at=0):
    """The element at a place: its tag, its content, its whole, and what begins behind it."""
    if at + 2 > len(octets) or octets[at] & 31 == 31:
        raise Bad
    size, start = octets[at + 1], at + 2
    if size & 128:
        count = size & 127
        digits = octets[start : start + count]
        if count == 0 or len(digits) < count or digits[0] == 0:
            raise Bad
        size, start = int.from_bytes(digits, "big"), start + count
        if size < 128:
            raise Bad
    if start + size > len(octets):
        raise Bad
    return octets[at], octets[start : start + size], octets[at : start + size], start + size


def whole(octets, tag):
    first, content, _, end = one(octets)
    if first != tag or end != len(octets):
        raise Bad
    return content


def elements(content):
    found, at = [], 0
    while at < len(content):
        tag, inner, all_of_it, at = one(content, at)
        found.append((tag, inner, all_of_it))
    return found


def fields(content, known, further=False):
    """The fields of a SEQUENCE by the number of their tag, each in its order and once. `known` has the tag octet of each that is known."""
    found, last = {}, -1
    for tag, inner, _ in elements(content):
        number = tag & 31
        if tag & 0xC0 != 0x80 or number <= last:
            raise Bad
        if number in known:
            if tag != known[number]:
                raise Bad
        elif not further or number < 5:
            raise Bad
        found[number], last = inner, number
    return found


def number(octets, tag=2):
    content = whole(octets, tag)
    if not content or len(content) > 1 and (content[0] == 0 and content[1] < 128 or content[0] == 255 and content[1] > 127):
        raise Bad
    return int.from_bytes(content, "big", signed=True)


def explicit(n, inner):
    return tlv(0xA0 + n, inner)


# ---- the parts of a request


def micros(moment):
    days = (moment.date() - datetime.date(1, 1, 1)).days + 366
    return ((days * 24 + moment.hour) * 60 + moment.minute) * 60_000_000 + moment.second * 1_000_000 + moment.microsecond


def read_authenticator(octets, general):
    known = {0: 0xA0, 1: 0xA1, 2: 0xA2, 3: 0xA3}
    if general:
        known[4] = 0xA4
    got = fields(whole(octets, 0x30), known, general)
    if not {0, 1, 2} <= got.keys():
        raise Bad
    text = whole(got[1], 0x18).decode("latin1")
    second = datetime.datetime.strptime(text, "%Y%m%d%H%M%SZ")
    cusec = number(got[0])
    for n in (3, 4):
        if n in got:
            got[n] = whole(got[n], 4)
    return micros(second), cusec, number(got[2]), got


def read_pack(octets, general):
    known = {0: 0xA0, 1: 0xA1, 2: 0xA2, 3: 0xA3}
    if general:
        known[4] = 0xA4
    got = fields(whole(octets, 0x30), known, general)
    if 0 not in got:
        raise Bad
    if 1 in got and one(got[1])[3] != len(got[1]):
        raise Bad
    if 2 in got:
        types = elements(whole(got[2], 0x30))
        if not general and any(it[2] != tlv(0x30, oid("2a864886f70d01010b"), b"\x05\0") for it in types):
            raise Bad  # of the algorithms with parameters that are known there, the rows have this one
    if 3 in got:
        whole(got[3], 4)
    kdfs = []
    if 4 in got:
        for tag, inner, _ in elements(whole(got[4], 0x30)):
            first = one(inner)
            if tag != 0x30 or first[0] != 0xA0:
                raise Bad
            elements(inner)
            kdfs.append(whole(first[1], 6))
    return read_authenticator(got[0], general), got.get(1), kdfs


def digest_named(octets):
    content = whole(octets, 0x30)
    parts = elements(content)
    if not parts or parts[0][0] != 6:
        raise Bad
    plain = len(parts) == 1 or len(parts) == 2 and parts[1][2] == b"\x05\0"
    return DIGESTS.get(parts[0][1].hex()) if plain else None


def read_signed(octets, general):
    outer = elements(whole(octets, 0x30))
    if len(outer) != 2 or outer[0][2] != oid(SIGNED_DATA) or outer[1][0] != 0xA0:
        raise Bad
    data = elements(whole(outer[1][1], 0x30))
    if [it[0] for it in data] != [2, 0x31, 0x30, 0xA0, 0x31] or data[0][1] != b"\x03":
        raise Bad
    inner = elements(data[2][1])
    if [it[0] for it in inner] != [6, 0xA0]:
        raise Bad
    kind, content = inner[0][1], whole(inner[1][1], 4)
    certificates = [it[2] for it in elements(data[3][1])]
    signers = elements(data[4][1])
    if len(signers) != 1 or signers[0][0] != 0x30:
        raise Bad
    signer = elements(signers[0][1])
    if len(signer) != 6 or [signer[n][0] for n in (0, 3, 5)] != [2, 0xA0, 4]:
        raise Bad
    version, sid, algorithm, attributes, signing, signature = signer
    held, seen = {}, []
    for tag, body, _ in elements(attributes[1]):
        parts = elements(body)
        if tag != 0x30 or [it[0] for it in parts] != [6, 0x31]:
            raise Bad
        seen.append(parts[0][1].hex())
        held.setdefault(seen[-1], []).append(elements(parts[1][1]))
    of_type, of_digest = held.get(CONTENT_TYPE, []), held.get(MESSAGE_DIGEST, [])
    if len(of_type) != 1 or len(of_digest) != 1 or len(of_type[0]) != 1 or len(of_digest[0]) != 1:
        raise Bad
    if of_type[0][0][:2] != (6, kind) or of_digest[0][0][0] != 4:
        raise Bad
    named = digest_named(algorithm[2])
    if general:
        if version[1] not in (b"\x01", b"\x03") or sid[0] == 0x30 and version[1] != b"\x01":
            raise Bad
        if named is None:
            raise Bad
        elements(data[1][1])
    else:
        lists = elements(data[1][1])
        if len(lists) != 1 or digest_named(lists[0][2]) != "sha256" or named != "sha256" or version[1] != b"\x01":
            raise Bad
        if sid[0] != 0x30 or len(certificates) != 1 or seen != [CONTENT_TYPE, MESSAGE_DIGEST]:
            raise Bad
    return {
        "kind": kind.hex(), "content": content, "certificates": certificates, "sid": sid, "digest": of_digest[0][0][1], "named": named,
        "covered": b"\x31" + attributes[2][1:], "signing": signing[2], "signature": signature[1],
    }


# ---- certificates and signatures


def names(sid, certificate):
    tag, inner, _ = sid
    if tag == 0x30:
        issuer, serial = elements(inner)
        return issuer[2] == certificate.issuer.public_bytes() and number(serial[2]) == certificate.serial_number
    if tag == 0xA0:
        inner = inner[2:] if inner == tlv(4, inner[2:]) else None
    elif tag != 0x80:
        return False
    try:
        return certificate.extensions.get_extension_for_class(x509.SubjectKeyIdentifier).value.digest == inner
    except x509.ExtensionNotFound:
        return False


def verifies(key, name, text, signature):
    hashing = {"sha1": hashes.SHA1(), "sha256": hashes.SHA256(), "sha384": hashes.SHA384(), "sha512": hashes.SHA512()}[name]
    try:
        key.verify(signature, text, padding.PKCS1v15(), hashing)
        return True
    except Exception:
        return False


def signing_hash(octets, named):
    """The hash of a signature algorithm; beside rsaEncryption that of the digest algorithm (RFC 3370, section 3.2)."""
    try:
        kind = elements(whole(octets, 0x30))[0][1].hex()
    except (Bad, IndexError):
        return None
    return named if kind == RSA_ALONE else RSA_WITH.get(kind)


def accepted(certificate, anchor, now, realm, client):
    if not (certificate.not_valid_before_utc.replace(tzinfo=None) <= now.replace(microsecond=0) <= certificate.not_valid_after_utc.replace(tzinfo=None)):
        return INVALID
    if certificate.issuer.public_bytes() != anchor.subject.public_bytes():
        return UNVERIFIED
    hashing = RSA_WITH.get(certificate.signature_algorithm_oid.dotted_string and oid_hex(certificate.signature_algorithm_oid))
    if hashing in (None, "sha1") or not verifies(anchor.public_key(), hashing, certificate.tbs_certificate_bytes, certificate.signature):
        return UNVERIFIED
    try:
        listed = certificate.extensions.get_extension_for_class(x509.SubjectAlternativeName).value
    except x509.ExtensionNotFound:
        return OTHER_NAME
    for it in listed:
        if isinstance(it, x509.OtherName) and it.type_id.dotted_string == "1.3.6.1.5.2.2":
            return 0 if it.value == party(realm, 1, client) else OTHER_NAME
    return OTHER_NAME


def oid_hex(identifier):
    arcs = [int(it) for it in identifier.dotted_string.split(".")]
    content = b""
    for arc in [arcs[0] * 40 + arcs[1], *arcs[2:]]:
        digits = [arc & 127]
        while arc := arc >> 7:
            digits.insert(0, arc & 127 | 128)
        content += bytes(digits)
    return content.hex()


def party(realm, kind, *components):
    text = lambda s: tlv(0x1B, s.encode())
    name = tlv(0x30, explicit(0, integer(kind)), explicit(1, tlv(0x30, *map(text, components))))
    return tlv(0x30, explicit(0, text(realm)), explicit(1, name))


# ---- the realm


def judge(policy, anchor, own, key, now, realm, client, body, padata):
    """An error code, or the number of the KDF (0 for none) with the PA-PK-AS-REP."""
    general = policy != "none"
    try:
        request = fields(whole(padata, 0x30), {0: 0x80, 1: 0xA1, 2: 0x82})
        signed = read_signed(request[0], general)
        if signed["kind"] != AUTH_DATA:
            raise Bad
        (time, cusec, nonce, further), value, kdfs = read_pack(signed["content"], general)
        if value is None or not 0 <= cusec <= 999_999 or further.get(3) != hashlib.sha1(body).digest():
            raise Bad
        if general and 5 in further:
            parts = fields(whole(further[5], 0x30), {0: 0xA0, 1: 0xA1})
            if parts.keys() != {0, 1}:
                raise Bad
            named = digest_named(parts[1])
            if named is None or hashlib.new(named, body).digest() != whole(parts[0], 4):
                raise Bad
    except (Bad, KeyError, ValueError):
        return FAILED
    if signed["named"] == "sha1" and policy != "sha1":
        return DIGEST
    found = None
    for octets in signed["certificates"]:
        try:
            candidate = x509.load_der_x509_certificate(octets)
        except ValueError:
            continue
        if general and not names(signed["sid"], candidate):
            continue
        found = candidate
        break
    if found is None:
        return BAD_SIGNATURE
    code = accepted(found, anchor, now, realm, client)
    if code:
        return code
    hashing = signing_hash(signed["signing"], signed["named"])
    if not names(signed["sid"], found) or hashlib.new(signed["named"], signed["content"]).digest() != signed["digest"]:
        return BAD_SIGNATURE
    if hashing is None or hashing == "sha1" and signed["named"] != "sha1":
        return BAD_SIGNATURE
    if not verifies(found.public_key(), hashing, signed["covered"], signed["signature"]):
        return BAD_SIGNATURE
    if abs(time + cusec - micros(now)) > SKEW:
        return SKEWED
    try:
        public = elements(whole(value, 0x30))
        if public[0][2] != ALGORITHM or not 1 < number(public[1][1][1:]) < PRIME - 1:
            return WEAK
    except (Bad, IndexError):
        return WEAK
    chosen = next((KDF[it] for it in kdfs if it in KDF), 0)
    return chosen, reply(own, key, nonce, chosen)


ALGORITHM = tlv(0x30, oid("2a8648ce3e0201"), tlv(0x30, integer(PRIME), integer(2), integer((PRIME - 1) // 2)))


def reply(own, key, nonce, kdf):
    public = pow(2, int.from_bytes(WORDS[64:128], "big"), PRIME)
    info = tlv(0x30, explicit(0, tlv(3, b"\0", integer(public))), explicit(1, integer(nonce)))
    certificate = x509.load_der_x509_certificate(own)
    sid = tlv(0x30, certificate.issuer.public_bytes(), integer(certificate.serial_number))
    data = signed_data(DH_KEY_DATA, info, [own], 1, sid, key, "sha256")
    parts = [tlv(0x80, data)]
    if kdf:
        parts.append(explicit(2, tlv(0x30, explicit(0, tlv(6, bytes([0x2B, 6, 1, 5, 2, 3, 6, kdf]))))))
    return explicit(0, tlv(0x30, *parts))


# ---- a client that signs as it likes

HASHES = {"sha1": hashes.SHA1, "sha224": hashes.SHA224, "sha256": hashes.SHA256, "sha384": hashes.SHA384, "sha512": hashes.SHA512}
DIGEST_OF = {**{name: content for content, name in DIGESTS.items()}, "sha224": "608648016503040204"}
RSA_OF = {**{name: content for content, name in RSA_WITH.items()}, "sha224": "2a864886f70d01010e"}


def signed_data(kind, content, certificates, version, sid, key, name, **other):
    null = b"\x05\0"
    algorithm = other.get("algorithm", tlv(0x30, oid(DIGEST_OF[name]), null))
    digest = other.get("digest", hashlib.new(name, content).digest())
    attribute = lambda of, *values: tlv(0x30, oid(of), tlv(0x31, *values))
    listed = other.get("attributes", [attribute(CONTENT_TYPE, oid(kind)), attribute(MESSAGE_DIGEST, tlv(4, digest))])
    covered = tlv(0x31, *listed)
    signature = key.sign(other.get("signed", covered), padding.PKCS1v15(), HASHES[other.get("signing", name)]())
    signing = tlv(0x30, oid(other.get("named", RSA_OF[other.get("signing", name)])), null)
    signing = other.get("spelled", signing)
    signer = tlv(0x30, integer(version), sid, algorithm, tlv(0xA0, *listed), signing, tlv(4, signature), *other.get("unsigned", []))
    signers = [signer] * other.get("signers", 1)
    return tlv(
        0x30, oid(other.get("outer", SIGNED_DATA)),
        explicit(0, tlv(
            0x30, integer(other.get("data_version", 3)), tlv(0x31, *other.get("algorithms", [algorithm])),
            tlv(0x30, oid(kind), explicit(0, tlv(4, content))), tlv(0xA0, *certificates), *other.get("crls", []), tlv(0x31, *signers),
        )),
    )


# ---- the rows


def certificate_of(subject, issuer, key, signer, san=None, ski=True, authority=False, hashing=hashes.SHA256, days=(-30, 3650)):
    name = lambda organization, common: x509.Name([x509.NameAttribute(NameOID.ORGANIZATION_NAME, organization), x509.NameAttribute(NameOID.COMMON_NAME, common)])
    made = x509.CertificateBuilder().subject_name(name(REALM, subject)).issuer_name(issuer or name(REALM, subject))
    made = made.public_key(key.public_key()).serial_number(x509.random_serial_number())
    made = made.not_valid_before(NOW + datetime.timedelta(days=days[0])).not_valid_after(NOW + datetime.timedelta(days=days[1]))
    if authority:
        made = made.add_extension(x509.BasicConstraints(True, None), False)
    if san:
        made = made.add_extension(x509.SubjectAlternativeName([x509.OtherName(x509.ObjectIdentifier("1.3.6.1.5.2.2"), san)]), False)
    if ski:
        made = made.add_extension(x509.SubjectKeyIdentifier.from_public_key(key.public_key()), False)
    return made.sign(signer, hashing())


def der(certificate):
    return certificate.public_bytes(serialization.Encoding.DER)


def new_key():
    return rsa.generate_private_key(65537, 2048)


CA_KEY, KDC_KEY, ALICE_KEY, OTHER_KEY = (new_key() for _ in range(4))
CA = certificate_of("Certificate authority", None, CA_KEY, CA_KEY, authority=True)
KDC = certificate_of("kdc", CA.subject, KDC_KEY, CA_KEY, party(REALM, 1, "krbtgt", REALM))
ALICE = certificate_of("alice", CA.subject, ALICE_KEY, CA_KEY, party(REALM, 1, "alice"))
BOB = certificate_of("bob", CA.subject, OTHER_KEY, CA_KEY, party(REALM, 1, "bob"))
STRANGER = certificate_of("alice", BOB.subject, ALICE_KEY, OTHER_KEY, party(REALM, 1, "alice"))
FORGED = certificate_of("alice", CA.subject, ALICE_KEY, OTHER_KEY, party(REALM, 1, "alice"))
PLAIN = certificate_of("alice", CA.subject, ALICE_KEY, CA_KEY, party(REALM, 1, "alice"), ski=False)
BODY = tlv(
    0x30, explicit(0, tlv(3, b"\0\0\0\0\x10")), explicit(1, elements(whole(party(REALM, 1, CLIENT), 0x30))[1][1]),
    explicit(2, tlv(0x1B, REALM.encode())), explicit(3, elements(whole(party(REALM, 2, "krbtgt", REALM), 0x30))[1][1]),
    explicit(5, tlv(0x18, b"20261202120000Z")), explicit(7, integer(77)), explicit(8, tlv(0x30, integer(18))),
)
VALUE = tlv(0x30, ALGORITHM, tlv(3, b"\0", integer(pow(2, 12345678901234567890, PRIME))))
NULL = b"\x05\0"
TRIPLE = tlv(0x30, oid("2a864886f70d0307"))


def authenticator(*more, checksum=None, time="20261201120000Z", cusec=500, nonce=77):
    octets = hashlib.sha1(BODY).digest() if checksum is None else checksum
    parts = [explicit(0, integer(cusec)), explicit(1, tlv(0x18, time.encode())), explicit(2, integer(nonce))]
    if octets:
        parts.append(explicit(3, tlv(4, octets)))
    return tlv(0x30, *parts, *more)


def second(name, octets=None, null=NULL):
    digest = hashlib.new(name, BODY).digest() if octets is None else octets
    return explicit(5, tlv(0x30, explicit(0, tlv(4, digest)), explicit(1, tlv(0x30, oid(DIGEST_OF[name]), null))))


def kdfs(*numbers, more=b""):
    return explicit(4, tlv(0x30, *(tlv(0x30, explicit(0, tlv(6, bytes([0x2B, 6, 1, 5, 2, 3, 6, n]))), more) for n in numbers)))


def pack(*more, by=None, value=VALUE):
    return tlv(0x30, explicit(0, by or authenticator()), *([explicit(1, value)] if value else []), *more)


def by_serial(certificate=ALICE):
    return tlv(0x30, certificate.issuer.public_bytes(), integer(certificate.serial_number))


def key_id(certificate=ALICE):
    return certificate.extensions.get_extension_for_class(x509.SubjectKeyIdentifier).value.digest


def padata(content=None, kind=AUTH_DATA, certificates=(ALICE,), version=1, sid=None, key=ALICE_KEY, name="sha256", **other):
    sid = by_serial() if sid is None else sid
    held = [it if isinstance(it, bytes) else der(it) for it in certificates]
    return tlv(0x30, tlv(0x80, signed_data(kind, content or pack(), held, version, sid, key, name, **other)))


def row(label, policy, octets, anchor=CA, own=KDC, body=BODY, realm=REALM, client=CLIENT, now=NOW):
    judged = NO_PADATA
    if anchor and own:
        judged = judge(policy, anchor, der(own), KDC_KEY, now, realm, client, body, octets)
    wanted = str(judged) if isinstance(judged, int) else f"{judged[0]} {judged[1].hex()}"
    key = KDC_KEY.private_bytes(serialization.Encoding.DER, serialization.PrivateFormat.TraditionalOpenSSL, serialization.NoEncryption())
    columns = [realm.encode(), client.encode(), anchor and der(anchor) or b"", own and der(own) or b"", key, body, octets]
    print(f"{label} | {policy} {micros(now)} | " + " ".join(column.hex() or "-" for column in columns) + f" | {wanted}")
    return judged


def rows(label, octets, **other):
    """The request with a policy, and without one where it is granted or a stock client's."""
    judged = [row(label, "general", octets, **other)]
    if label.startswith(("granted", "stock")):
        judged.append(row(f"{label}, no policy", "none", octets, **other))
    return judged


def extensible():
    print("# An AuthPack of RFC 4556 is taken with and without a policy, with the same reply.")
    for label, content in (("granted, plain", pack()), ("granted, client nonce", pack(explicit(3, tlv(4, bytes(32)))))):
        both = rows(label, padata(content))
        assert both[0] == both[1] and both[0][0] == 0
    print("# What stock clients send beyond it.")
    rows("granted, CMS types of MIT", padata(pack(explicit(2, tlv(0x30, TRIPLE)))))
    rows("granted, CMS types of Heimdal", padata(pack(explicit(2, tlv(0x30, TRIPLE, TRIPLE, tlv(0x30, oid("2a8570"), NULL))))))
    rows("granted, KDFs 2, 1, 3", padata(pack(kdfs(2, 1, 3))))
    rows("granted, KDFs 3, 2", padata(pack(kdfs(3, 2))))
    rows("granted, KDF 1 alone", padata(pack(kdfs(1))))
    rows("granted, KDFs 4 then 2", padata(pack(kdfs(4, 2))))
    rows("granted, KDF 4 alone", padata(pack(kdfs(4))))
    rows("granted, no KDF listed", padata(pack(kdfs())))
    rows("granted, KDF with a further field", padata(pack(kdfs(2, more=explicit(1, NULL)))))
    rows("granted, field [6]", padata(pack(explicit(6, NULL))))
    rows("granted, fields [5], [7] and [30]", padata(pack(explicit(5, NULL), tlv(0x87, b"any"), explicit(30, integer(7)))))
    rows("granted, freshness token", padata(pack(by=authenticator(explicit(4, tlv(4, b"token"))))))
    rows("granted, paChecksum2 SHA-256", padata(pack(by=authenticator(second("sha256")))))
    rows("granted, paChecksum2 SHA-256 without NULL", padata(pack(by=authenticator(second("sha256", null=b"")))))
    rows("granted, paChecksum2 SHA-512 behind a token", padata(pack(by=authenticator(explicit(4, tlv(4, b"token")), second("sha512")))))
    print("# One spelling: DER, no field twice, ascending.")
    rows("field [6] twice", padata(pack(explicit(6, NULL), explicit(6, NULL))))
    rows("fields [7], [6]", padata(pack(explicit(7, NULL), explicit(6, NULL))))
    rows("fields [6] of two forms", padata(pack(tlv(0x86), explicit(6, NULL))))
    rows("PKAuthenticator: field [6] twice", padata(pack(by=authenticator(explicit(6, NULL), explicit(6, NULL)))))
    rows("field [2] behind [4]", padata(pack(kdfs(2), explicit(2, tlv(0x30)))))
    rows("KDFs twice", padata(pack(kdfs(2), kdfs(2))))
    rows("KDFs no list", padata(pack(explicit(4, NULL))))
    rows("KDF without identifier", padata(pack(explicit(4, tlv(0x30, tlv(0x30))))))
    rows("universal element behind", padata(pack(NULL)))
    rows("element of an application behind", padata(pack(tlv(0x66, NULL))))
    rows("long length in a further field", padata(pack(b"\xA6\x81\x02\x05\x00")))
    rows("CMS types no list", padata(pack(explicit(2, NULL))))
    rows("general: 00 behind", padata(pack() + b"\0"))
    rows("general: AuthPack empty", padata(tlv(0x30)))
    rows("general: content type id-data", padata(kind="2a864886f70d010701"))
    rows("general: PA-PK-AS-REQ cut", padata()[:-1])
    print("# Its fields.")
    rows("general: public value missing", padata(pack(value=None)))
    rows("general: cusec 1000000", padata(pack(by=authenticator(cusec=1_000_000))))
    rows("paChecksum of another body", padata(pack(by=authenticator(checksum=bytes(20)))))
    rows("paChecksum missing beside paChecksum2", padata(pack(by=authenticator(second("sha256"), checksum=b""))))
    rows("paChecksum2 of another body", padata(pack(by=authenticator(second("sha256", bytes(32))))))
    rows("paChecksum2 SHA-224", padata(pack(by=authenticator(second("sha224")))))
    rows("paChecksum2 NULL", padata(pack(by=authenticator(explicit(5, NULL)))))
    rows("paChecksum2 of primitive form", padata(pack(by=authenticator(tlv(0x85, b"any")))))
    rows("general: late by a microsecond", padata(pack(kdfs(2), by=authenticator(time="20261201115500Z", cusec=0))), now=NOW + datetime.timedelta(microseconds=1))
    rows("general: agree none", padata(pack(kdfs(2), value=NULL)))


def attribute(kind, *values):
    return tlv(0x30, oid(kind), tlv(0x31, *values))


def of_type(kind=AUTH_DATA):
    return attribute(CONTENT_TYPE, oid(kind))


def of_digest(*values):
    return attribute(MESSAGE_DIGEST, *(values or [tlv(4, hashlib.sha256(pack()).digest())]))


def signing_time():
    return attribute("2a864886f70d010905", tlv(0x17, b"261201120000Z"))


def without_null(certificate):
    """The certificate with its signature algorithms spelled without NULL, and a signature over it so."""
    plain = tlv(0x30, oid(oid_hex(certificate.signature_algorithm_oid)))
    parts = [it[2] for it in elements(whole(certificate.tbs_certificate_bytes, 0x30))]
    held = tlv(0x30, *parts[:2], plain, *parts[3:])
    return tlv(0x30, held, plain, tlv(3, b"\0", CA_KEY.sign(held, padding.PKCS1v15(), hashes.SHA256())))


def digests():
    print("# Digest algorithms and signature algorithms.")
    for name in ("sha384", "sha512"):
        rows(f"granted, SHA-{name[3:]}", padata(name=name))
    rows("granted, SHA-256 without NULL", padata(algorithm=tlv(0x30, oid(DIGEST_OF["sha256"]))))
    rows("granted, digest SHA-512 under a signature with SHA-256", padata(name="sha512", signing="sha256"))
    rows("granted, rsaEncryption with SHA-256", padata(named=RSA_ALONE))
    rows("granted, rsaEncryption with SHA-512", padata(name="sha512", named=RSA_ALONE))
    rows("rsaEncryption with SHA-512 under SHA-256", padata(named=RSA_ALONE, name="sha512", signing="sha256"))
    rows("SHA-1 unasked", padata(name="sha1"))
    rows("SHA-1 unasked, certificate of bob", padata(name="sha1", certificates=[BOB], sid=by_serial(BOB), key=OTHER_KEY))
    rows("signature with SHA-1 under SHA-256", padata(signing="sha1"))
    row("SHA-1 asked for, certificate of bob", "sha1", padata(name="sha1", certificates=[BOB], sid=by_serial(BOB), key=OTHER_KEY))
    row("SHA-1 asked for, digest of other content", "sha1", padata(name="sha1", digest=bytes(20)))
    row("granted, SHA-256 where SHA-1 is taken", "sha1", padata())
    row("granted, SHA-1 asked for", "sha1", padata(name="sha1"))
    row("granted, rsaEncryption with SHA-1", "sha1", padata(name="sha1", named=RSA_ALONE))
    row("granted, digest SHA-1 under a signature with SHA-256", "sha1", padata(name="sha1", signing="sha256"))
    row("SHA-1 asked for, signature with SHA-1 under SHA-256", "sha1", padata(signing="sha1"))
    row("SHA-1 asked for, signature by another key", "sha1", padata(name="sha1", key=OTHER_KEY))
    rows("digest SHA-224", padata(name="sha224"))
    rows("digest parameters octets", padata(algorithm=tlv(0x30, oid(DIGEST_OF["sha256"]), tlv(4))))
    rows("digest of other content", padata(digest=hashlib.sha256(b"other").digest()))
    rows("digest with an octet more", padata(digest=hashlib.sha256(pack()).digest() + b"\0"))
    rows("signature algorithm NULL", padata(spelled=NULL))
    rows("signature algorithm of ECDSA", padata(spelled=tlv(0x30, oid("2a8648ce3d040302"))))
    rows("signature over [0]", padata(signed=tlv(0xA0, of_type(), of_digest())))
    rows("signature over the content", padata(signed=pack()))
    rows("signature by another key", padata(key=OTHER_KEY))


def signers():
    print("# Identifiers of signers.")
    under, explicitly = tlv(0x80, key_id()), explicit(0, tlv(4, key_id()))
    rows("granted, key identifier", padata(version=3, sid=under))
    rows("granted, key identifier, version 1", padata(sid=under))
    rows("granted, key identifier of Heimdal", padata(sid=explicitly))
    rows("granted, key identifier explicit, version 3", padata(version=3, sid=explicitly))
    rows("version 2 by key identifier", padata(version=2, sid=under))
    rows("version 3 by serial", padata(version=3))
    rows("other key identifier", padata(version=3, sid=tlv(0x80, bytes(20))))
    rows("other key identifier of Heimdal", padata(sid=explicit(0, tlv(4, key_id(BOB)))))
    rows("key identifier in a constructed OCTET STRING", padata(sid=explicit(0, tlv(0x24, key_id()))))
    rows("key identifier under [1]", padata(sid=tlv(0x81, key_id())))
    rows("key identifier of a certificate without", padata(version=3, sid=under, certificates=[PLAIN]))
    rows("other serial", padata(sid=tlv(0x30, ALICE.issuer.public_bytes(), integer(ALICE.serial_number + 1))))
    rows("other issuer", padata(sid=tlv(0x30, KDC.subject.public_bytes(), integer(ALICE.serial_number))))
    print("# Certificates.")
    rows("granted, signer's certificate second", padata(certificates=[CA, ALICE]))
    rows("granted, certificate of bob second", padata(certificates=[ALICE, BOB]))
    rows("granted, attribute certificate first", padata(certificates=[tlv(0xA2, b"any"), ALICE]))
    rows("granted, certificate with a deviation", padata(certificates=[without_null(ALICE)]))
    rows("no certificate", padata(certificates=[]))
    rows("certificate of the authority alone", padata(certificates=[CA]))
    rows("certificate of bob", padata(certificates=[ALICE, BOB], sid=by_serial(BOB), key=OTHER_KEY))
    rows("certificate of another authority", padata(certificates=[STRANGER], sid=by_serial(STRANGER)))
    rows("certificate signed by another key", padata(certificates=[FORGED], sid=by_serial(FORGED)))
    rows("two certificates of one identifier", padata(version=3, sid=under, certificates=[FORGED, ALICE]))
    rows("certificate past its validity", padata(), now=NOW + datetime.timedelta(days=3651))


def forms():
    print("# Signed attributes.")
    rows("granted, signing time first", padata(attributes=[signing_time(), of_type(), of_digest()]))
    rows("granted, digest first", padata(attributes=[of_digest(), of_type()]))
    rows("granted, signing time twice", padata(attributes=[of_type(), signing_time(), of_digest(), signing_time()]))
    rows("granted, attribute without value", padata(attributes=[of_type(), of_digest(), attribute("2a8570")]))
    rows("no digest", padata(attributes=[of_type()]))
    rows("no content type", padata(attributes=[of_digest()]))
    rows("no attributes", padata(attributes=[]))
    rows("content type twice", padata(attributes=[of_type(), of_type(), of_digest()]))
    rows("digest twice", padata(attributes=[of_type(), of_digest(), of_digest()]))
    rows("digest of two values", padata(attributes=[of_type(), of_digest(tlv(4, hashlib.sha256(pack()).digest()), tlv(4))]))
    rows("digest without value", padata(attributes=[of_type(), tlv(0x30, oid(MESSAGE_DIGEST), tlv(0x31))]))
    rows("digest no OCTET STRING", padata(attributes=[of_type(), of_digest(tlv(12, hashlib.sha256(pack()).digest()))]))
    rows("content type of replies", padata(attributes=[of_type(DH_KEY_DATA), of_digest()]))
    rows("content type no identifier", padata(attributes=[attribute(CONTENT_TYPE, tlv(4, bytes.fromhex(AUTH_DATA))), of_digest()]))
    print("# The form of signed data.")
    rows("granted, no digest algorithms", padata(algorithms=[]))
    rows("granted, digest algorithm SHA-1 in the list", padata(algorithms=[tlv(0x30, oid(DIGEST_OF["sha1"])), NULL]))
    rows("outer type data", padata(outer="2a864886f70d010701"))
    rows("version 1 of SignedData", padata(data_version=1))
    rows("general: crls", padata(crls=[tlv(0xA1)]))
    rows("general: unsigned attributes", padata(unsigned=[tlv(0xA1, signing_time())]))
    rows("general: two signers", padata(signers=2))
    rows("general: no signer", padata(signers=0))
    row("general: no anchor", "general", padata(), anchor=None)
    row("general: no certificate of its own", "general", padata(), own=None)


def stock(lines):
    print("# What stock clients sent. The certificate of their authority isn't known: one of the same name doesn't verify theirs (70).")
    for line in lines:
        name, digits = line.split()
        message = bytes.fromhex(digits)
        if "-req-" not in name or message[0] != 0x6A:
            continue
        parts = dict((tag, inner) for tag, inner, _ in elements(whole(whole(message, 0x6A), 0x30)))
        found = [whole(elements(entry)[1][1], 4) for _, entry, _ in elements(whole(parts.get(0xA3, tlv(0x30)), 0x30)) if number(elements(entry)[0][1]) == 16]
        if not found:
            continue
        body = parts[0xA4]
        of_body = dict((tag, inner) for tag, inner, _ in elements(whole(body, 0x30)))
        realm = whole(of_body[0xA2], 0x1B).decode()
        client = whole(elements(whole(elements(whole(of_body[0xA1], 0x30))[1][1], 0x30))[0][2], 0x1B).decode()
        signed = read_signed(elements(whole(found[0], 0x30))[0][1], True)
        signer = x509.load_der_x509_certificate(signed["certificates"][0])
        (time, _, _, _), _, _ = read_pack(signed["content"], True)
        now = datetime.datetime(1, 1, 1) + datetime.timedelta(microseconds=time) - datetime.timedelta(days=366)
        key = new_key()
        anchor = x509.CertificateBuilder().subject_name(signer.issuer).issuer_name(signer.issuer).public_key(key.public_key())
        anchor = anchor.serial_number(1).not_valid_before(NOW).not_valid_after(NOW + datetime.timedelta(days=1)).sign(key, hashes.SHA256())
        rows(f"stock {name}", found[0], anchor=anchor, body=body, realm=realm, client=client, now=now)


if __name__ == "__main__":
    print("# Requests by certificate (policies.py): LABEL | POLICY MOMENT | REALM CLIENT ANCHOR OWN KEY BODY PADATA | WANTED")
    print("# POLICY: none, general, or sha1 for one that takes SHA-1 too. MOMENT: microseconds since 0000-01-01. WANTED: an error code, or")
    print("# the number of the KDF, 0 for none, with the PA-PK-AS-REP.")
    extensible()
    digests()
    signers()
    forms()
    stock(it for it in open(sys.argv[1]) if it[0] != "#")
