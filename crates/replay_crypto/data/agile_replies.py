#!/usr/bin/env python3
"""Writes agile_replies.txt: replies by certificate to a client with algorithm agility, and the reply key that it makes of each.

Each reply is judged here by RFC 4556, RFC 5652 and RFC 8636 alone, with the readers of policies.py and the keys of agility.py's rules.

usage: agile_replies.py > agile_replies.txt    new keys each time
"""
import datetime, hashlib, sys
from cryptography import x509

sys.dont_write_bytecode = True
from policies import (
    BOB, BODY, CA, CA_KEY, DH_KEY_DATA, KDC, KDC_KEY, NOW, NULL, OTHER_KEY, PRIME, REALM, RSA_ALONE, Bad, RSA_WITH, attribute,
    by_serial, certificate_of, der, elements, explicit, fields, integer, key_id, micros, names, new_key, number, oid, oid_hex, party, read_signed,
    signed_data, signing_hash, signing_time, tlv, verifies, whole,
)

CLIENT_WORDS = bytes(range(100, 164))
KDC_SECRET = 98765432109876543210
SUITE_SIZES = {17: 16, 18: 32, 19: 16, 20: 32}
HASH = {1: "sha1", 2: "sha256", 3: "sha512"}
NONCE = 77
TGS = ["krbtgt", REALM]
AS_REQ = tlv(
    0x6A,
    tlv(0x30, explicit(1, integer(5)), explicit(2, integer(10)), explicit(3, tlv(0x30, tlv(0x30, explicit(1, integer(16)), explicit(2, tlv(4, b"padata"))))), explicit(4, BODY)),
)


# ---- what a client makes of a reply


def counted(name, size, octets, first):
    made, counter = b"", first
    while len(made) < size:
        made += hashlib.new(name, (counter.to_bytes(4, "big") if first else bytes([counter])) + octets).digest()
        counter += 1
    return made[:size]


def reply_key(suite, kdf, secret, padata):
    size = SUITE_SIZES[suite]
    if kdf is None:
        return counted("sha1", size, secret, 0)  # octetstring2key (RFC 4556, section 3.2.3.1)
    client, service = party(REALM, 1, "alice"), party(REALM, 2, *TGS)
    seen = tlv(0x30, explicit(0, integer(suite)), explicit(1, tlv(4, AS_REQ)), explicit(2, tlv(4, padata)))
    name = tlv(0x30, tlv(6, bytes([0x2B, 6, 1, 5, 2, 3, 6, kdf])))
    info = tlv(0x30, name, explicit(0, tlv(4, client)), explicit(1, tlv(4, service)), explicit(2, tlv(4, seen)))
    return counted(HASH[kdf], size, secret + info, 1)


def is_kdc(certificate, now):
    """Whether the authority issued the certificate to the realm's ticket-granting service."""
    if not certificate.not_valid_before_utc.replace(tzinfo=None) <= now <= certificate.not_valid_after_utc.replace(tzinfo=None):
        return False
    if certificate.issuer.public_bytes() != CA.subject.public_bytes():
        return False
    hashing = RSA_WITH.get(oid_hex(certificate.signature_algorithm_oid))
    if hashing in (None, "sha1") or not verifies(CA.public_key(), hashing, certificate.tbs_certificate_bytes, certificate.signature):
        return False
    listed = certificate.extensions.get_extension_for_class(x509.SubjectAlternativeName).value
    return [it.value for it in listed] == [party(REALM, 1, *TGS)]


def taken(suite, padata, now):
    """The reply key, or None."""
    try:
        got = fields(whole(whole(padata, 0xA0), 0x30), {0: 0x80, 1: 0xA1, 2: 0xA2})
        if 1 in got:
            whole(got[1], 4)
        kdf = None
        if 2 in got:
            named = fields(whole(got[2], 0x30), {0: 0xA0})
            kdf = {bytes([0x2B, 6, 1, 5, 2, 3, 6, n]): n for n in HASH}[whole(named[0], 6)]
        signed = read_signed(got[0], True)
        if signed["kind"] != DH_KEY_DATA or signed["named"] == "sha1":
            return None
        info = fields(whole(signed["content"], 0x30), {0: 0xA0, 1: 0xA1, 2: 0xA2})
        public, nonce = whole(info[0], 3), number(info[1])
    except (Bad, KeyError, ValueError):
        return None
    for octets in signed["certificates"]:
        try:
            candidate = x509.load_der_x509_certificate(octets)
        except ValueError:
            continue
        if names(signed["sid"], candidate):
            break
    else:
        return None
    if not is_kdc(candidate, now):
        return None
    if hashlib.new(signed["named"], signed["content"]).digest() != signed["digest"]:
        return None
    hashing = signing_hash(signed["signing"], signed["named"])
    if hashing in (None, "sha1") or not verifies(candidate.public_key(), hashing, signed["covered"], signed["signature"]):
        return None
    if nonce != NONCE or public[0] != 0:
        return None
    value = number(public[1:])
    if not 1 < value < PRIME - 1:
        return None
    secret = pow(value, int.from_bytes(CLIENT_WORDS, "big"), PRIME).to_bytes(256, "big")
    return reply_key(suite, kdf, secret, padata)


# ---- a KDC that replies as it likes


def key_info(value=None, nonce=NONCE):
    public = pow(2, KDC_SECRET, PRIME) if value is None else value
    return tlv(0x30, explicit(0, tlv(3, b"\0", integer(public))), explicit(1, integer(nonce)))


def named(kdf, more=b""):
    return explicit(2, tlv(0x30, explicit(0, tlv(6, bytes([0x2B, 6, 1, 5, 2, 3, 6, kdf]))), more))


def reply(*more, content=None, kind=DH_KEY_DATA, certificates=(KDC,), version=1, sid=None, key=KDC_KEY, name="sha256", **other):
    held = [it if isinstance(it, bytes) else der(it) for it in certificates]
    data = signed_data(kind, content or key_info(), held, version, by_serial(KDC) if sid is None else sid, key, name, **other)
    return explicit(0, tlv(0x30, tlv(0x80, data), *more))


def as_rep(padata):
    crealm = tlv(0x1B, REALM.encode())
    name = lambda *it: elements(whole(party(REALM, *it), 0x30))[1][1]
    sealed = tlv(0x30, explicit(0, integer(18)), explicit(2, tlv(4, bytes(32))))
    ticket = tlv(0x61, tlv(0x30, explicit(0, integer(5)), explicit(1, crealm), explicit(2, name(2, *TGS)), explicit(3, sealed)))
    shown = [] if padata is None else [explicit(2, tlv(0x30, tlv(0x30, explicit(1, integer(17)), explicit(2, tlv(4, padata)))))]
    return tlv(
        0x6B, tlv(0x30, explicit(0, integer(5)), explicit(1, integer(11)), *shown, explicit(3, crealm), explicit(4, name(1, "alice")), explicit(5, ticket), explicit(6, sealed))
    )


def row(label, padata, suite=18, now=NOW):
    key = None if padata is None else taken(suite, padata, now)
    assert (key is not None) == label.startswith("taken"), label
    print(f"{label} | {suite} {NONCE} {micros(now)} | " + " ".join(it.hex() for it in (REALM.encode(), b"alice", der(CA), CLIENT_WORDS, AS_REQ, as_rep(padata))) + f" | {key.hex() if key else 'untrusted'}")


def keys():
    print("# The key derivation function, and none (RFC 4556, section 3.2.3.1).")
    for suite in SUITE_SIZES:
        row(f"taken, no KDF, suite {suite}", reply(), suite)
        for kdf in HASH:
            row(f"taken, KDF {kdf}, suite {suite}", reply(named(kdf)), suite)
    row("KDF 4", reply(named(4)))
    row("KDF with a further field", reply(named(2, explicit(1, NULL))))
    row("taken, server nonce there", reply(explicit(1, tlv(4, bytes(32))), named(2)))
    row("KDF before the server nonce", reply(named(2), explicit(1, tlv(4, bytes(32)))))
    row("encKeyPack", tlv(0x81, b"any"))
    row("00 behind", reply() + b"\0")
    row("no padata", None)


def signers():
    print("# Signed data as KDCs send it.")
    under, explicitly = tlv(0x80, key_id(KDC)), explicit(0, tlv(4, key_id(KDC)))
    row("taken, SHA-384", reply(named(2), name="sha384"))
    row("taken, SHA-512", reply(named(2), name="sha512"))
    row("SHA-1", reply(named(2), name="sha1"))
    row("signature with SHA-1 under SHA-256", reply(signing="sha1"))
    row("taken, rsaEncryption with SHA-512", reply(name="sha512", named=RSA_ALONE))
    row("taken, key identifier", reply(version=3, sid=under))
    row("taken, key identifier of Samba", reply(name="sha512", sid=explicitly))
    row("other key identifier", reply(version=3, sid=tlv(0x80, bytes(20))))
    row("taken, authority's certificate first", reply(certificates=[CA, KDC]))
    row("no certificate", reply(certificates=[]))
    row("taken, signing time there", reply(attributes=[attribute("2a864886f70d010903", oid(DH_KEY_DATA)), signing_time(), attribute("2a864886f70d010904", tlv(4, hashlib.sha256(key_info()).digest()))]))
    row("signature by another key", reply(key=OTHER_KEY))
    row("digest of other content", reply(digest=bytes(32)))
    row("content type of requests", reply(kind="2b060105020301"))
    row("certificate of a user", reply(certificates=[BOB], sid=by_serial(BOB), key=OTHER_KEY))
    other = certificate_of("kdc", CA.subject, KDC_KEY, CA_KEY, party("OTHER.COM", 1, "krbtgt", "OTHER.COM"))
    row("certificate for krbtgt of another realm", reply(certificates=[other], sid=by_serial(other)))
    forged = certificate_of("kdc", CA.subject, KDC_KEY, OTHER_KEY, party(REALM, 1, "krbtgt", REALM))
    row("certificate signed by another", reply(certificates=[forged], sid=by_serial(forged)))
    row("certificate past its validity", reply(), now=NOW + datetime.timedelta(days=3651))
    print("# KDCDHKeyInfo.")
    row("other nonce", reply(content=key_info(nonce=78)))
    row("public value 1", reply(content=key_info(1)))
    row("KDCDHKeyInfo empty", reply(content=tlv(0x30)))


if __name__ == "__main__":
    print("# Replies by certificate to a client with algorithm agility (agile_replies.py):")
    print("# LABEL | SUITE NONCE MOMENT | REALM CLIENT ANCHOR WORDS AS_REQ AS_REP | KEY or untrusted. MOMENT: microseconds since 0000-01-01.")
    keys()
    signers()
