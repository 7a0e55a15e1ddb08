#!/usr/bin/env python3
"""Writes four_accounts.cdb, the database of a realm of four accounts, copies of it that are damaged, and file_realms.txt: requests with the reply of that
realm, and with the entry of the log.

The replies are those that an independent implementation of RFC 4120's rules gave (replay_realm/data/kdc_exchanges.txt): of each reason the
first rows. Keys of passwords are derived here by RFC 3962 and RFC 3961 over Python's cryptography. Entries are read here off the messages'
DER (forms.py), with what opens under the realm's keys, and their reasons agree with those of that implementation. The databases are made
by the independent writer databases.py.

usage: python3 file_realms.py        in this folder
"""
import hashlib
import hmac
import os
import sys

from cryptography.hazmat.decrepit.ciphers.algorithms import TripleDES
from cryptography.hazmat.primitives.ciphers import Cipher, algorithms, modes

sys.dont_write_bytecode = True
HERE = os.path.dirname(os.path.abspath(__file__))
CRATES = os.path.join(HERE, "..", "..")
sys.path.append(os.path.join(CRATES, "replay_crypto", "data"))
import databases
import forms
from listings import der, elements, etypes_of, listing
from tokens import KEY_SIZES, SUITES


# ---- Keys of passwords ------------------------------------------------------------------------------------------------------

def folded(octets, size):
    """n-fold (RFC 3961, section 5.1): copies of the text, each rotated by 13 bits more, are added in one's complement."""
    bits = "".join(f"{octet:08b}" for octet in octets)
    whole, copies = "", 0
    while not whole or len(whole) % (8 * size):
        turn = 13 * copies % len(bits)
        whole += bits[-turn:] + bits[:-turn] if turn else bits
        copies += 1
    total = sum(int(whole[at : at + 8 * size], 2) for at in range(0, len(whole), 8 * size))
    while total >> 8 * size:
        total = (total >> 8 * size) + (total & (1 << 8 * size) - 1)
    return total.to_bytes(size, "big")


def block(algorithm, octets):
    encryptor = Cipher(algorithm, modes.ECB()).encryptor()
    return encryptor.update(octets) + encryptor.finalize()


def derived(algorithm, first, size):
    octets = b""
    while len(octets) < size:
        first = block(algorithm, first)
        octets += first
    return octets[:size]


def aes_key(password, salt, size):
    """RFC 3962, section 4: 4,096 rounds, then DK with `kerberos`."""
    key = hashlib.pbkdf2_hmac("sha1", password, salt, 4096, size)
    return derived(algorithms.AES(key), folded(b"kerberos", 16), size)


def des3_key_of(octets):
    """Random-to-key (RFC 3961, section 6.3.1): of each 7 octets the low bits make an eighth, and each octet gets odd parity."""
    key = b""
    for part in (octets[at : at + 7] for at in range(0, 21, 7)):
        eighth = sum((octet & 1) << place + 1 for place, octet in enumerate(part))
        key += bytes(octet & 254 | (bin(octet >> 1).count("1") + 1) % 2 for octet in (*part, eighth))
    return key


def des3_key(password, salt):
    """RFC 3961, section 6.3.1."""
    key = des3_key_of(folded(password + salt, 21))
    return des3_key_of(derived(TripleDES(key), b"kerberos", 21))


# ---- The database -----------------------------------------------------------------------------------------------------------

def account(suite, key, salt=None, kvno=1, older=(), attributes=None):
    """Older keys have suite, kvno and key; attributes the second of the end, the greatest lifetime and the marks."""
    further = b""
    if attributes is not None:
        end, lifetime, marks = attributes
        further = end.to_bytes(8, "little") + lifetime.to_bytes(4, "little") + bytes([marks])
    if older:
        further += bytes([len(older)]) + b"".join(bytes([own]) + number.to_bytes(4, "little") + octets for own, number, octets in older)
    marks = (salt is not None) + 2 * bool(older) + 4 * (attributes is not None)
    return bytes([1, suite]) + kvno.to_bytes(4, "little") + bytes([marks]) + key + further + (salt or b"")


def read_account(record):
    """Keys of a record, each with suite, kvno and octets, the newest first; its attributes; its salt."""
    size = KEY_SIZES[record[1]]
    keys, attributes, rest = [(record[1], int.from_bytes(record[2:6], "little"), record[7 : 7 + size])], (0, 0, 0), record[7 + size :]
    if record[6] & 4:
        attributes, rest = (int.from_bytes(rest[:8], "little"), int.from_bytes(rest[8:12], "little"), rest[12]), rest[13:]
    if record[6] & 2:
        count, rest = rest[0], rest[1:]
        for _ in range(count):
            size = KEY_SIZES[rest[0]]
            keys.append((rest[0], int.from_bytes(rest[1:5], "little"), rest[5 : 5 + size]))
            rest = rest[5 + size :]
    return keys, attributes, rest if record[6] & 1 else None


def key_for(sealed, keys):
    """The key whose kvno an EncryptedData has, or the newest."""
    return next((key for key in keys if sealed.get(1, key[1]) == key[1]), keys[0])


def realm_record(name, skew, lifetime, policy=0):
    return b"\1" + skew.to_bytes(4, "little") + lifetime.to_bytes(4, "little") + bytes(4) + policy.to_bytes(4, "little") + name


def key_of(*components):
    return b"".join(bytes(octet + 1 for octet in component) + b"\0" for component in components)


REALM = [(b"\xff", realm_record(b"R", 300, 36000))]
ACCOUNTS = [
    (key_of(b"a"), account(18, aes_key(b"pw", b"Ra", 32), b"Ra")),
    (key_of(b"b"), account(17, aes_key(b"pw", b"Rb", 16), b"Rb")),
    (key_of(b"d"), account(16, des3_key(b"pw", b"Rd"), b"Rd")),
    (key_of(b"h"), account(18, bytes([1]) * 32)),
    (key_of(b"krbtgt", b"R"), account(18, bytes(32))),
]


# ---- Sealed data ------------------------------------------------------------------------------------------------------------

# The key usages (RFC 4120, section 7.5.1).
TIMESTAMP, TICKET, AUTHENTICATOR = 1, 2, 7


def des3_derived(key, usage, purpose):
    """DK for a key usage (RFC 3961, section 5.3)."""
    constant = folded(usage.to_bytes(4, "big") + bytes([purpose]), 8)
    return des3_key_of(derived(TripleDES(key), constant, 21))


def des3_decrypted(key, usage, sealed):
    """The text with its padding, without its confounder (RFC 3961, sections 5.3 and 6.3), or None."""
    cipher, code = sealed[:-20], sealed[-20:]
    if not cipher or len(cipher) % 8:
        return None
    step = Cipher(TripleDES(des3_derived(key, usage, 0xAA)), modes.CBC(bytes(8))).decryptor()
    text = step.update(cipher) + step.finalize()
    return text[8:] if hmac.digest(des3_derived(key, usage, 0x55), text, "sha1") == code else None


def opened(suite, key, usage, sealed, form):
    """The value of the form that this EncryptedData is sealed of, or None. Triple DES leaves fewer than eight zeros behind it."""
    if sealed[0] != suite:
        return None
    decrypt, most = (des3_decrypted, 8) if suite == 16 else (SUITES[suite].decrypt, 1)
    text = decrypt(key, usage, sealed[2]) or b""
    ends = (end for end in range(len(text), len(text) - most, -1) if end >= 0 and not any(text[end:]))
    return next((value for value in (forms.one(form, text[:end]) for end in ends) if value is not None), None)


def is_of_suite(key):
    """An EncryptionKey has type and length of an encryption type (RFC 3961, section 6.3; RFC 3962, section 6; RFC 8009, section 5)."""
    return KEY_SIZES.get(key[0]) == len(key[1])


def key_in(accounts, *components):
    """Suite and key of the account of this name, or None."""
    record = dict(accounts).get(key_of(*components))
    return record and (record[1], record[7 : 7 + KEY_SIZES[record[1]]])


# ---- Entries of the log -----------------------------------------------------------------------------------------------------

def fields(octets):
    """The fields of a SEQUENCE by the numbers of their tags."""
    ((_, content),) = elements(octets)
    return {tag - 0xA0: field for tag, field in elements(content)}


def content(octets):
    return elements(octets)[0][1]


def text(octets):
    marks = {ord(c): "\\" + c for c in "/@\\"}
    return "".join(marks.get(o) or (chr(o) if 33 <= o <= 126 else f"\\x{o:02x}") for o in octets)


def components_of(field):
    return [component for _, component in elements(content(fields(field)[1]))]


def shown(components, realm):
    told = "/".join(text(component) for component in components) + "@" + text(realm)
    return told if len(told) <= 512 else "(long)"


def name(field, realm):
    return shown(components_of(field), content(realm))


def number(field):
    return int.from_bytes(content(field), "big", signed=True)


ERRORS = {
    3: "KDC_ERR_BAD_PVNO", 6: "KDC_ERR_C_PRINCIPAL_UNKNOWN", 7: "KDC_ERR_S_PRINCIPAL_UNKNOWN", 10: "KDC_ERR_CANNOT_POSTDATE",
    11: "KDC_ERR_NEVER_VALID", 12: "KDC_ERR_POLICY", 13: "KDC_ERR_BADOPTION", 14: "KDC_ERR_ETYPE_NOSUPP", 15: "KDC_ERR_SUMTYPE_NOSUPP",
    16: "KDC_ERR_PADATA_TYPE_NOSUPP", 24: "KDC_ERR_PREAUTH_FAILED", 25: "KDC_ERR_PREAUTH_REQUIRED", 31: "KRB_AP_ERR_BAD_INTEGRITY",
    33: "KRB_AP_ERR_TKT_NYV", 35: "KRB_AP_ERR_NOT_US", 36: "KRB_AP_ERR_BADMATCH", 37: "KRB_AP_ERR_SKEW", 39: "KRB_AP_ERR_BADVERSION",
    40: "KRB_AP_ERR_MSG_TYPE", 41: "KRB_AP_ERR_MODIFIED", 44: "KRB_AP_ERR_BADKEYVER", 50: "KRB_AP_ERR_INAPP_CKSUM",
    68: "KDC_ERR_WRONG_REALM",
}


def padata_of(request, kind):
    """The value of the first padata of this type, or None (RFC 4120, section 5.2.7)."""
    padata = fields(content(request)).get(3, b"\x30\0")
    found = (fields(der(0x30, one)) for _, one in elements(content(padata)))
    return next((content(one[2]) for one in found if number(one[1]) == kind), None)


def means(request):
    """How the client of a request authenticates itself: by its ticket, by PA-PK-AS-REQ (16), else by PA-ENC-TIMESTAMP (2)."""
    if request[0] == 0x6C:
        return "ticket"
    by_certificate, by_key = (padata_of(request, kind) is not None for kind in (16, 2))
    return "pkinit" if by_certificate else "password" if by_key else "none"


def entry(request, reply, is_request=True, accounts=ACCOUNTS):
    """The entry of a request to the realm with these accounts."""
    if reply == "Unreadable":
        return "- - - no-request by=-"
    if not is_request:
        return "- - - no-accounts by=-"
    told = f"{names_and_answer(request, reply, accounts)} by={means(request)}"
    reason = reason_of(request, reply, accounts)
    return f'{told} reason="{reason}"' if reason else told


def names_and_answer(request, reply, accounts=ACCOUNTS):
    exchange = {0x6A: "AS", 0x6C: "TGS"}[request[0]]
    body = fields(fields(content(request))[4])
    client = name(body[1], body[2]) if 1 in body else "-"
    service = name(body[3], body[2]) if 3 in body else "-"
    if reply == "Accounts":
        return f"{exchange} {client} {service} no-accounts"
    told = fields(content(reply))
    if reply[0] == 0x7E:
        return f"{exchange} {ticket_client(request, accounts) or client} {service} error={ERRORS[number(told[6])]}"
    ticket = number(fields(fields(content(told[5]))[3])[0])
    return f"{exchange} {name(told[4], told[3])} {service} ticket={ticket} reply={number(fields(told[6])[0])}"


def ap_req_of(request):
    """The AP-REQ that the first PA-TGS-REQ (1) is the one encoding of, or None (RFC 4120, section 5.2.7.1)."""
    value = padata_of(request, 1)
    return None if value is None else forms.one(forms.AP_REQ, value)


def ticket_part(request, accounts):
    """The EncTicketPart that opens under the key of krbtgt that has its kvno, or None. Nothing else of ticket and AP-REQ matters."""
    ap_req, record = ap_req_of(request), dict(accounts).get(key_of(b"krbtgt", b"R"))
    if not ap_req or not record:
        return None
    suite, _, key = key_for(ap_req[3][3], read_account(record)[0])
    return opened(suite, key, TICKET, ap_req[3][3], forms.TICKET_PART)


def ticket_client(request, accounts):
    """The client of the ticket that a TGS request presents, or None where that doesn't open."""
    part = ticket_part(request, accounts) if request[0] == 0x6C else None
    return part and shown(part[3][1], part[2])


# ---- Reasons of errors 24 and 31 ----------------------------------------------------------------------------------------------

def reason_of(request, reply, accounts):
    """Why the request is refused with error 24 of an AS request, or 31 of a TGS request (RFC 4120, section 7.5.9); else None."""
    code = number(fields(content(reply))[6]) if reply != "Accounts" and reply[0] == 0x7E else None
    if (request[0], code) == (0x6C, 31):
        return ticket_reason(request, accounts)
    if (request[0], code) != (0x6A, 24):
        return None
    value = padata_of(request, 16)
    return timestamp_reason(request, accounts) if value is None else certificate_reason(value, fields(content(request))[4])


def timestamp_reason(request, accounts):
    """RFC 4120, section 5.2.7.2. A missing pausec is 0."""
    sealed = forms.one(forms.ENCRYPTED, padata_of(request, 2))
    if sealed is None:
        return "PA-ENC-TIMESTAMP: not the one DER encoding of an EncryptedData"
    body = fields(fields(content(request))[4])
    suite, key = key_in(accounts, *components_of(body[1]))
    if sealed[0] != suite:
        return "PA-ENC-TIMESTAMP: etype isn't that of the client's key"
    timestamp = opened(suite, key, TIMESTAMP, sealed, forms.TIMESTAMP)
    if timestamp is None:
        return "PA-ENC-TIMESTAMP: doesn't open under the client's key"
    assert not 0 <= timestamp.get(1, 0) <= 999999
    return "PA-ENC-TIMESTAMP: pausec isn't from 0 to 999999"


def ticket_reason(request, accounts):
    """RFC 4120, section 3.2.3."""
    part = ticket_part(request, accounts)
    if part is None:
        return "ticket: doesn't open under the key of krbtgt"
    if not is_of_suite(part[1]):
        return "ticket: session key is of no known encryption type"
    suite, key = part[1].values()
    authenticator = opened(suite, key, AUTHENTICATOR, ap_req_of(request)[4], forms.AUTHENTICATOR)
    if authenticator is None:
        return "authenticator: doesn't open under the ticket's session key"
    assert not is_of_suite(authenticator[6])
    return "authenticator: subkey is of no known encryption type"


# The content octets of id-pkinit-authData, 1.3.6.1.5.2.3.1 (RFC 4556, section 3.1).
AUTH_DATA = bytes.fromhex("2b060105020301")


def certificate_reason(value, body):
    """RFC 4556, section 3.2.1."""
    request = forms.one(forms.PA_PK_AS_REQ, value)
    if request is None:
        return "PA-PK-AS-REQ: not its one DER encoding"
    signed = forms.one(forms.SIGNED, request[0])
    if signed is None:
        return "signedAuthPack: not SignedData of the one form"
    kind, text = signed
    if kind != AUTH_DATA:
        return "signedAuthPack: eContentType isn't id-pkinit-authData"
    pack = forms.one(forms.AUTH_PACK, text)
    return pack_reason(pack, body) if pack else octets_reason(text)


def octets_reason(text):
    """Of what isn't the one encoding of an AuthPack: whether it has a field that RFC 4556 doesn't name."""
    found = forms.one(forms.ELEMENTS, text) or []
    is_known = all(first in (0xA0, 0xA1, 0xA2, 0xA3) for first, _ in found)
    return "AuthPack: not its one DER encoding" if is_known else "AuthPack: unknown field"


def pack_reason(pack, body):
    authenticator = pack[0]
    if 1 not in pack:
        return "AuthPack: no clientPublicValue"
    if not 0 <= authenticator[0] <= 999999:
        return "pkAuthenticator: cusec isn't from 0 to 999999"
    assert authenticator.get(3) != hashlib.sha1(body).digest()
    return "pkAuthenticator: paChecksum isn't the SHA-1 digest of the request's body"


# ---- The rows ---------------------------------------------------------------------------------------------------------------

def exchanges():
    """Label, request, reply and reason of the independent implementation's exchanges."""
    with open(os.path.join(CRATES, "replay_realm", "data", "kdc_exchanges.txt"), encoding="ascii") as rows:
        return [line.rstrip("\n").split(" | ") for line in rows if not line.startswith("#")]


# The reasons that the independent implementation gives for errors 24 and 31.
REASONS = {
    "AS 24 type 2 unreadable": "PA-ENC-TIMESTAMP: not the one DER encoding of an EncryptedData",
    "AS 24 type 2 other etype": "PA-ENC-TIMESTAMP: etype isn't that of the client's key",
    "AS 24 type 2 doesn't open": "PA-ENC-TIMESTAMP: doesn't open under the client's key",
    "AS 24 type 2 opens to no value": "PA-ENC-TIMESTAMP: doesn't open under the client's key",
    "AS 24 microseconds": "PA-ENC-TIMESTAMP: pausec isn't from 0 to 999999",
    "TGS 31 ticket etype": "ticket: doesn't open under the key of krbtgt",
    "TGS 31 ticket doesn't open": "ticket: doesn't open under the key of krbtgt",
    "TGS 31 ticket opens to no value": "ticket: doesn't open under the key of krbtgt",
    "TGS 31 ticket's key no suite's": "ticket: session key is of no known encryption type",
    "TGS 31 authenticator etype": "authenticator: doesn't open under the ticket's session key",
    "TGS 31 authenticator doesn't open": "authenticator: doesn't open under the ticket's session key",
    "TGS 31 authenticator opens to no value": "authenticator: doesn't open under the ticket's session key",
    "TGS 31 subkey no suite's": "authenticator: subkey is of no known encryption type",
}


def check_reasons():
    """The reasons here are those of the independent implementation, in all its exchanges."""
    seen = set()
    for label, request, reply, reason in exchanges():
        if reply != "Unreadable":
            told = reason_of(bytes.fromhex(request), bytes.fromhex(reply), ACCOUNTS)
            assert told == REASONS.get(reason) and (told or not reason.startswith(("AS 24", "TGS 31"))), label
            seen.add(reason)
    assert seen >= REASONS.keys()


# What the independent implementation says of TGS requests without a ticket that opens: its reasons, and the label of a ticket whose kvno is
# another too, for which alone it is refused.
CLOSED = {
    "TGS 16 no type 1", "TGS 41 AP-REQ unreadable", "TGS 31 ticket etype", "TGS 31 ticket doesn't open", "TGS 31 ticket opens to no value",
    "tgs key number and etype",
}


def check_tickets():
    """The tickets that open here are those that open by the independent implementation, of all its refused TGS requests."""
    for label, request, reply, reason in exchanges():
        if reply.startswith("7e") and reason.startswith("TGS"):
            assert (ticket_client(bytes.fromhex(request), ACCOUNTS) is None) == bool({label, reason} & CLOSED), label


def recorded():
    """Of each reason the first rows: one, or three of what is granted."""
    counts = {}
    for label, request, reply, reason in exchanges():
        counts[reason] = counts.get(reason, 0) + 1
        if counts[reason] <= (3 if reason.endswith("granted") else 1) or label == "message random!":
            yield label, request, reply


def row(label, request, reply, is_request=True, accounts=ACCOUNTS):
    octets = bytes.fromhex(request)
    told = reply if reply in ("Unreadable", "Accounts") else bytes.fromhex(reply)
    return f"ask | {label} | {request} | {reply} | {entry(octets, told, is_request, accounts)}\n"


def error_to(request, code):
    """The KRB-ERROR of this code to a TGS request for a service (RFC 4120, section 5.9.1)."""
    body = fields(fields(content(request))[4])
    given = {0: b"\2\1\5", 1: b"\2\1\x1e", 4: b"\x18\x0f20000101000000Z", 5: b"\2\1\0", 6: bytes([2, 1, code]), 9: b"\x1b\1R", 10: body[3]}
    return der(0x7E, der(0x30, b"".join(der(0xA0 + tag, field) for tag, field in given.items())))


def without_krbtgt(rows):
    """TGS requests to a realm without the account of krbtgt: error 7 comes before all that is judged of the AP-REQ."""
    of_label = {label: (bytes.fromhex(request), reply) for label, request, reply in rows}
    request, reply = of_label["tgs AP-REQ type"]
    assert error_to(request, 40) == bytes.fromhex(reply)
    for label, other in ("tgs no krbtgt", "tgs honest"), ("tgs no krbtgt, AP-REQ type", "tgs AP-REQ type"):
        request = of_label[other][0]
        yield row(label, request.hex(), error_to(request, 7).hex(), accounts=ACCOUNTS[:-1])


KNOWN = (16, 17, 18)  # the suites of this realm's keys; 19 and 20 are known too


def first_known(request):
    return next((etype for etype in etypes_of(request) if etype in (*KNOWN, 19, 20)), None)


def limited():
    """TGS requests to the realm whose policy limits triple DES, of clients that a recorded reply names: its reply where an account has a key of
    triple DES, error 14 where none has one and the request lists nothing else, and else that of the same request without triple DES."""
    granted = []
    for label, request, reply, _ in exchanges():
        if label.startswith("tgs") and reply.startswith("6d"):
            octets = bytes.fromhex(request)
            names = names_and_answer(octets, bytes.fromhex(reply)).split()
            granted.append((octets, reply, first_known(octets), names[1], names[2], len([e for e in etypes_of(octets) if e in (*KNOWN, 19, 20)])))
    def find(is_wanted):
        return next(it for it in granted if is_wanted(*it[2:]))
    request, reply, *_ = find(lambda first, client, service, count: first == 16 and count == 1 and client != "d@R" and service != "d@R")
    yield row("tgs des3 alone, limited", request.hex(), error_to(request, 14).hex())
    request, reply, *_ = find(lambda first, client, service, count: first == 18 and client != "d@R" and service != "d@R")
    yield row("tgs des3 first, limited", listing(request, 16).hex(), reply)
    request, reply, *_ = find(lambda first, client, service, count: first == 16 and client == "d@R" and service != "d@R")
    yield row("tgs des3 of the client, limited", request.hex(), reply)
    request, reply, *_ = find(lambda first, client, service, count: first == 16 and client != "d@R" and service == "d@R")
    yield row("tgs des3 of the service, limited", request.hex(), reply)


def write(path, octets):
    with open(os.path.join(HERE, path), "wb") as file:
        file.write(octets)


def main():
    check_reasons()
    check_tickets()
    write("four_accounts.cdb", databases.database(ACCOUNTS + REALM))
    # The realm's record has another version, there is none, and the account of h has the kvno 0.
    write("other_version.cdb", databases.database(ACCOUNTS + [(b"\xff", b"\2" + REALM[0][1][1:])]))
    write("no_realm.cdb", databases.database(ACCOUNTS))
    write("no_krbtgt.cdb", databases.database(ACCOUNTS[:-1] + REALM))
    # The policy limits triple DES, and no policy has the number of a renewable life of more than a year.
    for path, policy in ("limited.cdb", 1), ("other_policy.cdb", 16 * 31536001):
        write(path, databases.database(ACCOUNTS + [(b"\xff", realm_record(b"R", 300, 36000, policy))]))
    damaged = [(key, account(18, bytes([1]) * 32, kvno=0) if key == key_of(b"h") else record) for key, record in ACCOUNTS]
    write("damaged_h.cdb", databases.database(damaged + REALM))
    rows = list(recorded())
    granted = next(it for it in rows if it[2].startswith("6b"))
    # What begins as a request is judged by the file, and what doesn't is answered without it.
    begun = next(it for it in rows if it[2] == "Unreadable" and it[1].startswith("6a"))
    other = next(it for it in rows if it[2] == "Unreadable" and not it[1].startswith(("6a", "6c")))
    of_h = next(it for it in rows if asks_h(*it[1:]))
    with open(os.path.join(HERE, "file_realms.txt"), "w", encoding="ascii") as out:
        out.write(HEAD + "open four_accounts.cdb\n" + "".join(row(*it) for it in rows))
        for path in "absent.cdb", "other_version.cdb", "other_policy.cdb", "no_realm.cdb":
            out.write(f"open {path}\n" + row(*granted[:2], "Accounts") + row(*begun[:2], "Accounts", False) + row(*other))
        out.write("open damaged_h.cdb\n" + row(*of_h[:2], "Accounts") + row(*granted))
        out.write("open four_accounts.cdb\n" + row(*of_h))
        out.write("open no_krbtgt.cdb\n" + "".join(without_krbtgt(rows)))
        out.write("open limited.cdb\n" + "".join(limited()))


def asks_h(request, reply):
    return reply.startswith("6d") and " h@R " in entry(bytes.fromhex(request), bytes.fromhex(reply)) + " "


HEAD = """\
# Written by file_realms.py.
# open PATH: the realm is that of the file with this path from now on. It is opened anew for each message.
# ask | label | request | reply | entry: what the realm replies at 2000-01-01 00:00:00 with the random octets 00 to 7F, and the entry of the
# log. A reply is a message in hexadecimal, Unreadable if the octets are no request, or Accounts if the file can't be used.
# An entry is EXCHANGE CLIENT SERVICE ANSWER by=MEANS. The client of a refused TGS request is that of its ticket where this opens. Behind the
# error KDC_ERR_PREAUTH_FAILED of an AS request, and KRB_AP_ERR_BAD_INTEGRITY of a TGS request, there is reason="TEXT".
"""

if __name__ == "__main__":
    main()
