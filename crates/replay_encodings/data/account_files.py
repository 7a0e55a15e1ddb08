#!/usr/bin/env python3
"""Writes files of a realm and its accounts (the .cdb files of this folder), and account_files.txt: what is read in them, and what is replied.

This is an independent writer and reader of the records, by their description (the head of specs/AccountRecords and of
specs/RealmRecords of krb_realm_files). Databases are by the independent writer and reader databases.py. Neither
shares code with the program that replays the rows. Keys of passwords are made by Python's `cryptography`, by RFC 3961, RFC 3962 and
RFC 8009. Requests and replies are those of five_suites.txt of replay_realm, by an independent implementation of RFC 4120's rules. Damages
are fixed, so each run writes the same files.

usage: python3 account_files.py                 in this folder: writes the files
       python3 account_files.py --stock CDB     also makes each file by the stock tool CDB (tinycdb's `cdb`), and compares the octets
"""
import hashlib
import random
import struct
import subprocess
import sys
import tempfile

from cryptography.hazmat.decrepit.ciphers.algorithms import TripleDES
from cryptography.hazmat.primitives import hashes
from cryptography.hazmat.primitives.ciphers import Cipher, modes

sys.dont_write_bytecode = True
sys.path.insert(0, "../../replay_crypto/data")
from databases import HEADER, PAIR, Damaged, database, found, number, part, text, word
from tokens import derive_by_blocks, derive_by_hmac, n_fold

ROOM = 8192
PKINIT_ROOM = ROOM - 17 - 255
DES3, AES128, AES256, AES128_SHA2, AES256_SHA2 = 16, 17, 18, 19, 20
KEY_SIZES = {DES3: 24, AES128: 16, AES256: 32, AES128_SHA2: 16, AES256_SHA2: 32}
REALM_KEY = b"\xff"


# ---- Keys of passwords ------------------------------------------------------------------------------------------------------


def des3_key(seed):
    """RFC 3961, section 6.3.1: 7 octets make 8, of odd parity. No weak key occurs here."""
    key = b""
    for at in (0, 7, 14):
        seven = seed[at : at + 7]
        last = sum((octet & 1) << (place + 1) for place, octet in enumerate(seven))
        eight = [octet & 254 for octet in seven] + [last]
        key += bytes(octet | (bin(octet).count("1") + 1) % 2 for octet in eight)
    return key


def des3_derived(key, constant):
    made, block = b"", n_fold(constant, 8)
    while len(made) < 21:
        step = Cipher(TripleDES(key), modes.CBC(bytes(8))).encryptor()
        block = step.update(block) + step.finalize()
        made += block
    return des3_key(made[:21])


def key_of(suite, password, salt):
    """The key of a password: RFC 3961, section 6.3.1; RFC 3962, section 4; RFC 8009, section 4."""
    if suite == DES3:
        return des3_derived(des3_key(n_fold(password + salt, 21)), b"kerberos")
    if suite in (AES128, AES256):
        return derive_by_blocks(hashlib.pbkdf2_hmac("sha1", password, salt, 4096, KEY_SIZES[suite]), b"kerberos")
    name, kind, by = {
        AES128_SHA2: (b"aes128-cts-hmac-sha256-128", "sha256", hashes.SHA256()),
        AES256_SHA2: (b"aes256-cts-hmac-sha384-192", "sha384", hashes.SHA384()),
    }[suite]
    middle = hashlib.pbkdf2_hmac(kind, password, name + b"\0" + salt, 32768, KEY_SIZES[suite])
    return derive_by_hmac(by, middle, b"kerberos", KEY_SIZES[suite])


# ---- Records ----------------------------------------------------------------------------------------------------------------


def block(name):
    """The key of an account's record: each character plus one, and a zero after each component."""
    return b"".join(bytes(octet + 1 for octet in component) + b"\0" for component in name)


# What a policy's number has. The last one is behind the greatest renewable life.
LIMITS_DES3, FORWARDABLE, PROXIABLE, PKINIT_AGILITY, RENEWABLE_SECOND, PKINIT_SHA1 = 1, 2, 4, 8, 16, 2**29


def account_record(account):
    suite, kvno, key, salt = account
    return bytes([1, suite]) + number(kvno) + (b"\0" + key if salt is None else b"\1" + key + salt)


def realm_record(realm):
    name, skew, lifetime, pkinit = realm
    octets = pkinit or b""
    return b"\1" + number(skew) + number(lifetime) + number(len(octets)) + number(0) + octets + name  # with no policy


def account_of(record):
    if len(record) < 7 or record[0] != 1 or record[1] not in KEY_SIZES:
        raise Damaged
    suite, kvno, flag = record[1], int.from_bytes(record[2:6], "little"), record[6]
    size = 7 + KEY_SIZES[suite]
    if kvno == 0 or len(record) < size or flag > 7:
        raise Damaged
    rest = behind_older(flag & 2, kvno, behind_attributes(flag & 4, record[size:]))
    if not flag & 1 and rest:
        raise Damaged
    assert flag < 2  # no row has a record with older keys or attributes
    return suite, kvno, record[7:size], rest if flag else None


def behind_attributes(are_there, octets):
    """The octets behind the attributes, which are twelve octets and one below 8."""
    if are_there and (len(octets) < 13 or octets[12] > 7):
        raise Damaged
    return octets[13:] if are_there else octets


def behind_older(are_there, below, octets):
    """The octets behind the older keys: one to fifteen, whose kvnos count from 1 and fall."""
    if not are_there:
        return octets
    if not octets or not 1 <= octets[0] <= 15:
        raise Damaged
    count, octets = octets[0], octets[1:]
    for _ in range(count):
        if len(octets) < 5 or octets[0] not in KEY_SIZES:
            raise Damaged
        size, kvno = 5 + KEY_SIZES[octets[0]], int.from_bytes(octets[1:5], "little")
        if not 1 <= kvno < below or len(octets) < size:
            raise Damaged
        below, octets = kvno, octets[size:]
    return octets


def realm_of(record):
    if len(record) < 17 or record[0] != 1:
        raise Damaged
    skew, lifetime, size, policy = (int.from_bytes(record[at : at + 4], "little") for at in (1, 5, 9, 13))
    if policy >= 2 * PKINIT_SHA1 or seconds_of(policy) > 31536000 or len(record) < 17 + size or skew > 86400 or not 1 <= lifetime <= 31536000:
        raise Damaged
    pkinit, name = record[17 : 17 + size], record[17 + size :]
    if not 1 <= len(name) <= 255 or any(octet > 127 for octet in name):
        raise Damaged
    return name, skew, lifetime, pkinit or None, policy


def seconds_of(policy):
    """The greatest renewable life of a policy's number."""
    return policy % PKINIT_SHA1 // RENEWABLE_SECOND


def realm_before(record):
    """The realm by the rules of a database from before tickets were renewable, whose policy is 0 or LIMITS_DES3, or None."""
    if len(record) < 17:
        return None
    version, skew, lifetime, size, policy = struct.unpack("<B4I", record[:17])
    if version != 1 or policy not in (0, LIMITS_DES3) or skew > 86400 or lifetime not in range(1, 31536001) or size > len(record) - 17:
        return None
    name = record[17 + size :]
    return (name, skew, lifetime, record[17 : 17 + size] or None, policy) if name.isascii() and 0 < len(name) < 256 else None


def data_of(file, key):
    where = found(file, key)
    if where is None:
        return None
    if where[1] > ROOM:
        raise Damaged
    return part(file, *where)


def name_word(name):
    return "/".join(word(component) for component in name) if name else "none"


def account_words(account):
    suite, kvno, key, salt = account
    return f"{suite} {kvno} {key.hex()} {'none' if salt is None else word(salt)}"


def got(file, name):
    """What a look-up of a name gives, as words."""
    try:
        record = data_of(file, block(name))
        return "none" if record is None else account_words(account_of(record))
    except Damaged:
        return "damaged"


def realm_words(realm):
    name, skew, lifetime, pkinit, *policy = realm
    return f"{word(name)} {skew} {lifetime} {'none' if pkinit is None else word(pkinit)}" + policy_words(*policy)


def policy_words(policy=0):
    told = [said for bit, said in ((LIMITS_DES3, "limits-des3"), (FORWARDABLE, "forwardable"), (PROXIABLE, "proxiable")) if policy & bit]
    life = seconds_of(policy)
    behind = [said for bit, said in ((PKINIT_AGILITY, "pkinit-agility"), (PKINIT_SHA1, "pkinit-sha1")) if policy & bit]
    return "".join(f" {said}" for said in (*told, *([f"renewable={life}"] if life else []), *behind))


def realm_got(file):
    try:
        record = data_of(file, REALM_KEY)
        if record is None:
            return "damaged"
        before = realm_before(record)
        try:
            realm = realm_of(record)
        except Damaged:
            assert before is None
            raise
        assert before == (realm if realm[4] <= LIMITS_DES3 else None)
        return realm_words(realm)
    except Damaged:
        return "damaged"


# ---- Files ------------------------------------------------------------------------------------------------------------------


def by_password(realm, suite, name, password=b"pw", kvno=1):
    salt = realm + b"".join(name)
    return name, (suite, kvno, key_of(suite, password, salt), salt)


def by_key(suite, name, key, kvno=1):
    return name, (suite, kvno, key, None)


def salted(suite, name, kvno, salt):
    return name, (suite, kvno, text(name, KEY_SIZES[suite]), salt)


def in_order(accounts):
    return sorted(accounts, key=lambda account: block(account[0]))


# The realm of five_suites.txt.
R = in_order([
    by_key(AES256, (b"krbtgt", b"R"), bytes(32)),
    by_password(b"R", AES256, (b"a",)),
    by_password(b"R", AES128, (b"b",)),
    by_password(b"R", DES3, (b"d",)),
    by_password(b"R", AES128_SHA2, (b"e",)),
    by_password(b"R", AES256_SHA2, (b"f",)),
    by_key(AES256, (b"h",), b"\1" * 32),
])
EXAMPLE = b"EXAMPLE.COM"
SITE = in_order([
    by_key(AES256, (b"krbtgt", EXAMPLE), text("krbtgt", 32), 7),
    by_key(AES256, (b"host", b"server.example.com"), text("host", 32), 2**32 - 1),
    by_password(EXAMPLE, AES128, (b"user",), b"password", 256),
    by_password(EXAMPLE, DES3, (b"old",), b"password", 65536),
    by_password(EXAMPLE, AES128_SHA2, (b"new",), b"password", 255),
    salted(AES256_SHA2, (b"a",), 300, b""),
    salted(AES128, (b"a", b"b"), 1, b"\0"),
    salted(AES128, (b"ab",), 2**31, bytes(range(256))),
    by_key(AES128, (b"~" * 255, b"\0\x7f"), bytes(16)),
    by_key(DES3, tuple(b"%x" % place for place in range(16)), b"\xff" * 24),
    salted(AES256_SHA2, (b"longest",), 1, text("salt", ROOM - 7 - 32)),
])
LONG = in_order(SITE[:3] + [salted(AES256, (b"long",), 1, text("salt", ROOM - 7 - 32 + 1))])
# Each file's realm, if it has one, and its accounts.
FILES = {
    "realm": ((b"R", 300, 36000, None), R),
    "site": ((EXAMPLE, 86400, 31536000, text("pkinit", 300)), SITE),
    "alone": ((b"~" * 255, 0, 1, text("pkinit", PKINIT_ROOM)), []),
    "unnamed": (None, SITE),
    "long": ((EXAMPLE, 1, 2, None), LONG),
}
ABSENT = [(), (b"",), (b"nobody",), (b"a", b""), (b"", b"a"), (b"a" * 4095,), (b"a" * 4096,)]
UNSOUND = [
    ("two accounts of one name", EXAMPLE, [SITE[0], (SITE[0][0], SITE[1][1])]),
    ("names out of order", EXAMPLE, [SITE[1], SITE[0]]),
    ("a name of no component", EXAMPLE, [((), SITE[0][1])]),
    ("an empty component", EXAMPLE, [((b"a", b""), SITE[0][1])]),
    ("a component of 256 characters", EXAMPLE, [((b"a" * 256,), SITE[0][1])]),
    ("17 components", EXAMPLE, [((b"a",) * 17, SITE[0][1])]),
    ("a realm of no character", b"", [SITE[0]]),
    ("a realm of 256 characters", b"a" * 256, [SITE[0]]),
]


def records(realm, accounts):
    """In the order of their keys: the realm's is the greatest."""
    made = [(block(name), account_record(account)) for name, account in accounts]
    return made + ([(REALM_KEY, realm_record(realm))] if realm else [])


# ---- Rows -------------------------------------------------------------------------------------------------------------------


def place_of(file, key):
    """The position of the data of a key."""
    return found(file, key)[0]


def record_damages(file, realm, accounts):
    """Changes in each field of a record, as the place of the record's data and what follows."""
    ends = [0, 2, 255]
    for name, (suite, _, key, salt) in accounts:
        at = place_of(file, block(name))
        size = 7 + len(key) + len(salt or b"")
        yield from ((at, bytes([octet])) for octet in ends)
        yield from ((at + 1, bytes([octet])) for octet in [0, 1, 15, 16, 17, 18, 19, 20, 21, 255] if octet != suite)
        yield from ((at + 2, octets) for octets in (bytes(4), b"\0\0\0\1", b"\0\1\0\0", b"\xff" * 4))
        yield from ((at + 6, bytes([octet])) for octet in [0, 1, 2, 255])
        # The record's own size, which precedes its key.
        front = at - len(block(name)) - 4
        yield from ((front, number(count)) for count in (0, 6, 7, 7 + len(key) - 1, 7 + len(key), 7 + len(key) + 1, size + 1, ROOM + 1))
    if realm is None:
        return
    at = place_of(file, REALM_KEY)
    yield from ((at, bytes([octet])) for octet in ends)
    yield from ((at + 1, number(skew)) for skew in (0, 86400, 86401, 2**32 - 1))
    yield from ((at + 5, number(lifetime)) for lifetime in (0, 1, 31536000, 31536001, 2**32 - 1))
    size = len(realm[3] or b"")
    yield from ((at + 9, number(count)) for count in (0, 1, size - 1, size + 1, size + len(realm[0]), size + len(realm[0]) + 1, 2**32 - 1) if count >= 0)
    yield from ((at + 13, number(policy)) for policy in (LIMITS_DES3, 2, 4, 7, 8, 15, 16, 256, 16 * 604800 + 7, 16 * 31536000, 16 * 31536001, 2**32 - 1, 2**29, 2**29 + 8, 2**29 + 16 * 31536000 + 15, 2**29 + 16 * 31536001, 2**30))
    yield from ((at + 17 + size, bytes([octet])) for octet in (0, 127, 128, 255))
    yield from ((at - 5, number(count)) for count in (0, 16, 17, 18, 17 + size, 17 + size + 1, 17 + size + 256, ROOM + 1))


def chance_damages(file, count):
    """Fronts of a file, and octets changed."""
    chance = random.Random(len(file))
    filled = [place for place in range(0, HEADER, PAIR) if file[place + 4]]
    for turn in range(count):
        if turn % 4 == 0:
            yield chance.randrange(len(file)), None
            continue
        position = chance.choice([chance.choice(filled) + chance.randrange(PAIR), chance.randrange(HEADER, len(file))])
        size = chance.choice([1, 1, 4])
        yield position, chance.choice([bytes(size), bytes([255]) * size, bytes(chance.randrange(256) for _ in range(size))])


def damaged(file, position, octets):
    if octets is None:
        return file[:position]
    return (file[:position] + octets + file[position + len(octets) :])[: len(file)]


def damage_rows(file, accounts, damages):
    """What is read in damaged copies: the realm, and each account that is read as another."""
    for position, octets in damages:
        changed = damaged(file, position, octets)
        others = [name for name, _ in accounts if got(changed, name) != got(file, name)]
        if not others and realm_got(changed) == realm_got(file):
            continue
        yield f"cut {position}" if octets is None else f"set {position} {octets.hex()}"
        yield f"realm {realm_got(changed)}"
        for name in others[:2]:
            yield f"get {name_word(name)} {got(changed, name)}"


def file_rows(name, realm, accounts):
    file = database(records(realm, accounts))
    yield f"open {name}.cdb"
    for own, account in accounts:
        yield f"account {name_word(own)} {account_words(account)}"
    yield f"realm {realm_got(file)}"
    for own in [own for own, _ in accounts] + ABSENT:
        yield f"get {name_word(own)} {got(file, own)}"
    if realm:
        yield f"written {'unsound' if name == 'long' else 'equal'} {realm_words(realm)}"


def exchanges():
    """Requests and replies by their labels."""
    with open("../../replay_realm/data/five_suites.txt", encoding="ascii") as lines:
        columns = [line.rstrip("\n").split(" | ") for line in lines if not line.startswith("#")]
    return {label: (request, reply, why) for label, request, reply, why in columns}


# Rows of five_suites.txt that refuse, one or more of each look-up that a reply depends on.
FURTHER = [
    "as realm", "as service absent", "as service unknown", "as client absent", "as client and service absent", "as client unknown",
    "as client and service unknown", "as no padata", "as etype list", "as PA-PK-AS-REQ alone", "as PA-ENC-TIMESTAMP wrong key",
    "as damaged bytes!", "as element missing!", "tgs realm", "tgs service absent", "tgs service unknown", "tgs no padata",
    "tgs AP-REQ junk", "tgs ticket realm", "tgs ticket name of a service", "tgs key number", "tgs ticket wrong key",
    "tgs ticket client realm", "tgs authenticator client", "tgs client no account, service unknown", "tgs damaged structure!",
    "message of one byte!", "message random!", "message two requests!",
]


def reply_rows():
    """Requests and the replies of the realm in its file, whole and damaged."""
    rows = exchanges()
    for label, (request, reply, why) in rows.items():
        if ("granted" in why and not any(odd in label for odd in ("PA-ENC", "timestamp", "AP-REQ", "part ", "authenticator"))) or label in FURTHER:
            yield f"# {label}: {why}"
            yield f"reply {request} {reply}"
    file = database(records(*FILES["realm"]))
    client, other, service = (place_of(file, block(name)) for name in ((b"h",), (b"a",), (b"krbtgt", b"R")))
    request, reply, _ = rows["as honest"]
    unknown, unknown_reply, _ = rows["as client unknown"]
    tgs_request, tgs_reply, _ = rows["tgs honest"]
    yield "# The account h, that of another client, that of krbtgt, and the realm are damaged in turn. The first request is by h for krbtgt, the"
    yield "# second by no client for h."
    yield f"set {client} 00"
    yield f"reply {request} damaged"
    yield f"reply {unknown} damaged"
    yield f"set {other} 00"
    yield f"reply {request} {reply}"
    yield f"reply {unknown} {unknown_reply}"
    yield f"set {service} 00"
    yield f"reply {request} damaged"
    yield f"reply {tgs_request} damaged"
    yield f"set {place_of(file, REALM_KEY)} 00"
    yield f"reply {request} damaged"
    yield f"reply {tgs_request} damaged"
    yield f"reply {rows['message random!'][0]} Unreadable"
    yield f"cut {HEADER}"
    yield f"reply {request} damaged"
    yield "reply - Unreadable"


def rows():
    yield "# Written by account_files.py. 'open' names a file, and 'account' adds an account to those of which a file is written. 'cut' leaves"
    yield "# so many octets of the file, and 'set' changes octets from a position on. The rows up to the next 'open', 'cut' or 'set' are of"
    yield "# that file. Names and octets are in hexadecimal, '-' is no octet, and 'none' no component or no salt."
    for name, (realm, accounts) in FILES.items():
        yield from file_rows(name, realm, accounts)
        if name == "realm":
            yield from reply_rows()
            file = database(records(realm, accounts))
            yield from damage_rows(file, accounts, record_damages(file, realm, accounts))
        if name == "site":
            file = database(records(realm, accounts))
            yield from damage_rows(file, [], record_damages(file, realm, []))
            short = [(own, account) for own, account in accounts if len(account[3] or b"") < 64]
            yield from damage_rows(file, short, chance_damages(file, 200))
    yield "# A file that has no record of the realm gets no reply."
    yield "open unnamed.cdb"
    yield f"reply {exchanges()['as honest'][0]} damaged"
    for what, realm, accounts in UNSOUND:
        yield f"# {what}"
        yield "open alone.cdb"
        for own, account in accounts:
            yield f"account {name_word(own)} {account_words(account)}"
        yield f"written unsound {realm_words((realm, 1, 1, None))}"
    for what, count in ("logins by certificate by no octet", 0), ("logins by certificate by more octets than a record has room for", PKINIT_ROOM + 1):
        yield f"# {what}"
        yield "open alone.cdb"
        yield f"written unsound {realm_words((EXAMPLE, 1, 1, bytes(count)))}"
    yield "# A read of a folder fails."
    yield f"failing . {name_word((b'a',))}"


def stock(tool, made):
    with tempfile.TemporaryDirectory() as folder:
        lines = b"".join(b"+%d,%d:%s->%s\n" % (len(key), len(content), key, content) for key, content in made) + b"\n"
        subprocess.run([tool, "-c", f"{folder}/made.cdb"], input=lines, check=True)
        with open(f"{folder}/made.cdb", "rb") as file:
            return file.read()


def main():
    # The keys of RFC 3961, appendix A.4, and of RFC 8009, appendix A. The keys of RFC 3962 are tried by the replies.
    salt = b"ATHENA.MIT.EDUraeburn"
    longer = bytes.fromhex("10DF9DD783E5BC8ACEA1730E74355F61") + salt
    assert key_of(DES3, b"password", salt).hex() == "850bb51358548cd05e86768c313e3bfef7511937dcf72c3e"
    assert key_of(AES128_SHA2, b"password", longer).hex() == "089bca48b105ea6ea77ca5d2f39dc5e7"
    assert key_of(AES256_SHA2, b"password", longer).hex() == "45bd806dbf6a833a9cffc1c94589a222367a79bc21c413718906e9f578a78467"
    for name, (realm, accounts) in FILES.items():
        made = records(realm, accounts)
        octets = database(made)
        with open(f"{name}.cdb", "wb") as file:
            file.write(octets)
        if sys.argv[1:2] == ["--stock"]:
            print(name, "as the stock tool makes it" if stock(sys.argv[2], made) == octets else "OTHERWISE")
    with open("account_files.txt", "w", encoding="ascii") as file:
        file.write("".join(row + "\n" for row in rows()))


if __name__ == "__main__":
    main()
