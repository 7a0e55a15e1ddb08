"""Realms in files, written and read by another hand than the kit's programs: constant databases (D. J. Bernstein, 'A structure for constant
databases') with the records that specs/ of crates/krb_realm_files describe.

usage: account_files.py DATABASE NAME..     what the database says of its realm, and of these accounts: components with / between them
"""
import array, collections, struct, sys

TABLES, PAIR = 256, 8  # hash tables of a file; octets of a pointer, of a slot, and of a record's two lengths
VERSION = 1
ROOM = 8_192  # octets of a record, at most
BLOCK = 4_096  # octets of a name's block, at most
REALM_KEY = b"\xff"
KEY_SIZES = {16: 24, 17: 16, 18: 32, 19: 16, 20: 32}  # by the numbers of the suites
SKEW_LIMIT, LIFETIME_LIMIT = 86_400, 31_536_000
RENEWABLE_SECOND, PKINIT_SHA1 = 16, 2**29  # what a policy's number has for each second of the renewable life, and behind all of them

SALT, OLDER_KEYS, ATTRIBUTES = 1, 2, 4  # marks: what a record has behind its key
FORMER_LIMIT = 15
OFF, MUST_CHANGE, NO_SERVICE = 1, 2, 4  # marks of attributes

Attributes = collections.namedtuple("Attributes", "ends lifetime marks", defaults=[0, 0, 0])  # ends: a second since year 0
Account = collections.namedtuple("Account", "suite key kvno salt attributes older", defaults=[Attributes(), ()])  # salt: octets or None
Realm = collections.namedtuple("Realm", "name skew lifetime policy", defaults=[0])  # policy: its number


class Damaged(Exception):
    """A position is past the end of the file, or a record is none."""


def block(name):
    """The key of a name, which is a tuple of octets: each octet plus one, and a zero behind each component."""
    return b"".join(bytes(octet + 1 for octet in component) + b"\0" for component in name)


def account_record(account):
    has_attributes = account.attributes != Attributes()
    marks = SALT * (account.salt is not None) + OLDER_KEYS * bool(account.older) + ATTRIBUTES * has_attributes
    further = struct.pack("<QIB", *account.attributes) if has_attributes else b""
    if account.older:
        further += bytes([len(account.older)]) + b"".join(struct.pack("<BI", suite, kvno) + key for suite, kvno, key in account.older)
    return struct.pack("<BBIB", VERSION, account.suite, account.kvno, marks) + account.key + further + (account.salt or b"")


def realm_record(realm):
    return struct.pack("<BIIII", VERSION, realm.skew, realm.lifetime, 0, realm.policy) + realm.name


def hash_of(key):
    value = 5381
    for octet in key:
        value = value * 33 & 0xFFFFFFFF ^ octet
    return value


# Writing

def write_records(path, records):
    """Writes a database of records, each a key with its data. A hash table has twice as many slots as records."""
    entries, at = [array.array("I") for _ in range(TABLES)], TABLES * PAIR
    with open(path, "wb") as file:
        file.write(bytes(at))
        for key, data in records:
            value = hash_of(key)
            entries[value % TABLES].extend((value, at))
            file.write(struct.pack("<II", len(key), len(data)) + key + data)
            at += PAIR + len(key) + len(data)
        header = b""
        for entry in entries:
            slots = table_of(entry)
            file.write(struct.pack(f"<{len(slots)}I", *slots))
            header += struct.pack("<II", at, len(slots) // 2)
            at += 4 * len(slots)
        file.seek(0)
        file.write(header)


def table_of(entry):
    """The slots of a hash table, from pairs of a hash and a position."""
    count = len(entry)  # twice the records
    slots = [0] * (2 * count)
    for value, at in zip(entry[::2], entry[1::2]):
        slot = value // TABLES % count
        while slots[2 * slot + 1]:
            slot = (slot + 1) % count
        slots[2 * slot : 2 * slot + 2] = value, at
    return slots


def write_realm(path, realm, accounts):
    """Writes a realm and its accounts, pairs of a name and an account, in the order of their names' blocks."""
    records = sorted((block(name), account_record(account)) for name, account in accounts)
    write_records(path, [*records, (REALM_KEY, realm_record(realm))])


# Reading

class File:
    """The octets of a database, and which of them were read."""
    def __init__(self, octets):
        self.octets, self.read = octets, []

    def part(self, at, size):
        if at + size > len(self.octets):
            raise Damaged
        self.read.append((at, size))
        return self.octets[at : at + size]

    def pair(self, at):
        return struct.unpack("<II", self.part(at, PAIR))

    def find(self, key):
        """The data of a key, or None."""
        value = hash_of(key)
        start, count = self.pair(value % TABLES * PAIR)
        for number in range(count):
            slot_value, at = self.pair(start + PAIR * ((value // TABLES + number) % count))
            if at == 0:
                return None
            if slot_value == value:
                key_size, size = self.pair(at)
                if key_size == len(key) and self.part(at + PAIR, key_size) == key:
                    if size > ROOM:
                        raise Damaged
                    return self.part(at + PAIR + key_size, size)
        return None

    def account(self, name):
        """The account of a name, or None."""
        if any(octet > 127 for component in name for octet in component) or len(block(name)) > BLOCK:
            return None
        data = self.find(block(name))
        return None if data is None else account_in(data)

    def realm(self):
        data = self.find(REALM_KEY)
        if data is None:
            raise Damaged
        return realm_in(data)


def account_in(data):
    if len(data) < 7:
        raise Damaged
    version, suite, kvno, marks = struct.unpack("<BBIB", data[:7])
    size = KEY_SIZES.get(suite, len(data))
    key, further = data[7 : 7 + size], data[7 + size :]
    if version != VERSION or kvno == 0 or len(key) < size or marks > SALT + OLDER_KEYS + ATTRIBUTES:
        raise Damaged
    attributes, further = attributes_in(further) if marks & ATTRIBUTES else (Attributes(), further)
    older, salt = older_in(kvno, further) if marks & OLDER_KEYS else ((), further)
    if salt and not marks & SALT:
        raise Damaged
    return Account(suite, key, kvno, salt if marks & SALT else None, attributes, older)


def attributes_in(octets):
    """The attributes in front, and what is behind them."""
    if len(octets) < 13 or octets[12] > OFF + MUST_CHANGE + NO_SERVICE:
        raise Damaged
    return Attributes(*struct.unpack("<QIB", octets[:13])), octets[13:]


def older_in(below, octets):
    """The older keys in front, whose kvnos fall, and what is behind them."""
    keys = []
    if not octets or not 1 <= octets[0] <= FORMER_LIMIT:
        raise Damaged
    count, octets = octets[0], octets[1:]
    for _ in range(count):
        if len(octets) < 5 or octets[0] not in KEY_SIZES:
            raise Damaged
        suite, kvno = struct.unpack("<BI", octets[:5])
        size = 5 + KEY_SIZES[suite]
        if not 1 <= kvno < below or len(octets) < size:
            raise Damaged
        keys.append((suite, kvno, octets[5:size]))
        below, octets = kvno, octets[size:]
    return tuple(keys), octets


def realm_in(data):
    if len(data) < 17:
        raise Damaged
    version, skew, lifetime, pkinit, policy = struct.unpack("<BIIII", data[:17])
    name = data[17:]
    is_policy = policy < 2 * PKINIT_SHA1 and policy % PKINIT_SHA1 // RENEWABLE_SECOND <= LIFETIME_LIMIT
    if version != VERSION or pkinit or not is_policy or skew > SKEW_LIMIT or not 1 <= lifetime <= LIFETIME_LIMIT:
        raise Damaged
    if not 1 <= len(name) <= 255 or max(name) > 127:
        raise Damaged
    return Realm(name, skew, lifetime, policy)


def told(read, *arguments):
    try:
        return read(*arguments)
    except Damaged:
        return "damaged"


if __name__ == "__main__":
    if len(sys.argv) < 2:
        sys.exit(__doc__)
    with open(sys.argv[1], "rb") as it:
        file = File(it.read())
    print(told(file.realm))
    for word in sys.argv[2:]:
        print(f"{word}: {told(file.account, tuple(component.encode() for component in word.split('/')))}")
