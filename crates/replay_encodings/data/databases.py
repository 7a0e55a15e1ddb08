#!/usr/bin/env python3
"""Writes databases in the format cdb (the .cdb files of this folder), and databases.txt: look-ups in them and the outcome of each.

This is an independent writer and reader of the format, by its description (D. J. Bernstein, 'A structure for constant databases'). It
shares no code with the program that replays the rows. Keys, data and damages are fixed, so each run writes the same files.

usage: python3 databases.py                 in this folder: writes the files
       python3 databases.py --stock CDB     also makes each database by the stock tool CDB (tinycdb's `cdb`), and compares the octets
"""
import hashlib
import random
import subprocess
import sys
import tempfile

TABLES = 256
PAIR = 8
HEADER = TABLES * PAIR
ROOM = 512


# ---- The format -------------------------------------------------------------------------------------------------------------

def number(value):
    return value.to_bytes(4, "little")


def hash_of(key):
    value = 5381
    for octet in key:
        value = ((value << 5) + value) & 0xFFFFFFFF ^ octet
    return value


def database(records):
    """The octets of a file of these records, in their order: the header, the records, and the hash tables."""
    body, entries = b"", [[] for _ in range(TABLES)]
    for key, content in records:
        entries[hash_of(key) % TABLES].append((hash_of(key), HEADER + len(body)))
        body += number(len(key)) + number(len(content)) + key + content
    header, position = b"", HEADER + len(body)
    for table in entries:
        slots = [(0, 0)] * (2 * len(table))
        for value, at in table:
            slot = value // TABLES % len(slots)
            while slots[slot][1] != 0:
                slot = (slot + 1) % len(slots)
            slots[slot] = (value, at)
        header += number(position) + number(len(slots))
        body += b"".join(number(value) + number(at) for value, at in slots)
        position += PAIR * len(slots)
    return header + body


class Damaged(Exception):
    """A position is past the end of the file."""


def part(file, position, size):
    if position + size > len(file):
        raise Damaged
    return file[position : position + size]


def pair(file, position):
    octets = part(file, position, PAIR)
    return int.from_bytes(octets[:4], "little"), int.from_bytes(octets[4:], "little")


def found(file, key):
    """The position and the size of the key's data, or None."""
    value = hash_of(key)
    start, slots = pair(file, value % TABLES * PAIR)
    for turn in range(slots):
        slot = (value // TABLES + turn) % slots
        slot_hash, at = pair(file, start + PAIR * slot)
        if at == 0:
            return None
        if slot_hash != value:
            continue
        key_size, size = pair(file, at)
        if key_size == len(key) and part(file, at + PAIR, key_size) == key:
            return at + PAIR + key_size, size
    return None


def outcome(file, key, room=ROOM):
    """What a look-up says, as a word and perhaps the data."""
    try:
        where = found(file, key)
        if where is None:
            return "none"
        if where[1] > room:
            return "long"
        return "data " + word(part(file, *where))
    except Damaged:
        return "damaged"


# ---- Records ----------------------------------------------------------------------------------------------------------------

def word(octets):
    return octets.hex() or "-"


def text(seed, size):
    """Octets that any run gives again."""
    octets, turn = b"", 0
    while len(octets) < size:
        octets += hashlib.sha256(f"{seed} {turn}".encode()).digest()
        turn += 1
    return octets[:size]


def of_equal_hash(count, size):
    """Keys of one size that have one hash."""
    groups = {}
    for turn in range(1 << 20):
        key = bytes([97 + turn % 26]) + turn.to_bytes(3, "big")[: size - 2] + bytes([turn // 26 % 256])
        group = groups.setdefault(hash_of(key), [])
        if key not in group:
            group.append(key)
        if len(group) == count:
            return group
    raise AssertionError("no such keys")


def of_table(table, count):
    """Keys of one hash table whose searches start at its last slot."""
    keys, turn = [], 0
    while len(keys) < count:
        key = b"wrap%d" % turn
        if hash_of(key) % TABLES == table and hash_of(key) // TABLES % (2 * count) == 2 * count - 1:
            keys.append(key)
        turn += 1
    return keys


USERS = sorted((b"user%02d" % index, text(index, index % 64)) for index in range(100))
EQUAL = of_equal_hash(4, 4)
WRAPPED = of_table(17, 5)
DATABASES = {
    "empty": [],
    "short": [(b"", b""), (b"\0", b"\0"), (b"a", b""), (b"b", text("b", ROOM)), (b"c", text("c", ROOM + 1))],
    "users": USERS,
    "equal": sorted((key, text(key, 20)) for key in EQUAL[:3]),
    "wrapped": sorted((key, text(key, 9)) for key in WRAPPED),
    "twice": [(b"one", b"first"), (b"one", b"second"), (b"two", b"third")],
    "long_key": [(text("long", 4096), b"data")],
}


# ---- Rows -------------------------------------------------------------------------------------------------------------------

def damages(file, count):
    """Damages of a file: fronts of it, and octets changed, in the header and the hash tables more often than elsewhere."""
    chance = random.Random(len(file))
    filled = [place for place in range(0, HEADER, PAIR) if file[place + 4]]
    for turn in range(count):
        if turn % 4 == 0:
            yield "cut %d" % chance.randrange(len(file)), None
            continue
        position = chance.choice([chance.choice(filled) + chance.randrange(PAIR), chance.randrange(HEADER, len(file))])
        size = chance.choice([1, 1, 4])
        octets = chance.choice([bytes(size), bytes([255]) * size, bytes(chance.randrange(256) for _ in range(size))])
        yield "set %d %s" % (position, octets.hex()), (position, octets)


def damaged(file, words, change):
    if change is None:
        return file[: int(words.split()[1])]
    position, octets = change
    return (file[:position] + octets + file[position + len(octets) :])[: len(file)]


def rows():
    yield "# Written by databases.py. 'open' names a file, and 'record' adds a record to those that it is compared with. 'cut' leaves so"
    yield "# many octets of the file, and 'set' changes octets from a position on. The rows up to the next 'open', 'cut' or 'set' are of"
    yield "# that file."
    for name, records in DATABASES.items():
        file = database(records)
        yield f"open {name}.cdb"
        for key, content in records:
            yield f"record {word(key)} {word(content)}"
        keys = sorted({key for key, _ in records})
        absent = [b"", b"user", b"user100", b"z", EQUAL[3]]
        longest = max((len(content) for _, content in records), default=0)
        for key in keys + [key for key in absent if key not in keys]:
            yield f"get {word(key)} {outcome(file, key)}"
        for room in (0, 19, 20):
            for key in keys[:2]:
                yield f"room {room} {word(key)} {outcome(file, key, room)}"
        once = len(keys) == len(records)
        yield "judged " + ("long" if longest > ROOM else "true" if once else "false")
        yield "written " + ("equal" if once and longest <= ROOM else "unsound")
        for words, change in damages(file, 300 if name == "users" else 0):
            changed = damaged(file, words, change)
            seen = [outcome(changed, key) for key in keys]
            which = [index for index, key in enumerate(keys) if seen[index] != outcome(file, key)]
            if not which:
                continue
            yield words
            for index in which[:2]:
                yield f"get {word(keys[index])} {seen[index]}"
            yield "judged other"
    yield from others()
    yield "# A read of a folder fails."
    yield "failing . 61"


def others():
    """Records that a file doesn't answer as."""
    yield "open users.cdb"
    for key, content in USERS[1:]:
        yield f"record {word(key)} {word(content)}"
    yield "judged false"
    yield "open users.cdb"
    for key, content in USERS + [(b"z", b"")]:
        yield f"record {word(key)} {word(content)}"
    yield "judged false"
    yield "open users.cdb"
    for key, content in [(key, content + b"\0" * (key == b"user50")) for key, content in USERS]:
        yield f"record {word(key)} {word(content)}"
    yield "judged false"
    yield "open twice.cdb"
    for key, content in ((b"one", b"first"), (b"two", b"third")):
        yield f"record {word(key)} {word(content)}"
    yield "judged true"
    yield "open empty.cdb"
    yield f"record {word(b'b')} -"
    yield f"record {word(b'a')} -"
    yield "written unsound"
    yield "open empty.cdb"
    yield f"record {word(text('long', 4097))} -"
    yield "written unsound"


def stock(tool, records):
    with tempfile.TemporaryDirectory() as folder:
        lines = b"".join(b"+%d,%d:%s->%s\n" % (len(key), len(content), key, content) for key, content in records) + b"\n"
        subprocess.run([tool, "-c", f"{folder}/made.cdb"], input=lines, check=True)
        with open(f"{folder}/made.cdb", "rb") as made:
            return made.read()


def main():
    assert hash_of(b"a") == 177604 and len({hash_of(key) for key in EQUAL}) == 1
    for name, records in DATABASES.items():
        octets = database(records)
        with open(f"{name}.cdb", "wb") as file:
            file.write(octets)
        if sys.argv[1:2] == ["--stock"]:
            print(name, "as the stock tool makes it" if stock(sys.argv[2], records) == octets else "OTHERWISE")
    with open("databases.txt", "w", encoding="ascii") as file:
        file.write("".join(row + "\n" for row in rows()))


if __name__ == "__main__":
    main()
