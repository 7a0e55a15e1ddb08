#!/usr/bin/env python3
"""Writes rows.txt: keytabs, what each is read as, and the octets that are then written.

This is an independent reader and writer of MIT's file keytab format 0x0502, by its description. It shares no code with the program
that replays the rows. `mit.keytab` is of MIT 1.20.1's ktutil, `removed.keytab` the same once libkrb5 removed an entry, which leaves a hole,
and `heimdal.keytab` is of Heimdal 7.8.0's ktutil. Damages are fixed, so each run writes the same file.

usage: python3 keytabs.py                    in this folder: writes rows.txt
       python3 keytabs.py --write NAME       writes the keytab of this name's records again, as the program does, for stock tools to read
"""
import random
import struct
import sys

SIZES = {16: 24, 17: 16, 18: 32, 19: 16, 20: 32}


class Fault(Exception):
    pass


def past(offset):
    raise Fault(f"the field at offset {offset} of the keytab ends past its record")


def truncated(offset):
    raise Fault(f"the keytab ends inside what begins at offset {offset}")


class Reader:
    def __init__(self, octets, place, end):
        self.octets, self.place, self.end = octets, place, end

    def take(self, form):
        size = struct.calcsize(form)
        if self.end - self.place < size:
            past(self.place)
        values = struct.unpack_from(form, self.octets, self.place)
        self.place += size
        return values if len(values) > 1 else values[0]

    def counted(self):
        begin = self.place
        size = self.take(">H")
        if self.end - self.place < size:
            past(begin)
        self.place += size
        return self.octets[self.place - size:self.place]

    def text(self):
        begin = self.place
        octets = self.counted()
        if any(octet > 127 for octet in octets):
            raise Fault(f"the name at offset {begin} of the keytab has a character that is not ASCII")
        return octets


def entry_of(octets, place, end):
    reader = Reader(octets, place, end)
    count = reader.take(">H")
    realm = reader.text()
    components = [reader.text() for _ in range(count)]
    name_type, timestamp, kvno, etype = reader.take(">IIBH")
    key = reader.counted()
    if end - reader.place >= 4:
        kvno = reader.take(">I") or kvno
    return realm, components, name_type, timestamp, kvno, etype, key


def read(octets):
    if len(octets) < 2:
        truncated(0)
    version = int.from_bytes(octets[:2], "big")
    if version != 0x0502:
        raise Fault(f"the keytab has version {version}, and not 1282 (0x0502)")
    place, entries = 2, []
    while place < len(octets):
        if len(octets) - place < 4:
            truncated(place)
        size = int.from_bytes(octets[place:place + 4], "big", signed=True)
        if size == 0:
            break
        if len(octets) - place - 4 < abs(size):
            truncated(place)
        end = place + 4 + abs(size)
        if size > 0:
            entries.append(entry_of(octets, place + 4, end))
        place = end
    return entries


def counted(octets):
    return struct.pack(">H", len(octets)) + octets


def write(entries):
    whole = b"\5\2"
    for realm, components, name_type, timestamp, kvno, etype, key in entries:
        body = struct.pack(">H", len(components)) + counted(realm) + b"".join(map(counted, components))
        body += struct.pack(">IIBH", name_type, timestamp, kvno & 255, etype) + counted(key) + struct.pack(">I", kvno)
        whole += struct.pack(">I", len(body)) + body
    return whole


def text_of(entry):
    realm, components, name_type, timestamp, kvno, etype, key = entry
    name = "".join("/" + component.hex() for component in components) + "@" + realm.hex()
    known = "known" if SIZES.get(etype) == len(key) else "unknown"
    return f"{name} {name_type} {timestamp} {kvno} {etype} {key.hex()} {known};"


def row(octets):
    try:
        entries = read(octets)
    except Fault as fault:
        return f"{octets.hex()}|{fault}|"
    return f"{octets.hex()}|{''.join(map(text_of, entries))}|{write(entries).hex()}"


def damaged(octets, chance):
    changed = bytearray(octets)
    for _ in range(chance.randrange(1, 4)):
        changed[chance.randrange(len(changed))] = chance.choice((0, 1, 4, 127, 128, 255, chance.randrange(256)))
    return bytes(changed)


def files():
    return [open(name, "rb").read() for name in ("mit.keytab", "removed.keytab", "heimdal.keytab")]


def rows():
    """The octets of each row, behind a text that says what the rows are of."""
    whole = files()
    some = read(whole[0])[0]
    realm, components, name_type, timestamp, kvno, etype, key = some
    yield "stock keytabs"
    yield from whole
    yield "versions and ends"
    yield from (b"", b"\5", b"\5\2", b"\5\1" + whole[0][2:], b"\5\3", b"\4\2", b"\2\5", b"\5\2\0\0\0", b"\5\2\0\0\0\0", b"\5\2\0\0\0\0junk")
    yield "holes and sizes"
    yield from (b"\5\2\xff\xff\xff\xfejk", b"\5\2\xff\xff\xff\xfdjk", b"\5\2\x80\0\0\0", b"\5\2\x7f\xff\xff\xff", b"\5\2\0\0\0\1\0")
    yield "kvno of 8 and of 32 bits"
    for number in (0, 1, 255, 256, 257, 511, 65536, 2 ** 32 - 1):
        yield write([(realm, components, name_type, timestamp, number, etype, key)])
    for left in (b"", b"\0\0\0", b"\0\0\0\0", b"\0\0\1\0", b"\0\0\1\0\0\0\0\0", b"\xff\xff\xff\xff\xff"):
        body = write([some])[6:-4] + left
        yield b"\5\2" + struct.pack(">I", len(body)) + body
    yield "least and greatest fields"
    yield write([(b"", [], 0, 0, 0, 0, b""), (b"R", [b"", b"", b"a" * 300], 2 ** 32 - 1, 2 ** 32 - 1, 2 ** 32 - 1, 65535, b"\0" * 16)])
    yield write([(realm, components, name_type, timestamp, kvno, number, key) for number in range(14, 24)])
    yield write([(realm, components, name_type, timestamp, kvno, number, key[:16]) for number in range(14, 24)])
    yield "names that aren't ASCII"
    yield write([(b"R\x80", [], 0, 0, 0, 0, b"")])
    yield write([(b"R", [b"a", b"\xff"], 0, 0, 0, 0, b"")])
    yield "stock keytabs that are cut"
    for octets in whole:
        for size in range(len(octets)):
            yield octets[:size]
    yield "stock keytabs with octets changed"
    chance = random.Random(1)
    for _ in range(400):
        yield damaged(chance.choice(whole), chance)


def main():
    if sys.argv[1:2] == ["--write"]:
        sys.stdout.buffer.write(write(read(open(sys.argv[2], "rb").read())))
        return
    with open("rows.txt", "w") as out:
        out.write("# Written by keytabs.py: a file's octets, what they are read as, and the octets that are then written.\n")
        for it in rows():
            out.write((f"# {it}" if isinstance(it, str) else row(it)) + "\n")


main()
