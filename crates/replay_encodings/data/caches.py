#!/usr/bin/env python3
"""Writes caches.txt: credential caches, and what each is read as.

This is an independent reader of MIT's file credential cache format 0x0504, by its description. It shares no code with the program that
replays the rows. `mit.cache` is of MIT 1.20.1's kinit and kvno at MIT's krb5kdc, `addresses.cache` of its `kinit -a`, and
`heimdal.cache` of Heimdal 7.8.0's kinit and kgetcred at the same KDC. Damages are fixed, so each run writes the same file.

A row is NAME|PLACE|HEX|SIZE|TEXT: a file, of which the octets from PLACE on are replaced by HEX, and which is then cut to SIZE octets.
NAME is empty where HEX is the whole file.

usage: python3 caches.py                     in this folder: writes caches.txt
"""
import random
import struct

FILES = ("mit.cache", "addresses.cache", "heimdal.cache")


class Fault(Exception):
    pass


class Reader:
    """Reads fields in turn, and keeps the offset, the size and the kind of each."""

    def __init__(self, octets):
        self.octets, self.place, self.end, self.fields = octets, 0, len(octets), []

    def cut(self, size, kind):
        if self.end - self.place < size:
            raise Fault(f"the field at offset {self.place} of the credential cache ends past the file or the header")
        self.fields.append((self.place, size, kind))
        self.place += size
        return self.octets[self.place - size:self.place]

    def number(self, size, kind="number"):
        return int.from_bytes(self.cut(size, kind), "big")

    def data(self, size=4):
        return self.cut(self.number(size, "length"), "octets")

    def text(self):
        begin = self.place
        octets = self.data()
        if any(octet > 127 for octet in octets):
            raise Fault(f"the name at offset {begin} of the credential cache has a character that is not ASCII")
        return octets

    def principal(self):
        name_type, count = self.number(4), self.number(4, "length")
        realm = self.text()
        name = f"{name_type}" + "".join("/" + self.text().hex() for _ in range(count)) + "@" + realm.hex()
        return name + (" configuration" if realm == b"X-CACHECONF:" else "")

    def typed(self):
        return f" {self.number(2)}:{self.data().hex()}"

    def listed(self):
        return "".join(self.typed() for _ in range(self.number(4, "length")))

    def credential(self):
        text = f"; {self.principal()} {self.principal()}{self.typed()}"
        text += "".join(f" {self.number(4)}" for _ in range(4)) + f" {self.number(1)} {self.number(4)}"
        text += f" ({self.listed()}) ({self.listed()})"
        return text + f" {len(self.data())} {len(self.data())}"

    def cache(self):
        version = self.number(2)
        if version != 0x0504:
            raise Fault(f"the credential cache has version {version}, and not 1284 (0x0504)")
        size = self.number(2, "length")
        end = self.place + size
        if self.end < end:
            self.cut(size, "octets")
        whole, self.end = self.end, end
        text = ""
        while self.place < end:
            text += f"{self.number(2)}:{self.data(2).hex()} "
        self.end = whole
        text += self.principal()
        while self.place < self.end:
            text += self.credential()
        return text


def text_of(octets):
    try:
        return Reader(octets).cache()
    except Fault as fault:
        return str(fault)


def principal(name_type, realm, components):
    return struct.pack(">II", name_type, len(components)) + b"".join(map(counted, [realm, *components]))


def counted(octets):
    return struct.pack(">I", len(octets)) + octets


def typed(kind, octets):
    return struct.pack(">H", kind) + counted(octets)


def listed(items):
    return struct.pack(">I", len(items)) + b"".join(typed(*item) for item in items)


def credential(client, server, key, times, is_skey, flags, addresses, elements, ticket, second):
    return client + server + typed(*key) + struct.pack(">IIIIBI", *times, is_skey, flags) + listed(addresses) + listed(elements) + counted(ticket) + counted(second)


def row(name, place=0, octets=b"", size=None):
    whole = open(name, "rb").read() if name else octets
    size = len(whole) if size is None else size
    changed = (whole[:place] + octets + whole[place + len(octets):])[:size]
    return f"{name}|{place}|{octets.hex()}|{size}|{text_of(changed)}"


def rows():
    """Rows, behind a text that says what they are of."""
    yield "stock caches"
    yield from map(row, FILES)
    yield "versions and ends"
    for octets in (b"", b"\5", b"\5\4", b"\5\1", b"\5\2", b"\5\3", b"\5\5", b"\4\5", b"\0\0", b"\5\4\0", b"\5\4\0\0"):
        yield row("", octets=octets)
    for version in (b"\5\1", b"\5\2", b"\5\3"):
        yield row(FILES[0], octets=version)
    none, most = principal(0, b"", []), principal(2 ** 32 - 1, b"R" * 300, [b"", b"", b"a" * 300])
    yield "header tags"
    for tags in (b"", b"\0\1\0\0", b"\0\1\0\0\xff\xff\0\2ab", b"\0\1\0\3ab", b"\0\1\0", b"\0", b"\0\1\0\2ab\0"):
        yield row("", octets=b"\5\4" + struct.pack(">H", len(tags)) + tags + none)
    yield row("", octets=b"\5\4\xff\xff" + b"\0\1\xff\xfb" + b"x" * 65531 + none)
    yield "least and greatest fields"
    yield row("", octets=b"\5\4\0\0" + none + credential(none, none, (0, b""), (0, 0, 0, 0), 0, 0, [], [], b"", b""))
    big = 2 ** 32 - 1
    typeds = [(65535, b"a" * 300), (0, b""), (1, b"\xff")]
    yield row("", octets=b"\5\4\0\0" + most + credential(none, none, (65535, b"k" * 300), (big, big, big, big), 255, big, typeds, typeds, b"t" * 400, b"s"))
    yield "names that aren't ASCII"
    yield row("", octets=b"\5\4\0\0" + principal(1, b"R\x80", []))
    yield row("", octets=b"\5\4\0\0" + principal(1, b"R", [b"a", b"\xff"]))
    yield row("", octets=b"\5\4\0\0" + none + principal(1, b"X-CACHECONF:", [b"a\xc3\xa9"]))
    for name in FILES:
        whole = open(name, "rb").read()
        reader = Reader(whole)
        reader.cache()
        yield f"{name}: cut at each field"
        for place in sorted({at for begin, size, _ in reader.fields for at in (begin, begin + size - 1)}):
            yield row(name, place, size=place)
        yield f"{name}: lengths and counts past the end"
        for begin, size, kind in reader.fields:
            if kind == "length":
                yield row(name, begin, b"\xff" * size)
                yield row(name, begin, min(len(whole) - begin - size + 1, 256 ** size - 1).to_bytes(size, "big"))
    yield "stock caches with an octet changed"
    chance = random.Random(1)
    for _ in range(200):
        name = chance.choice(FILES)
        place = chance.randrange(len(open(name, "rb").read()))
        yield row(name, place, bytes([chance.choice((0, 1, 4, 127, 128, 255, chance.randrange(256)))]))


def main():
    with open("caches.txt", "w") as out:
        out.write("# Written by caches.py, which says what a row is: credential caches, and what each is read as.\n")
        for it in rows():
            out.write((it if "|" in it else f"# {it}") + "\n")


main()
