#!/usr/bin/env python3
"""Writes the rows of pac.txt: octets of buffers of a PAC, and what they state or why they are refused. A writer and a reader of their own
make them by MS-PAC, MS-RPCE and C706, with the standard library alone. The first row is the example of MS-PAC, section 3."""
import random
import struct
from os.path import dirname, join

HEADER = bytes([1, 16, 8, 0])


class Refused(Exception):
    pass


class Out:
    """A writer of NDR: referents follow the structure of their pointers."""

    def __init__(self, first_id=0x20000):
        self.octets = bytearray()
        self.later = []
        self.next_id = first_id

    def align(self, size):
        self.octets += bytes(-len(self.octets) % size)

    def u16(self, number):
        self.align(2)
        self.octets += struct.pack("<H", number)

    def u32(self, number):
        self.align(4)
        self.octets += struct.pack("<I", number)

    def pointer(self, write):
        self.u32(0 if write is None else self.next_id)
        if write is not None:
            self.next_id += 4
            self.later.append(write)

    def text(self, text, spare):
        if text is None:
            self.u32(0)
            return self.pointer(None)
        units = text.encode("utf-16-le")
        self.u16(len(units))
        self.u16(len(units) + 2 * spare)

        def write(out):
            for count in (len(units) // 2 + spare, 0, len(units) // 2):
                out.u32(count)
            out.octets += units

        self.pointer(write)

    def flush(self):
        while self.later:
            now, self.later = self.later, []
            for write in now:
                write(self)
                self.flush()


def sid_octets(sid):
    authority, parts = sid
    return bytes([1, len(parts)]) + authority.to_bytes(6, "big") + b"".join(struct.pack("<I", part) for part in parts)


def rpc_sid(sid):
    def write(out):
        out.u32(len(sid[1]))
        out.octets += sid_octets(sid)

    return write


def listed(out, items, write_item):
    """The count of an array, and its pointer."""
    out.u32(len(items or []))

    def write(out):
        out.u32(len(items))
        for item in items:
            write_item(out, item)

    out.pointer(None if items is None else write)


def group(out, item):
    out.u32(item[0])
    out.u32(item[1])


def sid_row(out, item):
    out.pointer(rpc_sid(item[0]))
    out.u32(item[1])


def fixed_part(value):
    def write(out):
        for moment in value["times"]:
            out.u32(moment & 0xFFFFFFFF)
            out.u32(moment >> 32)
        for name in value["names"]:
            out.text(name, value["spare"])
        for number in value["counts"]:
            out.u16(number)
        out.u32(value["user"])
        out.u32(value["primary"])
        listed(out, value["groups"], group)
        out.u32(value["flags"])
        out.octets += value["key"]
        out.text(value["server"], 1)
        out.text(value["domain"], 1)
        out.pointer(rpc_sid(value["domain_sid"]))
        out.octets += value["unread"][:8]
        out.u32(value["control"])
        out.octets += value["unread"][8:36]
        listed(out, value["extra"], sid_row)
        out.pointer(value["resource_sid"] and rpc_sid(value["resource_sid"]))
        listed(out, value["resources"], group)

    return write


def logon_octets(value):
    out = Out(value["first_id"])
    out.octets += bytes(16)
    out.pointer(fixed_part(value))
    out.flush()
    out.align(8)
    out.octets[:16] = HEADER + b"\xcc" * 4 + struct.pack("<I", len(out.octets) - 16) + value["filler"]
    return bytes(out.octets)


class In:
    """A reader of NDR."""

    def __init__(self, octets):
        self.octets = octets
        self.at = 0

    def take(self, size):
        if len(self.octets) < self.at + size:
            raise Refused("Short")
        taken = self.octets[self.at:self.at + size]
        self.at += size
        return taken

    def align(self, size):
        self.at += -self.at % size

    def u16(self):
        self.align(2)
        return struct.unpack("<H", self.take(2))[0]

    def u32(self):
        self.align(4)
        return struct.unpack("<I", self.take(4))[0]

    def count(self, wanted):
        if self.u32() != wanted:
            raise Refused("Count")

    def sid(self, count=None):
        head = self.take(8)
        if head[0] != 1 or head[1] > 15:
            raise Refused("Sid")
        if count is not None and head[1] != count:
            raise Refused("Count")
        parts = [self.u32() for _ in range(head[1])]
        authority = int.from_bytes(head[2:], "big")
        return "-".join(["S-1", str(authority) if authority < 2**32 else "0x%012x" % authority] + [str(part) for part in parts])

    def rpc_sid(self):
        return self.sid(self.u32())

    def text(self, head):
        length, maximum, pointer = struct.unpack("<HHI", head)
        if length % 2 or maximum % 2 or length > maximum or (maximum and not pointer):
            raise Refused("Lengths")
        if not pointer:
            return "."
        for count in (maximum // 2, 0, length // 2):
            self.count(count)
        return units_text([self.u16() for _ in range(length // 2)])

    def listed(self, head):
        count, pointer = struct.unpack("<II", head)
        if not pointer:
            if count:
                raise Refused("Null")
            return 0
        self.count(count)
        return count

    def groups(self, head):
        return ",".join("%d:%d" % (self.u32(), self.u32()) for _ in range(self.listed(head))) or "."

    def sid_rows(self, head):
        rows = []
        for _ in range(self.listed(head)):
            if not self.u32():
                raise Refused("Null")
            rows.append(self.u32())
        return ",".join(["%s:%d" % (self.rpc_sid(), attributes) for attributes in rows]) or "."


def units_text(units):
    return "".join("%04x" % unit for unit in units) or "."


def logon_text(octets):
    from_octets = In(octets)
    head = from_octets.take(16)
    if head[:4] != HEADER:
        raise Refused("Header")
    if struct.unpack("<I", head[8:12])[0] != len(octets) - 16:
        raise Refused("ObjectBufferLength")
    if not from_octets.u32():
        raise Refused("Null")
    fixed = from_octets.take(216)
    part = lambda place, size: fixed[place:place + size]
    number = lambda place: struct.unpack("<I", part(place, 4))[0]
    names = [from_octets.text(part(place, 8)) for place in range(48, 96, 8)]
    groups = from_octets.groups(part(108, 8))
    server = from_octets.text(part(136, 8))
    domain = from_octets.text(part(144, 8))
    if not number(152):
        raise Refused("Null")
    domain_sid = from_octets.rpc_sid()
    extra = from_octets.sid_rows(part(196, 8))
    resource_sid = from_octets.rpc_sid() if number(204) else "."
    resources = from_octets.groups(part(208, 8))
    from_octets.align(8)
    if from_octets.at != len(octets):
        raise Refused("Trailing")
    times = struct.unpack("<6Q", part(0, 48))
    counts = struct.unpack("<HH", part(96, 4))
    return " ".join([
        ",".join(map(str, times)), ",".join(names), "%d,%d" % counts, "%d,%d" % (number(100), number(104)), str(number(116)),
        part(120, 16).hex(), str(number(164)), groups, server, domain, domain_sid, extra, resource_sid, resources,
    ])


def field(octets, place):
    size, offset = struct.unpack("<HH", octets[place:place + 4])
    if len(octets) < offset + size:
        raise Refused("Short")
    return octets[offset:offset + size]


def field_text(octets, place):
    text = field(octets, place)
    if len(text) % 2:
        raise Refused("Lengths")
    return units_text(struct.unpack("<%dH" % (len(text) // 2), text))


def all_sid(octets):
    from_octets = In(octets)
    sid = from_octets.sid()
    if from_octets.at != len(octets):
        raise Refused("Trailing")
    return sid


def upn_text(octets):
    if len(octets) < 12:
        raise Refused("Short")
    flags = struct.unpack("<I", octets[8:12])[0]
    said = [field_text(octets, 0), field_text(octets, 4), str(flags)]
    if flags & 2:
        if len(octets) < 20:
            raise Refused("Short")
        said += [field_text(octets, 12), all_sid(field(octets, 16))]
    return " ".join(said)


def attributes_text(octets):
    if len(octets) < 8:
        raise Refused("Short")
    length, flags = struct.unpack("<II", octets[:8])
    if not 0 < length <= 32:
        raise Refused("Lengths")
    if len(octets) != 8:
        raise Refused("Trailing")
    return "%d %d" % (length, flags)


def row(kind, octets):
    try:
        said = READERS[kind](octets)
    except Refused as fault:
        said = "refused " + str(fault)
    print(" | ".join([kind, octets.hex() or "-", said]))


READERS = {"logon": logon_text, "upn": upn_text, "requestor": all_sid, "attributes": attributes_text}


def some_logon(dice):
    domain = (5, [21] + [dice.getrandbits(32) for _ in range(3)])
    name = lambda: dice.choice([None, "", "alice", "Ωmega", "x" * dice.randrange(30)])
    groups = lambda most: dice.choice([None, [], [(dice.getrandbits(20), 7) for _ in range(dice.randrange(1, most))]])
    return {
        "times": [dice.choice([0, 2**63 - 1, 2**64 - 1, dice.getrandbits(57)]) for _ in range(6)], "names": [name() for _ in range(6)],
        "spare": dice.randrange(2), "counts": [dice.getrandbits(16), dice.getrandbits(4)], "user": dice.getrandbits(32), "primary": 513,
        "groups": groups(9), "flags": 0x20, "key": dice.randbytes(16), "server": "DC1", "domain": "EXAMPLE", "domain_sid": domain,
        "control": dice.getrandbits(32), "unread": dice.randbytes(36), "filler": dice.randbytes(4),
        "first_id": dice.choice([0x20000, 1, 0xFFFF0000]),
        "extra": dice.choice([None, [], [((18, [1]), 7)], [(domain, 7), ((5, []), 1), ((2**40, list(range(15))), 536870919)]]),
        "resource_sid": dice.choice([None, domain]), "resources": groups(4),
    }


def changed(octets, place, part):
    return octets[:place] + part + octets[place + len(part):]


def logon_rows(dice):
    with open(join(dirname(__file__), "pac_example.txt")) as example:
        row("logon", bytes.fromhex("".join(line for line in example if not line.startswith("#"))))
    values = [logon_octets(some_logon(dice)) for _ in range(24)]
    for octets in values:
        row("logon", octets)
    small, large = min(values, key=len), max(values, key=len)
    for place in range(0, len(small), 4):
        row("logon", changed(small, place, bytes([small[place] ^ dice.choice([1, 0x80, 0xFF])])))
    for size in (0, 15, 16, 19, 20, 235):
        row("logon", changed(large[:size], 8, struct.pack("<I", size - 16)) if size > 15 else large[:size])
    for size in range(236, len(large), 8):
        row("logon", changed(large[:size], 8, struct.pack("<I", size - 16)))
    # Counts and pointers of 2^32 - 1 and of 0, one number for two pointers, and octets that follow the value.
    for place in range(16, 240, 4):
        row("logon", changed(small, place, b"\xff" * 4))
        row("logon", changed(small, place, bytes(4)))
    row("logon", changed(large, 20 + 152, large[16:20]))
    row("logon", changed(large + bytes(8), 8, struct.pack("<I", len(large) - 8)))


def upn_octets(upn, name, flags, account, gap):
    size = 20 if account else 12
    fields = [upn.encode("utf-16-le"), name.encode("utf-16-le")]
    if account:
        fields += [account[0].encode("utf-16-le"), sid_octets(account[1])]
    heads, contents = [], b""
    for content in fields:
        contents += b"\xaa" * gap
        heads.append(struct.pack("<HH", len(content), size + len(contents)))
        contents += content
    return b"".join(heads[:2]) + struct.pack("<I", flags) + b"".join(heads[2:]) + contents


def other_rows(dice):
    sid = (5, [21, 1, 2, 3, 1103])
    with_account = upn_octets("alice@example.com", "EXAMPLE.COM", 2, ("alice", sid), 0)
    for octets in (
        upn_octets("alice@example.com", "EXAMPLE.COM", 0, None, 0), upn_octets("", "", 1, None, 0), with_account,
        upn_octets("Ωmega@example.com", "EXAMPLE.COM", 3, ("Ωmega", (2**32, [])), 3), upn_octets("a", "B", 2, None, 0),
    ):
        row("upn", octets)
    for place in range(len(with_account)):
        row("upn", changed(with_account, place, bytes([with_account[place] ^ dice.choice([1, 0x80, 0xFF])])))
    for size in (0, 11, 12, 19, 20, len(with_account) - 1):
        row("upn", with_account[:size])
    for sid in ((5, [21, 1, 2, 3, 500]), (5, [18]), (0, []), (2**48 - 1, list(range(15))), (5, list(range(16)))):
        row("requestor", sid_octets(sid))
        row("requestor", sid_octets(sid) + b"\0")
        row("requestor", sid_octets(sid)[:-1])
    row("requestor", b"")
    row("requestor", b"\2" + sid_octets((5, [18]))[1:])
    for length, flags in ((2, 1), (2, 2), (1, 0), (32, 2**32 - 1), (33, 1), (0, 0), (2**32 - 1, 1)):
        row("attributes", struct.pack("<II", length, flags))
    for octets in (b"", bytes(7), struct.pack("<III", 2, 1, 0), struct.pack("<III", 64, 1, 0)):
        row("attributes", octets)


if __name__ == "__main__":
    dice = random.Random(87)
    print("# Buffers of PACs by pac.py: the kind | the octets in hexadecimal | what they state, or 'refused' and the fault.")
    logon_rows(dice)
    other_rows(dice)
