#!/usr/bin/env python3
"""Writes password_frames.txt: frames and results of the exchange that changes a password (RFC 3244, section 2), by Python's struct alone.

It shares no code with the program that replays the rows. A row is a label, a word, what the word reads, and the outcome:

    LABEL | read | FRAME | VERSION AP-MESSAGE KRB-PRIV, or the result code that refuses it
    LABEL | write | VERSION | AP-MESSAGE | KRB-PRIV | FRAME
    LABEL | length | COUNT | COUNT | how many octets the frame has whose parts are so many zeros, or the refusal
    LABEL | carries | NUMBER | TEXT | the code's name, and the octets of its number and the text
    LABEL | result | OCTETS | NUMBER TEXT, or none

Octets are in hexadecimal, and `-` is no octet. Run it in this folder: python3 password_frames.py
"""
import struct

HEAD = """# Frames and results of the exchange that changes a password (RFC 3244, section 2). Written by password_frames.py, which says what the rows are.
"""
# The names of RFC 3244, section 2. It gives 0xFFFF no name.
NAMES = {0: "SUCCESS", 1: "MALFORMED", 2: "HARDERROR", 3: "AUTHERROR", 4: "SOFTERROR", 5: "ACCESSDENIED", 6: "BAD_VERSION",
         7: "INITIAL_FLAG_NEEDED", 0xFFFF: "OTHER"}
CHANGE, SET = 1, 0xFF80
AP, PRIV = bytes.fromhex("6e0430020500"), bytes.fromhex("75053003a00105")


def named(number):
    return "KRB5_KPASSWD_" + NAMES.get(number, "OTHER")


def frame(version, ap, private, length=None, ap_length=None):
    """A frame, which may have other lengths."""
    whole = 6 + len(ap) + len(private) if length is None else length
    return struct.pack(">HHH", whole, version, len(ap) if ap_length is None else ap_length) + ap + private


def shown(octets):
    return octets.hex() or "-"


def read(message):
    """The outcome of a message, row by row of the table."""
    if len(message) < 6:
        return named(1)
    length, version, ap_length = struct.unpack(">HHH", message[:6])
    if length != len(message):
        return named(1)
    if version not in (CHANGE, SET):
        return named(6)
    if 6 + ap_length > length:
        return named(1)
    return f"{version} {shown(message[6:6 + ap_length])} {shown(message[6 + ap_length:])}"


def reads():
    whole = frame(SET, AP, PRIV)
    yield "whole frame of version 0xFF80", whole
    yield "whole frame of version 1", frame(CHANGE, AP, PRIV)
    yield "no AP message", frame(CHANGE, b"", PRIV)
    yield "nothing after the AP message", frame(SET, AP, b"")
    yield "neither part", frame(SET, b"", b"")
    yield "no octet", b""
    yield "five octets", struct.pack(">HH", 5, SET) + b"\0"
    yield "message length one too small", frame(SET, AP, PRIV, length=len(whole) - 1)
    yield "message length one too great", frame(SET, AP, PRIV, length=len(whole) + 1)
    yield "message length without itself", frame(SET, AP, PRIV, length=len(whole) - 2)
    yield "octet behind the frame", whole + b"\0"
    yield "last octet cut off", whole[:-1]
    yield "version 0", frame(0, AP, PRIV)
    yield "version 2", frame(2, AP, PRIV)
    yield "version 0xFF81", frame(0xFF81, AP, PRIV)
    yield "version of the lowest octet first", frame(0x80FF, AP, PRIV)
    yield "other version and wrong length", frame(2, AP, PRIV, length=3)
    yield "AP length one past the end", frame(SET, AP, PRIV, ap_length=len(AP) + len(PRIV) + 1)
    yield "AP length up to the end", frame(SET, AP, PRIV, ap_length=len(AP) + len(PRIV))
    yield "AP length of 65535", frame(CHANGE, AP, PRIV, ap_length=65535)
    yield "AP length one less", frame(SET, AP, PRIV, ap_length=len(AP) - 1)


def rows():
    for label, message in reads():
        yield label, "read", shown(message), read(message)
    for label, version, ap, private in [("written request", SET, AP, PRIV), ("written reply", CHANGE, AP, PRIV),
                                        ("written without AP message", CHANGE, b"", PRIV)]:
        yield label, "write", version, shown(ap), shown(private), frame(version, ap, private).hex()
    for ap, private in [(0, 0), (1000, 2000), (65529, 0), (65528, 1), (0, 65529), (65530, 0), (30000, 35530), (65535, 65535)]:
        whole = 6 + ap + private
        yield f"length of {ap} and {private}", "length", ap, private, whole if whole < 65536 else "the frame is too long"
    for number in [*range(9), 255, 256, 0x0700, 0xFFFE, 0xFFFF]:
        known = number if number in NAMES else 0xFFFF
        text = "Too short." if number == 4 else "-"
        octets = struct.pack(">H", known) + (b"" if text == "-" else text.encode())
        yield f"code {number}", "carries", number, text, f"{named(number)} {octets.hex()}"
    for label, octets in [("result without text", b"\0\0"), ("result with text", b"\0\4Zu kurz: \xc3\xbc"), ("result of 0xFFFF", b"\xff\xffx"),
                          ("no result", b""), ("half a result", b"\0")]:
        carried = f"{int.from_bytes(octets[:2], 'big')} {shown(octets[2:])}" if len(octets) >= 2 else "none"
        yield label, "result", shown(octets), carried


def main():
    with open("password_frames.txt", "w") as out:
        out.write(HEAD)
        for row in rows():
            out.write(" | ".join(map(str, row)) + "\n")


if __name__ == "__main__":
    main()
