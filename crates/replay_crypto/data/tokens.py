#!/usr/bin/env python3
"""Writes tokens.txt: calls of GSS-API contexts with RFC 4121's per-message tokens, and the outcome of each.

This is an independent writer: it follows the RFCs and shares no code with the program that replays the file. AES and HMAC are
those of Python's `cryptography`. Keys, messages and random octets are fixed, so each run writes the same file.

The order of the refusals is that of the documented calls: NoSuchToken, OwnDirection, OtherKey, OldNumber, NumbersUsedUp,
WrongChecksum, OtherHeader. Each refusal stands in this script by name. The reader below must agree before a line is written.

Run it in this folder: python3 tokens.py
"""
import hashlib
import hmac as compare
from collections import Counter
from math import lcm

from cryptography.hazmat.primitives import hashes, hmac
from cryptography.hazmat.primitives.ciphers import Cipher, algorithms, modes

# ---- RFC 3961, RFC 3962 and RFC 8009: encryption and checksums --------------------------------------------------------------

BLOCK = 16
# The first octets of the labels for encryption, integrity and checksums: usage | octet (RFC 3961, section 5.3).
FOR_CHECKSUM, FOR_ENCRYPTION, FOR_INTEGRITY = 0x99, 0xAA, 0x55


def digest(kind, key, text):
    code = hmac.HMAC(key, kind)
    code.update(text)
    return code.finalize()


def xor(left, right):
    return bytes(a ^ b for a, b in zip(left, right))


def encrypt_block(key, block):
    step = Cipher(algorithms.AES(key), modes.ECB()).encryptor()
    return step.update(block) + step.finalize()


def decrypt_block(key, block):
    step = Cipher(algorithms.AES(key), modes.ECB()).decryptor()
    return step.update(block) + step.finalize()


def encrypt_cts(key, text):
    """CBC from zeros with ciphertext stealing, the last two blocks swapped (RFC 3962, section 5)."""
    assert len(text) >= BLOCK
    padded = text + bytes(-len(text) % BLOCK)
    step = Cipher(algorithms.AES(key), modes.CBC(bytes(BLOCK))).encryptor()
    chained = step.update(padded) + step.finalize()
    if len(padded) == BLOCK:
        return chained
    front, before_last, last = chained[:-32], chained[-32:-16], chained[-16:]
    return front + last + before_last[: len(text) - len(padded) + BLOCK]


def decrypt_cts(key, text):
    assert len(text) >= BLOCK
    if len(text) == BLOCK:
        return decrypt_block(key, text)
    short = len(text) % BLOCK or BLOCK
    front, last, stolen = text[: -short - BLOCK], text[-short - BLOCK : -short], text[-short:]
    opened = decrypt_block(key, last)
    before_last = stolen + opened[short:]
    step = Cipher(algorithms.AES(key), modes.CBC(bytes(BLOCK))).decryptor()
    return step.update(front + before_last) + step.finalize() + xor(opened, stolen)


def n_fold(octets, size):
    """RFC 3961, section 5.1: copies, each turned right by 13 further bits, added with end-around carry."""
    bits = 8 * len(octets)
    number = int.from_bytes(octets, "big")
    whole = b""
    for turn in range(lcm(len(octets), size) // len(octets)):
        by = 13 * turn % bits
        turned = (number >> by | number << (bits - by)) & ((1 << bits) - 1)
        whole += turned.to_bytes(len(octets), "big")
    total, most = 0, (1 << 8 * size) - 1
    for at in range(0, len(whole), size):
        total += int.from_bytes(whole[at : at + size], "big")
    while total > most:
        total = (total & most) + (total >> 8 * size)
    return total.to_bytes(size, "big")


def derive_by_blocks(key, constant):
    """DK of RFC 3961, section 5.1, for a key of AES: random-to-key is the identity."""
    block = constant if len(constant) == BLOCK else n_fold(constant, BLOCK)
    made = b""
    while len(made) < len(key):
        block = encrypt_block(key, block)
        made += block
    return made[: len(key)]


def derive_by_hmac(kind, key, label, size):
    """KDF-HMAC-SHA2 of RFC 8009, section 3. One turn of the HMAC is enough for each size here."""
    made = digest(kind, key, b"\0\0\0\1" + label + b"\0" + (8 * size).to_bytes(4, "big"))
    assert size <= len(made)
    return made[:size]


class WithSha1:
    """aes128-cts-hmac-sha1-96 and aes256-cts-hmac-sha1-96 (RFC 3962)."""

    sum_size = 12

    def derived(self, key, usage, purpose):
        return derive_by_blocks(key, usage.to_bytes(4, "big") + bytes([purpose]))

    def code(self, key, usage, purpose, text):
        return digest(hashes.SHA1(), self.derived(key, usage, purpose), text)[: self.sum_size]

    def checksum(self, key, usage, text):
        return self.code(key, usage, FOR_CHECKSUM, text)

    def encrypt(self, key, usage, confounder, text):
        text = confounder + text
        sealed = encrypt_cts(self.derived(key, usage, FOR_ENCRYPTION), text)
        return sealed + self.code(key, usage, FOR_INTEGRITY, text)

    def decrypt(self, key, usage, sealed):
        """The text without its confounder, or None."""
        if len(sealed) < BLOCK + self.sum_size:
            return None
        sealed, code = sealed[: -self.sum_size], sealed[-self.sum_size :]
        text = decrypt_cts(self.derived(key, usage, FOR_ENCRYPTION), sealed)
        right = compare.compare_digest(code, self.code(key, usage, FOR_INTEGRITY, text))
        return text[BLOCK:] if right else None


class WithSha2:
    """aes128-cts-hmac-sha256-128 and aes256-cts-hmac-sha384-192 (RFC 8009)."""

    def __init__(self, kind, key_size, sum_size):
        self.kind, self.key_size, self.sum_size = kind, key_size, sum_size

    def derived(self, key, usage, purpose):
        size = self.key_size if purpose == FOR_ENCRYPTION else self.sum_size
        return derive_by_hmac(self.kind, key, usage.to_bytes(4, "big") + bytes([purpose]), size)

    def code(self, key, usage, purpose, text):
        return digest(self.kind, self.derived(key, usage, purpose), text)[: self.sum_size]

    def checksum(self, key, usage, text):
        return self.code(key, usage, FOR_CHECKSUM, text)

    def encrypt(self, key, usage, confounder, text):
        sealed = encrypt_cts(self.derived(key, usage, FOR_ENCRYPTION), confounder + text)
        return sealed + self.code(key, usage, FOR_INTEGRITY, bytes(BLOCK) + sealed)

    def decrypt(self, key, usage, sealed):
        """The text without its confounder, or None."""
        if len(sealed) < BLOCK + self.sum_size:
            return None
        sealed, code = sealed[: -self.sum_size], sealed[-self.sum_size :]
        if not compare.compare_digest(code, self.code(key, usage, FOR_INTEGRITY, bytes(BLOCK) + sealed)):
            return None
        return decrypt_cts(self.derived(key, usage, FOR_ENCRYPTION), sealed)[BLOCK:]


SUITES = {17: WithSha1(), 18: WithSha1(), 19: WithSha2(hashes.SHA256(), 16, 16), 20: WithSha2(hashes.SHA384(), 32, 24)}
KEY_SIZES = {16: 24, 17: 16, 18: 32, 19: 16, 20: 32}


def check_against_the_standards():
    """Vectors of RFC 3961 (A.1), RFC 3962 (B) and RFC 8009 (A)."""
    of = bytes.fromhex
    assert n_fold(b"012345", 8) == of("be072631276b1955")
    assert n_fold(b"password", 7) == of("78a07b6caf85fa")
    assert n_fold(b"kerberos", 16) == of("6b65726265726f737b9b5b2b93132b93")
    for size, wanted in (16, "42263c6e89f4fc28b8df68ee09799f15"), (32, "fe697b52bc0d3ce14432ba036a92e65bbb52280990a2fa27883998d72af30161"):
        seed = hashlib.pbkdf2_hmac("sha1", b"password", b"ATHENA.MIT.EDUraeburn", 1, size)
        assert derive_by_blocks(seed, b"kerberos") == of(wanted)
    key, text = b"chicken teriyaki", b"I would like the General Gau's Chicken, please, and wonton soup."
    for size, wanted in (17, "c6353568f2bf8cb4d8a580362da7ff7f97"), (32, "39312523a78662d5be7fcbcc98ebf5a897687268d6ecccc0c07b25e25ecfe584"):
        assert encrypt_cts(key, text[:size]) == of(wanted)
    for size in range(16, 65):
        assert decrypt_cts(key, encrypt_cts(key, text[:size])) == text[:size]
    of_19 = of("3705d96080c17728a0e800eab6e0d23c")
    of_20 = of("6d404d37faf79f9df0d33568d320669800eb4836472ea8a026d16b7182460c52")
    assert SUITES[19].derived(of_19, 2, FOR_ENCRYPTION) == of("9b197dd1e8c5609d6e67c3e37c62c72e")
    assert SUITES[20].derived(of_20, 2, FOR_ENCRYPTION) == of("56ab22bee63d82d7bc5227f6773f8ea7a5eb1c825160c38312980c442e5c7e49")
    text = bytes(range(21))
    assert SUITES[19].checksum(of_19, 2, text) == of("d78367186643d67b411cba9139fc1dee")
    assert SUITES[20].checksum(of_20, 2, text) == of("45ee791567eefca37f4ac1e0222de80d43c3bfa06699672a")
    text = bytes(range(6))
    sealed = SUITES[19].encrypt(of_19, 2, of("7bca285e2fd4130fb55b1a5c83bc5b24"), text)
    assert sealed == of("84d7f30754ed987bab0bf3506beb09cfb55402cef7e6877ce99e247e52d16ed4421dfdf8976c")
    sealed = SUITES[20].encrypt(of_20, 2, of("b80d3251c1f6471494256ffe712d0b9a"), text)
    assert sealed == of("4ed7b37c2bcac8f74f23c1cf07e62bc7b75fb3f637b9f559c7f664f69eab7b6092237526ea0d1f61cb20d69d10f2")


# ---- RFC 4121, section 4.2: tokens ------------------------------------------------------------------------------------------

INITIATOR, ACCEPTOR = "Initiator", "Acceptor"
# The key usages of section 2.
SEAL_USAGE = {ACCEPTOR: 22, INITIATOR: 24}
SIGN_USAGE = {ACCEPTOR: 23, INITIATOR: 25}
# The flags of section 4.2.2.
SENT_BY_ACCEPTOR, SEALED, ACCEPTOR_SUBKEY = 1, 2, 4
LAST = 2**64 - 1


def other(side):
    return ACCEPTOR if side == INITIATOR else INITIATOR


class Writer:
    """Who sends tokens, and under which key. Each call can be told to deviate."""

    def __init__(self, suite, key, side, subkey):
        self.suite, self.key, self.side, self.subkey = suite, key, side, subkey

    def flags(self, more=0):
        return more | (SENT_BY_ACCEPTOR if self.side == ACCEPTOR else 0) | (ACCEPTOR_SUBKEY if self.subkey else 0)

    def sum(self, usage, text):
        return SUITES[self.suite].checksum(self.key, usage, text)

    def mic(self, number, message, flags=None, usage=None):
        """Section 4.2.6.1. The checksum is over the message, then the header."""
        flags = self.flags() if flags is None else flags
        header = b"\x04\x04" + bytes([flags]) + b"\xff" * 5 + number.to_bytes(8, "big")
        return header + self.sum(usage or SIGN_USAGE[self.side], message + header)

    @staticmethod
    def wrap_header(flags, ec, rrc, number):
        return b"\x05\x04" + bytes([flags]) + b"\xff" + ec.to_bytes(2, "big") + rrc.to_bytes(2, "big") + number.to_bytes(8, "big")

    def sealed(self, number, message, confounder, filler=b"", rrc=0, flags=None, ec=None, inner=None, usage=None):
        """Section 4.2.6.2 with confidentiality: message, filler and header are encrypted. That header has RRC zero."""
        flags = self.flags(SEALED) if flags is None else flags
        ec = len(filler) if ec is None else ec
        inner = self.wrap_header(flags, ec, 0, number) if inner is None else inner
        text = SUITES[self.suite].encrypt(self.key, usage or SEAL_USAGE[self.side], confounder, message + filler + inner)
        return self.wrap_header(flags, ec, rrc, number) + rotated(text, rrc)

    def summed(self, number, message, rrc=0, flags=None, ec=None, inner=None, usage=None):
        """The same without confidentiality: the checksum is over the message and a header with EC and RRC zero."""
        flags = self.flags() if flags is None else flags
        inner = self.wrap_header(flags, 0, 0, number) if inner is None else inner
        text = self.sum(usage or SEAL_USAGE[self.side], message + inner)
        ec = len(text) if ec is None else ec
        return self.wrap_header(flags, ec, rrc, number) + rotated(message + text, rrc)


def rotated(text, count):
    """Section 4.2.5: to the right by that many octets, also by more than there are."""
    for _ in range(count % len(text) if text else 0):
        text = text[-1:] + text[:-1]
    return text


class End:
    """An end of a context: it decides what becomes of each call."""

    def __init__(self, suite, key, side, subkey, sending, taking):
        self.own, self.peer = Writer(suite, key, side, subkey), Writer(suite, key, other(side), subkey)
        self.sending, self.taking = sending, taking

    def sent(self, write):
        if self.sending == LAST:
            return "NumbersUsedUp", b""
        token = write(self.sending)
        self.sending += 1
        return "ok", token

    def header_refusal(self, token):
        number = int.from_bytes(token[8:16], "big")
        if (token[2] & SENT_BY_ACCEPTOR != 0) != (self.peer.side == ACCEPTOR):
            return "OwnDirection"
        if (token[2] & ACCEPTOR_SUBKEY != 0) != self.peer.subkey:
            return "OtherKey"
        if number < self.taking:
            return "OldNumber"
        return "NumbersUsedUp" if number == LAST else None

    def take_mic(self, message, token):
        if len(token) < 16 or token[:2] != b"\x04\x04" or token[3:8] != b"\xff" * 5 or token[2] & SEALED:
            return "NoSuchToken"
        refusal = self.header_refusal(token)
        if refusal:
            return refusal
        if token[16:] != self.peer.sum(SIGN_USAGE[self.peer.side], message + token[:16]):
            return "WrongChecksum"
        self.taking = int.from_bytes(token[8:16], "big") + 1
        return "ok"

    def take_wrap(self, token):
        """The outcome and the message."""
        if len(token) < 16 or token[:2] != b"\x05\x04" or token[3] != 0xFF:
            return "NoSuchToken", b""
        refusal = self.header_refusal(token)
        if refusal:
            return refusal, b""
        ec, rrc = int.from_bytes(token[4:6], "big"), int.from_bytes(token[6:8], "big")
        text = token[16:]
        for _ in range(rrc % len(text) if text else 0):
            text = text[1:] + text[:1]
        outcome, message = self.sealed_message(token, ec, text) if token[2] & SEALED else self.summed_message(token, ec, text)
        if outcome in ("Sealed", "Checksum"):
            self.taking = int.from_bytes(token[8:16], "big") + 1
        return outcome, message

    def sealed_message(self, token, ec, text):
        text = SUITES[self.peer.suite].decrypt(self.peer.key, SEAL_USAGE[self.peer.side], text)
        if text is None:
            return "WrongChecksum", b""
        if len(text) < ec + 16 or text[-16:] != token[:6] + b"\0\0" + token[8:16]:
            return "OtherHeader", b""
        return "Sealed", text[: len(text) - 16 - ec]

    def summed_message(self, token, ec, text):
        if len(text) < ec:
            return "WrongChecksum", b""
        message, carried = text[: len(text) - ec], text[len(text) - ec :]
        if carried != self.peer.sum(SEAL_USAGE[self.peer.side], message + token[:4] + bytes(4) + token[8:16]):
            return "WrongChecksum", b""
        return "Checksum", message


# ---- Lines ------------------------------------------------------------------------------------------------------------------

HEAD = """\
# Calls of GSS-API contexts with the per-message tokens of RFC 4121, section 4.2, and the outcome of each call.
# Written by tokens.py in this folder, an independent writer by RFC 3961, RFC 3962, RFC 8009 and RFC 4121.
# A line is a call, its expected outcome, and octets in hexadecimal after the bar, none as -:
# new OUTCOME SUITE SIDE FLAG SENDING TAKING | KEY
#     A fresh context, which the next lines call in turn. SUITE is the etype's number, SIDE the context's own.
#     FLAG is `subkey` if the key is the acceptor's subkey, else `session`. SENDING is the number of the next token that is sent.
#     TAKING is the least number that is taken. OUTCOME is ok or a refusal. A refused line leaves the last context as it was.
# get_mic OUTCOME | MESSAGE TOKEN                OUTCOME is ok or a refusal, which has no token.
# verify_mic OUTCOME | MESSAGE TOKEN             OUTCOME is ok or a refusal.
# wrap_sealed OUTCOME | WORDS MESSAGE TOKEN      OUTCOME is ok or a refusal. The first 16 of the words are the confounder.
# wrap_checksum OUTCOME | WORDS MESSAGE TOKEN
# unwrap OUTCOME | TOKEN MESSAGE                 OUTCOME is Sealed or Checksum, the token's protection, or a refusal.
# A refused call changes nothing. In the sections of refused tokens, a right token with the least number follows each.
"""

lines = []
kinds = Counter()
outcomes = Counter()
end = None


def put(call, outcome, words, *columns):
    kinds[call + ("" if outcome in ("ok", "Sealed", "Checksum") else " refused")] += 1
    outcomes[outcome] += 1
    lines.append(" ".join([call, outcome, *words]) + " | " + " ".join(column.hex() or "-" for column in columns))


def section(text):
    lines.append("# " + text)


def octets(label, size):
    """Fixed octets that look random."""
    return hashlib.shake_256(label.encode()).digest(size)


def key_of(suite, which="key"):
    return octets(f"{which} {suite}", KEY_SIZES[suite])


def message_of(size):
    return octets(f"message {size}", size)


def begin(suite, side, subkey, sending=0, taking=0, outcome="ok", key=None):
    global end
    key = key_of(suite) if key is None else key
    put("new", outcome, [str(suite), side, "subkey" if subkey else "session", str(sending), str(taking)], key)
    if outcome == "ok":
        end = End(suite, key, side, subkey, sending, taking)


def get_mic(message, outcome="ok"):
    found, token = end.sent(lambda number: end.own.mic(number, message))
    assert found == outcome, (found, outcome)
    put("get_mic", found, [], message, token)
    return "mic", message, token


def wrap(message, sealed, outcome="ok", more=0):
    """More words than a confounder has, if wanted."""
    words = octets(f"words {len(lines)}", 16 + more)
    write = (lambda n: end.own.sealed(n, message, words[:16])) if sealed else (lambda n: end.own.summed(n, message))
    found, token = end.sent(write)
    assert found == outcome, (found, outcome)
    put("wrap_sealed" if sealed else "wrap_checksum", found, [], words, message, token)
    return "Sealed" if sealed else "Checksum", message, token


def verify_mic(message, token, outcome="ok"):
    found = end.take_mic(message, token)
    assert found == outcome, (found, outcome, token.hex())
    put("verify_mic", found, [], message, token)


def unwrap(token, outcome, message=b""):
    found = end.take_wrap(token)
    assert found == (outcome, message), (found, outcome, token.hex())
    put("unwrap", outcome, [], token, message)


def take(kind, message, token):
    """Takes what was sent."""
    if kind == "mic":
        verify_mic(message, token)
    else:
        unwrap(token, kind, message)


def confounder():
    return octets(f"confounder {len(lines)}", 16)


FLAGS = [(side, subkey) for side in (INITIATOR, ACCEPTOR) for subkey in (False, True)]


def turns(suite):
    """Two of the four: each side and each flag once. Over the suites, the first and the second are each of the four."""
    pairs = [(INITIATOR, suite % 2 == 0), (ACCEPTOR, suite % 2 == 1)]
    return pairs if suite in (17, 20) else pairs[::-1]


def pairs_of_ends(suite):
    """What one end sends, the other takes."""
    for side, subkey in FLAGS:
        for first, sizes in (0, (0, 1, 15)), (2**32 - 1, (16, 17, 100)):
            begin(suite, side, subkey, sending=first)
            sent = []
            for size in sizes:
                sent += [get_mic(message_of(size)), wrap(message_of(size), True), wrap(message_of(size), False)]
            begin(suite, other(side), subkey, taking=first)
            for one in sent:
                take(*one)


def last_numbers(suite):
    """The number 2^64 - 2 is the last one that is sent or taken."""
    for side, subkey in turns(suite):
        for send in get_mic, lambda m: wrap(m, True), lambda m: wrap(m, False):
            begin(suite, side, subkey, sending=LAST - 1)
            sent = send(message_of(17))
            get_mic(message_of(17), "NumbersUsedUp")
            wrap(message_of(17), True, "NumbersUsedUp")
            wrap(message_of(17), False, "NumbersUsedUp")
            verify_mic(message_of(17), end.peer.mic(end.taking, message_of(17)))
            begin(suite, other(side), subkey, taking=LAST - 1)
            take(*sent)
            kind, message, token = sent
            if kind == "mic":
                verify_mic(message, token, "OldNumber")
                verify_mic(message, end.peer.mic(LAST, message), "NumbersUsedUp")
            else:
                unwrap(token, "OldNumber")
                unwrap(end.peer.sealed(LAST, message, confounder()), "NumbersUsedUp")
                unwrap(end.peer.summed(LAST, message), "NumbersUsedUp")
            get_mic(message)


def conversation(suite):
    """Both ends send and take in turn: the numbers of each direction are counted apart. Numbers may be left out."""
    begin(suite, INITIATOR, True, sending=5, taking=1000)
    for number, size in (1000, 1), (1002, 16), (1003, 100), (2**63, 0), (2**64 - 3, 15), (2**64 - 2, 17):
        wrap(message_of(size), True, more=size)
        verify_mic(message_of(size), end.peer.mic(number, message_of(size)))
        if number < 2**63:
            continue
        verify_mic(message_of(size), end.peer.mic(number, message_of(size)), "OldNumber")
        get_mic(message_of(size))


def rotations(suite):
    """RRC, also more than the length of what is rotated."""
    for side, subkey in turns(suite):
        begin(suite, side, subkey)
        for size in 0, 17:
            message = message_of(size)
            for sealed in True, False:
                bare = end.peer.sealed(0, message, bytes(16)) if sealed else end.peer.summed(0, message)
                length = len(bare) - 16
                for rrc in (0, 1, 16, 28, length - 1, length, length + 1, 3 * length + 5, 65535):
                    if sealed:
                        unwrap(end.peer.sealed(end.taking, message, confounder(), rrc=rrc), "Sealed", message)
                    else:
                        unwrap(end.peer.summed(end.taking, message, rrc=rrc), "Checksum", message)


def fillers(suite):
    """EC octets of filler before a sealed header, of any values, also rotated."""
    for side, subkey in turns(suite):
        begin(suite, side, subkey, taking=7)
        for size, count, rrc in (0, 1, 0), (1, 15, 0), (15, 16, 28), (17, 16, 1), (100, 300, 65535), (16, 28, 16):
            for filler in bytes(count), octets(f"filler {count}", count):
                unwrap(end.peer.sealed(end.taking, message_of(size), confounder(), filler, rrc), "Sealed", message_of(size))


def changed(token, at, by):
    return token[:at] + bytes([token[at] ^ by]) + token[at + 1 :]


def refused_mics(suite):
    message = message_of(17)
    side, subkey = turns(suite)[0]
    begin(suite, side, subkey, taking=2**32)
    own, peer, stranger = end.own, end.peer, Writer(suite, key_of(suite, "other"), end.peer.side, subkey)

    def refuse(outcome, token, said=message):
        verify_mic(said, token, outcome)
        verify_mic(b"", peer.mic(end.taking, b""))

    section(f"Refused MIC tokens of suite {suite}, taken by the {side}: the direction, the key, the number.")
    refuse("OwnDirection", own.mic(end.taking, message))
    refuse("OtherKey", Writer(suite, key_of(suite), peer.side, not subkey).mic(end.taking, message))
    refuse("OldNumber", peer.mic(end.taking - 1, message))
    refuse("OldNumber", peer.mic(0, message))
    refuse("NumbersUsedUp", peer.mic(LAST, message))
    section("Several faults: the first in the order of the refusals.")
    refuse("NoSuchToken", changed(own.mic(LAST, message), 7, 1))
    refuse("OwnDirection", Writer(suite, key_of(suite), side, not subkey).mic(0, message))
    refuse("OtherKey", Writer(suite, key_of(suite), peer.side, not subkey).mic(0, message))
    refuse("OldNumber", changed(peer.mic(1, message), 20, 1))
    refuse("NumbersUsedUp", changed(peer.mic(LAST, message), 20, 1))
    section("A foreign id, a wrong filler of the header, the flag Sealed, a short token.")
    refuse("NoSuchToken", peer.summed(end.taking, message))
    refuse("NoSuchToken", b"\x60\x1d\x06\x09" + peer.mic(end.taking, message))
    for at in 0, 1, 3, 4, 5, 6, 7:
        refuse("NoSuchToken", changed(peer.mic(end.taking, message), at, 0x80))
    refuse("NoSuchToken", peer.mic(end.taking, message, flags=peer.flags(SEALED)))
    for size in 0, 1, 15:
        refuse("NoSuchToken", peer.mic(end.taking, message)[:size])
    section("A changed octet of the flags, the number, the message and the checksum; a checksum of another length.")
    refuse("OwnDirection", changed(peer.mic(end.taking, message), 2, SENT_BY_ACCEPTOR))
    refuse("OtherKey", changed(peer.mic(end.taking, message), 2, ACCEPTOR_SUBKEY))
    refuse("WrongChecksum", changed(peer.mic(end.taking, message), 2, 0x08))
    refuse("WrongChecksum", changed(peer.mic(end.taking, message), 2, 0x80))
    refuse("WrongChecksum", changed(peer.mic(end.taking, message), 8, 0x01))
    refuse("WrongChecksum", changed(peer.mic(end.taking, message), 13, 0x01))
    refuse("OldNumber", changed(peer.mic(end.taking, message), 11, 0x01))
    refuse("WrongChecksum", peer.mic(end.taking, message), changed(message, 0, 1))
    refuse("WrongChecksum", peer.mic(end.taking, message), message[:-1])
    refuse("WrongChecksum", peer.mic(end.taking, message), message + b"\0")
    for at in 16, len(peer.mic(0, message)) - 1:
        refuse("WrongChecksum", changed(peer.mic(end.taking, message), at, 1))
    refuse("WrongChecksum", peer.mic(end.taking, message)[:16])
    refuse("WrongChecksum", peer.mic(end.taking, message)[:-1])
    refuse("WrongChecksum", peer.mic(end.taking, message) + b"\0")
    section("Another key, and another key usage. A reserved flag that the sender set is taken.")
    refuse("WrongChecksum", stranger.mic(end.taking, message))
    for usage in SEAL_USAGE[peer.side], SIGN_USAGE[side]:
        refuse("WrongChecksum", peer.mic(end.taking, message, usage=usage))
    verify_mic(message, peer.mic(end.taking, message, flags=peer.flags(0xF8)))


def refused_wraps(suite):
    message = message_of(17)
    for sealed, (side, subkey) in zip((False, True), turns(suite)):
        begin(suite, side, subkey, taking=2**32)
        own, peer = end.own, end.peer
        unmatched = Writer(suite, key_of(suite), peer.side, not subkey)
        stranger = Writer(suite, key_of(suite, "other"), peer.side, subkey)
        kind = "Sealed" if sealed else "Checksum"

        def made(writer, number, said=message, **deviation):
            if sealed:
                return writer.sealed(number, said, confounder(), **deviation)
            return writer.summed(number, said, **deviation)

        def right():
            return made(peer, end.taking)

        def refuse(outcome, token):
            unwrap(token, outcome)
            unwrap(made(peer, end.taking, b""), kind, b"")

        section(f"Refused wrap tokens of suite {suite}, {kind}, taken by the {side}: the direction, the key, the number.")
        refuse("OwnDirection", made(own, end.taking))
        refuse("OtherKey", made(unmatched, end.taking))
        refuse("OldNumber", made(peer, end.taking - 1))
        refuse("OldNumber", made(peer, 0))
        refuse("NumbersUsedUp", made(peer, LAST))
        section("Several faults: the first in the order of the refusals.")
        refuse("NoSuchToken", changed(made(own, LAST), 3, 1))
        refuse("OwnDirection", made(Writer(suite, key_of(suite), side, not subkey), 0))
        refuse("OtherKey", made(unmatched, 0))
        refuse("OldNumber", changed(made(peer, 1), 20, 1))
        refuse("NumbersUsedUp", changed(made(peer, LAST), 20, 1))
        section("A foreign id, a wrong filler of the header, a short token.")
        refuse("NoSuchToken", peer.mic(end.taking, message))
        refuse("NoSuchToken", b"\x60\x1d\x06\x09" + right())
        for at in 0, 1, 3:
            refuse("NoSuchToken", changed(right(), at, 0x01))
        for size in 0, 1, 15:
            refuse("NoSuchToken", right()[:size])
        for size in 16, 17, 40:
            refuse("WrongChecksum", right()[:size])
        refuse("WrongChecksum", right()[:-1])
        refuse("WrongChecksum", right() + b"\0")
        section("A changed octet of the header.")
        refuse("OwnDirection", changed(right(), 2, SENT_BY_ACCEPTOR))
        refuse("OtherKey", changed(right(), 2, ACCEPTOR_SUBKEY))
        refuse("WrongChecksum", changed(right(), 2, SEALED))
        for at, by in (2, 0x08), (2, 0x80), (8, 0x01), (13, 0x01):
            refuse("OtherHeader" if sealed else "WrongChecksum", changed(right(), at, by))
        for at, by in (4, 0x80), (5, 0x01):
            refuse("OtherHeader" if sealed else "WrongChecksum", changed(right(), at, by))
        for at, by in (6, 0x01), (7, 0x01):
            refuse("WrongChecksum", changed(right(), at, by))
        refuse("OldNumber", changed(right(), 11, 0x01))
        section("A changed octet of the data: the confounder or message, and the checksum.")
        for at in 16, 24, 32, 33, len(right()) - 13, len(right()) - 1:
            refuse("WrongChecksum", changed(right(), at, 0x10))
        section("Another key, and another key usage.")
        refuse("WrongChecksum", made(stranger, end.taking))
        for usage in SIGN_USAGE[peer.side], SEAL_USAGE[side]:
            refuse("WrongChecksum", made(peer, end.taking, usage=usage))
        section("Another header is sealed or summed: its EC, RRC, number, flags. A reserved flag that the sender set is taken.")
        flags = peer.flags(SEALED if sealed else 0)
        for ec, rrc, less, more in (1, 0, 0, 0), (0, 1, 0, 0), (0, 28, 0, 0), (0, 0, 1, 0), (0, 0, 0, 8), (0, 0, 0, SEALED):
            inner = peer.wrap_header(flags ^ more, ec, rrc, end.taking - less)
            refuse("OtherHeader" if sealed else "WrongChecksum", made(peer, end.taking, rrc=rrc, inner=inner))
        unwrap(made(peer, end.taking, flags=flags | 0xF8), kind, message)
        (refused_sealed if sealed else refused_summed)(refuse, peer, message, flags)


def refused_sealed(refuse, peer, message, flags):
    section("A header that is cut or missing inside. EC that counts more filler than is sealed; filler that EC doesn't count.")
    for cut in 0, 8, 15:
        inner = peer.wrap_header(flags, 0, 0, end.taking)[:cut]
        refuse("OtherHeader", peer.sealed(end.taking, message, confounder(), inner=inner))
        refuse("OtherHeader", peer.sealed(end.taking, b"", confounder(), inner=inner))
    refuse("OtherHeader", peer.sealed(end.taking, message, confounder(), ec=len(message) + 1))
    refuse("OtherHeader", peer.sealed(end.taking, message, confounder(), ec=65535))
    inner = peer.wrap_header(flags, 0, 0, end.taking)
    refuse("OtherHeader", peer.sealed(end.taking, message, confounder(), filler=bytes(4), inner=inner))
    section("EC that counts the whole message as filler, and an unmarked filler, which is the message's end.")
    unwrap(peer.sealed(end.taking, message, confounder(), ec=len(message)), "Sealed", b"")
    unwrap(peer.sealed(end.taking, message, confounder(), filler=bytes(4), ec=0), "Sealed", message + bytes(4))


def refused_summed(refuse, peer, message, flags):
    section("EC that counts less or more than the checksum, and more than there is.")
    size = SUITES[peer.suite].sum_size
    for ec in 0, size - 1, size + 1, len(message) + size, len(message) + size + 1, 65535:
        refuse("WrongChecksum", peer.summed(end.taking, message, ec=ec))
    section("The checksum before the message.")
    token = peer.summed(end.taking, message)
    refuse("WrongChecksum", token[:16] + token[-size:] + token[16:-size])


def old_suite():
    for side, subkey in FLAGS:
        begin(16, side, subkey, sending=3, taking=4, outcome="OldSuite", key=octets("key 16", 24))
    get_mic(message_of(1))


SECTIONS = (
    ("Tokens as they are made, and as the other end takes them.", pairs_of_ends),
    ("The last numbers: 2^64 - 2 is sent and taken, and 2^64 - 1 is used up.", last_numbers),
    ("Both directions of one context, with numbers left out.", conversation),
    ("Rotated wrap tokens.", rotations),
    ("Sealed wrap tokens with filler.", fillers),
    ("Refused MIC tokens. A right token follows each.", refused_mics),
    ("Refused wrap tokens. A right token follows each.", refused_wraps),
)


def main():
    check_against_the_standards()
    for title, write in SECTIONS:
        section(title)
        for suite in SUITES:
            write(suite)
    section("Triple DES, whose tokens are those of RFC 1964. The last context is as it was.")
    old_suite()
    with open("tokens.txt", "w", encoding="ascii") as file:
        file.write(HEAD + "\n".join(lines) + "\n")
    for counts in kinds, outcomes:
        print(", ".join(f"{name} {count}" for name, count in sorted(counts.items())))
    print(sum(kinds.values()), "lines")


if __name__ == "__main__":
    main()
