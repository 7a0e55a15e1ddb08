"""AS exchanges of a client of our own, whose encryption is that of MIT's libk5crypto: requests by password with an encrypted timestamp, and
what a reply says under the client's key (RFC 4120, sections 5.2.7.2 and 5.4)."""
import collections, ctypes, time
from ctypes import Structure, byref, c_int32, c_size_t, c_uint, c_void_p

import replies
from replies import element, elements, within

SUITE = 18  # aes256-cts-hmac-sha1-96
TIMESTAMP_USAGE, REPLY_USAGE = 1, 3
REPLY_PARTS = (0x79, 0x7A)  # EncASRepPart, or as it is taken too, EncTGSRepPart
TILL = b"20370101000000Z"

Reply = collections.namedtuple("Reply", "kvno nonce server")  # what a reply says of a login that is granted


class Refused(Exception):
    """A key opens no octets."""


class Data(Structure):
    _fields_ = [("magic", c_int32), ("length", c_uint), ("data", c_void_p)]


class Encrypted(Structure):
    _fields_ = [("magic", c_int32), ("enctype", c_int32), ("kvno", c_uint), ("ciphertext", Data)]


class Keyblock(Structure):
    _fields_ = [("magic", c_int32), ("enctype", c_int32), ("length", c_uint), ("contents", c_void_p)]


LIBRARY = ctypes.CDLL("libk5crypto.so.3")


def data_of(octets):
    """The octets have to be kept as long as this is used."""
    return Data(0, len(octets), ctypes.cast(octets, c_void_p))


class Key:
    """A key of this suite."""
    def __init__(self, octets):
        self.octets = octets
        self.block = Keyblock(0, SUITE, len(octets), ctypes.cast(octets, c_void_p))

    @staticmethod
    def of_password(password, salt):
        block = Keyblock()
        status = LIBRARY.krb5_c_string_to_key(None, c_int32(SUITE), byref(data_of(password)), byref(data_of(salt)), byref(block))
        assert status == 0, f"krb5_c_string_to_key: {status}"
        return Key(ctypes.string_at(block.contents, block.length))

    def encrypted(self, usage, octets):
        size = c_size_t()
        LIBRARY.krb5_c_encrypt_length(None, c_int32(SUITE), c_size_t(len(octets)), byref(size))
        room = ctypes.create_string_buffer(size.value)
        sealed = Encrypted(0, SUITE, 0, Data(0, size.value, ctypes.cast(room, c_void_p)))
        status = LIBRARY.krb5_c_encrypt(None, byref(self.block), c_int32(usage), None, byref(data_of(octets)), byref(sealed))
        assert status == 0, f"krb5_c_encrypt: {status}"
        return room.raw

    def decrypted(self, usage, octets):
        room = ctypes.create_string_buffer(len(octets))
        plain = Data(0, len(octets), ctypes.cast(room, c_void_p))
        sealed = Encrypted(0, SUITE, 0, data_of(octets))
        if LIBRARY.krb5_c_decrypt(None, byref(self.block), c_int32(usage), None, byref(sealed), byref(plain)):
            raise Refused
        return room.raw[: plain.length]


def integer(value):
    return element(0x02, value.to_bytes(value.bit_length() // 8 + 1, "big"))


def sequence(*fields):
    """Of pairs of a tag's number and an element."""
    return element(0x30, b"".join(element(0xA0 + number, content) for number, content in fields))


def string(octets):
    return element(0x1B, octets)


def principal(kind, *components):
    return sequence((0, integer(kind)), (1, element(0x30, b"".join(map(string, components)))))


def login_request(realm, user, key, nonce):
    """An AS request of a user for a ticket-granting ticket, with the time that it is."""
    now = time.time()
    moment = time.strftime("%Y%m%d%H%M%SZ", time.gmtime(now)).encode()
    stamp = sequence((0, element(0x18, moment)), (1, integer(int(now % 1 * 1e6))))
    sealed = sequence((0, integer(SUITE)), (2, element(0x04, key.encrypted(TIMESTAMP_USAGE, stamp))))
    padata = element(0x30, sequence((1, integer(2)), (2, element(0x04, sealed))))
    body = sequence(
        (0, bytes.fromhex("03050000000000")), (1, principal(1, user)), (2, string(realm)), (3, principal(2, b"krbtgt", realm)),
        (5, element(0x18, TILL)), (7, integer(nonce)), (8, element(0x30, integer(SUITE))))
    return element(replies.AS_REQ, sequence((1, integer(5)), (2, integer(10)), (3, padata), (4, body)))


def opened(reply, key):
    """What an AS-REP says under the client's key. Refused where this key doesn't open it."""
    own = dict(elements(within(reply, *replies.OWN)))
    octets = key.decrypted(REPLY_USAGE, within(own[0xA2], 0x04))
    ((kind, part), *_) = elements(octets)
    assert kind in REPLY_PARTS, f"a reply's part with the first octet {kind:#x}"
    part = dict(elements(within(part, 0x30)))
    server = b"/".join(content for _, content in elements(within(part[0xAA], 0x30, 0xA1, 0x30)))
    kvno = int.from_bytes(within(own[0xA1], 0x02), "big") if 0xA1 in own else None
    return Reply(kvno, int.from_bytes(within(part[0xA2], 0x02), "big"), server)
