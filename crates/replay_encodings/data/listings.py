"""TGS requests with further encryption types in front of their own list, as their client would have made them.

The ticket is decrypted under the key of krbtgt, 32 zero bytes, and the authenticator under its session key, of AES with SHA-1 (RFC 3962).
The authenticator's checksum is made anew over the new body (RFC 4120, sections 3.3.2 and 7.5.1).
"""
import hashlib
import hmac

from cryptography.hazmat.primitives.ciphers import Cipher, algorithms, modes

KRBTGT = bytes(32)
ENCRYPTION, INTEGRITY, CHECKSUM = b"\xaa", b"\x55", b"\x99"
TICKET_PART, AUTHENTICATOR_SUM, AUTHENTICATOR = 2, 6, 7


# ---- DER --------------------------------------------------------------------------------------------------------------------

def elements(octets):
    """The elements, in their order: the first octet of each, and its content."""
    found = []
    while octets:
        begin = 2 + (octets[1] & 127 if octets[1] > 127 else 0)
        end = begin + int.from_bytes(octets[2:begin] or octets[1:2], "big")
        found.append((octets[0], octets[begin:end]))
        octets = octets[end:]
    return found


def der(first, content):
    size = len(content)
    count = (size.bit_length() + 7) // 8 if size > 127 else 0
    length = bytes([128 + count]) + size.to_bytes(count, "big") if count else bytes([size])
    return bytes([first]) + length + content


def inside(octets, *path):
    """The content at a path: of each step the first element that begins with this octet."""
    for first in path:
        octets = next(content for own, content in elements(octets) if own == first)
    return octets


def changed(octets, path, content):
    """The octets with another content at a path."""
    step, rest = path[0], path[1:]
    made, is_done = b"", False
    for first, own in elements(octets):
        if first == step and not is_done:
            own, is_done = changed(own, rest, content) if rest else content, True
        made += der(first, own)
    return made


# ---- AES with SHA-1 -----------------------------------------------------------------------------------------------------------

def folded(octets, size):
    """n-fold (RFC 3961, section 5.1)."""
    bits = "".join(f"{octet:08b}" for octet in octets)
    whole, copies = "", 0
    while not whole or len(whole) % (8 * size):
        turn = 13 * copies % len(bits)
        whole += bits[-turn:] + bits[:-turn] if turn else bits
        copies += 1
    total = sum(int(whole[at : at + 8 * size], 2) for at in range(0, len(whole), 8 * size))
    while total >> 8 * size:
        total = (total >> 8 * size) + (total & (1 << 8 * size) - 1)
    return total.to_bytes(size, "big")


def block(key, octets):
    encryptor = Cipher(algorithms.AES(key), modes.ECB()).encryptor()
    return encryptor.update(octets) + encryptor.finalize()


def derived(key, usage, purpose):
    """DK for a key usage (RFC 3961, section 5.3)."""
    octets, last = b"", folded(usage.to_bytes(4, "big") + purpose, 16)
    while len(octets) < len(key):
        last = block(key, last)
        octets += last
    return octets[: len(key)]


def mac(key, usage, purpose, octets):
    return hmac.new(derived(key, usage, purpose), octets, hashlib.sha1).digest()[:12]


def encrypted(key, octets):
    """CBC with ciphertext stealing, of more than a block: the last two blocks are exchanged (RFC 3962, section 5)."""
    last = len(octets) % 16 or 16
    encryptor = Cipher(algorithms.AES(key), modes.CBC(bytes(16))).encryptor()
    cipher = encryptor.update(octets + bytes(16 - last))
    return cipher[:-32] + cipher[-16:] + cipher[-32:-16][:last]


def decrypted(key, octets):
    last = len(octets) % 16 or 16
    end = len(octets) - last
    front, before, stolen = octets[: end - 16], octets[end - 16 : end], octets[end:]
    middle = Cipher(algorithms.AES(key), modes.ECB()).decryptor().update(before)
    whole = Cipher(algorithms.AES(key), modes.CBC(bytes(16))).decryptor().update(front + stolen + middle[last:])
    return whole + bytes(one ^ other for one, other in zip(middle, stolen))


def opened(key, usage, octets):
    plain = decrypted(derived(key, usage, ENCRYPTION), octets[:-12])
    assert mac(key, usage, INTEGRITY, plain) == octets[-12:]
    return plain[16:]


def sealed(key, usage, octets):
    plain = bytes(16) + octets
    return encrypted(derived(key, usage, ENCRYPTION), plain) + mac(key, usage, INTEGRITY, plain)


# ---- Requests -----------------------------------------------------------------------------------------------------------------

TICKET = (0x6E, 0x30, 0xA3, 0x61, 0x30, 0xA3, 0x30, 0xA2, 0x04)  # of an AP-REQ: the cipher of its ticket
SHOWN = (0x6E, 0x30, 0xA4, 0x30, 0xA2, 0x04)  # and of its authenticator
AP_REQ = (0x6C, 0x30, 0xA3, 0x30, 0x30, 0xA2, 0x04)  # of a TGS request whose first padata is PA-TGS-REQ
BODY = (0x6C, 0x30, 0xA4)
ETYPES = (0x30, 0xA8, 0x30)  # of a body
SUM = (0x62, 0x30, 0xA3, 0x30, 0xA1, 0x04)  # of an authenticator: its checksum


def etypes_of(request):
    return [int.from_bytes(content, "big", signed=True) for _, content in elements(inside(request, *BODY, *ETYPES))]


def listing(request, *etypes):
    """The request with these encryption types in front of its own."""
    ap_req = inside(request, *AP_REQ)
    part = opened(KRBTGT, TICKET_PART, inside(ap_req, *TICKET))
    session = inside(part, 0x63, 0x30, 0xA1, 0x30, 0xA1, 0x04)
    body = inside(request, *BODY)
    body = changed(body, ETYPES, b"".join(der(2, bytes([etype])) for etype in etypes) + inside(body, *ETYPES))
    authenticator = opened(session, AUTHENTICATOR, inside(ap_req, *SHOWN))
    authenticator = changed(authenticator, SUM, mac(session, AUTHENTICATOR_SUM, CHECKSUM, body))
    ap_req = changed(ap_req, SHOWN, sealed(session, AUTHENTICATOR, authenticator))
    return changed(changed(request, BODY, body), AP_REQ, ap_req)
