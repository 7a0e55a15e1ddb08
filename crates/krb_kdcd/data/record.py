#!/usr/bin/env python3
"""Writes the run that the gate repeats: `args`, `stdin` and `stdout` in the folder above, and `accounts.cdb` and `words` here.

Messages that are no request get the empty reply. Requests and replies are rows of replay_encodings/data/pkinit_realms.txt: replies to
requests by password and of the TGS are those of an independent implementation of RFC 4120's rules, and pkinit_realms.py computed the one
by certificate.
The database is made by bench/account_files.py, of what that reads in replay_encodings/data/certified.cdb.

Then the written files are read again and checked, by the RFCs and by Python's standard library alone: keys of passwords, what is sealed, the
signatures and the agreed key. No program of this repository takes part.

usage: python3 record.py
"""
import functools, hashlib, hmac, os, struct, sys

sys.dont_write_bytecode = True
HERE = os.path.dirname(os.path.abspath(__file__))
ROWS = f"{HERE}/../../replay_encodings/data"
sys.path.insert(0, f"{HERE}/../../../bench")
import account_files
from replies import elements, number, within

MOMENT = b"20000101000000Z"
WORDS = bytes(range(128))  # of each message
ARGS = ["accounts.cdb", "words", "--log", "--fixed-words", "--at", MOMENT.decode()]
NAMES = [(b"a",), (b"b",), (b"d",), (b"h",), (b"krbtgt", b"R")]
# No request (RFC 4120, sections 5.4.1 and 5.5.1): no octet, a letter, and the first octets of an AS-REQ and of a TGS-REQ.
NO_REQUESTS = [b"", b"x", bytes.fromhex("6a00"), bytes.fromhex("6c0130")]
LABELS = ["no padata", "password, a", "TGS", "certificate, a"]
# The key usages (RFC 4120, section 7.5.1).
TIMESTAMP, TICKET, AS_PART, CHECKSUM, AUTHENTICATOR, TGS_PART = 1, 2, 3, 6, 7, 8


def read(path):
    with open(path, "rb") as file:
        return file.read()


def write(path, octets):
    with open(path, "wb") as file:
        file.write(octets)


def framed(message):
    """RFC 4120, section 7.2.2."""
    return struct.pack(">I", len(message)) + message


def frames(stream):
    found = []
    while stream:
        end = 4 + struct.unpack(">I", stream[:4])[0]
        assert end <= len(stream)
        found.append(stream[4:end])
        stream = stream[end:]
    return found


# ---- What is written --------------------------------------------------------------------------------------------------------

def rows():
    """Request and reply of each label, of the realm that certified.cdb holds."""
    with open(f"{ROWS}/pkinit_realms.txt", encoding="ascii") as lines:
        text = lines.read().split("open certified.cdb\n")[1].split("open ")[0]
    given = {}
    for _, label, request, reply, _ in (line.split(" | ", 4) for line in text.splitlines()):
        given.setdefault(label, (bytes.fromhex(request), bytes.fromhex(reply)))
    return [given[label] for label in LABELS]


def messages():
    """Each with its reply: two messages that are no request in front, and two between the requests."""
    empty = [(message, b"") for message in NO_REQUESTS]
    asked = rows()
    return [*empty[:2], *asked[:2], *empty[2:], *asked[2:]]


def write_database(path):
    source = account_files.File(read(f"{ROWS}/certified.cdb"))
    keys = [account_files.block(name) for name in NAMES] + [account_files.REALM_KEY]
    account_files.write_records(path, [(key, source.find(key)) for key in keys])


def record():
    given = messages()
    write(f"{HERE}/../args", "".join(f"{word}\n" for word in ARGS).encode())
    write(f"{HERE}/../stdin", b"".join(framed(message) for message, _ in given))
    write(f"{HERE}/../stdout", b"".join(framed(reply) for _, reply in given))
    write(f"{HERE}/words", WORDS * len(given))
    write_database(f"{HERE}/accounts.cdb")


# ---- DER (X.690, section 10.1) ------------------------------------------------------------------------------------------------

def element(first, content):
    size = len(content)
    if size < 128:
        return bytes([first, size]) + content
    digits = size.to_bytes((size.bit_length() + 7) // 8, "big")
    return bytes([first, 128 | len(digits)]) + digits + content


def sequence(*parts):
    return element(0x30, b"".join(parts))


def fields(given):
    """Elements in explicit tags of these numbers."""
    return [element(0xA0 | number, content) for number, content in given]


def integer(value):
    return element(2, value.to_bytes(value.bit_length() // 8 + 1, "big"))


def whole_of(octets):
    """The content of the one element."""
    ((_, content),) = elements(octets)
    return content


# ---- AES (FIPS 197) with ciphertext stealing, and its keys (RFC 3961, RFC 3962) -----------------------------------------------

def doubled(octet):
    return octet << 1 ^ (0x11B if octet & 128 else 0)


def times(octet, other):
    """The product in the field of 256 elements (FIPS 197, section 4.2)."""
    total = 0
    while other:
        total ^= octet if other & 1 else 0
        octet, other = doubled(octet), other >> 1
    return total


def substitution():
    """The S-box (FIPS 197, section 5.1.1): the inverse, and an affine transformation."""
    box = []
    for octet in range(256):
        inverse = next((it for it in range(256) if times(octet, it) == 1), 0)
        turned = (inverse << place | inverse >> 8 - place for place in range(5))
        box.append(functools.reduce(lambda a, b: a ^ b, turned) & 255 ^ 0x63)
    return box


BOX = substitution()
UNBOX = [BOX.index(octet) for octet in range(256)]


def xored(one, other):
    return bytes(a ^ b for a, b in zip(one, other))


@functools.cache
def round_keys(key):
    """FIPS 197, section 5.2."""
    count, factor = len(key) // 4, 1
    words = [key[at : at + 4] for at in range(0, len(key), 4)]
    while len(words) < 4 * (count + 7):
        word = words[-1]
        if len(words) % count == 0:
            word = bytes(BOX[octet] for octet in word[1:] + word[:1])
            word, factor = bytes([word[0] ^ factor]) + word[1:], doubled(factor)
        elif count == 8 and len(words) % count == 4:
            word = bytes(BOX[octet] for octet in word)
        words.append(xored(words[-count], word))
    return [b"".join(words[at : at + 4]) for at in range(0, len(words), 4)]


def mixed(state, factors):
    """MixColumns (FIPS 197, section 5.1.3) or its inverse: each column times these factors, turned by a row for each octet."""
    columns = (state[at : at + 4] for at in range(0, 16, 4))
    return bytes(
        functools.reduce(lambda a, b: a ^ b, (times(column[(row + place) % 4], factors[place]) for place in range(4)))
        for column in columns
        for row in range(4)
    )


def encrypted_block(key, block):
    first, *middle, last = round_keys(key)
    state = xored(block, first)
    for own in [*middle, last]:
        state = bytes(BOX[state[(at + 4 * (at % 4)) % 16]] for at in range(16))
        state = xored(state if own is last else mixed(state, (2, 3, 1, 1)), own)
    return state


def decrypted_block(key, block):
    first, *middle, last = round_keys(key)
    state = xored(block, last)
    for own in [*reversed(middle), first]:
        state = xored(bytes(UNBOX[state[(at - 4 * (at % 4)) % 16]] for at in range(16)), own)
        state = state if own is first else mixed(state, (14, 11, 13, 9))
    return state


def decrypted(key, octets):
    """CBC with ciphertext stealing and a zero vector (RFC 3962, section 5), of more than one block."""
    *front, before, last = (octets[at : at + 16] for at in range(0, len(octets), 16))
    stolen = decrypted_block(key, before)
    whole = last + stolen[len(last) :]
    vectors = [bytes(16), *front]
    text = b"".join(xored(decrypted_block(key, block), vector) for block, vector in zip([*front, whole], vectors))
    return text + xored(stolen, last)


def folded(octets, size):
    """n-fold (RFC 3961, section 5.1)."""
    bits, whole, copies = "".join(f"{octet:08b}" for octet in octets), "", 0
    while not whole or len(whole) % (8 * size):
        turn = 13 * copies % len(bits)
        whole += bits[len(bits) - turn :] + bits[: len(bits) - turn]
        copies += 1
    total = sum(int(whole[at : at + 8 * size], 2) for at in range(0, len(whole), 8 * size))
    while total >> 8 * size:
        total = (total >> 8 * size) + (total & (1 << 8 * size) - 1)
    return total.to_bytes(size, "big")


def derived(key, constant):
    """DK (RFC 3961, section 5.1)."""
    block, octets = folded(constant, 16), b""
    while len(octets) < len(key):
        block = encrypted_block(key, block)
        octets += block
    return octets[: len(key)]


def key_of_password(password, salt, size):
    """RFC 3962, section 4."""
    return derived(hashlib.pbkdf2_hmac("sha1", password, salt, 4096, size), b"kerberos")


def opened(key, usage, octets):
    """What is sealed under a key for a usage (RFC 3961, section 5.3; RFC 3962, section 6), without its confounder."""
    cipher, code = octets[:-12], octets[-12:]
    constant = struct.pack(">I", usage)
    text = decrypted(derived(key, constant + b"\xaa"), cipher)
    assert hmac.digest(derived(key, constant + b"\x55"), text, "sha1")[:12] == code
    return text[16:]


def check_ciphers():
    """FIPS 197, appendices C.1 and C.3; RFC 3962, appendix B."""
    block = bytes.fromhex("00112233445566778899aabbccddeeff")
    for size, sealed in (16, "69c4e0d86a7b0430d8cdb78070b4c55a"), (32, "8ea2b7ca516745bfeafc49904b496089"):
        assert encrypted_block(bytes(range(size)), block).hex() == sealed
        assert decrypted_block(bytes(range(size)), bytes.fromhex(sealed)) == block
    text, key = b"I would like the General Gau's C", b"chicken teriyaki"
    sealed = "39312523a78662d5be7fcbcc98ebf5a897687268d6ecccc0c07b25e25ecfe584"
    assert decrypted(key, bytes.fromhex(sealed)) == text
    assert folded(b"kerberos", 16).hex() == "6b65726265726f737b9b5b2b93132b93"


# ---- Signatures and the agreed key (RFC 4556, RFC 5652, RFC 8017) --------------------------------------------------------------

SHA256_FRONT = bytes.fromhex("3031300d060960864801650304020105000420")
# id-signedData, id-pkinit-authData and id-pkinit-DHKeyData.
SIGNED_DATA, AUTH_DATA, KEY_DATA = (bytes.fromhex(it) for it in ("2a864886f70d010702", "2b060105020301", "2b060105020302"))
MESSAGE_DIGEST = bytes.fromhex("2a864886f70d010904")


def has_signed(public, octets, signature):
    """RSASSA-PKCS1-v1_5 with SHA-256 (RFC 8017, section 8.2.2)."""
    modulus, exponent = public
    size = (modulus.bit_length() + 7) // 8
    tail = SHA256_FRONT + hashlib.sha256(octets).digest()
    padded = b"\0\1" + b"\xff" * (size - len(tail) - 3) + b"\0" + tail
    return pow(int.from_bytes(signature, "big"), exponent, modulus) == int.from_bytes(padded, "big")


def public_key(certificate):
    """Modulus and exponent (RFC 5280, section 4.1.2.7; RFC 8017, appendix A.1.1)."""
    info = elements(elements(whole_of(certificate))[0][1])[6][1]
    bits = elements(info)[1][1]
    return [int.from_bytes(content, "big") for _, content in elements(whole_of(bits[1:]))]


def is_issued_by(certificate, anchor):
    signed, _, (_, bits) = elements(whole_of(certificate))
    return has_signed(public_key(anchor), element(*signed), bits[1:])


def signed_content(octets, kind, anchor):
    """The content of signed data, whose signer has a certificate under the anchor (RFC 5652, section 5), and that certificate."""
    (_, own), (_, data) = elements(whole_of(octets))
    assert own == SIGNED_DATA
    _, _, (_, encapsulated), (_, certificate), (_, infos) = elements(whole_of(data))
    (_, own), (_, content) = elements(encapsulated)
    assert own == kind and is_issued_by(certificate, anchor)
    text = whole_of(content)
    _, _, _, (_, attributes), _, (_, signature) = elements(whole_of(infos))
    digests = [whole_of(values) for (_, name), (_, values) in map(elements, (it for _, it in elements(attributes))) if name == MESSAGE_DIGEST]
    assert digests == [hashlib.sha256(text).digest()]
    assert has_signed(public_key(certificate), element(0x31, attributes), signature)
    return text, certificate


def padata_of(message, field, kind):
    """The value of the one padata of this type."""
    (value,) = (within(it, 0xA2, 0x04) for _, it in elements(within(message, message[0], 0x30, field, 0x30)) if number(it, 0xA1) == kind)
    return value


def agreed_key(request, reply, means, size):
    """The key of the reply's part (RFC 4556, sections 3.2.3 and 3.2.3.1), which is octetstring2key of the shared secret."""
    certificate, _, anchor = (element(*it) for it in elements(means))
    value = padata_of(request, 0xA3, 16)
    pack, _ = signed_content(within(value, 0x30, 0x80), AUTH_DATA, anchor)
    body = element(0x30, within(request, 0x6A, 0x30, 0xA4, 0x30))
    assert within(pack, 0x30, 0xA0, 0x30, 0xA3, 0x04) == hashlib.sha1(body).digest()
    assert within(pack, 0x30, 0xA0, 0x30, 0xA1, 0x18) == MOMENT
    (_, algorithm), (_, bits) = elements(within(pack, 0x30, 0xA1, 0x30))
    prime, generator, _ = (int.from_bytes(it, "big") for _, it in elements(elements(algorithm)[1][1]))
    given, own = signed_content(within(padata_of(reply, 0xA2, 17), 0xA0, 0x30, 0x80), KEY_DATA, anchor)
    assert own == certificate
    # The KDC's secret number is of the message's own random octets.
    secret = int.from_bytes(WORDS[64:], "big")
    public = int.from_bytes(whole_of(within(given, 0x30, 0xA0, 0x03)[1:]), "big")
    assert public == pow(generator, secret, prime)
    assert number(given, 0x30, 0xA1) == number(pack, 0x30, 0xA0, 0x30, 0xA2)
    shared = pow(int.from_bytes(whole_of(bits[1:]), "big"), secret, prime).to_bytes((prime.bit_length() + 7) // 8, "big")
    return b"".join(hashlib.sha1(bytes([count]) + shared).digest() for count in range(2))[:size]


# ---- Replies ------------------------------------------------------------------------------------------------------------------

def components(octets):
    """The components of a PrincipalName's content."""
    return tuple(content for _, content in elements(within(octets, 0x30, 0xA1, 0x30)))


def sealed_in(octets):
    """Suite and ciphertext of the content of an EncryptedData in a tag."""
    return number(octets, 0x30, 0xA0), within(octets, 0x30, 0xA2, 0x04)


def session_key(part, tag):
    """Type and octets of the key in this field of an opened part."""
    key = within(part, tag, 0x30)
    return number(key, 0xA0), within(key, 0xA1, 0x04)


class Realm:
    """The accounts of the database, and what its logins by certificate are answered by."""

    def __init__(self, octets):
        file = account_files.File(octets)
        self.accounts = {name: file.account(name) for name in NAMES}
        version, self.skew, self.lifetime, size, policy = struct.unpack("<BIIII", file.find(account_files.REALM_KEY)[:17])
        self.means, self.name = file.find(account_files.REALM_KEY)[17 : 17 + size], file.find(account_files.REALM_KEY)[17 + size :]
        assert (version, policy) == (1, 0)
        for name in (b"a",), (b"b",):
            account = self.accounts[name]
            assert account.salt == self.name + name[0] and account.key == key_of_password(b"pw", account.salt, len(account.key))

    def opened_ticket(self, ticket):
        """The part of a ticket of this realm, which is sealed under its service's key."""
        account = self.accounts[components(within(ticket, 0xA2))]
        suite, octets = sealed_in(within(ticket, 0xA3))
        assert within(ticket, 0xA1, 0x1B) == self.name and suite == account.suite
        return opened(account.key, TICKET, octets)

    def check_granted(self, request, reply, client, key, usage):
        """The reply grants what the request asks for: ticket and reply's part have one session key, one client and the same times."""
        body, told = within(request, request[0], 0x30, 0xA4, 0x30), within(reply, reply[0], 0x30)
        assert reply[0] == request[0] + 1 and number(told, 0xA0) == 5 and number(told, 0xA1) == number(request, request[0], 0x30, 0xA2) + 1
        assert within(told, 0xA3, 0x1B) == self.name and within(told, 0xA4) == client
        part, tag = opened(key, usage, sealed_in(within(told, 0xA6))[1]), 0x79 if usage == AS_PART else 0x7A
        ticket, service = within(told, 0xA5, 0x61, 0x30), within(body, 0xA3)
        assert within(ticket, 0xA2) == service and number(ticket, 0xA3, 0x30, 0xA1) == self.accounts[components(service)].kvno
        own, sealed = within(part, tag, 0x30), within(self.opened_ticket(ticket), 0x63, 0x30)
        assert session_key(own, 0xA0) == session_key(sealed, 0xA1)
        assert number(own, 0xA2) == number(body, 0xA7) and within(own, 0xAA) == service and within(sealed, 0xA3) == client
        # authtime and endtime
        assert all(within(own, tag, 0x18) == within(sealed, tag, 0x18) for tag in (0xA5, 0xA7))
        assert 0 < seconds(within(own, 0xA7, 0x18)) - seconds(MOMENT) <= self.lifetime and within(own, 0xA7, 0x18) <= within(body, 0xA5, 0x18)
        return within(own, 0xA5, 0x18)

    def check_required(self, request, reply):
        """The error KDC_ERR_PREAUTH_REQUIRED (25) offers PA-ETYPE-INFO2 (19), PA-ENC-TIMESTAMP (2) and PA-PK-AS-REQ (16): RFC 4120, sections
        5.2.7.5 and 5.9.1; RFC 4556, section 3.2."""
        body = within(request, 0x6A, 0x30, 0xA4, 0x30)
        account = self.accounts[components(within(body, 0xA1))]
        salt = [element(0x1B, account.salt)] if account.salt is not None else []
        info = sequence(sequence(*fields([(0, integer(account.suite)), *((1, it) for it in salt)])))
        methods = [(19, info), (2, b""), (16, b"")]
        offered = sequence(*(sequence(*fields([(1, integer(kind)), (2, element(4, value))])) for kind, value in methods))
        names = [(9, element(0x1B, self.name)), (10, within(body, 0xA3)), (12, element(4, offered))]
        times = [(4, element(0x18, MOMENT)), (5, integer(0))]
        assert reply == element(0x7E, sequence(*fields([(0, integer(5)), (1, integer(30)), *times, (6, integer(25)), *names])))

    def check_by_password(self, request, reply):
        client = within(request, 0x6A, 0x30, 0xA4, 0x30, 0xA1)
        key = self.accounts[components(client)].key
        stamp = opened(key, TIMESTAMP, sealed_in(padata_of(request, 0xA3, 2))[1])
        assert abs(seconds(within(stamp, 0x30, 0xA0, 0x18)) - seconds(MOMENT)) <= self.skew
        assert self.check_granted(request, reply, client, key, AS_PART) == MOMENT

    def check_by_certificate(self, request, reply):
        client = within(request, 0x6A, 0x30, 0xA4, 0x30, 0xA1)
        key = agreed_key(request, reply, self.means, len(self.accounts[components(client)].key))
        assert self.check_granted(request, reply, client, key, AS_PART) == MOMENT

    def check_further(self, request, reply):
        """A TGS reply is sealed under the session key of the presented ticket, whose authenticator has no subkey here."""
        presented = within(padata_of(request, 0xA3, 1), 0x6E, 0x30)
        ticket = within(self.opened_ticket(within(presented, 0xA3, 0x61, 0x30)), 0x63, 0x30)
        _, key = session_key(ticket, 0xA1)
        own = dict(elements(within(opened(key, AUTHENTICATOR, sealed_in(within(presented, 0xA4))[1]), 0x62, 0x30)))
        client = within(ticket, 0xA3)
        assert components(own[0xA2]) == components(client) and 0xA6 not in own
        body = element(0x30, within(request, 0x6C, 0x30, 0xA4, 0x30))
        checksum = hmac.digest(derived(key, struct.pack(">I", CHECKSUM) + b"\x99"), body, "sha1")[:12]
        assert within(own[0xA3], 0x30, 0xA1, 0x04) == checksum
        assert abs(seconds(whole_of(own[0xA5])) - seconds(MOMENT)) <= self.skew
        assert self.check_granted(request, reply, client, key, TGS_PART) == within(ticket, 0xA5, 0x18)


def seconds(time):
    """Of times in one month."""
    day, hour, minute, second = (int(time[at : at + 2]) for at in range(6, 14, 2))
    return ((day * 24 + hour) * 60 + minute) * 60 + second


def check():
    check_ciphers()
    assert read(f"{HERE}/../args").decode().split() == ARGS
    asked, told = frames(read(f"{HERE}/../stdin")), frames(read(f"{HERE}/../stdout"))
    assert len(asked) == len(told) and read(f"{HERE}/words") == WORDS * len(asked)
    realm = Realm(read(f"{HERE}/accounts.cdb"))
    pairs = list(zip(asked, told))
    assert [it for it in pairs if not it[1]] == [(message, b"") for message in NO_REQUESTS]
    checks = realm.check_required, realm.check_by_password, realm.check_further, realm.check_by_certificate
    requests = [it for it in pairs if it[1]]
    assert len(requests) == len(checks)
    for is_right, (request, reply) in zip(checks, requests):
        is_right(request, reply)
    print(f"{len(pairs)} messages, {len(requests)} requests: the files agree")


if __name__ == "__main__":
    record()
    check()
