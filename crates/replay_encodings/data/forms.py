"""The one DER encoding (X.690, sections 10 and 11) of what a KDC reads of a request: messages of RFC 4120, and of RFC 4556 with the one form of
RFC 5652's signed data.

A form is the first octet of an element, and what reads its content: that raises a ValueError where the content is another. Fields beyond
those that are named here aren't read. This is an independent reader: it follows the RFCs, and shares no code with the programs.
"""
import datetime
import re

from listings import der


def require(holds):
    if not holds:
        raise ValueError("not this form")


def one(form, octets):
    """The value that the octets are the one DER encoding of, or None."""
    try:
        return whole(form, octets)
    except ValueError:
        return None


def whole(form, octets):
    (element,) = split(octets)
    return value_of(form, element)


def value_of(form, element):
    (first, read), (own, content) = form, element
    require(own == first)
    return read(content)


def split(octets):
    """The elements, in their order: the first octet of each, and its content. Tags are below 31, and lengths definite and of the fewest octets
    (X.690, section 10.1)."""
    found = []
    while octets:
        require(len(octets) > 1 and octets[0] & 31 != 31)
        begin = 2 + (octets[1] & 127 if octets[1] > 127 else 0)
        end = begin + int.from_bytes(octets[2:begin] or octets[1:2], "big")
        found.append((octets[0], octets[begin:end]))
        require(der(*found[-1]) == octets[:end])
        octets = octets[end:]
    return found


# ---- Forms of ASN.1 ---------------------------------------------------------------------------------------------------------

def integer(content):
    """X.690, section 8.3.2: of the fewest octets."""
    number = int.from_bytes(content, "big", signed=True)
    require(content and (len(content) == 1 or not -1 << 8 * len(content) - 9 <= number < 1 << 8 * len(content) - 9))
    return number


def bits(content):
    """X.690, sections 8.6.2 and 11.2.1: the unused bits are zeros."""
    require(content and content[0] <= (7 if content[1:] else 0))
    require(content[-1] & (1 << content[0]) - 1 == 0 or not content[1:])
    return content


def identifier(content):
    """X.690, section 8.19.2: no arc begins with a zero of seven bits, and the last one ends."""
    require(content and content[-1] < 128)
    require(all(octet != 128 or before > 127 for before, octet in zip(b"\0" + content, content)))
    return content


def string(content):
    """KerberosString (RFC 4120, section 5.2.1): characters below 128."""
    require(all(octet < 128 for octet in content))
    return content


def time(content):
    """KerberosTime (RFC 4120, section 5.2.3): a moment of the calendar, which repeats itself after 400 years, without a fraction."""
    require(re.fullmatch(rb"[0-9]{14}Z", content))
    year, *rest = (int(content[at:end]) for at, end in ((0, 4), (4, 6), (6, 8), (8, 10), (10, 12), (12, 14)))
    datetime.datetime(year or 400, *rest)
    return content


def sole(content):
    """One element of any kind."""
    (element,) = split(content)
    return element


INTEGER, BITS, OCTETS, IDENTIFIER = (2, integer), (3, bits), (4, bytes), (6, identifier)
STRING, TIME = (0x1B, string), (0x18, time)


def explicit(number, form):
    return 0xA0 | number, lambda content: whole(form, content)


def implicit_octets(number):
    return 0x80 | number, bytes


def application(number, form):
    return 0x60 | number, lambda content: whole(form, content)


def sequence(*fields, optional=()):
    """The values of a SEQUENCE's fields by the numbers of their tags. Those of these numbers may be missing."""
    def read(content):
        found = split(content)
        octets = [octet for octet, _ in found]
        there = [field for field in fields if field[0] in octets]
        require(octets == [octet for octet, _ in there])
        require(all(octet & 31 in optional for octet, _ in fields if octet not in octets))
        return {field[0] & 31: value_of(field, element) for field, element in zip(there, found)}
    return 0x30, read


def explicit_sequence(*forms, optional=()):
    """A SEQUENCE whose fields have the explicit tags from 0 on."""
    return sequence(*(explicit(number, form) for number, form in enumerate(forms)), optional=optional)


def list_of(form):
    return 0x30, lambda content: [value_of(form, element) for element in split(content)]


def in_order(first, *forms):
    """The values of just these elements, in an element with this first octet."""
    def read(content):
        found = split(content)
        require(len(found) == len(forms))
        return [value_of(form, element) for form, element in zip(forms, found)]
    return first, read


def just(form, *values):
    """What reads as one of these values."""
    def read(content):
        value = form[1](content)
        require(value in values)
        return value
    return form[0], read


# ---- RFC 4120 ---------------------------------------------------------------------------------------------------------------

NAME = explicit_sequence(INTEGER, list_of(STRING))
# Checksum, EncryptionKey, HostAddress, TransitedEncoding, and an entry of AuthorizationData (sections 5.2.5, 5.2.6, 5.2.9 and 5.3).
TYPED = explicit_sequence(INTEGER, OCTETS)
ENCRYPTED = explicit_sequence(INTEGER, INTEGER, OCTETS, optional=[1])
# Section 5.2.7.2.
TIMESTAMP = explicit_sequence(TIME, INTEGER, optional=[1])
# Section 5.3.
TICKET = application(1, explicit_sequence(INTEGER, STRING, NAME, ENCRYPTED))
TICKET_PART = application(3, explicit_sequence(
    BITS, TYPED, STRING, NAME, TYPED, TIME, TIME, TIME, TIME, list_of(TYPED), list_of(TYPED), optional=[6, 8, 9, 10]))
# Section 5.5.1.
AP_REQ = application(14, explicit_sequence(INTEGER, INTEGER, BITS, TICKET, ENCRYPTED))
AUTHENTICATOR = application(2, explicit_sequence(
    INTEGER, STRING, NAME, TYPED, INTEGER, TIME, TYPED, INTEGER, list_of(TYPED), optional=[3, 6, 7, 8]))

# ---- RFC 4556, section 3.2.1 --------------------------------------------------------------------------------------------------

CERTIFIER = sequence(implicit_octets(0), implicit_octets(1), implicit_octets(2), optional=[0, 1, 2])
PA_PK_AS_REQ = sequence(implicit_octets(0), explicit(1, list_of(CERTIFIER)), implicit_octets(2), optional=[1, 2])
PK_AUTHENTICATOR = explicit_sequence(INTEGER, TIME, INTEGER, OCTETS, optional=[3])


def algorithm(content):
    """AlgorithmIdentifier (RFC 5280, section 4.1.1.2). Which algorithms are known isn't judged."""
    kind, *parameters = split(content)
    require(len(parameters) < 2)
    return value_of(IDENTIFIER, kind)


ALGORITHM = (0x30, algorithm)
# The public value may be any element.
AUTH_PACK = sequence(
    explicit(0, PK_AUTHENTICATOR), (0xA1, sole), explicit(2, list_of(ALGORITHM)), explicit(3, OCTETS), optional=[1, 2, 3])
ELEMENTS = (0x30, split)

# ---- RFC 5652, section 5: version 3, SHA-256, one certificate, and one signer by issuer and number with two signed attributes ----------

SIGNED_DATA, CONTENT_TYPE, MESSAGE_DIGEST = (bytes.fromhex(f"2a864886f70d01{end}") for end in ("0702", "0903", "0904"))
SHA256_ID = bytes.fromhex("0609608648016503040201")
SHA256 = just((0x30, bytes), SHA256_ID, SHA256_ID + b"\5\0")


# What is within the certificate isn't judged.
CERTIFICATE = in_order(0x30, ELEMENTS, ALGORITHM, BITS)
ISSUER_AND_NUMBER = in_order(0x30, ELEMENTS, INTEGER)
ATTRIBUTES = in_order(
    0xA0,
    in_order(0x30, just(IDENTIFIER, CONTENT_TYPE), in_order(0x31, IDENTIFIER)),
    in_order(0x30, just(IDENTIFIER, MESSAGE_DIGEST), in_order(0x31, OCTETS)),
)
SIGNER = in_order(0x30, just(INTEGER, 1), ISSUER_AND_NUMBER, SHA256, ATTRIBUTES, ALGORITHM, OCTETS)
ENCAPSULATED = in_order(0x30, IDENTIFIER, explicit(0, OCTETS))
DATA = in_order(
    0x30, just(INTEGER, 3), in_order(0x31, SHA256), ENCAPSULATED, in_order(0xA0, CERTIFICATE), in_order(0x31, SIGNER))
CONTENT_INFO = in_order(0x30, just(IDENTIFIER, SIGNED_DATA), in_order(0xA0, DATA))


def signed(content):
    """The eContentType, which the attribute content-type is too, and the eContent."""
    _, ((_, _, (kind, text), _, (signer,)),) = CONTENT_INFO[1](content)
    ((_, (attribute,)), _) = signer[3]
    require(attribute == kind)
    return kind, text


SIGNED = (0x30, signed)
