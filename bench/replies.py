"""What AS requests ask, and what the replies to them say (RFC 4120, sections 5.4 and 5.9.1), by DER alone: no key is needed."""

AS_REQ, AS_REP, KRB_ERROR = 0x6A, 0x6B, 0x7E
ETYPE_INFO2 = 19
# Ways of first octets: to an error's code and its e-data, to the sealed parts of a ticket and of a reply, and to a request's etypes.
CODE, METHODS = (KRB_ERROR, 0x30, 0xA6, 0x02), (KRB_ERROR, 0x30, 0xAC, 0x04, 0x30)
TICKET, OWN = (AS_REP, 0x30, 0xA5, 0x61, 0x30, 0xA3, 0x30), (AS_REP, 0x30, 0xA6, 0x30)
ETYPES = (AS_REQ, 0x30, 0xA4, 0x30, 0xA8, 0x30)


def elements(octets):
    """The DER elements, in their order: the first octet of each, and its content."""
    found = []
    while octets:
        begin = 2 + (octets[1] & 127 if octets[1] > 127 else 0)
        end = begin + int.from_bytes(octets[2:begin] or octets[1:2], "big")
        found.append((octets[0], octets[begin:end]))
        octets = octets[end:]
    return found


def element(first, content):
    size = len(content)
    length = bytes([size]) if size < 128 else bytes([0x82]) + size.to_bytes(2, "big") if size > 255 else bytes([0x81, size])
    return bytes([first]) + length + content


def within(octets, *way):
    """The content of the element at the end of a way: of several with one first octet the last."""
    for first in way:
        octets = dict(elements(octets))[first]
    return octets


def number(octets, *way):
    return int.from_bytes(within(octets, *way, 0x02), "big", signed=True)


def without_padata(request):
    """The same AS request with no preauthentication."""
    fields = elements(within(request, AS_REQ, 0x30))
    return element(AS_REQ, element(0x30, b"".join(element(*it) for it in fields if it[0] != 0xA3)))


def etypes(request):
    return [int.from_bytes(content, "big", signed=True) for _, content in elements(within(request, *ETYPES))]


def said(reply):
    """('ticket', suite and kvno of the service's key, of the client's), ('preauthenticate', suite, salt or None) or ('error', code)."""
    if reply[0] == AS_REP:
        return ("ticket", *(number(reply, *sealed, tag) for sealed in (TICKET, OWN) for tag in (0xA0, 0xA1)))
    code = number(reply, *CODE[:-1])
    if code != 25:
        return ("error", code)
    (info,) = (within(it, 0xA2, 0x04) for _, it in elements(within(reply, *METHODS)) if number(it, 0xA1) == ETYPE_INFO2)
    entry = within(info, 0x30, 0x30)
    return ("preauthenticate", number(entry, 0xA0), within(entry, 0xA1, 0x1B) if 0xA1 in dict(elements(entry)) else None)
