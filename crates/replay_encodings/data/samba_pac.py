#!/usr/bin/env python3
"""Writes the rows of samba_pac.txt, or of samba_logon.txt: tickets of a Samba domain controller, and what Samba's own reader of PACs says.

usage: samba_pac.py tickets KEYTAB CCACHE..
       samba_pac.py logons KEYTAB CCACHE..

It needs python3-samba and python3-cryptography. The rows were recorded with Samba 4.17.12 as the domain controller of AD.EXAMPLE.COM, its
keys by `samba-tool domain exportkeytab`, and credential caches of MIT's kinit and kvno."""
import hmac
import struct
import sys

from cryptography.hazmat.primitives.ciphers import Cipher, algorithms, modes
from samba.dcerpc import krb5pac
from samba.ndr import ndr_unpack

from pac import units_text
from verified_pac import folded, only, pac_of, read_element, rows_of

LOGON, UPN, ATTRIBUTES, REQUESTOR = 1, 12, 17, 18


# ---- Files ------------------------------------------------------------------------------------------------------------------

class Octets:
    def __init__(self, octets, at=0):
        self.octets, self.at = octets, at

    def take(self, size):
        self.at += size
        return self.octets[self.at - size:self.at]

    def number(self, size):
        return int.from_bytes(self.take(size), "big")

    def counted(self, size=4):
        return self.take(self.number(size))


def keys_in(path):
    """The keys of a keytab, by the principal's name and the etype."""
    found, file = {}, Octets(open(path, "rb").read(), 2)
    while file.at < len(file.octets):
        entry = Octets(file.counted())
        count = entry.number(2)
        parts = [entry.counted(2).decode() for _ in range(count + 1)]
        entry.take(9)
        etype = entry.number(2)
        found["/".join(parts[1:]), etype] = entry.counted(2)
    return found


def principal_in(file):
    file.take(4)
    count = file.number(4)
    return "/".join([file.counted().decode() for _ in range(count + 1)][1:])


def tickets_in(path):
    """The tickets of a credential cache, with their services."""
    file = Octets(open(path, "rb").read(), 2)
    file.counted(2)
    principal_in(file)
    while file.at < len(file.octets):
        principal_in(file)
        service = principal_in(file)
        file.take(2)
        file.counted()
        file.take(21)
        for _ in range(2):
            for _ in range(file.number(4)):
                file.take(2)
                file.counted()
        ticket = file.counted()
        file.counted()
        if not service.startswith("krb5_ccache_conf_data"):
            yield service, ticket


# ---- A ticket's part that is encrypted --------------------------------------------------------------------------------------

def fields_of(octets):
    octets, at, found = only(octets, 0x30), 0, {}
    while at < len(octets):
        tag = octets[at]
        found[tag], at = read_element(octets, at, tag)
    return found


def aes(key, octets, inverse=False):
    cipher = Cipher(algorithms.AES(key), modes.ECB())
    return (cipher.decryptor() if inverse else cipher.encryptor()).update(octets)


def derived(key, last):
    """RFC 3961, section 5.1, for key usage 2."""
    block, whole = folded(b"\0\0\0\2" + bytes([last]), 16), b""
    while len(whole) < len(key):
        block = aes(key, block)
        whole += block
    return whole[:len(key)]


def added(a, b):
    return bytes(x ^ y for x, y in zip(a, b))


def decrypted(key, octets):
    """RFC 3962, sections 5 and 6: more than one block."""
    octets, checksum, own = octets[:-12], octets[-12:], derived(key, 0xAA)
    last = len(octets) % 16 or 16
    before, swapped, end = octets[:-16 - last], octets[-16 - last:-last], octets[-last:]
    middle = aes(own, swapped, True)
    blocks = before + end + middle[last:]
    whole = added(aes(own, blocks, True), bytes(16) + blocks) + added(middle, end)
    assert hmac.new(derived(key, 0x55), whole, "sha1").digest()[:12] == checksum
    return whole[16:]


def part_of(ticket, keys, service):
    """The etype, the key, the client, its authtime and the authorization data."""
    enc_part = fields_of(fields_of(only(ticket, 0x61))[0xA3])
    etype = only(enc_part[0xA0], 2)[0]
    key = keys[service, etype]
    part = fields_of(only(decrypted(key, only(enc_part[0xA2], 4)), 0x63))
    strings, at, name = only(fields_of(part[0xA3])[0xA1], 0x30), 0, []
    while at < len(strings):
        component, at = read_element(strings, at, 0x1B)
        name.append(component.decode())
    return etype, key, "/".join(name), only(part[0xA5], 0x18).decode(), part[0xAA]


# ---- What Samba says --------------------------------------------------------------------------------------------------------

def text(string):
    units = (string or "").encode("utf-16-le")
    return units_text(struct.unpack("<%dH" % (len(units) // 2), units))


def pairs(items):
    return ",".join("%s:%d" % item for item in items) or "."


def groups(array):
    return pairs((item.rid, item.attributes) for item in array.rids or ())


def logon_text(info):
    base = info.info3.base
    times = [base.logon_time, base.logoff_time, base.kickoff_time, base.last_password_change, base.allow_password_change, base.force_password_change]
    names = [base.account_name, base.full_name, base.logon_script, base.profile_path, base.home_directory, base.home_drive]
    resources = info.resource_groups
    return " ".join([
        ",".join(map(str, times)), ",".join(text(name.string) for name in names), "%d,%d" % (base.logon_count, base.bad_password_count),
        "%d,%d" % (base.rid, base.primary_gid), str(base.user_flags), bytes(base.key.key).hex(), str(base.acct_flags), groups(base.groups),
        text(base.logon_server.string), text(base.logon_domain.string), str(base.domain_sid),
        pairs((item.sid, item.attributes) for item in info.info3.sids or ()), str(resources.domain_sid or "."), groups(resources.groups),
    ])


def upn_text(info):
    said = [text(info.upn_name), text(info.dns_domain_name), str(info.flags)]
    return " ".join(said + ([text(info.ex.samaccountname), str(info.ex.objectsid)] if info.flags & 2 else []))


def pac_text(buffers):
    return "; ".join([
        str(buffers[REQUESTOR].sid) if REQUESTOR in buffers else ".",
        "%d %d" % (buffers[ATTRIBUTES].flags_length, buffers[ATTRIBUTES].flags) if ATTRIBUTES in buffers else ".",
        upn_text(buffers[UPN]),
    ])


def main(kind, keytab, *caches):
    keys = keys_in(keytab)
    for cache in caches:
        for service, ticket in tickets_in(cache):
            etype, key, client, authtime, data = part_of(ticket, keys, service)
            pac = pac_of(data)
            buffers = {buffer.type: buffer.info for buffer in ndr_unpack(krb5pac.PAC_DATA, pac).buffers}
            if kind == "tickets":
                print(" | ".join([str(etype), key.hex(), client, authtime, data.hex(), pac_text(buffers)]))
                continue
            size, offset = next((size, offset) for number, size, offset in rows_of(pac) if number == LOGON)
            print(" | ".join(["logon", pac[offset:offset + size].hex(), logon_text(buffers[LOGON].info)]))


if __name__ == "__main__":
    if sys.argv[1] == "tickets":
        print("# Tickets of Samba by samba_pac.py: the etype and the key of a service | the client and its authtime | the authorization")
        print("# data of a ticket, in hexadecimal | the requestor, the attributes, and the UPN, as Samba reads them.")
    else:
        print("# Logon information of such tickets by samba_pac.py: the kind | the octets in hexadecimal | what they state, as Samba reads them.")
    main(*sys.argv[1:])
