#!/usr/bin/env python3
"""Writes rsa_logins.txt: certificates and RSA keys of openssl, by which a user logs in at a realm or is refused.

usage: rsa_logins.py EXAMPLES > rsa_logins.txt      new keys each time; needs openssl 3. EXAMPLES is the repository's folder examples/.
"""
import os, re, subprocess, sys, tempfile

REALM, USER = "EXAMPLE.COM", "user"


def openssl(*words):
    return subprocess.run(["openssl", *words], capture_output=True, check=True).stdout


def field(text, name):
    lines = re.search(rf"(?m)^ *{name}: *\n((?: +[0-9a-f:]+\n)+)", text)
    return re.sub(r"[\s:]", "", lines[1])


class Holder:
    """A certificate with its key."""
    def __init__(self, folder, name):
        self.certificate = open(f"{folder}/{name}.der", "rb").read().hex()
        file = f"{folder}/{name}.key"
        self.key = openssl("pkey", "-in", file, "-pubout", "-outform", "DER").hex()
        self.secret = field(openssl("pkey", "-in", file, "-noout", "-text").decode(), "privateExponent")


class Certified:
    """An authority, and the certificates that it issued to a KDC and a client."""
    def __init__(self, bits, realm=REALM, user=USER, days="36500"):
        with tempfile.TemporaryDirectory() as folder:
            settings = dict(os.environ, DAYS=days, KEY=f"-algorithm RSA -pkeyopt rsa_keygen_bits:{bits}")
            subprocess.run([f"{sys.argv[1]}/pkinit_certificates.sh", realm, user, folder], env=settings, check=True, stdout=subprocess.DEVNULL, stderr=subprocess.DEVNULL)
            self.anchor, self.kdc, self.client = (Holder(folder, name) for name in ("anchor", "kdc", "client"))


def broken(certificate):
    return certificate[:-2] + f"{int(certificate[-2:], 16) ^ 1:02x}"


def row(answer, client_anchor, client, realm_anchor, realm, client_key=None, realm_key=None):
    """The keys are those of the certificates, unless others are given."""
    client_key, realm_key = client_key or client, realm_key or realm
    print(answer, client_anchor.certificate, client.certificate, client_key.key, client_key.secret,
          realm_anchor.certificate, realm.certificate, realm_key.key, realm_key.secret)


class Spelled:
    def __init__(self, holder, certificate):
        self.certificate, self.key, self.secret = certificate, holder.key, holder.secret


def main():
    print("""# Written by rsa_logins.py. A user logs in at a realm by certificate, and uses the ticket at a service:
# ANSWER CLIENT_ANCHOR CERTIFICATE KEY PRIVATE_EXPONENT REALM_ANCHOR CERTIFICATE KEY PRIVATE_EXPONENT
# The answer is 'honest:one_key' where the login is honest and client and service hold one key; or who refuses, with the realm's error
# code (RFC 4556, section 3.1.3), or that the client doesn't trust the reply; or why a party's own key is refused.""")
    for bits in (2048, 3072, 4096):
        c = Certified(bits)
        row("honest:one_key", c.anchor, c.client, c.anchor, c.kdc)
    c, other = Certified(2048), Certified(2048)
    row("honest:one_key", other.anchor, c.client, c.anchor, other.kdc)
    row("Taken(Refused(70))", c.anchor, c.client, other.anchor, c.kdc)
    row("Taken(NotTrusted)", other.anchor, c.client, c.anchor, c.kdc)
    row("Taken(Refused(70))", c.anchor, Spelled(c.client, broken(c.client.certificate)), c.anchor, c.kdc)
    row("Taken(NotTrusted)", c.anchor, c.client, c.anchor, Spelled(c.kdc, broken(c.kdc.certificate)))
    row("Taken(Refused(64))", c.anchor, c.client, c.anchor, c.kdc, client_key=other.client)
    row("Taken(NotTrusted)", c.anchor, c.client, c.anchor, c.kdc, realm_key=other.kdc)
    row("Taken(Refused(75))", c.anchor, c.kdc, c.anchor, c.kdc)
    row("Taken(NotTrusted)", c.anchor, c.client, c.anchor, c.client)
    another = Certified(2048, user="another")
    row("Taken(Refused(75))", another.anchor, another.client, another.anchor, another.kdc)
    weak = Certified(1024)
    row("KeyTooWeak", weak.anchor, weak.client, weak.anchor, weak.kdc)
    row("Taken(Refused(70))", c.anchor, Spelled(c.client, weak.client.certificate), weak.anchor, c.kdc)
    late = Certified(2048, days="1")
    row("Taken(Refused(71))", c.anchor, late.client, late.anchor, c.kdc)


main()
