"""Measures reading and writing of a certificate's parts by the program that is the argument, and by openssl: see x509.sh."""
import os, subprocess, sys, tempfile
from turns import counted, nanoseconds, processor_seconds

PROGRAM = sys.argv[1]
TURNS = 100_000
PROCESSES = 100
CERTIFICATES = 10_000
PARTS = "basicConstraints,keyUsage,extendedKeyUsage,subjectKeyIdentifier,authorityKeyIdentifier,subjectAltName"

REQUEST = """
[req]
distinguished_name = subject
x509_extensions = extensions
prompt = no
[subject]
C = SE
ST = Skane
L = Lund
O = Example AB
OU = Directory
CN = server.example.com
emailAddress = admin@example.com
[extensions]
basicConstraints = critical, CA:TRUE, pathlen:2
keyUsage = critical, digitalSignature, keyCertSign, cRLSign
extendedKeyUsage = serverAuth, clientAuth
subjectKeyIdentifier = hash
authorityKeyIdentifier = keyid
subjectAltName = DNS:server.example.com, DNS:www.example.com, IP:192.0.2.1, URI:https://example.com/
"""


def split(content):
    """The elements that the bytes are, each with its identifier octet, its content, and its whole."""
    elements = []
    while content:
        length, start = content[1], 2
        if length > 127:
            start = 2 + length - 128
            length = int.from_bytes(content[2:start], "big")
        elements.append((content[0], content[start:start + length], content[:start + length]))
        content = content[start + length:]
    return elements


def made_in(folder):
    """A certificate, its subject and its extensions."""
    with open(os.path.join(folder, "request"), "w") as file:
        file.write(REQUEST)
    path = os.path.join(folder, "certificate")
    subprocess.run(["openssl", "req", "-x509", "-newkey", "rsa:2048", "-noenc", "-config", file.name, "-days", "30", "-outform", "DER",
        "-keyout", os.path.join(folder, "key"), "-out", path], capture_output=True, check=True)
    with open(path, "rb") as file:
        certificate = split(file.read())[0][1]
    fields = split(split(certificate)[0][1])
    return path, fields[5][2], split(fields[7][1])[0][2]


def show(name, part):
    for task in ("read", "write"):
        command = [PROGRAM, "x509", task, name, part.hex()]
        each = nanoseconds(command, TURNS)
        print(f"{name:<10} {len(part):4} bytes  {task:<5} {1e9 / each:11,.0f} a second  {each:7.0f} ns, {each / len(part):5.1f} a byte   {counted(command, len(part))}")


def best(measure):
    return min(measure() for _ in range(3))


def told(what, each):
    print(f"{what:<64} {1 / each:9,.0f} a second  {each * 1e9:11,.0f} ns")


def show_openssl(folder, path):
    look = ["openssl", "x509", "-inform", "DER", "-in", path, "-noout", "-subject", "-ext", PARTS]
    each = best(lambda: processor_seconds([look] * PROCESSES)) / PROCESSES
    told("openssl x509, subject and extensions, a process each", each)
    text = subprocess.run(["openssl", "x509", "-inform", "DER", "-in", path], capture_output=True, check=True).stdout
    one, many = os.path.join(folder, "one"), os.path.join(folder, "many")
    for name, count in ((one, 1), (many, CERTIFICATES)):
        with open(name, "wb") as file:
            file.write(text * count)
    read = ["openssl", "storeutl", "-noout", "-certs"]
    each = best(lambda: processor_seconds([read + [many]]) - processor_seconds([read + [one]])) / (CERTIFICATES - 1)
    told("openssl storeutl, whole certificates, all in one process", each)


def main():
    with tempfile.TemporaryDirectory() as folder:
        path, subject, extensions = made_in(folder)
        show("name", subject)
        show("extensions", extensions)
        show_openssl(folder, path)


main()
