#!/usr/bin/env python3
"""Writes primes.txt: signatures of openssl by keys of two primes, keys whose numbers are no pair, and numbers that are refused.

usage: primes.py > primes.txt       new keys each time; needs openssl 3
"""
import re, subprocess, tempfile

MESSAGE = b"a message"
NAMES = ("modulus", "prime1", "prime2", "exponent1", "exponent2", "coefficient")


def openssl(*words, given=b""):
    return subprocess.run(["openssl", *words], input=given, capture_output=True, check=True).stdout


def octets(number):
    return number.to_bytes((number.bit_length() + 7) // 8, "big")


def row(head, *columns):
    texts = ((octets(c) if isinstance(c, int) else c).hex() or "-" for c in columns)
    print(head, "|", *texts)


def key_of(*words):
    """A new key of openssl, and its numbers."""
    pem = openssl("genpkey", "-algorithm", "RSA", *words)
    text = openssl("pkey", "-noout", "-text", given=pem).decode()
    found = [re.search(rf"(?m)^ *{name}: *\n((?: +[0-9a-f:]+\n)+)", text)[1] for name in NAMES]
    return pem, [int(re.sub(r"[\s:]", "", it), 16) for it in found]


def signed(pem, name):
    with tempfile.NamedTemporaryFile() as file:
        file.write(pem)
        file.flush()
        return openssl("dgst", f"-{name}", "-sign", file.name, given=MESSAGE)


def sign(name, numbers, signature):
    n, p, q, dp, dq, coefficient = numbers
    row(f"sign_by_primes {name}", n, 65537, p, q, dp, dq, coefficient, MESSAGE, signature)


def signatures():
    for bits in (2048, 2056, 3072, 4096):
        pem, numbers = key_of("-pkeyopt", f"rsa_keygen_bits:{bits}")
        for name in ("sha256", "sha384", "sha512") if bits == 2048 else ("sha256",):
            sign(name, numbers, signed(pem, name))
        for place in range(1, 6):
            wrong = list(numbers)
            wrong[place] ^= 2
            sign("sha256", wrong, b"")
        n, p, q, dp, dq, coefficient = numbers
        sign("sha256", [n, q, p, dq, dp, pow(p, -1, q)], signed(pem, "sha256"))
        sign("sha256", [n, q, p, dp, dq, coefficient], b"")
        sign("sha256", [n, 3, 5, 1, 1, 2], b"")
        sign("sha256", [n, n, n, dp, dq, coefficient], b"")


def refusals():
    prime = 2**1024 - 105
    for name, octets_of in (("TooShort", b"\3"), ("Even", octets(prime - 1)), ("ZeroInFront", b"\0" + octets(prime)), ("TooLong", b"\1" * 513)):
        row(f"primes Prime1 {name}", octets_of, prime, 1)
        row(f"primes Prime2 {name}", prime, octets_of, 1)
    row("primes OtherSizes", prime, prime >> 64 | 1, 1)
    row("primes OtherSizes", prime >> 64 | 1, prime, 1)
    row("primes LongCoefficient", prime, prime, bytes(129))
    row("primes taken", prime, prime, bytes(128))
    row("primes taken", prime, prime >> 56 | 1, b"")


print("# Written by primes.py. A line says by its first word what is shown; after the bar there are octets in hexadecimal, none as -:")
print("# sign_by_primes HASH | MODULUS EXPONENT PRIME1 PRIME2 EXPONENT1 EXPONENT2 COEFFICIENT MESSAGE SIGNATURE     no signature where the")
print("#     numbers don't belong together")
print("# primes REFUSAL [NAME] | PRIME1 PRIME2 COEFFICIENT     'taken' if they aren't refused")
signatures()
refusals()
