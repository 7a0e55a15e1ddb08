"""Measures the program that is its argument beside python's own libraries: see sealing.sh. What counts is processor
time, so that other work on the machine counts little."""
import hashlib
import resource
import subprocess
import sys

PROGRAM = sys.argv[1]
KEYS = 40
SHA2_KEYS = 5
MEGABYTES = 40
DES3_MEGABYTES = 4
DES3_KEY = b"the 24 bytes of this key"
ROUNDS_OF_ALL = 5


def processor_time():
    """The seconds of processor that this program and those that it ran have taken."""
    taken = [resource.getrusage(who) for who in (resource.RUSAGE_SELF, resource.RUSAGE_CHILDREN)]
    return sum(each.ru_utime + each.ru_stime for each in taken)


def timed(work):
    """The shortest time of a few runs, and what the last one gave."""
    best = None
    for _ in range(ROUNDS_OF_ALL):
        start = processor_time()
        outcome = work()
        passed = processor_time() - start
        best = passed if best is None else min(best, passed)
    return best, outcome


def program(task, times):
    """The time of so many steps without that of none, and what was printed."""
    run = lambda n: subprocess.run([PROGRAM, "sealing", task, str(n)], capture_output=True, text=True, check=True).stdout.strip()
    none, _ = timed(lambda: run(0))
    some, printed = timed(lambda: run(times))
    return some - none, printed


def hashlib_keys(digest, rounds, size, times):
    key = b"password"
    for _ in range(times):
        key = hashlib.pbkdf2_hmac(digest, key, b"EXAMPLE.COMtest1", rounds, size)
    return key.hex()


def cryptography_cts():
    from cryptography.hazmat.primitives.ciphers import Cipher, algorithms, modes

    text = bytes(1_000_000)
    for _ in range(MEGABYTES):
        cipher = Cipher(algorithms.AES(b"a key of AES-128"), modes.CBC(bytes(16))).encryptor()
        chain = cipher.update(text) + cipher.finalize()
        text = chain[:-32] + chain[-16:] + chain[-32:-16]
    return text[-32:].hex()


def cryptography_opening():
    from cryptography.hazmat.primitives.ciphers import Cipher, algorithms, modes

    text = bytes(1_000_000)
    for _ in range(MEGABYTES):
        cipher = Cipher(algorithms.AES(b"a key of AES-128"), modes.CBC(bytes(16))).decryptor()
        text = cipher.update(text[:-32] + text[-16:] + text[-32:-16]) + cipher.finalize()
    return text[-32:].hex()


def des3_runs(of_cipher):
    from cryptography.hazmat.primitives.ciphers import Cipher, modes

    try:
        from cryptography.hazmat.decrepit.ciphers.algorithms import TripleDES
    except ImportError:
        from cryptography.hazmat.primitives.ciphers.algorithms import TripleDES
    text = bytes(1_000_000)
    for _ in range(DES3_MEGABYTES):
        run = of_cipher(Cipher(TripleDES(DES3_KEY), modes.CBC(bytes(8))))
        text = run.update(text) + run.finalize()
    return text[-32:].hex()


def cryptography_des3():
    return des3_runs(lambda cipher: cipher.encryptor())


def cryptography_des3_opening():
    return des3_runs(lambda cipher: cipher.decryptor())


def at_hand(work):
    """The time and outcome of work by the package cryptography, or nothing where the package isn't there."""
    try:
        return timed(work)
    except ImportError:
        return None


def row(name, unit, amount, ours, theirs, other):
    here, printed = ours
    line = f"{name:<32} here {amount / here:9.1f} {unit}"
    if theirs is None:
        print(f"{line}   {other} is not at hand")
        return True
    there, wanted = theirs
    print(f"{line}   {other} {amount / there:9.1f} {unit}   here/there {there / here:.2f}")
    if printed != wanted:
        print(f"{name}: here {printed}, there {wanted}")
    return printed == wanted


def main():
    same = True
    for name, task, digest, rounds, size, times in (
        ("PBKDF2-HMAC-SHA1, 4,096 rounds", "key", "sha1", 4096, 32, KEYS),
        ("type 19: SHA-256, 32,768 rounds", "key19", "sha256", 32768, 16, SHA2_KEYS),
        ("type 20: SHA-384, 32,768 rounds", "key20", "sha384", 32768, 32, SHA2_KEYS),
    ):
        theirs = timed(lambda: hashlib_keys(digest, rounds, size, times))
        same = row(name, "keys/s", times, program(task, times), theirs, "hashlib") and same
    for done, task, theirs in (("sealed", "cts", cryptography_cts), ("opened", "open", cryptography_opening)):
        name = f"AES-128 CTS, 1 MB {done}"
        same = row(name, "MB/s", MEGABYTES, program(task, MEGABYTES), at_hand(theirs), "cryptography") and same
    for done, task, theirs in (
        ("sealed", "des3", cryptography_des3),
        ("opened", "des3-open", cryptography_des3_opening),
    ):
        name = f"triple DES, 1 MB {done}"
        same = row(name, "MB/s", DES3_MEGABYTES, program(task, DES3_MEGABYTES), at_hand(theirs), "cryptography") and same
    return 0 if same else 1


sys.exit(main())
