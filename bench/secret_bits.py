"""Counts instructions of the program of the crate that is its argument: see secret_bits.sh."""
import os, re, subprocess, sys, tempfile

CRATE = os.path.abspath(sys.argv[1])
PROGRAM = os.path.join(CRATE, "out", os.path.basename(CRATE))
MESSAGE = b"a message".hex()


def exponents(size):
    """Of this many octets, by their weight."""
    return {"0": bytes(size), "1": bytes(size - 1) + b"\1", "1, in front": b"\x80" + bytes(size - 1), "half": b"\xa5\x3c" * (size // 2),
            "all": b"\xff" * size}


def row_of(kind, places, exponent):
    """The first recorded row of this kind, with the exponent at these places, and without an answer."""
    with open(f"{CRATE}/data/{'primes' if kind.startswith('sign_by') else 'keys'}.txt", encoding="utf-8") as it:
        head, columns = next(line for line in it if line.startswith(kind)).rstrip("\n").split(" | ")
    columns = columns.split(" ")
    for at in places:
        columns[at] = exponent.hex()
    return f"{head} | {' '.join([*columns[:-1], '-'])}\n"


def instructions(function, row):
    """How many a function takes for the row, and all that it calls."""
    with tempfile.TemporaryDirectory() as folder:
        for name in os.listdir(f"{CRATE}/data"):
            with open(os.path.join(folder, name), "w", encoding="utf-8") as it:
                it.write(row if name == "keys.txt" else "")
        words = ["valgrind", "--tool=callgrind", "--callgrind-out-file=/dev/null", f"--toggle-collect={function}", PROGRAM]
        said = subprocess.run(words, cwd=folder, capture_output=True, text=True, check=False).stderr
    return int(re.search(r"Collected : (\d+)", said)[1])


def main():
    differing = 0
    for what, kind, places, size, function in (
        ("public value, group 14", "public 14", [0], 64, "*hidden_power*"), ("shared secret, group 14", "shared 14", [1], 64, "*hidden_power*"),
        ("signature by the exponent", "sign sha256", [2], 256, "*hidden_power*"),
        ("signature by the primes", "sign_by_primes sha256", [4, 5], 128, "*PrivateKey::sign")):
        counts = {weight: instructions(function, row_of(kind, places, exponent)) for weight, exponent in exponents(size).items()}
        differing += len(set(counts.values())) > 1
        print(what, *(f"| weight {weight}: {count:,}" for weight, count in counts.items()))
    return 1 if differing else 0


if __name__ == "__main__":
    sys.exit(main())
