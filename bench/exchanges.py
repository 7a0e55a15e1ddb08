"""Measures exchanges of the program with one request, sent many times."""
import os, shutil, subprocess, tempfile

from program import timed

# Which crates a function belongs to, by how its name begins.
PARTS = {
    "sealing": ("block_ciphers", "encryption_profiles", "krb_crypto", "sha1"),
    "DER": ("picky_asn1", "asn1_", "krb_messages"),
    "memory": ("std_alloc", "rattle_", "__rattle", "malloc", "_int_", "free", "realloc", "calloc", "unlink_chunk",
               "__mem", "mem"),
}


def part_of(function):
    for part, beginnings in PARTS.items():
        if function.startswith(beginnings):
            return part
    return "rest"


def instructions(program, frame, count):
    """How many instructions each part takes for this many frames."""
    with tempfile.TemporaryDirectory() as folder:
        out = os.path.join(folder, "callgrind.out")
        words = ["valgrind", "--tool=callgrind", "--callgrind-out-file=" + out, program]
        subprocess.run(words, input=frame * count, stdout=subprocess.DEVNULL, stderr=subprocess.DEVNULL, check=True)
        listed = subprocess.run(["callgrind_annotate", "--threshold=100", "--auto=no", out],
                                capture_output=True, text=True, check=True).stdout
    taken = dict.fromkeys([*PARTS, "rest"], 0)
    for line in listed.splitlines():
        columns = line.split()
        if len(columns) >= 3 and columns[1].startswith("(") and ":" in line:
            place = line.split(")", 1)[1].strip().split(" [")[0]
            taken[part_of(place.split(":", 1)[1])] += int(columns[0].replace(",", ""))
    return taken


def measure(name, program, frame, kind):
    """Tells how many exchanges a second there are, where the reply has this first octet, and each frame gets the same."""
    reply = subprocess.run([program], input=frame, stdout=subprocess.PIPE, check=True).stdout
    assert reply[4] == kind, "no ticket was given"
    for count in (20_000, 100_000):
        seconds, used, whole = timed(program, frame, reply, count)
        print(f"{count} {name} exchanges: {count / seconds:.0f} a second, {used / count * 1e6:.1f} microseconds of processor "
              f"each, replies {'whole' if whole else 'WRONG'}")
    if shutil.which("valgrind"):
        show_instructions(program, frame)


def show_instructions(program, frame):
    """What starting takes is in both runs."""
    fewer, more = instructions(program, frame, 200), instructions(program, frame, 1200)
    each = {part: (more[part] - fewer[part]) / 1000 for part in more}
    total = sum(each.values())
    shares = ", ".join(f"{part} {100 * taken / total:.0f}" for part, taken in each.items())
    print(f"{total:.0f} instructions each, of a hundred: {shares}")
