"""Measures realms of many accounts by the program that is the first argument: see accounts.sh. It writes lists of commands and
requests in the form that crates/replay_realm plays."""
import os, random, shutil, subprocess, sys, tempfile

PROGRAM, SIZES = os.path.abspath(sys.argv[1]), [int(word) for word in sys.argv[2:]] or [10, 1_000, 100_000, 1_000_000]
ANSWERS = 100_000
COUNTED = 1_000  # answers whose instructions are counted

# The padata of an AS request: a time sealed under a key of 32 zero bytes, which each account has.
PADATA = bytes.fromhex(
    "a3663064304aa103020102a2430441303fa003020112a2380436a2d3c8b408cea26633d55e07b26ecea4791a71e39cba65d4c4631c7ab01b42841acd"
    "d249bbea10cc3eefbb9e9f28dca0eac7e0ebe705300aa10402020096a2020400300aa10402020095a2020400"
)
BEFORE_NAME = bytes.fromhex("a00703050000000010")
BEHIND_NAME = bytes.fromhex(
    "a2031b0152a3163014a003020102a10d300b1b066b72627467741b0152a511180f32303030303130323030303030305aa706020462aac63fa81a3018"
    "02011202011102011402011302011002011702011902011a"
)
KEY = "00" * 32


def element(tag, content):
    """An element of fewer than 65,536 octets."""
    count = len(content)
    if count < 128:
        return bytes([tag, count]) + content
    octets = count.to_bytes(1 if count < 256 else 2, "big")
    return bytes([tag, 0x80 + len(octets)]) + octets + content


def request(client):
    """An AS request of a client for a ticket-granting ticket, with preauthentication."""
    name = element(0x30, bytes.fromhex("a003020101") + element(0xA1, element(0x30, element(0x1B, client.encode()))))
    body = element(0xA4, element(0x30, BEFORE_NAME + element(0xA1, name) + BEHIND_NAME))
    return element(0x6A, element(0x30, bytes.fromhex("a103020105a20302010a") + PADATA + body))


def write_lines(folder, size, answers, parts=4):
    """The commands and the requests, of which there are so many parts: the realm, its accounts, and answers of each kind. What is
    wanted of a marked line isn't told, so that the program prints it."""
    mark = "words_needed | mark\n"
    for name in ("clients.txt", "changed_replies.txt", "logins.txt"):
        open(os.path.join(folder, name), "w").close()
    with open(os.path.join(folder, "realms.txt"), "w") as lines:
        lines.write(f"realm 52 {KEY}\n{mark}")
        for number in range(size if parts > 1 else 0):
            lines.write(f"add_by_key user{number} 18 {KEY}\n")
        lines.write(mark)
        for ending, kind in (("x", "7e"), ("", "6b"))[:max(parts - 2, 0)]:
            lines.write(f"answer | {request(f'user{size - 1}{ending}').hex()} | {kind}\n")
            for _ in range(answers):
                lines.write(f"answer | {request(f'user{random.randrange(size)}{ending}').hex()} | ok\n")
            lines.write(mark)


def seconds_and_bytes(process):
    """The processor time of a process so far, and its resident memory."""
    with open(f"/proc/{process}/schedstat") as used, open(f"/proc/{process}/statm") as pages:
        return int(used.read().split()[0]) / 1e9, int(pages.read().split()[1]) * os.sysconf("SC_PAGE_SIZE")


def measured(size):
    """Prints what a realm of this many accounts takes."""
    with tempfile.TemporaryDirectory() as folder:
        write_lines(folder, size, ANSWERS)
        program = subprocess.Popen([PROGRAM], cwd=folder, stdout=subprocess.PIPE, text=True)
        printed, at = [], []
        while len(at) < 4:
            line = program.stdout.readline()
            if not line:
                raise SystemExit("".join(printed))
            if line.startswith("words_needed"):
                at.append(seconds_and_bytes(program.pid))
            else:
                printed.append(line)
        end = program.communicate()[0]
    replies = [line.split(": ")[-1][:2] for line in printed if line.startswith("answer")]
    if replies != ["7e", "6b"] or " 6 differ\n" not in end:
        raise SystemExit("".join(printed) + end)
    (begun, empty), (made, full), (refused, _), (granted, _) = at
    memory = f", {(full - empty) / size:.0f} bytes of resident memory each" if size >= 1_000 else ""
    print(f"{size} accounts: made in {made - begun:.3f} seconds{memory}; an error "
          f"{(refused - made) / ANSWERS * 1e6:.2f} and a ticket {(granted - refused) / ANSWERS * 1e6:.2f} microseconds", flush=True)


def count(size):
    """Prints how many instructions valgrind counts of an account and of an answer: what a run with one more part takes more."""
    counting, at = ["valgrind", "--tool=callgrind", "--callgrind-out-file=/dev/null", PROGRAM], []
    for parts in (1, 2, 3, 4):
        with tempfile.TemporaryDirectory() as folder:
            write_lines(folder, size, COUNTED, parts)
            told = subprocess.run(counting, cwd=folder, stdout=subprocess.DEVNULL, stderr=subprocess.PIPE, text=True).stderr
            at.append(int(told.split("Collected : ")[1].split()[0]))
    made, refused, granted = (more - fewer for fewer, more in zip(at, at[1:]))
    print(f"{size} accounts, instructions: made by {made / size:.0f} each; an error {refused / (COUNTED + 1):.0f} and a ticket "
          f"{granted / (COUNTED + 1):.0f}", flush=True)


for size in SIZES:
    measured(size)
    if shutil.which("valgrind"):
        count(size)
