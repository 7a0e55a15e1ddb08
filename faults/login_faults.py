"""Refuses memory to krb_login, fails and kills it at its system calls, and gives it arguments and replies that it refuses: see
login_faults.sh.

A run has the files of crates/krb_login/data, an old cache, and on standard input the frames that a KDC once replied. A run without a
fault gives the new cache. In each other run the cache is the old one or the new one, it is the new one if the status is 0, no file is left
beside it unless the program was killed or couldn't remove it, and one line on standard error says why it ended.
"""
import collections, concurrent.futures, os, re, shutil, subprocess, sys, tempfile

from refused_growths import REFUSER

TOP = os.path.dirname(os.path.dirname(os.path.abspath(__file__)))
CRATE = os.path.join(TOP, "crates", "krb_login")
OLD = b"\x05\x04the old cache"
# What is on disk although the status isn't 0.
WRITTEN = re.compile(r"krb_login: cache is written, but a crash may undo it: ")
# What the system's loader says before the program begins, with status 127.
OF_LOADER = re.compile(r".*: error while loading shared libraries: ")
OF_MEMORY = re.compile(r"krb_login: .*[Oo]ut of memory|krb_login: .*Cannot allocate memory")
# What a program of the C library calls before and behind its own code: a fault there isn't the program's.
NOT_OURS = {"execve", "brk", "mmap", "munmap", "mprotect", "arch_prctl", "set_tid_address", "set_robust_list", "rseq", "prlimit64", "exit_group"}


def content(name):
    with open(os.path.join(CRATE, name), "rb") as it:
        return it.read()


ARGUMENTS, REPLIES = content("args").decode().split("\n")[:-1], content("stdin")


def frames(octets):
    """The frames that stand one behind the other."""
    found = []
    while octets:
        size = 4 + int.from_bytes(octets[:4], "big")
        found.append(octets[:size])
        octets = octets[size:]
    return found


class Ended:
    """How a run ended: status, lines on standard error, the requests, the cache, and whether a file was left beside it."""

    def __init__(self, program, words, replies=REPLIES, front=(), room=(), output=subprocess.PIPE, configuration=None):
        with tempfile.TemporaryDirectory() as folder:
            shutil.copytree(os.path.join(CRATE, "data"), folder, dirs_exist_ok=True)
            if configuration is not None:
                with open(os.path.join(folder, "krb5.conf"), "w") as it:
                    it.write(configuration)
            with open(os.path.join(folder, "cache"), "wb") as it:
                it.write(OLD)
            own = dict(os.environ, KRB5CCNAME="FILE:cache", KRB5_CONFIG="krb5.conf", **dict(room))
            how = dict(cwd=folder, env=own, stdout=output, stderr=subprocess.PIPE, timeout=60)
            ran = subprocess.run([*front, program, *words], input=replies, **how)
            self.status, self.requests = ran.returncode, ran.stdout
            self.lines = ran.stderr.decode(errors="replace").splitlines()
            with open(os.path.join(folder, "cache"), "rb") as it:
                self.cache = it.read()
            self.is_left = any(name.endswith(".new") for name in os.listdir(folder))
            self.mode = os.stat(os.path.join(folder, "cache")).st_mode & 0o777

    def fault(self, new, was_killed=False, may_be_left=False):
        """What a faulted run did that it may not do, or none."""
        if self.cache not in (OLD, new):
            return f"the cache is neither the old one nor the new one, status {self.status}"
        if self.is_left and not (was_killed or may_be_left):
            return "a new file was left"
        if self.status == 0 and self.cache != new:
            return "status 0 with the old cache"
        if was_killed or self.status == 127 and self.lines and OF_LOADER.match(self.lines[0]):
            return None
        if self.status not in (0, 1, 2) or len(self.lines) > (self.status != 0):
            return f"status {self.status} with the lines {self.lines}"
        if self.status and self.cache == new and self.lines and not WRITTEN.match(self.lines[0]):
            return f"status {self.status} with the new cache: {self.lines[0]}"
        return None


def told(title, faults, texts):
    wrong = [fault for fault in faults if fault]
    print(f"== {title}: {len(faults)} runs, {len(wrong)} wrong")
    for text, number in collections.Counter(texts).most_common():
        print(f"{number:6} {text}")
    for fault in sorted(set(wrong)):
        print(f"WRONG: {fault}")
    sys.stdout.flush()
    return len(wrong)


def said(ended):
    return f"status {ended.status}: {ended.lines[0] if ended.lines else '(no line)'}"


def growths(program, new, folder, pool):
    """Each request for memory is refused in turn."""
    refuser, counted = os.path.join(folder, "refuser.so"), os.path.join(folder, "counted")
    command = ["cc", "-shared", "-fPIC", "-O1", "-x", "c", "-", "-o", refuser, "-ldl"]
    subprocess.run(command, input=REFUSER, text=True, check=True)
    room = lambda number: dict(LD_PRELOAD=refuser, REFUSED=str(number), COUNTED=f"{counted}-{number}")
    Ended(program, ARGUMENTS, room=room(0))
    with open(f"{counted}-0") as it:
        count = int(it.read())
    runs = list(pool.map(lambda number: Ended(program, ARGUMENTS, room=room(number)), range(1, count + 1)))
    faults = [it.fault(new) or (None if it.status == 0 or it.lines and OF_MEMORY.match(it.lines[0]) else said(it)) for it in runs]
    return told(f"{count} requests for memory refused", faults, map(said, runs))


def calls_of(program, folder):
    """Each system call of a run without a fault: its name, and its number among the calls of this name."""
    path, seen = os.path.join(folder, "calls"), collections.Counter()
    Ended(program, ARGUMENTS, front=["strace", "-f", "-o", path])
    with open(path) as it:
        names = re.findall(r"^\d+ +([a-z_0-9]+)\(", it.read(), re.M)
    found = []
    for name in names:
        seen[name] += 1
        if name not in NOT_OURS:
            found.append((name, seen[name]))
    return found


def injected(program, name, number, what):
    return Ended(program, ARGUMENTS, front=["strace", "-f", "-o", "/dev/null", "-e", f"inject={name}:{what}:when={number}"])


def calls(program, new, folder, pool):
    """Each system call fails in turn, and the program is killed at each in turn."""
    found = calls_of(program, folder)
    wrong = 0
    for error in ("EIO", "ENOSPC"):
        runs = list(pool.map(lambda call: injected(program, *call, f"error={error}"), found))
        texts = [f"{name}: {said(it)}" for (name, _), it in zip(found, runs)]
        # The file that the program makes before it asks a KDC stays where it can't be removed.
        faults = [it.fault(new, may_be_left=name.startswith("unlink")) for (name, _), it in zip(found, runs)]
        wrong += told(f"{len(found)} calls failed with {error}", faults, texts)
    runs = list(pool.map(lambda call: injected(program, *call, "signal=KILL"), found))
    texts = ["the new cache" if it.cache == new else "the old cache" for it in runs]
    return wrong + told(f"killed at {len(found)} calls", [it.fault(new, True) for it in runs], texts)


def cut(program, new, pool):
    """The replies end after each octet, and each of them is missing."""
    runs = list(pool.map(lambda end: Ended(program, ARGUMENTS, REPLIES[:end]), range(len(REPLIES))))
    faults = [it.fault(new) or (None if it.status == 2 and it.cache == OLD else said(it)) for it in runs]
    wrong = told(f"{len(runs)} fronts of the replies", faults, map(said, runs))
    replies = frames(REPLIES)
    others = [b"".join(replies[:at] + replies[at + 1 :]) for at in range(len(replies))]
    runs = [Ended(program, ARGUMENTS, it) for it in others]
    faults = [it.fault(new) or (None if it.status and it.cache == OLD else said(it)) for it in runs]
    return wrong + told("one reply missing", faults, map(said, runs))


def changed(program, new, pool):
    """One octet of the replies is another one: no such cache is written but where the octet doesn't count."""
    others = [REPLIES[:at] + bytes([REPLIES[at] ^ 1]) + REPLIES[at + 1 :] for at in range(len(REPLIES))]
    runs = list(pool.map(lambda it: Ended(program, ARGUMENTS, it), others))
    faults = [None if it.status == 0 and it.cache != OLD else it.fault(new) for it in runs]
    texts = ["status 0" if it.status == 0 else said(it) for it in runs]
    return told(f"{len(runs)} octets of the replies changed", faults, texts)


def refusals(program):
    """Arguments that need no KDC, with the status and the line that RUNNING.md has for them."""
    user = ["user@EXAMPLE.COM"]
    cache, password = ["-c", "cache"], ["-p", "password"]
    one_means = "expected one of: -k KEYTAB; -p FILE; -C CERTIFICATE with -K KEY and -A ANCHOR"
    together = "-C CERTIFICATE, -K KEY and -A ANCHOR go together: expected all three"
    certified = lambda file: [*cache, "-C", file, "-K", file, "-A", file, *user]
    wanted = "expected a certificate in PEM or DER"
    renewed = "expected no USER, MEANS, -f, -P or -L: they are those of the cache's ticket"
    rows = [
        ([], 2, f"{one_means}; and USER@REALM: see --help"),
        (["-x", "1", *user], 2, "-x: no such option: expected one of --help"),
        ([*cache, *password, *user, "-s"], 2, "-s: expected its value after it"),
        ([*cache, *cache, *password, *user], 2, "-c: expected it once"),
        (["-c", "KCM:0", *password, *user], 2, '-c: "KCM:0" is no file: expected a path or FILE:PATH'),
        (["-c", "FILE:", *password, *user], 2, '-c: "FILE:" is no file: expected a path or FILE:PATH'),
        ([*cache, *password, "-e", "aes", *user], 2, '-e: "aes" is no suite: expected one, as aes256-cts-hmac-sha1-96'),
        ([*cache, *password, *user, "-e"], 2, "-e: expected its value after it"),
        ([*cache, *password, "-v", *user, "-s"], 2, "-s: expected its value after it"),
        ([*cache, "-p", "-v", *user], 2, "-v can't be read: "),
        ([*cache, *user], 2, one_means),
        ([*cache, *password, "-k", "keytab", *user], 2, one_means),
        ([*password, *certified("words")], 2, one_means),
        (["-k", "keytab", *certified("words")], 2, one_means),
        ([*cache, "-C", "words", "-K", "words", *user], 2, together),
        ([*cache, "-A", "words", *user], 2, together),
        ([*cache, *password, "-K", "words", *user], 2, together),
        ([*cache, "-p", "-", *user], 2, "-p: standard input is the KDC's: expected a file, as /dev/fd/3"),
        ([*cache, *password], 2, "expected: one USER@REALM"),
        ([*cache, *password, *user, *user], 2, "expected: one USER@REALM"),
        ([*cache, *password, "user"], 2, 'user: expected USER@REALM, or default_realm in "krb5.conf"'),
        ([*cache, *password, "@EXAMPLE.COM"], 2, "@EXAMPLE.COM: "),
        ([*cache, *password, "-l", "0", *user], 2, "-l: expected a whole number of seconds from 1 to 31536000"),
        ([*cache, *password, "-l", "31536001", *user], 2, "-l: expected a whole number of seconds from 1 to 31536000"),
        ([*cache, *password, "-t", "2026", *user], 2, "-t: expected a time (UTC), as 20261128040000Z"),
        ([*cache, *password, "-s", "HTTP/x@OTHER", *user], 2, "HTTP/x@OTHER: expected a service of the user's realm, as HTTP/server.example.com"),
        ([*cache, "-p", "missing", *user], 2, "missing can't be read: "),
        ([*cache, "-p", "/dev/null", *user], 1, "/dev/null: expected a password of 1 to 4096 octets in its first line"),
        ([*cache, "-p", "/dev/zero", *user], 1, "/dev/zero: expected a password of 1 to 4096 octets in its first line"),
        ([*cache, "-k", "missing", *user], 2, "missing can't be read: "),
        ([*cache, "-k", "words", *user], 1, "words: "),
        (certified("missing"), 2, "missing can't be read: "),
        (certified("words"), 1, f"words: what is at octet 0 of the file is not what is asked for: {wanted}"),
        (certified("password"), 1, f"password: the file is text that has no BEGIN line of what is asked for: {wanted}"),
        ([*cache, *password, "-r", "missing", *user], 2, "missing can't be read: "),
        ([*cache, *password, "-r", "/dev/null", *user], 2, "/dev/null: expected 96 random octets for each request"),
        (["-c", "missing/cache", *ARGUMENTS[2:]], 2, "missing/cache can't be written: "),
        ([*cache, *password, "-L", "0", *user], 2, "-L: expected a whole number of seconds from 1 to 31536000"),
        *(([*cache, "-R", *more], 2, f"-R: {renewed}") for more in (user, password, certified("words")[2:], ["-f"], ["-P"], ["-L", "60"])),
        ([*cache, "-R"], 1, "cache: the field at offset "),
        (["-R", "-c", "missing"], 2, "missing can't be read: "),
        (["-R", "-c", "words"], 1, "words: the credential cache has version "),
    ]
    faults, texts = [], []
    for words, status, line in rows:
        ended = Ended(program, words)
        is_right = ended.status == status and len(ended.lines) == 1 and ended.lines[0].startswith(f"krb_login: {line}")
        faults.append(None if is_right and ended.cache == OLD else f"{' '.join(words)}: {said(ended)}: expected status {status}: {line}")
        texts.append(said(ended))
    full = Ended(program, ARGUMENTS, output=open("/dev/full", "wb"))
    is_right = full.status == 2 and full.lines == ["krb_login: standard output can't be written: expected a KDC over TCP"]
    faults.append(None if is_right and full.cache == OLD else said(full))
    return told("arguments, files and streams that are refused", faults, [*texts, said(full)])


# A user without a realm, by a configuration, with the line that the program ends with.
CONFIGURATIONS = [
    ("[libdefaults]\n    default_realm = EXAMPLE.COM\n", None),
    ("# default_realm = A\n[realms]\ndefault_realm = B\n[libdefaults]\n\n\tdefault_realm=EXAMPLE.COM \r\ndefault_realm = C\n", None),
    ("[libdefaults]\ndefault_realms = B\ndefault_realm\ndefault_realm =\n [libdefaults] \ndefault_realm = EXAMPLE.COM", None),
    ("[realms]\n    default_realm = EXAMPLE.COM\n", "user: expected USER@REALM, or default_realm in "),
    ("", "user: expected USER@REALM, or default_realm in "),
    ("[libdefaults]\ndefault_realm = B\n", "user: the KDC names a salt that isn't the default one: "),
]


def environments(program, new):
    """The cache of the environment, the realm of its configuration, and what -v says."""
    words = [*ARGUMENTS[2:-1], "user"]
    faults, texts = [], []
    for configuration, line in CONFIGURATIONS:
        ended = Ended(program, words, configuration=configuration)
        if line is None:
            is_right = ended.status == 0 and ended.cache == new
        else:
            is_right = ended.status and ended.cache == OLD and ended.lines[0].startswith(f"krb_login: {line}")
        faults.append(None if is_right else f"{configuration!r}: {said(ended)}")
        texts.append(said(ended))
    ended = Ended(program, ["-v", *ARGUMENTS])
    wanted = ["AS-REQ without padata for ", "the KDC names aes256-cts-hmac-sha1-96 with the salt ", "AS-REQ with an encrypted timestamp for ", "TGS-REQ for "]
    is_right = ended.status == 0 and ended.cache == new and len(ended.lines) == len(wanted)
    is_right = is_right and all(it.startswith(f"krb_login: {own}") for it, own in zip(ended.lines, wanted))
    faults.append(None if is_right else f"-v: {said(ended)}: {ended.lines}")
    return told("cache and realm of the environment, and -v", faults, [*texts, said(ended)])


def main():
    program = os.path.abspath(sys.argv[1])
    whole = Ended(program, ARGUMENTS)
    if whole.status or whole.lines or whole.cache == OLD or whole.mode != 0o600 or whole.requests != content("stdout"):
        print(f"a run without a fault: {said(whole)}, mode {whole.mode:o}")
        return 1
    new = whole.cache
    wrong = refusals(program) + environments(program, new)
    with tempfile.TemporaryDirectory() as folder, concurrent.futures.ThreadPoolExecutor(len(os.sched_getaffinity(0))) as pool:
        wrong += growths(program, new, folder, pool)
        wrong += calls(program, new, folder, pool)
        wrong += cut(program, new, pool)
        wrong += changed(program, new, pool)
    print(f"{wrong} wrong")
    return int(wrong > 0)


if __name__ == "__main__":
    sys.exit(main())
