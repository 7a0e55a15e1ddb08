"""Kills krb_kpasswdd at its system calls, fails them, refuses it memory, disk and locks: see kpasswdd_faults.sh.

A run has the files of crates/krb_kpasswdd/data with a database, and on standard input two requests of one user to change its password. Its
text and its database are those from before, after the first change, after both, or after the second alone. The database has no change that
the text lacks. Requests and replies are made by crates/replay_crypto/data, which shares no code with the program.
"""
import collections, concurrent.futures, fcntl, os, re, resource, shutil, signal, subprocess, sys, tempfile, threading, time

TOP = os.path.dirname(os.path.dirname(os.path.abspath(__file__)))
DATA = os.path.join(TOP, "crates", "krb_kpasswdd", "data")
sys.path[:0] = [DATA, os.path.join(TOP, "crates", "replay_crypto", "data")]
from login_faults import NOT_OURS, OF_LOADER, frames
from password_changes import HARD, SUCCESS, Request
from password_frames import CHANGE
from record import ARGUMENTS, encrypted, framed
from refused_growths import REFUSER

ACCOUNTS, KPASSWDD = (os.path.abspath(os.environ[name]) for name in ("KRB_ACCOUNTS", "KRB_KPASSWDD"))
LINE = re.compile(r"krb_kpasswdd: ")
OF_LOCK = re.compile(r"krb_kpasswdd: .* is written by process \d+: expected it to end within 10 seconds")
TEXT, DATABASE = "accounts", "accounts.cdb"
# What the text may have, by the changes in it, and what the database may have then.
BEHIND = {"": [""], "1": ["", "1"], "12": ["", "1", "12"], "2": ["", "2"]}
SECONDS = 60  # for any run


class Change:
    """A request, and its replies."""
    def __init__(self, *words, **more):
        request = Request(*words, **more)
        self.asked = framed(request.message())
        self.replies = {framed(encrypted(request, code)[1]): name for code, name in ((SUCCESS, "success"), (HARD, "hard error"))}


FIRST, SECOND, NEXT = Change(CHANGE), Change(password=b"another password"), Change(password=b"the password of the next run")
BOTH = [FIRST, SECOND]


def content(path):
    with open(path, "rb") as it:
        return it.read()


def kvno(text):
    return int(re.search(rb"^user\t\S+\t(\d+)\t", text, re.M)[1])


class Ran:
    """How a run ended: status, replies, lines on standard error, and seconds."""
    def __init__(self, folder, changes, front=(), **how):
        began = time.monotonic()
        given = b"".join(it.asked for it in changes)
        ran = subprocess.run([*front, KPASSWDD, *ARGUMENTS], input=given, capture_output=True, cwd=folder, timeout=SECONDS, **how)
        self.seconds, self.status = time.monotonic() - began, ran.returncode
        self.lines = ran.stderr.decode(errors="replace").splitlines()
        self.replies = [change.replies.get(it, "another reply") for change, it in zip(changes, frames(ran.stdout))]

    def said(self):
        return ", ".join([f"status {self.status}", *self.replies, *self.lines])

    def fault(self, may_fail_twice):
        """What is wrong with replies, status and lines of a run that wasn't killed. Each hard error has its line, and so has an end by a
        status but 0. One fault keeps the run from one change alone."""
        if self.replies.count("hard error") > 1 and not may_fail_twice:
            return self.said()
        if self.status == 127 and self.lines and OF_LOADER.match(self.lines[0]):
            return None
        count = self.replies.count("hard error") + (self.status != 0)
        if self.status not in (0, 1, 2) or len(self.lines) != count or not all(map(LINE.match, self.lines)):
            return self.said()
        return self.said() if self.status == 0 and len(self.replies) < 2 else None


class Realm:
    """The folder from which each run starts, and the files as changes make them."""
    def __init__(self, folder):
        self.start = os.path.join(folder, "start")
        os.mkdir(self.start)
        for name in (TEXT, "refused", "words"):
            shutil.copy(os.path.join(DATA, name), self.start)
        os.chmod(os.path.join(self.start, TEXT), 0o600)
        subprocess.run([ACCOUNTS, "make", TEXT, DATABASE], check=True, capture_output=True, cwd=self.start)
        self.texts, self.databases = {}, {}
        for made, changes in (("", []), ("1", [FIRST]), ("12", BOTH), ("2", [SECOND])):
            with self.fresh() as run:
                ran = Ran(run, changes)
                if ran.status or ran.lines or ran.replies != ["success"] * len(changes):
                    raise SystemExit(f"a run without a fault: {ran.said()}")
                self.texts[content(f"{run}/{TEXT}")], self.databases[content(f"{run}/{DATABASE}")] = made, made

    def fresh(self, **how):
        return Fresh(self.start, **how)

    def fault(self, run, ran, was_killed=False, may_be_left=False, may_fail_twice=False):
        """What is wrong with a run, with the files after it, or with the next one, or none."""
        files = self.files(run)
        fault = None if was_killed else ran.fault(may_fail_twice)
        return fault or files_fault(*files, ran) or self.left(run, was_killed or may_be_left) or next_fault(run)

    def files(self, run):
        """The changes that the text has, and those of the database: none where it is neither an old file nor a new one."""
        return self.texts.get(content(f"{run}/{TEXT}")), self.databases.get(content(f"{run}/{DATABASE}"))

    def left(self, run, may_be_left):
        left = [name for name in os.listdir(run) if name.endswith(".new")]
        return f"left: {left}, {len(left)} files" if left and not may_be_left else None


def files_fault(text, database, ran):
    if text is None or database is None:
        return "the text or the database is neither old nor new"
    said = f"the text has the changes '{text}', the database '{database}', after: {ran.said()}"
    if database not in BEHIND[text] or "another reply" in ran.replies:
        return said
    is_told = [reply == "success" for reply in ran.replies]
    if any(told and number not in database for number, told in zip("12", is_told)):
        return said
    return None


def next_fault(run):
    """The next run changes the password: no lock is in its way. Then text and database agree."""
    before = kvno(content(f"{run}/{TEXT}"))
    ran = Ran(run, [NEXT])
    if ran.status or ran.lines or ran.replies != ["success"]:
        return f"the next run: {ran.said()}"
    checked = subprocess.run([ACCOUNTS, "check", TEXT, DATABASE], capture_output=True, cwd=run)
    is_right = checked.returncode == 0 and kvno(content(f"{run}/{TEXT}")) == before + 1
    return None if is_right else f"after the next run text and database don't agree, or the kvno isn't the next: {checked.stderr.decode()}"


class Fresh:
    """A copy of the folder from which runs start, in a place of its own or on a disk that is there."""
    def __init__(self, start, within=None):
        self.start, self.within = start, within

    def __enter__(self):
        self.folder = tempfile.mkdtemp(dir=self.within)
        return shutil.copytree(self.start, self.folder, dirs_exist_ok=True)

    def __exit__(self, *_):
        shutil.rmtree(self.folder)


class Tries:
    def __init__(self):
        self.right, self.wrong = 0, 0

    def tell(self, title, faults, texts=()):
        """Prints each failure in a line, and how the runs ended."""
        wrong = [it for it in faults if it]
        self.right, self.wrong = self.right + len(faults) - len(wrong), self.wrong + len(wrong)
        print(f"== {title}: {len(faults)} runs, {len(wrong)} wrong")
        for text, number in collections.Counter(texts).most_common():
            print(f"{number:6} {text}")
        for it in wrong:
            print(f"WRONG: {it}")
        sys.stdout.flush()


# System calls

def calls_of(realm):
    """Each system call of a run without a fault: its name, and its number among the calls of this name."""
    with realm.fresh() as run:
        Ran(run, BOTH, ["strace", "-f", "-o", "calls"])
        names = re.findall(r"^\d+ +([a-z_0-9]+)\(", content(f"{run}/calls").decode(), re.M)
    return [(name, names[: at + 1].count(name)) for at, name in enumerate(names)]


def injected(realm, call, what, **how):
    """A run with a fault at one call: what is wrong with it, and how it ended."""
    name, number = call
    with realm.fresh() as run:
        ran = Ran(run, BOTH, ["strace", "-f", "-o", "/dev/null", "-e", f"inject={name}:{what}:when={number}"])
        files = realm.files(run)
        # Where close fails by strace, the file stays open, and so its lock stays.
        fault = realm.fault(run, ran, may_be_left=name.startswith("unlink"), may_fail_twice=name == "close", **how)
    return fault and f"{what} at call {number} of {name}: {fault}", (*files, ran)


def killed(realm, tries, pool):
    calls = calls_of(realm)
    ended = list(pool.map(lambda it: injected(realm, it, "signal=KILL", was_killed=True), calls))
    texts = [f"the text has the changes '{text}', the database '{database}'" for _, (text, database, _) in ended]
    tries.tell(f"killed at each of {len(calls)} calls", [fault for fault, _ in ended], texts)


def failed(realm, tries, pool):
    calls = [it for it in calls_of(realm) if it[0] not in NOT_OURS]
    for error in ("EIO", "ENOSPC"):
        ended = list(pool.map(lambda it: injected(realm, it, f"error={error}"), calls))
        texts = [f"{name}: {re.sub(r'[a-z2-7]{8}.new', 'NAME.new', ran.said())}" for (name, _), (_, (_, _, ran)) in zip(calls, ended)]
        tries.tell(f"each of {len(calls)} calls failed with {error}", [fault for fault, _ in ended], texts)


# Memory

def refused_memory(realm, tries, pool):
    with tempfile.TemporaryDirectory() as folder:
        refuser, counted = os.path.join(folder, "refuser.so"), os.path.join(folder, "counted")
        command = ["cc", "-shared", "-fPIC", "-O1", "-x", "c", "-", "-o", refuser, "-ldl"]
        subprocess.run(command, input=REFUSER, text=True, check=True)

        def refused(number):
            with realm.fresh() as run:
                ran = Ran(run, BOTH, env=dict(os.environ, LD_PRELOAD=refuser, REFUSED=str(number), COUNTED=f"{counted}-{number}"))
                return realm.fault(run, ran), ran.said()

        refused(0)
        count = int(content(f"{counted}-0"))
        ended = list(pool.map(refused, range(1, count + 1)))
    faults = [fault and f"request {at}: {fault}" for at, (fault, _) in enumerate(ended, 1)]
    tries.tell(f"each of {count} requests for memory refused", faults, [said for _, said in ended])


# Disks

def limited(size, is_ignored):
    """How a run is started whose files have at most so many octets. A longer one is a fault, or else kills the run."""
    def limit():
        resource.setrlimit(resource.RLIMIT_FSIZE, (size, size))
        signal.signal(signal.SIGXFSZ, signal.SIG_IGN if is_ignored else signal.SIG_DFL)

    return dict(preexec_fn=limit, restore_signals=False)


def full_disks(realm, tries, _pool):
    between = len(content(os.path.join(realm.start, TEXT))) + 100
    assert between < len(content(os.path.join(realm.start, DATABASE))), "expected a database that is longer than its text"
    for title, size, text in (("files of no octets", 0, ""), ("files of the text's length", between, "12")):
        for is_ignored in (True, False):
            with realm.fresh() as run:
                ran = Ran(run, BOTH, **limited(size, is_ignored))
                held, _ = realm.files(run)
                wanted = ran.replies == ["hard error"] * 2 and held == text if is_ignored else ran.status == -signal.SIGXFSZ
                fault = None if wanted else f"{title}: the text has the changes '{held}', after: {ran.said()}"
                fault = fault or realm.fault(run, ran, was_killed=not is_ignored, may_fail_twice=True)
            tries.tell(f"{title}, a longer one {'is a fault' if is_ignored else 'kills'}", [fault], [ran.said()])
    with tempfile.TemporaryDirectory() as disk:
        if subprocess.run(["mount", "-t", "tmpfs", "-o", "size=64k", "none", disk], capture_output=True).returncode:
            print("the small disk was left out: no right to mount")
            return
        try:
            on_disk(realm, tries, disk)
        finally:
            subprocess.run(["umount", disk], check=True)


def on_disk(realm, tries, disk):
    """A full disk, and the next run on it once it has room."""
    with realm.fresh(within=disk) as run:
        filler = os.path.join(disk, "filler")
        with open(filler, "wb", buffering=0) as it:
            try:
                while it.write(bytes(512)):
                    pass
            except OSError:
                pass
        ran = Ran(run, BOTH)
        fault = None if ran.replies == ["hard error"] * 2 else f"a full disk: {ran.said()}"
        os.remove(filler)
        tries.tell("a full disk", [fault or realm.fault(run, ran, may_fail_twice=True)], [ran.said()])


# Locks

def locks(realm, tries, _pool):
    for name in (TEXT, DATABASE):
        for seconds in (2, SECONDS):
            with realm.fresh() as run, open(f"{run}/{name}", "rb") as held:
                fcntl.flock(held, fcntl.LOCK_EX)
                released = threading.Timer(seconds, fcntl.flock, (held, fcntl.LOCK_UN))
                released.start()
                ran = Ran(run, [FIRST])
                released.cancel()
                fcntl.flock(held, fcntl.LOCK_UN)
                fault = lock_fault(realm, run, ran, seconds) or next_fault(run)
            title = "a lock of two seconds" if seconds == 2 else "a lock that stays"
            tries.tell(f"{name}: {title}", [fault and f"{name}: {title}: {fault}"], [ran.said()])
    with realm.fresh() as run:
        at_once(run, tries)


def lock_fault(realm, run, ran, seconds):
    """Waits for a lock of two seconds. One that stays is a hard error after ten, and neither file changes."""
    files, end = realm.files(run), (ran.replies, len(ran.lines))
    if seconds == 2:
        is_right = end == (["success"], 0) and files == ("1", "1") and ran.seconds > 1.5
    else:
        is_right = end == (["hard error"], 1) and OF_LOCK.match(ran.lines[0]) and files == ("", "") and ran.seconds > 9
    return None if is_right else f"after {ran.seconds:.1f} seconds the files have the changes {files}: {ran.said()}"


def at_once(run, tries):
    """Eight runs at once: each change is done."""
    changes = [Change(password=b"password %d of those at once" % number) for number in range(8)]
    with concurrent.futures.ThreadPoolExecutor(8) as pool:
        ended = list(pool.map(lambda it: Ran(run, [it]), changes))
    faults = [None if it.replies == ["success"] and not it.status else f"one of eight runs at once: {it.said()}" for it in ended]
    is_right = kvno(content(f"{run}/{TEXT}")) == 9
    tries.tell("eight runs at once", [*faults, None if is_right else "eight runs at once: a change is lost", next_fault(run)])


def main():
    with tempfile.TemporaryDirectory() as folder, concurrent.futures.ThreadPoolExecutor(len(os.sched_getaffinity(0))) as pool:
        realm, tries = Realm(folder), Tries()
        for part in (killed, failed, refused_memory, full_disks, locks):
            part(realm, tries, pool)
    print(f"{tries.right} right, {tries.wrong} wrong")
    return int(tries.wrong > 0)


if __name__ == "__main__":
    sys.exit(main())
