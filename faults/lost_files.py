"""Attacks on files that commands write: see lost_files.sh."""
import collections, fcntl, os, re, shutil, socket, stat, struct, subprocess, sys, tempfile, threading, time

TOP = os.path.dirname(os.path.dirname(os.path.abspath(__file__)))
ACCOUNTS, KEYTAB, LOGIN = (os.path.abspath(os.environ[name]) for name in ("KRB_ACCOUNTS", "KRB_KEYTAB", "KRB_LOGIN"))
KEY = b"000102030405060708090a0b0c0d0e0f101112131415161718191a1b1c1d1e1f\n"
LOGIN_CRATE = os.path.join(TOP, "crates", "krb_login")
PEMS = os.path.join(TOP, "crates", "example_login", "data")
SETTINGS = os.path.join(TOP, "examples", "settings.toml")
NOBODY = 65534
OF_LINK = "a/link"
# A line of standard error that is no failure.
WARNING = re.compile(rb"krb_accounts: (.*: )?warning: ")
SECONDS = 60


def content(path):
    with open(path, "rb") as it:
        return it.read()


def put(path, octets):
    with open(path, "wb") as it:
        it.write(octets)


def run(words, given=KEY, **how):
    """A run that ended: its status, its lines on standard error but warnings, and standard output."""
    ran = subprocess.run(words, input=given, capture_output=True, timeout=SECONDS, **how)
    lines = [line for line in ran.stderr.split(b"\n")[:-1] if not WARNING.match(line)]
    return ran.returncode, [line.decode(errors="backslashreplace") for line in lines], ran.stdout


def login_words(cache):
    with open(os.path.join(LOGIN_CRATE, "args")) as it:
        words = it.read().split("\n")[:-1]
    words[words.index("-c") + 1] = cache
    return [LOGIN, *words]


def other_database():
    """A constant database with one record, as cdbmake makes it."""
    key, held = b"key", b"of another program"
    number = 5381
    for octet in key:
        number = (number * 33 ^ octet) & 0xFFFFFFFF
    record = struct.pack("<II", len(key), len(held)) + key + held
    end, header = 2048 + len(record), b""
    slots = [(0, 0), (0, 0)]
    slots[number // 256 % 2] = (number, 2048)
    for table in range(256):
        count = 2 if table == number % 256 else 0
        header += struct.pack("<II", end, count)
        end += 8 * count
    return header + record + b"".join(struct.pack("<II", *slot) for slot in slots)


def made():
    """The files of a realm, in the folder that is the present one."""
    for words in (
        [ACCOUNTS, "create", "accounts", "EXAMPLE.COM"],
        [ACCOUNTS, "add", "-k", "accounts", "user"],
        [ACCOUNTS, "make", "accounts", "accounts.cdb"],
        [ACCOUNTS, "add", "-k", "accounts", "host/server.example.com"],
        [ACCOUNTS, "keytab", "accounts", "server.keytab", "host/server.example.com"],
    ):
        status, lines, _ = run(words)
        if status:
            sys.exit(f"lost_files: {' '.join(words)}: status {status}: {lines}")
    for name in os.listdir(os.path.join(LOGIN_CRATE, "data")):
        shutil.copy(os.path.join(LOGIN_CRATE, "data", name), f"login.{name}" if os.path.exists(name) else name)
    status, lines, _ = run(login_words("cache"), content(os.path.join(LOGIN_CRATE, "stdin")))
    if status:
        sys.exit(f"lost_files: krb_login: status {status}: {lines}")
    for name in ("user.pem", "user.key", "anchor.pem"):
        shutil.copy(os.path.join(PEMS, name), name)
    shutil.copy(SETTINGS, "settings.toml")
    put("notes", b"what someone wrote down\n")
    put("other.cdb", other_database())
    os.mkdir("folder")
    os.mkdir("a")
    os.mkfifo("pipe")
    with socket.socket(socket.AF_UNIX) as it:
        it.bind("socket")
    os.symlink("../accounts", OF_LINK)
    os.symlink("link", "a/further")
    os.symlink("../server.keytab", "a/keytab")
    os.symlink("none", "a/none_yet")
    os.symlink("round", "a/round")
    os.link("accounts", "hard")
    if os.geteuid() == 0:
        try:
            os.mknod("device", stat.S_IFCHR | 0o666, os.makedev(1, 3))
        except OSError:
            pass


def seen(folder):
    """Each file of a folder: its kind, mode, device, and what it holds or names. New files of runs that go on are left out."""
    found = {}
    for path, folders, files in os.walk(folder):
        for name in folders + [name for name in files if not re.fullmatch(r"\..*\.[a-z2-7]{8}\.new", name)]:
            whole = os.path.join(path, name)
            it = os.lstat(whole)
            held = None
            if stat.S_ISLNK(it.st_mode):
                held = os.readlink(whole)
            elif stat.S_ISREG(it.st_mode):
                held = content(whole)
            found[os.path.relpath(whole, folder)] = (it.st_mode, it.st_rdev, held)
    return found


class Tries:
    """The attacks so far, and those that got through."""

    def __init__(self, start, work):
        self.start, self.work = start, work
        self.count, self.through = 0, []

    def fresh(self):
        os.chdir(self.start)
        shutil.rmtree(self.work, ignore_errors=True)
        subprocess.run(["cp", "-a", self.start, self.work], check=True)
        os.chdir(self.work)

    def tell(self, title, fault):
        self.count += 1
        if fault:
            self.through.append(title)
            print(f"GOT THROUGH: {title}: {fault}")
        sys.stdout.flush()

    def refused(self, words, status, line, given=KEY, **how):
        """A command that has to end so, and leave each file as it was."""
        self.fresh()
        before = seen(self.work)
        ended = run(words, given, **how)
        self.tell(" ".join(words[1:] if words[0] != LOGIN else ["krb_login", *words[1:3]]), judged(ended, status, line) or changed(before, seen(self.work)))

    def done(self, title, words, wanted, given=KEY, **how):
        """A command that has to be done, after which `wanted` says what is wrong, or None."""
        status, lines, _ = run(words, given, **how)
        self.tell(title, f"status {status}: {lines}" if status else wanted())


def judged(ended, status, line):
    own, lines, _ = ended
    if own != status or len(lines) != 1 or not re.search(line, lines[0]):
        return f"status {own}: {lines}: expected status {status}: {line}"
    if re.search(r"[^ -~]", lines[0]):
        return f"a line with an octet that isn't printable: {lines[0]!r}"
    return None


def changed(before, after):
    names = sorted(name for name in before.keys() | after.keys() if before.get(name) != after.get(name))
    return f"changed: {names}" if names else None


def of_kind(path, front):
    return None if content(path).startswith(front) else f"{path} is another file"


def own_text(tries):
    """A command's own files, and files of another kind."""
    read = ", which the command reads: expected another file to write"
    other = lambda kind: f"is there, and is no {kind}: expected a {kind}, or no such file"
    text, database, keytab, cache = "text of accounts", "database", "keytab", "credential cache"
    for path in ("accounts", "./accounts", "hard", OF_LINK, "a/further", "a/../accounts"):
        tries.refused([ACCOUNTS, "make", "accounts", path], 1, read)
        tries.refused([ACCOUNTS, "keytab", "accounts", path, "user"], 1, read)
    rows = [
        (["make", "accounts"], database, ["server.keytab", "cache", "notes", "settings.toml", "a/keytab", "user.pem"], []),
        (["keytab", "accounts"], keytab, ["accounts.cdb", "cache", "notes"], ["user"]),
        (["add", "-k"], text, ["accounts.cdb", "server.keytab", "cache", "notes", "user.key"], ["further"]),
        (["key", "-k"], text, ["accounts.cdb", "server.keytab"], ["user"]),
        (["remove"], text, ["accounts.cdb", "server.keytab"], ["user"]),
        (["uncertify"], text, ["accounts.cdb", "server.keytab", "user.pem"], []),
    ]
    for front, kind, paths, end in rows:
        for path in paths:
            tries.refused([ACCOUNTS, *front, path, *end], 1, other(kind))
    for path in ("accounts", "accounts.cdb", "server.keytab", "cache", "notes", "hard", OF_LINK, "a/keytab"):
        tries.refused([ACCOUNTS, "create", path, "EXAMPLE.COM"], 1, "is there: expected no such file")
        tries.refused([ACCOUNTS, "import", "settings.toml", path], 1, "is there: expected no such file")
        tries.refused([KEYTAB, "copy", "server.keytab", path], 1, "is there: expected no such file|, which the command reads")
    tries.refused([ACCOUNTS, "make", "accounts", "other.cdb"], 1, "other.cdb is there, and has no realm: expected a database, or no such file")
    tries.refused([ACCOUNTS, "import", "settings.toml", "settings.toml"], 1, read)
    tries.refused([KEYTAB, "copy", "server.keytab", "server.keytab"], 1, read)
    for files in (["accounts", "user.key", "anchor.pem"], ["user.pem", "accounts", "anchor.pem"], ["user.pem", "user.key", "accounts"]):
        tries.refused([ACCOUNTS, "certify", "accounts", *files], 1, "accounts")
    for path in ("user.pem", "user.key", "anchor.pem"):
        tries.refused([ACCOUNTS, "certify", path, "user.pem", "user.key", "anchor.pem"], 1, read)
    replies = content(os.path.join(LOGIN_CRATE, "stdin"))
    for path in ("accounts", "accounts.cdb", "server.keytab", "notes", "user.key", OF_LINK):
        tries.refused(login_words(path), 1, other(cache), replies)
    for path in ("words", "password"):
        tries.refused(login_words(path), 1, read, replies)


def no_files(tries):
    """What is no file, or none that can be written."""
    replies = content(os.path.join(LOGIN_CRATE, "stdin"))
    rows = [("folder", "folder"), ("pipe", "pipe"), ("socket", "socket")]
    if os.path.exists(os.path.join(tries.start, "device")):
        rows.append(("device", "device"))
    else:
        print("not tried: a device, which takes root")
    for path, kind in rows:
        line = f"{path} is a {kind}: expected a file, or none yet"
        tries.refused([ACCOUNTS, "make", "accounts", path], 1, line)
        tries.refused([ACCOUNTS, "create", path, "EXAMPLE.COM"], 1, line)
        tries.refused([ACCOUNTS, "import", "settings.toml", path], 1, line)
        tries.refused([ACCOUNTS, "keytab", "accounts", path, "user"], 1, line)
        tries.refused([ACCOUNTS, "add", "-k", path, "further"], 1, line)
        tries.refused([KEYTAB, "copy", "server.keytab", path], 1, line)
        tries.refused(login_words(path), 1, line, replies)
    tries.refused([ACCOUNTS, "make", "accounts", "a/round"], 2, "a/round can't be written: ")
    tries.refused([ACCOUNTS, "make", "accounts", "missing/accounts.cdb"], 2, "missing/accounts.cdb can't be written: ")
    tries.refused([ACCOUNTS, "make", "accounts", "folder/"], 1, "folder/")
    tries.refused([ACCOUNTS, "make", "accounts", ""], 1, "expected the name of a file")
    for kind, words in (("text of accounts", [ACCOUNTS, "list"]), ("keytab", [KEYTAB, "list"])):
        tries.refused([*words, "folder"], 1, f"folder is a folder: expected a {kind}")
        tries.refused([*words, "/dev/zero"], 1, f"/dev/zero is a device: expected a {kind}")
        tries.refused([*words, "socket"], 1, f"socket is a socket: expected a {kind}")


def too_long(tries):
    """Files that are longer than their kind may be. They have holes, and take no room on the disk."""
    rows = [
        ([ACCOUNTS, "list"], "text of accounts", 2**32 - 1),
        ([ACCOUNTS, "check", "accounts"], "database", 2**32 - 1),
        ([KEYTAB, "list"], "keytab", 2**24),
        ([ACCOUNTS, "import"], "settings file", 2**20),
    ]
    for words, kind, limit in rows:
        tries.fresh()
        with open("long", "wb") as it:
            it.truncate(limit + 1)
        status, lines, _ = run([*words, "long", *(["new"] if "import" in words else [])])
        tries.tell(f"{kind} of {limit + 1} octets", judged((status, lines, b""), 1, f"long is too long: expected a {kind} of at most {limit} octets"))
    for words, kind, limit in rows[2:]:
        tries.fresh()
        os.mkfifo("long")
        writer = subprocess.Popen(["head", "-c", str(limit + 1), "/dev/zero"], stdout=subprocess.PIPE)
        filler = threading.Thread(target=fill, args=("long", writer))
        filler.start()
        status, lines, _ = run([*words, "long", *(["new"] if "import" in words else [])])
        filler.join()
        tries.tell(f"{kind} of {limit + 1} octets from a pipe", judged((status, lines, b""), 1, f"long is too long: expected a {kind} of at most {limit} octets"))


def fill(path, writer):
    with writer, open(path, "wb", buffering=0) as it:
        try:
            shutil.copyfileobj(writer.stdout, it)
        except BrokenPipeError:
            pass


def links(tries):
    """Links are followed, and stay."""
    tries.fresh()
    old = content("accounts")
    tries.done(
        "add through two links",
        [ACCOUNTS, "add", "-k", "a/further", "further"],
        lambda: None
        if os.readlink("a/further") == "link" and os.readlink(OF_LINK) == "../accounts" and b"\nfurther\t" in content("accounts") and content("hard") == old
        else "a link is lost, or the text isn't changed",
    )
    tries.fresh()
    old, is_made = content("accounts.cdb"), lambda path: run([ACCOUNTS, "check", "accounts", path])[0] == 0
    tries.done("make", [ACCOUNTS, "make", "accounts", "accounts.cdb"], lambda: None if is_made("accounts.cdb") and content("accounts.cdb") != old else "not made")
    tries.done(
        "make through a link to nothing",
        [ACCOUNTS, "make", "accounts", "a/none_yet"],
        lambda: None if os.readlink("a/none_yet") == "none" and is_made("a/none") else "the link is lost, or there is no database",
    )
    put("empty", b"")
    tries.done("make over an empty file", [ACCOUNTS, "make", "accounts", "empty"], lambda: None if is_made("empty") else "no database")
    put("second", b"")
    tries.done("keytab over an empty file", [ACCOUNTS, "keytab", "accounts", "second", "user"], lambda: of_kind("second", b"\5\2"))


def names_taken(tries):
    """Names of another user in a sticky folder, and what a run that was cut off left."""
    tries.fresh()
    for name in ("accounts.new", "accounts.cdb.new", ".accounts.new"):
        put(name, b"")
        os.chmod(name, 0)
    tries.done("add beside accounts.new", [ACCOUNTS, "add", "-k", "accounts", "further"], lambda: None if b"\nfurther\t" in content("accounts") else "not added")
    if os.geteuid():
        print("not tried: files of another user in a sticky folder, which takes root")
        return
    tries.fresh()
    os.mkdir("sticky")
    os.chmod("sticky", 0o1777)
    for name in ("accounts.new", "accounts.cdb.new"):
        put(f"sticky/{name}", b"of root")
    shutil.copy("accounts", "sticky/accounts")
    os.chown("sticky/accounts", NOBODY, NOBODY)
    for name in (os.path.dirname(tries.work), tries.work):
        os.chmod(name, 0o755)
    as_nobody = ["setpriv", f"--reuid={NOBODY}", "--clear-groups"]
    tries.done(
        "add beside a file of another user in a sticky folder",
        [*as_nobody, ACCOUNTS, "add", "-k", "sticky/accounts", "further"],
        lambda: None if b"\nfurther\t" in content("sticky/accounts") and content("sticky/accounts.new") == b"of root" else "not added",
    )
    # Another user's file stays, although the folder is everyone's.
    shutil.copy("accounts", "sticky/others")
    os.chmod("sticky/others", 0o644)
    before = seen(tries.work)
    ended = run([*as_nobody, ACCOUNTS, "add", "-k", "sticky/others", "further"])
    tries.tell("add to another user's text in a sticky folder", judged(ended, 2, "sticky/others can't be written: ") or changed(before, seen(tries.work)))


def at_once(tries):
    """Two runs at once, and another program that writes meanwhile."""
    tries.fresh()
    with open("accounts", "rb") as it:
        fcntl.flock(it, fcntl.LOCK_EX)
        released = threading.Timer(2, fcntl.flock, (it, fcntl.LOCK_UN))
        released.start()
        began = time.monotonic()
        status, lines, _ = run([ACCOUNTS, "add", "-k", "accounts", "further"])
        waited = time.monotonic() - began
        released.join()
    tries.tell("a lock of two seconds", None if status == 0 and waited > 1.5 and b"\nfurther\t" in content("accounts") else f"status {status} after {waited:.1f} seconds: {lines}")
    tries.fresh()
    before = seen(tries.work)
    with open("accounts", "rb") as it:
        fcntl.flock(it, fcntl.LOCK_EX)
        began = time.monotonic()
        ended = run([ACCOUNTS, "add", "-k", "accounts", "further"])
        waited = time.monotonic() - began
    line = f"accounts is written by process {os.getpid()}: expected it to end within 10 seconds"
    fault = judged(ended, 2, line) or changed(before, seen(tries.work)) or (None if 9 < waited < 20 else f"after {waited:.1f} seconds")
    tries.tell("a lock that stays", fault)
    tries.fresh()
    runs = [subprocess.Popen([ACCOUNTS, "add", "-k", "accounts", f"further{n}"], stdin=subprocess.PIPE, stderr=subprocess.DEVNULL) for n in range(8)]
    for it in runs:
        it.communicate(KEY, timeout=SECONDS)
    lost = [n for n, it in enumerate(runs) if it.returncode or b"\nfurther%d\t" % n not in content("accounts")]
    tries.tell("eight edits at once", f"lost: {lost}" if lost else None)
    # A run holds the database, and reads its text from a pipe.
    for title, words, path in (
        ("a database that another program writes meanwhile", ["make", "held", "accounts.cdb"], "accounts.cdb"),
        ("a database that comes meanwhile", ["make", "held", "new.cdb"], "new.cdb"),
    ):
        tries.fresh()
        os.mkfifo("held")
        it = subprocess.Popen([ACCOUNTS, *words], stderr=subprocess.PIPE)
        with open("held", "wb") as pipe:
            put("mine", content("accounts.cdb") + b"and mine")
            os.rename("mine", path)
            before = seen(tries.work)
            pipe.write(content("accounts"))
        _, told = it.communicate(timeout=SECONDS)
        lines = [line.decode() for line in told.split(b"\n")[:-1] if not WARNING.match(line)]
        tries.tell(title, judged((it.returncode, lines, b""), 2, f"{path} was changed meanwhile by another program") or changed(before, seen(tries.work)))


def calls_of(words, given):
    """Each system call of a run: its name, and its number among the calls of this name."""
    with tempfile.NamedTemporaryFile("r") as it:
        run(["strace", "-f", "-o", it.name, *words], given)
        counts = collections.Counter(re.findall(r"^\d+ +([a-z_0-9]+)\(", it.read(), re.M))
    return [(name, number) for name, count in counts.items() for number in range(1, count + 1)]


def killed(tries):
    """A run is killed at each of its system calls. Its file is the old one or the new one, and the same run is then done."""
    if not shutil.which("strace"):
        print("not tried: kills, which take strace")
        return
    replies = content(os.path.join(LOGIN_CRATE, "stdin"))
    rows = [
        ("create", [ACCOUNTS, "create", "made", "EXAMPLE.COM"], "made", KEY, 1),
        ("add", [ACCOUNTS, "add", "-k", "accounts", "further"], "accounts", KEY, 1),
        ("make", [ACCOUNTS, "make", "accounts", "accounts.cdb"], "accounts.cdb", KEY, 0),
        ("keytab", [ACCOUNTS, "keytab", "accounts", "server.keytab", "user"], "server.keytab", KEY, 0),
        ("copy", [KEYTAB, "copy", "server.keytab", "made"], "made", b"", 1),
        ("krb_login", login_words("cache"), "cache", replies, 0),
    ]
    for title, words, path, given, again in rows:
        tries.fresh()
        run(words, given)
        new = content(path)
        tries.fresh()
        old = content(path) if os.path.exists(path) else None
        counts, faults = collections.Counter(), []
        for name, number in calls_of_fresh(tries, words, given):
            tries.fresh()
            subprocess.run(["strace", "-f", "-o", "/dev/null", "-e", f"inject={name}:signal=KILL:when={number}", *words], input=given, capture_output=True, timeout=SECONDS)
            held = content(path) if os.path.exists(path) else None
            counts["old" if held == old else "new" if is_same(path, held, new) else "other"] += 1
            if held != old and not is_same(path, held, new):
                faults.append(f"killed at call {number} of {name}: another file")
            status, lines, _ = run(words, given)
            if status and not (again and held != old and status == again):
                faults.append(f"killed at call {number} of {name}: the next run: status {status}: {lines}")
        tries.tell(f"{title} killed at {sum(counts.values())} calls", "; ".join(faults[:3]))
        print(f"{title}: killed at {sum(counts.values())} calls: the old file {counts['old']} times, the new one {counts['new']} times")


def calls_of_fresh(tries, words, given):
    tries.fresh()
    return calls_of(words, given)


def is_same(path, held, new):
    """Whether it is the new file. The times in a keytab differ from run to run."""
    if held is None:
        return False
    return held == new or path.endswith(".keytab") and len(held) == len(new)


def counted(octets):
    return struct.pack(">H", len(octets)) + octets


def keytab_entry(realm, components, key, etype=18):
    body = struct.pack(">H", len(components)) + counted(realm) + b"".join(map(counted, components))
    body += struct.pack(">IIBH", 1, 1_700_000_000, 1, etype) + counted(key)
    return struct.pack(">i", len(body)) + body


def shown(tries):
    """Names that hold escape sequences, line feeds and the octet 127."""
    tries.fresh()
    hostile = b"host\x1b[2J\r\n31m\x7f"
    put("hostile.keytab", b"\5\2" + keytab_entry(b"EXAMPLE\x1b.COM", [hostile, b"a/b@c\\d"], b"k" * 32))
    status, lines, told = run([KEYTAB, "list", "hostile.keytab"])
    wanted = b"host\\x1b[2J\\x0d\\n31m\\x7f/a\\/b\\@c\\\\d@EXAMPLE\\x1b.COM"
    tries.tell("krb_keytab list of a hostile name", None if status == 0 and wanted in told and not re.search(rb"[^\n -~]", told) and told.count(b"\n") == 1 else repr(told))
    text = content("accounts") + b"v\x1b[2Jw\taes256-cts-hmac-sha1-96\t1\t-\t" + KEY
    put("hostile", text)
    status, lines, told = run([ACCOUNTS, "list", "hostile"])
    tries.tell("krb_accounts list of a hostile name", None if status == 0 and b"\nv\\x1b[2Jw\t" in told and b"\x1b" not in told else repr(told))
    ended = subprocess.run([ACCOUNTS, "make", "hostile", "hostile.cdb"], capture_output=True, timeout=SECONDS)
    tries.tell("warnings of a hostile name", None if b"v\\x1b[2Jw" in ended.stderr and b"\x1b" not in ended.stderr else repr(ended.stderr))
    name = "a\x1b[2Jb"
    for words, front in (
        ([KEYTAB, "list", name], "krb_keytab: a\\x1b[2Jb can't be read"),
        ([KEYTAB, "copy", "server.keytab", "new", name], "krb_keytab: a\\x1b[2Jb: no entry fits"),
        ([KEYTAB, "copy", "server.keytab", "new", "--" + name, "1"], "krb_keytab: --a\\x1b[2Jb: no such option"),
        ([ACCOUNTS, "list", name], "krb_accounts: a\\x1b[2Jb can't be read"),
        ([ACCOUNTS, "make", "accounts", name + "/x"], "krb_accounts: a\\x1b[2Jb/x can't be written"),
        ([LOGIN, "-c", "cache", "-p", name, "user@EXAMPLE.COM"], "krb_login: a\\x1b[2Jb can't be read"),
    ):
        status, lines, _ = run(words, b"")
        is_right = len(lines) == 1 and lines[0].startswith(front) and not re.search(r"[^ -~]", lines[0])
        tries.tell(f"the line of {words[1:3]!r}", None if status and is_right else f"status {status}: {lines!r}")


def main():
    with tempfile.TemporaryDirectory() as folder:
        os.chmod(folder, 0o755)
        start = os.path.join(folder, "start")
        os.mkdir(start)
        os.chdir(start)
        made()
        tries = Tries(start, os.path.join(folder, "run"))
        for part in (own_text, no_files, too_long, links, names_taken, at_once, shown, killed):
            before = tries.count
            part(tries)
            print(f"{part.__name__}: {tries.count - before} attacks", flush=True)
        os.chdir("/")
    if tries.through:
        print(f"{len(tries.through)} of {tries.count} got through")
        return 1
    print(f"{tries.count} attacks: none got through")
    return 0


if __name__ == "__main__":
    sys.exit(main())
