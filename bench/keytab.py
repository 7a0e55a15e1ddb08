"""Measures how long the built krb_keytab takes to read a keytab of many entries: see keytab.sh."""
import os, resource, shutil, statistics, struct, subprocess, sys, tempfile

KEYTAB = os.environ["KRB_KEYTAB"]
TURNS = 25
LIMIT = 20  # milliseconds of processor
REALM, TIME, TIME_TEXT = b"EXAMPLE.COM", 1_700_000_000, "2023-11-14 22:13:20Z"
SUITES = [(18, 32, "aes256-cts-hmac-sha1-96"), (17, 16, "aes128-cts-hmac-sha1-96"), (20, 32, "aes256-cts-hmac-sha384-192")]


def counted(octets):
    return struct.pack(">H", len(octets)) + octets


def octets_of(realm, components, key, etype=18, kvno=1):
    """The octets of an entry (MIT's file keytab format, version 0x0502)."""
    body = struct.pack(">H", len(components)) + counted(realm) + b"".join(map(counted, components))
    body += struct.pack(">IIBH", 1, TIME, kvno, etype) + counted(key) + struct.pack(">I", kvno)
    return struct.pack(">i", len(body)) + body


def entry(number):
    """The octets of an entry, and the row that lists it."""
    etype, size, suite = SUITES[number % len(SUITES)]
    components, kvno = [b"HTTP", b"host%d.example.com" % number], 1 + number % 7
    name = b"/".join(components) + b"@" + REALM
    return octets_of(REALM, components, os.urandom(size), etype, kvno), f"{kvno:>4} {TIME_TEXT} {name.decode()} ({suite})"


def spent(words, status):
    """The milliseconds of processor, user and system, of a process that has to end with this status."""
    before = resource.getrusage(resource.RUSAGE_CHILDREN)
    ended = subprocess.run(words, stdin=subprocess.DEVNULL, stdout=subprocess.DEVNULL, stderr=subprocess.DEVNULL).returncode
    after = resource.getrusage(resource.RUSAGE_CHILDREN)
    if ended != status:
        sys.exit(f"{words[0]}: status {ended}, and not {status}")
    return 1e3 * (after.ru_utime - before.ru_utime + after.ru_stime - before.ru_stime)


def measured(words, status, label):
    figure = statistics.median(spent(words, status) for _ in range(TURNS))
    print(f"{label}: {figure:.1f} milliseconds of processor, median of {TURNS}", flush=True)
    return figure


def stops():
    """Entries at which MIT's library may stop: their octets, by a title."""
    name = lambda realm=b"R", components=(b"x",), key=b"k" * 32: (realm, list(components), key)
    return {
        "plain": name(),
        "no component": name(components=()),
        "an empty realm": name(realm=b""),
        "an empty component": name(components=(b"x", b"")),
        "an empty key": name(key=b""),
        "a realm of 32767": name(realm=b"R" * 32767),
        "a realm of 32768": name(realm=b"R" * 32768),
        "a component of 32767": name(components=(b"x" * 32767,)),
        "a component of 32768": name(components=(b"x" * 32768,)),
        "a key of 32767": name(key=b"k" * 32767),
        "a key of 32768": name(key=b"k" * 32768),
        "32767 components": name(components=[b"x"] * 32767),
        "32768 components": name(components=[b"x"] * 32768),
    }


def marks(folder):
    """Whether krb_keytab list marks the entries at which MIT's klist stops, and no other."""
    path, wrong = os.path.join(folder, "stops.keytab"), []
    for title, row in stops().items():
        with open(path, "wb") as keytab:
            keytab.write(b"\5\2" + b"".join(octets_of(*one) for one in (row, (b"R", [b"behind"], b"k" * 32))))
        stock = subprocess.run(["klist", "-k", path], check=True, capture_output=True).stdout
        lines = subprocess.run([KEYTAB, "list", path], check=True, capture_output=True).stdout.splitlines()
        is_marked = [b": MIT's library reads no further: " in line for line in lines]
        if is_marked != [b"behind@R" not in stock, False]:
            wrong.append(title)
    print(f"marks as klist stops: {len(stops()) - len(wrong)} of {len(stops())}", *wrong)
    return not wrong


def main(count):
    is_right = True
    with tempfile.TemporaryDirectory() as folder:
        if shutil.which("klist"):
            is_right = marks(folder)
        path, none = os.path.join(folder, "many.keytab"), os.path.join(folder, "none.keytab")
        entries = [entry(number) for number in range(count)]
        with open(path, "wb") as keytab:
            keytab.write(b"\5\2" + b"".join(octets for octets, _ in entries))
        print(f"{count} entries, {os.path.getsize(path)} octets", flush=True)
        listed = subprocess.run([KEYTAB, "list", path], check=True, capture_output=True, text=True).stdout
        if listed.splitlines() != [row for _, row in entries]:
            sys.exit("krb_keytab list: other rows than were written")
        start = measured([KEYTAB, "--version"], 0, "a start of krb_keytab")
        reading = measured([KEYTAB, "copy", path, none, "--kvno", "8"], 1, "krb_keytab copy, where no entry fits")
        measured([KEYTAB, "list", path], 0, "krb_keytab list")
        if shutil.which("klist"):
            measured(["klist", "-k", "-t", "-e", path], 0, "klist -k -t -e")
    print(f"reading: {reading - start:.1f} milliseconds more than a start, and {LIMIT} are allowed")
    return 0 if is_right and reading - start < LIMIT else 1


if __name__ == "__main__":
    sys.exit(main(int(sys.argv[1]) if sys.argv[1:] else 10_000))
