"""Tests krb_kdcd while its file is replaced or damaged: see file_changes.sh."""
import collections, os, random, subprocess, sys, tempfile, threading, time

sys.path.insert(0, os.path.join(os.path.dirname(os.path.dirname(os.path.abspath(__file__))), "bench"))
import account_files, kdc, replies
from account_files import Account, Damaged, Realm
from realm_file import KDCD, WORDS, reply_from, request_of_kinit

REQUESTS, FILES = 100_000, 100
SKEW = 86_400  # seconds: all requests have the time of one


# Replacing the file

def write_numbered(path, key, number):
    """A realm whose accounts have this number as kvno, and whose salts have it."""
    names = [(b"krbtgt", b"R"), *((f"user{other}".encode(),) for other in range(9))]
    accounts = [(name, Account(kdc.SUITE_NUMBER, os.urandom(32), number, None)) for name in names]
    own = Account(kdc.SUITE_NUMBER, bytes.fromhex(key), number, b"salt%d" % number)
    account_files.write_realm(path, Realm(b"R", SKEW, 36000), [*accounts, ((b"a",), own)])


def number_of(reply):
    """The number of the file of which a reply is: of a ticket by the kvno of both keys, of an error by the salt."""
    kind, *told = replies.said(reply)
    if kind == "ticket":
        _, number, _, own = told
        assert number == own, f"a reply of two files: the service's kvno is {number}, the client's {own}"
        return number
    assert kind == "preauthenticate", f"{kind} {told}"
    return int(told[1].removeprefix(b"salt"))


def ask_all(stream, requests, standing, asked_at):
    """Writes all requests, and keeps the number of the file that stood when each was written."""
    for asked in requests:
        asked_at.append(standing["now"])
        stream.write(kdc.framed(asked))
    stream.close()


def replace():
    """The file is replaced after each thousandth reply, while further requests are under way."""
    with tempfile.TemporaryDirectory() as folder:
        keytab, database = os.path.join(folder, "keytab"), os.path.join(folder, "accounts.cdb")
        key = kdc.write_keytab(keytab, kdc.configure(folder, 1))
        for number in range(2, FILES + 2):
            write_numbered(f"{database}.{number}", key, number)
        write_numbered(database, key, 1)
        first = request_of_kinit(folder, database, keytab)
        bare, requests = replies.without_padata(first), kdc.numbered(first, REQUESTS)
        requests[1::2] = [bare] * len(requests[1::2])  # every other one gets an error with the salt
        counts = follow(database, requests)
    print(f"{REQUESTS} requests, {FILES} times another file: {counts['old']} replies of the file that stood when they were asked, "
          f"{counts['new']} of one that came until they were read; {counts['files']} files were told. None failed", flush=True)


def follow(database, requests):
    counts, asked_at, seen = collections.Counter(), collections.deque(), 1
    standing = {"now": 1, "soon": 1}  # they differ while the file is replaced
    with subprocess.Popen([KDCD, database, WORDS], stdin=subprocess.PIPE, stdout=subprocess.PIPE) as process:
        asking = threading.Thread(target=ask_all, args=(process.stdin, requests, standing, asked_at))
        asking.start()
        for place in range(len(requests)):
            reply = reply_from(process.stdout)
            assert reply, f"request {place} had no reply"
            number, old = number_of(reply), asked_at.popleft()
            assert max(old, seen) <= number <= standing["soon"], f"request {place}: file {number} after {seen}, where {old} and later stood"
            counts["old" if number == old else "new"] += 1
            counts["files"] += number != seen or not place
            seen = number
            if place % (len(requests) // FILES) == len(requests) // FILES // 2:
                standing["soon"] += 1
                os.rename(f"{database}.{standing['soon']}", database)
                standing["now"] += 1
        asking.join()
    assert process.returncode == 0, f"krb_kdcd ended with status {process.returncode}"
    return counts


# Damaged files

REFUSAL = "is no realm's database, or damaged: expected one as krb_accounts makes it, replaced whole by rename"
NAMES = b"abz"  # clients: with preauthentication and without, of another suite, and one that has no account
GRANTING = (b"krbtgt", b"R")
EPOCH = 62_167_219_200  # the second 1970-01-01 00:00:00, counted from year 0
CLOCKS = 60  # seconds within which it isn't decided here whether a clock is too far off


def damaged(chance, octets, read):
    """The octets with one of six damages. `read` are the parts that look-ups read."""
    kind, octets = chance.randrange(6), bytearray(octets)
    at, size = chance.choice(read)
    if kind == 0:
        return octets[: chance.randrange(len(octets))]
    if kind == 1:
        return octets[: at + chance.randrange(size + 1)]
    if kind == 2:
        octets[at + chance.randrange(size)] ^= 1 << chance.randrange(8)
    elif kind == 3:
        octets[at + chance.randrange(size)] = chance.randrange(256)
    elif kind == 4:
        for _ in range(chance.randrange(1, 400)):
            octets[chance.randrange(len(octets))] = chance.randrange(256)
    else:
        at, size = chance.randrange(len(octets)), chance.randrange(1, 512)
        octets[at : at + size] = bytes(len(octets[at : at + size]))
    return octets


def expected(file, realm, client, request, key, age):
    """What a realm in this file may say to an AS request of a client: outcomes as replies.said gives them."""
    own, service = file.account((bytes([client]),)), file.account(GRANTING)
    if realm.name != b"R":
        return [("error", 68)]
    if own is None or service is None:
        return [("error", 6 if own is None else 7)]
    refused = refused_by_attributes(own, service)
    if refused:
        return [("error", refused)]
    if own.suite not in replies.etypes(request):
        return [("error", 14)]
    if 0xA3 not in dict(replies.elements(replies.within(request, replies.AS_REQ, 0x30))):
        # A salt that is no KerberosString isn't told.
        return [("preauthenticate", own.suite, own.salt if own.salt is not None and max(own.salt, default=0) < 128 else None)]
    if (own.suite, own.key) != (kdc.SUITE_NUMBER, key):
        return [("error", 24)]
    granted = ("ticket", service.suite, service.kvno, own.suite, own.kvno)
    near, far = age - CLOCKS < realm.skew, age + CLOCKS > realm.skew
    return [granted] * near + [("error", 37)] * far


def refused_by_attributes(own, service):
    """The error by which attributes of the client and of the service refuse a first ticket, or nothing."""
    now = EPOCH + int(time.time())
    rows = (
        (0 < own.attributes.ends < now, 1),
        (0 < service.attributes.ends < now, 2),
        (own.attributes.marks & account_files.MUST_CHANGE, 23),
        (own.attributes.marks & account_files.OFF, 18),
        (service.attributes.marks & account_files.OFF, 7),
        (service.attributes.marks & account_files.NO_SERVICE, 12),
    )
    return next((code for refuses, code in rows if refuses), None)


def outcome_by_reader(octets, requests, key, age):
    """What krb_kdcd may reply to each of the requests, and the status with which it ends."""
    file, told = account_files.File(octets), []
    try:
        file.realm()
    except Damaged:
        return told, 1
    for client, request in requests:
        try:
            told.append(expected(file, file.realm(), client, request, key, age))
        except Damaged:
            return told, 2
    return told, 0


def outcome_by_program(database, requests):
    """What it replied, the status with which it ended, and what it said on standard error."""
    asked = b"".join(kdc.framed(request) for _, request in requests)
    ended = subprocess.run([KDCD, database, WORDS], input=asked, capture_output=True, timeout=60)
    stream, told = ended.stdout, []
    while stream:
        end = 4 + int.from_bytes(stream[:4], "big")
        assert len(stream) >= end > 4, f"a reply of {end - 4} octets, of which {len(stream) - 4} are there"
        told.append(replies.said(stream[4:end]))
        stream = stream[end:]
    return told, ended.returncode, ended.stderr.decode(errors="replace")


def differing(by_reader, by_program, database):
    """What differs, or nothing."""
    (may, status), (told, ended, line) = by_reader, by_program
    if ended != status:
        return f"status {ended}, where {status} is right: {line}"
    if line != (f"krb_kdcd: {database}: {REFUSAL}\n" if status else ""):
        return f"standard error: {line}"
    if len(told) != len(may) or any(it not in those for it, those in zip(told, may)):
        return f"it told {told}, where {may} is right"
    return ""


def realm_to_damage(key):
    """A file with accounts of all suites, some with a salt."""
    accounts = [((f"user{number}".encode(), b"server"), Account(suite, os.urandom(size), number + 1, b"salt" if number % 2 else None))
                for number, (suite, size) in enumerate(account_files.KEY_SIZES.items())]
    accounts += [((b"a",), Account(kdc.SUITE_NUMBER, key, 2, b"Ra")), ((b"b",), Account(17, os.urandom(16), 3, b"salt of b"))]
    return [*accounts, (GRANTING, Account(kdc.SUITE_NUMBER, os.urandom(32), 4, None))]


def damage(count=5_000, seed=1):
    chance, counts = random.Random(seed), collections.Counter()
    with tempfile.TemporaryDirectory() as folder:
        keytab, database = os.path.join(folder, "keytab"), os.path.join(folder, "accounts.cdb")
        key = bytes.fromhex(kdc.write_keytab(keytab, kdc.configure(folder, 1)))
        account_files.write_realm(database, Realm(b"R", 3_600, 36_000), realm_to_damage(key))
        with open(database, "rb") as whole:
            sound = whole.read()
        began, first = time.monotonic(), request_of_kinit(folder, database, keytab)
        requests = [(client, request_by(first, client, preauthenticates)) for client, preauthenticates in
                    ((NAMES[0], False), (NAMES[0], True), *((it, False) for it in NAMES[1:]))]
        read = parts_read(sound)
        right = outcome_by_program(database, requests)[0]
        for number in range(count):
            octets = bytes(damaged(chance, sound, read))
            with open(database, "wb") as file:
                file.write(octets)
            by_program = outcome_by_program(database, requests)
            by_reader = outcome_by_reader(octets, requests, key, time.monotonic() - began)
            differs = differing(by_reader, by_program, database)
            assert not differs, f"damage {number} of seed {seed}: {differs}"
            told, status, _ = by_program
            counts[("as before" if told == right else "otherwise") if status == 0 else status] += 1
    print(f"{count} damaged files, seed {seed}: {counts[1]} refused before a message, {counts[2]} at a message, {counts['as before']} "
          f"answered as the sound file, {counts['otherwise']} otherwise. None differs from what an independent reader finds", flush=True)


def request_by(first, client, preauthenticates):
    """The request of a, as one of another client, which has a name of one letter too."""
    request = first.replace(bytes.fromhex("1b0161"), bytes([0x1B, 1, client]), 1)
    return request if preauthenticates else replies.without_padata(request)


def parts_read(octets):
    """The parts of a file that look-ups of the realm and of all these names read."""
    file = account_files.File(octets)
    file.realm()
    for name in (GRANTING, *((bytes([it]),) for it in NAMES)):
        file.account(name)
    return file.read


def main(what="all", *words):
    os.umask(0o077)  # krb_kdcd warns of a database that others may read
    try:
        if what in ("replace", "all"):
            replace()
        if what in ("damage", "all"):
            damage(*(int(word) for word in words))
    finally:
        kdc.end_held()


if __name__ == "__main__":
    if sys.argv[1:2] not in ([], ["all"], ["replace"], ["damage"]) or sys.argv[1:2] != ["damage"] and sys.argv[2:]:
        sys.exit("file_changes.py: expected replace, damage [COUNT [SEED]] or all")
    main(*sys.argv[1:])
