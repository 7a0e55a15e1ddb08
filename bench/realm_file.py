"""Measures krb_kdcd and krb_accounts over realms in files: see realm_file.sh."""
import os, random, resource, statistics, subprocess, sys, tempfile, time

import account_files, kdc, listener
from account_files import Realm

KDCD, ACCOUNTS, REALMD = (os.environ.get(name, name) for name in ("KRB_KDCD", "KRB_ACCOUNTS", "KRB_REALMD"))
WORDS = "/dev/urandom"
EXCHANGES, TURNS, STARTS, HELD_EXCHANGES = 50_000, 3, 100, 1_000
MADE, MAKE_SECONDS, MAKE_OCTETS = 1_000_000, 6, 300e6  # making so many accounts takes less of the processor, and of resident memory


def request_of_kinit(folder, database, keytab):
    """A preauthenticated AS request of a, as a stock kinit sent it to krb_kdcd."""
    with listener.listening(folder, [KDCD, database, WORDS]) as (_, port):
        return kdc.request_of_kinit(folder, port, keytab)


# What it costs

def spent(words):
    """The milliseconds of processor, user and system, of a process that gets no request."""
    before = resource.getrusage(resource.RUSAGE_CHILDREN)
    subprocess.run(words, stdin=subprocess.DEVNULL, stdout=subprocess.DEVNULL, check=True)
    return 1e3 * sum(kdc.used_between(before, resource.getrusage(resource.RUSAGE_CHILDREN)))


def measure_starts(words):
    each = [(spent(words), spent(["/bin/true"])) for _ in range(STARTS)]
    own, bare = (statistics.median(column) for column in zip(*each))
    print(f"a start of krb_kdcd: {own:.2f} milliseconds of processor, /bin/true {bare:.2f}, medians of {STARTS} in turn: "
          f"{own - bare:.2f} more", flush=True)


def measure_pipes(words, one, requests):
    """An exchange through one pipe, beside krb_realmd with one account: the least of each in turn."""
    least = [min(column) for column in zip(*[
        (kdc.measure_pipe(words, requests, "krb_kdcd, one pipe"), kdc.measure_pipe(one, requests, "krb_realmd with one account, one pipe"))
        for _ in range(TURNS)])]
    print(f"the least of {TURNS}: {least[0]:.1f} and {least[1]:.1f} microseconds of processor, {least[0] / least[1]:.2f} times", flush=True)


def resident(process):
    """The most octets of memory that a process has had resident so far, or 0 once it has ended."""
    try:
        with open(f"/proc/{process}/status") as status:
            return 1024 * next((int(line.split()[1]) for line in status if line.startswith("VmHWM:")), 0)
    except OSError:
        return 0


def reply_from(stream):
    return stream.read(int.from_bytes(stream.read(4), "big"))


def measure_memory(words, requests):
    with subprocess.Popen(words, stdin=subprocess.PIPE, stdout=subprocess.PIPE) as process:
        for asked in requests:
            process.stdin.write(kdc.framed(asked))
            process.stdin.flush()
            assert reply_from(process.stdout)[0] == kdc.TICKET, "no ticket"
        most = resident(process.pid)
        process.stdin.close()
    print(f"resident memory of krb_kdcd: at most {most / 1e6:.2f} MB in {len(requests)} exchanges", flush=True)


def write_text(path, realm, accounts):
    with open(path, "w") as text:
        text.write(f"realm\t{realm.name.decode()}\t{realm.skew}\t{realm.lifetime}\n")
        for name, account in sorted(accounts):
            text.write(f"{b'/'.join(name).decode()}\t{kdc.SUITE}\t{account.kvno}\t-\t{account.key.hex()}\n")


def measure_make(folder, key, count):
    """krb_accounts make of so many accounts by key. What it made is judged by another hand."""
    text, made, other = (os.path.join(folder, name) for name in ("text", "made.cdb", "other.cdb"))
    realm, accounts = Realm(b"R", 300, 36000), list(kdc.named_accounts(key, count))
    write_text(text, realm, accounts)
    account_files.write_realm(other, realm, accounts)
    before, began, most = resource.getrusage(resource.RUSAGE_CHILDREN), time.monotonic(), 0
    process = subprocess.Popen([ACCOUNTS, "make", text, made], stderr=subprocess.DEVNULL)
    while process.poll() is None:
        most = max(most, resident(process.pid))
        time.sleep(0.005)
    seconds, used = time.monotonic() - began, sum(kdc.used_between(before, resource.getrusage(resource.RUSAGE_CHILDREN)))
    assert process.returncode == 0, f"krb_accounts make ended with status {process.returncode}"
    with open(made, "rb") as one, open(other, "rb") as two:
        octets = one.read()
        same = octets == two.read()
    file = account_files.File(octets)
    assert file.realm() == realm and all(file.account(name) == own for name, own in random.sample(accounts, min(1_000, count)))
    print(f"krb_accounts make of {count} accounts: {used:.2f} seconds of processor, {seconds:.2f} in all, at most {most / 1e6:.0f} MB "
          f"resident; the octets are {'those' if same else 'OTHERS than those'} of account_files.py", flush=True)
    assert same, "expected the same octets"
    if count == MADE:
        assert used < MAKE_SECONDS and most < MAKE_OCTETS, f"expected less than {MAKE_SECONDS} seconds and {MAKE_OCTETS / 1e6:.0f} MB"


def make(count=MADE):
    with tempfile.TemporaryDirectory() as folder:
        measure_make(folder, os.urandom(32).hex(), count)


def cost(count):
    print(f"with {count} accounts:", flush=True)
    with tempfile.TemporaryDirectory() as folder:
        keytab, database, settings = (os.path.join(folder, name) for name in ("keytab", "accounts.cdb", "settings.toml"))
        key = kdc.write_keytab(keytab, kdc.configure(folder, 1))
        kdc.write_database(database, key, count)
        kdc.write_settings(settings, key, 1)
        words = [KDCD, database, WORDS]
        measure_starts(words)
        requests = kdc.numbered(request_of_kinit(folder, database, keytab), EXCHANGES)
        measure_pipes(words, [REALMD, settings, WORDS, "now"], requests)
        measure_memory(words, requests[:HELD_EXCHANGES])
        measure_make(folder, key, count)


def main(what="cost", *words):
    numbers = [int(word) for word in words]
    try:
        if what == "make":
            make(*numbers)
        else:
            for count in numbers or [10, 1_000_000]:
                cost(count)
    finally:
        kdc.end_held()


if __name__ == "__main__":
    if sys.argv[1:2] not in ([], ["cost"], ["make"]):
        sys.exit("realm_file.py: expected cost [ACCOUNTS..] or make [ACCOUNTS]")
    main(*sys.argv[1:])
