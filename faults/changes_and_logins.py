"""Password changes beside logins: see changes_and_logins.sh."""
import collections, contextlib, os, random, subprocess, sys, tempfile, threading, time

sys.path.insert(0, os.path.join(os.path.dirname(os.path.dirname(os.path.abspath(__file__))), "bench"))
import account_files, replies, stock_client
from listener import HOST, asking_udp, listening
from stock_client import Key

ACCOUNTS, KDCD, KPASSWDD = (os.environ.get(name, name) for name in ("KRB_ACCOUNTS", "KRB_KDCD", "KRB_KPASSWDD"))
REALM, SERVER = b"EXAMPLE.COM", b"krbtgt/EXAMPLE.COM"
USERS = [f"user{number}" for number in range(10)]
CHANGES, LOGINS_OF_EACH, CHANGES_OF_EDIT = 1_000, 100, 20
CHANGERS, CLIENTS = 2, 4  # at once
PREAUTH_FAILED = ("error", 24)
SECONDS = 60  # for a program that isn't a listener

# A password of a user: its number among all that the user has had, from 0 on, and its key.
Password = collections.namedtuple("Password", "text key")


def password_of(user, number):
    text = f"password {number} of {user}, {os.urandom(6).hex()}"
    return Password(text, Key.of_password(text.encode(), REALM + user.encode()))


class User:
    """The passwords of a user. Those from `stands` to `begun` may count: a change to each later than the first is under way, or isn't
    known to be done."""
    def __init__(self, name):
        self.name, self.passwords, self.stands, self.begun = name, [password_of(name, 0)], 0, 0


class Run:
    """What is under way, and what came of it."""
    def __init__(self, changes):
        self.changes, self.logins = changes, changes * LOGINS_OF_EACH
        self.users = {name: User(name) for name in USERS}
        self.changed = self.asked = 0  # how many changes and logins have begun
        self.counts, self.wrong, self.edited = collections.Counter(), 0, []
        self.news = threading.Condition()

    def tell(self, fault):
        """Prints a failure, or counts what is right."""
        with self.news:
            if fault:
                self.wrong += 1
                print(f"WRONG: {fault}", flush=True)
            else:
                self.counts["right"] += 1

    def wait_until(self, is_so):
        """Waits with the lock of the news."""
        while not is_so():
            self.news.wait(1)


# Changes

def change_next(run, own, configuration):
    """The next change, of one of these users. Gives whether there was one."""
    with run.news:
        run.wait_until(lambda: run.changed >= run.changes or run.asked >= run.changed * LOGINS_OF_EACH)
        if run.changed >= run.changes:
            return False
        run.changed += 1
        user = run.users[random.choice(own)]
        number = user.begun + 1
    new = password_of(user.name, number)
    with run.news:
        old = user.passwords[user.begun]
        user.passwords.append(new)
        user.begun = number
        run.news.notify_all()
    said = kpasswd(configuration, user.name, old.text, new.text)
    with run.news:
        if said is None:
            user.stands = max(user.stands, number)
        run.news.notify_all()
    run.tell(said and f"change {number} of {user.name}: {said}")
    return True


def kpasswd(configuration, user, old, new):
    """Stock kpasswd: nothing, or what it said where it isn't done."""
    environment, typed = dict(os.environ, KRB5_CONFIG=configuration, LC_ALL="C"), f"{old}\n{new}\n{new}\n"
    ran = subprocess.run(["kpasswd", user], input=typed, text=True, capture_output=True, timeout=SECONDS, env=environment)
    if ran.returncode == 0 and "Password changed" in ran.stdout:
        return None
    return f"kpasswd's status is {ran.returncode}: {(ran.stdout + ran.stderr).strip().splitlines()[-1:]}"


def edit_next(run, folder):
    """An account of a service is added, and the database made, as an administrator does it. Gives whether there is a next time."""
    with run.news:
        run.wait_until(lambda: run.changed >= run.changes or run.changed >= (len(run.edited) + 1) * CHANGES_OF_EDIT)
        if run.changed >= run.changes:
            return False
        name = f"host/server{len(run.edited)}"
        run.edited.append(name)
    fault = accounts(folder, "add", "-k", "random", "accounts", name) or accounts(folder, "make", "accounts", "accounts.cdb")
    run.tell(fault)
    return True


def accounts(folder, *words, given=""):
    """A command of krb_accounts: nothing, or what it said where it failed."""
    ran = subprocess.run([ACCOUNTS, *words], input=given, text=True, capture_output=True, timeout=SECONDS, cwd=folder)
    return f"krb_accounts {' '.join(words)}: status {ran.returncode}: {ran.stderr.strip()[-300:]}" if ran.returncode else None


# Logins

def login_next(run, chance, ask):
    """The next login, by a password of some user that may count, or by the last one that doesn't. Gives whether there was one."""
    with run.news:
        run.wait_until(lambda: run.asked >= run.logins or run.asked < (run.changed + 1) * LOGINS_OF_EACH or run.changed >= run.changes)
        if run.asked >= run.logins:
            return False
        run.asked += 1
        nonce = run.asked
        run.news.notify_all()
        under_way = [it for it in run.users.values() if it.begun > it.stands]
        user = chance.choice(under_way if under_way and chance.random() < 0.7 else list(run.users.values()))
        low = user.stands
        number = chance.randint(max(low - 1, 0), user.begun)
        key = user.passwords[number].key
    log_in(run, user, number, key, low, nonce, ask)
    return True


def log_in(run, user, number, key, low, nonce, ask):
    """A login by the password of this number, where that of `low` was known to count, or an earlier one no longer."""
    reply = ask(stock_client.login_request(REALM, user.name.encode(), key, nonce))
    is_granted = reply[0] == replies.AS_REP
    with run.news:
        high = user.begun
        if is_granted:
            user.stands = max(user.stands, number)
    outcome = f"login by password {number} of {user.name}, where {low} to {high} may count"
    if is_granted:
        fault = granted_fault(reply, key, number + 1, nonce) if low <= number <= high else "granted"
    elif replies.said(reply) == PREAUTH_FAILED:
        fault = "refused" if low == number == high else None
    else:
        fault = replies.said(reply)
    run.tell(fault and f"{outcome}: {fault}")
    with run.news:
        run.counts["granted" if is_granted else "refused"] += 1
        run.counts["under way"] += low < high


def granted_fault(reply, key, kvno, nonce):
    """What is wrong with a reply under this key, or nothing."""
    try:
        own = stock_client.opened(reply, key)
    except stock_client.Refused:
        return "the key of the password doesn't open the reply"
    return None if own == (kvno, nonce, SERVER) else f"the reply says {own}"


# The realm

def make_realm(run, folder):
    """A text of accounts with these users, and its database."""
    steps = [accounts(folder, "create", "-k", "random", "accounts", REALM.decode())]
    steps.append(accounts(folder, "add", "-k", "random", "accounts", "kadmin/changepw"))
    steps += [accounts(folder, "add", "accounts", it.name, given=it.passwords[0].text + "\n") for it in run.users.values()]
    steps.append(accounts(folder, "make", "accounts", "accounts.cdb"))
    assert not any(steps), next(filter(None, steps))


@contextlib.contextmanager
def serving(run, folder):
    """The port of krb_kdcd, and that of krb_kpasswdd. That admits no request of a time before its start."""
    make_realm(run, folder)
    text, database = os.path.join(folder, "accounts"), os.path.join(folder, "accounts.cdb")
    kdc, passwords = os.path.join(folder, "kdc"), os.path.join(folder, "passwords")  # their logs
    os.mkdir(kdc), os.mkdir(passwords)
    with listening(kdc, [KDCD, database, "/dev/urandom", "--log"], 2) as (_, kdc_port):
        with listening(passwords, [KPASSWDD, text, database, "/dev/urandom"], 1) as (_, port):
            time.sleep(1)
            yield kdc_port, port


def write_configuration(path, kdc, passwords):
    """Where MIT's clients ask, over TCP."""
    with open(path, "w") as it:
        it.write(f"[libdefaults]\n default_realm = {REALM.decode()}\n dns_lookup_kdc = false\n udp_preference_limit = 1\n"
                 f"[realms]\n {REALM.decode()} = {{\n  kdc = {HOST}:{kdc}\n  kpasswd_server = {HOST}:{passwords}\n }}\n")


def judge_end(run, folder, ask):
    """Text and database agree, and have the last password of each user and each account that was added."""
    run.tell(accounts(folder, "check", "accounts", "accounts.cdb"))
    run.tell(accounts(folder, "make", "accounts", "again.cdb"))
    held = [open(os.path.join(folder, name), "rb").read() for name in ("accounts.cdb", "again.cdb")]
    run.tell(None if held[0] == held[1] else "krb_accounts makes another database of the text")
    file = account_files.File(held[0])
    for user in run.users.values():
        own = file.account((user.name.encode(),))
        is_right = own and (own.suite, own.kvno, own.key) == (stock_client.SUITE, user.begun + 1, user.passwords[-1].key.octets)
        run.tell(None if is_right else f"the database hasn't the last password of {user.name}, but kvno {own and own.kvno}")
        for number in range(max(user.begun - 2, 0), user.begun + 1):
            log_in(run, user, number, user.passwords[number].key, user.stands, number, ask)
    lost = [name for name in run.edited if file.account(tuple(name.encode().split(b"/"))) is None]
    run.tell(f"accounts that were added are lost: {lost}" if lost else None)
    left = [name for name in os.listdir(folder) if name.endswith(".new")]
    run.tell(f"new files are left: {left}" if left else None)


def repeat(run, step, *arguments):
    """A thread of steps until there is no next one. A step that fails is a failure, and all threads end."""
    try:
        while step(run, *arguments):
            pass
    except Exception as fault:
        run.tell(f"{step.__name__}: {fault!r}")
        with run.news:
            run.changes, run.logins = run.changed, run.asked


def main(changes=CHANGES):
    os.umask(0o077)  # krb_kdcd warns of a database that others may read
    run, began = Run(int(changes)), time.monotonic()
    with tempfile.TemporaryDirectory() as folder:
        with serving(run, folder) as (kdc, passwords):
            configuration = os.path.join(folder, "krb5.conf")
            write_configuration(configuration, kdc, passwords)
            steps = [(run, change_next, USERS[at::CHANGERS], configuration) for at in range(CHANGERS)]
            steps += [(run, login_next, random.Random(at), asking_udp(kdc)) for at in range(CLIENTS)]
            threads = [threading.Thread(target=repeat, args=it) for it in [*steps, (run, edit_next, folder)]]
            for it in threads:
                it.start()
            for it in threads:
                it.join()
            judge_end(run, folder, asking_udp(kdc))
    counts = run.counts
    print(f"{run.changed} changes and {len(run.edited)} further accounts in {time.monotonic() - began:.0f} seconds; "
          f"{counts['granted']} logins granted, {counts['refused']} refused, {counts['under way']} while the password was being changed")
    print(f"{counts['right']} right, {run.wrong} wrong")
    return int(run.wrong > 0)


if __name__ == "__main__":
    sys.exit(main(*sys.argv[1:]))
