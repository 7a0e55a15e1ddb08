"""Measures AS exchanges of the program that is the first argument, behind a bridge and in one pipe, and of MIT's krb5kdc, with as
many accounts as the other arguments say: see kdc.sh."""
import os, random, resource, shutil, socket, subprocess, sys, tempfile, time

import account_files

TICKET = 0x6B  # the first octet of an AS reply
ASKED = 0x6A  # that of an AS request
PASSWORD = b"correct horse battery staple"
SUITE, SUITE_NUMBER = "aes256-cts-hmac-sha1-96", 18
HELD = []


def free_port():
    """A port that is free for TCP and UDP, and none that the system may give to a client. After a client had it, no server gets it for a
    minute, even with SO_REUSEADDR."""
    with open("/proc/sys/net/ipv4/ip_local_port_range") as given:
        first, last = map(int, given.read().split())
    ports = [port for port in range(1_024, 65_536) if not first <= port <= last]
    for port in random.sample(ports, min(len(ports), 100)):
        if is_free(port):
            return port
    raise SystemExit(f"no port is free beside those of clients, {first} to {last}: expected one of 1024 to 65535")


def is_free(port):
    with socket.socket() as stream, socket.socket(type=socket.SOCK_DGRAM) as datagrams:
        try:
            stream.bind(("127.0.0.1", port)), datagrams.bind(("127.0.0.1", port))
        except OSError:
            return False
    return True


def run(words, **options):
    return subprocess.run(words, check=True, capture_output=True, **options)


def start(words, port, **options):
    """Starts a program that listens on a port, waits until it does, and gives its process."""
    with tempfile.TemporaryFile("w+", errors="replace") as said:
        HELD.append(subprocess.Popen(words, stdin=subprocess.DEVNULL, stdout=subprocess.DEVNULL, stderr=said, **options))
        wait_for(port, HELD[-1], said)
    return HELD[-1].pid


def end_held():
    """Ends all programs that were started so."""
    while HELD:
        held = HELD.pop()
        held.terminate()
        held.wait()


def wait_for(port, process, said):
    """Waits until it listens on the port, at most for half a minute: on a busy machine a start takes seconds."""
    until = time.monotonic() + 30
    while process.poll() is None and time.monotonic() < until:
        if is_listened_to(port):
            return
        time.sleep(0.02)
    said.seek(0)
    ended = "hasn't ended" if process.returncode is None else f"ended with status {process.returncode}"
    raise SystemExit(f"{process.args[0]} doesn't listen on port {port}: it {ended}, and said: {said.read()[-500:].strip() or 'nothing'}")


def is_listened_to(port):
    with open("/proc/net/tcp") as sockets:
        return any(f":{port:04X} 00000000:0000 0A " in line for line in sockets)


def processor_seconds(process):
    """Of a process and of the children that it has waited for: user and system."""
    fields = [int(field) for field in open(f"/proc/{process}/stat").read().rsplit(")", 1)[1].split()[11:15]]
    return (fields[0] + fields[2]) / os.sysconf("SC_CLK_TCK"), (fields[1] + fields[3]) / os.sysconf("SC_CLK_TCK")


def other_names(accounts):
    """The names of the accounts beside a."""
    return [f"user{number}" for number in range(1, accounts)]


def write_settings(path, key, accounts):
    with open(path, "w") as settings:
        settings.write(f'realm = "R"\nsuite = "{SUITE}"\nkey = "{os.urandom(32).hex()}"\nskew = 300\nlifetime = 36000\n')
        for name in [*other_names(accounts), "a"]:
            own = key if name == "a" else os.urandom(32).hex()
            settings.write(f'[[account]]\nname = ["{name}"]\nsuite = "{SUITE}"\nkey = "{own}"\n')


def named_accounts(key, accounts):
    """The name of a, of the realm's own service and of others, each with an account by key: so many without the realm's own."""
    for name in [*other_names(accounts), "a", "krbtgt/R"]:
        own = bytes.fromhex(key) if name == "a" else os.urandom(32)
        yield tuple(name.encode().split(b"/")), account_files.Account(SUITE_NUMBER, own, 1, None)


def write_database(path, key, accounts):
    """The same as the settings, as a database."""
    account_files.write_realm(path, account_files.Realm(b"R", 300, 36000), named_accounts(key, accounts))


def write_keytab(path, environment):
    """A keytab of a's password, and its key."""
    command = f"addent -password -p a@R -k 1 -e {SUITE}\n".encode() + PASSWORD + f"\nwkt {path}\nquit\n".encode()
    run(["ktutil"], input=command, env=environment)
    listed = run(["klist", "-k", "-K", path], env=environment).stdout.decode()
    return listed.rsplit("(0x", 1)[1].split(")")[0]


def configure(folder, port):
    path = os.path.join(folder, f"{port}.conf")
    with open(path, "w") as configuration:
        configuration.write("[libdefaults]\n default_realm = R\n dns_lookup_kdc = false\n udp_preference_limit = 1\n"
                            f"[realms]\n R = {{\n  kdc = 127.0.0.1:{port}\n }}\n")
    return dict(os.environ, KRB5_CONFIG=path, KRB5CCNAME="FILE:" + os.path.join(folder, "tickets"), TZ="UTC")


def request_of_kinit(folder, to, keytab):
    """The last request of a kinit to the KDC of this port, taken by a tap."""
    port, taken, tap = free_port(), os.path.join(folder, "taken"), os.path.join(folder, "tap")
    open(taken, "w").close()
    with open(tap, "w") as script:
        script.write(f"#!/bin/sh\ntee -a {taken} | socat - TCP:127.0.0.1:{to}\n")
    os.chmod(tap, 0o755)
    start(["socat", f"TCP-LISTEN:{port},fork,reuseaddr,bind=127.0.0.1", "EXEC:" + tap], port)
    run(["kinit", "-k", "-t", keytab, "a"], env=configure(folder, port))
    stream, request = open(taken, "rb").read(), b""
    while stream:
        end = 4 + int.from_bytes(stream[:4], "big")
        request, stream = stream[4:end], stream[end:]
    return request


def numbered(request, count):
    """The request so many times, with another nonce each: krb5kdc keeps its last replies."""
    nonce = request.rfind(bytes.fromhex("a7060204")) + 4
    assert nonce > 4, "a nonce of other than four bytes"
    return [request[:nonce] + (0x01000000 + number).to_bytes(4, "big") + request[nonce + 4:] for number in range(count)]


def framed(request):
    return len(request).to_bytes(4, "big") + request


def over_tcp(port, request, kind=TICKET):
    """Whether what comes back on a connection of its own begins with this octet."""
    with socket.create_connection(("127.0.0.1", port)) as connection:
        connection.sendall(framed(request))
        reply = connection.makefile("rb").read(5)
    return reply[4:5] == bytes([kind])


def tell(name, count, answered, seconds, used):
    """Prints it, and gives the microseconds of processor of each."""
    user, system = (part / count * 1e6 for part in used)
    print(f"{name}: {count} exchanges, {count / seconds:.0f} a second, {user:.0f} microseconds of processor each, "
          f"and {system:.0f} of the system's", flush=True)
    assert answered == count, f"{count - answered} requests had no ticket"
    return user + system


def measure(name, process, requests, ask):
    before, began = processor_seconds(process), time.monotonic()
    answered = sum(ask(request) for request in requests)
    seconds = time.monotonic() - began
    time.sleep(1)  # the last children are waited for
    used = [now - then for now, then in zip(processor_seconds(process), before)]
    return tell(name, len(requests), answered, seconds, used)


def measure_pipe(words, requests, name="krb_realm, one pipe"):
    """From a file into a file, as one stream of one process."""
    with tempfile.TemporaryFile() as asked, tempfile.TemporaryFile() as told:
        asked.write(b"".join(map(framed, requests)))
        asked.seek(0)
        before, began = resource.getrusage(resource.RUSAGE_CHILDREN), time.monotonic()
        subprocess.run(words, stdin=asked, stdout=told, check=True)
        seconds, after = time.monotonic() - began, resource.getrusage(resource.RUSAGE_CHILDREN)
        told.seek(0)
        stream, tickets, place = told.read(), 0, 0
        while place < len(stream):
            tickets += stream[place + 4] == TICKET
            place += 4 + int.from_bytes(stream[place:place + 4], "big")
    return tell(name, len(requests), tickets, seconds, used_between(before, after))


def used_between(before, after):
    return [after.ru_utime - before.ru_utime, after.ru_stime - before.ru_stime]


def measure_starts(words):
    """Of a process that gets no request."""
    count, before, began = 20, resource.getrusage(resource.RUSAGE_CHILDREN), time.monotonic()
    for _ in range(count):
        subprocess.run(words, stdin=subprocess.DEVNULL, stdout=subprocess.DEVNULL, check=True)
    seconds, used = time.monotonic() - began, used_between(before, resource.getrusage(resource.RUSAGE_CHILDREN))
    user, system = (part / count * 1e3 for part in used)
    print(f"a start of krb_realm: {seconds / count * 1e3:.1f} milliseconds, {user:.1f} of processor and {system:.1f} of the system's", flush=True)


def bridge_to(words):
    """The port of a bridge that starts this program for each connection, and the bridge's process."""
    port = free_port()
    return port, start(["socat", f"TCP-LISTEN:{port},fork,reuseaddr,bind=127.0.0.1", "EXEC:" + " ".join(words)], port)


def measure_program(folder, program, accounts):
    keytab, settings = os.path.join(folder, "keytab"), os.path.join(folder, "settings.toml")
    write_settings(settings, write_keytab(keytab, configure(folder, 1)), accounts)
    words = [program, settings, "/dev/urandom", "now"]
    measure_starts(words)
    port, bridge = bridge_to(words)
    requests = numbered(request_of_kinit(folder, port, keytab), 50_000)
    bridged = measure("krb_realm behind socat, TCP", bridge, requests[:1000], lambda asked: over_tcp(port, asked))
    bare_port, bare = bridge_to(["cat"])
    alone = measure("cat behind socat, TCP", bare, requests[:1000], lambda asked: over_tcp(bare_port, asked, ASKED))
    piped = measure_pipe(words, requests)
    bound = "socat and starting a process" if 2 * alone > bridged else "the program's own start and answer"
    print(f"what bounds it behind socat: {bound}, since of {bridged:.0f} microseconds there are {alone:.0f} with cat in the program's "
          f"place, and an answer takes {piped:.0f}", flush=True)
    return keytab


def make_stock(folder, port, accounts):
    """A database of krb5kdc with so many principals, of which one is a: the environment in which krb5kdc serves it at a port. It logs to
    standard error."""
    with open(os.path.join(folder, "kdc.conf"), "w") as configuration:
        configuration.write(
            f"[kdcdefaults]\n kdc_listen = 127.0.0.1:{port}\n kdc_tcp_listen = 127.0.0.1:{port}\n"
            f"[realms]\n R = {{\n  key_stash_file = {folder}/stash\n  supported_enctypes = {SUITE}:normal\n"
            f"  master_key_type = {SUITE}\n }}\n"
            f"[dbmodules]\n R = {{\n  db_library = db2\n  database_name = {folder}/principal\n  disable_last_success = true\n"
            "  disable_lockout = true\n }\n[logging]\n kdc = STDERR\n")
    environment = dict(configure(folder, port), KRB5_KDC_PROFILE=os.path.join(folder, "kdc.conf"))
    run(["kdb5_util", "create", "-r", "R", "-s", "-P", "master"], env=environment)
    added = f'addprinc +requires_preauth -pw "{PASSWORD.decode()}" a\naddprinc +requires_preauth -randkey user1\n'
    run(["kadmin.local", "-r", "R"], input=added.encode(), env=environment)
    add_stock(os.path.join(folder, "dump"), other_names(accounts) or ["user1"], environment)
    return environment


def start_stock(folder, port, accounts):
    return start(["krb5kdc", "-n", "-r", "R"], port, env=make_stock(folder, port, accounts))


def add_stock(dump, names, environment):
    """Principals of these names, of which the first is there: the others are copies of it, through a dump. kadmin adds but few a second."""
    run(["kdb5_util", "-r", "R", "dump", dump], env=environment)
    with open(dump, "r+") as lines:
        fields = next(line for line in lines if f"\t{names[0]}@R\t" in line).split("\t")
        lines.seek(0, os.SEEK_END)
        for name in names[1:]:
            fields[2], fields[6] = str(len(name) + 2), f"{name}@R"
            lines.write("\t".join(fields))
    run(["kdb5_util", "-r", "R", "load", dump], env=environment)
    os.remove(dump)
    told = run(["kadmin.local", "-r", "R", "-q", f"getprinc {names[-1]}"], env=environment).stdout
    assert f"Principal: {names[-1]}@R".encode() in told, "krb5kdc lacks accounts"


def measure_stock(folder, keytab, accounts):
    port = free_port()
    process = start_stock(folder, port, accounts)
    requests = numbered(request_of_kinit(folder, port, keytab), 22_000)
    measure("krb5kdc, TCP", process, requests[:2000], lambda asked: over_tcp(port, asked))
    with socket.socket(socket.AF_INET, socket.SOCK_DGRAM) as kdc:
        kdc.connect(("127.0.0.1", port))

        def over_udp(asked):
            kdc.send(asked)
            return kdc.recv(65535)[0] == TICKET

        measure("krb5kdc, UDP", process, requests[2000:], over_udp)


def measured(program, accounts):
    print(f"with {accounts} accounts:", flush=True)
    with tempfile.TemporaryDirectory() as folder:
        try:
            keytab = measure_program(folder, program, accounts)
            if shutil.which("krb5kdc"):
                measure_stock(folder, keytab, accounts)
        finally:
            end_held()


if __name__ == "__main__":
    for count in [int(word) for word in sys.argv[2:]] or [10, 5_000]:
        measured(sys.argv[1], count)
