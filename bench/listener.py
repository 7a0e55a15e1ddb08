"""Measures krb_listen: see listener.sh.

usage: listener.py cost [COMMAND ARGUMENT..]     COMMAND answers frames; without it that is a stub in C, or in python3
       listener.py kdcd [ACCOUNTS..]             the same before krb_kdcd, which KRB_KDCD names
"""
import collections, contextlib, functools, itertools, os, shutil, socket, statistics, subprocess, sys, tempfile, time

import kdc, replies

TOP = os.path.dirname(os.path.dirname(os.path.abspath(__file__)))
HOST = "127.0.0.1"
WORKERS = 4
EXCHANGES = {"UDP": 20_000, "TCP": 10_000}
CLIENTS, OF_EACH = 16, 3_000  # at once, and how many exchanges each has
# A request of an unknown client, as a stock kinit sends it. A realm of any name answers it by a KRB-ERROR.
RECORDED = os.path.join(TOP, "crates/krb_realmd/stdin")
REPLY = 600  # octets of the stub's replies, as those of an AS-REP
# Where systemd looks for programs. The python3 there is the system's, as krb5kdc is: another one may take a tenth more or less.
PATH_OF_UNITS = "/usr/local/sbin:/usr/local/bin:/usr/sbin:/usr/bin"
STUB = r"""
#include <stdio.h>
#include <string.h>
#include <unistd.h>
static unsigned char in[4 + 65536], out[4 + %(reply)d];
static int whole(unsigned char *at, int size) {
    for (int got; size > 0; at += got, size -= got)
        if ((got = read(0, at, size)) <= 0) return 0;
    return 1;
}
int main(void) {
    char line[99];
    while (whole(in, 4)) {
        int size = in[1] << 16 | in[2] << 8 | in[3];
        if (size > 65536 || !whole(in + 4, size)) return 2;
        int answered = in[4] == 0x6a || in[4] == 0x6c ? %(reply)d : 0;
        out[2] = answered >> 8; out[3] = answered & 255; out[4] = 0x7e;
        if (write(2, line, sprintf(line, "2000-01-01T00:00:00Z AS-REQ a@R krbtgt/R@R %%d octets\n", size)) < 0) return 2;
        if (write(1, out, 4 + answered) < 0) return 2;
    }
    return 0;
}
"""
SLOW_STUB = r"""
import os, sys
while len(head := sys.stdin.buffer.read(4)) == 4:
    message = sys.stdin.buffer.read(int.from_bytes(head, "big"))
    reply = b"\x7e".ljust(%(reply)d, b"\0") if message[:1] in (b"\x6a", b"\x6c") else b""
    os.write(2, b"2000-01-01T00:00:00Z AS-REQ a@R krbtgt/R@R %%d octets\n" %% len(message))
    os.write(1, len(reply).to_bytes(4, "big") + reply)
"""


def stub(folder):
    """The command of a worker that answers at once."""
    path = os.path.join(folder, "stub")
    if not shutil.which("cc"):
        print("cc is missing: the workers are a stub in python3, which costs some 30 microseconds more", flush=True)
        return [sys.executable, "-c", SLOW_STUB % {"reply": REPLY}]
    with open(path + ".c", "w") as source:
        source.write(STUB % {"reply": REPLY})
    kdc.run(["cc", "-O2", "-o", path, path + ".c"])
    return [path]


@contextlib.contextmanager
def listening(folder, command, workers=WORKERS):
    """krb_listen before so many processes of this command: its process and its port. Its log is in the folder."""
    port, log = kdc.free_port(), os.path.join(folder, "log")
    words = [f"{TOP}/bridges/krb_listen", "--listen", f"{HOST}:{port}", "--workers", str(workers), "--", *command]
    with open(log, "w+") as said:
        process = subprocess.Popen(words, stderr=said, env=dict(os.environ, PATH=PATH_OF_UNITS))
        try:
            kdc.wait_for(port, process, said)
            yield process.pid, port
        finally:
            process.terminate()
            status = process.wait()
    assert status == 0, f"krb_listen ended with status {status}: {open(log).read()[-300:]}"


def used(process):
    """Seconds of processor of a process and of its children, as the scheduler counts them."""
    seconds = 0
    with open(f"/proc/{process}/task/{process}/children") as children:
        for number in [process, *map(int, children.read().split())]:
            with open(f"/proc/{number}/schedstat") as it:
                seconds += int(it.read().split()[0]) / 1e9
    return seconds


NONCE = bytes.fromhex("02040100 0000")  # of four octets, so that requests can be numbered


def request():
    """The recorded request, with this nonce."""
    with open(RECORDED, "rb") as it:
        octets = it.read()[4:]

    def joined(fields):
        return replies.element(0x30, b"".join(replies.element(*it) for it in fields))

    body = replies.elements(replies.within(octets, replies.AS_REQ, 0x30, 0xA4, 0x30))
    numbered = joined((first, NONCE if first == 0xA7 else content) for first, content in body)
    fields = replies.elements(replies.within(octets, replies.AS_REQ, 0x30))
    return replies.element(replies.AS_REQ, joined((first, numbered if first == 0xA4 else content) for first, content in fields))


def reply_of(stream):
    """The next reply of a connection, or nothing where it is closed."""
    got, end = b"", 4
    while len(got) < end:
        more = stream.recv(65536)
        if not more:
            return b""
        got += more
        end = 4 + int.from_bytes(got[:4], "big") if len(got) >= 4 else 4
    return got[4:]


# A connection keeps its port of the client's address for a minute after its end, so clients come from many addresses in turn.
SOURCES = itertools.cycle(f"127.0.0.{number}" for number in range(2, 250))


def over_tcp(port, asked, source=None, seconds=10):
    with socket.create_connection((HOST, port), seconds, (source or next(SOURCES), 0)) as stream:
        stream.sendall(kdc.framed(asked))
        return reply_of(stream)


def asking_udp(port, seconds=10):
    datagrams = socket.socket(socket.AF_INET, socket.SOCK_DGRAM)
    datagrams.settimeout(seconds)
    datagrams.connect((HOST, port))

    def ask(asked):
        datagrams.send(asked)
        return datagrams.recv(65536)

    return ask


Measured = collections.namedtuple("Measured", "pace cost")  # exchanges a second; microseconds of processor of each, of all processes


def measure(name, process, requests, ask):
    return told(name, one_after_another(process, requests, ask))


def one_after_another(process, requests, ask):
    """Exchanges of clients that come one after another."""
    before, began = used(process), time.monotonic()
    answered = sum(bool(ask(it)) for it in requests)
    measured = measured_since(began, before, process, requests)
    assert answered == len(requests), f"{len(requests) - answered} requests had no reply"
    return measured


def measured_since(began, before, process, requests):
    return Measured(len(requests) / (time.monotonic() - began), (used(process) - before) / len(requests) * 1e6)


def told(name, measured):
    print(f"{name}: {measured.pace:.0f} exchanges a second, {measured.cost:.0f} microseconds of processor each, all processes counted", flush=True)
    return measured


def stock_costs(folder):
    """MIT's krb5kdc on this machine: a preauthenticated AS exchange over UDP and TCP."""
    port, keytab = kdc.free_port(), os.path.join(folder, "keytab")
    kdc.write_keytab(keytab, kdc.configure(folder, 1))
    process = kdc.start_stock(folder, port, 10)
    requests = kdc.numbered(kdc.request_of_kinit(folder, port, keytab), sum(EXCHANGES.values()))
    udp = measure("krb5kdc, UDP", process, requests[: EXCHANGES["UDP"]], asking_udp(port))
    tcp = measure("krb5kdc, TCP", process, requests[EXCHANGES["UDP"] :], lambda it: over_tcp(port, it))
    return udp, tcp


def cost(folder, command):
    requests = kdc.numbered(request(), max(CLIENTS * OF_EACH, *EXCHANGES.values()))  # each another one: krb_listen keeps replies
    with listening(folder, command) as (process, port):
        udp = measure("krb_listen, UDP", process, requests[: EXCHANGES["UDP"]], asking_udp(port))
    with listening(folder, command) as (process, port):
        tcp = measure("krb_listen, TCP", process, requests[: EXCHANGES["TCP"]], lambda it: over_tcp(port, it))
    if has_stock():
        stock = stock_costs(folder)
        parts = f"UDP {udp.cost / stock[0].cost:.2f}, TCP {tcp.cost / stock[1].cost:.2f}"
        print(f"in parts of krb5kdc's: {parts}. A stub's reply takes no cryptography", flush=True)
    with listening(folder, command) as (process, port):
        told(f"krb_listen, UDP, {CLIENTS} clients at once", at_once(folder, process, port, requests[: CLIENTS * OF_EACH]))


def has_stock():
    return all(map(shutil.which, ("krb5kdc", "kdb5_util", "kadmin.local", "kinit", "ktutil", "socat")))


CLIENT = """
import socket, sys
it = socket.socket(socket.AF_INET, socket.SOCK_DGRAM)
it.settimeout(10)
it.connect((sys.argv[1], int(sys.argv[2])))
octets, size = open(sys.argv[3], "rb").read(), int(sys.argv[4])
for at in range(0, len(octets), size):
    it.send(octets[at : at + size])
    assert it.recv(65536)[0] == int(sys.argv[5])
"""


def at_once(folder, process, port, requests, kind=0x7E):
    """Exchanges of clients at once, over UDP: each has its own requests, of one length, and takes replies of one kind."""
    clients = []
    for number in range(CLIENTS):
        own = os.path.join(folder, f"requests{number}")
        with open(own, "wb") as file:
            file.write(b"".join(requests[number::CLIENTS]))
        clients.append([sys.executable, "-c", CLIENT, HOST, str(port), own, str(len(requests[0])), str(kind)])
    before, began = used(process), time.monotonic()
    statuses = [it.wait() for it in [subprocess.Popen(words) for words in clients]]
    measured = measured_since(began, before, process, requests)
    assert not any(statuses), "a client had no reply"
    return measured


# krb_kdcd beside krb5kdc

@contextlib.contextmanager
def on_processors(count):
    """What is started meanwhile has so many processors."""
    whole = os.sched_getaffinity(0)
    os.sched_setaffinity(0, sorted(whole)[:count])
    try:
        yield
    finally:
        os.sched_setaffinity(0, whole)


def kdcd_command(folder, count):
    """The keytab of a, and the command of krb_kdcd over a database of so many accounts."""
    keytab, database = os.path.join(folder, "keytab"), os.path.join(folder, "accounts.cdb")
    kdc.write_database(database, kdc.write_keytab(keytab, kdc.configure(folder, 1)), count)
    return keytab, [os.environ["KRB_KDCD"], database, "/dev/urandom", "--log"]


@contextlib.contextmanager
def kdcd_listening(folder, command, processors):
    with contextlib.ExitStack() as stack:
        with on_processors(processors):
            listener = stack.enter_context(listening(folder, command, processors))
        yield listener


@contextlib.contextmanager
def stock_listening(environment, port, processors, processes):
    """krb5kdc: its process, or that of those that answer, and its port."""
    with on_processors(processors):
        kdc.start(["krb5kdc", "-n", "-r", "R", *(["-w", str(processes)] if processes > 1 else [])], port, env=environment)
    held = kdc.HELD.pop()
    try:
        yield held.pid, port
    finally:
        held.terminate()
        held.wait()


LIMITS = {"UDP": 1, "TCP": 1}  # of the processor time of an exchange, in parts of krb5kdc's
AT_ONCE = f"UDP, {CLIENTS} clients at once"
# The rounds of each measure, and the exchanges of a round. A machine's speed changes within seconds, so KDCs take rounds in turn.
ROUNDS = {"UDP": (40, 500), "TCP": (40, 250), AT_ONCE: (6, CLIENTS * 500)}
Standing = collections.namedtuple("Standing", "name process port")  # a KDC


def exchanges(way, folder, standing, requests):
    """AS exchanges of a KDC in one round."""
    if way == AT_ONCE:
        return at_once(folder, standing.process, standing.port, requests, kdc.TICKET)
    ask = asking_udp(standing.port) if way == "UDP" else functools.partial(over_tcp, standing.port)
    return one_after_another(standing.process, requests, lambda it: ask(it)[0] == kdc.TICKET)


def in_turn(way, folder, kdcs, keytab):
    """The rounds of these KDCs: in each what one after another took."""
    rounds, size = ROUNDS[way]
    # A KDC takes a time of five minutes before, so each measure has requests of its own.
    asked = [kdc.numbered(kdc.request_of_kinit(folder, it.port, keytab), rounds * size) for it in kdcs]
    return [[exchanges(way, folder, it, own[begin : begin + size]) for it, own in zip(kdcs, asked)] for begin in range(0, rounds * size, size)]


def medians(rounds):
    """For each KDC what it took, as medians of all rounds."""
    return [Measured(*map(statistics.median, zip(*of_one))) for of_one in zip(*rounds)]


def parts(rounds):
    """What the first took in parts of the second, as medians of all rounds."""
    own, stock = zip(*rounds)
    return Measured(*(statistics.median(a / b for a, b in zip(*of_all)) for of_all in zip(zip(*own), zip(*stock))))


def compare(folder, kdcs, keytab, processors):
    """Prints how krb_kdcd compares to krb5kdc, if that is there, and gives what it should keep to and doesn't."""
    over = []
    for way in ROUNDS:
        rounds = in_turn(way, folder, kdcs, keytab)
        for it, measured in zip(kdcs, medians(rounds)):
            told(f"{it.name}, {way}", measured)
        if len(kdcs) > 1:
            over += beyond(way, kdcs[1].name, parts(rounds), processors)
    return over


def beyond(way, stock, of_stock, processors):
    """Prints both in parts of krb5kdc's, and gives what isn't kept to."""
    print(f"in parts of {stock}, {way}: {of_stock.cost:.2f} of the processor time, {of_stock.pace:.2f} of the exchanges a second", flush=True)
    if of_stock.cost > LIMITS.get(way, of_stock.cost):
        return [f"{way}: {of_stock.cost:.2f} times the processor time of {stock}, with {processors} processors: expected {LIMITS[way]} at most"]
    if way == AT_ONCE and processors > 1 and stock == STOCK and of_stock.pace <= 1:
        return [f"{way}: {of_stock.pace:.2f} times the exchanges of {stock}, with {processors} processors: expected more than 1"]
    return []


STOCK = "krb5kdc of one process"


def beside_stock(folder, count):
    """AS exchanges of krb_kdcd and of krb5kdc with so many accounts: what krb_kdcd should keep to and doesn't."""
    stock_port, over = kdc.free_port(), []
    keytab, command = kdcd_command(folder, count)
    environment = kdc.make_stock(folder, stock_port, count) if has_stock() else None
    for processors in (1, 4) if len(os.sched_getaffinity(0)) >= 4 else (1,):
        print(f"with {count} accounts and {processors} processors:", flush=True)
        with kdcd_listening(folder, command, processors) as listening_at:
            own = Standing("krb_kdcd behind krb_listen", *listening_at)
            for processes in sorted({1, processors}) if environment else ():
                with stock_listening(environment, stock_port, processors, processes) as standing_at:
                    stock = Standing(STOCK if processes == 1 else f"krb5kdc of {processes} processes", *standing_at)
                    over += compare(folder, [own, stock], keytab, processors)
            if not environment:
                compare(folder, [own], keytab, processors)
    return over


def run(what, words):
    with tempfile.TemporaryDirectory() as folder:
        try:
            if what == "kdcd":
                return beside_stock(folder, int(words[0]))
            cost(folder, words or stub(folder))
            return []
        finally:
            kdc.end_held()


def main(what="cost", *words):
    over = []
    for each in [[it] for it in words or ("10", "1000000")] if what == "kdcd" else [words]:
        over += run(what, each)
    if over:
        sys.exit("\n".join(over))


if __name__ == "__main__":
    if sys.argv[1:2] not in ([], ["cost"], ["kdcd"]):
        sys.exit("listener.py: expected cost [COMMAND ARGUMENT..] or kdcd [ACCOUNTS..]")
    main(*sys.argv[1:])
