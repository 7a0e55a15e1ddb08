"""Plays hostile clients against krb_listen: see flood.sh."""
import collections, contextlib, itertools, multiprocessing, os, random, selectors, socket, statistics, sys, tempfile, threading, time

sys.path.insert(0, os.path.join(os.path.dirname(os.path.dirname(os.path.abspath(__file__))), "bench"))
import kdc, listener
from listener import HOST, asking_udp, listening, over_tcp, used

CONNECTIONS, SECONDS, SILENT, GARBAGE = 10_000, 2, 500, 100
PATIENCE = 3  # seconds of an honest client: a lost SYN is sent again after one
BROKEN = (
    lambda chance: kdc.framed(chance.randbytes(chance.randrange(1, 2000))),
    lambda chance: kdc.framed(bytes(300))[: chance.randrange(1, 300)],
    lambda chance: chance.randrange(65_537, 1 << 32).to_bytes(4, "big") + chance.randbytes(9),
    lambda chance: bytes(4),
)


def sources(net, count):
    return [f"127.{net}.{number // 250}.{number % 250 + 1}" for number in range(count)]


def connecting(port, source):
    it = socket.socket()
    it.setblocking(False)
    it.bind((source, 0))
    it.connect_ex((HOST, port))
    return it


def flood(port, requests, net, told):
    """A connection for each request, at even pace, of 50 sources: sends how many were answered, and in how long they began."""
    count = len(requests)
    watched, begin, own, answered = selectors.DefaultSelector(), time.monotonic(), sources(net, 50), 0
    begun, took = 0, 0.0
    while begun < count or watched.get_map() and time.monotonic() < begin + 15:
        while begun < count and time.monotonic() >= begin + begun * SECONDS / count:
            watched.register(connecting(port, own[begun % 50]), selectors.EVENT_WRITE)
            begun, took = begun + 1, time.monotonic() - begin
        for key, event in watched.select(0.001):
            try:
                if event == selectors.EVENT_WRITE:
                    key.fileobj.send(kdc.framed(requests.pop()))
                    watched.modify(key.fileobj, selectors.EVENT_READ)
                    continue
                answered += len(key.fileobj.recv(65536)) > 4
            except OSError:
                pass
            watched.unregister(key.fileobj)
            key.fileobj.close()
    told.send((answered, took))


def break_frames(port, over):
    """Garbage in frames and as datagrams, a hundred a second, of 50 sources."""
    chance, own, held, datagrams = random.Random(1), sources(9, 50), collections.deque(), socket.socket(socket.AF_INET, socket.SOCK_DGRAM)
    for number in itertools.count():
        if over.wait(1 / GARBAGE):
            return
        octets = BROKEN[number % len(BROKEN)](chance)
        datagrams.sendto(octets, (HOST, port))
        with contextlib.suppress(OSError):
            held.append(socket.create_connection((HOST, port), 1, (own[number % 50], 0)))
            held[-1].sendall(octets)
        if len(held) > 200:
            held.popleft().close()


def ask_honestly(ask, requests, over, seconds):
    """Asks each 20 milliseconds; keeps the seconds of each answer, or None where there was none in time."""
    for asked in requests:
        if over.wait(0.02):
            return
        began = time.monotonic()
        try:
            seconds.append(time.monotonic() - began if ask(asked) else None)
        except OSError:
            seconds.append(None)


def play_hostile(folder, command, asked):
    over, honest, requests = threading.Event(), {"UDP": [], "TCP": []}, kdc.numbered(asked, 3 * CONNECTIONS)  # each is another one
    with listening(folder, command) as (process, port):
        silent = [connecting(port, it) for it in sources(8, 40) * 13][:SILENT]
        ways = {"UDP": asking_udp(port, PATIENCE), "TCP": lambda it: over_tcp(port, it, seconds=PATIENCE)}
        threads = [threading.Thread(target=ask_honestly, args=(ways[it], requests[at :: 3], over, honest[it])) for at, it in enumerate(ways, 1)]
        threads.append(threading.Thread(target=break_frames, args=(port, over)))
        for it in threads:
            it.start()
        time.sleep(1)
        pipes, before = [multiprocessing.Pipe() for _ in range(4)], used(process)
        of_floods = [requests[::3][net :: len(pipes)] for net in range(len(pipes))]
        floods = [multiprocessing.Process(target=flood, args=(port, of_floods[net - 1], net, it[1])) for net, it in enumerate(pipes, 1)]
        for it in floods:
            it.start()
        told = [it[0].recv() for it in pipes]
        spent = used(process) - before
        time.sleep(13 - SECONDS)  # the silent ones are taken after a second, and closed in this time
        over.set()
        for it in threads + floods:
            it.join()
        left = sum(is_open(it) for it in silent)
    say_hostile(told, spent, honest, left, os.path.join(folder, "log"))


def is_open(stream):
    try:
        return stream.recv(1) != b""
    except BlockingIOError:
        return True
    except OSError:
        return False


def say_hostile(told, spent, honest, left, log):
    answered, took = sum(it[0] for it in told), max(it[1] for it in told)
    print(f"{CONNECTIONS} connections in {took:.1f} seconds: {answered} answered; {spent:.1f} seconds of processor in all", flush=True)
    print(f"{SILENT} silent ones: {left} open after 10 seconds. {GARBAGE} broken frames a second over TCP, and as many datagrams")
    for name, seconds in honest.items():
        good = [it for it in seconds if it is not None]
        print(f"honest client over {name}: {len(good)} of {len(seconds)} answered at the first try, "
              f"median {statistics.median(good) * 1e3:.1f} milliseconds, longest {max(good) * 1e3:.0f}")
    with open(log) as it:
        print("".join(line for line in it if line.startswith("krb_listen: ") and " closed " in line or "dropped" in line), end="")
    assert all(None not in it for it in honest.values()), "an honest client wasn't answered"
    assert not left, "a silent connection is open"


def before_kdcd(folder, count):
    """The same before krb_kdcd, with requests of a client that it has."""
    keytab, command = listener.kdcd_command(folder, count)
    with listening(folder, command) as (_, port):
        asked = kdc.request_of_kinit(folder, port, keytab)
    play_hostile(folder, command, asked)


def main(words):
    with tempfile.TemporaryDirectory() as folder:
        try:
            if words[:1] == ["kdcd"]:
                before_kdcd(folder, int("".join(words[1:]) or 10))
            else:
                play_hostile(folder, words or listener.stub(folder), listener.request())
        finally:
            kdc.end_held()


if __name__ == "__main__":
    main(sys.argv[1:])
