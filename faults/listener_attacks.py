"""Attacks krb_listen before workers that are a stub: see listener_attacks.sh."""
import collections, contextlib, os, re, signal, socket, subprocess, sys, tempfile, threading, time

sys.path.insert(0, os.path.join(os.path.dirname(os.path.dirname(os.path.abspath(__file__))), "bench"))
import kdc, listener
from listener import HOST, asking_udp, over_tcp

LISTENER = os.environ.get("KRB_LISTEN", os.path.join(listener.TOP, "bridges/krb_listen"))
PATIENCE = 3  # seconds of an honest client
# A worker. The first word of a message says what is to be done; the reply is the message, and the file of the argument gets a dot for it.
# It ends at its start while the file `broken` is there.
STUB = r"""
import os, sys, time
counted = open(sys.argv[1], "ab", buffering=0)
if os.path.exists(sys.argv[1] + ".broken"):
    counted.write(b".")
    sys.exit("accounts.cdb: no such file")
while len(head := sys.stdin.buffer.read(4)) == 4:
    message = sys.stdin.buffer.read(int.from_bytes(head, "big"))
    counted.write(b".")
    word, *rest = message.split()
    reply = message
    if word == b"burn":
        until = time.process_time() + 0.01
        while time.process_time() < until:
            pass
    elif word == b"long":
        reply = message.ljust(60000)
    os.write(2, b"line " + b"x" * 100 + b"\n")
    frame = len(reply).to_bytes(4, "big") + reply
    os.write(1, frame)
    if word == b"double":
        time.sleep(float(rest[0])) if float(rest[0]) else None
        os.write(1, frame)
"""


class Attacked:
    """A listener before so many workers, and the file in which they count."""
    def __init__(self, folder, workers=4, error=None):
        self.counted, self.log, self.port = os.path.join(folder, "counted"), os.path.join(folder, "log"), kdc.free_port()
        open(self.counted, "wb").close()
        command = [sys.executable, "-c", STUB, self.counted]
        words = [LISTENER, "--listen", f"{HOST}:{self.port}", "--workers", str(workers), "--", *command]
        with open(self.log, "w+") as said:
            self.process = subprocess.Popen(words, stderr=error or said)
            kdc.wait_for(self.port, self.process, said)

    def asked(self):
        return os.path.getsize(self.counted)

    def read_log(self):
        with open(self.log, encoding="utf-8", errors="replace") as it:
            return it.read()

    def is_served(self, seconds=PATIENCE):
        """Whether an honest client over each protocol has its reply in time."""
        asked = [b"honest %d %d" % (time.monotonic_ns(), it) for it in range(2)]
        with contextlib.suppress(OSError):
            return [asking_udp(self.port, seconds)(asked[0]), over_tcp(self.port, asked[1], seconds=seconds)] == asked
        return False

    def end(self):
        for number in signal.SIGTERM, signal.SIGKILL:
            self.process.send_signal(number)
            with contextlib.suppress(subprocess.TimeoutExpired):
                return self.process.wait(20)
        return self.process.wait()


@contextlib.contextmanager
def attacked(**how):
    with tempfile.TemporaryDirectory() as folder:
        it = Attacked(folder, **how)
        try:
            yield it
        finally:
            it.end()


def same_request():
    """The same request 200 times, each of 10 milliseconds of processor."""
    with attacked() as it:
        before, began, asked = listener.used(it.process.pid), time.monotonic(), b"burn " * 60
        ask = asking_udp(it.port)
        right = sum(ask(asked) == asked for _ in range(100)) + sum(over_tcp(it.port, asked) == asked for _ in range(100))
        spent, took = listener.used(it.process.pid) - before, time.monotonic() - began
        print(f"  {right} of 200 answered in {took:.2f} seconds, with {spent * 1e3:.0f} milliseconds of processor; "
              f"a worker was asked {it.asked()} times")
        if right < 200 or it.asked() > 2 + took:
            return "a worker was asked more than once in two seconds"


def unread_log():
    """A log that is a pipe, which nobody reads."""
    reader, writer = os.pipe()
    with open(reader, "rb", buffering=0) as reader, attacked(error=writer) as it:
        os.close(writer)
        ask, answered = asking_udp(it.port, PATIENCE), 0
        with contextlib.suppress(OSError):
            for number in range(3000):
                answered += ask(b"own %d" % number) == b"own %d" % number
        served = it.is_served()
        os.set_blocking(reader.fileno(), False)
        said, until = b"", time.monotonic() + 5
        while b"were lost" not in said and time.monotonic() < until:
            said += reader.read(65536) or b""
            time.sleep(0.05)
        lost = re.search(rb"(\d+) lines of the log were lost", said)
        print(f"  {answered} of 3000 answered; an honest client was {'' if served else 'NOT '}served; lines lost: {lost and int(lost[1])}")
        if answered < 3000 or not served or not lost:
            return "the log stops the listener, or loses lines untold"


def held_by_system():
    """Octets of all TCP buffers (sockstat, in pages)."""
    with open("/proc/net/sockstat") as it:
        return int(re.search(r"TCP: .* mem (\d+)", it.read())[1]) * os.sysconf("SC_PAGE_SIZE")


def clients_that_never_read():
    """128 clients that ask for 12 MB each and never read."""
    with attacked() as it, contextlib.ExitStack() as held:
        before, most, each, missed, until = held_by_system(), 0, kdc.framed(b"long " * 2) * 200, 0, time.monotonic() + 6
        for number in range(128):
            client = held.enter_context(socket.socket())
            client.setsockopt(socket.SOL_SOCKET, socket.SO_RCVBUF, 4096)
            client.bind((f"127.0.7.{number // 16 + 1}", 0))
            client.connect((HOST, it.port))
            client.setblocking(False)
            client.send(each)
        while time.monotonic() < until:
            missed += not it.is_served()
            most = max(most, held_by_system() - before)
            time.sleep(0.2)
        print(f"  the system held at most {most / 1e6:.1f} MB for them; honest clients missed {missed} replies")
        if most > 32e6 or missed:
            return "clients that never read hold more than 32 MB, or others are kept out"


def two_frames():
    """Workers that write two frames for a message, the second at once or later: a reply of another client's message would get through."""
    with attacked() as it:
        over, replies = time.monotonic() + 15, collections.Counter()

        def ask(number):
            for turn in range(1_000_000):
                if time.monotonic() > over:
                    return
                late = (b"0", b"0.00005", b"0.0005", b"0.005", b"0.1")[turn % 5]
                for asked in b"double %s %d %d" % (late, number, turn), *(b"own %d %d %d" % (number, turn, it) for it in range(3)):
                    with contextlib.suppress(OSError):
                        reply = over_tcp(it.port, asked, seconds=15)
                        replies["own" if reply == asked else "another's" if reply else "none"] += 1

        clients = [threading.Thread(target=ask, args=(number,)) for number in range(12)]
        for client in clients:
            client.start()
        for client in clients:
            client.join()
        print(f"  replies: {dict(replies)}; workers ended: {it.read_log().count('ended with status')}")
        if replies["another's"] or not it.is_served(20):
            return "a client got what was meant for another"


def late_frame():
    """A worker alone that writes a second frame later, while another client's message waits."""
    with attacked(workers=1) as it, contextlib.ExitStack() as held:
        clients, replies = [], collections.Counter()
        for _ in range(2):
            clients.append(held.enter_context(socket.socket(socket.AF_INET, socket.SOCK_DGRAM)))
            clients[-1].settimeout(PATIENCE)
            clients[-1].connect((HOST, it.port))
        for turn in range(120):
            late = (b"0.0005", b"0.002", b"0.01")[turn % 3]
            asked = b"double %s %d" % (late, turn), b"own %d" % turn
            for client, message in zip(clients, asked):
                client.send(message)
            for client, message in zip(clients, asked):
                with contextlib.suppress(OSError):
                    replies["own" if client.recv(65536) == message else "another's"] += 1
        print(f"  replies: {dict(replies)} of 240; workers ended: {it.read_log().count('ended with status')}")
        if replies["another's"]:
            return "a client got what was meant for another"


def workers_that_end():
    """Workers that end at their start: with the listener's own start, and once it served."""
    with attacked() as it:
        assert it.is_served(), "expected a sound start"
        with open(f"{it.counted}.broken", "wb"):
            with open(f"/proc/{it.process.pid}/task/{it.process.pid}/children") as children:
                for child in children.read().split():
                    os.kill(int(child), signal.SIGKILL)
        before = it.asked()
        time.sleep(8)
        starts, lines = it.asked() - before, it.read_log().count("accounts.cdb")
        os.unlink(f"{it.counted}.broken")
        stays = it.process.poll() is None and it.is_served(20)
        print(f"  {starts} starts and {lines} lines of their fault in 8 seconds; it serves again: {stays}")
        if starts > 20 or lines > 1 or not stays:
            return "failing starts end it, or take the machine, or fill the log"
    with tempfile.TemporaryDirectory() as folder:
        words = [LISTENER, "--listen", f"{HOST}:0", "--workers", "7", "--", "sh", "-c", "echo accounts.cdb: no such file >&2; exit 1"]
        ran = subprocess.run(words, capture_output=True, text=True, timeout=60, cwd=folder)
        lines = [line for line in ran.stderr.splitlines() if "TCP and UDP, port" not in line]
        print(f"  at its own start: status {ran.returncode}, {len(lines)} lines")
        if ran.returncode != 1 or len(lines) != 1:
            return "one fault is many lines"


def main():
    through = []
    for attack in same_request, unread_log, clients_that_never_read, two_frames, late_frame, workers_that_end:
        print(attack.__doc__, flush=True)
        if why := attack():
            print(f"  GOT THROUGH: {why}", flush=True)
            through.append(attack.__name__)
    print(f"got through: {', '.join(through)}" if through else "none got through")
    return bool(through)


if __name__ == "__main__":
    sys.exit(main())
