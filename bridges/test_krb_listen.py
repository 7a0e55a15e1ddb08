#!/usr/bin/env python3
"""Tests of krb_listen, before workers that are a stub, and of krb_connect.

usage: python3 -B bridges/test_krb_listen.py
"""
import contextlib
import importlib.machinery
import importlib.util
import os
import re
import resource
import signal
import socket
import stat
import subprocess
import sys
import tempfile
import threading
import time
import unittest

HERE = os.path.dirname(os.path.abspath(__file__))
PROGRAM = os.path.join(HERE, "krb_listen")
loader = importlib.machinery.SourceFileLoader("krb_listen", PROGRAM)
krb_listen = importlib.util.module_from_spec(importlib.util.spec_from_loader("krb_listen", loader))
loader.exec_module(krb_listen)
REQUEST = b"\x6a" + b"request"
ANY_PORT = "--listen", "127.0.0.1:0"

# Runs the program with other limits, as the first argument says: NAME=NUMBER,..
DRIVER = f"""
import importlib.machinery
import importlib.util
import sys

loader = importlib.machinery.SourceFileLoader("krb_listen", {PROGRAM!r})
module = importlib.util.module_from_spec(importlib.util.spec_from_loader("krb_listen", loader))
loader.exec_module(module)
for limit in filter(None, sys.argv.pop(1).split(",")):
    name, _, value = limit.partition("=")
    assert hasattr(module, name)
    setattr(module, name, float(value) if "." in value else int(value))
module.main()
"""

# A worker. The first word of a message says what to do; the reply to other messages is the message.
STUB = r"""
import os
import sys
import time


def write(reply):
    os.write(1, len(reply).to_bytes(4, "big") + reply)


def count(path):
    with open(path, "ab") as counted:
        counted.write(b".")
        counted.flush()
        return counted.tell()


def end(rest):  # up to so many times, by the count in a file
    times, path = rest.split(b" ")
    if count(path) <= int(times):
        os._exit(3)


def double(message, rest):  # writes a reply more than is asked, so many seconds before the other
    write(message)
    time.sleep(float(rest.split()[0]))


def counted(message, rest):  # replies after so many seconds, by nothing or by so many octets
    path, seconds, *how = rest.split(b" ")
    count(path)
    time.sleep(float(seconds))
    if how == [b"nothing"]:
        return b""
    if how:
        return b"x" * int(how[0])
    return message


def hang(octets):
    os.write(1, octets)
    time.sleep(60)


def reply_to(message):
    word, _, rest = message.partition(b" ")
    if word == b"no":
        return b""
    if word == b"reply":
        size, _, rest = rest.partition(b" ")
        return rest.ljust(int(size), b"\0")
    if word == b"count":
        return counted(message, rest)
    if word == b"end":
        end(rest)
    elif word == b"say":
        os.write(2, rest + b"\n")
    elif word == b"sleep":
        time.sleep(float(rest))
    elif word == b"noise":
        hang(b"\xff" * 8)
    elif word == b"twice":
        hang(b"\0\0\0\1x\0\0\0\1x")
    elif word == b"double":
        double(message, rest)
    return message


head = sys.stdin.buffer.read(4)
while len(head) == 4:
    write(reply_to(sys.stdin.buffer.read(int.from_bytes(head, "big"))))
    head = sys.stdin.buffer.read(4)
os.write(2, b"input ended\n")
"""
WORKER = sys.executable, "-c", STUB


def framed(message):
    """Returns the message after its length in four octets."""
    return len(message).to_bytes(4, "big") + message


def answer(stream):
    """Returns the next reply of a connection, or None where it is closed."""
    got = b""
    end = 4
    while len(got) < end:
        try:
            more = stream.recv(end - len(got))
        except ConnectionError:
            more = b""
        if not more:
            return None
        got += more
        if len(got) >= 4:
            end = 4 + int.from_bytes(got[:4], "big")
    return got[4:]


def der(first, *parts):
    """Returns the DER element with this first octet, whose content has at most 65,535 octets."""
    content = b"".join(parts)
    size = len(content)
    if size < 128:
        head = [size]
    elif size < 256:
        head = [129, size]
    else:
        head = [130, size >> 8, size & 255]
    return bytes([first, *head]) + content


def sequence(*parts):
    """Returns a SEQUENCE of these elements."""
    return der(0x30, *parts)


def general(text):
    """Returns a GeneralString."""
    return der(0x1B, text)


def runs(number):
    """Whether the process is there, and isn't one that nobody has waited for yet."""
    try:
        with open(f"/proc/{number}/stat", encoding="ascii") as it:
            return it.read().rsplit(")", 1)[1].split()[0] != "Z"
    except FileNotFoundError:
        return False


class Case(unittest.TestCase):
    """A test of the program, whose log is the file `log`."""

    asked = 0  # requests so far of is_served

    def start(self, *words, limits="", command=WORKER, hosts=("127.0.0.1",)):
        """Starts the program, which ends with the test, and waits until it listens."""
        self.folder = self.temporary()
        self.log = os.path.join(self.folder, "log")
        listens = [word for host in hosts for word in ("--listen", f"{host}:0")]
        own = sys.executable, "-c", DRIVER, limits
        self.start_logging([*own, *listens, *words, "--", *command])
        found = self.wait_for(rf"(?s)(?:port \d+\n.*){{{len(hosts)}}}", r"port (\d+)\n")
        self.ports = [int(it) for it in found]
        self.port = self.ports[0]

    def start_logging(self, command):
        """Starts the command with its log as standard error."""
        with open(self.log, "wb") as log:
            self.process = subprocess.Popen(command, stderr=log)
        self.addCleanup(self.end)

    def temporary(self):
        """Returns a folder that is removed after the test."""
        folder = tempfile.TemporaryDirectory()
        self.addCleanup(folder.cleanup)
        return folder.name

    def workers(self):
        """Returns the numbers of the workers' processes."""
        number = self.process.pid
        with open(f"/proc/{number}/task/{number}/children", encoding="ascii") as children:
            return [int(it) for it in children.read().split()]

    def end(self):
        """Kills the program where it hasn't ended."""
        if self.process.poll() is None:
            self.process.kill()
        self.process.wait()

    def read_log(self):
        """Returns the log so far."""
        with open(self.log, encoding="utf-8") as log:
            return log.read()

    def count_in_log(self, pattern):
        """Returns how often the log has this."""
        return len(re.findall(pattern, self.read_log()))

    def wait_for(self, wanted, found=None, seconds=20):
        """Returns what the log has once it has this."""
        until = time.monotonic() + seconds
        while time.monotonic() < until:
            log = self.read_log()
            if re.search(wanted, log):
                return re.findall(found or wanted, log)
            time.sleep(0.02)
        self.fail(f"the log lacks {wanted}: {self.read_log()}")

    def wait_until(self, is_so, seconds=20):
        """Waits until this is so."""
        until = time.monotonic() + seconds
        while not is_so():
            self.assertLess(time.monotonic(), until)
            time.sleep(0.05)

    def tcp(self, host="127.0.0.1", source=None, port=None):
        """Returns a connection, perhaps from this address."""
        own = (source, 0) if source else None
        stream = socket.create_connection((host, port or self.port), 20, own)
        self.addCleanup(stream.close)
        return stream

    def udp(self, host="127.0.0.1", port=None):
        """Returns a socket that sends datagrams to the program."""
        family = socket.AF_INET6 if ":" in host else socket.AF_INET
        datagrams = socket.socket(family, socket.SOCK_DGRAM)
        self.addCleanup(datagrams.close)
        datagrams.settimeout(20)
        datagrams.connect((host, port or self.port))
        return datagrams

    def ask_udp(self, message, **how):
        """Returns the reply over UDP."""
        datagrams = self.udp(**how)
        datagrams.send(message)
        return datagrams.recv(65536)

    def ask_tcp(self, message, **how):
        """Returns the reply over a connection of its own, or None where there is none."""
        with self.tcp(**how) as stream:
            stream.sendall(framed(message))
            return answer(stream)

    def is_served(self):
        """A worker answers over each protocol: no request is the same as one before."""
        Case.asked += 2
        udp, tcp = (REQUEST + b" %d" % (Case.asked + it) for it in range(2))
        self.assertEqual((self.ask_udp(udp), self.ask_tcp(tcp)), (udp, tcp))

    def held(self, count, **how):
        """Returns so many connections that the system hands over at once.

        Each sent the first octet of a message.
        """
        held = [self.tcp(**how) for _ in range(count)]
        for it in held:
            it.sendall(framed(REQUEST)[:1])
        return held

    def counted(self, name, seconds=0, how=""):
        """Returns a message that a worker counts, and a call that says how often it was asked."""
        path = os.path.join(self.folder, name)

        def count():
            return os.path.getsize(path) if os.path.exists(path) else 0

        return f"count {path} {seconds} {how}".strip().encode(), count


class Transport(Case):
    """Replies over both protocols."""

    def test_both_protocols_and_families(self):
        self.start(hosts=("127.0.0.1", "[::1]"))
        self.is_served()
        self.assertEqual(self.ask_udp(REQUEST, host="::1", port=self.ports[1]), REQUEST)
        self.assertEqual(self.ask_tcp(REQUEST, host="::1", port=self.ports[1]), REQUEST)

    def test_reply_comes_from_the_address_that_was_asked(self):
        self.start(hosts=("0.0.0.0", "[::]"))
        for host, port in (("127.0.0.1", 0), ("127.0.0.7", 0), ("::1", 1)):
            self.assertEqual(self.ask_udp(REQUEST, host=host, port=self.ports[port]), REQUEST)

    def test_several_messages_of_one_connection(self):
        self.start("--workers", "3")
        messages = [b"%d " % number * number for number in range(1, 100)]
        stream = self.tcp()
        stream.sendall(b"".join(map(framed, messages)))
        self.assertEqual([answer(stream) for _ in messages], messages)
        self.assertIsNone(answer(stream))

    def test_connection_ends_with_the_reply(self):
        self.start()
        stream = self.tcp()
        stream.sendall(framed(REQUEST))
        self.assertEqual((answer(stream), answer(stream)), (REQUEST, None))
        stream = self.tcp()
        stream.sendall(framed(REQUEST) + framed(REQUEST)[:1])
        self.assertEqual(answer(stream), REQUEST)
        stream.sendall(framed(REQUEST)[1:])
        self.assertEqual((answer(stream), answer(stream)), (REQUEST, None))

    def test_message_in_pieces(self):
        self.start()
        stream = self.tcp()
        stream.setsockopt(socket.IPPROTO_TCP, socket.TCP_NODELAY, 1)
        for octet in framed(REQUEST):
            stream.sendall(bytes([octet]))
            time.sleep(0.01)
        self.assertEqual(answer(stream), REQUEST)

    def test_client_that_sends_no_more(self):
        self.start()
        stream = self.tcp()
        stream.sendall(framed(REQUEST))
        stream.shutdown(socket.SHUT_WR)
        self.assertEqual((answer(stream), answer(stream)), (REQUEST, None))

    def test_client_that_takes_its_replies_late(self):
        self.start()
        stream = self.tcp()
        stream.sendall(b"".join(framed(b"reply 60000 %d" % it) for it in range(150)))
        time.sleep(1)
        self.is_served()
        for number in range(150):
            self.assertEqual(answer(stream), (b"%d" % number).ljust(60_000, b"\0"))

    def test_no_request(self):
        self.start("--workers", "1")
        datagrams = self.udp()
        for message in b"no", b"", REQUEST:
            datagrams.send(message)
        self.assertEqual(datagrams.recv(65536), REQUEST)
        self.assertIsNone(self.ask_tcp(b"no"))
        self.is_served()
        self.assertNotIn("ended", self.read_log())

    def test_datagrams_that_wait(self):
        self.start("--workers", "1")
        datagrams, messages = self.udp(), [b"%d" % number for number in range(100)]
        datagrams.send(b"sleep 0.3")
        for message in messages:
            datagrams.send(message)
        self.assertEqual([datagrams.recv(65536) for _ in range(101)], [b"sleep 0.3", *messages])


class Limits(Case):
    """What the documents say of limits."""

    def test_limits_are_those_of_the_documents(self):
        names = "FRAME_LIMIT", "UDP_LIMIT", "SILENT", "PER_SOURCE", "CONNECTIONS", "TIMES"
        self.assertEqual([getattr(krb_listen, it) for it in names], [65536, 4096, 10, 16, 1024, 3])

    def test_lengths(self):
        self.start()
        self.assertEqual(self.ask_tcp(b"x" * 65536), b"x" * 65536)
        for head in (0, 65537, 1 << 31, (1 << 32) - 1):
            stream = self.tcp()
            stream.sendall(head.to_bytes(4, "big"))
            self.assertIsNone(answer(stream), head)
        self.wait_for(r"4 connections closed at a message of 0 or over 65536 octets")

    def test_silent_connections(self):
        self.start(limits="SILENT=1,TICK=0.1")
        silent, slow = self.tcp(), self.tcp()
        slow.sendall(framed(REQUEST)[:5])
        begin = time.monotonic()
        for octet in framed(REQUEST)[5:9]:
            time.sleep(0.2)
            slow.sendall(bytes([octet]))
        self.assertEqual((answer(silent), answer(slow)), (None, None))
        self.assertTrue(0.9 < time.monotonic() - begin < 10)
        stream = self.tcp()
        stream.sendall(framed(REQUEST)[:1])
        for _ in range(4):
            stream.sendall(framed(REQUEST)[1:] + framed(REQUEST)[:1])
            self.assertEqual(answer(stream), REQUEST)
            time.sleep(0.4)

    def test_client_that_takes_no_reply(self):
        self.start(limits="SILENT=1,TICK=0.1")
        stream = self.tcp()
        with contextlib.suppress(OSError):
            stream.settimeout(2)
            stream.sendall(framed(b"x" * 65536) * 1000)
        self.wait_for(r"1 connections closed after 1 seconds")
        self.is_served()

    def test_connections_of_one_source(self):
        self.start()
        held = self.held(16)
        self.assertIsNone(answer(*self.held(1)))
        self.assertEqual(self.ask_tcp(REQUEST, source="127.0.0.2"), REQUEST)
        held.pop().close()
        time.sleep(0.2)
        self.assertEqual(self.ask_tcp(REQUEST), REQUEST)
        for stream in held:
            stream.sendall(framed(REQUEST)[1:])
            self.assertEqual(answer(stream), REQUEST)
        self.wait_for(r"1 connections closed beyond 16 of their source")

    def test_connections_in_all(self):
        self.start(limits="CONNECTIONS=20")
        held = [
            it for number in range(20) for it in self.held(1, source=f"127.0.1.{number % 5 + 1}")
        ]
        held[0].sendall(framed(REQUEST)[1:] + framed(REQUEST)[:1])
        self.assertEqual(answer(held[0]), REQUEST)  # so the second is the oldest
        last = self.tcp()
        last.sendall(framed(REQUEST))
        self.assertEqual((answer(last), answer(held[1])), (REQUEST, None))
        held[0].sendall(framed(REQUEST)[1:])
        self.assertEqual(answer(held[0]), REQUEST)
        self.wait_for(r"1 connections closed as the oldest beyond 20")

    def test_silent_connections_take_nobodys_place(self):
        self.start()
        silent = [self.tcp() for _ in range(40)]  # in their first second
        self.assertEqual(self.ask_tcp(REQUEST), REQUEST)
        self.assertEqual(len(silent), 40)
        self.assertNotIn("closed", self.read_log())

    def test_what_the_system_holds_for_a_client(self):
        self.start("--workers", "1")
        stream = socket.socket()
        self.addCleanup(stream.close)
        stream.setsockopt(socket.SOL_SOCKET, socket.SO_RCVBUF, 4096)
        stream.settimeout(2)
        stream.connect(("127.0.0.1", self.port))
        asked, count = self.counted("asked", 0, "60000")
        with contextlib.suppress(OSError):
            for number in range(100):
                stream.sendall(framed(asked + b" " * number))
        time.sleep(1)
        self.is_served()
        # Replies have 60,000 octets, of which it takes none.
        self.assertTrue(1 <= count() <= 4, count())

    def processor_seconds(self):
        """Returns how long the program has run on a processor."""
        with open(f"/proc/{self.process.pid}/stat", encoding="ascii") as it:
            fields = it.read().rsplit(")", 1)[1].split()
        return sum(map(int, fields[11:13])) / os.sysconf("SC_CLK_TCK")

    def test_no_descriptor_is_left(self):
        self.start("--workers", "1")
        self.is_served()
        limit = self.process.pid, resource.RLIMIT_NOFILE
        soft, hard = resource.prlimit(*limit)
        resource.prlimit(*limit, (3, hard))
        stream = self.tcp()
        stream.sendall(framed(REQUEST))
        self.wait_for("krb_listen: a connection waits: Too many open files: expected ")
        begin = self.processor_seconds()
        time.sleep(3)
        self.assertLess(self.processor_seconds() - begin, 0.5)
        self.assertEqual(self.ask_udp(REQUEST), REQUEST)
        resource.prlimit(*limit, (soft, hard))
        self.assertEqual(answer(stream), REQUEST)
        self.is_served()
        self.assertEqual(self.count_in_log("a connection waits"), 1)

    def descriptors_needed(self, listeners, workers):
        """Returns how many descriptors the program asks for, where it has 300."""
        command = [PROGRAM, *ANY_PORT * listeners, "--workers", str(workers), "--", "cat"]
        limit = resource.RLIMIT_NOFILE, (300, 300)
        ran = subprocess.run(
            [sys.executable, *command], capture_output=True, text=True, timeout=60,
            preexec_fn=lambda: resource.setrlimit(*limit))
        self.assertEqual(ran.returncode, 1)
        return int(re.search(r"expected 1 to 256, and ulimit -Hn of (\d+)", ran.stderr)[1])

    def test_descriptors_are_counted_with_the_listeners(self):
        one = self.descriptors_needed(1, 1)
        self.assertEqual(self.descriptors_needed(41, 1) - one, 80)
        self.assertEqual(self.descriptors_needed(1, 11) - one, 40)
        self.assertGreater(one, 1024)


class Again(Case):
    """Requests of the same octets."""

    def test_within_two_seconds(self):
        self.start("--workers", "2")
        message, count = self.counted("asked")
        begin = time.monotonic()
        replies = [ask(message) for ask in (self.ask_udp, self.ask_tcp) for _ in range(20)]
        self.assertEqual(replies, [message] * 40)
        self.assertTrue(count() == 1 or time.monotonic() - begin > 2, count())
        same = r"krb_listen: \d+ requests were the same as one of the last 2 seconds"
        self.wait_for(same + ", and got its reply")

    def test_on_one_connection(self):
        self.start("--workers", "2")
        message, count = self.counted("asked")
        stream = self.tcp()
        stream.sendall(framed(message) * 500 + framed(REQUEST))
        self.assertEqual([answer(stream) for _ in range(501)], [message] * 500 + [REQUEST])
        self.assertLess(count(), 20)

    def test_later(self):
        self.start("--workers", "2", limits="KEPT_SECONDS=0.3")
        message, count = self.counted("asked")
        for number in range(1, 4):
            self.assertEqual(self.ask_udp(message), message)
            self.assertEqual(count(), number)
            time.sleep(0.5)

    def test_while_one_is_in_work(self):
        self.start("--workers", "4")
        message, count = self.counted("asked", 1)
        clients = [self.udp() for _ in range(10)]
        streams = [self.tcp() for _ in range(10)]
        for it in clients:
            it.send(message)
        for it in streams:
            it.sendall(framed(message))
        self.is_served()
        replies = [it.recv(65536) for it in clients] + [answer(it) for it in streams]
        self.assertEqual(replies, [message] * 20)
        self.assertEqual(count(), 1)

    def test_datagrams_that_wait_for_one_reply(self):
        self.start("--workers", "2", limits="TWINS=3")
        message, count = self.counted("asked", 1)
        clients = [self.udp() for _ in range(5)]
        for it in clients:
            it.send(message)
        time.sleep(0.2)
        self.assertEqual(self.ask_tcp(message), message)
        self.assertEqual([it.recv(65536) for it in clients[:3]], [message] * 3)
        for it in clients[3:]:
            it.settimeout(0.2)
            self.assertRaises(TimeoutError, it.recv, 65536)
        self.assertEqual(count(), 1)

    def test_a_worker_that_ended_meanwhile(self):
        self.start("--workers", "2")
        message = b"end 9 " + os.path.join(self.folder, "ended").encode()
        streams = [self.tcp() for _ in range(5)]
        for it in streams:
            it.sendall(framed(message))
        self.assertEqual([answer(it) for it in streams], [None] * 5)
        self.is_served()

    def test_only_replies_are_kept(self):
        self.start("--workers", "1")
        message, count = self.counted("asked", 0, "nothing")
        for number in range(1, 4):
            self.assertIsNone(self.ask_tcp(message))
            self.assertEqual(count(), number)

    def test_how_many_are_kept(self):
        self.start("--workers", "1", limits="KEPT_REPLIES=2,KEPT_SECONDS=60")
        asked = [self.counted(name) for name in ("a", "b", "c")]
        for message, _ in asked + asked[1:] + asked[:1] + asked[2:]:
            self.assertEqual(self.ask_udp(message), message)
        self.assertEqual([count() for _, count in asked], [2, 1, 1])

    def test_how_many_octets_are_kept(self):
        self.start("--workers", "1", limits="KEPT_OCTETS=10000,KEPT_SECONDS=60")
        sizes = {"a": 4000, "b": 4000, "c": 4000, "d": 20000}
        asked = [self.counted(name, 0, size) for name, size in sizes.items()]
        for message, _ in asked[:3] + asked[1:3] + asked[:1] + asked[3:] * 2:
            self.ask_tcp(message)
        self.assertEqual([count() for _, count in asked], [2, 1, 1, 2])

    def test_octets_are_counted(self):
        kept = krb_listen.Kept()
        for number in range(10):
            kept.keep(b"request%d" % (number % 3), b"x" * number, float(number))
        self.assertEqual(kept.octets, 3 * len(b"request0") + 7 + 8 + 9)
        self.assertEqual(kept.find(b"request0", 9.5), b"x" * 9)
        self.assertIsNone(kept.find(b"request1", 9.5))
        kept.drop_old(9.5)
        self.assertEqual((len(kept.replies), kept.octets), (2, 2 * len(b"request0") + 8 + 9))
        kept.drop_old(99.0)
        self.assertEqual((len(kept.replies), kept.octets), (0, 0))


class LongReplies(Case):
    """Replies that are too long for UDP, in place of which error 52 is sent."""

    REALM = general(b"EXAMPLE.COM")
    GRANTING = sequence(general(b"krbtgt"), general(b"EXAMPLE.COM"))
    SNAME = sequence(der(0xA0, b"\2\1\2"), der(0xA1, GRANTING))
    PVNO = der(0xA0, b"\2\1\5")

    def kdc_rep(self, first, kind):
        """Returns an AS-REP or TGS-REP: its first octet, and its msg-type."""
        realm, sname = der(0xA1, self.REALM), der(0xA2, self.SNAME)
        ticket = der(0x61, sequence(self.PVNO, realm, sname, der(0xA3, sequence(bytes(2000)))))
        msg_type = der(0xA1, b"\2\1" + bytes([kind]))
        crealm, cname = der(0xA3, self.REALM), der(0xA4, sequence(b"\xa0\3\2\1\1"))
        enc_part = der(0xA6, sequence(bytes(4000)))
        body = sequence(self.PVNO, msg_type, crealm, cname, der(0xA5, ticket), enc_part)
        return der(first, body)

    def error(self, *fields, e_data=b""):
        """Returns a KRB-ERROR with realm and sname, after these fields."""
        names = der(0xA9, self.REALM), der(0xAA, self.SNAME)
        return der(0x7E, sequence(*fields, *names, e_data))

    def is_too_big(self, error):
        """All octets of the KRB-ERROR are as they should be, and its time is about now."""
        stime = re.search(rb"\xa4\x11\x18\x0f(\d{14}Z)", error)[1]
        now = time.strftime("%Y%m%d%H%M%SZ", time.gmtime()).encode()
        self.assertTrue(0 <= int(now[:-1]) - int(stime[:-1]) < 100 or now[:8] != stime[:8])
        before = self.PVNO, der(0xA1, b"\2\1\x1e"), der(0xA4, der(0x18, stime))
        code = der(0xA5, b"\2\1\0"), der(0xA6, b"\2\1\x34")
        self.assertEqual(error, self.error(*before, *code))

    def test_error_52_in_place_of_a_long_reply(self):
        error = self.error(self.PVNO, e_data=der(0xAC, bytes(5000)))
        for reply in self.kdc_rep(0x6B, 11), self.kdc_rep(0x6D, 13), error:
            self.is_too_big(krb_listen.too_big(reply))

    def test_over_udp_and_tcp(self):
        self.start("--workers", "1")
        reply = self.kdc_rep(0x6B, 11)
        self.is_too_big(self.ask_udp(b"reply %d %b" % (len(reply), reply)))
        self.assertEqual(self.ask_tcp(b"reply %d %b" % (len(reply), reply)), reply)
        self.assertEqual(len(self.ask_udp(b"reply 4096 x")), 4096)

    def test_reply_that_is_no_message(self):
        self.start("--workers", "1")
        datagrams = self.udp()
        datagrams.send(b"reply 4097 x")
        datagrams.send(REQUEST)
        self.assertEqual(datagrams.recv(65536), REQUEST)
        reply = self.kdc_rep(0x6B, 11)
        for end in range(1, 200):  # the sname ends later
            self.assertIn(krb_listen.too_big(reply[:end])[:1], (b"", b"\x7e"))
        self.assertEqual(krb_listen.too_big(b"\x6b\x80" + bytes(5000)), b"")

    def test_long_names(self):
        for length in 300, 3900:
            self.REALM = general(b"R" * length)
            error = krb_listen.too_big(self.kdc_rep(0x6D, 13))
            self.is_too_big(error)
            self.assertLessEqual(len(error), 4096)

    def test_error_that_is_too_long_itself(self):
        for length in 4090, 4096, 30000, 65000:
            self.REALM = general(b"R" * length)
            self.assertEqual(krb_listen.too_big(self.error()), b"")


class Workers(Case):
    """Workers that end, or write what is no reply."""

    def ending(self, times):
        """Returns a message that ends a worker so many times.

        A call says how often the message was asked.
        """
        path = os.path.join(self.folder, f"counted{times}")

        def count():
            return os.path.getsize(path)

        return b"end %d %b" % (times, path.encode()), count

    def test_message_is_asked_again(self):
        self.start("--workers", "2")
        self.is_served()
        for times in 1, 2:
            message, count = self.ending(times)
            self.assertEqual(self.ask_tcp(message), message)
            self.assertEqual(count(), times + 1)
        self.is_served()
        self.assertEqual(len(self.wait_for("ended with status 3")), 3)

    def test_message_is_asked_at_most_twice_more(self):
        self.start("--workers", "2")
        message, count = self.ending(9)
        self.assertIsNone(self.ask_tcp(message))
        self.assertEqual(count(), 3)
        datagrams = self.udp()
        datagrams.send(message)
        self.is_served()
        self.wait_for("(?s)(ended with status 3.*){6}")
        self.assertEqual(count(), 6)
        self.is_served()
        self.assertIsNone(self.process.poll())

    def test_idle_worker_that_ends(self):
        self.start("--workers", "1")
        self.is_served()
        os.kill(self.workers()[0], signal.SIGKILL)
        self.wait_for("ended with status -9")
        self.is_served()

    def test_what_is_no_frame(self):
        self.start("--workers", "2", limits="SILENT=3")
        self.assertIsNone(self.ask_tcp(b"noise"))
        self.assertIsNone(self.ask_tcp(b"twice"))
        self.is_served()

    def test_two_frames_for_a_message(self):
        """The second comes at once or later. No client gets it: each has its own reply, or none."""
        self.start("--workers", "4")
        told = []  # messages and replies of all clients
        clients = [
            threading.Thread(target=self.ask_doubly, args=(number, time.monotonic() + 8, told))
            for number in range(8)
        ]
        for it in clients:
            it.start()
        for it in clients:
            it.join()
        self.assertEqual([it for it in told if it[1] not in (it[0], None)], [])
        self.assertGreater(sum(reply is not None for _, reply in told), 20)
        self.is_served()

    def ask_doubly(self, number, until, told):
        """Asks for two frames, and then for one, until this moment."""
        while time.monotonic() < until:
            turn = len(told)
            seconds = (0, 0.0001, 0.001, 0.02, 0.3)[turn % 5]
            doubly = b"double %f %d %d" % (seconds, number, turn)
            for message in doubly, b"own %d %d" % (number, turn):
                told.append((message, self.ask_tcp(message)))

    def test_late_frame_of_a_worker_alone(self):
        """A second frame comes while another client's message waits, which doesn't get it."""
        self.start("--workers", "1")
        asking, other = self.udp(), self.udp()
        for number in range(20):
            messages = b"double 0.002 %d" % number, b"own %d" % number
            asking.send(messages[0])
            other.send(messages[1])
            self.assertEqual((asking.recv(65536), other.recv(65536)), messages)

    def write_command(self, path, line):
        """Replaces a command by a script of this line."""
        with open(path + ".new", "w", encoding="ascii") as it:
            it.write(f"#!/bin/sh\n{line}\n")
        os.chmod(path + ".new", 0o755)
        os.rename(path + ".new", path)

    def test_failing_starts_wait_longer_each_time(self):
        folder = self.temporary()
        command = os.path.join(folder, "command")
        sound = f"exec {sys.executable} {folder}/stub.py"
        with open(os.path.join(folder, "stub.py"), "w", encoding="ascii") as it:
            it.write(STUB)
        self.write_command(command, sound)
        self.start("--workers", "3", command=[command])
        self.is_served()
        for it in self.workers():
            os.kill(it, signal.SIGKILL)
        self.write_command(command, "echo accounts.cdb: no such file >&2; exit 1")
        self.wait_for("(?s)the next one comes in 1 seconds.*in 2 seconds")
        os.unlink(command)
        self.wait_for("in 4 seconds")
        self.assertEqual(self.count_in_log("accounts.cdb: no such file"), 1)
        self.assertLess(self.count_in_log("\n"), 20)
        self.write_command(command, sound)
        self.is_served()
        self.assertIsNone(self.process.poll())

    def test_worker_that_doesnt_answer(self):
        self.start("--workers", "2", limits="SILENT=1,TICK=0.1")
        stream = self.tcp()
        stream.sendall(framed(b"sleep 60"))
        self.is_served()
        self.assertIsNone(answer(stream))
        self.wait_for("ended with status -9")
        self.is_served()

    def test_one_message_in_flight_for_each(self):
        self.start("--workers", "4")
        begin = time.monotonic()
        clients = [(self.udp(), b"sleep 0.5%d" % number) for number in range(8)]
        for it, message in clients:
            it.send(message)
        for it, message in clients:
            self.assertEqual(it.recv(65536), message)
        self.assertTrue(0.99 < time.monotonic() - begin < 5)


class Log(Case):
    """The log, and where it can't be written."""

    def test_lines_have_the_address(self):
        self.start("--workers", "4", hosts=("127.0.0.1", "[::1]"))
        clients = [self.udp() for _ in range(50)]
        streams = [self.tcp(host="::1", port=self.ports[1]) for _ in range(10)]
        for number, it in enumerate(clients):
            it.send(b"say number %d" % number)
        for number, it in enumerate(streams):
            it.sendall(framed(b"say stream %d" % number))
        for number, it in enumerate(clients):
            it.recv(65536)
            line = f"127.0.0.1:{it.getsockname()[1]} udp number {number}\n"
            self.assertIn(line, self.read_log())
        for number, it in enumerate(streams):
            answer(it)
            line = f"[::1]:{it.getsockname()[1]} tcp stream {number}\n"
            self.assertIn(line, self.read_log())

    def test_control_characters_are_hidden(self):
        self.start()
        self.ask_udp(b"say a\r\x1b[2J\x7f\xffb")
        self.wait_for(r" udp a\?\?\[2J\?\\xffb\n")

    def test_idle_workers_that_say_the_same(self):
        saying = "import os\nos.write(2, b'readable by others\\n')\n"
        self.start("--workers", "4", command=[sys.executable, "-c", saying + STUB])
        self.wait_for("readable by others\n")
        self.is_served()
        time.sleep(2)
        self.assertEqual(self.count_in_log("readable by others\n"), 1)

    def test_several_and_long_lines(self):
        self.start("--workers", "1")
        self.ask_udp(b"say one\ntwo")
        self.ask_tcp(b"say " + b"x" * 60000)
        self.assertEqual(self.count_in_log(" udp (?:one|two)\n"), 2)
        self.wait_for(r" tcp x{60000}\n")

    def test_pipe_that_nobody_reads(self):
        reader, writer = os.pipe()
        count = 3000
        with open(reader, "rb", buffering=0) as reader:
            self.start_with(writer)
            said = reader.read(65536)
            self.port = int(re.search(rb"port (\d+)\n", said)[1])
            self.ask_long_lines(count)
            self.assertTrue(os.get_blocking(reader.fileno()))
            os.set_blocking(reader.fileno(), False)
            said = self.read_up_to_loss(reader, said)
        lines_lost = rb"krb_listen: (\d+) lines of the log were lost: it could not be written\n"
        lost = int(re.search(lines_lost, said)[1])
        self.assertEqual(said.count(b"x" * 200) + lost, count)
        self.assertGreater(lost, 0)
        self.assertFalse(re.search(rb"[^\n]krb_listen: |x127", said), "a torn line")

    def ask_long_lines(self, count):
        """Has so many lines of over 200 octets logged."""
        datagrams = self.udp()
        for number in range(count):
            message = b"say %b %d" % (b"x" * 200, number)
            datagrams.send(message)
            self.assertEqual(datagrams.recv(65536), message)

    def read_up_to_loss(self, reader, said):
        """Returns the log up to the line that says how many were lost."""
        until = time.monotonic() + 20
        while not re.search(rb"krb_listen: \d+ lines of the log were lost", said):
            self.assertLess(time.monotonic(), until)
            said += reader.read(65536) or b""
            time.sleep(0.05)
        return said

    def start_with(self, error):
        """Starts the program with this standard error, which others share.

        Whether they wait when they write to it stays theirs.
        """
        command = sys.executable, PROGRAM, *ANY_PORT, "--workers", "1", "--", *WORKER
        self.process = subprocess.Popen(command, stderr=error)
        self.addCleanup(self.end)
        self.addCleanup(os.close, error)
        self.addCleanup(lambda: self.assertTrue(os.get_blocking(error)))

    def test_socket_that_nobody_reads(self):
        for kind in socket.SOCK_STREAM, socket.SOCK_DGRAM:
            ours, other = socket.socketpair(socket.AF_UNIX, kind)
            self.start_with(os.dup(other.fileno()))
            ours.settimeout(20)
            self.port = int(re.search(rb"port (\d+)\n", ours.recv(65536))[1])
            self.ask_long_lines(3000)
            ours.close()
            other.close()
            self.end()

    def test_file_is_opened_again(self):
        folder = self.temporary()
        path = os.path.join(folder, "krb_listen.log")
        self.start("--log", path, "--workers", "1")
        self.ask_udp(b"say one")
        os.rename(path, path + ".1")
        self.ask_udp(b"say two")
        self.process.send_signal(signal.SIGHUP)
        self.wait_until(lambda: os.path.exists(path))
        self.ask_udp(b"say three")
        for name, lines in (path + ".1", ["one", "two"]), (path, ["three"]):
            with open(name, encoding="ascii") as it:
                self.assertEqual(re.findall(" udp (.*)\n", it.read()), lines)
        self.assertEqual(stat.S_IMODE(os.stat(path).st_mode) & 0o137, 0)

    def test_file_that_cannot_be_opened_again(self):
        folder = self.temporary()
        self.start("--log", os.path.join(folder, "krb_listen.log"), "--workers", "1")
        os.rename(folder, folder + ".away")
        self.addCleanup(os.rename, folder + ".away", folder)
        self.process.send_signal(signal.SIGHUP)
        time.sleep(2)
        self.ask_udp(b"say four")
        fault = r"--log .*: No such file or directory: expected .*\n.* udp four\n"
        with open(os.path.join(folder + ".away", "krb_listen.log"), encoding="ascii") as it:
            self.assertRegex(it.read(), fault)

    def test_hangup_without_a_file(self):
        self.start()
        self.process.send_signal(signal.SIGHUP)
        time.sleep(0.5)
        self.is_served()


class Ends(Case):
    """How the program ends."""

    def test_replies_in_flight_are_sent(self):
        for number in signal.SIGTERM, signal.SIGINT:
            self.start("--workers", "2")
            (idle,), stream, datagrams = self.held(1), self.tcp(), self.udp()
            stream.sendall(framed(b"sleep 1.5") + framed(REQUEST))
            datagrams.send(b"sleep 1.50")
            time.sleep(0.3)
            self.process.send_signal(number)
            self.assertEqual(answer(stream), b"sleep 1.5")
            self.assertEqual(datagrams.recv(65536), b"sleep 1.50")
            self.assertEqual((answer(stream), answer(idle)), (None, None))
            self.assertEqual(self.process.wait(20), 0)
            # What idle workers say is logged once.
            self.assertEqual(self.count_in_log(r"worker \d+: input ended\n"), 1)
            self.assertNotIn("Traceback", self.read_log())

    def test_workers_that_dont_end(self):
        sleeping = "import os, time\nos.write(2, b'there\\n')\ntime.sleep(60)"
        command = sys.executable, "-c", sleeping
        self.start("--workers", "4", limits="END=3", command=command)
        self.wait_for("there\n")
        time.sleep(1)
        workers = self.workers()
        self.assertEqual(len(workers), 4)
        begin = time.monotonic()
        self.process.terminate()
        self.assertEqual(self.process.wait(20), 0)
        self.assertTrue(2.9 < time.monotonic() - begin < 10)
        for worker in workers:
            self.assertFalse(os.path.exists(f"/proc/{worker}"))

    def test_port_is_free_after_the_end(self):
        self.start()
        self.is_served()
        self.process.terminate()
        self.assertEqual(self.process.wait(20), 0)
        for kind in socket.SOCK_STREAM, socket.SOCK_DGRAM:
            with socket.socket(socket.AF_INET, kind) as it:
                it.setsockopt(socket.SOL_SOCKET, socket.SO_REUSEADDR, 1)
                it.bind(("127.0.0.1", self.port))

    def test_workers_end_where_it_is_killed(self):
        self.start("--workers", "2")
        self.is_served()
        workers = self.workers()
        self.assertEqual(len(workers), 2)
        self.process.kill()
        self.wait_until(lambda: not any(map(runs, workers)))


# Takes the place of systemd: binds sockets, and runs the arguments, to which it hands them over.
HANDING = """
import os
import socket
import sys

stream = socket.create_server(("127.0.0.1", 0))
datagrams = socket.socket(socket.AF_INET, socket.SOCK_DGRAM)
datagrams.bind(("127.0.0.1", 0))
for number, it in (10, stream), (11, datagrams):
    os.dup2(it.detach(), number)
for number in 3, 4:
    os.dup2(7 + number, number)
    os.close(7 + number)
os.environ.update(LISTEN_PID=str(os.getpid()), LISTEN_FDS="2")
os.execvp(sys.argv[1], sys.argv[1:])
"""
# Part of a worker that says which variables of systemd it has.
TELLING = """
import os
names = sorted(name for name in os.environ if name.startswith("LISTEN"))
os.write(2, repr(names).encode() + b"\\n")
"""


class HandedOver(Case):
    """Sockets that another process bound."""

    def port_of(self, protocol):
        """Returns the port of a socket that was handed over, once the log has it."""
        found = self.wait_for(rf"handed over: {protocol}, 127.0.0.1, port (\d+)\n")
        return int(found[0])

    def test_sockets_of_systemd(self):
        self.folder = self.temporary()
        self.log = os.path.join(self.folder, "log")
        handing = sys.executable, "-c", HANDING
        worker = sys.executable, "-c", TELLING + STUB
        self.start_logging([*handing, sys.executable, PROGRAM, "--workers", "1", "--", *worker])
        self.assertEqual(self.ask_tcp(REQUEST, port=self.port_of("TCP")), REQUEST)
        self.assertEqual(self.ask_udp(REQUEST, port=self.port_of("UDP")), REQUEST)
        self.wait_for(r"\[\]\n")
        folder = f"/proc/{self.workers()[0]}/fd"
        files = [os.readlink(f"{folder}/{it}") for it in os.listdir(folder)]
        self.assertFalse([it for it in files if "socket" in it], files)

    def test_what_is_no_number_of_sockets(self):
        script = 'export LISTEN_PID=$$ LISTEN_FDS="$1"; shift; exec "$@"'
        for count in "x", "", "1.5", "1", "99999999999":  # descriptor 3 isn't open
            command = ["sh", "-c", script, "sh", count, sys.executable, PROGRAM, "--", "cat"]
            ran = subprocess.run(command, capture_output=True, text=True, timeout=60)
            self.assertRegex(ran.stderr, rf"^krb_listen: LISTEN_FDS={count}: expected .*\n$")
            self.assertEqual(ran.returncode, 1)


def run(program, *words):
    """Returns the status of a program in Python, its standard output and its standard error."""
    command = [sys.executable, program, *words]
    ran = subprocess.run(command, capture_output=True, text=True, timeout=60)
    return ran.returncode, ran.stdout, ran.stderr


class Manners(unittest.TestCase):
    """Arguments, and what ends the program at its start."""

    def is_refused(self, wanted, *words):
        """The program ends with status 1, and one line that begins so."""
        status, said, line = run(PROGRAM, *words)
        lines = [it for it in line.splitlines() if ": TCP and UDP, port " not in it]
        self.assertEqual((status, said, len(lines)), (1, "", 1), line)
        self.assertRegex(lines[0], f"^krb_listen: {wanted}.*expected ")

    def test_help_and_version(self):
        status, said, _ = run(PROGRAM, "--help")
        self.assertEqual(status, 0)
        self.assertIn("usage: krb_listen --listen ADDRESS:PORT", said)
        with open(os.path.join(HERE, "..", "CHANGELOG.md"), encoding="utf-8") as it:
            newest, *older = re.findall(r"^## (?:Unreleased|([\d.]+) - .*)$", it.read(), re.M)
        version = newest or "unreleased, after " + older[0]
        self.assertEqual(run(PROGRAM, "--version"), (0, f"krb_listen {version}\n", ""))

    def test_arguments(self):
        cat = "--", "cat"
        self.is_refused("the following arguments are required: COMMAND")
        self.is_refused("--listen is missing", *cat)
        log = "--log", "/no/folder/log"
        self.is_refused("--log /no/folder/log: No such file", *ANY_PORT, *log, *cat)
        self.is_refused("unrecognized arguments: --other", *ANY_PORT, "--other", *cat)
        invalid = "argument --workers: invalid int value: 'x'"
        self.is_refused(invalid, *ANY_PORT, "--workers", "x", *cat)

    def test_addresses(self):
        words = "88", "localhost:88", "127.0.0.1", "127.0.0.1:", "127.0.0.1:65536", "127.0.0.1:x"
        for word in *words, "::g:1", "192.0.2.77:0", ":0":
            self.is_refused(f"--listen {re.escape(word)}: ", "--listen", word, "--", "cat")

    def test_numbers_of_workers(self):
        for word in "0", "257", "-1":
            workers = f"--workers={word}"
            self.is_refused(f"--workers {word}: ", *ANY_PORT, workers, "--", "cat")

    def is_in_use(self, it):
        """An address that this socket has is refused."""
        word = f"127.0.0.1:{it.getsockname()[1]}"
        self.is_refused(f"--listen {word}: .*in use", "--listen", word, "--", "cat")

    def test_port_in_use(self):
        with socket.create_server(("127.0.0.1", 0)) as it:
            self.is_in_use(it)
        with socket.socket(socket.AF_INET, socket.SOCK_DGRAM) as it:
            it.bind(("127.0.0.1", 0))
            self.is_in_use(it)

    def test_command(self):
        self.is_refused("/no/program: No such file", *ANY_PORT, "--", "/no/program")

    def test_command_that_ends_is_one_line(self):
        fault = "sh ended with status 1 before any reply"
        script = "--", "sh", "-c", "echo accounts.cdb: no such file >&2; exit 1"
        for workers in "1", "4", "64":
            wanted = f"{fault}, and said: accounts.cdb: no such file: "
            self.is_refused(wanted, *ANY_PORT, "--workers", workers, *script)
        silent = "--", "sh", "-c", "exit 1"
        self.is_refused(f"{fault}: ", *ANY_PORT, "--workers", "4", *silent)

    def test_secrets_of_the_command_arent_shown(self):
        _, said, line = run(PROGRAM, *ANY_PORT, "--", "sh", "-c", "exit 1 # secret")
        self.assertNotIn("secret", said + line)


CONNECT = os.path.join(HERE, "krb_connect")
# A command that sends a message, and ends with status 7 where it gets no reply.
ASKING = r"""
import sys
sys.stdout.buffer.write(b"\0\0\0\1q")
sys.stdout.flush()
sys.exit(0 if sys.stdin.buffer.read(5) else 7)
"""


def serve_all(acceptor, serve):
    """Serves connections up to the end of their socket."""
    with contextlib.suppress(OSError):
        while True:
            stream, _ = acceptor.accept()
            with stream:
                serve(stream)


def reply(stream):
    """A KDC that replies."""
    stream.recv(99)
    stream.sendall(b"\0\0\0\1r")


def close(stream):
    """A KDC that closes the connection without a reply."""
    stream.recv(99)


def trickle(stream):
    """A KDC that sends ten octets a second of a reply of 256."""
    stream.recv(99)
    stream.sendall(b"\0\0\1\0")
    with contextlib.suppress(OSError):
        while True:
            time.sleep(0.1)
            stream.sendall(b"x")


class Connect(unittest.TestCase):
    """krb_connect, before KDCs that are a thread."""

    def kdc(self, serve):
        """Returns HOST:PORT of a KDC that serves its connections so."""
        acceptor = socket.create_server(("127.0.0.1", 0))
        self.addCleanup(acceptor.close)
        threading.Thread(target=serve_all, args=(acceptor, serve), daemon=True).start()
        return f"127.0.0.1:{acceptor.getsockname()[1]}"

    def ask(self, *words):
        """Returns how krb_connect with these arguments ends, which asks one message."""
        return run(CONNECT, *words, "--", sys.executable, "-c", ASKING)

    def is_refused(self, *words):
        """These arguments end with status 2 and one line."""
        status, said, line = run(CONNECT, *words)
        self.assertEqual((status, said, line.count("\n")), (2, "", 1), words)
        self.assertRegex(line, "^krb_connect: .*expected ")

    def test_help_and_version(self):
        for word in "--help", "-h":
            status, said, line = run(CONNECT, word)
            self.assertEqual((status, line), (0, ""))
            self.assertIn("usage: krb_connect ", said)
        self.assertEqual(run(CONNECT, "--version"), (0, f"krb_connect {krb_listen.VERSION}\n", ""))

    def test_arguments(self):
        cat = "--", "cat"
        for words in (), cat, ("h", "--"), ("--other", "h", *cat), ("--", "h", *cat):
            self.is_refused(*words)
        for seconds in "x", "0", "-1", "nan", "inf":
            self.is_refused("--seconds", seconds, "h", *cat)
        self.is_refused("--seconds", *cat)
        for port in "0", "65536", "99999", "9" * 5000:
            self.is_refused(f"127.0.0.1:{port}", *cat)

    def test_first_that_answers(self):
        self.assertEqual(self.ask(self.kdc(reply)), (0, "", ""))
        status, _, said = self.ask("127.0.0.1:1", self.kdc(close), self.kdc(reply))
        self.assertEqual(status, 0)
        refused, closed = said.splitlines()
        self.assertRegex(refused, "^krb_connect: 127.0.0.1:1: .*refused")
        self.assertRegex(closed, "^krb_connect: 127.0.0.1:.*: .*expected a whole reply$")

    def test_limit_of_the_whole(self):
        begin = time.monotonic()
        status, _, said = self.ask("--seconds", "1.5", self.kdc(trickle), self.kdc(trickle))
        self.assertEqual(status, 7)  # the command's
        self.assertTrue(1.4 < time.monotonic() - begin < 10)
        self.assertRegex(said, "krb_connect: 127.0.0.1:\\d+: .*within 1.5 seconds in all")

    def test_one_that_is_silent_leaves_time_for_the_next(self):
        status, _, _ = self.ask("--seconds", "4", self.kdc(trickle), self.kdc(reply))
        self.assertEqual(status, 0)


if __name__ == "__main__":
    unittest.main()
