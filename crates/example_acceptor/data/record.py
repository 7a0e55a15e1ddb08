#!/usr/bin/env python3
"""Records the run that the gate repeats: record.py REALM, the built krb_realmd. It needs krb5-user, krb5-gss-samples, python3-gssapi,
gss-ntlmssp, socat and faketime.

MIT's kinit gets a ticket from the realm of settings.toml, and MIT's gss-client logs in twice, by Kerberos itself and through SPNEGO. Then
examples/ntlm_first.py logs in through SPNEGO, where Kerberos isn't first. All clocks stand. The acceptor is written here, over the writer
in crates/replay_crypto/data, and shares no code with the program. `host.keytab` has the service's key. `stdin` is what the clients sent, and `stdout` what they were given: it ends well only if it verified each of those tokens.
"""
import os, socket, struct, subprocess, sys, tempfile, time

HERE = os.path.dirname(os.path.abspath(__file__))
sys.path.insert(0, f"{HERE}/../../replay_crypto/data")
from first_tokens import ACCEPT_COMPLETED, ACCEPT_INCOMPLETE, KRB5, REQUEST_MIC, Login, response
from tokens import ACCEPTOR, SUITES, End

MOMENT, CLOCK, LATER = "20261127120000Z", "2026-11-27 12:00:00", "2026-11-27 12:00:01"
CONF = """[libdefaults]
default_realm = EXAMPLE.COM
dns_lookup_kdc = false
dns_canonicalize_hostname = false
rdns = false
udp_preference_limit = 1
[realms]
EXAMPLE.COM = {{
    kdc = 127.0.0.1:{port}
}}
"""
SERVICE_KEY = bytes.fromhex("5d0e7c1f83a94b26e7f0c5d1a8b3924e6f17c8d05b2a93e4f6d7c8b9a0e1f203")
NOOP, CONTEXT, MIC, CONTEXT_NEXT, WRAPPED, SEND_MIC = 1, 2, 8, 16, 32, 128


def element(octets):
    """The content of the first element, and what follows it."""
    size, at = octets[1], 2
    if size & 0x80:
        at += size & 0x7F
        size = int.from_bytes(octets[2:at], "big")
    return octets[at : at + size], octets[at + size :]


def fields(octets):
    """The elements in explicit tags of a SEQUENCE, by their tags' numbers."""
    found, rest = {}, element(octets)[0]
    while rest:
        content, behind = element(rest)
        found[rest[0] & 0x1F] = content
        rest = behind
    return found


def number(octets):
    return int.from_bytes(element(octets)[0], "big")


def opened(data, key, usage):
    """What is encrypted, without its application tag."""
    data = fields(data)
    return element(SUITES[number(data[0])].decrypt(key, usage, element(data[2])[0]))[0]


def accept(token, words):
    """The answer to a first token, and the acceptor's end."""
    content = element(token)[0]
    if element(content)[0] == bytes.fromhex("2b0601050502"):
        offer = fields(element(element(content)[1])[0])
        mechanism = element(element(offer[0])[0])[0]
        answer, end = accept(element(offer[2])[0], words)
        return response(ACCEPT_COMPLETED, mechanism, answer), end
    request = fields(element(element(content)[1][2:])[0])
    ticket = fields(opened(fields(element(request[3])[0])[3], SERVICE_KEY, 2))
    session = fields(ticket[1])
    login = Login(number(session[0]))
    login.session = element(session[1])[0]
    own = fields(opened(request[4], login.session, 11))
    login.micros, login.time = number(own[4]), element(own[5])[0].decode()
    subkey = fields(own[6])
    first = number(own[7])
    return login.reply(words), End(number(subkey[0]), element(subkey[1])[0], ACCEPTOR, False, 0, first)


class Negotiation:
    """A negotiation in which Kerberos isn't the first mechanism: its token and MICs of the list are asked for, in this order."""

    def __init__(self):
        self.list = self.end = None

    def answer(self, token, words):
        """The answer to a token, and the acceptor's end once it is established."""
        if self.list is None:
            offer = fields(element(element(element(token)[0])[1])[0])
            self.list = offer[0]
            return response(REQUEST_MIC, KRB5), None
        tokens = fields(element(token)[0])
        if self.end is None:
            reply, self.end = accept(element(tokens[2])[0], words)
            mic = self.end.sent(lambda it: self.end.own.mic(it, self.list))[1]
            return response(ACCEPT_INCOMPLETE, token=reply, mic=mic), None
        assert self.end.take_mic(self.list, element(tokens[3])[0]) == "ok"
        return b"", self.end


def keytab():
    """A keytab of the service's key, with kvno 1 (MIT's file keytab format, version 0x0502)."""
    def counted(octets):
        return len(octets).to_bytes(2, "big") + octets

    body = (2).to_bytes(2, "big") + b"".join(map(counted, (b"EXAMPLE.COM", b"host", b"server.example.com")))
    body += struct.pack(">IIBH", 1, 1_795_780_800, 1, 18) + counted(SERVICE_KEY) + struct.pack(">I", 1)
    return b"\5\2" + struct.pack(">i", len(body)) + body


def frame(flags, token=b""):
    return bytes([flags]) + len(token).to_bytes(4, "big") + token


def serve(peer, words, sent, given, negotiation=None):
    """Answers a connection as gss-server does, and adds what came and went. Each token of a login has 64 of the random octets."""
    stream, end = peer.makefile("rb"), None
    while head := stream.read(5):
        token = stream.read(int.from_bytes(head[1:], "big"))
        sent += head + token
        answer = b""
        if head[0] & CONTEXT:
            token, end = negotiation.answer(token, words[:64]) if negotiation else accept(token, words[:64])
            words = words[64:]
            answer = frame(CONTEXT, token) if token else b""
        elif not head[0] & NOOP:
            message = end.take_wrap(token)[1] if head[0] & WRAPPED else token
            answer = frame(MIC, end.sent(lambda it: end.own.mic(it, message))[1]) if head[0] & SEND_MIC else frame(NOOP)
        peer.sendall(answer)
        given += answer


def main():
    room = tempfile.mkdtemp()
    listener = socket.create_server(("127.0.0.1", 0))
    with socket.socket() as it:
        it.bind(("127.0.0.1", 0))
        port = it.getsockname()[1]
    with open(f"{room}/krb5.conf", "w") as it:
        it.write(CONF.format(port=port))
    os.environ.update(KRB5_CONFIG=f"{room}/krb5.conf", KRB5CCNAME=f"FILE:{room}/tickets", TZ="UTC")
    realm = f"EXEC:{os.path.abspath(sys.argv[1])} {HERE}/settings.toml /dev/urandom {MOMENT}"
    bridge = subprocess.Popen(["socat", f"TCP-LISTEN:{port},bind=127.0.0.1,fork,reuseaddr", realm])
    try:
        time.sleep(2)
        at = ["faketime", "-f", CLOCK]
        subprocess.run([*at, "kinit", "user"], input=b"correct horse battery staple\n", check=True)
        with open(f"{HERE}/words", "rb") as it:
            words = it.read()
        sent, given = bytearray(), bytearray()
        for turn, options in enumerate((["-mcount", "2"], ["-spnego", "-nx"])):
            asked = [*at, "gss-client", "-port", str(listener.getsockname()[1]), *options, "127.0.0.1", "host@server.example.com", "a message"]
            client = subprocess.Popen(asked)
            serve(listener.accept()[0], words[64 * turn :], sent, given)
            assert client.wait() == 0
        # A second later: at a clock that stands, the authenticator of each process that has its ticket is of the same microsecond.
        asked = ["faketime", "-f", LATER, f"{HERE}/../../../examples/ntlm_first.py", "-port", str(listener.getsockname()[1]), "127.0.0.1", "host@server.example.com", "a message"]
        client = subprocess.Popen(asked)
        serve(listener.accept()[0], words[128:], sent, given, Negotiation())
        assert client.wait() == 0
    finally:
        bridge.terminate()
    for name, octets in ("stdin", sent), ("stdout", given), ("data/host.keytab", keytab()):
        with open(f"{HERE}/../{name}", "wb") as it:
            it.write(octets)


main()
