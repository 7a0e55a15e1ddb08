#!/usr/bin/env python3
"""A server of MIT's sample protocol, as gss-server, over a GSS-API library: gss_server.py [--bindings DATA] [--port PORT] LIBRARY

LIBRARY is MIT's libgssapi_krb5.so.2 or Heimdal's libgssapi.so.3, of which Debian has no such server. KRB5_KTNAME names the keytab. With
--bindings a login has to have channel bindings of this application data. It serves one connection after the other on 127.0.0.1, and says
on standard output who logged in, what was received, and why a login was refused.
"""
import argparse, ctypes, socket, sys
from ctypes import POINTER, Structure, byref, c_char_p, c_int, c_size_t, c_uint32, c_void_p, string_at

NOOP, CONTEXT, MIC, CONTEXT_NEXT, WRAPPED, SEND_MIC = 1, 2, 8, 16, 32, 128
CONTINUE_NEEDED, CALLING, ROUTINE = 1, 0xFF000000, 0x00FF0000


class Buffer(Structure):
    _fields_ = [("length", c_size_t), ("value", c_void_p)]

    @staticmethod
    def of(octets):
        made = Buffer(len(octets), ctypes.cast(c_char_p(octets), c_void_p))
        made.octets = octets
        return made

    def take(self):
        return string_at(self.value, self.length) if self.length else b""


class Bindings(Structure):
    _fields_ = [
        ("initiator_addrtype", c_uint32),
        ("initiator_address", Buffer),
        ("acceptor_addrtype", c_uint32),
        ("acceptor_address", Buffer),
        ("application_data", Buffer),
    ]


class Refused(Exception):
    pass


class Acceptor:
    def __init__(self, library, bindings):
        self.gss = ctypes.CDLL(library)
        self.bindings = None
        if bindings is not None:
            self.bindings = Bindings(0, Buffer(), 0, Buffer(), Buffer.of(bindings.encode()))

    def call(self, name, *arguments):
        """The result of a function, whose first argument is the minor status."""
        minor = c_uint32()
        major = getattr(self.gss, name)(byref(minor), *arguments) & 0xFFFFFFFF
        if major & (CALLING | ROUTINE):
            raise Refused("; ".join(self.text(*it) for it in ((major, 1), (minor.value, 2))))
        return major

    def text(self, status, kind):
        minor, more, buffer = c_uint32(), c_uint32(), Buffer()
        self.gss.gss_display_status(byref(minor), c_uint32(status), c_int(kind), None, byref(more), byref(buffer))
        return buffer.take().decode(errors="replace")

    def accept(self, stream):
        """The context of a login, and the client's name."""
        context, name, goes_on = c_void_p(), c_void_p(), True
        while goes_on:
            token, answer = Buffer.of(stream.token(CONTEXT)), Buffer()
            given = byref(self.bindings) if self.bindings else None
            try:
                major = self.call("gss_accept_sec_context", byref(context), None, byref(token), given, byref(name), None, byref(answer), None, None, None)
            finally:
                if answer.length:
                    stream.send(CONTEXT, answer.take())
            goes_on = major & CONTINUE_NEEDED
        shown = Buffer()
        self.call("gss_display_name", name, byref(shown), None)
        return context, shown.take().decode()

    def unwrap(self, context, token):
        message, sealed = Buffer(), c_int()
        self.call("gss_unwrap", context, byref(Buffer.of(token)), byref(message), byref(sealed), None)
        return message.take(), bool(sealed.value)

    def mic(self, context, message):
        token = Buffer()
        self.call("gss_get_mic", context, c_int(0), byref(Buffer.of(message)), byref(token))
        return token.take()


class Stream:
    def __init__(self, peer):
        self.peer, self.reader = peer, peer.makefile("rb")

    def frame(self):
        head = self.reader.read(5)
        if len(head) < 5:
            raise Refused("the stream ends")
        return head[0], self.reader.read(int.from_bytes(head[1:], "big"))

    def token(self, flag):
        flags, token = self.frame()
        if not flags & flag:
            raise Refused(f"a frame with the flags {flags}")
        return token

    def send(self, flags, token=b""):
        self.peer.sendall(bytes([flags]) + len(token).to_bytes(4, "big") + token)


def serve(acceptor, stream):
    stream.token(CONTEXT_NEXT)
    context, name = acceptor.accept(stream)
    print(f"{name} logged in")
    while True:
        flags, token = stream.frame()
        if flags & NOOP:
            return
        message, how = token, "bare"
        if flags & WRAPPED:
            message, is_sealed = acceptor.unwrap(context, token)
            how = "sealed" if is_sealed else "checksum"
        print(f"received, {how}: {message.decode(errors='replace')}")
        stream.send(MIC, acceptor.mic(context, message)) if flags & SEND_MIC else stream.send(NOOP)


def main():
    parser = argparse.ArgumentParser()
    parser.add_argument("--bindings")
    parser.add_argument("--port", type=int, default=4444)
    parser.add_argument("library")
    asked = parser.parse_args()
    sys.stdout.reconfigure(line_buffering=True)
    acceptor = Acceptor(asked.library, asked.bindings)
    with socket.create_server(("127.0.0.1", asked.port)) as listener:
        while True:
            peer, _address = listener.accept()
            with peer:
                try:
                    serve(acceptor, Stream(peer))
                except Refused as cause:
                    print(f"refused: {cause}")


main()
