#!/usr/bin/env python3
"""Writes initiators.txt: the first tokens of initiators (RFC 4121, section 4.1; RFC 4178, section 4.2.1), the answers to them, and what
becomes of each.

This is an independent writer, as first_tokens.py in this folder, whose messages it uses. It shares no code with the program that replays
the file. Keys and random octets are fixed, so each run writes the same file. Each outcome stands here by name.

Run it in this folder: python3 initiators.py
"""
import hashlib

from first_tokens import (
    ACCEPT_COMPLETED, ACCEPT_INCOMPLETE, CLIENT, KRB5, KRBTGT, MS_KRB5, MUTUAL_REQUIRED, NTLM, REALM, REJECT, REQUEST_MIC, SERVICE,
    TOKEN_ID_AP_REP, TOKEN_ID_AP_REQ, application, bits, changed, checksum, der, encrypted, generalized, integer, key_of, mech_types, name,
    negotiated, octet_string, oid, response, sequence, text,
)
from tokens import ACCEPTOR, INITIATOR, KEY_SIZES, SUITES, Writer, check_against_the_standards, octets

TOKEN_ID_ERROR = b"\x03\x00"
MUTUAL, NOW = 2, "20260101120000Z"
# All that is offered, and the same without mutual authentication.
FLAGS, ALONE = 0x3E, 0x3C
LIST = mech_types(KRB5)
lines = []


def shown(them):
    return them.hex() or "-"


def section(title):
    lines.append(f"# {title}")


def bindings_of(data):
    """The MD5 hash of channel bindings that are application data alone, and zeros without bindings (RFC 4121, section 4.1.1.2)."""
    if data is None:
        return bytes(16)
    numbers = [0, 0, 0, 0, len(data)]
    return hashlib.md5(b"".join(number.to_bytes(4, "little") for number in numbers) + data).digest()


class Asking:
    """An initiator that asks for a context. Of its 96 random octets the first 16 are the confounder, 31 bits of the next four the first
    sequence number, and the subkey's seed begins at 32. `hands_on`: a forwarded ticket of this size that it delegates, with its key's suite and
    its flags. The KRB-CRED's confounder begins at 64."""

    count = 0

    def __init__(self, suite, flags=FLAGS, bindings=None, form="Bare", time=NOW, hands_on=None):
        Asking.count += 1
        self.suite, self.flags, self.bindings, self.form, self.time = suite, flags, bindings, form, time
        self.words = octets(f"initiator's words {Asking.count}", 96)
        self.session = octets(f"initiator's session {Asking.count}", KEY_SIZES[suite])
        self.subkey = self.words[32 : 32 + KEY_SIZES[suite]]
        self.number = int.from_bytes(self.words[16:20], "big") % 2**31
        # The ticket is opaque to the client.
        sealed = sequence((0, integer(suite)), (1, integer(1)), (2, octet_string(octets(f"ticket {Asking.count}", 60))))
        self.ticket = application(1, (0, integer(5)), (1, text(REALM)), (2, name(*SERVICE)), (3, sealed))

        self.hands_on = hands_on
        if hands_on:
            size, kind, _ = hands_on
            sealed = sequence((0, integer(kind)), (1, integer(1)), (2, octet_string(octets(f"forwarded {Asking.count}", size))))
            self.forwarded = application(1, (0, integer(5)), (1, text(REALM)), (2, name(*KRBTGT)), (3, sealed))
            self.forwarded_key = octets(f"forwarded key {Asking.count}", KEY_SIZES[kind])

    def krb_cred(self):
        """The KRB-CRED, whose ticket's times are all those of initiate.rt."""
        _, kind, flags = self.hands_on
        time = generalized("20260101110000Z")
        info = sequence(
            (0, key_of(kind, self.forwarded_key)), (1, text(REALM)), (2, name(*CLIENT)), (3, bits(flags)), (4, time), (5, time), (6, time),
            (8, text(REALM)), (9, name(*KRBTGT)),
        )
        sealed = encrypted(self.suite, self.session, 14, self.words[64:80], application(29, (0, der(0x30, info))))
        return application(22, (0, integer(5)), (1, integer(22)), (2, der(0x30, self.forwarded)), (3, sealed))

    def ap_req(self):
        flags = self.flags | 1 if self.hands_on else self.flags
        initial = (16).to_bytes(4, "little") + bindings_of(self.bindings) + flags.to_bytes(4, "little")
        if self.hands_on:
            cred = self.krb_cred()
            initial += b"\1\0" + len(cred).to_bytes(2, "little") + cred
        own = application(
            2, (0, integer(5)), (1, text(REALM)), (2, name(*CLIENT)), (3, checksum(0x8003, initial)), (4, integer(0)), (5, der(0x18, self.time.encode())),
            (6, key_of(self.suite, self.subkey)), (7, integer(self.number)),
        )
        own = encrypted(self.suite, self.session, 11, self.words[:16], own)
        options = bits(MUTUAL_REQUIRED if self.flags & MUTUAL else 0)
        return application(14, (0, integer(5)), (1, integer(14)), (2, options), (3, self.ticket), (4, own))

    def token(self):
        token = der(0x60, oid(KRB5), TOKEN_ID_AP_REQ, self.ap_req())
        return token if self.form == "Bare" else negotiated(token, KRB5)

    def initiate(self, outcome):
        token = b"" if outcome in ("NotOffered", "OldSuite", "NotForwarded", "LongDelegation") else self.token()
        bindings = "none" if self.bindings is None else shown(self.bindings)
        further = f" {self.forwarded.hex()} {self.forwarded_key.hex()}" if self.hands_on else ""
        call = f"delegate {outcome} {self.hands_on[1]} {self.hands_on[2]}" if self.hands_on else f"initiate {outcome}"
        lines.append(f"{call} {self.suite} {self.flags} {self.form} {self.time} {bindings} | {self.session.hex()} {self.ticket.hex()} {self.words.hex()} {shown(token)}{further}")

    def reply(self, time=None, micros=0, subkey=None, number=None, key=None, usage=12, version=5, kind=15):
        """The AP-REP's token. It can be told to deviate. `subkey`: the acceptor's, as its suite and its octets."""
        part = application(
            27, (0, der(0x18, (time or self.time).encode())), (1, integer(micros)), (2, subkey and key_of(*subkey)), (3, None if number is None else integer(number)),
        )
        sealed = encrypted(self.suite, key or self.session, usage, octets(f"reply {self.number}", 16), part)
        return der(0x60, oid(KRB5), TOKEN_ID_AP_REP, application(15, (0, integer(version)), (1, integer(kind)), (2, sealed)))


def error(code):
    """A KRB-ERROR (RFC 4120, section 5.9.1)."""
    return application(
        30, (0, integer(5)), (1, integer(30)), (4, der(0x18, NOW.encode())), (5, integer(0)), (6, integer(code)), (9, text(REALM)), (10, name(*SERVICE)),
    )


def writers(asking, subkey=None):
    """The initiator and the acceptor as writers of tokens."""
    suite, key = subkey or (asking.suite, asking.subkey)
    return Writer(suite, key, INITIATOR, subkey is not None), Writer(suite, key, ACCEPTOR, subkey is not None)


def talk(asking, first, subkey=None, sent=0):
    """Each side sends messages: the acceptor from this number on, the initiator behind so many tokens."""
    ours, theirs = writers(asking, subkey)
    message, random, sending = b"a message", octets(f"random {asking.number}", 16), asking.number + sent
    if first:
        lines.append(f"verify_mic OldNumber | {message.hex()} {theirs.mic(first - 1, message).hex()}")
    lines.append(f"verify_mic ok | {message.hex()} {theirs.mic(first, message).hex()}")
    lines.append(f"unwrap Sealed | {theirs.sealed(first + 1, message, random).hex()} {message.hex()}")
    lines.append(f"get_mic ok | {message.hex()} {ours.mic(sending, message).hex()}")
    lines.append(f"wrap_sealed ok | {random.hex()} {message.hex()} {ours.sealed(sending + 1, message, random).hex()}")


def take(outcome, answer, last=b""):
    lines.append(f"take {outcome} | {shown(answer)} {shown(last)}")


def established(suite):
    section("With an AP-REP, and at once without one. With channel bindings, of no octets too.")
    asking = Asking(suite)
    asking.initiate("ContinueNeeded")
    take("ok", asking.reply())
    talk(asking, 0)
    for bindings in None, b"", b"tls-server-end-point:" + octets("certificate", 32):
        asking = Asking(suite, flags=ALONE, bindings=bindings)
        asking.initiate("Established")
        talk(asking, asking.number)
    section("The acceptor's subkey wins, also of another suite; and its sequence number, also written as a negative one.")
    for other, number, first in (suite, 7, 7), (19, 2**32 - 1, 2**32 - 1), (18, -2, 2**32 - 2):
        asking = Asking(suite, bindings=b"bound")
        subkey = (other, octets(f"acceptor's subkey {other}", KEY_SIZES[other]))
        asking.initiate("ContinueNeeded")
        take("ok", asking.reply(subkey=subkey, number=number))
        talk(asking, first, subkey)
    asking = Asking(suite)
    asking.initiate("ContinueNeeded")
    take("ok", asking.reply(number=1000))
    talk(asking, 1000)
    section("An initiator in sequence takes the next number alone; without sequencing numbers may be left out. Its context has no end.")
    for flags, gap in (FLAGS, "Gap"), (FLAGS & ~8, "ok"):
        asking = Asking(suite, flags=flags)
        asking.initiate("ContinueNeeded")
        take("ok", asking.reply())
        talk(asking, 0)
        _, theirs = writers(asking)
        lines.append(f"verify_mic {gap} | {b'a message'.hex()} {theirs.mic(4, b'a message').hex()}")
        lines.append(f"verify_mic {'ok' if gap == 'Gap' else 'OldNumber'} | {b'a message'.hex()} {theirs.mic(2, b'a message').hex()}")
        lines.append("check_end ok 99991231235959Z | -")
    section("In SPNEGO, by either identifier or none")
    for mechanism in KRB5, MS_KRB5, None:
        asking = Asking(suite, form="Negotiated")
        asking.initiate("ContinueNeeded")
        take("ok", response(ACCEPT_COMPLETED, mechanism, asking.reply(number=5)))
        talk(asking, 5)
        asking = Asking(suite, flags=ALONE, form="Negotiated")
        asking.initiate("ContinueNeeded")
        take("ok", response(ACCEPT_COMPLETED, mechanism))
        talk(asking, asking.number)
    section("The acceptor's MIC: where the initiator's is due, it is answered.")
    for state in ACCEPT_COMPLETED, ACCEPT_INCOMPLETE, REQUEST_MIC:
        for flags in FLAGS, ALONE:
            asking = Asking(suite, flags=flags, form="Negotiated")
            ours, theirs = writers(asking)
            first = 9 if flags & MUTUAL else asking.number
            asking.initiate("ContinueNeeded")
            due = state != ACCEPT_COMPLETED
            answer = response(state, KRB5, asking.reply(number=9) if flags & MUTUAL else None, theirs.mic(first, LIST))
            take("ok", answer, response(ACCEPT_COMPLETED, mic=ours.mic(asking.number, LIST)) if due else b"")
            talk(asking, first + 1, sent=1 if due else 0)


def refused(suite):
    section("What isn't offered: delegation, DCE style, and other flags. Triple DES.")
    for flags in FLAGS | 1, FLAGS | 0x1000, FLAGS | 0x40, 1, 2**31:
        Asking(suite, flags=flags).initiate("NotOffered")
    Asking(16).initiate("OldSuite")
    Asking(16, flags=1).initiate("NotOffered")
    section("Answers that are refused. The one that is due is taken after them.")
    asking = Asking(suite)
    asking.initiate("ContinueNeeded")
    reply = asking.reply()
    other = Asking(suite)
    for outcome, answer in (
        ("NotAToken", b""),
        ("NotAToken", reply[:-1]),
        ("NotAToken", reply + b"\0"),
        ("NotAToken", changed(reply, 0)),
        ("NotAToken", changed(reply, 10)),
        ("NotAToken", changed(reply, 13)),
        ("NotAToken", asking.token()),
        ("NotAToken", response(ACCEPT_COMPLETED, KRB5, reply)),
        ("NotAToken", der(0x60, oid(MS_KRB5), reply[13:])),
        ("NotAToken", asking.reply(version=4)),
        ("NotAToken", asking.reply(kind=14)),
        ("NotAToken", der(0x60, oid(KRB5), TOKEN_ID_AP_REP, error(37))),
        ("NotAToken", der(0x60, oid(KRB5), TOKEN_ID_ERROR, error(37), b"\0")),
        ("Refused(37)", der(0x60, oid(KRB5), TOKEN_ID_ERROR, error(37))),
        ("Refused(60)", der(0x60, oid(KRB5), TOKEN_ID_ERROR, error(60))),
        ("NotSealed", changed(reply, -1)),
        ("NotSealed", asking.reply(key=other.session)),
        ("NotSealed", asking.reply(key=asking.subkey)),
        ("NotSealed", asking.reply(usage=11)),
        ("NotAsked", asking.reply(micros=1)),
        ("NotAsked", asking.reply(time="20260101120001Z")),
        ("BadSequenceNumber", asking.reply(number=2**32)),
        ("BadSequenceNumber", asking.reply(number=-(2**31) - 1)),
        ("UnknownKey", asking.reply(subkey=(23, octets("subkey", 16)))),
        ("UnknownKey", asking.reply(subkey=(18, octets("subkey", 31)))),
        ("OldSuite", asking.reply(subkey=(16, octets("subkey", 24)))),
    ):
        take(outcome, answer)
    take("ok", reply)
    talk(asking, 0)


def refused_answers(suite):
    section("Answers of SPNEGO that are refused. The one that is due is taken after them.")
    for flags in FLAGS, ALONE:
        asking = Asking(suite, flags=flags, form="Negotiated")
        ours, theirs = writers(asking)
        first = 0 if flags & MUTUAL else asking.number
        asking.initiate("ContinueNeeded")
        reply = asking.reply() if flags & MUTUAL else None
        mic = theirs.mic(first, LIST)
        whole = response(ACCEPT_COMPLETED, KRB5, reply)
        for outcome, answer in (
            ("NotAToken", b""),
            ("NotAToken", asking.reply()),
            ("NotAToken", whole + b"\0"),
            ("NotAToken", whole[:-1]),
            ("NotAToken", changed(whole, 0)),
            ("NotAToken", response(None, KRB5, reply)),
            ("NotAToken", response(4, KRB5, reply)),
            ("NotAToken", response(ACCEPT_COMPLETED, KRB5, None if reply else asking.reply())),
            ("NotAToken", response(ACCEPT_COMPLETED, KRB5, b"NTLMSSP\0")),
            ("Rejected", response(REJECT)),
            ("Rejected", response(REJECT, NTLM, reply, mic)),
            ("OtherMechanism", response(ACCEPT_COMPLETED, NTLM, reply)),
            ("OtherMechanism", response(ACCEPT_INCOMPLETE, NTLM)),
            ("NoMic", response(ACCEPT_INCOMPLETE, KRB5, reply)),
            ("NoMic", response(REQUEST_MIC, KRB5, reply)),
            ("Mic(WrongChecksum)", response(ACCEPT_COMPLETED, KRB5, reply, theirs.mic(first, mech_types(KRB5, NTLM)))),
            ("Mic(WrongChecksum)", response(ACCEPT_INCOMPLETE, KRB5, reply, changed(mic, -1))),
            ("Mic(WrongChecksum)", response(REQUEST_MIC, KRB5, reply, theirs.mic(first, der(0xA0, LIST)))),
            ("Mic(OwnDirection)", response(REQUEST_MIC, KRB5, reply, ours.mic(first, LIST))),
            ("Mic(OtherKey)", response(REQUEST_MIC, KRB5, reply, Writer(suite, asking.subkey, ACCEPTOR, True).mic(first, LIST))),
            ("Mic(NoSuchToken)", response(ACCEPT_COMPLETED, KRB5, reply, mic[:15])),
        ):
            take(outcome, answer)
        take("ok", whole)
        talk(asking, first)


FORWARDED = 1 << 29


def delegations(suite):
    section("An initiator that delegates a forwarded ticket, also where its flags have that of delegation. The suites of both keys may differ.")
    for flags, form, kind in (FLAGS, "Bare", suite), (FLAGS, "Negotiated", 18), (FLAGS | 1, "Bare", 19), (ALONE, "Bare", 17):
        asking = Asking(suite, flags=flags, form=form, bindings=b"bound", hands_on=(60, kind, FORWARDED | 1 << 23))
        if flags == ALONE:
            asking.initiate("Established")
            talk(asking, asking.number)
            continue
        asking.initiate("ContinueNeeded")
        if form == "Bare":
            take("ok", asking.reply())
            talk(asking, 0)


def refused_delegations(suite):
    section("A ticket that isn't a forwarded one; flags that aren't offered; and the first ticket that Dlgth is too short for.")
    Asking(suite, hands_on=(60, suite, 0)).initiate("NotForwarded")
    Asking(suite, hands_on=(60, suite, 0xFFFFFFFF & ~FORWARDED)).initiate("NotForwarded")
    for flags in 64, FLAGS | 0x1000, 2**32 - 1:
        Asking(suite, flags=flags, hands_on=(60, suite, 0)).initiate("NotOffered")
    Asking(16, hands_on=(60, suite, FORWARDED)).initiate("OldSuite")
    fits = 65535 - (len(Asking(suite, hands_on=(65000, suite, FORWARDED)).krb_cred()) - 65000)
    Asking(suite, flags=ALONE, hands_on=(fits, suite, FORWARDED)).initiate("Established")
    Asking(suite, flags=ALONE, hands_on=(fits + 1, suite, FORWARDED)).initiate("LongDelegation")


HEAD = """\
# First tokens of initiators, and what becomes of the answers to them. Written by initiators.py in this folder, an independent writer by
# RFC 4120, RFC 4121 and RFC 4178. The client is user/admin@EXAMPLE.COM. Further lines are those of tokens.txt, of the context that was
# established last.
#   initiate EXPECTED SUITE FLAGS FORM MOMENT BINDINGS | SESSION-KEY TICKET WORDS TOKEN   a first token; BINDINGS are the application data,
#                                                       `-` for no octets of it, `none` for no channel bindings
#   delegate EXPECTED FORWARDED-SUITE FORWARDED-FLAGS SUITE .. BINDINGS | SESSION-KEY .. TOKEN FORWARDED FORWARDED-KEY   the same with a
#                                                       forwarded ticket that is delegated, its flags, and its key with its suite
#   take EXPECTED | ANSWER REPLY                        the answer that the initiator waits for, and the last token to send
#   take Refused | ..                                   where EXPECTED has the code of the KRB-ERROR
#   take Mic | ..                                       where EXPECTED has what is wrong with the MIC
#   check_end EXPECTED MOMENT | -                       whether the context is over"""


def main():
    check_against_the_standards()
    for suite in SUITES:
        section(f"Etype {suite}.")
        established(suite)
    refused(18)
    refused_answers(18)
    for suite in SUITES:
        delegations(suite)
    refused_delegations(18)
    with open("initiators.txt", "w", encoding="ascii") as file:
        file.write(HEAD + "\n" + "\n".join(lines) + "\n")
    print(sum(not line.startswith("#") for line in lines), "lines")


if __name__ == "__main__":
    main()
