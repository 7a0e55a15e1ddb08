#!/usr/bin/env python3
"""Writes first_tokens.txt: initiators' first tokens (RFC 4121, section 4.1; RFC 4178, section 4.2.1), those of a negotiation behind them
(sections 4.2.2 and 5), and what becomes of each.

This is an independent writer, as tokens.py in this folder, whose encryption it uses. It shares no code with the program that
replays the file. Keys and random octets are fixed, so each run writes the same file. Each outcome stands here by name.

Run it in this folder: python3 first_tokens.py
"""
from tokens import ACCEPTOR, INITIATOR, KEY_SIZES, SUITES, Writer, check_against_the_standards, octets

# ---- DER, and the messages of RFC 4120 --------------------------------------------------------------------------------------


def der(tag, *parts):
    content = b"".join(parts)
    size = len(content)
    long = b"" if size < 128 else size.to_bytes((size.bit_length() + 7) // 8, "big")
    return bytes([tag]) + (bytes([0x80 | len(long)]) + long if long else bytes([size])) + content


def integer(number):
    size = (number + (number < 0)).bit_length() // 8 + 1
    return der(0x02, number.to_bytes(size, "big", signed=True))


def sequence(*fields):
    """A SEQUENCE of fields in explicit tags: pairs of a tag's number and a value, none where it is left out."""
    return der(0x30, *(der(0xA0 + tag, value) for tag, value in fields if value is not None))


def application(tag, *fields):
    return der(0x60 + tag, sequence(*fields))


def text(it):
    return der(0x1B, it.encode())


def octet_string(it):
    return der(0x04, it)


def bits(number):
    return der(0x03, b"\0" + number.to_bytes(4, "big"))


def name(*components):
    return sequence((0, integer(1)), (1, der(0x30, *map(text, components))))


def key_of(suite, key):
    return sequence((0, integer(suite)), (1, octet_string(key)))


def encrypted(suite, key, usage, confounder, plain, kvno=None):
    cipher = SUITES[suite].encrypt(key, usage, confounder, plain)
    return sequence((0, integer(suite)), (1, kvno and integer(kvno)), (2, octet_string(cipher)))


REALM, CLIENT, SERVICE, NOW = "EXAMPLE.COM", ("user", "admin"), ("host", "server.example.com"), "20260101120000Z"
MUTUAL_REQUIRED = 1 << 29
KRB5, MS_KRB5 = bytes.fromhex("2a864886f712010202"), bytes.fromhex("2a864882f712010202")
SPNEGO, NTLM = bytes.fromhex("2b0601050502"), bytes.fromhex("2b06010401823702020a")
TOKEN_ID_AP_REQ, TOKEN_ID_AP_REP = b"\x01\x00", b"\x02\x00"
BINDINGS = octets("channel bindings", 16)
# Mutual authentication, replay detection, confidentiality and integrity; and sequencing.
FLAGS, SEQUENCE = 0x36, 8


def oid(content):
    return der(0x06, content)


def initial_checksum(flags=FLAGS, size=16, rest=b"", bindings=BINDINGS):
    return size.to_bytes(4, "little") + bindings + flags.to_bytes(4, "little") + rest


def checksum(kind, content):
    return sequence((0, integer(kind)), (1, octet_string(content)))


def generalized(time):
    return der(0x18, time.encode())


KRBTGT = ("krbtgt", REALM)


def forwarded_ticket(number):
    """A ticket-granting ticket, which is opaque to whom it is handed on."""
    sealed = sequence((0, integer(18)), (1, integer(1)), (2, octet_string(octets(f"forwarded {number}", 60))))
    return application(1, (0, integer(5)), (1, text(REALM)), (2, name(*KRBTGT)), (3, sealed))


def cred_info(number, suite=18, whole=True):
    """A KrbCredInfo (RFC 4120, section 5.8.1), with all of its fields or with the key alone."""
    key = (0, key_of(suite, octets(f"forwarded key {number}", KEY_SIZES.get(suite, 16))))
    if not whole:
        return sequence(key)
    address = der(0x30, sequence((0, integer(2)), (1, octet_string(b"\x7f\0\0\1"))))
    return sequence(
        key, (1, text(REALM)), (2, name(*CLIENT)), (3, bits(0x60A10000)), (4, generalized("20260101110000Z")), (5, generalized("20260101115900Z")),
        (6, generalized("20260101210000Z")), (7, generalized("20260108110000Z")), (8, text(REALM)), (9, name(*KRBTGT)), (10, address),
    )


def deleg(tickets, infos, key=None, suite=None, usage=14, version=5, kind=22, part=29, etype=None, rest=(), cut=None):
    """What follows the flags of a login that delegates. It can be told to deviate: `etype` is told in place of the suite's, and 0 has the part
    as it is. `rest` are further fields of the part, and `cut` changes the octets of the KRB-CRED."""

    def made(login):
        sealing = suite or login.suite
        plain = application(part, (0, der(0x30, *infos)), *rest)
        cipher = plain if etype == 0 else SUITES[sealing].encrypt(key(login) if key else login.session, usage, octets(f"deleg {login.micros}", 16), plain)
        sealed = sequence((0, integer(sealing if etype is None else etype)), (2, octet_string(cipher)))
        whole = application(22, (0, integer(version)), (1, integer(kind)), (2, der(0x30, *tickets)), (3, sealed))
        whole = cut(whole) if cut else whole
        return b"\1\0" + len(whole).to_bytes(2, "little") + whole

    return made


class Login:
    """A client's login, and what it leads to. Each can be told to deviate. `own`: the acceptor has a subkey and a first sequence number of its
    own, where there is an AP-REP. Of its 64 random octets the first 16 are the confounder, 31 bits of the next four the number, and the
    subkey's seed begins at 32. The subkey is of the ticket's suite."""

    count = 0

    def __init__(self, suite, mutual=True, subkey=True, number=1000, initial=None, kind=0x8003, service=SERVICE, time=NOW, key_suite=None, key_size=None, own=False, delegates=None):
        Login.count += 1
        self.suite, self.mutual, self.time, self.micros = suite, mutual, time, Login.count
        self.number = number
        self.session = octets(f"session {Login.count}", KEY_SIZES[suite])
        self.key_suite = key_suite or suite
        self.subkey = octets(f"subkey {Login.count}", key_size or KEY_SIZES.get(self.key_suite, 16)) if subkey else None
        self.initial = initial_checksum(FLAGS if mutual else FLAGS & ~2) if initial is None else initial
        if delegates:
            self.initial = initial_checksum((FLAGS if mutual else FLAGS & ~2) | 1, rest=delegates(self))
        self.checksum = checksum(kind, self.initial) if kind else None
        self.service = service
        self.own = own and mutual

    def ap_req(self):
        part = application(
            3, (0, bits(0)), (1, key_of(self.suite, self.session)), (2, text(REALM)), (3, name(*CLIENT)),
            (4, sequence((0, integer(1)), (1, octet_string(b"")))), (5, der(0x18, b"20260101110000Z")), (7, der(0x18, b"20260101210000Z")),
        )
        sealed = encrypted(self.suite, service_key(self.suite), 2, octets(f"ticket {self.micros}", 16), part, kvno=1)
        ticket = application(1, (0, integer(5)), (1, text(REALM)), (2, name(*self.service)), (3, sealed))
        own = application(
            2, (0, integer(5)), (1, text(REALM)), (2, name(*CLIENT)), (3, self.checksum), (4, integer(self.micros)), (5, der(0x18, self.time.encode())),
            (6, self.subkey and key_of(self.key_suite, self.subkey)), (7, None if self.number is None else integer(self.number)),
        )
        own = encrypted(self.suite, self.session, 11, octets(f"authenticator {self.micros}", 16), own)
        return application(14, (0, integer(5)), (1, integer(14)), (2, bits(MUTUAL_REQUIRED if self.mutual else 0)), (3, ticket), (4, own))

    def token(self):
        return der(0x60, oid(KRB5), TOKEN_ID_AP_REQ, self.ap_req())

    def reply(self, words):
        """The AP-REP's token, or nothing."""
        if not self.mutual:
            return b""
        own = self.own and own_subkey(self.suite, words)
        part = application(
            27, (0, der(0x18, self.time.encode())), (1, integer(self.micros)), (2, key_of(self.suite, own) if own else None), (3, integer(own_number(words)) if own else None),
        )
        sealed = encrypted(self.suite, self.session, 12, words[:16], part)
        return der(0x60, oid(KRB5), TOKEN_ID_AP_REP, application(15, (0, integer(5)), (1, integer(15)), (2, sealed)))


def own_subkey(suite, words):
    return words[32 : 32 + KEY_SIZES[suite]]


def own_number(words):
    return int.from_bytes(words[16:20], "big") % 2**31


def mech_types(*mechanisms):
    return der(0x30, *map(oid, mechanisms))


def negotiated(token, *mechanisms, flags=None, mic=None):
    offer = sequence((0, mech_types(*mechanisms)), (1, flags), (2, token and octet_string(token)), (3, mic and octet_string(mic)))
    return der(0x60, oid(SPNEGO), der(0xA0, offer))


ACCEPT_COMPLETED, ACCEPT_INCOMPLETE, REJECT, REQUEST_MIC = range(4)


def response(state=None, mechanism=None, token=None, mic=None):
    """A NegTokenResp, with what it has."""
    state = None if state is None else der(0x0A, bytes([state]))
    return der(0xA1, sequence((0, state), (1, mechanism and oid(mechanism)), (2, octet_string(token) if token else None), (3, mic and octet_string(mic))))


# ---- Lines ------------------------------------------------------------------------------------------------------------------

HEAD = """\
# First tokens of GSS-API contexts, and what an acceptor makes of each. Written by first_tokens.py in this folder, an independent
# writer by RFC 4120, RFC 4121 and RFC 4178. Further lines are those of tokens.txt, of the context that was established last.
#   acceptor EXPECTED SUITE SKEW FLAG | KEY BINDINGS   begins an acceptor: host/server.example.com@EXAMPLE.COM, key number 1. FLAG is `subkey`
#                                            if it has a subkey and a first number of its own, else `session`; BINDINGS are its channel bindings
#   accept EXPECTED MOMENT CLIENT FLAGS | TOKEN WORDS REPLY BINDINGS   a first token
#   resume EXPECTED MOMENT CLIENT FLAGS | TOKEN WORDS REPLY BINDINGS   the next token of the negotiation that the last ContinueNeeded began
#   delegated EXPECTED | TICKETS INFOS       what the context that was established last has of its initiator: the encodings of the tickets and
#                                            of what is told of them, as lists; EXPECTED is `none` if that is nothing, else `ok`
#   check_end EXPECTED MOMENT | -            whether the context is over"""
lines = []


def shown(them):
    return them.hex() or "-"


def service_key(suite):
    return octets(f"service {suite}", KEY_SIZES[suite])


def section(title):
    lines.append(f"# {title}")


def begin(suite, own=False, bindings=b""):
    lines.append(f"acceptor ok {suite} 300 {'subkey' if own else 'session'} | {service_key(suite).hex()} {shown(bindings)}")


def words_of(login):
    return octets(f"words {login.micros}", 64)


def writers(login):
    """The initiator and the acceptor as writers of tokens, and the numbers of their first ones."""
    suite, key = (login.key_suite, login.subkey) if login.subkey else (login.suite, login.session)
    first = (login.number or 0) % 2**32
    if login.own:
        words = words_of(login)
        key = own_subkey(login.suite, words)
        return Writer(login.suite, key, INITIATOR, True), Writer(login.suite, key, ACCEPTOR, True), first, own_number(words)
    return Writer(suite, key, INITIATOR, False), Writer(suite, key, ACCEPTOR, False), first, 0 if login.mutual else first


def establish(call, login, token, reply, moment=NOW, mics=0):
    """The token establishes a context, and then each side sends messages: behind so many MICs of the list of mechanisms."""
    flags = int.from_bytes(login.initial[20:24], "little")
    lines.append(f"{call} ok {moment} {'/'.join(CLIENT)}@{REALM} {flags} | {token.hex()} {words_of(login).hex()} {shown(reply)} {login.initial[4:20].hex()}")
    ours, theirs, first, sending = writers(login)
    first, sending = first + mics, sending + mics
    message, random = b"a message", octets(f"random {login.micros}", 16)
    lines.append(f"verify_mic OldNumber | {message.hex()} {ours.mic(first - 1, message).hex()}" if first else "# The least number is zero.")
    lines.append(f"verify_mic ok | {message.hex()} {ours.mic(first, message).hex()}")
    lines.append(f"unwrap Sealed | {ours.sealed(first + 1, message, random).hex()} {message.hex()}")
    lines.append(f"get_mic ok | {message.hex()} {theirs.mic(sending, message).hex()}")
    lines.append(f"wrap_sealed ok | {random.hex()} {message.hex()} {theirs.sealed(sending + 1, message, random).hex()}")


def accept(login, token=None, answer=lambda reply: reply, moment=NOW):
    """The first token establishes a context."""
    establish("accept", login, login.token() if token is None else token, answer(login.reply(words_of(login))), moment)


def go_on(call, token, reply, words=None):
    """A further token of the initiator is due."""
    lines.append(f"{call} ContinueNeeded {NOW} - 0 | {token.hex()} {(words or octets('words', 64)).hex()} {reply.hex()} -")


def refuse(outcome, token, moment=NOW, call="accept"):
    lines.append(f"{call} {outcome} {moment} - 0 | {shown(token)} {octets('words', 64).hex()} - -")


def changed(token, at):
    at %= len(token)
    return token[:at] + bytes([token[at] ^ 1]) + token[at + 1 :]


def accepted(suite):
    begin(suite)
    accept(Login(suite))
    accept(Login(suite, mutual=False))
    section("No subkey, and no sequence number.")
    accept(Login(suite, subkey=False, number=None))
    section("SPNEGO: either identifier of Kerberos, with other mechanisms behind, and flags.")
    login = Login(suite)
    accept(login, negotiated(login.token(), KRB5, NTLM), lambda reply: response(ACCEPT_COMPLETED, KRB5, reply))
    login = Login(suite, mutual=False)
    accept(login, negotiated(login.token(), MS_KRB5, KRB5, NTLM, flags=der(0x03, b"\x01\x50")), lambda reply: response(ACCEPT_COMPLETED, MS_KRB5, reply))
    section("SPNEGO: Kerberos first, and no token: it is asked for.")
    for mutual, mechanism, state in (True, KRB5, None), (False, MS_KRB5, ACCEPT_INCOMPLETE):
        login = Login(suite, mutual=mutual)
        go_on("accept", negotiated(None, mechanism, NTLM), response(ACCEPT_INCOMPLETE, mechanism))
        establish("resume", login, response(state, token=login.token()), response(ACCEPT_COMPLETED, token=login.reply(words_of(login))))
    section("SPNEGO: another mechanism first, whose optimistic token is ignored. MICs are due: the initiator's with its last token.")
    for mechanism in KRB5, MS_KRB5:
        offer = (NTLM, mechanism, KRB5)
        ask_for_mics(Login(suite, mutual=False), offer)
    section("With an AP-REP the initiator's MIC is due behind the acceptor's, and nothing is answered.")
    login = Login(suite)
    ask_for_mics(login, (NTLM, KRB5), late=True)
    section("It may also come with the initiator's token.")
    ask_for_mics(Login(suite), (NTLM, KRB5))
    ask_for_mics(Login(suite, subkey=False, number=None), (NTLM, KRB5))


def begin_negotiation(login, offer, optimistic=b"NTLMSSP\0", mic=None):
    """Kerberos isn't first: the acceptor asks for it, and for MICs. Gives both sides' MICs of the list."""
    mechanism = next(mechanism for mechanism in offer if mechanism in (KRB5, MS_KRB5))
    go_on("accept", negotiated(optimistic, *offer, mic=mic), response(REQUEST_MIC, mechanism))
    ours, theirs, first, sending = writers(login)
    return ours.mic(first, mech_types(*offer)), theirs.mic(sending, mech_types(*offer))


def ask_for_mics(login, offer, late=False, **first):
    """A negotiation with MICs of the list of mechanisms, of which the initiator's comes with its token or behind it."""
    own, theirs = begin_negotiation(login, offer, **first)
    reply = login.reply(words_of(login))
    if late:
        go_on("resume", response(token=login.token()), response(ACCEPT_INCOMPLETE, token=reply, mic=theirs), words_of(login))
        establish("resume", login, response(ACCEPT_COMPLETED, mic=own), b"", mics=1)
    else:
        establish("resume", login, response(token=login.token(), mic=own), response(ACCEPT_COMPLETED, token=reply, mic=theirs), mics=1)


def further_mics(suite):
    section("MICs that aren't due, but come: with the first token, and with the one that is asked for. They are verified and answered.")
    for mutual in True, False:
        login = Login(suite, mutual=mutual)
        ours, theirs, first, sending = writers(login)
        own, answer = ours.mic(first, mech_types(KRB5, NTLM)), theirs.mic(sending, mech_types(KRB5, NTLM))
        reply = login.reply(words_of(login))
        establish("accept", login, negotiated(login.token(), KRB5, NTLM, mic=own), response(ACCEPT_COMPLETED, KRB5, reply, answer), mics=1)
        login = Login(suite, mutual=mutual)
        ours, theirs, first, sending = writers(login)
        own, answer = ours.mic(first, mech_types(KRB5, NTLM)), theirs.mic(sending, mech_types(KRB5, NTLM))
        reply = login.reply(words_of(login))
        go_on("accept", negotiated(None, KRB5, NTLM), response(ACCEPT_INCOMPLETE, KRB5))
        establish("resume", login, response(token=login.token(), mic=own), response(ACCEPT_COMPLETED, token=reply, mic=answer), mics=1)
    section("Higher numbers, as they may be left out. What comes with another mechanism's token is ignored, be it a token of Kerberos.")
    login = Login(suite, mutual=False)
    begin_negotiation(login, (NTLM, KRB5))
    ours, theirs, first, sending = writers(login)
    own, answer = ours.mic(first + 7, mech_types(NTLM, KRB5)), theirs.mic(sending, mech_types(NTLM, KRB5))
    flags = int.from_bytes(login.initial[20:24], "little")
    lines.append(f"resume ok {NOW} {'/'.join(CLIENT)}@{REALM} {flags} | {response(token=login.token(), mic=own).hex()} {words_of(login).hex()} {response(ACCEPT_COMPLETED, mic=answer).hex()} {BINDINGS.hex()}")
    lines.append(f"verify_mic OldNumber | {b'a message'.hex()} {ours.mic(first + 7, b'a message').hex()}")
    lines.append(f"verify_mic ok | {b'a message'.hex()} {ours.mic(first + 8, b'a message').hex()}")
    login = Login(suite)
    ask_for_mics(login, (NTLM, KRB5), late=True, optimistic=login.token())
    ask_for_mics(Login(suite), (NTLM, KRB5), late=True, optimistic=None)
    ask_for_mics(Login(suite), (NTLM, KRB5), optimistic=None, mic=b"no MIC")


def refused_mics(suite):
    section("Wrong MICs: of another list, with another number, of the other side, of another key, and none. The AP-REQ was admitted, so it is a replay.")
    offer = (NTLM, KRB5)
    other = mech_types(KRB5, NTLM)
    for mutual, late in (False, False), (True, False), (True, True):
        for outcome, made in (
            ("Mic(WrongChecksum)", lambda ours, theirs, first: ours.mic(first, other)),
            ("Mic(WrongChecksum)", lambda ours, theirs, first: ours.mic(first, der(0xA0, mech_types(*offer)))),
            ("Mic(WrongChecksum)", lambda ours, theirs, first: changed(ours.mic(first, mech_types(*offer)), -1)),
            ("Mic(WrongChecksum)", lambda ours, theirs, first: ours.mic(first, mech_types(*offer), usage=23)),
            ("Mic(WrongChecksum)", lambda ours, theirs, first: Writer(suite, octets("other key", KEY_SIZES[suite]), INITIATOR, False).mic(first, mech_types(*offer))),
            ("Mic(OldNumber)", lambda ours, theirs, first: ours.mic(first - 1, mech_types(*offer))),
            ("Mic(OwnDirection)", lambda ours, theirs, first: theirs.mic(first, mech_types(*offer))),
            ("Mic(NoSuchToken)", lambda ours, theirs, first: ours.mic(first, mech_types(*offer))[:15]),
            ("NoMic", None),
        ):
            login = Login(suite, mutual=mutual)
            ours, theirs, first, _ = writers(login)
            mic = made and made(ours, theirs, first)
            if mic is None and mutual and not late:
                continue
            _, answer = begin_negotiation(login, offer)
            if late:
                go_on("resume", response(token=login.token()), response(ACCEPT_INCOMPLETE, token=login.reply(words_of(login)), mic=answer), words_of(login))
                refuse(outcome, response(ACCEPT_COMPLETED, mic=mic), call="resume")
            else:
                refuse(outcome, response(token=login.token(), mic=mic), call="resume")
            refuse("Admit(Krb(34))", login.token())
    section("A wrong MIC that isn't due.")
    login = Login(suite)
    refuse("Mic(WrongChecksum)", negotiated(login.token(), KRB5, mic=writers(login)[0].mic(1000, other)))


def refused_steps(suite):
    section("Not the token that is due. The login is admitted by none of them.")
    login = Login(suite)
    token, request = login.token(), login.ap_req()
    mic = writers(login)[0].mic(1000, mech_types(NTLM, KRB5))
    whole = response(token=token, mic=mic)
    for other in (
        b"", token, request, negotiated(token, KRB5), whole + b"\0", whole[:-1], changed(whole, 0), der(0xA0, whole[4:]), whole[4:],
        response(), response(ACCEPT_INCOMPLETE), response(mic=mic), response(mechanism=KRB5, token=token, mic=mic), response(token=request, mic=mic),
        response(token=changed(token, 16), mic=mic), response(token=b"NTLMSSP\0", mic=mic), response(REJECT),
    ):
        begin_negotiation(login, (NTLM, KRB5))
        refuse("NotAToken", other, call="resume")
    ask_for_mics(login, (NTLM, KRB5), late=True)
    section("The state that the initiator tells isn't judged.")
    for state in ACCEPT_COMPLETED, REQUEST_MIC:
        login = Login(suite, mutual=False)
        own, theirs = begin_negotiation(login, (NTLM, KRB5))
        establish("resume", login, response(state, token=login.token(), mic=own), response(ACCEPT_COMPLETED, mic=theirs), mics=1)
    section("Where the initiator's MIC is due, a token of the mechanism isn't.")
    login = Login(suite)
    own, theirs = begin_negotiation(login, (NTLM, KRB5))
    go_on("resume", response(token=login.token()), response(ACCEPT_INCOMPLETE, token=login.reply(words_of(login)), mic=theirs), words_of(login))
    refuse("NotAToken", response(token=login.token(), mic=own), call="resume")
    for other in response(mechanism=KRB5, mic=own), own, b"", negotiated(None, NTLM, KRB5, mic=own):
        login = Login(suite)
        own, theirs = begin_negotiation(login, (NTLM, KRB5))
        go_on("resume", response(token=login.token()), response(ACCEPT_INCOMPLETE, token=login.reply(words_of(login)), mic=theirs), words_of(login))
        refuse("NotAToken", other, call="resume")
    section("What is refused of an AP-REQ bare is refused in a negotiation.")
    login = Login(suite)
    accept(login)
    for outcome, token in (
        ("Admit(Krb(34))", login.token()),
        ("Admit(Krb(35))", Login(suite, service=("host", "other.example.com")).token()),
        ("NoChecksum", Login(suite, kind=None).token()),
        ("OldSuite", Login(suite, key_suite=16).token()),
    ):
        go_on("accept", negotiated(None, KRB5), response(ACCEPT_INCOMPLETE, KRB5))
        refuse(outcome, response(token=token), call="resume")


def own_subkeys(suite):
    section("A subkey of the acceptor wins, whatever the initiator's is; without an AP-REP there is none. Its number is the first of its tokens.")
    begin(suite, own=True)
    accept(Login(suite, own=True))
    accept(Login(suite, mutual=False, own=True))
    accept(Login(suite, subkey=False, number=None, own=True))
    accept(Login(suite, key_suite=19, own=True))
    accept(Login(suite, key_suite=23, own=True))
    accept(Login(suite, key_suite=16, own=True))
    login = Login(suite, own=True)
    accept(login, negotiated(login.token(), KRB5, NTLM), lambda reply: response(ACCEPT_COMPLETED, KRB5, reply))
    ask_for_mics(Login(suite, own=True), (NTLM, KRB5), late=True)
    ask_for_mics(Login(suite, own=True), (NTLM, KRB5))
    section("With a subkey of the acceptor, tokens under another key: the initiator's subkey.")
    login = Login(suite, own=True)
    accept(login)
    other = Writer(suite, login.subkey, INITIATOR, False)
    lines.append(f"verify_mic OtherKey | {b'a message'.hex()} {other.mic(1002, b'a message').hex()}")
    other = Writer(suite, login.subkey, INITIATOR, True)
    lines.append(f"verify_mic WrongChecksum | {b'a message'.hex()} {other.mic(1002, b'a message').hex()}")


def bindings(suite):
    section("Channel bindings of the acceptor: the initiator's are the same, or it has none; or they differ, and the same token is then a replay.")
    for own in False, True:
        begin(suite, own=own, bindings=BINDINGS)
        for mutual in True, False:
            flags = FLAGS if mutual else FLAGS & ~2
            accept(Login(suite, mutual=mutual, own=own))
            accept(Login(suite, mutual=mutual, initial=initial_checksum(flags, bindings=bytes(16)), own=own))
            for other in bytes(15) + b"\1", changed(BINDINGS, 0), changed(BINDINGS, -1), octets("other bindings", 16):
                token = Login(suite, mutual=mutual, initial=initial_checksum(flags, bindings=other), own=own).token()
                refuse("OtherBindings", token)
                refuse("Admit(Krb(34))", token)
    for outcome, deviation in (("OtherChecksum", {"initial": initial_checksum()[:-1]}), ("OtherBindings", {"number": 2**32, "initial": initial_checksum(bindings=changed(BINDINGS, 3))})):
        refuse(outcome, Login(suite, **deviation).token())


def in_sequence(suite):
    section("Sequencing: numbers that are left out are refused, and the one that is due is taken behind them. Without it they may be left out.")
    begin(suite)
    message, random = b"a message", octets("random", 16)
    for flags, gap in (FLAGS | SEQUENCE, "Gap"), (FLAGS, "ok"):
        for mutual in True, False:
            login = Login(suite, mutual=mutual, initial=initial_checksum(flags if mutual else flags & ~2))
            accept(login)
            ours, _, first, _ = writers(login)
            due = first + 2
            for number in due + 1, due + 2:
                lines.append(f"verify_mic {gap} | {message.hex()} {ours.mic(number, message).hex()}")
            lines.append(f"unwrap {'Gap' if gap == 'Gap' else 'Sealed'} | {ours.sealed(due + 3, message, random).hex()} {message.hex()}")
            due = due if gap == "Gap" else due + 4
            lines.append(f"verify_mic ok | {message.hex()} {ours.mic(due, message).hex()}")
            lines.append(f"unwrap Checksum | {ours.summed(due + 1, message).hex()} {message.hex()}")
            lines.append(f"verify_mic OldNumber | {message.hex()} {ours.mic(due, message).hex()}")
    section("MICs of the list count.")
    ask_for_mics(Login(suite, initial=initial_checksum(FLAGS | SEQUENCE)), (NTLM, KRB5), late=True)
    login = Login(suite, mutual=False, initial=initial_checksum(FLAGS & ~2 | SEQUENCE))
    begin_negotiation(login, (NTLM, KRB5))
    refuse("Mic(Gap)", response(token=login.token(), mic=writers(login)[0].mic(1001, mech_types(NTLM, KRB5))), call="resume")


def ends(suite):
    section("A context is over by the skew of 300 seconds after its ticket's end. It takes tokens as before.")
    begin(suite)
    accept(Login(suite))
    for outcome, moment in ("ok", NOW), ("ok", "20260101210500Z"), ("ContextExpired", "20260101210501Z"), ("ContextExpired", "20270101210500Z"), ("ok", "20200101000000Z"):
        lines.append(f"check_end {outcome} {moment} | -")


def delegate(login, tickets, infos):
    """The first token establishes a context, with these tickets of its initiator."""
    accept(login)
    lines.append(f"delegated ok | {der(0x30, *tickets).hex()} {der(0x30, *infos).hex()}")


def delegations(suite):
    begin(suite)
    section("A delegation. It is under the session key also where there is a subkey, with each field or with none that may be left out.")
    one, two = forwarded_ticket(1), forwarded_ticket(2)
    delegate(Login(suite, delegates=deleg([one], [cred_info(1)])), [one], [cred_info(1)])
    delegate(Login(suite, mutual=False, subkey=False, number=None, delegates=deleg([one], [cred_info(1)])), [one], [cred_info(1)])
    delegate(Login(suite, key_suite=19, delegates=deleg([one], [cred_info(1, whole=False)])), [one], [cred_info(1, whole=False)])
    further = ((1, integer(7)), (2, generalized(NOW)), (3, integer(5)), (4, sequence((0, integer(2)), (1, octet_string(b"\x7f\0\0\1")))))
    delegate(Login(suite, delegates=deleg([one], [cred_info(1, suite=23)], rest=further)), [one], [cred_info(1, suite=23)])
    section("More tickets than one. A delegation with extensions after it.")
    both = [cred_info(1), cred_info(2, suite=17)]
    delegate(Login(suite, delegates=deleg([one, two], both)), [one, two], both)
    behind = deleg([one], [cred_info(1)])
    delegate(Login(suite, delegates=lambda login: behind(login) + b"\0\0\0\1\0\0\0\0"), [one], [cred_info(1)])
    section("A delegation in a negotiation, and none after it.")
    login = Login(suite, delegates=deleg([one], [cred_info(1)]))
    accept(login, negotiated(login.token(), KRB5, NTLM), lambda reply: response(ACCEPT_COMPLETED, KRB5, reply))
    lines.append(f"delegated ok | {der(0x30, one).hex()} {der(0x30, cred_info(1)).hex()}")
    ask_for_mics(Login(suite, delegates=deleg([two], [cred_info(2)])), (NTLM, KRB5), late=True)
    lines.append(f"delegated ok | {der(0x30, two).hex()} {der(0x30, cred_info(2)).hex()}")
    accept(Login(suite))
    lines.append("delegated none | - -")


def bad_delegations(suite):
    begin(suite)
    one, info = forwarded_ticket(1), cred_info(1)
    good = deleg([one], [info])
    section("Delegations that aren't any. The same token is then a replay.")
    for made in (
        lambda login: b"",
        lambda login: b"\1\0\0",
        lambda login: b"\1\0\0\0",
        lambda login: b"\1\0\2\0ab",
        lambda login: b"\0\0" + good(login)[2:],
        lambda login: b"\2\0" + good(login)[2:],
        lambda login: b"\0\1" + good(login)[2:],
        lambda login: good(login)[:2] + good(login)[3:1:-1] + good(login)[4:],
        lambda login: good(login)[:-1],
        lambda login: good(login)[4:],
        deleg([one], [info], cut=lambda whole: whole[:-1]),
        deleg([one], [info], cut=lambda whole: whole + b"\0"),
        deleg([one], [info], cut=lambda whole: changed(whole, 0)),
    ):
        token = Login(suite, delegates=made).token()
        refuse("BadDelegation", token)
        refuse("Admit(Krb(34))", token)
    section("Delegations that don't open.")
    for made in (
        deleg([one], [info], key=lambda login: login.subkey),
        deleg([one], [info], key=lambda login: bytes(KEY_SIZES[suite])),
        deleg([one], [info], usage=13),
        deleg([one], [info], usage=11),
        deleg([one], [info], etype=0),
        deleg([one], [info], etype=17 if suite != 17 else 18),
        deleg([one], [info], etype=23),
        deleg([one], [info], suite=17 if suite != 17 else 18, key=lambda login: login.session[: KEY_SIZES[17]]),
        deleg([one], [info], part=28),
        deleg([one], [info], version=4),
        deleg([one], [info], kind=21),
        deleg([one], []),
        deleg([], [info]),
        deleg([], []),
        deleg([one], [info, info]),
        deleg([one, one], [info]),
        deleg([one], [info], cut=lambda whole: changed(whole, -1)),
        deleg([one], [der(0x30)]),
    ):
        refuse("BadDelegation", Login(suite, delegates=made).token())
    refuse("OldSuite", Login(suite, key_suite=16, delegates=deleg([one], [])).token())
    refuse("BadSequenceNumber", Login(suite, number=2**32, delegates=deleg([], [])).token())
    delegate(Login(suite, delegates=good), [one], [info])


def main():
    check_against_the_standards()
    for suite in SUITES:
        section(f"Etype {suite}.")
        accepted(suite)
    suite = 18
    begin(suite)
    section("A subkey of another suite than the ticket's.")
    accept(Login(suite, key_suite=19))
    section("Octets after the flags, which aren't read. Sequence numbers of 32 bits, also written as negative ones.")
    accept(Login(suite, initial=initial_checksum(FLAGS, rest=b"\1\0\2\0ab")))
    lines.append("delegated none | - -")
    accept(Login(suite, number=2**32 - 1))
    accept(Login(suite, number=-2))
    section("The same token again, also in SPNEGO; and the times at the skew's ends.")
    login = Login(suite)
    accept(login)
    refuse("Admit(Krb(34))", login.token())
    refuse("Admit(Krb(34))", negotiated(login.token(), KRB5))
    accept(Login(suite), moment="20260101120500Z")
    refuse("Admit(Krb(37))", Login(suite).token(), "20260101120501Z")
    begin(suite)
    section("Another service.")
    refuse("Admit(Krb(35))", Login(suite, service=("host", "other.example.com")).token())
    section("Refused after the admission. So the same token is then a replay.")
    for outcome, deviation in (
        ("NoChecksum", {"kind": None}),
        ("NoChecksum", {"kind": 0x8004}),
        ("NoChecksum", {"kind": 16}),
        ("OtherChecksum", {"initial": b""}),
        ("OtherChecksum", {"initial": initial_checksum()[:-1]}),
        ("OtherChecksum", {"initial": initial_checksum(size=15)}),
        ("OtherChecksum", {"initial": initial_checksum(size=16 << 24)}),
        ("BadSequenceNumber", {"number": 2**32}),
        ("BadSequenceNumber", {"number": -(2**31) - 1}),
        ("UnknownKey", {"key_suite": 23}),
        ("UnknownKey", {"key_size": 31}),
        ("OldSuite", {"key_suite": 16}),
    ):
        token = Login(suite, **deviation).token()
        refuse(outcome, token)
        refuse("Admit(Krb(34))", token)
    section("No such tokens. The login that they come from is admitted after them.")
    login = Login(suite)
    token, request = login.token(), login.ap_req()
    for other in b"", token[:-1], token + b"\0", request, changed(token, 0), changed(token, 3), changed(token, 10), changed(token, 15), changed(token, 16):
        refuse("NotAToken", other)
    refuse("NotAToken", der(0x60, oid(KRB5), TOKEN_ID_AP_REP, request))
    refuse("NotAToken", der(0x60, oid(MS_KRB5), TOKEN_ID_AP_REQ, request))
    refuse("Admit(Unreadable)", der(0x60, oid(KRB5), TOKEN_ID_AP_REQ, request, b"\0"))
    refuse("Admit(Krb(31))", changed(token, len(token) // 2))
    refuse("Admit(Krb(31))", changed(token, -1))
    section("SPNEGO: other mechanisms, no mechanism, another token, and octets after it.")
    refuse("NoKerberos", negotiated(token, NTLM))
    refuse("NoKerberos", negotiated(None, NTLM, SPNEGO))
    refuse("NoKerberos", negotiated(token))
    refuse("NoKerberos", der(0x60, oid(SPNEGO), der(0xA0, sequence((2, octet_string(token))))))
    refuse("NotAToken", negotiated(request, KRB5))
    refuse("NotAToken", negotiated(token, KRB5) + b"\0")
    refuse("NotAToken", negotiated(token, KRB5).replace(SPNEGO, bytes.fromhex("2b0601050503")))
    accept(login)
    begin(suite)
    further_mics(suite)
    refused_mics(suite)
    refused_steps(suite)
    for suite in SUITES:
        own_subkeys(suite)
    for suite in 17, 18:
        bindings(suite)
        in_sequence(suite)
    ends(suite)
    for suite in SUITES:
        delegations(suite)
    bad_delegations(suite)
    with open("first_tokens.txt", "w", encoding="ascii") as file:
        file.write(HEAD + "\n" + "\n".join(lines) + "\n")
    print(sum(not line.startswith("#") for line in lines), "lines")


if __name__ == "__main__":
    main()
