#!/usr/bin/env python3
"""Writes databases of realms with a policy, and company_realms.txt: requests for tickets that are forwardable, proxiable and renewable,
with the reply of each realm and with the entry of the log.

This is an implementation of RFC 4120's rules of its own: it follows sections 2, 3.1.3, 3.3.3 and 5, and shares no code with the programs.
Messages are read by the forms of forms.py, and encrypted over Python's cryptography. Without a policy it gives each reply of
replay_realm/data/kdc_exchanges.txt, which another implementation gave (`check_without_policy`): so the rows differ by the policy alone.

usage: python3 company_realms.py        in this folder
"""
import hmac
import os
import sys

from cryptography.hazmat.decrepit.ciphers.algorithms import TripleDES
from cryptography.hazmat.primitives.ciphers import Cipher, modes

sys.dont_write_bytecode = True
import databases
import file_realms
import forms
from file_realms import (
    ACCOUNTS, KEY_SIZES, content, des3_derived, des3_key_of, exchanges, fields, key_for, key_of, opened, read_account, row, write)
from forms import BITS, ENCRYPTED, INTEGER, NAME, OCTETS, STRING, TICKET, TIME, TYPED, application, explicit, list_of, sequence
from listings import der
from tokens import SUITES

# ---- Numbers ----------------------------------------------------------------------------------------------------------------

# Options of a request (RFC 4120, section 5.4.1) and flags of a ticket (section 5.3), by their bits.
FORWARDABLE, FORWARDED, PROXIABLE, PROXY, POSTDATED, INVALID, RENEWABLE, INITIAL, PRE_AUTHENT = 1, 2, 3, 4, 6, 7, 8, 9, 10
RENEWABLE_OK, ENC_TKT_IN_SKEY, RENEW, VALIDATE = 27, 28, 30, 31
# Key usages (RFC 4120, section 7.5.1).
TIMESTAMP, TICKET_PART, AS_REPLY, BODY_SUM, AUTHENTICATOR, BY_SESSION, BY_SUBKEY = 1, 2, 3, 6, 7, 8, 9
SUMS = {12: 16, 15: 17, 16: 18, 19: 19, 20: 20}  # the checksum types, and the encryption types that they belong to
SKEW, LIFETIME, WORDS = 300, 36000, bytes(range(128))
NAME_OF_KRBTGT = (2, [b"krbtgt", b"R"])


# ---- Times, in seconds from year 0 ------------------------------------------------------------------------------------------

MONTHS = (31, 28, 31, 30, 31, 30, 31, 31, 30, 31, 30, 31)


def is_leap(year):
    return year % 4 == 0 and (year % 100 != 0 or year % 400 == 0)


def days_before(year):
    return 365 * year + (year + 3) // 4 - (year + 99) // 100 + (year + 399) // 400


def days_of(year):
    return [days + (month == 1 and is_leap(year)) for month, days in enumerate(MONTHS)]


def seconds(text):
    year, month, day, hour, minute, second = (int(text[at:end]) for at, end in ((0, 4), (4, 6), (6, 8), (8, 10), (10, 12), (12, 14)))
    days = days_before(year) + sum(days_of(year)[: month - 1]) + day - 1
    return days * 86400 + hour * 3600 + minute * 60 + second


def time(total):
    days, rest = divmod(total, 86400)
    year = days // 366
    while days_before(year + 1) <= days:
        year += 1
    days, month = days - days_before(year), 0
    while days_of(year)[month] <= days:
        days, month = days - days_of(year)[month], month + 1
    hour, rest = divmod(rest, 3600)
    return b"%04d%02d%02d%02d%02d%02dZ" % (year, month + 1, days + 1, hour, *divmod(rest, 60))


NOW = seconds(b"20000101000000Z")
NO_END, LAST = seconds(b"19700101000000Z"), seconds(b"99991231235959Z")


def asked_end(text):
    """19700101000000Z asks for the greatest end (RFC 4120, section 5.4.1)."""
    return LAST if seconds(text) == NO_END else seconds(text)


# ---- Encryption -------------------------------------------------------------------------------------------------------------

def sealed(suite, key, usage, confounder, text):
    if suite != 16:
        return SUITES[suite].encrypt(key, usage, confounder, text)
    padded = confounder[:8] + text + bytes(-len(text) % 8)
    step = Cipher(TripleDES(des3_derived(key, usage, 0xAA)), modes.CBC(bytes(8))).encryptor()
    return step.update(padded) + step.finalize() + hmac.digest(des3_derived(key, usage, 0x55), padded, "sha1")


def sum_of(suite, key, usage, text):
    return hmac.digest(des3_derived(key, usage, 0x99), text, "sha1") if suite == 16 else SUITES[suite].checksum(key, usage, text)


def key_from(suite, seed):
    return des3_key_of(seed[:21]) if suite == 16 else seed[: KEY_SIZES[suite]]


# ---- DER of what is sent ----------------------------------------------------------------------------------------------------

def number(value):
    size = max(1, (value + (value < 0)).bit_length() // 8 + 1)
    return der(2, value.to_bytes(size, "big", signed=True))


def text(octets):
    return der(0x1B, octets)


def moment(total):
    return der(0x18, time(total))


def tagged(given, first=0x30):
    """A SEQUENCE of the fields by their tags. What is None is left out."""
    return der(first, b"".join(der(0xA0 + tag, field) for tag, field in sorted(given.items()) if field is not None))


def listed(items):
    return der(0x30, b"".join(items))


def named(name):
    return tagged({0: number(name[0]), 1: listed(text(part) for part in name[1])})


def flags(bits):
    return der(3, b"\0" + sum(1 << 31 - bit for bit in bits).to_bytes(4, "big"))


def typed(kind, octets):
    return tagged({0: number(kind), 1: der(4, octets)})


def encrypted(suite, kvno, cipher):
    return tagged({0: number(suite), 1: None if kvno is None else number(kvno), 2: der(4, cipher)})


# ---- Requests, as they are read ---------------------------------------------------------------------------------------------

PA_DATA = sequence(explicit(1, INTEGER), explicit(2, OCTETS))
BODY = sequence(
    *(explicit(at, form) for at, form in enumerate(
        (BITS, NAME, STRING, NAME, TIME, TIME, TIME, INTEGER, list_of(INTEGER), list_of(TYPED), ENCRYPTED, list_of(TICKET)))),
    optional=(1, 3, 4, 6, 9, 10, 11))
KDC_REQ = sequence(explicit(1, INTEGER), explicit(2, INTEGER), explicit(3, list_of(PA_DATA)), explicit(4, BODY), optional=(3,))
AS_REQ, TGS_REQ = application(10, KDC_REQ), application(12, KDC_REQ)


def has(bits, place):
    octets = bits[1:]
    return place // 8 < len(octets) and octets[place // 8] >> 7 - place % 8 & 1 == 1


def parts(name):
    return name[1]


class Refused(Exception):
    def __init__(self, code):
        self.code = code


def refuse(case, code):
    if case:
        raise Refused(code)


class Account:
    """What a record has: keys, the newest first, attributes, and a salt."""
    def __init__(self, record):
        self.keys, (self.end, self.lifetime, marks), self.salt = read_account(record)
        self.suite, self.kvno, self.key = self.keys[0]
        self.is_off, self.must_change, self.is_no_service = (marks >> place & 1 == 1 for place in range(3))

    def has_ended(self):
        return 0 < self.end < NOW


def greatest_lifetime(*accounts):
    return min([LIFETIME] + [account.lifetime for account in accounts if account.lifetime])


class Realm:
    """RFC 4120's rules for a realm R with these accounts. Of its policy the last is a number of seconds."""
    def __init__(self, accounts, forwardable=False, proxiable=False, life=0):
        self.accounts = {key: Account(record) for key, record in accounts}
        self.forwardable, self.proxiable, self.life = forwardable, proxiable, life

    def account(self, name):
        return self.accounts.get(key_of(*parts(name)))

    def reply(self, octets):
        """The reply, or None where the octets are no request."""
        for form, judge in (AS_REQ, self.first), (TGS_REQ, self.further):
            request = forms.one(form, octets)
            if request is not None:
                try:
                    return judge(request, content(der(0x30, content(octets))), octets)
                except Refused as refused:
                    return self.error(request[4], refused.code)
        return None

    def error(self, body, code):
        client = self.account(body[1]) if 1 in body else None
        service = body.get(3, NAME_OF_KRBTGT)
        service = (service[0], service[1])
        given = {0: number(5), 1: number(30), 4: moment(NOW), 5: number(0), 6: number(code), 9: text(b"R"), 10: named(service)}
        if code == 25:
            info = listed([tagged({0: number(client.suite), 1: None if client.salt is None else text(client.salt)})])
            given[12] = der(4, listed(tagged({1: number(kind), 2: der(4, value)}) for kind, value in ((19, info), (2, b""))))
        return der(0x7E, tagged(given))

    @staticmethod
    def header(request, kind, is_refused):
        body = request[4]
        refuse(request[1] != 5, 3)
        refuse(request[2] != kind, 40)
        refuse(body[2] != b"R", 68)
        refuse(is_refused(body[0]), 13)
        refuse(has(body[0], POSTDATED), 10)

    @staticmethod
    def padata(request, kind):
        return next((entry[2] for entry in request.get(3, []) if entry[1] == kind), None)

    # ---- the AS exchange

    def first(self, request, _, octets):
        body = request[4]
        options = body[0]
        self.header(request, 10, lambda bits: any(has(bits, bit) for bit in (FORWARDED, PROXY, ENC_TKT_IN_SKEY, RENEW, VALIDATE)))
        refuse(1 not in body or self.account(body[1]) is None, 6)
        refuse(3 not in body or self.account(body[3]) is None, 7)
        client, service = self.account(body[1]), self.account(body[3])
        self.allow_first(client, service, parts(body[3]) == [b"kadmin", b"changepw"])
        refuse(4 in body and seconds(body[4]) > NOW + SKEW, 10)
        end = min(asked_end(body[5]), NOW + greatest_lifetime(client, service), LAST)
        refuse(end <= NOW, 11)
        refuse(client.suite not in body[8], 14)
        refuse(self.padata(request, 16) is not None, 16)
        self.timestamp(client, self.padata(request, 2))
        till = self.till(options, body, NOW, end, LAST)
        given = {INITIAL, PRE_AUTHENT} | self.asked_flags(options, {FORWARDABLE, PROXIABLE}) | ({RENEWABLE} if till else set())
        ticket = dict(
            flags=given, client=body[1], service=body[3], auth=NOW, start=NOW, end=end, till=till, nonce=body[7], suite=client.suite)
        return self.granted(0x6B, 11, 0x79, ticket, service, (client.suite, client.key, client.kvno, AS_REPLY))

    @staticmethod
    def allow_first(client, service, is_changepw):
        """What the attributes of both accounts allow (sections 3.1.3 and 7.5.9)."""
        refuse(client.has_ended(), 1)
        refuse(service.has_ended(), 2)
        refuse(client.must_change and not is_changepw, 23)
        refuse(client.is_off, 18)
        refuse(service.is_off, 7)
        refuse(service.is_no_service, 12)

    @staticmethod
    def timestamp(client, value):
        refuse(value is None, 25)
        found = forms.one(ENCRYPTED, value)
        stamp = found and opened(client.suite, client.key, TIMESTAMP, found, forms.TIMESTAMP)
        refuse(stamp is None, 24)
        micros = stamp.get(1, 0)
        refuse(not 0 <= micros <= 999999, 24)
        refuse(abs(seconds(stamp[0]) * 1000000 + micros - NOW * 1000000) > SKEW * 1000000, 37)

    def asked_flags(self, options, old):
        """Forwardable and proxiable (sections 2.5 and 2.6), of the flags that the presented ticket has."""
        allowed = {FORWARDABLE: self.forwardable, PROXIABLE: self.proxiable}
        return {bit for bit in (FORWARDABLE, PROXIABLE) if has(options, bit) and bit in old and allowed[bit]}

    def till(self, options, body, start, end, old):
        """The renew-till (sections 2.3 and 3.1.3): by renewable `rtime`, else by renewable-ok `till`, where it is after the endtime."""
        if has(options, RENEWABLE):
            asked = asked_end(body[6]) if 6 in body else LAST
        elif has(options, RENEWABLE_OK):
            asked = seconds(body[5])
        else:
            return None
        till = min(asked, start + self.life, old, LAST)
        return till if self.life and till > end else None

    # ---- the TGS exchange

    def further(self, request, _, octets):
        body = request[4]
        options = body[0]
        beyond = {FORWARDED: not self.forwardable, PROXY: not self.proxiable, ENC_TKT_IN_SKEY: True, RENEW: not self.life, VALIDATE: True}
        self.header(request, 12, lambda bits: any(is_refused and has(bits, bit) for bit, is_refused in beyond.items()))
        refuse(10 in body, 12)
        value = self.padata(request, 1)
        refuse(value is None, 16)
        ap_req = forms.one(forms.AP_REQ, value)
        refuse(ap_req is None, 41)
        granting = self.accounts.get(key_of(b"krbtgt", b"R"))
        refuse(granting is None, 7)
        part = self.presented(ap_req, granting)
        suite, shown = self.shown(ap_req, part)
        self.covered(suite, part[1][1], shown, fields(content(octets))[4])
        refuse(self.account(part[3]) is None, 6)
        refuse(3 not in body or self.account(body[3]) is None, 7)
        service = self.account(body[3])
        self.allow_further(self.account(part[3]), service)
        self.options(options, part, parts(body[3]) == [b"krbtgt", b"R"])
        start, end, till = self.times(options, body, part, service)
        refuse(end <= start, 11)
        own = next((etype for etype in body[8] if etype in KEY_SIZES), None)
        refuse(own is None, 14)
        subkey = shown.get(6)
        refuse(subkey is not None and KEY_SIZES.get(subkey[0]) != len(subkey[1]), 31)
        under = (suite, part[1][1], None, BY_SESSION) if subkey is None else (subkey[0], subkey[1], None, BY_SUBKEY)
        till = till if has(options, RENEW) else self.later_till(options, body, part, start, end)
        addresses = body.get(9) if has(options, FORWARDED) or has(options, PROXY) else None
        ticket = dict(
            flags=self.later_flags(options, part, till), client=part[3], service=body[3], auth=seconds(part[5]), start=start, end=end,
            till=till, nonce=body[7], suite=own, addresses=addresses)
        return self.granted(0x6D, 13, 0x7A, ticket, service, under)

    @staticmethod
    def allow_further(client, service):
        """What the attributes of both accounts allow (sections 3.3.3 and 7.5.9)."""
        refuse(client.has_ended(), 1)
        refuse(client.is_off, 18)
        refuse(service.is_off, 7)
        refuse(service.is_no_service, 12)
        refuse(service.has_ended(), 2)

    @staticmethod
    def presented(ap_req, granting):
        ticket = ap_req[3]
        refuse(ap_req[0] != 5 or ticket[0] != 5, 39)
        refuse(ap_req[1] != 14, 40)
        refuse(ticket[1] != b"R" or parts(ticket[2]) != [b"krbtgt", b"R"], 35)
        suite, kvno, key = key_for(ticket[3], granting.keys)
        refuse(ticket[3].get(1, kvno) != kvno, 44)
        part = opened(suite, key, TICKET_PART, ticket[3], forms.TICKET_PART)
        refuse(part is None, 31)
        refuse(part[2] != b"R", 68)
        refuse(seconds(part.get(6, part[5])) > NOW + SKEW or has(part[0], INVALID), 33)
        refuse(NOW > seconds(part[7]) + SKEW, 32)
        return part

    @staticmethod
    def shown(ap_req, part):
        suite, key = part[1][0], part[1][1]
        refuse(KEY_SIZES.get(suite) != len(key), 31)
        shown = opened(suite, key, AUTHENTICATOR, ap_req[4], forms.AUTHENTICATOR)
        refuse(shown is None, 31)
        refuse(shown[0] != 5, 39)
        refuse(shown[1] != part[2] or parts(shown[2]) != parts(part[3]), 36)
        refuse(not 0 <= shown[4] <= 999999, 41)
        refuse(abs(seconds(shown[5]) * 1000000 + shown[4] - NOW * 1000000) > SKEW * 1000000, 37)
        return suite, shown

    @staticmethod
    def covered(suite, key, shown, body):
        refuse(3 not in shown, 50)
        kind, value = shown[3][0], shown[3][1]
        refuse(kind not in SUMS, 15)
        refuse(SUMS[kind] != suite, 50)
        refuse(value != sum_of(suite, key, BODY_SUM, body), 41)

    @staticmethod
    def options(options, part, is_krbtgt):
        """Section 3.3.3. The codes are those of krb5kdc."""
        forwards, proxies, renews = (has(options, bit) for bit in (FORWARDED, PROXY, RENEW))
        refuse(forwards and not has(part[0], FORWARDABLE), 13)
        refuse(proxies and not has(part[0], PROXIABLE), 13)
        refuse(renews and not (has(part[0], RENEWABLE) and 8 in part), 13)
        refuse(renews and seconds(part[8]) <= NOW, 32)
        refuse((renews or forwards) and not is_krbtgt, 26)
        refuse(proxies and is_krbtgt, 13)

    @staticmethod
    def times(options, body, part, service):
        """Starttime, endtime, and the renew-till of a renewal (section 3.3.3)."""
        old_end = seconds(part[7])
        if not has(options, RENEW):
            return NOW, min(asked_end(body[5]), NOW + greatest_lifetime(service), old_end), None
        life = max(0, old_end - seconds(part.get(6, part[5])))
        return NOW, min(NOW + life, seconds(part[8]), LAST), seconds(part[8])

    def later_till(self, options, body, part, start, end):
        is_renewable = has(part[0], RENEWABLE) and 8 in part
        return self.till(options, body, start, end, seconds(part[8])) if is_renewable else None

    def later_flags(self, options, part, till):
        old = {bit for bit in range(32) if has(part[0], bit)}
        given = self.asked_flags(options, old) | (old & {PRE_AUTHENT})
        if has(options, FORWARDED) or FORWARDED in old and self.forwardable:
            given.add(FORWARDED)
        if has(options, PROXY):
            given.add(PROXY)
        if till is not None:
            given.add(RENEWABLE)
        return given

    # ---- what is granted

    @staticmethod
    def granted(reply_tag, kind, part_tag, ticket, service, under):
        session = typed(ticket["suite"], key_from(ticket["suite"], WORDS))
        till = None if ticket["till"] is None else moment(ticket["till"])
        client, name = named((ticket["client"][0], parts(ticket["client"]))), named((ticket["service"][0], parts(ticket["service"])))
        addresses = None
        if ticket.get("addresses") is not None:
            addresses = listed(typed(entry[0], entry[1]) for entry in ticket["addresses"])
        times = {"auth": moment(ticket["auth"]), "start": moment(ticket["start"]), "end": moment(ticket["end"])}
        part = der(0x63, tagged({
            0: flags(ticket["flags"]), 1: session, 2: text(b"R"), 3: client, 4: typed(1, b""), 5: times["auth"], 6: times["start"],
            7: times["end"], 8: till, 9: addresses}))
        own = der(part_tag, tagged({
            0: session, 1: listed([tagged({0: number(0), 1: times["start"]})]), 2: number(ticket["nonce"]), 4: flags(ticket["flags"]),
            5: times["auth"], 6: times["start"], 7: times["end"], 8: till, 9: text(b"R"), 10: name, 11: addresses}))
        cipher = sealed(service.suite, service.key, TICKET_PART, WORDS[32:48], part)
        made = der(0x61, tagged({0: number(5), 1: text(b"R"), 2: name, 3: encrypted(service.suite, service.kvno, cipher)}))
        suite, key, kvno, usage = under
        answer = encrypted(suite, kvno, sealed(suite, key, usage, WORDS[48:64], own))
        return der(reply_tag, tagged({0: number(5), 1: number(kind), 3: text(b"R"), 4: client, 5: made, 6: answer}))


def check_without_policy():
    """Without a policy each reply is that of the other implementation."""
    realm, count = Realm(ACCOUNTS), 0
    for label, request, reply, _ in exchanges():
        told = realm.reply(bytes.fromhex(request))
        assert (told.hex() if told else "Unreadable") == reply, label
        count += 1
    return count


# ---- Requests that are made here --------------------------------------------------------------------------------------------

A_KEY = Account(dict(ACCOUNTS)[key_of(b"a")])
SESSION = bytes(range(200, 232))  # the session key of presented tickets, of AES-256
CONFOUNDER = bytes(range(100, 116))
KRBTGT, SERVICE = (2, [b"krbtgt", b"R"]), (2, [b"h"])
HOUR, DAY = 3600, 86400


def body_of(options, service, till=NOW + 10 * HOUR, rtime=None, etypes=(18,), client=None, addresses=None):
    return tagged({
        0: flags(options), 1: client and named(client), 2: text(b"R"), 3: named(service), 5: moment(till),
        6: None if rtime is None else moment(rtime), 7: number(42), 8: listed(number(etype) for etype in etypes),
        9: None if addresses is None else listed(typed(kind, octets) for kind, octets in addresses)})


def request_of(first, kind, padata, body):
    entries = listed(tagged({1: number(own), 2: der(4, value)}) for own, value in padata)
    return der(first, tagged({1: number(5), 2: number(kind), 3: entries, 4: body}))


def as_request(options, who=b"a", key=A_KEY.key, **asked):
    stamp = tagged({0: moment(NOW), 1: number(0)})
    padata = [] if key is None else [(2, encrypted(18, None, sealed(18, key, TIMESTAMP, CONFOUNDER, stamp)))]
    return request_of(0x6A, 10, padata, body_of(options, asked.pop("service", KRBTGT), client=(1, [who]), **asked))


def ticket_of(given, auth=NOW - HOUR, start=NOW - HOUR, end=NOW + 9 * HOUR, till=None, who=b"a", under=(18, 1, bytes(32))):
    part = der(0x63, tagged({
        0: flags(given), 1: typed(18, SESSION), 2: text(b"R"), 3: named((1, [who])), 4: typed(1, b""), 5: moment(auth),
        6: None if start is None else moment(start), 7: moment(end), 8: None if till is None else moment(till)}))
    suite, kvno, key = under
    cipher = encrypted(suite, kvno, sealed(suite, key, TICKET_PART, CONFOUNDER, part))
    return der(0x61, tagged({0: number(5), 1: text(b"R"), 2: named(KRBTGT), 3: cipher}))


def tgs_request(ticket, options, service=SERVICE, who=b"a", **asked):
    body = body_of(options, service, **asked)
    total = typed(16, sum_of(18, SESSION, BODY_SUM, body))
    shown = der(0x62, tagged({0: number(5), 1: text(b"R"), 2: named((1, [who])), 3: total, 4: number(0), 5: moment(NOW)}))
    cipher = encrypted(18, None, sealed(18, SESSION, AUTHENTICATOR, CONFOUNDER, shown))
    ap_req = der(0x6E, tagged({0: number(5), 1: number(14), 2: flags(()), 3: ticket, 4: cipher}))
    return request_of(0x6C, 12, [(1, ap_req)], body)


# IPv4 and IPv6 (RFC 4120, section 7.5.3), and a type that nobody knows.
ADDRESSES = [(2, bytes([192, 0, 2, 1])), (24, bytes.fromhex("20010db8") + bytes(11) + b"\1"), (-5, b"")]
PLAIN = {INITIAL, PRE_AUTHENT}
ALL = PLAIN | {FORWARDABLE, PROXIABLE, RENEWABLE}
WEEK = 7 * DAY


def first_tickets():
    """AS requests."""
    yield "as honest, company", as_request(())
    yield "as forwardable", as_request({FORWARDABLE})
    yield "as proxiable", as_request({PROXIABLE})
    yield "as forwardable, proxiable, renewable", as_request({FORWARDABLE, PROXIABLE, RENEWABLE}, rtime=NOW + WEEK)
    yield "as renewable", as_request({RENEWABLE}, rtime=NOW + 3 * DAY)
    yield "as renewable, past the policy", as_request({RENEWABLE}, rtime=NOW + 30 * DAY)
    yield "as renewable, no rtime", as_request({RENEWABLE})
    yield "as renewable, rtime 1970", as_request({RENEWABLE}, rtime=NO_END)
    for name, rtime in ("before the end", NOW + HOUR), ("at the end", NOW + 10 * HOUR), ("a second after the end", NOW + 10 * HOUR + 1):
        yield f"as renewable, rtime {name}", as_request({RENEWABLE}, rtime=rtime)
    yield "as rtime without an option", as_request((), rtime=NOW + WEEK)
    yield "as renewable-ok", as_request({RENEWABLE_OK}, till=NOW + 2 * DAY)
    yield "as renewable-ok, till past the policy", as_request({RENEWABLE_OK}, till=NOW + 30 * DAY)
    yield "as renewable-ok, till within the lifetime", as_request({RENEWABLE_OK}, till=NOW + 10 * HOUR)
    yield "as renewable-ok, till 1970", as_request({RENEWABLE_OK}, till=NO_END)
    yield "as renewable and renewable-ok", as_request({RENEWABLE, RENEWABLE_OK}, till=NOW + 2 * DAY, rtime=NOW + 4 * DAY)
    refused = ("forwarded", FORWARDED), ("proxy", PROXY), ("enc-tkt-in-skey", ENC_TKT_IN_SKEY), ("renew", RENEW), ("validate", VALIDATE)
    for name, bit in refused:
        yield f"as option {name}, company", as_request({bit})
    yield "as addresses, company", as_request({FORWARDABLE}, addresses=ADDRESSES)
    yield "as option postdated, company", as_request({POSTDATED})
    yield "as forwardable for a service", as_request({FORWARDABLE}, service=SERVICE)


def further_tickets():
    """TGS requests."""
    plain, whole = ticket_of(PLAIN), ticket_of(ALL, till=NOW + WEEK)
    yield "tgs honest, company", tgs_request(whole, ())
    yield "tgs forwardable", tgs_request(whole, {FORWARDABLE})
    yield "tgs forwardable by another one", tgs_request(plain, {FORWARDABLE})
    yield "tgs proxiable", tgs_request(whole, {PROXIABLE})
    yield "tgs proxiable by another one", tgs_request(plain, {PROXIABLE})
    yield "tgs renewable", tgs_request(whole, {RENEWABLE}, rtime=NOW + 3 * DAY)
    yield "tgs renewable, past the old renew-till", tgs_request(whole, {RENEWABLE}, rtime=NOW + 30 * DAY)
    yield "tgs renewable, past the policy", tgs_request(ticket_of(ALL, till=NOW + 30 * DAY), {RENEWABLE}, rtime=NOW + 30 * DAY)
    yield "tgs renewable by another one", tgs_request(plain, {RENEWABLE}, rtime=NOW + 3 * DAY)
    yield "tgs renewable, no old renew-till", tgs_request(ticket_of(ALL), {RENEWABLE}, rtime=NOW + 3 * DAY)
    yield "tgs renewable-ok", tgs_request(whole, {RENEWABLE_OK}, till=NOW + 2 * DAY)
    yield "tgs renewable-ok, till within", tgs_request(whole, {RENEWABLE_OK}, till=NOW + HOUR)

    yield "tgs forwarded", tgs_request(whole, {FORWARDED, FORWARDABLE}, KRBTGT)
    yield "tgs forwarded, not again forwardable", tgs_request(whole, {FORWARDED}, KRBTGT)
    yield "tgs forwarded, not forwardable", tgs_request(plain, {FORWARDED}, KRBTGT)
    yield "tgs forwarded for a service", tgs_request(whole, {FORWARDED})
    yield "tgs forwarded for a service, not forwardable", tgs_request(plain, {FORWARDED})
    forwarded = ticket_of({PRE_AUTHENT, FORWARDED, FORWARDABLE})
    yield "tgs by forwarded", tgs_request(forwarded, ())
    yield "tgs by forwarded, forwarded", tgs_request(forwarded, {FORWARDED}, KRBTGT)
    yield "tgs forwarded and renewable", tgs_request(whole, {FORWARDED, RENEWABLE}, KRBTGT)

    yield "tgs proxy", tgs_request(whole, {PROXY})
    yield "tgs proxy, not proxiable", tgs_request(plain, {PROXY})
    yield "tgs proxy for krbtgt", tgs_request(whole, {PROXY}, KRBTGT)
    yield "tgs proxy and forwarded", tgs_request(whole, {PROXY, FORWARDED})
    yield "tgs proxy and forwarded for krbtgt", tgs_request(whole, {PROXY, FORWARDED}, KRBTGT)

    yield "tgs renew", tgs_request(whole, {RENEW, RENEWABLE, FORWARDABLE, PROXIABLE}, KRBTGT)
    yield "tgs renew, no other option", tgs_request(whole, {RENEW}, KRBTGT)
    yield "tgs renew, till past", tgs_request(whole, {RENEW}, KRBTGT, till=NOW - DAY)
    yield "tgs renew, last days", tgs_request(ticket_of(ALL, till=NOW + HOUR), {RENEW}, KRBTGT)
    yield "tgs renew, no starttime", tgs_request(ticket_of(ALL, auth=NOW - 2 * HOUR, start=None, till=NOW + WEEK), {RENEW}, KRBTGT)
    yield "tgs renew, starttime after authtime", tgs_request(ticket_of(ALL, auth=NOW - DAY, till=NOW + WEEK), {RENEW}, KRBTGT)
    yield "tgs renew, not renewable", tgs_request(plain, {RENEW}, KRBTGT)
    yield "tgs renew, no renew-till", tgs_request(ticket_of(ALL), {RENEW}, KRBTGT)
    yield "tgs renew, renew-till without the flag", tgs_request(ticket_of(PLAIN, till=NOW + WEEK), {RENEW}, KRBTGT)
    for name, till in ("past", NOW - 1), ("now", NOW), ("a second on", NOW + 1):
        yield f"tgs renew, renew-till edges {name}", tgs_request(ticket_of(ALL, till=till), {RENEW}, KRBTGT)
    yield "tgs renew, renew-till past, for a service", tgs_request(ticket_of(ALL, till=NOW - 1), {RENEW})
    yield "tgs renew for a service", tgs_request(whole, {RENEW})
    yield "tgs renew, life of nothing", tgs_request(ticket_of(ALL, start=NOW + 10, end=NOW + 10, till=NOW + WEEK), {RENEW}, KRBTGT)
    for name, end in ("within", NOW - 200), ("past", NOW - 301):
        ended = ticket_of(ALL, start=NOW - 10 * HOUR, end=end, till=NOW + WEEK)
        yield f"tgs renew, end {name} the skew", tgs_request(ended, {RENEW}, KRBTGT)
    yield "tgs renew and forwarded", tgs_request(whole, {RENEW, FORWARDED, FORWARDABLE}, KRBTGT)
    yield "tgs renew and proxy", tgs_request(whole, {RENEW, PROXY}, KRBTGT)
    yield "tgs forwarded, addresses", tgs_request(whole, {FORWARDED}, KRBTGT, addresses=ADDRESSES)
    yield "tgs forwarded, no address", tgs_request(whole, {FORWARDED}, KRBTGT, addresses=[])
    yield "tgs proxy, addresses", tgs_request(whole, {PROXY}, addresses=ADDRESSES)
    yield "tgs addresses without an option", tgs_request(whole, (), addresses=ADDRESSES)
    yield "tgs renew, addresses", tgs_request(whole, {RENEW}, KRBTGT, addresses=ADDRESSES)
    yield "tgs renew and forwarded, addresses", tgs_request(whole, {RENEW, FORWARDED}, KRBTGT, addresses=ADDRESSES)
    for name, bit in ("enc-tkt-in-skey", ENC_TKT_IN_SKEY), ("validate", VALIDATE), ("postdated", POSTDATED):
        yield f"tgs option {name}, company", tgs_request(whole, {bit})


# ---- The file ---------------------------------------------------------------------------------------------------------------

file_realms.ERRORS |= {26: "KDC_ERR_SERVER_NOMATCH", 32: "KRB_AP_ERR_TKT_EXPIRED"}
# The number of a policy: what it has for triple DES, forwardable, proxiable and each second of the renewable life.
POLICIES = {
    "company.cdb": dict(forwardable=True, proxiable=True, life=WEEK),
    "forwardable.cdb": dict(forwardable=True),
    "renewable.cdb": dict(life=WEEK),
}


def policy_number(forwardable=False, proxiable=False, life=0):
    return 2 * forwardable + 4 * proxiable + 16 * life


def rows_of(realm, requests, accounts=ACCOUNTS):
    return "".join(row(label, octets.hex(), realm.reply(octets).hex(), accounts=accounts) for label, octets in requests)


HEAD = """\
# Written by company_realms.py.
# The rows are as in file_realms.txt: open PATH, and ask | label | request | reply | entry at 2000-01-01 00:00:00 with the random octets 00
# to 7F. Realm R has the accounts of four_accounts.cdb. Tickets are forwardable, proxiable and renewable for a week in company.cdb, forwardable
# alone in forwardable.cdb, and renewable for a week alone in renewable.cdb. four_accounts.cdb has no policy.
"""


def main():
    count = check_without_policy()
    print(f"{count} recorded replies are given without a policy")
    requests = [*first_tickets(), *further_tickets()]
    with open(os.path.join(os.path.dirname(os.path.abspath(__file__)), "company_realms.txt"), "w", encoding="ascii") as out:
        out.write(HEAD)
        for path, policy in POLICIES.items():
            record = file_realms.realm_record(b"R", SKEW, LIFETIME, policy_number(**policy))
            write(path, databases.database(ACCOUNTS + [(b"\xff", record)]))
            out.write(f"open {path}\n" + rows_of(Realm(ACCOUNTS, **policy), requests))
        out.write("open four_accounts.cdb\n" + rows_of(Realm(ACCOUNTS), requests))


if __name__ == "__main__":
    main()
