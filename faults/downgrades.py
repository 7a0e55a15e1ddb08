"""A hostile KDC for krb_login, over its pipes: see downgrades.sh.

Each attack is a run of the program with answers of its own, to the first request, the second one and so on. What counts is what the program
sends, its status, and its cache. The controls at the end are answers that it has to take, so that the attacks show something.
"""
import concurrent.futures, os, shutil, subprocess, sys, tempfile

TOP = os.path.dirname(os.path.dirname(os.path.abspath(__file__)))
CRATE = os.path.join(TOP, "crates", "krb_login")
OLD = b"\x05\x04the old cache"
REALM, USER, SERVICE = "EXAMPLE.COM", "user", "host/server.example.com"
SALT = REALM + USER
DES3, AES128, AES256, AES128_SHA2, AES256_SHA2 = 16, 17, 18, 19, 20
AES = (AES256, AES128, AES256_SHA2, AES128_SHA2)
# The iteration counts of the suites (RFC 3962, section 4; RFC 8009, section 4).
ROUNDS = {AES128: 4096, AES256: 4096, AES128_SHA2: 32768, AES256_SHA2: 32768}
STRENGTHS = {DES3: 112, AES128: 128, AES128_SHA2: 128, AES256: 256, AES256_SHA2: 256}
PA_ENC_TIMESTAMP, PA_ETYPE_INFO2, PA_PK_AS_REQ = 2, 19, 16
ETYPE_NOSUPP, PREAUTH_REQUIRED, RESPONSE_TOO_BIG = 14, 25, 52
LIMIT = 100  # answers of a run


# ==== DER

def element(first, content):
    if len(content) < 128:
        return bytes([first, len(content)]) + content
    size = (len(content).bit_length() + 7) // 8
    return bytes([first, 128 + size]) + len(content).to_bytes(size, "big") + content


def sequence(*parts):
    return element(0x30, b"".join(parts))


def number(value):
    return element(2, value.to_bytes(value.bit_length() // 8 + 1, "big"))


def text(value):
    return element(0x1B, value if isinstance(value, bytes) else value.encode())


def field(tag, content):
    return element(0xA0 + tag, content)


def principal(kind, components):
    return sequence(field(0, number(kind)), field(1, sequence(*map(text, components))))


def parts_of(octets):
    """The elements of a constructed value's content: first octet and content of each."""
    parts = []
    while octets:
        size, place = octets[1], 2
        if size >= 128:
            place, size = 2 + size - 128, int.from_bytes(octets[2 : 2 + size - 128], "big")
        parts.append((octets[0], octets[place : place + size]))
        octets = octets[place + size :]
    return parts


def inner(octets):
    return parts_of(octets)[0][1]


def fields_of(sequence_content):
    return {first - 0xA0: content for first, content in parts_of(sequence_content)}


def whole(octets):
    return int.from_bytes(inner(octets), "big", signed=True)


# ==== requests

class Request:
    """A request: its msg-type, its etypes, and the padata by type."""

    def __init__(self, octets):
        fields = fields_of(inner(inner(octets)))
        body = fields_of(inner(fields[4]))
        self.kind = whole(fields[2])
        self.etypes = [int.from_bytes(one, "big", signed=True) for _, one in parts_of(inner(body[8]))]
        rows = [fields_of(one) for _, one in parts_of(inner(fields[3]))] if 3 in fields else []
        self.padata = {whole(row[1]): inner(row[2]) for row in rows}

    def timestamp_etype(self):
        """The etype of the encrypted timestamp, or none."""
        if PA_ENC_TIMESTAMP not in self.padata:
            return None
        return whole(fields_of(inner(self.padata[PA_ENC_TIMESTAMP]))[0])


# ==== answers

def error(code, e_data=None):
    return element(0x7E, sequence(
        field(0, number(5)), field(1, number(30)), field(4, element(0x18, b"20261128040000Z")), field(5, number(0)), field(6, number(code)),
        field(9, text(REALM)), field(10, principal(2, ["krbtgt", REALM])), *([] if e_data is None else [field(12, element(4, e_data))]),
    ))


def method_data(*rows):
    return sequence(*(sequence(field(1, number(kind)), field(2, element(4, value))) for kind, value in rows))


def info(*entries):
    """ETYPE-INFO2 of entries: etype, salt or none, s2kparams or none."""
    return sequence(*(sequence(
        field(0, number(etype)), *([] if salt is None else [field(1, text(salt))]), *([] if params is None else [field(2, element(4, params))]),
    ) for etype, salt, params in entries))


def required(*entries):
    """The error that asks for an encrypted timestamp under a key of these entries."""
    return error(PREAUTH_REQUIRED, method_data((PA_ENC_TIMESTAMP, b""), (PA_ETYPE_INFO2, info(*entries))))


def reply(kind, etype, entries=None):
    """A reply that nobody encrypted."""
    sealed = sequence(field(0, number(etype)), field(2, element(4, bytes(120))))
    ticket = element(0x61, sequence(field(0, number(5)), field(1, text(REALM)), field(2, principal(2, ["krbtgt", REALM])), field(3, sealed)))
    padata = [] if entries is None else [field(2, method_data((PA_ETYPE_INFO2, info(*entries))))]
    return element({11: 0x6B, 13: 0x6D}[kind], sequence(
        field(0, number(5)), field(1, number(kind)), *padata, field(3, text(REALM)), field(4, principal(1, [USER])), field(5, ticket), field(6, sealed),
    ))


def recorded():
    """The answers that MIT's krb5kdc once gave to the run of crates/krb_login: an error, an AS reply and a TGS reply."""
    with open(os.path.join(CRATE, "stdin"), "rb") as it:
        octets = it.read()
    found = []
    while octets:
        size = int.from_bytes(octets[:4], "big")
        found.append(octets[4 : 4 + size])
        octets = octets[4 + size :]
    return found


def with_etype(octets, etype):
    """The reply with this etype of its enc-part."""
    fields = fields_of(inner(inner(octets)))
    sealed = fields_of(inner(fields[6]))
    sealed[0] = number(etype)
    fields[6] = sequence(*(field(tag, sealed[tag]) for tag in sorted(sealed)))
    return element(octets[0], sequence(*(field(tag, fields[tag]) for tag in sorted(fields))))


# ==== runs

class Ended:
    """How a run ended that got these answers, the last one again and again: status, lines, requests, and whether the cache is the old one."""

    def __init__(self, program, words, answers, files):
        with tempfile.TemporaryDirectory() as folder:
            for name in FILES:
                os.symlink(os.path.join(files, name), os.path.join(folder, name))
            cache = os.path.join(folder, "cache")
            with open(cache, "wb") as it:
                it.write(OLD)
            self.run([program, "-c", "cache", *words], answers, folder)
            with open(cache, "rb") as it:
                self.is_old = it.read() == OLD
            self.left = sorted(set(os.listdir(folder)) - {"cache", *FILES})

    def run(self, command, answers, folder):
        how = dict(cwd=folder, stdin=subprocess.PIPE, stdout=subprocess.PIPE, stderr=subprocess.PIPE)
        with subprocess.Popen(command, **how) as run:
            self.requests = []
            try:
                self.answer(run, answers)
                run.stdin.close()
            except BrokenPipeError:
                pass
            self.lines = run.stderr.read().decode(errors="replace").splitlines()
            self.status = run.wait(60)

    def answer(self, run, answers):
        while len(self.requests) < LIMIT:
            head = run.stdout.read(4)
            if len(head) < 4:
                return
            self.requests.append(Request(run.stdout.read(int.from_bytes(head, "big"))))
            octets = answers[min(len(self.requests), len(answers)) - 1]
            run.stdin.write(len(octets).to_bytes(4, "big") + octets)
            run.stdin.flush()


def weakest(etypes):
    return min((STRENGTHS.get(etype, 0) for etype in etypes), default=0)


def fault_of(ended, most):
    """What an attacker got that it may not get, or none. `most`: how many requests at most. Without a request nothing was attacked."""
    if not ended.requests:
        return f"no request: {ended.lines}"
    if len(ended.requests) > most:
        return f"{len(ended.requests)} requests, and not {most} at most"
    for request in ended.requests:
        if not set(request.etypes) <= set(AES):
            return f"a request with the etypes {request.etypes}"
        if weakest(request.etypes) < weakest(ended.requests[0].etypes):
            return f"a request with the etypes {request.etypes}, after one with {ended.requests[0].etypes}"
        if request.timestamp_etype() not in (None, *AES):
            return f"an encrypted timestamp of etype {request.timestamp_etype()}"
    if not ended.is_old or ended.left:
        return f"a cache, or a file beside it: {ended.left}"
    if ended.status != 1 or len(ended.lines) != 1 or not ended.lines[0].startswith("krb_login: "):
        return f"status {ended.status} with the lines {ended.lines}"
    return None


FILES = ("password", "words", "pkinit")
BY_PASSWORD = ["-p", "password", f"{USER}@{REALM}"]
BY_CERTIFICATE = ["-C", "pkinit/client.pem", "-K", "pkinit/client.key", "-A", "pkinit/anchor.pem", f"{USER}@{REALM}"]


def attacks():
    """Each attack: its title, the arguments, the answers, and how many requests they may bring at most."""
    other_salts = ("", "x", SALT + "x", SALT[:-1], REALM, USER, SALT.lower(), "EXAMPLE.COMroot", "\x1b[31m\n")
    for etype in (0, 1, 2, 3, 5, 7, 15, DES3, 23, 24, 25, 26, 255):
        for salt in (None, SALT, *other_salts):
            yield f"etype {etype}, salt {salt!r}", BY_PASSWORD, [required((etype, salt, None))], 1
    for etype in AES:
        for salt in other_salts:
            yield f"etype {etype}, salt {salt!r}", BY_PASSWORD, [required((etype, salt, None))], 1
            yield f"a reply of etype {etype}, salt {salt!r}", BY_PASSWORD, [reply(11, etype, [(etype, salt, None)])], 1
        for rounds in (0, 1, 2, 1000, ROUNDS[etype] - 1, ROUNDS[etype] + 1, 2**31, 2**32 - 1):
            yield f"etype {etype}, {rounds} rounds", BY_PASSWORD, [required((etype, SALT, rounds.to_bytes(4, "big")))], 1
        for params in (b"", b"\0\0\x10", b"\0\0\0\x10\0"):
            yield f"etype {etype}, s2kparams {params.hex()}", BY_PASSWORD, [required((etype, SALT, params))], 1
        yield f"a reply of etype {etype} that nobody encrypted", BY_PASSWORD, [reply(11, etype, [(etype, SALT, None)])], 1
        yield f"a reply of etype {etype} after error 25", BY_PASSWORD, [required((etype, SALT, None)), reply(11, etype)], 2
        yield f"error 25 again, then a weaker one, etype {etype}", BY_PASSWORD, [required((etype, SALT, None)), required((DES3, "", None))], 2
        yield f"error 25 without end, etype {etype}", BY_PASSWORD, [required((etype, SALT, None))], 2
        yield f"error 14 after error 25, etype {etype}", BY_PASSWORD, [required((etype, SALT, None)), error(ETYPE_NOSUPP)], 2
    for code in (*range(0, 100), 2**31 - 1):
        if code != PREAUTH_REQUIRED:
            yield f"error {code} without end", BY_PASSWORD, [error(code)], 1
    yield "a reply of triple DES", BY_PASSWORD, [reply(11, DES3, [(DES3, "", None)])], 1
    yield "a TGS reply in place of an AS reply", BY_PASSWORD, [reply(13, AES256)], 1
    yield "error 25 without a hint", BY_PASSWORD, [error(PREAUTH_REQUIRED)], 1
    yield "error 25, another padata alone", BY_PASSWORD, [error(PREAUTH_REQUIRED, method_data((PA_ENC_TIMESTAMP, b"")))], 1
    yield "triple DES before AES, other salt", BY_PASSWORD, [required((DES3, "", None), (AES256, "", None))], 1
    yield "no octets", BY_PASSWORD, [b""], 1


def further_attacks():
    """Attacks on what follows the recorded error and AS reply: the request for a service ticket. And attacks on a request by certificate."""
    with open(os.path.join(CRATE, "args")) as it:
        words = it.read().split("\n")[:-1]
    words = words[2:] if words[0] == "-c" else words
    first, second, third = recorded()
    for code in (ETYPE_NOSUPP, PREAUTH_REQUIRED, RESPONSE_TOO_BIG, 7):
        yield f"a service: error {code} without end", words, [first, second, error(code)], 3
    for etype in (DES3, AES128, AES128_SHA2, AES256_SHA2, 23):
        yield f"a service: the reply under etype {etype}", words, [first, second, with_etype(third, etype)], 3
        yield f"a service: another reply of etype {etype}", words, [first, second, reply(13, etype)], 3
        yield f"the AS reply under etype {etype}", words, [first, with_etype(second, etype)], 2
    yield "a service: the AS reply again", words, [first, second, second], 3
    yield "the AS reply in place of error 25", words, [second], 1
    yield "the AS reply after two errors", words, [first, first, second], 2
    for code in (ETYPE_NOSUPP, PREAUTH_REQUIRED, RESPONSE_TOO_BIG, 65, 66):
        yield f"by certificate: error {code} without end", BY_CERTIFICATE, [error(code)], 1
    for etype in (DES3, *AES):
        yield f"by certificate: a reply of etype {etype}", BY_CERTIFICATE, [reply(11, etype)], 1
        yield f"by certificate: error 25, etype {etype}, empty salt", BY_CERTIFICATE, [required((etype, "", None))], 1


def controls():
    """Answers that bring an encrypted timestamp: its etype, and the arguments with which it comes."""
    for etype in AES:
        yield etype, BY_PASSWORD, required((etype, SALT, None))
        yield etype, BY_PASSWORD, required((etype, None, ROUNDS[etype].to_bytes(4, "big")))
    yield AES256, BY_PASSWORD, required((DES3, "", None), (AES256, SALT, None))
    yield AES256, ["-e", "aes256-cts-hmac-sha1-96", *BY_PASSWORD], required((AES256, "EXAMPLE.COMroot", None))
    yield DES3, ["-e", "aes256-cts-hmac-sha1-96", "-e", "des3-cbc-sha1-kd", *BY_PASSWORD], required((DES3, SALT, None))


def is_control(ended, etype):
    """Whether the second request has an encrypted timestamp of this etype, and lists it alone."""
    return len(ended.requests) == 2 and ended.requests[1].timestamp_etype() == etype and ended.requests[1].etypes == [etype] and ended.is_old


def made(folder):
    """The files that a run needs: those of the recorded one, and certificates."""
    for name in ("password", "words"):
        shutil.copy(os.path.join(CRATE, "data", name), folder)
        os.chmod(os.path.join(folder, name), 0o600)
    script = os.path.join(TOP, "examples", "pkinit_certificates.sh")
    subprocess.run([script, REALM, USER, os.path.join(folder, "pkinit")], check=True, stdout=subprocess.DEVNULL, stderr=subprocess.DEVNULL)


def main():
    program, through, most = os.path.abspath(sys.argv[1]), 0, 0
    with tempfile.TemporaryDirectory() as files, concurrent.futures.ThreadPoolExecutor(len(os.sched_getaffinity(0))) as pool:
        made(files)
        rows = [*attacks(), *further_attacks()]
        for (title, _, _, requests), ended in zip(rows, pool.map(lambda row: Ended(program, row[1], row[2], files), rows)):
            most = max(most, len(ended.requests))
            fault = fault_of(ended, requests)
            if fault:
                through += 1
                print(f"GOT THROUGH: {title}: {fault}", flush=True)
        wanted = list(controls())
        for (etype, words, _), ended in zip(wanted, pool.map(lambda row: Ended(program, row[1], [row[2], error(ETYPE_NOSUPP)], files), wanted)):
            if not is_control(ended, etype):
                through += 1
                print(f"WRONG: no encrypted timestamp of etype {etype} with {' '.join(words)}: {ended.lines}", flush=True)
    print(f"{len(rows)} attacks, {most} requests in a run at most")
    print("none got through" if not through else f"{through} got through")
    return int(through > 0)


if __name__ == "__main__":
    sys.exit(main())
