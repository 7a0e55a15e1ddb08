#!/usr/bin/env python3
"""Writes hints.txt: what MIT's krb5kdc and Heimdal's kdc answer to AS requests without padata, damaged copies of these answers, and what
a client makes of each.

A row's suites are those that the client lists. The word `usual` stands for the usual ones, and behind others it says that the user named none.
A row of the kind `padata`, `service` or `renewal` has what a request ends with: its field req-body. Behind the kinds `request` and `padata`
stand the options of the request, and its rtime.

The requests are of an encoder of this file, which shares no code with the program that replays the rows. The keys are those that the
KDCs hold, by kadmin.local's `ktadd -norandkey` and Heimdal's `kadmin ext_keytab`, and the salts are read here, too. It needs Debian's
krb5-kdc, krb5-admin-server, heimdal-kdc and heimdal-clients: installed, or unpacked (dpkg -x) in the folders that MIT and HEIMDAL name.

usage: python3 hints.py         in this folder; each run asks the KDCs anew, so the times and tickets in hints.txt are others
"""
import os
import shutil
import socket
import struct
import subprocess
import sys
import tempfile
import time

SUITES = {16: "des3-cbc-sha1", 17: "aes128-cts-hmac-sha1-96", 18: "aes256-cts-hmac-sha1-96", 19: "aes128-cts-hmac-sha256-128", 20: "aes256-cts-hmac-sha384-192"}
NAMES = {16: "des3", 17: "aes128", 18: "aes256", 19: "aes128 sha2", 20: "aes256 sha2"}
# The bits of kdc-options (RFC 4120, section 5.4.1).
BITS = {"forwardable": 1, "proxiable": 3, "renewable": 8, "renew": 30}
REALM, PASSWORD, TILL, NONCE = "EXAMPLE.COM", "correct horse", "20370101000000Z", 0x10111213
RTIME = "20370108000000Z"
ALL = [18, 17, 20, 19, 16]


def element(first, content):
    if len(content) < 128:
        return bytes([first, len(content)]) + content
    size = (len(content).bit_length() + 7) // 8
    return bytes([first, 128 + size]) + len(content).to_bytes(size, "big") + content


def sequence(*parts):
    return element(0x30, b"".join(parts))


def number(value):
    return element(2, value.to_bytes(value.bit_length() // 8 + 1, "big"))


def text(value):
    return element(0x1B, value if isinstance(value, bytes) else value.encode())


def field(tag, content):
    return element(0xA0 + tag, content)


def principal(kind, components):
    return sequence(field(0, number(kind)), field(1, sequence(*(text(one) for one in components))))


def time_of(value):
    return element(0x18, value.encode())


def body_of(realm, name, service, suites, options=(), rtime=None):
    """The body of a request for a service, which an AS request's client is named in."""
    bits = sum(1 << 31 - BITS[one] for one in options)
    return sequence(
        field(0, element(3, bytes(1) + bits.to_bytes(4, "big"))),
        *([] if name is None else [field(1, principal(1, name))]),
        field(2, text(realm)),
        field(3, principal(2, service)),
        field(5, time_of(TILL)),
        *([field(6, time_of(rtime))] if rtime else []),
        field(7, number(NONCE)),
        field(8, sequence(*(number(suite) for suite in suites))),
    )


def request_of(realm, name, suites, *asked):
    """An AS request without padata for a ticket of the realm's own service."""
    return element(0x6A, sequence(field(1, number(5)), field(2, number(10)), field(4, body_of(realm, name, ["krbtgt", realm], suites, *asked))))


def parts_of(octets):
    """The elements of a constructed value's content: identifier and content of each."""
    parts = []
    while octets:
        size, place = octets[1], 2
        if size >= 128:
            place, size = 2 + size - 128, int.from_bytes(octets[2:2 + size - 128], "big")
        parts.append((octets[0], octets[place:place + size]))
        octets = octets[place + size:]
    return parts


def inner(octets):
    return parts_of(octets)[0][1]


def fields_of(octets):
    """The fields of an error, of a reply or of a SEQUENCE under one tag, by number."""
    return {first - 0xA0: content for first, content in parts_of(inner(inner(octets)))}


def write_again(octets, changes):
    """The message with some fields replaced, added, or (None) left out."""
    fields = fields_of(octets)
    fields.update(changes)
    return element(octets[0], sequence(*(field(tag, fields[tag]) for tag in sorted(fields) if fields[tag] is not None)))


def methods_of(octets):
    """The padata of an error's e-data: number and value of each."""
    return [(int.from_bytes(inner(dict(parts_of(one))[0xA1]), "big", signed=True), inner(dict(parts_of(one))[0xA2])) for _, one in parts_of(inner(inner(fields_of(octets)[12])))]


def method_data(methods):
    return sequence(*(sequence(field(1, number(kind)), field(2, element(4, value))) for kind, value in methods))


def with_methods(octets, methods):
    return write_again(octets, {12: element(4, method_data(methods))})


def info_of(entries):
    """ETYPE-INFO2 of entries: etype, salt or None, s2kparams or None."""
    return sequence(*(sequence(field(0, number(etype)), *([] if salt is None else [field(1, text(salt))]), *([] if params is None else [field(2, element(4, params))])) for etype, salt, params in entries))


def entries_of(info):
    made = []
    for _, entry in parts_of(inner(info)):
        fields = dict(parts_of(entry))
        made.append((int.from_bytes(inner(fields[0xA0]), "big"), inner(fields[0xA1]) if 0xA1 in fields else None, inner(fields[0xA2]) if 0xA2 in fields else None))
    return made


class Kdc:
    def __init__(self, work, kind, port):
        self.work, self.kind, self.port, self.process = work, kind, port, None
        self.folder = os.environ.get(kind.upper(), "/")
        libraries = [os.path.join(self.folder, one, "x86_64-linux-gnu") for one in ("usr/lib", "lib")]
        self.environment = dict(os.environ, LD_LIBRARY_PATH=":".join(libraries), KRB5_CONFIG=f"{work}/{kind}.conf", KRB5_KDC_PROFILE=f"{work}/{kind}.conf", TZ="UTC")
        self.write_configuration()

    def run(self, *words, **options):
        words = [os.path.join(self.folder, words[0]), *words[1:]]
        done = subprocess.run(words, env=self.environment, capture_output=True, **options)
        if done.returncode or b"rror" in done.stderr:
            sys.exit(f"{words}: {done.stdout.decode()}{done.stderr.decode()}")

    def start(self, *words):
        self.process = subprocess.Popen([os.path.join(self.folder, words[0]), *words[1:]], env=self.environment, stdout=subprocess.DEVNULL, stderr=subprocess.DEVNULL)

    def ask(self, request):
        for _ in range(50):
            try:
                with socket.create_connection(("127.0.0.1", self.port), 5) as kdc:
                    kdc.sendall(struct.pack(">I", len(request)) + request)
                    reply = b""
                    while len(reply) < 4 or len(reply) < 4 + struct.unpack(">I", reply[:4])[0]:
                        reply += kdc.recv(65536)
                    return reply[4:]
            except ConnectionRefusedError:
                time.sleep(0.1)
        sys.exit(f"{self.kind}: no KDC")

    def key_of(self, name, suite):
        """The key of this suite that the KDC holds, out of a keytab."""
        path = f"{self.work}/{self.kind}.keytab"
        if os.path.exists(path):
            os.remove(path)
        self.export(name, path)
        octets = open(path, "rb").read()
        place, keys = 2, {}
        while place < len(octets):
            size = struct.unpack_from(">i", octets, place)[0]
            entry, place = octets[place + 4:place + 4 + abs(size)], place + 4 + abs(size)
            count, at = struct.unpack_from(">H", entry)[0], 2
            for _ in range(count + 1):
                at += 2 + struct.unpack_from(">H", entry, at)[0]
            at += 9
            etype, length = struct.unpack_from(">HH", entry, at)
            keys[etype] = entry[at + 4:at + 4 + length]
        return keys[suite]


class Mit(Kdc):
    def write_configuration(self):
        work = self.work
        with open(f"{work}/mit.conf", "w") as out:
            out.write(f"""[libdefaults]
    default_realm = {REALM}
    allow_weak_crypto = true
    permitted_enctypes = {" ".join(SUITES.values())}
    dns_lookup_kdc = false
[kdcdefaults]
    kdc_listen = 127.0.0.1:{self.port}
    kdc_tcp_listen = 127.0.0.1:{self.port}
[realms]
    {REALM} = {{
        key_stash_file = {work}/stash
        master_key_type = aes256-cts-hmac-sha1-96
        max_renewable_life = 7d
    }}
[dbmodules]
    db_module_dir = {self.folder}/usr/lib/x86_64-linux-gnu/krb5/plugins/kdb
    {REALM} = {{
        db_library = db2
        database_name = {work}/principal
    }}
""")

    def make(self):
        self.run("usr/sbin/kdb5_util", "create", "-r", REALM, "-s", "-P", "master")

    def add(self, name, keys, required=True, password=PASSWORD):
        self.run("usr/sbin/kadmin.local", "-r", REALM, "addprinc", "-e", keys, "+requires_preauth" if required else "-requires_preauth", "-pw", password, "/".join(name))

    def export(self, name, path):
        self.run("usr/sbin/kadmin.local", "-r", REALM, "ktadd", "-norandkey", "-k", path, "/".join(name))

    def key_of_password(self, suite, salt):
        """The key that ktutil makes of the password and a salt."""
        path = f"{self.work}/password.keytab"
        if os.path.exists(path):
            os.remove(path)
        words = f'addent -password -p one@{REALM} -k 1 -e {SUITES[suite]} -s "{salt}"\n{PASSWORD}\nwkt {path}\nquit\n'
        self.run("usr/bin/ktutil", input=words.encode())
        return open(path, "rb").read()[-36 if suite in (18, 20) else -28 if suite == 16 else -20:-4]

    def serve(self):
        self.start("usr/sbin/krb5kdc", "-n", "-r", REALM)


class Heimdal(Kdc):
    def write_configuration(self):
        with open(f"{self.work}/heimdal.conf", "w") as out:
            out.write(f"""[libdefaults]
    default_realm = {REALM}
    allow_weak_crypto = true
[kdc]
    database = {{
        dbname = {self.work}/heimdal.db
        realm = {REALM}
        mkey_file = {self.work}/mkey
        acl_file = {self.work}/acl
        log_file = {self.work}/log
    }}
    require-preauth = no
    ports = {self.port}
    addresses = 127.0.0.1
[kadmin]
    default_keys = {" ".join(one + ":pw-salt" for one in SUITES.values())}
""")

    def admin(self, *words):
        self.run("usr/bin/kadmin.heimdal", "-l", "-r", REALM, *words)

    def make(self):
        open(f"{self.work}/acl", "w").close()
        self.admin("init", "--realm-max-ticket-life=unlimited", "--realm-max-renewable-life=unlimited", REALM)

    def add(self, name, suites, required=True, password=PASSWORD):
        self.admin("add", "--use-defaults", "--attributes=requires-pre-auth" if required else "--attributes=", f"--password={password}", "/".join(name))
        for suite in SUITES:
            if suite not in suites:
                self.admin("del_enctype", "/".join(name), SUITES[suite])

    def export(self, name, path):
        self.admin("ext_keytab", f"--keytab={path}", "/".join(name))

    def serve(self):
        self.start("usr/lib/heimdal-servers/kdc", f"--config-file={self.work}/heimdal.conf", "--ports=" + str(self.port), "--addresses=127.0.0.1")


class Rows:
    def __init__(self):
        self.rows = []

    def put(self, label, kind, suites, name, octets, expected, password=PASSWORD, realm=REALM):
        row = [label, kind, " ".join(map(str, suites)), realm, "/".join(name), password.encode().hex(), octets.hex(), expected]
        self.rows.append("|".join(row))


def made(suite, salt, key):
    return f"suite {suite} salt {'default' if salt is None else salt.hex() or 'empty'} key {key.hex()}"


def suite_rows(rows, kdc):
    """One principal for each suite, which has to authenticate itself first; returns the errors and the keys."""
    errors, keys = {}, {}
    for suite in SUITES:
        name = [f"user{suite}"]
        errors[suite], keys[suite] = kdc.ask(request_of(REALM, name, ALL)), kdc.key_of(name, suite)
        (etype, salt, _), = entries_of(dict(methods_of(errors[suite]))[19])
        assert etype == suite
        rows.put(f"{kdc.kind} {NAMES[suite]}", "error", ALL, name, errors[suite], made(suite, salt, keys[suite]))
    return errors, keys


def reply_rows(rows, kdc):
    """A principal that need not authenticate itself. Heimdal's replies have no padata, and its salts of AES with SHA-2 are random: a
    client can't make that key."""
    name = ["server", "host.example.com"]
    for suites in ([18], [20, 18], [16, 18]):
        suite = suites[0]
        reply, key = kdc.ask(request_of(REALM, name, suites)), kdc.key_of(name, suite)
        padata = dict(parts_of(inner(inner(reply)))).get(0xA2)
        info = [inner(dict(parts_of(one))[0xA2]) for _, one in parts_of(inner(padata)) if inner(dict(parts_of(one))[0xA1]) == bytes([19])] if padata else []
        salt = entries_of(info[0])[0][1] if info else None
        expected = made(suite, salt, key) + " granted krbtgt/EXAMPLE.COM"
        if kdc.kind == "heimdal" and suite == 20:
            expected = "refused: NotSealed"
        rows.put(f"{kdc.kind} reply {NAMES[suite]}", "reply", suites, name, reply, expected)
        rows.put(f"{kdc.kind} reply as error", "error", suites, name, reply, "refused: Unreadable")
    rows.put("reply of another suite", "reply", [17, 18, 19, 20], name, reply, "refused: NoSuite")


def main():
    work, rows = tempfile.mkdtemp(), Rows()
    mit, heimdal = Mit(work, "mit", 8891), Heimdal(work, "heimdal", 8892)
    try:
        for kdc in (mit, heimdal):
            kdc.make()
        for suite in SUITES:
            mit.add([f"user{suite}"], f"{SUITES[suite]}:normal")
            heimdal.add([f"user{suite}"], [suite])
        several = ["many", "keys"]
        mit.add(several, ",".join(f"{SUITES[suite]}:normal" for suite in (18, 17, 20, 19, 16)))
        heimdal.add(several, list(SUITES))
        for salt in ("norealm", "onlyrealm", "special"):
            mit.add([salt], f"{SUITES[18]}:{salt}")
        mit.add(["server", "host.example.com"], ",".join(f"{SUITES[suite]}:normal" for suite in SUITES), required=False)
        heimdal.add(["server", "host.example.com"], list(SUITES), required=False)
        mit.serve()
        heimdal.serve()
        record(rows, mit, heimdal, several)
    finally:
        for kdc in (mit, heimdal):
            if kdc.process:
                kdc.process.terminate()
        shutil.rmtree(work)
    with open("hints.txt", "w") as out:
        out.write(f"# What MIT's krb5kdc and Heimdal's kdc answer to AS requests without padata, as hints.py recorded it, and damaged copies.\n")
        out.write("# The columns: label, kind, suites, realm, name, password, octets, and what a client makes of them or, of a request, nothing.\n")
        out.write("\n".join(rows.rows) + "\n")


def record(rows, mit, heimdal, several):
    for label, suites in (("first request", ALL), ("first request, one suite", [20]), ("first request, no suite", [])):
        rows.put(label, "request", suites, ["user18"], request_of(REALM, ["user18"], suites), "")
    errors, keys = suite_rows(rows, mit)
    others, _ = suite_rows(rows, heimdal)
    for kdc in (mit, heimdal):
        error = kdc.ask(request_of(REALM, several, ALL))
        (suite, salt, _), = entries_of(dict(methods_of(error))[19])
        rows.put(f"{kdc.kind} every suite", "error", ALL, several, error, made(suite, salt, kdc.key_of(several, suite)))
    salt = b"EXAMPLE.COMmanykeys"
    listed = with_methods(mit.ask(request_of(REALM, several, ALL)), [(19, info_of([(suite, salt, None) for suite in (20, 18, 17, 16)]))])
    for label, suites, suite in (("first entry", ALL, 20), ("second entry", [17, 18, 19], 18), ("last entry", [19, 16], 16)):
        rows.put(label, "error", suites, several, listed, made(suite, salt, mit.key_of(several, suite)))
    for name in ("norealm", "onlyrealm"):
        error = mit.ask(request_of(REALM, [name], ALL))
        (_, salt, _), = entries_of(dict(methods_of(error))[19])
        rows.put(f"mit {name}", "error", ALL, [name], error, made(18, salt, mit.key_of([name], 18)))
    for kdc in (mit, heimdal):
        rows.put("unknown client", "error", ALL, ["nobody"], kdc.ask(request_of(REALM, ["nobody"], ALL)), "refused: Refused(6)")
        reply_rows(rows, kdc)
    changed_replies(rows, mit)
    choice_rows(rows, mit, errors, keys)
    option_rows(rows, mit)
    rows.put("error as reply", "reply", ALL, ["user18"], errors[18], "refused: Unreadable")
    for suite in SUITES:
        empty = with_methods(errors[18], [(19, info_of([(suite, b"", None)]))])
        rows.put(f"empty salt {NAMES[suite]}", "error", ALL, ["user18"], empty, made(suite, b"", mit.key_of_password(suite, "")))
    damaged_rows(rows, mit, errors, keys, others)


def choice_rows(rows, mit, errors, keys):
    """What a client takes whose user named no suite, and what it takes where the user did."""
    usual, name, salt = ["usual"], ["user18"], b"EXAMPLE.COMuser18"

    def by_info(*entries):
        return with_methods(errors[18], [(19, info_of([(suite, its, None) for suite, its in entries]))])

    def refused(label, octets, why):
        rows.put(label, "error", usual, name, octets, f"refused: {why}")

    for suite in (18, 17, 20, 19):
        rows.put(f"usual, {NAMES[suite]}", "error", usual, [f"user{suite}"], errors[suite], made(suite, b"EXAMPLE.COMuser%d" % suite, keys[suite]))
        refused("forged empty salt", by_info((suite, b"")), "OtherSalt")
    rows.put("usual, no salt", "error", usual, name, by_info((18, None)), made(18, None, keys[18]))
    refused("forged triple DES", by_info((16, b"")), "NoSuite")
    refused("forged triple DES", by_info((16, salt)), "NoSuite")
    rows.put("forged triple DES first", "error", usual, name, by_info((16, b""), (18, salt)), made(18, salt, keys[18]))
    for other in (salt[:-1], salt + b"x", salt + b"\0", salt[1:], b"EXAMPLE.COM", b"user18", b"EXAMPLE.COMuser17", salt.lower(), b"EXAMPLE.COM/user18"):
        refused("forged other salt", by_info((18, other)), "OtherSalt")
    rows.put("hint of triple DES, not named", "error", [*ALL, "usual"], ["user16"], errors[16], "refused: OtherSuite")
    for its in ("norealm", "special"):
        error = mit.ask(request_of(REALM, [its], ALL))
        (_, other, _), = entries_of(dict(methods_of(error))[19])
        rows.put(f"mit {its}, not named", "error", usual, [its], error, "refused: OtherSalt")
        rows.put(f"mit {its}, named", "error", [18], [its], error, made(18, other, mit.key_of([its], 18)))
    name, ours = ["server", "host.example.com"], b"EXAMPLE.COMserverhost.example.com"
    own, key = mit.ask(request_of(REALM, name, [18])), mit.key_of(name, 18)
    rows.put("usual reply", "reply", usual, name, own, made(18, ours, key) + " granted krbtgt/EXAMPLE.COM")
    forged = write_again(own, {2: method_data([(19, info_of([(18, b"", None)]))])})
    rows.put("forged empty salt of a reply", "reply", usual, name, forged, "refused: OtherSalt")
    weak = mit.ask(request_of(REALM, name, [16, 18]))
    rows.put("reply of triple DES, not named", "reply", usual, name, weak, "refused: NoSuite")
    rows.put("reply, session key of another suite", "reply", [16], name, weak, "refused: NotAsked")
    rows.put("suite of a reply", "suite", [17, 18], name, own, "suite 18")
    rows.put("suite of a reply, not listed", "suite", [17, 19], name, own, "refused: NoSuite")
    rows.put("suite of an error", "suite", ALL, ["user18"], errors[18], "refused: Unreadable")
    for suites in (ALL, [20], [18, 17]):
        body = field(4, body_of(REALM, ["user18"], ["krbtgt", REALM], suites))
        rows.put("request with padata", "padata", suites, ["user18"], b"", body.hex())
    for suites in ([18, 17, 20, 19], [18], [17, 18, 16]):
        rows.put("request for a service", "service", suites, name, own, field(4, body_of(REALM, None, name, suites)).hex())


def option_rows(rows, mit):
    """Requests with options, and renewals of tickets that have the flags of these options."""
    own, name, service = ["user18"], ["server", "host.example.com"], ["krbtgt", REALM]
    for options, rtime in ((["forwardable"], None), (["proxiable"], None), (["renewable"], RTIME), (list(BITS)[:3], RTIME)):
        words, asked = " ".join([*options, rtime or ""]).strip(), (options, rtime)
        rows.put(f"first request, {words}", f"request {words}", ALL, own, request_of(REALM, own, ALL, *asked), "")
        rows.put(f"request with padata, {words}", f"padata {words}", [18], own, b"", field(4, body_of(REALM, own, service, [18], *asked)).hex())
        reply = mit.ask(request_of(REALM, name, [18], *asked))
        flags = sorted({*options, "renewable", "renew"})
        rows.put(f"renewal, {words}", "renewal", [18, 17], name, reply, field(4, body_of(REALM, None, service, [18, 17], flags)).hex())


def changed_replies(rows, mit):
    name = ["server", "host.example.com"]
    own, key, salt = mit.ask(request_of(REALM, name, [18])), mit.key_of(name, 18), b"EXAMPLE.COMserverhost.example.com"

    def by_info(info):
        return write_again(own, {2: method_data([(19, info)])})

    granted = " granted krbtgt/EXAMPLE.COM"
    rows.put("reply without padata", "reply", [18], name, write_again(own, {2: None}), made(18, None, key) + granted)
    rows.put("reply, two entries", "reply", [18, 17], name, by_info(info_of([(17, b"", None), (18, salt, None)])), made(18, salt, key) + granted)
    for label, octets, why in (
        ("reply, entry of another suite", by_info(info_of([(17, salt, None)])), "NoSuite"),
        ("reply, other rounds", by_info(info_of([(18, salt, bytes([0, 0, 16, 1]))])), "OtherParameters"),
        ("reply, damaged info", by_info(info_of([(18, salt, None)]) + b"\0"), "NoHint"),
        ("cut reply", own[:-1], "Unreadable"),
        ("reply, other pvno", write_again(own, {0: number(4)}), "Unreadable"),
        ("reply, other msg-type", write_again(own, {1: number(13)}), "Unreadable"),
    ):
        rows.put(label, "reply", [18, 17], name, octets, f"refused: {why}")


def damaged_rows(rows, mit, errors, keys, others):
    error, name = errors[18], ["user18"]
    methods = dict(methods_of(error))

    def by_info(info):
        return with_methods(error, [(2, b""), (19, info)])

    def refused(label, suites, octets, why):
        rows.put(label, "error", suites, name, octets, f"refused: {why}")

    salt = b"EXAMPLE.COMuser18"
    refused("other suite", [19, 20], error, "NoSuite")
    refused("no suites", [], error, "NoSuite")
    rows.put("mit no salt", "error", ALL, name, by_info(info_of([(18, None, None)])), made(18, None, keys[18]))
    for suite, params in ((18, "00001000"), (17, "00001000"), (20, "00008000"), (19, "00008000"), (16, "")):
        octets = by_info(info_of([(suite, salt, bytes.fromhex(params))]))
        rows.put(f"own parameters {NAMES[suite]}", "error", ALL, name, octets, made(suite, salt, mit.key_of_password(suite, salt.decode())))
    rows.put("other suite first", "error", ALL, name, by_info(info_of([(23, None, None), (18, salt, None)])), made(18, salt, keys[18]))
    for label, suite, params in (("other rounds", 18, "00000001"), ("other rounds", 18, "00008000"), ("other rounds", 18, "00100000"), ("other rounds", 18, "001000"), ("other rounds", 18, "0000100000"), ("other rounds", 18, ""), ("other rounds", 17, "00001001"), ("other rounds of SHA-2", 20, "00001000"), ("other rounds of SHA-2", 19, "00000080"), ("rounds of triple DES", 16, "00001000")):
        refused(label, ALL, by_info(info_of([(suite, salt, bytes.fromhex(params))])), "OtherParameters")
    refused("other rounds, then own", ALL, by_info(info_of([(18, salt, bytes([0, 0, 0, 1])), (18, salt, None)])), "OtherParameters")
    refused("no e-data", ALL, write_again(error, {12: None}), "NoHint")
    refused("empty e-data", ALL, write_again(error, {12: element(4, b"")}), "NoHint")
    refused("damaged e-data", ALL, write_again(error, {12: element(4, method_data(methods.items()) + b"\0")}), "NoHint")
    refused("damaged e-data", ALL, write_again(error, {12: element(4, b"\x31" + method_data(methods.items())[1:])}), "NoHint")
    refused("no info", ALL, with_methods(error, [(kind, value) for kind, value in methods.items() if kind != 19]), "NoHint")
    refused("no methods", ALL, with_methods(error, []), "NoHint")
    refused("damaged info", ALL, by_info(methods[19] + b"\0"), "NoHint")
    refused("damaged info", ALL, by_info(methods[19][:-1]), "NoHint")
    refused("damaged info first", ALL, with_methods(error, [(19, b""), (19, methods[19])]), "NoHint")
    refused("empty info", ALL, by_info(sequence()), "NoSuite")
    refused("salt past 127", ALL, by_info(info_of([(18, b"\xc3\xa4", None)])), "NoHint")
    refused("older info", ALL, with_methods(others[16], [(11, dict(methods_of(others[16]))[11])]), "NoHint")
    refused("another code", ALL, write_again(error, {6: number(24)}), "Refused(24)")
    refused("another code", ALL, write_again(error, {6: number(68)}), "Refused(68)")
    for octets in (b"", error[:-1], error + b"\0", b"\x7d" + error[1:]):
        refused("cut", ALL, octets, "Unreadable")
    rows.put("empty realm", "error", ALL, name, error, "refused: BadName", realm="")
    rows.put("empty component", "error", ALL, ["a", ""], error, "refused: BadName")
    rows.put("no key", "error", ALL, name, by_info(info_of([(16, b"", None)])), "refused: NoKey", password="")


if __name__ == "__main__":
    main()
