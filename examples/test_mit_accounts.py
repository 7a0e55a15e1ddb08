#!/usr/bin/env python3
"""Tests of examples/mit_accounts. usage: python3 -B examples/test_mit_accounts.py"""
import os, struct, subprocess, sys, tempfile, unittest

TOOL = os.path.join(os.path.dirname(os.path.abspath(__file__)), "mit_accounts")
KRBTGT = (b"krbtgt", b"R")
DUMP = b"kdb5_util load_dump version 7\n"


def counted(octets):
    return struct.pack(">H", len(octets)) + octets


def record(name, kvno, etype, key, realm=b"R", wide=None):
    """A record of a keytab; `wide` is a kvno of 32 bits behind it."""
    body = struct.pack(">H", len(name)) + counted(realm) + b"".join(map(counted, name)) + struct.pack(">II", 1, 0)
    body += struct.pack(">BH", kvno, etype) + counted(key) + (struct.pack(">I", wide) if wide is not None else b"")
    return struct.pack(">i", len(body)) + body


def hole(size):
    return struct.pack(">i", -size) + bytes(size)


def keytab(*records):
    return b"\5\2" + b"".join(records)


def princ(name, flags=0, expiry=0, password_expiry=0, realm="R", lifetime=86400):
    """A principal's line of a dump, as kdb5_util writes it, with no lists."""
    return f"princ\t38\t{len(name) + 2}\t0\t0\t0\t{name}@{realm}\t{flags}\t{lifetime}\t0\t{expiry}\t{password_expiry}\t0\t0\t0\t\n".encode()


def key(number, size=32):
    return bytes([number]) * size


class MitAccounts(unittest.TestCase):
    def setUp(self):
        self.folder = tempfile.TemporaryDirectory()
        self.addCleanup(self.folder.cleanup)
        self.text = os.path.join(self.folder.name, "accounts")

    def run_tool(self, octets, dump=None, options=()):
        """Runs the script over a keytab of these octets. The dump has each of its names, without flags, unless it is given."""
        keytab, dumped = (os.path.join(self.folder.name, name) for name in ("keytab", "dump"))
        names = "a b a-b a/c \\#a a\\/b\\@c\\\\d\\te/f#g krbtgt/R".split() + ["a\\/b\\@c\\\\d\\te/f g", "#a"]
        with open(keytab, "wb") as file:
            file.write(octets)
        with open(dumped, "wb") as file:
            file.write(DUMP + b"".join(map(princ, names)) if dump is None else dump)
        return subprocess.run([sys.executable, "-B", TOOL, *options, keytab, dumped, "R", self.text], capture_output=True, text=True)

    def made(self, *records, told="", dump=None, options=()):
        ended = self.run_tool(keytab(record(KRBTGT, 1, 18, key(9)), *records), dump, options)
        self.assertEqual((ended.returncode, ended.stderr), (0, told))
        with open(self.text, encoding="ascii") as file:
            lines = file.read().split("\n")
        self.assertEqual((lines[0], lines[-1]), ("realm\tR\t300\t36000", ""))
        return [line for line in lines[1:-1] if not line.startswith("krbtgt")]

    def refused(self, octets, says, status=1, dump=None):
        ended = self.run_tool(octets, dump)
        self.assertEqual(ended.returncode, status)
        self.assertIn(says, ended.stderr)
        self.assertEqual(ended.stderr.count("\n"), 1)
        self.assertNotIn("01" * 16, ended.stderr)
        self.assertEqual(sorted(os.listdir(self.folder.name)), ["dump", "keytab"])

    def test_line(self):
        self.assertEqual(self.made(record((b"a",), 2, 18, key(1))), ["a\taes256-cts-hmac-sha1-96\t2\t-\t" + "01" * 32])

    def test_older_keys_in_any_order(self):
        for first, second in (((1, 1), (2, 2)), ((2, 2), (1, 1))):
            os.path.exists(self.text) and os.unlink(self.text)
            lines = self.made(*(record((b"a",), kvno, 18, key(number)) for kvno, number in (first, second)))
            suite = "aes256-cts-hmac-sha1-96"
            self.assertEqual(lines, [f"a\t{suite}\t2\t-\t{'02' * 32}\t-\t-\t-\t{suite}:1:{'01' * 32}"])

    def test_older_keys_that_are_lost(self):
        lines = self.made(*(record((b"a",), kvno, 18, key(kvno)) for kvno in range(1, 21)))
        self.assertEqual([field.split(":")[1] for field in lines[0].split("\t")[8:]], [str(kvno) for kvno in range(19, 4, -1)])
        os.unlink(self.text)
        lines = self.made(record((b"a",), 1, 18, key(1)), record((b"a",), 2, 23, key(2, 16)), record((b"a",), 3, 17, key(3, 16)))
        self.assertEqual(lines[0].split("\t")[8:], ["aes256-cts-hmac-sha1-96:1:" + "01" * 32])

    def test_attributes(self):
        dump = DUMP + princ("krbtgt/R", 0x1000, 4070908800, lifetime=60)
        dump += princ("a", 0x1000, 4070908800, lifetime=35999) + princ("b", lifetime=36000) + princ("c", 0x41, lifetime=3600)
        told = "mit_accounts: c is locked (DISALLOW_ALL_TIX): disabled\n"
        lines = [line.split("\t") for line in self.made(*(record((name,), 1, 18, key(1)) for name in (b"a", b"b", b"c")), dump=dump, told=told)]
        self.assertEqual([lines[0][5:], lines[1][5:], lines[2][6:]], [["4070908800", "35999", "no-service"], [], ["-", "3600", "-"]])
        with open(self.text, encoding="ascii") as file:
            self.assertEqual([len(line.split("\t")) for line in file if line.startswith("krbtgt")], [5])

    def test_first_known_suite_of_a_kvno(self):
        keys = record((b"a",), 1, 23, key(1, 16)), record((b"a",), 1, 17, key(2, 16)), record((b"a",), 1, 18, key(3))
        self.assertEqual(self.made(*keys), ["a\taes128-cts-hmac-sha1-96\t1\t-\t" + "02" * 16])

    def test_kvno_of_32_bits(self):
        self.assertEqual(self.made(record((b"a",), 1, 18, key(1), wide=257))[0].split("\t")[2], "257")
        os.unlink(self.text)
        self.assertEqual(self.made(record((b"a",), 1, 18, key(1), wide=0))[0].split("\t")[2], "1")

    def test_holes_other_realms_and_kadmin_are_left_out(self):
        others = record((b"b",), 1, 18, key(1), b"S"), record((b"K", b"M"), 1, 18, key(1)), record((b"kadmin", b"admin"), 1, 18, key(1))
        self.assertEqual(self.made(hole(20), *others), [])

    def test_names_in_the_order_of_components(self):
        names = (b"a-b",), (b"a", b"c"), (b"a",)
        lines = self.made(*(record(name, 1, 18, key(1)) for name in names))
        self.assertEqual([line.split("\t")[0] for line in lines], ["a", "a/c", "a-b"])

    def test_escapes(self):
        lines = self.made(record((b"a/b@c\\d\te", b"f g"), 1, 18, key(1)))
        self.assertEqual(lines[0].split("\t")[0], "a\\/b\\@c\\\\d\\te/f g")

    def test_name_that_begins_as_a_comment(self):
        self.assertEqual(self.made(record((b"#a",), 1, 18, key(1)))[0].split("\t")[0], "\\#a")

    def test_locked_and_expired(self):
        states = {"a": (0x40, 0, 0), "b": (0, 1577836800, 0), "c": (0, 0, 1577836800), "d": (0x200, 0, 0), "e": (0, 4070908800, 4070908800), "f": (0x1000, 0, 0)}
        dump = DUMP + b"".join(princ(name, *state) for name, state in states.items()) + princ("krbtgt/R")
        records = [record((name.encode(),), 1, 18, key(1)) for name in states]
        said = "mit_accounts: {} is locked (DISALLOW_ALL_TIX): {how}\nmit_accounts: {} has expired (2020-01-01): {how}\n"
        said += "mit_accounts: c has an expired password (2020-01-01): enabled\nmit_accounts: d has to change its password: enabled\n"
        lines = self.made(*records, told=said.format("a", "b", how="disabled"), dump=dump)
        self.assertEqual([line.split("\taes")[0] for line in lines], ["#disabled\ta", "#disabled\tb", "c", "d", "e", "f"])
        os.unlink(self.text)
        lines = self.made(*records, told=said.format("a", "b", how="enabled"), dump=dump, options=["--all"])
        self.assertEqual([line.split("\t")[0] for line in lines], list(states))

    def test_dumps(self):
        whole = keytab(record(KRBTGT, 1, 18, key(1)))
        self.refused(whole, "dump: it is no dump of kdb5_util", dump=b"")
        self.refused(whole, "dump: expected a line of krbtgt/R", dump=DUMP + princ("krbtgt/R", realm="S"))
        self.refused(whole, "dump: krbtgt/R is locked (DISALLOW_ALL_TIX): expected", dump=DUMP + princ("krbtgt/R", 0x40))
        self.refused(whole, "dump: expected lines of princ, 38 and numbers", dump=DUMP + princ("krbtgt/R").replace(b"\t38\t", b"\t39\t"))
        self.refused(whole, "dump: expected lines of princ, 38 and numbers", dump=DUMP + b"princ\t38\t1\n")

    def test_mode(self):
        self.made()
        self.assertEqual(os.stat(self.text).st_mode & 0o777, 0o600)

    def test_refusals(self):
        self.refused(b"\5\1", "no keytab of version 0x0502")
        self.refused(keytab(record((b"a",), 1, 18, key(1))), "expected a key of krbtgt/R")
        whole = keytab(record(KRBTGT, 1, 18, key(1)))
        for size in range(3, len(whole)):
            self.refused(whole[:size], "ends within a record")
        first = record(KRBTGT, 1, 18, key(1))
        self.refused(keytab(first, record((b"a",), 2, 23, key(1, 16)), record((b"a",), 1, 18, key(1))), "a: expected a key of AES or triple DES with kvno 2")
        self.refused(keytab(first, record((b"a",), 1, 18, key(1, 16))), "a: expected a key")
        self.refused(keytab(first, record((b"\xc3\xa4",), 1, 18, key(1))), "characters of ASCII")
        self.refused(keytab(first, record((b"",), 1, 18, key(1))), "1 to 16 components")
        self.refused(keytab(first, record((b"a",), 0, 18, key(1))), "a: expected a kvno from 1 on")

    def test_text_that_is_there_stays(self):
        self.made()
        ended = self.run_tool(keytab(record(KRBTGT, 1, 18, key(2))))
        self.assertEqual(ended.returncode, 2)
        self.assertIn("it is there already", ended.stderr)

    def test_arguments_and_files(self):
        for words, status in ((["--help"], 0), ([], 2), (["/nowhere/keytab", "/nowhere/dump", "R", self.text], 2)):
            self.assertEqual(subprocess.run([sys.executable, "-B", TOOL, *words], capture_output=True).returncode, status)


if __name__ == "__main__":
    unittest.main()
