"""Writes account_texts.txt: texts of accounts by a writer of its own, and what is said of damaged ones, written by hand."""
import fnmatch, itertools, random, re

random.seed(51)
SUITES = {"aes128-cts-hmac-sha1-96": 16, "aes256-cts-hmac-sha1-96": 32, "des3-cbc-sha1-kd": 24,
          "aes128-cts-hmac-sha256-128": 16, "aes256-cts-hmac-sha384-192": 32}
MARKS = {0: "\\0", 8: "\\b", 9: "\\t", 10: "\\n", 47: "\\/", 64: "\\@", 92: "\\\\"}
rows = []

def fold(text):
    return text.replace("^", "^^").replace("\n", "^n").replace("\t", "^t")

def row(*fields):
    assert all("|" not in field and "\n" not in field for field in fields)
    rows.append("|".join(fields))

def name_text(name):
    return "/".join("".join(MARKS.get(c, chr(c)) for c in component) for component in name)

def line(name, suite, kvno, salt, key, disabled=False):
    mark = "\\" if name[0][:1] == b"#" else ""
    fields = "\t".join([mark + name_text(name), suite, str(kvno), "-" if salt is None else salt.hex(), key.hex()])
    return ("#disabled\t" if disabled else "") + fields + "\n"

def octets(count):
    return bytes(random.randrange(256) for _ in range(count))

def ascii_octets(count):
    return bytes(random.randrange(128) for _ in range(count))

def some_name():
    return tuple(bytes(random.choice(b"abz#-._ \t\n\\/@\x00\x08019") for _ in range(random.choice([1, 3, 9])))
                 for _ in range(random.choice([1, 1, 2, 3])))

def some_account(name):
    suite = random.choice(list(SUITES))
    return (name, suite, random.choice([1, 2, 9, 10, 4294967295, random.randrange(1, 2 ** 32)]),
            random.choice([None, b"", ascii_octets(5)]), octets(SUITES[suite]), random.random() < 0.3)

HEAD = "realm\tEXAMPLE.COM\t300\t36000\n"

def text_of(accounts, head=HEAD):
    return head + "".join(line(*accounts[name]) for name in sorted(accounts))

for _ in range(60):
    accounts = {name: some_account(name) for name in sorted({some_name() for _ in range(random.randrange(6))})}
    text = text_of(accounts)
    row("read", fold(text), fold(text))
    names = sorted(accounts)
    other = some_name()
    suite = random.choice(list(SUITES))
    key = octets(SUITES[suite])
    field = fold(name_text(other))
    if "^" in field:
        continue
    more = dict(accounts)
    more[other] = (other, suite, 1, None, key)
    row("add", fold(text), name_text(other), suite, key.hex(), "the account is there already" if other in accounts else fold(text_of(more)))
    row("remove", fold(text_of(more)), name_text(other), fold(text_of({n: a for n, a in more.items() if n != other})))
    for name in names:
        rekeyed = dict(accounts)
        rekeyed[name] = (name, suite, accounts[name][2] + 1, None, key, accounts[name][5])
        spent = accounts[name][2] == 4294967295
        row("key", fold(text), name_text(name), suite, key.hex(),
            "kvno 4294967295 is the greatest: expected a new name" if spent else fold(text_of(rekeyed)))
    if other not in accounts:
        row("key", fold(text), name_text(other), suite, key.hex(), "no such account")
        for what in "remove", "disable", "enable":
            row(what, fold(text), name_text(other), "no such account")
    for what in "disable", "enable":
        row(what, fold(text_of(more)), name_text(other), fold(text_of({**more, other: (*more[other][:5], what == "disable")})))

KEY = "00" * 16
ONE = "a\taes128-cts-hmac-sha1-96\t1\t-\t" + KEY + "\n"
FIELDS = "expected name, suite, kvno, salt and key, and perhaps last second, lifetime, marks and older keys, or realm, name, skew and lifetime, and perhaps words and octets or -, with a tab between each two"
NAME = "name: expected 1 to 16 components of 1 to 255 ASCII characters, with / between each two"
SUITE = "suite: expected one of " + ", ".join(SUITES)
KVNO = "kvno: expected a whole number from 1 to 4294967295"
SALT = "salt: expected pairs of hexadecimal digits, or - for none"
SALT_OCTET = "salt: expected octets below 128"
KEYS = "key: expected as many hexadecimal digits as a key of the suite has: 32, 48 or 64"
REALM = "realm: expected 1 to 255 printable ASCII characters"
SECONDS = "realm: expected a skew from 0 to 86400 seconds and a lifetime from 1 to 31536000 seconds"
# Five fields are those of an account, here of the name realm.
NAME_OR_SUITE = SUITE
NO_REALM = "expected the line of the realm before all accounts: realm, name, skew and lifetime"
PKINIT = "pkinit: expected pairs of hexadecimal digits, as certify writes them"
WORD = "words: expected some of limits-des3, forwardable, proxiable, renewable=SECONDS, guards-passwords, pkinit-agility, pkinit-sha1 and pkinit, in this order, with a comma between each two"
RENEWABLE = "renewable: expected a whole number of seconds from 1 to 31536000"
NO_PKINIT = "expected - behind words without pkinit"
ORDER = "name: expected accounts in the order of their names, each name once"
DISABLED = "expected name, suite, kvno, salt and key behind #disabled, with a tab between each two"
COMMENTED = "# first\n#\tsecond\n" + HEAD + "# third\n" + ONE + "#\n"
row("read", fold(COMMENTED), fold(COMMENTED))
row("remove", fold(COMMENTED), "a", fold("# first\n#\tsecond\n" + HEAD + "# third\n#\n"))
row("read", fold(HEAD + ONE.upper().replace("AES128-CTS-HMAC-SHA1-96", "aes128-cts-hmac-sha1-96").replace("A\t", "a\t", 1).replace("\t1\t", "\t01\t")), fold(HEAD + ONE))
for text, fault in [
    ("", "1: " + NO_REALM), ("#\n", "2: " + NO_REALM), (ONE, "1: " + NO_REALM), (HEAD + HEAD, "2: expected one line of a realm alone"),
    (HEAD + "\n", "2: " + FIELDS), (HEAD + "a\tb\tc\td\n", "2: " + FIELDS), (HEAD + ONE.replace("\n", "\t\n"), "2: " + FIELDS),
    (HEAD + ONE[:-1], "2: expected a line break at the end"), (HEAD + ONE + "b", "3: expected a line break at the end"),
    (HEAD + ONE.replace("a\t", "\t", 1), "2: " + NAME), (HEAD + ONE.replace("a\t", "a/\t", 1), "2: " + NAME),
    (HEAD + ONE.replace("a\t", "a@R\t", 1), "2: " + NAME), (HEAD + ONE.replace("a\t", "a\\\t", 1), "2: " + NAME),
    (HEAD + ONE.replace("a\t", "ä\t", 1), "2: " + NAME), (HEAD + ONE.replace("a\t", "a" * 256 + "\t", 1), "2: " + NAME),
    (HEAD + ONE.replace("a\t", "/".join("a" * 17) + "\t", 1), "2: " + NAME),
    (HEAD + ONE.replace("sha1-96", "sha1"), "2: " + SUITE), (HEAD + ONE.replace("aes128", "AES128"), "2: " + SUITE),
    (HEAD + ONE.replace("\t1\t", "\t0\t"), "2: " + KVNO), (HEAD + ONE.replace("\t1\t", "\t4294967296\t"), "2: " + KVNO),
    (HEAD + ONE.replace("\t1\t", "\t\t"), "2: " + KVNO), (HEAD + ONE.replace("\t1\t", "\t-1\t"), "2: " + KVNO),
    (HEAD + ONE.replace("\t1\t", "\t1 \t"), "2: " + KVNO), (HEAD + ONE.replace("\t1\t", "\t99999999999999999999999\t"), "2: " + KVNO),
    (HEAD + ONE.replace("\t-\t", "\t0\t"), "2: " + SALT), (HEAD + ONE.replace("\t-\t", "\t--\t"), "2: " + SALT),
    (HEAD + ONE.replace("\t-\t", "\t80\t"), "2: " + SALT_OCTET), (HEAD + ONE.replace("\t-\t", "\t7f00ff\t"), "2: " + SALT_OCTET),
    (HEAD + "#disabled\t\n", "2: " + DISABLED), (HEAD + "#disabled\t" + ONE.replace("\n", "\t\n"), "2: " + FIELDS),
    (HEAD + "#disabled\trealm\tB\t300\t36000\n", "2: " + DISABLED), (HEAD + "#disabled\t" + ONE.replace("\t1\t", "\t0\t"), "2: " + KVNO),
    (HEAD + "#disabled\t" + ONE + ONE, "3: " + ORDER), (HEAD + ONE.replace("a\t", "b\t", 1) + "#disabled\t" + ONE, "3: " + ORDER),
    ("#disabled\t" + ONE + HEAD, "1: " + NO_REALM),
    (HEAD + ONE.replace(KEY, KEY[2:]), "2: " + KEYS), (HEAD + ONE.replace(KEY, KEY + "00"), "2: " + KEYS),
    (HEAD + ONE.replace(KEY, "g" + KEY[1:]), "2: " + KEYS), (HEAD + ONE.replace(KEY, KEY[1:]), "2: " + KEYS),
    (HEAD + ONE + ONE, "3: " + ORDER), (HEAD + ONE.replace("a\t", "b\t", 1) + "#\n" + ONE, "4: " + ORDER),
    (HEAD + ONE.replace("a\t", "a/b\t", 1) + ONE, "3: " + ORDER),
    (HEAD.replace("EXAMPLE.COM", ""), "1: " + REALM), (HEAD.replace("EXAMPLE.COM", "A\x01"), "1: " + REALM), (HEAD.replace("EXAMPLE.COM", "A" * 256), "1: " + REALM),
    (HEAD.replace("300", "86401"), "1: " + SECONDS), (HEAD.replace("36000", "0"), "1: " + SECONDS), (HEAD.replace("36000", "31536001"), "1: " + SECONDS),
    (HEAD.replace("300", "x"), "1: " + SECONDS),
    (HEAD.replace("\n", "\tpkinit\t\n"), "1: " + PKINIT), (HEAD.replace("\n", "\tpkinit\t0\n"), "1: " + PKINIT), (HEAD.replace("\n", "\tpkinit\t0g\n"), "1: " + PKINIT),
    (HEAD.replace("\n", "\tpkinit\t-\n"), "1: " + PKINIT), (HEAD.replace("\n", "\tpkinit\n"), "1: " + NAME_OR_SUITE), (HEAD.replace("\n", "\tPKINIT\t00\n"), "1: " + WORD),
    (HEAD.replace("\n", "\tpkinit\t00\t\n"), "1: " + NAME_OR_SUITE), (HEAD.replace("realm", "Realm").replace("\n", "\tpkinit\t00\n"), "1: " + FIELDS),
    (HEAD.replace("300", "86401").replace("\n", "\tpkinit\t0g\n"), "1: " + SECONDS),
]:
    row("read", fold(text), fault)

# A comment has another mark. A name that begins with # is written so that its line is none.
for comment in "#disabled\n", "#disabled a\t\n", "#Disabled\t\n", "# disabled\t\n":
    row("read", fold(HEAD + comment + ONE), fold(HEAD + comment + ONE))
row("read", fold(HEAD + "\\#" + ONE), fold(HEAD + "\\#" + ONE))
row("read", fold(HEAD + "#disabled\t#" + ONE), fold(HEAD + "#disabled\t\\#" + ONE))
row("add", fold(HEAD), "#", "aes128-cts-hmac-sha1-96", KEY, fold(HEAD + "\\#" + ONE[1:]))

# The account of the realm's ticket-granting service is kept. That of another realm isn't.
KRBTGT = ONE.replace("a\t", "krbtgt/EXAMPLE.COM\t", 1)
OTHER = ONE.replace("a\t", "krbtgt/EXAMPLE.ORG\t", 1)
KEPT = "the account of the ticket-granting service is kept"
for what in "remove", "disable":
    row(what, fold(HEAD + ONE + KRBTGT), "krbtgt/EXAMPLE.COM", KEPT)
    row(what, fold(HEAD + ONE), "krbtgt/EXAMPLE.COM", "no such account")
row("remove", fold(HEAD + KRBTGT + OTHER), "krbtgt/EXAMPLE.ORG", fold(HEAD + KRBTGT))
row("disable", fold(HEAD + KRBTGT + OTHER), "krbtgt/EXAMPLE.ORG", fold(HEAD + KRBTGT + "#disabled\t" + OTHER))
row("enable", fold(HEAD + "#disabled\t" + KRBTGT), "krbtgt/EXAMPLE.COM", fold(HEAD + KRBTGT))

# Names of realms: those that MIT's kinit takes by a name and by krb5.conf.
for realm in "EXAMPLE.COM", "example.com", "A", "A-B_C:D", "A" * 255, "~!$%&'()+,.<>?^`":
    row("typed", realm, "yes")
for realm in "", "A" * 256, "A B", " A", "A^tB", "A^nB", "A\x01", "A\x7f", "Ä", *("A" + mark + "B" for mark in '"#*/;=@[\\]{}'):
    row("typed", realm, "no")

# Patterns, by Python's fnmatch, which has no brackets here.
for _ in range(150):
    name = "".join(random.choice("ab/") for _ in range(random.randrange(7)))
    pattern = "".join(random.choice("ab/*?") for _ in range(random.randrange(6)))
    row("matches", pattern, name, "yes" if fnmatch.fnmatchcase(name, pattern) else "no")
row("matches", "*a" * 30 + "b", "a" * 200, "no")

# What logins by certificate are answered by, beside the realm.
OCTETS = bytes(range(256)) * 20
for octets in b"\0", b"\x30\x82", OCTETS:
    certified = HEAD.replace("\n", f"\tpkinit\t{octets.hex()}\n")
    row("read", fold(certified + ONE), fold(certified + ONE))
    row("read", fold(certified.replace(octets.hex(), octets.hex().upper())), fold(certified))
    row("certify", fold("#\n" + HEAD + ONE + "# end\n"), octets.hex(), fold("#\n" + certified + ONE + "# end\n"))
    row("certify", fold(certified + ONE), "00ff", fold(HEAD.replace("\n", "\tpkinit\t00ff\n") + ONE))
    row("certify", fold(certified + ONE), "-", fold(HEAD + ONE))
    row("key", fold(certified + ONE), "a", "aes128-cts-hmac-sha1-96", "11" * 16, fold(certified + ONE.replace("\t1\t", "\t2\t").replace(KEY, "11" * 16)))
    row("remove", fold(certified + ONE), "a", fold(certified))

# A policy that limits triple DES, beside what logins by certificate are answered by.
LIMITED = HEAD.replace("\n", "\tlimits-des3\t-\n")
BOTH = HEAD.replace("\n", "\tlimits-des3,pkinit\t00ff\n")
row("read", fold(LIMITED + ONE), fold(LIMITED + ONE))
row("read", fold(BOTH.replace("00ff", "00FF") + ONE), fold(BOTH + ONE))
row("certify", fold(LIMITED + ONE), "00ff", fold(BOTH + ONE))
row("certify", fold(BOTH + ONE), "-", fold(LIMITED + ONE))
row("remove", fold(LIMITED + ONE), "a", fold(LIMITED))
for further, fault in [
    ("limits-des3\t00", NO_PKINIT), ("limits-des3\t", NO_PKINIT), ("limits-des3", NAME_OR_SUITE), ("limits-des3,pkinit\t-", PKINIT), ("pkinit,limits-des3\t00", WORD),
    ("limits-des3\t-\tpkinit\t00", NAME_OR_SUITE), ("limits\t-", WORD), ("guards-passwords,guards-passwords\t-", WORD), ("guards-passwords,renewable=1\t-", WORD),
    ("guards-passwords,limits-des3\t-", WORD), ("pkinit,guards-passwords\t00", WORD), ("guards-passwords\t00", NO_PKINIT), ("guards-passwords,pkinit\t-", PKINIT),
]:
    row("read", fold(HEAD.replace("\n", f"\t{further}\n")), "1: " + fault)

# The words of a realm's line. What is read of them is judged here word by word.
WORDS = ["limits-des3", "forwardable", "proxiable", "renewable", "guards-passwords", "pkinit-agility", "pkinit-sha1", "pkinit"]

def fault_of(words, pkinit):
    last = -1
    for word in words.split(","):
        name, mark, seconds = word.partition("=")
        place = WORDS.index(name) if name in WORDS and (name == "renewable") == (mark == "=") else -1
        if place <= last:
            return WORD
        if mark and not (re.fullmatch("[0-9]+", seconds) and 1 <= int(seconds) <= 31536000):
            return RENEWABLE
        last = place
    if WORDS[last] == "pkinit":
        return None if re.fullmatch("([0-9a-fA-F]{2})+", pkinit) else PKINIT
    return None if pkinit == "-" else NO_PKINIT

def realm(words, pkinit):
    further = [*words, *(["pkinit"] if pkinit else [])]
    return HEAD.replace("\n", f"\t{','.join(further)}\t{pkinit.hex() if pkinit else '-'}\n") if further else HEAD

OF_PKINIT = [(False, False), (True, False), (True, True), (False, True)]
for chosen in [(*front, *behind) for at, front in enumerate(itertools.product([False, True], repeat=5)) for behind in (OF_PKINIT[0], OF_PKINIT[1 + at % 3])]:
    life = random.choice([1, 2, 604800, 31535999, 31536000, random.randrange(1, 31536001)])
    words = [f"{word}={life}" if word == "renewable" else word for word, is_set in zip(WORDS, chosen) if is_set]
    without, certified = realm(words, b""), realm(words, b"\x00\xff")
    row("read", fold(without + ONE), fold(without + ONE))
    row("read", fold(certified.replace("00ff", "00FF").replace(f"={life}", f"=00{life}") + ONE), fold(certified + ONE))
    row("certify", fold(without + ONE), "00ff", fold(certified + ONE))
    row("certify", fold(certified + ONE), "-", fold(without + ONE))
    row("disable", fold(without + ONE), "a", fold(without + "#disabled\t" + ONE))

ODD = ["limits-des3", "forwardable", "proxiable", "pkinit", "renewable=604800", "guards-passwords", "pkinit-agility", "pkinit-sha1", "renewable=1", "renewable=31536000", "renewable", "renewable=", "renewable=0",
       "renewable=31536001", "renewable=-1", "renewable=1d", "renewable= 1", "renewable=4294967296", "renewable=99999999999999999999", "renewable==1", "forwardable=",
       "Forwardable", "proxiable ", " forwardable", "forwardables", "forward", "renewable=1=", "guards-password", "guards-passwords=", "guards_passwords", "pkinit-sha256", "pkinit-agility=", "-", ""]
tried = [*ODD, *(random.choice(ODD) + "," + random.choice(ODD) for _ in range(30)), *(",".join(random.sample(ODD[:8], random.randrange(2, 9))) for _ in range(40))]
for words in sorted(set(tried)):
    for pkinit in "-", random.choice(["00", "0", "", "--", "0F"]):
        text = HEAD.replace("\n", f"\t{words}\t{pkinit}\n") + ONE
        fault = fault_of(words, pkinit)
        row("read", fold(text), "1: " + fault if fault else fold(text.replace("\t0F\n", "\t0f\n")))

# Attributes and older keys: the last second, counted from 1970, the greatest lifetime, the marks, and each older key.
ENDS = "last second: expected seconds since 1970, from 0 to 4294967295, or - for none"
LASTS = "lifetime: expected seconds, from 0 to 4294967295, or - for none"
MARK_WORDS = "marks: expected off, must-change and no-service in this order, with a comma between each two, or - for none"
OLDER = "older key: expected suite, kvno and key with a colon between each two, kvnos that fall, and 15 older keys at most"
BEFORE = "aes256-cts-hmac-sha1-96:{}:" + "22" * 32

def further(account, *fields):
    return account.replace("\n", "".join("\t" + field for field in fields) + "\n")

def older(*kvnos):
    return [BEFORE.format(kvno) for kvno in kvnos]

TWENTIETH = ONE.replace("\t1\t", "\t20\t")
for fields in [
    ("1893456000", "-", "-"), ("-", "36000", "-"), ("4294967295", "4294967295", "off,must-change,no-service"), ("1", "1", "off"),
    ("-", "-", "must-change"), ("-", "-", "off,must-change"), ("-", "-", "no-service"), ("-", "-", "off,no-service"), ("-", "-", "must-change,no-service"),
    ("-", "-", "-", *older(19)), ("-", "-", "-", *older(19, 3, 1)), ("2", "3", "off", *older(*range(15, 0, -1))),
]:
    for text in HEAD + further(TWENTIETH, *fields), HEAD + "#disabled\t" + further(TWENTIETH, *fields):
        row("read", fold(text), fold(text))
row("read", fold(HEAD + further(ONE, "-", "-", "-")), fold(HEAD + ONE))
row("read", fold(HEAD + further(ONE, "0", "0", "-")), fold(HEAD + ONE))
for fields, fault in [
    (("-", "-"), FIELDS), (("x", "-", "-"), ENDS), (("4294967296", "-", "-"), ENDS), (("", "-", "-"), ENDS), (("-", "x", "-"), LASTS),
    (("-", "4294967296", "-"), LASTS), (("-", "-", "OFF"), MARK_WORDS), (("-", "-", "must-change,off"), MARK_WORDS), (("-", "-", "off,"), MARK_WORDS), (("-", "-", ""), MARK_WORDS),
    (("-", "-", "-", ""), OLDER), (("-", "-", "-", *older(20)), OLDER), (("-", "-", "-", *older(3, 3)), OLDER), (("-", "-", "-", *older(3, 4)), OLDER),
    (("-", "-", "-", *older(*range(16, 0, -1))), OLDER), (("-", "-", "-", *older(0)), KVNO), (("-", "-", "-", BEFORE.format(1)[2:]), SUITE),
    (("-", "-", "-", BEFORE.format(1)[2:] + "22"), SUITE), (("-", "-", "-", BEFORE.format(1) + "22"), KEYS), (("-", "-", "-", BEFORE.format(1) + ":"), OLDER),
]:
    row("read", fold(HEAD + further(TWENTIETH, *fields)), "2: " + fault)

# Changes of keys that keep the keys before, or don't.
SUITE_OF_ONE, NEXT = "aes128-cts-hmac-sha1-96", "11" * 16
OWN = SUITE_OF_ONE + ":20:" + KEY
NEXT_ONE = ONE.replace("\t1\t", "\t21\t").replace(KEY, NEXT)
row("keep", fold(HEAD + TWENTIETH), "a", SUITE_OF_ONE, NEXT, fold(HEAD + further(NEXT_ONE, "-", "-", "-", OWN)))
row("keep", fold(HEAD + further(TWENTIETH, "-", "-", "-", *older(*range(15, 0, -1)))), "a", SUITE_OF_ONE, NEXT,
    fold(HEAD + further(NEXT_ONE, "-", "-", "-", OWN, *older(*range(15, 1, -1)))))
row("keep", fold(HEAD + further(TWENTIETH, "5", "6", "off,must-change")), "a", SUITE_OF_ONE, NEXT, fold(HEAD + further(NEXT_ONE, "5", "6", "off", OWN)))
row("keep", fold(HEAD + TWENTIETH), "b", SUITE_OF_ONE, NEXT, "no such account")
row("keep", fold(HEAD + ONE.replace("\t1\t", "\t4294967295\t")), "a", SUITE_OF_ONE, NEXT, "kvno 4294967295 is the greatest: expected a new name")
row("key", fold(HEAD + further(TWENTIETH, "5", "6", "must-change,no-service", *older(19, 1))), "a", SUITE_OF_ONE, NEXT, fold(HEAD + further(NEXT_ONE, "5", "6", "no-service")))
row("purge", fold(HEAD + further(TWENTIETH, "-", "-", "-", *older(19, 1))), "a", fold(HEAD + TWENTIETH))
row("purge", fold(HEAD + further(TWENTIETH, "5", "-", "-", *older(19, 1))), "a", fold(HEAD + further(TWENTIETH, "5", "-", "-")))
row("purge", fold(HEAD + TWENTIETH), "b", "no such account")
row("off", fold(HEAD + further(TWENTIETH, "5", "6", "no-service", *older(19))), "a", fold(HEAD + further(TWENTIETH, "-", "-", "off", *older(19))))
row("off", fold(HEAD + ONE + KRBTGT), "krbtgt/EXAMPLE.COM", KEPT)
row("off", fold(HEAD + ONE), "b", "no such account")

# Keys of passwords, which have a salt. Where the realm guards passwords, an account that is given such a key is no service, but for that of
# its own ticket-granting service.
def given(words, salt, kvno, fields, former, name="a"):
    """The line of an account that was given a key, which had these fields before, and keeps these keys."""
    ends, lifetime, marks, *_ = fields or ("-", "-", "-")
    is_guarded = "guards-passwords" in words.split(",") and salt != "-" and name != "krbtgt/EXAMPLE.COM"
    kept = [mark for mark in ("off", "no-service") if mark in marks.split(",") or mark == "no-service" and is_guarded]
    behind = ends, lifetime, ",".join(kept) or "-", *former
    own = f"{name}\t{SUITE_OF_ONE}\t{kvno}\t{salt}\t{NEXT}\n"
    return own if set(behind) == {"-"} else further(own, *behind)

for words in "", "limits-des3,pkinit", "guards-passwords", "limits-des3,forwardable,proxiable,renewable=1,guards-passwords,pkinit":
    head = HEAD.replace("\n", f"\t{words}\t{'00ff' if 'pkinit' in words else '-'}\n") if words else HEAD
    for salt in "-", "73616c74", "":
        mark, last = ("", []) if salt == "-" else ("-salted", [salt])
        row("add" + mark, fold(head), "a", SUITE_OF_ONE, NEXT, *last, fold(head + given(words, salt, 1, (), ())))
        for fields in (), ("5", "6", "off,must-change"), ("-", "-", "no-service"), ("-", "-", "must-change,no-service", *older(19, 1)), ("-", "7", "-", *older(*range(15, 0, -1))):
            for disabled in ["", "#disabled\t"][:1 + (fields == ())]:
                before = head + disabled + (further(TWENTIETH, *fields) if fields else TWENTIETH)
                row("key" + mark, fold(before), "a", SUITE_OF_ONE, NEXT, *last, fold(head + disabled + given(words, salt, 21, fields, ())))
                row("keep" + mark, fold(before), "a", SUITE_OF_ONE, NEXT, *last,
                    fold(head + disabled + given(words, salt, 21, fields, [OWN, *fields[3:]][:15])))
GUARDED = HEAD.replace("\n", "\tguards-passwords\t-\n")
row("off", fold(GUARDED + further(ONE, "-", "-", "no-service")), "a", fold(GUARDED + further(ONE, "-", "-", "off")))
for name in "krbtgt/EXAMPLE.COM", "krbtgt/EXAMPLE.ORG", "krbtgt/EXAMPLE.COM/a", "krbtgt", "EXAMPLE.COM/krbtgt":
    before = TWENTIETH.replace("a\t", name + "\t", 1)
    last = name, SUITE_OF_ONE, NEXT, "7f"
    row("add-salted", fold(GUARDED), *last, fold(GUARDED + given("guards-passwords", "7f", 1, (), (), name)))
    row("key-salted", fold(GUARDED + before), *last, fold(GUARDED + given("guards-passwords", "7f", 21, (), (), name)))
    row("keep-salted", fold(GUARDED + before), *last, fold(GUARDED + given("guards-passwords", "7f", 21, (), [OWN], name)))

with open("account_texts.txt", "w", encoding="utf-8") as out:
    out.write("".join(row + "\n" for row in rows))
