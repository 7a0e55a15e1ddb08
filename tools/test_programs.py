#!/usr/bin/env python3
"""Tests of the start scripts, `make build`, `make install`, `make run` and the manual pages, over programs and a kit that are stubs.

usage: python3 -B tools/test_programs.py
"""
import os, pty, re, select, shutil, signal, socket, stat, subprocess, sys, tempfile, time, unittest

TOP = os.path.dirname(os.path.dirname(os.path.realpath(__file__)))
sys.path.insert(0, f"{TOP}/tools")
from manual_pages import Help, page_of, source_of
from programs import PROGRAMS, SCRIPTS

STARTS = ("krb_accounts", "krb_keytab", "krb_login", "krb_realm")
# A program that says what it was given: its arguments, a line of standard input or of the file of -p, and what others can see of it.
STUB = """#!/bin/sh
echo "arguments: $*"
if [ "$1" = -p ]; then IFS= read -r line <"$2"; else line=; fi
printf 'line: %s\n' "$line"
printf 'input: %s\n' "$(cat)"
echo "seen: $(cat /proc/$$/cmdline /proc/$PPID/cmdline | tr '\\0' ' ') $(env)"
exit ${STATUS:-0}
"""
# A kit that takes the crates but one.
KIT = """#!/bin/sh
echo "rt $*"
crate=$(basename "$PWD")
[ "$crate" != "$REFUSED" ] || { echo "error: a goal is open"; exit 1; }
mkdir -p out && cp "$STUB" "out/$crate" && chmod 755 "out/$crate"
"""
PASSWORD = " correct \\horse 'battery\" $staple* \u00e9 "
IN_WORDS = re.compile(r"[A-Za-z0-9_]+")


def write(path, text):
    os.makedirs(os.path.dirname(path), exist_ok=True)
    with open(path, "w", encoding="utf-8") as it:
        it.write(text)
    os.chmod(path, 0o755)


def text_of(path):
    with open(path, encoding="utf-8") as it:
        return it.read()


def files_below(folder):
    return sorted(os.path.relpath(os.path.join(at, it), folder) for at, _, names in os.walk(folder) for it in names)


class Copy(unittest.TestCase):
    """A copy of the repository in a folder with a space in its name, whose sources are older than any program."""

    def setUp(self):
        folder = tempfile.TemporaryDirectory(prefix="sukvort programs ")
        self.addCleanup(folder.cleanup)
        plain = tempfile.TemporaryDirectory()
        self.addCleanup(plain.cleanup)
        self.folder, self.plain, self.top = folder.name, plain.name, f"{folder.name}/the clone"
        os.mkdir(self.top)
        for name in os.listdir(TOP):
            if name in ("tools", "bridges", "examples", "docs"):
                shutil.copytree(f"{TOP}/{name}", f"{self.top}/{name}", symlinks=True)
            elif os.path.isfile(f"{TOP}/{name}"):
                shutil.copy(f"{TOP}/{name}", self.top, follow_symlinks=False)
        for crate in os.listdir(f"{TOP}/crates"):
            os.makedirs(f"{self.top}/crates/{crate}")
            os.symlink(f"{TOP}/crates/{crate}/src", f"{self.top}/crates/{crate}/src")
        write(f"{self.folder}/stub", STUB)
        write(f"{self.folder}/bin/rt", KIT)
        self.env = {"PATH": f"{self.folder}/bin:/usr/bin:/bin", "STUB": f"{self.folder}/stub"}

    def build_stubs(self):
        for program in PROGRAMS.values():
            write(f"{self.top}/crates/{program.crate}/out/{program.crate}", STUB)

    def run_in(self, *words, status=0, **env):
        """The lines of standard output and standard error."""
        how = {"cwd": self.top, "env": self.env | env, "capture_output": True, "text": True, "stdin": subprocess.DEVNULL}
        ended = subprocess.run(words, **how, timeout=60)
        self.assertEqual(ended.returncode, status, ended.stdout + ended.stderr)
        return ended.stdout.splitlines(), ended.stderr.splitlines()

    def own_source(self, crate):
        """A source of a crate that the test may change."""
        os.unlink(f"{self.top}/crates/{crate}/src")
        shutil.copytree(f"{TOP}/crates/{crate}/src", f"{self.top}/crates/{crate}/src")
        return f"{self.top}/crates/{crate}/src/lib.rt"


class Starts(Copy):
    def test_a_program_that_is_not_built(self):
        for name in STARTS:
            wrote, said = self.run_in(f"{self.top}/{name}", "list", status=2)
            self.assertEqual((wrote, len(said)), ([], 1))
            self.assertIn(f"make build PROGRAM={name}", said[0])

    def test_a_program_by_a_symbolic_link_from_another_folder(self):
        self.build_stubs()
        for name in STARTS:
            os.symlink(f"{self.top}/{name}", f"{self.folder}/{name}")
            wrote, said = self.run_in(f"{self.folder}/{name}", "list", "two words")
            self.assertEqual((wrote[0], said), ("arguments: list two words", []))
            os.symlink(name, f"{self.folder}/{name[4:]}")  # a link of another name, which leads to that one
            self.assertEqual(self.run_in(f"{self.folder}/{name[4:]}", "list")[0][0], "arguments: list")

    def test_what_is_no_start_script(self):
        _, said = self.run_in(f"{self.top}/tools/run_program", "krb_login", status=2)
        self.assertEqual(len(said), 1)
        self.assertIn("expected a link of a program's name: krb_accounts, ", said[0])

    def test_the_status_is_the_programs(self):
        self.build_stubs()
        for name in STARTS:
            self.run_in(f"{self.top}/{name}", "list", status=7, STATUS="7")

    def test_a_source_that_is_newer(self):
        self.build_stubs()
        os.utime(self.own_source("krb_client"), (time.time() + 9,) * 2)
        _, said = self.run_in(f"{self.top}/krb_login", "x", status=2)
        self.assertIn("is older than crates/krb_client/src/lib.rt", said[0])
        self.run_in(f"{self.top}/krb_accounts", "list")  # it doesn't stand on that crate


class Asking(Copy):
    """The start scripts at a terminal."""

    def setUp(self):
        super().setUp()
        self.build_stubs()

    def at_terminal(self, words, answers, interrupt=False, input_=None):
        """What the terminal shows, and the status. An answer is typed at each prompt."""
        process, terminal = pty.fork()
        if process == 0:
            os.chdir(self.top)
            if input_ is not None:
                os.dup2(input_, 0)
            os.execve(words[0], words, self.env)
        shown, until = b"", time.monotonic() + 30
        while time.monotonic() < until:
            if select.select([terminal], [], [], 0.1)[0]:
                try:
                    octets = os.read(terminal, 4096)
                except OSError:
                    break
                shown += octets
                if answers and re.search(rb"(?:Password for [^\r\n]*|again): $", shown):
                    os.write(terminal, b"\3" if interrupt else answers.pop(0).encode() + b"\n")
        else:
            os.kill(process, signal.SIGKILL)
        status = os.waitstatus_to_exitcode(os.waitpid(process, 0)[1])
        os.close(terminal)
        return shown.decode().replace("\r\n", "\n"), status

    def test_accounts_asks_twice(self):
        for command in "add", "key":
            shown, status = self.at_terminal([f"{self.top}/krb_accounts", command, "accounts", "alice"], [PASSWORD, PASSWORD])
            self.assertEqual(status, 0)
            front, _, rest = shown.partition(f"arguments: {command} accounts alice\n")
            self.assertEqual(front, "Password for alice: \nagain: \n")
            self.assertIn(f"line: \ninput: {PASSWORD}\n", rest)
            self.assertNotIn(PASSWORD, rest.partition("seen:")[2])

    def test_two_passwords_that_differ(self):
        shown, status = self.at_terminal([f"{self.top}/krb_accounts", "add", "accounts", "alice"], [PASSWORD, "another"])
        self.assertEqual(status, 1)
        self.assertEqual(shown.splitlines()[-1], "krb_accounts: the two passwords differ: expected the same one twice")
        self.assertNotIn("arguments:", shown)

    def test_accounts_does_not_ask(self):
        for words in ["list", "accounts"], ["--help"], ["add", "--help", "accounts", "alice"], ["add", "accounts"]:
            shown, _ = self.at_terminal([f"{self.top}/krb_accounts", *words], [], input_=os.open(os.devnull, os.O_RDONLY))
            self.assertTrue(shown.startswith("arguments: " + " ".join(words)), shown)
        for words in ["add", "accounts", "alice"], ["add", "-k", "random", "accounts", "alice"]:
            shown, _ = self.at_terminal([f"{self.top}/krb_accounts", *words], [], input_=os.open(os.devnull, os.O_RDONLY))
            self.assertTrue(shown.startswith("arguments: " + " ".join(words)), shown)

    def test_login_asks_once_and_leaves_standard_input(self):
        reading, writing = os.pipe()
        os.write(writing, b"a reply of the KDC")
        os.close(writing)
        words = [f"{self.top}/krb_login", "-c", "cache", "alice@EXAMPLE.COM"]
        shown, status = self.at_terminal(words, [PASSWORD], input_=reading)
        self.assertEqual(status, 0)
        front, _, rest = shown.partition("arguments: -p /dev/fd/3 -c cache alice@EXAMPLE.COM\n")
        self.assertEqual(front, "Password for alice@EXAMPLE.COM: \n")
        self.assertIn(f"line: {PASSWORD}\ninput: a reply of the KDC\n", rest)
        self.assertNotIn(PASSWORD, rest.partition("seen:")[2])

    def test_login_does_not_ask(self):
        for option in "-k", "-p", "-C":
            shown, _ = self.at_terminal([f"{self.top}/krb_login", option, "/dev/null", "x"], [], input_=os.open(os.devnull, os.O_RDONLY))
            self.assertTrue(shown.startswith(f"arguments: {option} /dev/null x\n"), shown)

    def test_no_terminal(self):
        words = ["setsid", f"{self.top}/krb_login", "-c", "cache", "alice@EXAMPLE.COM"]
        wrote, said = self.run_in(*words)
        self.assertEqual((wrote[0], said), ("arguments: -c cache alice@EXAMPLE.COM", []))

    def test_an_interrupt_shows_what_is_typed_again(self):
        script = f"""'{self.top}/krb_accounts' add accounts alice; echo "status $?"; stty -a | grep -o -- '-*\\becho\\b'"""
        shown, _ = self.at_terminal(["/bin/sh", "-c", f"trap : INT; {script}"], ["unused"], interrupt=True)
        self.assertIn("status 2\n", shown)
        self.assertEqual(shown.splitlines()[-1], "echo")


class Install(Copy):
    def make(self, *words, status=0, **env):
        return self.run_in("make", "-s", *words, status=status, **env)

    def test_a_refused_proof_installs_nothing(self):
        place = f"{self.folder}/packed"
        _, said = self.make("install", f"DESTDIR={place}", status=2, REFUSED="krb_kdcd")
        self.assertRegex(said[0], r"^build: proving krb_accounts, .*: \d+ crates of \d+ lines, some \d+ processor minutes$")
        self.assertTrue(any("krb_kdcd isn't built" in it for it in said))
        self.assertFalse(os.path.exists(place))

    def test_installed_files_and_their_removal(self):
        place = f"{self.folder}/packed"
        self.make("install", "PREFIX=/opt/krb", f"DESTDIR={place}")
        root = f"{place}/opt/krb"
        listed = text_of(f"{root}/share/doc/sukvort/installed").splitlines()
        self.assertEqual(sorted(it for it in listed if not it.endswith("/")), files_below(place))
        for name in "bin/krb_login", "bin/krb_keytab", "bin/krb_connect", "sbin/krb_accounts", "sbin/krb_kdcd", "sbin/krb_listen":
            self.assertEqual(stat.S_IMODE(os.stat(f"{root}/{name}").st_mode), 0o755)
        for name in "sbin/krb_realm", "sbin/krb_realm_check", "share/man/man8/krb_kdcd.8", "share/man/man1/krb_login.1":
            self.assertTrue(os.path.isfile(f"{root}/{name}"))
        units = [f"lib/systemd/system/{it}" for it in files_below(f"{root}/lib/systemd/system")]
        for name in [*units, "libexec/sukvort/krb_realm_inetd", "share/doc/sukvort/examples/inetd.conf"]:
            text = text_of(f"{root}/{name}")
            self.assertNotIn("/usr/local", text)
            for path in re.findall(r"/opt/krb/[\w/]+/(?:krb_\w+|RUNNING\.md)", text):
                self.assertTrue(os.path.isfile(f"{place}{path}"), path)
        self.make("uninstall", "PREFIX=/opt/krb", f"DESTDIR={place}")
        self.assertEqual(os.listdir(place), [])
        self.make("uninstall", "PREFIX=/opt/krb", f"DESTDIR={place}", status=2)

    def test_what_others_put_there_stays(self):
        place = f"{self.folder}/packed"
        write(f"{place}/usr/local/bin/other", "")
        os.makedirs(f"{place}/usr/local/share/man/man1")
        self.make("install", f"DESTDIR={place}")
        write(f"{place}/usr/local/share/doc/sukvort/own notes", "")
        self.make("install", f"DESTDIR={place}")
        self.make("uninstall", f"DESTDIR={place}")
        self.assertEqual(files_below(place), ["usr/local/bin/other", "usr/local/share/doc/sukvort/own notes"])
        self.assertTrue(os.path.isdir(f"{place}/usr/local/share/man/man1"))

    def test_a_file_that_is_no_longer_installed(self):
        place = f"{self.folder}/packed"
        self.make("install", f"DESTDIR={place}")
        with open(f"{place}/usr/local/share/doc/sukvort/installed", "a", encoding="utf-8") as it:
            it.write("usr/local/bin/krb_older\n")
        write(f"{place}/usr/local/bin/krb_older", "")
        self.make("install", f"DESTDIR={place}")
        self.assertNotIn("krb_older", os.listdir(f"{place}/usr/local/bin"))
        self.assertNotIn("krb_older", text_of(f"{place}/usr/local/share/doc/sukvort/installed"))

    def test_installed_programs_run_and_ask(self):
        prefix = f"{self.plain}/krb"
        self.make("install", f"PREFIX={prefix}")
        wrote, _ = self.run_in(f"{prefix}/sbin/krb_accounts", "list", "accounts")
        self.assertEqual(wrote[0], "arguments: list accounts")
        wrote, _ = self.run_in(f"{prefix}/bin/krb_login", "-k", "keytab", "x")
        self.assertEqual(wrote[0], "arguments: -k keytab x")
        shown, _ = Asking.at_terminal(self, [f"{prefix}/bin/krb_login", "alice@R"], [PASSWORD], input_=os.open(os.devnull, os.O_RDONLY))
        self.assertTrue(shown.startswith("Password for alice@R: \narguments: -p /dev/fd/3 alice@R\n"), shown)

    def test_other_prefixes(self):
        self.build_stubs()
        for prefix in "here", "/a b", "/it's", "":
            _, said = self.make("install", f"PREFIX={prefix}", f"DESTDIR={self.folder}/packed", status=2)
            self.assertIn("install: expected PREFIX", said[0])
        self.make("install", "PREFIX=/", f"DESTDIR={self.folder}/packed")
        self.assertIn("=/sbin/krb_listen ", text_of(f"{self.folder}/packed/lib/systemd/system/krb_listen.service"))

    def test_a_mask_of_modes(self):
        place = f"{self.folder}/packed"
        self.build_stubs()
        self.run_in("sh", "-c", f"umask 077 && make -s install DESTDIR='{place}'")
        modes = {stat.S_IMODE(os.stat(at).st_mode) for at, _, _ in os.walk(f"{place}/usr")}
        self.assertEqual(modes, {0o755})

    def test_a_second_build_proves_nothing(self):
        self.make("build")
        wrote, said = self.make("build", REFUSED="krb_kdcd")
        self.assertEqual((wrote, said), ([], []))

    def test_what_make_test_says_before_it_starts(self):
        plan = r"^test: 1 build, \d at once, some \d+ processor minutes: 0 as measured here, 1 by their lines of source$"
        for words, said_before in ("krb_kdc_exchanges", ["test: krb_kdc_exchanges is tried by replay_"]), ("test_encodings", []):
            wrote, _ = self.make("test", f"CRATE={words}", status=2)  # the stub runs no tests
            for line, start in zip(wrote, said_before):
                self.assertTrue(line.startswith(start), line)
            self.assertRegex(wrote[len(said_before)], plan)

    def test_without_the_kit(self):
        os.remove(f"{self.folder}/bin/rt")
        for words in "build", "try", "encodings", "test", "check CRATE=cdb", "gate", "settings FILE=examples/settings.toml":
            _, said = self.make(*words.split(), status=2)
            self.assertIn("rt is missing: the command of Rattle's kit", said[0])


class Run(Copy):
    """make run, with a KDC that answers a message by the message."""

    def start(self):
        """Starts it, and returns the process and the port, once it listens."""
        write(f"{self.top}/crates/krb_accounts/out/krb_accounts", '#!/bin/sh\ncp "$2" "$3"\n')
        write(f"{self.top}/crates/krb_kdcd/out/krb_kdcd", "#!/bin/sh\nexec cat\n")
        with socket.create_server(("127.0.0.1", 0)) as it:
            port = it.getsockname()[1]
        how = {"cwd": self.top, "env": self.env, "stdin": subprocess.DEVNULL, "stdout": subprocess.PIPE, "stderr": subprocess.STDOUT}
        process = subprocess.Popen(["make", "-s", "run", f"PORT={port}"], text=True, start_new_session=True, **how)
        self.addCleanup(process.stdout.close)
        self.addCleanup(self.end, process)
        said = ""
        while "TCP and UDP, port" not in said:
            line = process.stdout.readline()
            self.assertTrue(line, said)
            said += line
        return process, port

    def end(self, process):
        """Ends it as Ctrl-C does, where it hasn't ended."""
        if process.poll() is None:
            os.killpg(process.pid, signal.SIGINT)
            process.wait(30)

    def test_a_realm_over_tcp_and_udp(self):
        process, port = self.start()
        with socket.create_connection(("127.0.0.1", port), 20) as it:
            it.sendall(b"\0\0\0\1a")
            self.assertEqual(it.recv(9), b"\0\0\0\1a")
        with socket.socket(type=socket.SOCK_DGRAM) as it:
            it.settimeout(20)
            it.sendto(b"b", ("127.0.0.1", port))
            self.assertEqual(it.recv(9), b"b")
        realm = f"{self.top}/out/realm"
        self.assertEqual(text_of(f"{realm}/accounts.cdb"), text_of(f"{TOP}/examples/accounts"))
        self.assertEqual(stat.S_IMODE(os.stat(f"{realm}/accounts").st_mode), 0o600)
        self.assertRegex(text_of(f"{realm}/krb5.conf"), rf"\nkdc = 127\.0\.0\.1:{port}\n")
        self.end(process)
        self.assertEqual(self.run_in(f"{self.top}/tools/free_port", str(port)), ([], []))

    def test_a_wrong_port_proves_nothing(self):
        with socket.create_server(("127.0.0.1", 0)) as it:
            for word in "abc", "88 99", str(it.getsockname()[1]):
                wrote, said = self.run_in("make", "-s", "run", f"PORT={word}", status=2)
                self.assertEqual((wrote, len(said)), ([], 2))  # the other line is make's own
                self.assertRegex(said[0], f"^make: PORT={word}: .*expected a ")


class Ports(unittest.TestCase):
    def run_with(self, word):
        ended = subprocess.run([f"{TOP}/tools/free_port", word], capture_output=True, text=True)
        return ended.returncode, ended.stderr

    def test_words(self):
        for word in "abc", "", "0", "65536", "-1", "8888 9999", "8888x":
            status, said = self.run_with(word)
            self.assertEqual((status, said.count("\n")), (2, 1))
            self.assertIn("expected a number from 1 to 65535", said)

    def test_a_port_that_is_taken(self):
        with socket.create_server(("127.0.0.1", 0)) as it:
            port = it.getsockname()[1]
            self.assertEqual(self.run_with(str(port))[0], 2)
        self.assertEqual(self.run_with(str(port)), (0, ""))
        with socket.socket(type=socket.SOCK_DGRAM) as it:
            it.bind(("127.0.0.1", 0))
            self.assertEqual(self.run_with(str(it.getsockname()[1]))[0], 2)


class Pages(unittest.TestCase):
    NAMES = (*PROGRAMS, *SCRIPTS)

    def test_the_words_of_the_comment_and_of_the_help_are_there(self):
        for name in self.NAMES:
            page = re.sub(r"\\f[BR]|\\&", "", page_of(name)).replace(r"\-", "-").replace(r"\(aq", "'").replace(r"\e", "\\")
            there = set(IN_WORDS.findall(page.lower()))
            described, usage = source_of(name)
            wanted = set(IN_WORDS.findall((" ".join(described) + " " + usage).lower())) - {"usage", "the", "program"}
            self.assertEqual(wanted - there, set(), name)

    def test_items_of_a_help(self):
        text = """usage:
  krb_x make [-k random] TEXT NAME
                              makes TEXT
  krb_x list TEXT             prints names, and
                              kvnos
  krb_x add [-k [random]] TEX adds it
  krb_x -h, krb_x --version
TEXT is a file.
It is whole.
  -k KEY   a key
"""
        help_ = Help(text)
        self.assertEqual(help_.calls[1:], ["krb_x list TEXT", "krb_x add [-k [random]] TEX", "krb_x -h", "krb_x --version"])
        self.assertEqual([(term, " ".join(said)) for term, said in help_.parts], [
            ("krb_x make [-k random] TEXT NAME", "makes TEXT"), ("krb_x list TEXT", "prints names, and kvnos"),
            ("krb_x add [-k [random]] TEX", "adds it"), ("", "TEXT is a file. It is whole."), ("-k KEY", "a key"),
        ])

    def test_sections_and_options(self):
        for name in self.NAMES:
            titles = re.findall(r"^\.SH (.*)$", page_of(name), re.M)
            self.assertEqual(titles[:3], ["NAME", "SYNOPSIS", "DESCRIPTION"])
            self.assertEqual(titles[-1], "SEE ALSO")
            self.assertRegex(page_of(name), rf"\n\.SH SYNOPSIS\n\.B {name}\n")
        self.assertIn("\n.TP\n.B \\-c CACHE\n", page_of("krb_login"))
        self.assertIn("\n.TP\n.B krb_accounts make TEXT DATABASE\n", page_of("krb_accounts"))

    @unittest.skipUnless(shutil.which("mandoc"), "mandoc isn't there (Debian: mandoc)")
    def test_lint(self):
        for name in self.NAMES:
            said = subprocess.run(["mandoc", "-Tlint"], input=page_of(name), capture_output=True, text=True).stdout
            self.assertEqual([it for it in said.splitlines() if "missing date" not in it], [])


if __name__ == "__main__":
    unittest.main()
