"""The programs of this repository: where each lies, what it is made of, and whether it is built."""
import collections, os, re, shutil

TOP = os.path.dirname(os.path.dirname(os.path.realpath(__file__)))
LINES_A_MINUTE = 1_000  # of src/, specs/ and proofs/ that a processor minute proves: krb_realmd's 84,000 took 74 to 88

# A program's name, its crate, the section of its manual page, and the words with which a built one ends with status 0 at once.
Program = collections.namedtuple("Program", "name crate section trial")
PROGRAMS = {
    it.name: it
    for it in (
        Program("krb_accounts", "krb_accounts", 8, ["--version"]),
        Program("krb_kdcd", "krb_kdcd", 8, ["--version"]),
        Program("krb_keytab", "krb_keytab", 1, ["--version"]),
        Program("krb_kpasswdd", "krb_kpasswdd", 8, ["--version"]),
        Program("krb_login", "krb_login", 1, ["--version"]),
        Program("krb_realm", "krb_realmd", 8, []),
        Program("krb_realm_check", "krb_realm_check", 8, ["data/settings.toml"]),
    )
}
# The programs in Python, with their file and the section of their manual page.
Script = collections.namedtuple("Script", "path section")
SCRIPTS = {"krb_connect": Script(f"{TOP}/bridges/krb_connect", 1), "krb_listen": Script(f"{TOP}/bridges/krb_listen", 8)}
ASKING = ("krb_accounts", "krb_login")  # those whose password tools/ask_password asks for
NO_KIT = (
    "{} is missing: the command of Rattle's kit, which proves and builds. Who gave you this repository has the kit; its folder bin goes on "
    "the path (README.md, 'What it needs')"
)


def crates():
    """Each crate of crates.txt, with the libraries that it lists."""
    with open(f"{TOP}/crates.txt", encoding="utf-8") as it:
        rows = [row.partition("#")[0].partition(":") for row in it]
    return {name.split()[0]: uses.split() for name, _, uses in rows if name.strip()}


def below(crate, uses):
    """The crate, and the crates of this repository that it stands on."""
    found, new = set(), [crate]
    while new:
        name = new.pop()
        if name in uses and name not in found:
            found.add(name)
            new += uses[name]
    return found


def files_of(crate, parts):
    for part in parts:
        for folder, _, names in os.walk(f"{TOP}/crates/{crate}/{part}"):
            yield from (os.path.join(folder, it) for it in sorted(names) if it.endswith((".rt", ".antt")))


def lines_of(crates_, parts=("src", "specs", "proofs")):
    """How many lines these crates have in these folders."""
    count = 0
    for path in (path for crate in crates_ for path in files_of(crate, parts)):
        with open(path, "rb") as it:
            count += it.read().count(b"\n")
    return count


def path_of(program):
    """The built program, whether it is there or not."""
    return f"{TOP}/crates/{program.crate}/out/{program.crate}"


def newer_source(program, uses):
    """A source of the program's own crates that is newer than the program, if there is one."""
    built = os.stat(path_of(program)).st_mtime_ns
    sources = (path for crate in sorted(below(program.crate, uses)) for path in files_of(crate, ("src",)))
    return next((path for path in sources if os.stat(path).st_mtime_ns > built), None)


def fault_of(program, uses):
    """Why the built program isn't what the sources say, or nothing."""
    if not os.access(path_of(program), os.X_OK):
        return "isn't built yet"
    source = newer_source(program, uses)
    return f"is older than {os.path.relpath(source, TOP)}" if source else ""


def kit_fault(command):
    """What is missing, where the kit's command isn't there."""
    return "" if shutil.which(command) else NO_KIT.format(command)


def version():
    """What `--version` of each program says after its name."""
    with open(f"{TOP}/crates/krb_programs/src/version.rt", encoding="utf-8") as it:
        return re.search(r'VERSION: &str = "(.*)";', it.read())[1]
