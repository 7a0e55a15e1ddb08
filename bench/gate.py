"""Runs the gate from nothing in a clean clone, and prints its processor minutes by crate and its wall time against the budget. With
--budget alone it only prints the budget that docs/DECISIONS.md states, and fails where that page states none."""
import collections, os, pathlib, re, resource, subprocess, sys, tempfile, threading, time

BUDGET = re.compile(r"^- Budget of the gate: (\d+) minutes of wall time on two processors", re.M)
CLOCK = os.sysconf("SC_CLK_TCK")
# Seconds between two looks at the processes: each look takes some 20 milliseconds, which count as the gate's.
LOOKS_APART = 1
COLUMNS = ("proof", "tests", "first edit", "further edits")
# The budget is wall time on two processors: with four, a large check takes up to four jobs, which do much of their work twice.
BUDGET_PROCESSORS = 2
PROCESSORS = int(os.environ.get("GATE_PROCESSORS", BUDGET_PROCESSORS))


class Check:
    """A process of the gate: what it is about, when it began, and the processor seconds that it was last seen to have taken."""

    def __init__(self, crate, kind):
        self.crate, self.kind, self.began, self.seconds = crate, kind, 0, 0.0


def words_of(process):
    with open(f"/proc/{process}/cmdline", "rb") as it:
        return it.read().decode(errors="replace").split("\0")


def parent_of(process):
    with open(f"/proc/{process}/stat") as it:
        return it.read().rpartition(")")[2].split()[1]


def check_of(process, clone):
    """What a process checks or builds, None where it is none of the gate's. A check's helpers are of its kind."""
    words, room, parent = words_of(process), os.readlink(f"/proc/{process}/cwd"), parent_of(process)
    if "--crate-name" not in words and "--crate-name" in words_of(parent):
        words, parent = words_of(parent), parent_of(parent)
    is_check = "--crate-name" in words
    if room.startswith(clone + "/crates/"):
        crate = room[len(clone) :].split("/")[2]
        return Check(crate, "tests" if is_check and "--test" in words else "proof")
    if is_check and os.path.basename(room).startswith("rt-edit-") and os.readlink(f"/proc/{parent}/cwd") == clone:
        return Check(words[words.index("--crate-name") + 1], "edit")
    return None


def watch(clone, seen, is_over):
    """Keeps the processor time of each process of the gate, until it is over."""
    while not is_over.is_set():
        for process in filter(str.isdigit, os.listdir("/proc")):
            try:
                with open(f"/proc/{process}/stat") as it:
                    fields = it.read().rpartition(")")[2].split()
                key = process, fields[19]
                if seen.get(key) is None:
                    seen[key] = check_of(process, clone)
                if seen[key]:
                    seen[key].began = int(fields[19])
                    seen[key].seconds = (int(fields[11]) + int(fields[12])) / CLOCK
            except (OSError, ValueError, IndexError):
                pass
        is_over.wait(LOOKS_APART)


def by_crate(checks):
    """Processor seconds by crate and column, and the checks of each crate's edits in their order."""
    table, tries = collections.defaultdict(collections.Counter), collections.defaultdict(list)
    for it in sorted(checks, key=lambda it: it.began):
        kind = it.kind
        if kind == "edit":
            tries[it.crate].append(it)
            kind = COLUMNS[2] if len(tries[it.crate]) == 1 else COLUMNS[3]
        table[it.crate][kind] += it.seconds
    return table, tries


def show_row(name, row, edits):
    cells = "".join(f"{row[it] / 60:>15.1f}" for it in COLUMNS)
    print(f"{name:<22}{cells}{edits:>8}{sum(row.values()) / 60:>10.1f}")


def show(table, edits):
    """Prints the table; the last check of a crate's edits, of no edit, counts among the further ones."""
    print(f"{'minutes':<22}" + "".join(f"{it:>15}" for it in COLUMNS) + f"{'edits':>8}{'in all':>10}")
    for crate in sorted(table, key=lambda it: -sum(table[it].values())):
        show_row(crate, table[crate], len(edits[crate]))
    show_row("all", sum(table.values(), collections.Counter()), sum(map(len, edits.values())))


def show_slow(tries, edits):
    """Prints the further edits that cost most: the gate tries a crate's edits by the order of their names."""
    named = [(it.seconds, crate, name) for crate in edits for it, name in [*zip(tries[crate], edits[crate])][1:]]
    for seconds, crate, name in sorted(named, reverse=True)[:12]:
        print(f"{seconds:>6.0f} s  {crate}/{name}")


def edits_of(clone):
    """The names of each crate's must-fail edits, in their order."""
    folders = {it: f"{clone}/crates/{it}/must-fail" for it in os.listdir(f"{clone}/crates")}
    found = {it: sorted(os.listdir(path)) if os.path.isdir(path) else [] for it, path in folders.items()}
    return collections.defaultdict(list, found)


def gate_command():
    """The words of the gate from nothing. A kit whose `rt ci` keeps what passed has a word against it, which its help names."""
    asked = subprocess.run(["rt", "help"], cwd="/", stdin=subprocess.DEVNULL, capture_output=True, text=True)
    return ["rt", "ci", "--anew"] if "--anew" in asked.stdout + asked.stderr else ["rt", "ci"]


def budget_of(top):
    """The minutes of wall time that docs/DECISIONS.md states."""
    with open(f"{top}/docs/DECISIONS.md", encoding="utf-8") as it:
        found = BUDGET.search(it.read())
    if not found:
        sys.exit("gate: docs/DECISIONS.md has no line '- Budget of the gate: N minutes of wall time on two processors'")
    return int(found[1])


def judgement(wall, budget, processors):
    """Whether the wall time keeps the budget, and a text that says so. On other than two processors nothing is judged."""
    if processors != BUDGET_PROCESSORS:
        return True, f"not judged: the budget of {budget} minutes is for {BUDGET_PROCESSORS} processors"
    if wall <= budget:
        return True, f"within the budget of {budget} minutes"
    return False, f"OVER the budget of {budget} minutes"


def main(top, log):
    budget, command = budget_of(top), gate_command()
    with tempfile.TemporaryDirectory(prefix="gate-") as room, open(log, "w") as said:
        clone = f"{os.path.realpath(room)}/clone"
        subprocess.run(["git", "clone", "-q", top, clone], check=True)
        seen, is_over, start = {}, threading.Event(), time.monotonic()
        watcher = threading.Thread(target=watch, args=(clone, seen, is_over))
        watcher.start()
        try:
            os.sched_setaffinity(0, sorted(os.sched_getaffinity(0))[:PROCESSORS])
            ended = subprocess.run(command, cwd=clone, stdin=subprocess.DEVNULL, stdout=said, stderr=subprocess.STDOUT)
        finally:
            is_over.set()
            watcher.join()
        edits = edits_of(clone)
    table, tries = by_crate(filter(None, seen.values()))
    show(table, edits)
    show_slow(tries, edits)
    used = resource.getrusage(resource.RUSAGE_CHILDREN)
    minutes, wall = (used.ru_utime + used.ru_stime) / 60, (time.monotonic() - start) / 60
    processors = len(os.sched_getaffinity(0))
    keeps, said_of_it = judgement(wall, budget, processors)
    print(f"`{' '.join(command)}`: {minutes:.1f} processor minutes")
    print(f"{wall:.1f} minutes of wall time on {processors} processors: {said_of_it}")
    with open(log) as it:
        print(it.read().splitlines()[-1])
    return ended.returncode or int(not keeps)


if __name__ == "__main__":
    if sys.argv[1:] == ["--budget"]:
        print(f"budget: {budget_of(pathlib.Path(__file__).resolve().parent.parent)} minutes")
    else:
        sys.exit(main(*sys.argv[1:]))
