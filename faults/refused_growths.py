"""Refuses each request for memory of a row in turn: see refused_growths.sh.

A row is a file of lines `STEP .. | WANTED`, as crates/replay_realm/data has them (with a message before what is wanted), or as
crates/bench_codecs takes them, those of single calls behind `row`. Each step that takes memory stands there twice, the one behind the
other.

A row is run once with ample memory, which counts its requests, and once for each of these, which is refused. A library that is loaded
before the C library does both, so that the programs are the proved ones.

Of two equal steps, by turns: the first may want memory, and the second then tells what the first tells with ample memory; or the
second may. A login whose last reply can't be taken is admitted all the same, so the same login again is a replay. A refused
request in reading or telling a line ends the program, and nothing else may have been told before it. A client stands once in a
row, since its key costs thousands of rounds: where it isn't made, the program ends for want of a client.

A step `slice` tells its first word once it holds its message. Its row is run once more, with each request from that word on refused:
what is written into the slice is told all the same.
"""
import collections, concurrent.futures, os, re, subprocess, sys, tempfile

FOLDER = os.path.join("faults", "refused_growths")
OF_MEMORY = "(?:[Oo]ut of memory|memory allocation failed)"
WANT = re.compile(rf"refused: (?:(?:.*: )?{OF_MEMORY}|Memory|(?:Asked|Answered|Taken|Admitted)\(Memory\))$")
SERVED = re.compile(r"Err\(Memory\) ?([0-9a-f]*)$")
STOPPED = re.compile(rf"Error: {OF_MEMORY}$")
NO_CLIENT = "Error: no client"

# In place of a request's number: each request after the first octet on standard output.
ALL_ONCE_TOLD = -1

# Refuses the request of the number in REFUSED, and writes into the file COUNTED how many there were. Where the number is negative, it
# refuses each request after the first octet on standard output.
REFUSER = r"""
#define _GNU_SOURCE
#include <dlfcn.h>
#include <errno.h>
#include <stdio.h>
#include <stdlib.h>
#include <unistd.h>

static long refused, count;
static int has_told;
static ssize_t (*next_write)(int, const void *, size_t);
static void *(*next_malloc)(size_t);
static void *(*next_realloc)(void *, size_t);

__attribute__((constructor)) static void begin(void) {
    next_malloc = (void *(*)(size_t))dlsym(RTLD_NEXT, "malloc");
    next_realloc = (void *(*)(void *, size_t))dlsym(RTLD_NEXT, "realloc");
    next_write = (ssize_t (*)(int, const void *, size_t))dlsym(RTLD_NEXT, "write");
    refused = atol(getenv("REFUSED"));
    count = 0;
}

__attribute__((destructor)) static void end(void) {
    long counted = count;
    refused = 0;
    FILE *file = fopen(getenv("COUNTED"), "w");
    if (file) { fprintf(file, "%ld", counted); fclose(file); }
}

static int is_refused(void) {
    if (++count != refused && !(refused < 0 && has_told)) return 0;
    errno = ENOMEM;
    return 1;
}

void *malloc(size_t size) {
    if (!next_malloc) next_malloc = (void *(*)(size_t))dlsym(RTLD_NEXT, "malloc");
    return is_refused() ? NULL : next_malloc(size);
}

void *realloc(void *block, size_t size) {
    if (!next_realloc) next_realloc = (void *(*)(void *, size_t))dlsym(RTLD_NEXT, "realloc");
    return is_refused() ? NULL : next_realloc(block, size);
}

ssize_t write(int file, const void *octets, size_t size) {
    if (file == STDOUT_FILENO) has_told = 1;
    return next_write(file, octets, size);
}
"""


class Row:
    """The lines of a row: what each does, and what it tells with ample memory."""

    def __init__(self, path):
        with open(path) as it:
            self.lines = [line for line in it.read().splitlines() if line and not line.startswith("#")]
        self.name = os.path.basename(path)[: -len(".txt")]
        self.steps, self.wanted = [], []
        for line in self.lines:
            step, bar, wanted = line.rpartition(" | ")
            self.steps.append(step if bar else line)
            self.wanted.append(wanted.strip() if bar else "ok")
        self.client = next((step for step in self.steps if step.startswith("client ")), None)

    def is_wanted(self, at, told):
        return told == self.wanted[at] or self.wanted[at] == "ok" and not told.startswith("refused")

    def is_want(self, at, told):
        """Whether the line tells that memory is wanted. A stream's replies up to that are whole ones."""
        served = SERVED.match(told)
        return bool(WANT.match(told)) or bool(served) and served[1] in ("", self.wanted[at].split()[-1])

    def is_pair(self, at, first, second):
        """Whether two equal steps may tell so."""
        if self.is_want(at, first):
            return self.is_wanted(at, second) or first == "refused: Taken(Memory)" and self.is_wanted(at + 1, second)
        return self.is_wanted(at, first) and (self.is_wanted(at + 1, second) or self.is_want(at + 1, second))

    def is_allowed(self, told):
        at = 0
        while at < len(told):
            if at + 1 < len(told) and self.steps[at] == self.steps[at + 1]:
                if not self.is_pair(at, told[at], told[at + 1]):
                    return False
                at += 2
            elif self.is_wanted(at, told[at]):
                at += 1
            else:
                return False
        return at == len(self.lines)


class Scripts:
    """Rows that replay_realm plays: the last of its four scripts. It prints each line that tells something else than is wanted."""

    # The statuses where all was played, and where it ended early. Behind the scripts the program ends for want of its other files.
    played, stopped = 3, 3

    def words(self, row, folder):
        for name in ("clients.txt", "changed_replies.txt", "realms.txt"):
            open(os.path.join(folder, name), "w").close()
        with open(os.path.join(folder, "logins.txt"), "w") as it:
            it.write("\n".join(row.lines) + "\n")
        return []

    def told(self, row, output, error):
        """What each line tells, and the line with which the program ended early; that is None where it didn't."""
        told, at = list(row.wanted), 0
        for line in output.splitlines():
            place = next((place for place in range(at, len(row.lines)) if line.startswith(row.lines[place] + ": ")), None)
            if place is not None:
                told[place], at = line[len(row.lines[place]) + 2 :].strip(), place + 1
        return told, None if re.search(r"^logins\.txt: \d+ lines, \d+ differ$", output, re.M) else error


class Calls:
    """Rows that bench_codecs plays: its arguments. It prints a line for each call."""

    played, stopped = 0, 1

    def words(self, row, folder):
        return " + ".join(step if step.startswith("slice ") else f"row {step}" for step in row.steps).split()

    def told(self, row, output, error):
        lines = output.splitlines()
        return (lines, None) if len(lines) == len(row.lines) else (row.wanted, error)


PROGRAMS = {"bench_codecs": Calls(), "replay_realm": Scripts()}


class Runs:
    """The runs of a row, each with another request refused, in a folder of its own."""

    def __init__(self, program, row, folder):
        self.row, self.form, self.folder = row, PROGRAMS[program], os.path.join(folder, row.name)
        os.mkdir(self.folder)
        self.refuser = os.path.join(folder, "refuser.so")
        self.words = [os.path.abspath(os.path.join("crates", program, "out", program)), *self.form.words(row, self.folder)]

    def run(self, position):
        """Status, output and last line on standard error, and how many requests were counted."""
        counted = os.path.join(self.folder, f"counted-{position}")
        room = dict(LD_PRELOAD=self.refuser, REFUSED=str(position), COUNTED=counted)
        ran = subprocess.run(
            self.words, env=room, cwd=self.folder, stdin=subprocess.DEVNULL, capture_output=True, text=True, timeout=60
        )
        with open(counted) as it:
            count = int(it.read())
        os.remove(counted)
        return ran.returncode, ran.stdout, (ran.stderr.strip().splitlines() or [""])[-1], count

    def text(self, position):
        """What the row tells where this request is refused, and whether it may."""
        status, output, error, _ = self.run(position)
        told, end = self.form.told(self.row, output, error)
        others = [(step, text) for at, (step, text) in enumerate(zip(self.row.steps, told)) if not self.row.is_wanted(at, text)]
        if end is None:
            text = "; ".join(f"{step.split()[0]}: {text[:60]}" for step, text in others) or "as with ample memory"
            return text, status in (self.form.played, self.form.stopped) and self.row.is_allowed(told)
        if others:
            is_allowed = others == [(self.row.client, "refused: Memory")] and end == NO_CLIENT
            return f"{others[-1][0].split()[0]}: {others[-1][1]}; then {end}", status == self.form.stopped and is_allowed
        return f"ends in reading or telling: {end}", status == self.form.stopped and bool(STOPPED.match(end))

    def sweep(self):
        """Prints how often each text was told, and answers how many texts the row doesn't allow."""
        status, output, error, count = self.run(0)
        told, end = self.form.told(self.row, output, error)
        if status != self.form.played or end is not None or not all(map(self.row.is_wanted, range(len(told)), told)):
            print(f"== {self.row.name}: NOT AS WANTED with ample memory: status {status}, {error}\n{output}")
            return 1
        late = [ALL_ONCE_TOLD] if self.row.steps[0].startswith("slice ") else []
        with concurrent.futures.ThreadPoolExecutor(len(os.sched_getaffinity(0))) as pool:
            texts = collections.Counter(pool.map(self.text, [*range(1, count + 1), *late]))
        wrong = sum(number for (_, is_allowed), number in texts.items() if not is_allowed)
        in_calls = sum(number for (text, _), number in texts.items() if not text.startswith(("ends in", "as with")))
        print(f"== {self.row.name}: {count} positions, {in_calls} of them in calls, {wrong} texts that aren't allowed")
        for (text, is_allowed), number in texts.most_common():
            print(f"{number:6} {'' if is_allowed else 'NOT ALLOWED '}{text}")
        sys.stdout.flush()
        return wrong


def main():
    program, names = sys.argv[1:2] or sorted(os.listdir(FOLDER)), sys.argv[2:]
    wrong = 0
    with tempfile.TemporaryDirectory() as folder:
        command = ["cc", "-shared", "-fPIC", "-O1", "-x", "c", "-", "-o", os.path.join(folder, "refuser.so"), "-ldl"]
        subprocess.run(command, input=REFUSER, text=True, check=True)
        for it in program:
            for file in sorted(os.listdir(os.path.join(FOLDER, it))):
                row = Row(os.path.join(FOLDER, it, file))
                if not names or row.name in names:
                    wrong += Runs(it, row, folder).sweep()
    print(f"{wrong} texts that aren't allowed")
    sys.exit(wrong > 0)


if __name__ == "__main__":
    main()
