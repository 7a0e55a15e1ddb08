"""How many seconds each function's proof took: proof_cost.py crates/NAME [COUNT] [--modules], after `rt check --jobs 1` from
no out/. A check writes a file for each module as it has checked it, so the differences of their times tell the cost."""
import collections, os, re, sys


def written(folder):
    """The modules of a check with the times at which they were written, in that order."""
    found = []
    for room, _, names in os.walk(os.path.join(folder, "out", "incremental")):
        if os.path.basename(room) == "records":
            continue
        for name in names:
            if name.endswith(".oantt"):
                found.append((os.stat(os.path.join(room, name)).st_mtime, name[: -len(".oantt")]))
    return sorted(found)


def function_of(module):
    """A module's name without its crate and its last part, which tells the functions apart."""
    return re.sub(r"^Rattle-.*?[.-](proofs|specs)[.-]", r"\1.", module).rpartition(".")[0]


def main():
    words = [word for word in sys.argv[1:] if not word.startswith("--")]
    found = written(words[0])
    cost = collections.Counter()
    for (before, _), (after, module) in zip(found, found[1:]):
        cost[module if "--modules" in sys.argv else function_of(module)] += after - before
    print(f"{sum(cost.values()):7.1f} seconds in {len(found)} modules")
    for name, seconds in cost.most_common(int(words[1]) if len(words) > 1 else 30):
        print(f"{seconds:7.1f} {name}")


if __name__ == "__main__":
    main()
