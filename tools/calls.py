"""Lists the public calls of the product's crates, and for each that may refuse the clauses that say what a refusal leaves.

usage: tools/calls.py [CRATE ..]     run from the top; ends with 1 where a call that may refuse can change what it is lent, and no
                                    clause names that afterwards

A call that is lent nothing to change leaves everything as it was. `CRATE::TYPE::CALL | ANSWER | what it may change: clauses`.
"""
import glob, re, sys

# Crates of tests, replays, examples and times.
NOT_PRODUCT = re.compile(r"(replay|example|test|bench)_")
BLOCK = re.compile(r"(?:unsafe )?(impl|(?:pub(?:\(crate\))? )?trait)\b(?:<.*?>(?= ))? (?:(?P<of>[\w:]+)(?:<.*>)? for )?(?P<name>\w+)")
CALL = re.compile(r"(?P<indent> *)(?P<pub>pub )?(?:pub\(\w+\) )?(?:final )?(?:const )?(?:unsafe )?fn (?P<name>\w+)")
STATED = re.compile(r" *(?P<kind>ensures|requires)(?: (?P<name>\w+))? \{")
LENT = re.compile(r"(\w+): &(?:'\w+ )?mut\b")


def functions_of(path):
    """Each function of a file: the type or trait that it belongs to, its name, whether it is public, its signature and its clauses."""
    with open(path, encoding="utf-8") as it:
        lines = it.read().split("\n")
    owner, is_open, at = "", False, 0
    while at < len(lines):
        line = lines[at]
        block = BLOCK.match(line)
        if block:
            owner, is_open = block["name"], block[1] == "pub trait"
        elif line == "}":
            owner, is_open = "", False
        call = CALL.match(line)
        if call:
            head, clauses, at = header_of(lines, at)
            yield owner, call["name"], bool(call["pub"] or is_open and len(call["indent"]) == 4), head, clauses
        at += 1


def calls_of(path):
    """Each public call of a file, with the clauses that it ensures."""
    for owner, name, is_public, head, clauses in functions_of(path):
        if is_public:
            yield owner, name, head, [it for it in clauses if it[0]]


def header_of(lines, at):
    """The signature that begins at a line, its clauses as pairs of name and text (a requirement has no name), and the line at which they end."""
    head, clauses, depth = [], [], 0
    while True:
        line = lines[at]
        clause = STATED.match(line) if depth == 0 else None
        if clause:
            clauses.append((clause["name"] or "ensures" if clause["kind"] == "ensures" else "", [line]))
        elif depth or clauses and line.strip() not in ("{", "{}"):
            clauses[-1][1].append(line)
        else:
            head.append(line)
        depth += line.count("{") - line.count("}") if clauses else 0
        if depth == 0 and line.endswith(("{}", ";")) or line.endswith("{") and (not clauses or line.strip() == "{"):
            return " ".join(" ".join(head).split()), [(name, " ".join(" ".join(text).split())) for name, text in clauses], at
        at += 1


def line_of(crate, owner, name, head, clauses):
    """The line of a call, and whether a clause is missing."""
    answer = head.rsplit("->", 1)[1].strip(" {};") if "->" in head else "()"
    path = "::".join(filter(None, (crate, owner, name)))
    lent = (["self"] if "&mut self" in head else []) + LENT.findall(head)
    if not answer.startswith(("Result", "Option")) and "Result<" not in answer:
        return f"{path} | {answer} | refuses nothing", False
    if not lent:
        return f"{path} | {answer} | lent nothing to change", False
    said, missing = [], False
    for it in lent:
        names = [word for word, body in clauses if re.search(rf"\b{it}»?\.new\b", body)]
        missing |= not names
        said.append(f"{it}: {', '.join(names) or 'NO CLAUSE'}")
    return f"{path} | {answer} | {'; '.join(said)}", missing


def main():
    missing = count = 0
    for folder in sorted(glob.glob("crates/*/src")):
        crate = folder.split("/")[1]
        if sys.argv[1:] and crate not in sys.argv[1:] or not sys.argv[1:] and NOT_PRODUCT.match(crate):
            continue
        for path in sorted(glob.glob(folder + "/**/*.rt", recursive=True)):
            for call in calls_of(path):
                line, lacks = line_of(crate, *call)
                print(line)
                count, missing = count + 1, missing + lacks
    print(f"{count} calls, {missing} without a clause")
    sys.exit(missing > 0)


if __name__ == "__main__":
    main()
