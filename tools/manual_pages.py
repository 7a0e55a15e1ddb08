#!/usr/bin/env python3
"""Writes the manual page of a program, of the comment at its head and of what its `--help` prints.

usage: tools/manual_pages.py NAME     prints the page of krb_accounts, krb_listen or another; `| man -l -` shows it

A program in Rattle has its help as the constant USAGE, in its crate or in one that it uses. One in Python has both as its docstring.
"""
import ast, os, re, sys, textwrap

sys.dont_write_bytecode = True
sys.path.insert(0, os.path.dirname(os.path.realpath(__file__)))
from programs import PROGRAMS, SCRIPTS, TOP, crates, files_of, version

USAGE = re.compile(r'const USAGE: &str = "((?:[^"\\]|\\.)*)";', re.S)
ESCAPES = {r"\n": "\n", r"\"": '"', r"\\": "\\"}
GAP = re.compile(r"(?<=\S) {2,}(?=\S)")  # between a word of the help and what it is
LEAST_COLUMN = 10  # of what a word is
WIDTH = 76  # columns of a line of the page's source
ROFF = str.maketrans({"\\": r"\e", "-": r"\-", "'": r"\(aq", '"': r"\(dq", "^": r"\(ha", "~": r"\(ti", "`": r"\(ga"})


def read(path):
    with open(path, encoding="utf-8") as it:
        return it.read()


def source_of(name):
    """The paragraphs of the comment at the program's head, and its help."""
    if name in SCRIPTS:
        paragraphs = ast.get_docstring(ast.parse(read(SCRIPTS[name].path))).split("\n\n")
        return [paragraphs[0]] + paragraphs[2:], paragraphs[1]
    crate = PROGRAMS[name].crate
    head = re.match(r"(?://!.*\n)+", read(f"{TOP}/crates/{crate}/src/main.rt"))[0]
    return re.sub(r"^//! ?", "", head, flags=re.M).strip().split("\n\n"), usage_of(crate)


def usage_of(crate):
    """What `--help` prints: of the crate, or else of the first that it uses and that has one."""
    uses = crates()
    for name in [crate, *uses[crate]]:
        for path in files_of(name, ("src",)) if name in uses else ():
            if found := USAGE.search(read(path)):
                return re.sub(r"\\.", lambda it: ESCAPES[it[0]], found[1])
    return ""


class Help:
    """The lines of a help: how the program is called, and its items (a word, and lines of what it is) with the text between them."""

    def __init__(self, text):
        lines = list(filter(str.strip, text.removeprefix("usage:").split("\n")))
        columns = [it.end() for it in map(GAP.search, lines) if it]
        self.column, self.parts = max(columns, key=columns.count, default=len(text)), []
        for line, next_ in zip(lines, [*lines[1:], ""]):
            self.take(line, next_.startswith(" " * LEAST_COLUMN))
        texts = [at for at, (term, _) in enumerate(self.parts) if not term]
        front = self.parts[: texts[0]] if texts else self.parts
        self.calls = [call for term, _ in front for call in re.split(r"(?:, | \| )(?=krb_\w+ --)", term)]
        self.parts = [(term, said) for term, said in self.parts if said]

    def take(self, line, goes_on):
        indent = len(line) - len(line.lstrip())
        if indent >= LEAST_COLUMN:  # goes on with what the item above it is
            self.parts[-1][1].append(line.strip())
        elif indent:
            term, said = self.divided(line, goes_on)
            self.parts.append((term.strip(), [said.strip()] if said.strip() else []))
        elif self.parts and not self.parts[-1][0]:
            self.parts[-1][1].append(line)
        else:
            self.parts.append(("", [line]))

    def divided(self, line, goes_on):
        """A word, and what it is: behind two blanks, or behind one in the column of the others, or in the next line."""
        if gap := GAP.search(line):
            return line[: gap.start()], line[gap.end() :]
        is_full = line[self.column - 1 : self.column] == " " and not goes_on
        return (line[: self.column], line[self.column :]) if is_full else (line, "")


def escaped(text):
    """Text of roff, in which what stood in code marks is bold."""
    spans = re.split(r"`([^`]*)`", text)
    marked = [rf"\fB{it.translate(ROFF)}\fR" if at % 2 else it.translate(ROFF) for at, it in enumerate(spans)]
    return "".join(marked)


def lines_of_text(text):
    """A paragraph as lines of roff, each sentence with a line of its own. A line that begins with a point would be a request."""
    for sentence in re.split(r"(?<=[.:!?]) (?=[A-Z`])", " ".join(text.split())):
        for line in textwrap.wrap(escaped(sentence), WIDTH, break_long_words=False, break_on_hyphens=False):
            yield (r"\&" + line) if line[0] in ".'" else line


def paragraphs(texts):
    lines = []
    for text in texts:
        lines += [".PP"] * bool(lines) + list(lines_of_text(text))
    return lines


def items(help_):
    lines = []
    for term, said in help_.parts:
        if term:
            lines += [".TP", f".B {escaped(term)}"]
        elif lines:
            lines += [".PP"]
        lines += lines_of_text(" ".join(said))
    return lines


def synopsis(name, help_, described):
    """How the program is called: by its help, or else by the first words in code marks of the comment that begin with its name."""
    calls = help_.calls or re.findall(rf"`({name} [^`]*)`", " ".join(described))[:1]
    lines = []
    for call in calls:
        program, _, rest = call.partition(" ")
        lines += [".br"] * bool(lines) + [f".B {escaped(program)}"] + textwrap.wrap(escaped(rest), WIDTH, break_on_hyphens=False)
    return lines


def parts_of(text):
    """A paragraph, what of it is about the status, and what of it is proved."""
    begin = re.search(r"(?:^|(?<=[.:] ))(?:The status is|Status 0)", text)
    said, status = (text[: begin.start()], text[begin.start() :]) if begin else (text, "")
    return ("", status, said) if said.startswith("It is safe") else (said, status, "")


def asking_of(name):
    """When the program asks a person for the password, in the words of tools/ask_password."""
    found = re.search(rf"^#   {name} +(.*)$", read(f"{TOP}/tools/ask_password"), re.M)
    return [f"It asks for the password at the terminal, without showing it: {found[1]}."] if found else []


def page_of(name):
    """The manual page, as text of roff."""
    described, usage = source_of(name)
    help_ = Help(usage)
    what, _, rest = re.sub(rf"^The program `{name}`: ", "", " ".join(described[0].split())).partition(". ")
    texts = [rest, *described[1:]]
    if not any(term for term, _ in help_.parts):
        texts += [" ".join(said) for _, said in help_.parts]
        help_.parts = []
    said, status, proved = zip(*(parts_of(" ".join(it.split())) for it in texts))
    name_line = [rf"{escaped(name)} \-", *lines_of_text((what[0].lower() + what[1:]).rstrip("."))]
    sections = {
        "NAME": name_line,
        "SYNOPSIS": synopsis(name, help_, described),
        "DESCRIPTION": paragraphs(filter(None, said)),
        "OPTIONS": items(help_),
        "PASSWORD": paragraphs(asking_of(name)),
        "EXIT STATUS": paragraphs(filter(None, status)),
        "PROVED": paragraphs(filter(None, proved)),
    }
    others = sorted({*PROGRAMS, *SCRIPTS} - {name})
    sections["SEE ALSO"] = [f".BR {escaped(it)} ({section_of(it)})," for it in others] + ["docs/RUNNING.md in share/doc/sukvort"]
    head = f'.TH {name.upper()} {section_of(name)} "" "Sukvort {escaped(version())}" "Sukvort"'
    return "\n".join([head, *(line for title, lines in sections.items() if lines for line in [f".SH {title}", *lines])]) + "\n"


def section_of(name):
    return (PROGRAMS.get(name) or SCRIPTS[name]).section


def main(words):
    if len(words) != 1 or words[0] not in {*PROGRAMS, *SCRIPTS}:
        print(f"manual_pages: expected one of {', '.join([*PROGRAMS, *SCRIPTS])}", file=sys.stderr)
        return 2
    print(page_of(words[0]), end="")
    return 0


if __name__ == "__main__":
    sys.exit(main(sys.argv[1:]))
