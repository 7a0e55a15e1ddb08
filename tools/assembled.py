"""Many programs of this repository as the modules of one crate, and crates of tests as those of another, so that `rt try` builds each once.
Nothing is proved: it is text for a run."""
import os, re, shutil

from programs import TOP, below

# What runs a program by its name, in the folder of that name, which has its data: there is none where it has no data. A program whose
# `main` returns an error ends with status 1, as with a `main` of its own.
MAIN = """//! Programs, by the name that is the first argument.
#![tactic(auto)]

{modules}
use std::env;
use std::process::ExitCode;

fn main(rt: HostRuntime) -> ExitCode {{
    let Ok(mut arguments) = env::args(&rt) else {{
        return ExitCode::from(125);
    }};
    let Some(name) = arguments.nth(1) else {{
        return ExitCode::from(126);
    }};
    drop(arguments);
    let _ = env::set_current_dir(&rt, name.as_str());
    match name.as_str() {{
{arms}        _ => ExitCode::from(127),
    }}
}}

fn ended(outcome: anyhow::Result<()>) -> ExitCode {{
    match outcome {{
        Ok(()) => ExitCode::SUCCESS,
        Err(_) => ExitCode::FAILURE,
    }}
}}
"""
ENTRY = re.compile(r"^fn main\(rt: HostRuntime\) -> (.*) \{$", re.M)
TACTIC = re.compile(r"^#!?\[tactic\(.*\)\]$", re.M)
# What reads the arguments, whose first one is the program's name now; `given.skip(1)` is that of krb_programs.
OWN_ARGUMENTS = re.compile(r"\benv::args\((&?rt)\)\?")
SHARED_ARGUMENTS = "given.skip(1)"


def text_of(path):
    with open(path, encoding="utf-8") as it:
        return it.read()


def write(path, text):
    os.makedirs(os.path.dirname(path), exist_ok=True)
    with open(path, "w", encoding="utf-8") as it:
        it.write(text)


def sources(crate):
    """The files of a crate's src/, by their paths in it."""
    top = f"{TOP}/crates/{crate}/src"
    for at, _, names in os.walk(top):
        yield from (os.path.relpath(os.path.join(at, it), top) for it in sorted(names) if it.endswith(".rt"))


def as_module(crate, text):
    """A source of a crate as one of a module of that name: what it names from its crate's root is in the module."""
    text = TACTIC.sub("", text)
    text = re.sub(r"\bcrate::", f"crate::{crate}::", text)
    return OWN_ARGUMENTS.sub(r"env::args(\1)?.skip(1)", text)


def put_modules(room, name, members):
    """Writes the members' sources as modules of the crate of that name."""
    for crate in members:
        for path in sources(crate):
            text = as_module(crate, text_of(f"{TOP}/crates/{crate}/src/{path}"))
            if path in ("main.rt", "lib.rt"):
                write(f"{room}/crates/{name}/src/{crate}.rt", ENTRY.sub(r"pub(crate) fn main(rt: HostRuntime) -> \1 {", text))
            else:
                write(f"{room}/crates/{name}/src/{crate}/{path}", text)


def put_libraries(room, name, members, uses):
    """Copies what the members stand on, and writes crates.txt."""
    libraries = sorted({"anyhow"} | {it for crate in members for it in uses[crate]})
    for crate in {it for member in members for it in below(member, uses)} - set(members):
        shutil.copytree(f"{TOP}/crates/{crate}/src", f"{room}/crates/{crate}/src")
    rows = [f"{crate}: {' '.join(uses[crate])}" for crate in uses if os.path.isdir(f"{room}/crates/{crate}")]
    write(f"{room}/crates.txt", "\n".join([*rows, f"{name}: {' '.join(libraries)}", ""]))


def shift_arguments(room):
    """Has krb_programs give the arguments after the program's name, which is the first one."""
    path = f"{room}/crates/krb_programs/src/arguments.rt"
    if os.path.isfile(path):
        text = text_of(path)
        if SHARED_ARGUMENTS not in text:
            raise SystemExit(f"test: krb_programs/src/arguments.rt has no {SHARED_ARGUMENTS}: tools/assembled.py counts on it")
        write(path, text.replace(SHARED_ARGUMENTS, "given.skip(2)"))


def programs(room, members, uses):
    """Writes a repository to the folder, whose crate `programs` runs one of the members by its name. Its folder is returned."""
    put_libraries(room, "programs", members, uses)
    shift_arguments(room)
    put_modules(room, "programs", members)
    arms = []
    for crate in members:
        returns = ENTRY.search(text_of(f"{TOP}/crates/{crate}/src/main.rt"))[1]
        call = f"{crate}::main(rt)"
        arms.append(f'        "{crate}" => {call if returns == "ExitCode" else f"ended({call})"},\n')
    write(f"{room}/crates/programs/src/main.rt", MAIN.format(modules="".join(f"mod {it};\n" for it in members), arms="".join(arms)))
    return f"{room}/crates/programs"


def tests(room, members, uses):
    """Writes a repository to the folder, whose crate `tests` has the tests of the members. Its folder is returned."""
    put_libraries(room, "tests", members, uses)
    put_modules(room, "tests", members)
    modules = "".join(f"mod {it};\n" for it in members)
    write(f"{room}/crates/tests/src/lib.rt", f"//! Tests.\n#![tactic(auto)]\n\n{modules}")
    return f"{room}/crates/tests"
