# What scripts share that measure or try built programs. A script names the repository in `top`, and reads this file.

# program VARIABLE CRATE: the variable gets the path of the crate's program, unless it is set. It is proved and built first where it
# isn't there.
program() {
    eval "path=\${$1:-}"
    if [ -z "$path" ]; then
        path=$top/crates/$2/out/$2
        if [ ! -x "$path" ]; then
            echo "$2: proving and building the program and the crates below it" >&2
            mkdir -p "$top/crates/$2/out"
            # Without arguments a program may refuse to run: that it was built counts.
            (cd "$top/crates/$2" && ${RT:-rt} run </dev/null >out/first_run.txt 2>&1) || [ -x "$path" ] ||
                { cat "$top/crates/$2/out/first_run.txt" >&2; exit 1; }
        fi
    fi
    eval "$1=\$path"
    export "$1"
}
