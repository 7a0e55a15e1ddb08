#!/bin/sh
# krb_login with each request for memory refused, with each system call failing, killed at each, with replies that are cut or changed, and
# with arguments and files that it refuses. It fails where a cache is neither the old one nor the new one, or where a line or status isn't
# as it should be. It needs cc, strace, and the program built (./krb_login --version) or KRB_LOGIN=PROGRAM.
set -e
top=$(cd "$(dirname "$0")/.." && pwd)
program=${KRB_LOGIN:-$top/crates/krb_login/out/krb_login}
[ -x "$program" ] || { echo "login_faults: $program is missing: run make build PROGRAM=krb_login first" >&2; exit 2; }
for tool in cc strace; do
    command -v $tool >/dev/null || { echo "login_faults: $tool is missing" >&2; exit 2; }
done
exec python3 -B "$top/faults/login_faults.py" "$program"
