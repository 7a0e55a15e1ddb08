#!/bin/sh
# krb_login against a hostile KDC, which answers by forged errors and replies: a suite without rounds, salts and rounds of its choice, errors 14
# for each request, replies in place of errors, and errors without end. None may get an encrypted timestamp in a suite or under a salt that
# the user didn't name, a request that is weaker than the first one, or a cache. The last line is 'none got through', with status 0. It needs
# openssl, and the program built (./krb_login --version) or KRB_LOGIN=PROGRAM.
set -e
top=$(cd "$(dirname "$0")/.." && pwd)
program=${KRB_LOGIN:-$top/crates/krb_login/out/krb_login}
[ -x "$program" ] || { echo "downgrades: $program is missing: run make build PROGRAM=krb_login first" >&2; exit 2; }
command -v openssl >/dev/null || { echo "downgrades: openssl is missing" >&2; exit 2; }
exec python3 -B "$top/faults/downgrades.py" "$program"
