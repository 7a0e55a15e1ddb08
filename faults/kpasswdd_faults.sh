#!/bin/sh
# krb_kpasswdd over two requests to change a password. It is killed at each of its system calls, each of them fails with EIO and with
# ENOSPC, each request for memory is refused, and it writes to full disks. After each run the text of accounts and its database are files
# from before or after a change, whole, and the database is never ahead of the text. A reply tells a success only where both files have the
# change. The next run changes a password, and then text and database agree. It waits for another run that has a lock, for ten
# seconds at most.
# Prints a line for each failure; the status is 1 where there is one, and 2 where a tool is missing.
#
# Usage: faults/kpasswdd_faults.sh. KRB_KPASSWDD and KRB_ACCOUNTS may name built programs. The small disk needs the right to mount, and is
# left out without it.
#
# It needs strace, cc and python3.
set -e
top=$(cd "$(dirname "$0")/.." && pwd)
. "$top/bench/programs.sh"
for tool in strace cc; do
    command -v $tool >/dev/null || { echo "kpasswdd_faults: $tool is missing" >&2; exit 2; }
done
program KRB_ACCOUNTS krb_accounts
program KRB_KPASSWDD krb_kpasswdd
exec python3 -B "$top/faults/kpasswdd_faults.py" "$@"
