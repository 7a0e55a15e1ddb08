#!/bin/sh
# Attacks on files that commands write: each has to end with its status and one line, and no octet of a file may have changed. The attacks
# are a command's own text, another file's kind, a device, a folder, a pipe, a socket, links, files that come or change meanwhile, two runs
# at once, names of another user, a kill at each system call, files that are too long, and names that hold escape sequences. It ends with
# 'none got through' and status 0.
#
# It needs the programs built (./krb_accounts --version, ./krb_keytab --version, ./krb_login --version), or KRB_ACCOUNTS, KRB_KEYTAB and
# KRB_LOGIN. Kills need strace. The attacks with a device and another user need root. What isn't tried is said.
set -e
top=$(cd "$(dirname "$0")/.." && pwd)
KRB_ACCOUNTS=${KRB_ACCOUNTS:-$top/crates/krb_accounts/out/krb_accounts}
KRB_KEYTAB=${KRB_KEYTAB:-$top/crates/krb_keytab/out/krb_keytab}
KRB_LOGIN=${KRB_LOGIN:-$top/crates/krb_login/out/krb_login}
for program in "$KRB_ACCOUNTS" "$KRB_KEYTAB" "$KRB_LOGIN"; do
    [ -x "$program" ] || { echo "lost_files: $program is missing: see the head of $0" >&2; exit 2; }
done
export KRB_ACCOUNTS KRB_KEYTAB KRB_LOGIN
exec python3 -B "$top/faults/lost_files.py"
