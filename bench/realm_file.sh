#!/bin/sh
# What a realm in a file costs, with 10 and with 1,000,000 accounts: a start of krb_kdcd beside /bin/true, an AS exchange through one pipe
# beside krb_realmd with one account, resident memory, and krb_accounts make. It fails where making 1,000,000 accounts by key takes 6 seconds
# of processor or 300 MB. faults/file_changes.sh tests krb_kdcd while its file is replaced or damaged.
#
# Usage: bench/realm_file.sh [cost [ACCOUNTS..] | make [ACCOUNTS]]. account_files.py writes the databases. KRB_KDCD, KRB_ACCOUNTS and
# KRB_REALMD may name built programs.
#
# It needs kinit, ktutil, socat and python3: on Debian krb5-user, socat.
set -e
top=$(cd "$(dirname "$0")/.." && pwd)
. "$top/bench/programs.sh"
program KRB_KDCD krb_kdcd
program KRB_ACCOUNTS krb_accounts
program KRB_REALMD krb_realmd
exec python3 -B "$top/bench/realm_file.py" "$@"
