#!/bin/sh
# Two tests of krb_kdcd over a realm in a file, which fail where a reply is wrong:
#   replace   its file is replaced 100 times under 100,000 requests: each reply is of a file that stood then, and none fails
#   damage    5,000 damaged files, by a seed: it refuses as it says it does, or answers what an independent reader finds in the file
#
# Usage: faults/file_changes.sh [replace | damage [COUNT [SEED]] | all]. bench/account_files.py writes the databases, and is such a reader.
# KRB_KDCD may name a built program.
#
# It needs kinit, ktutil, socat and python3: on Debian krb5-user, socat.
set -e
top=$(cd "$(dirname "$0")/.." && pwd)
. "$top/bench/programs.sh"
program KRB_KDCD krb_kdcd
exec python3 -B "$top/faults/file_changes.py" "$@"
