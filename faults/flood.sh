#!/bin/sh
# Hostile clients of krb_listen: 10,000 connections in 2 seconds, 500 silent ones, and 100 broken frames a second. It fails where an honest
# client isn't answered at its first try within 3 seconds, or a silent connection stays.
#
# Usage: faults/flood.sh [COMMAND ARGUMENT..]. COMMAND is a program that answers frames. Without it the workers are a stub that answers at
# once. Or faults/flood.sh kdcd [ACCOUNTS]: the workers are krb_kdcd, over a realm of 10 accounts, or of the number given.
#
# It needs python3, cc for the stub, and for krb_kdcd what bench/kdc.sh needs. KRB_KDCD may name a built program.
set -e
top=$(cd "$(dirname "$0")/.." && pwd)
if [ "${1:-}" = kdcd ]; then
    . "$top/bench/programs.sh"
    program KRB_KDCD krb_kdcd
fi
exec python3 -B "$top/faults/flood.py" "$@"
