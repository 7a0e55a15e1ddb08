#!/bin/sh
# Prints what it costs to read a keytab of 10,000 entries, or of as many as the argument says, and fails where that takes 20 milliseconds or
# more: krb_keytab copy reads it, and finds that no entry has the kvno which is asked for. It also fails where krb_keytab list prints other
# rows than the keytab's writer put into it, which is keytab.py and shares no code with the program. Where klist of MIT is there, it fails
# where another entry is marked than the one at which klist stops.
#
# Usage: bench/keytab.sh [ENTRIES]. KRB_KEYTAB may name a built program. klist's reading of the same file is timed too.
set -e
top=$(cd "$(dirname "$0")/.." && pwd)
. "$top/bench/programs.sh"
program KRB_KEYTAB krb_keytab
exec python3 -B "$top/bench/keytab.py" "$@"
