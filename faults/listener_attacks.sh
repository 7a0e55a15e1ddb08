#!/bin/sh
# Attacks krb_listen before workers that are a stub, in some minute: the same dear request 200 times; a log that is a pipe, which nobody
# reads; 128 clients that never read; workers that write two frames for a message, and one alone that does so; and workers that end at their
# start. It says what each did, and at the end 'none got through', with status 0. Else the status is 1.
#
# Usage: faults/listener_attacks.sh. KRB_LISTEN may name another listener. It needs python3.
set -e
top=$(cd "$(dirname "$0")/.." && pwd)
exec timeout 120 python3 -B "$top/faults/listener_attacks.py"
