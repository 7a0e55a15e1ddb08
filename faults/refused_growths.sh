#!/bin/sh
# Refuses each request for memory of each row in turn, and fails where a text is told that the row doesn't allow:
# refused_growths.sh [PROGRAM [ROW ..]]. A row is faults/refused_growths/PROGRAM/ROW.txt; with no name all are played.
# It needs cc, and the programs as they are proved and built: a run of `rt ci` leaves them so, else they are proved first. All rows take
# some minutes.
set -e
cd "$(dirname "$0")/.."
for program in ${1:-$(ls faults/refused_growths)}; do
    if [ ! -x "crates/$program/out/$program" ]; then
        (cd "crates/$program" && rt run </dev/null >/dev/null) || [ -x "crates/$program/out/$program" ]
    fi
done
exec python3 -B faults/refused_growths.py "$@"
