#!/bin/sh
# What the gate takes: `rt ci` from nothing in a clean clone of what is committed. It prints processor minutes by crate: the proof, the tests,
# the first must-fail edit and the further ones. Then the wall time against the budget of docs/DECISIONS.md, which is for two
# processors. It runs on two, or on as many as GATE_PROCESSORS says. The status is 1 where the gate fails or takes longer than the budget.
# The gate's own output is written to the file named by the first argument, else to gate.log.
set -e
top=$(cd "$(dirname "$0")/.." && pwd)
exec python3 -B "$top/bench/gate.py" "$top" "${1:-gate.log}"
