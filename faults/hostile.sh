#!/bin/sh
# Puts damaged requests to the built program krb_realm, and fails where it faults, says what it may not say, or takes more memory
# for more requests: hostile.sh [COUNT [SEED]]. 36,000 of them, an hour's worth of ten a second, take some minutes, since the program
# ends at each message that is no request. The same under limits of address space (ulimit -v).
# First the tests of layouts run in 4 MiB of address space: counts of 2^32 - 1 that a message tells ask for no memory.
set -e
top=$(cd "$(dirname "$0")/.." && pwd)
tests=$top/crates/test_encodings/out/test_encodings_tests
if [ ! -x "$tests" ]; then
    (cd "$top/crates/test_encodings" && rt test >/dev/null)
fi
names=$("$tests" --list | sed -n '/layouts::/s/: test$//p')
[ -n "$names" ] || { echo "no test of layouts is there"; exit 1; }
for name in $names; do
    (ulimit -v 4096 && "$tests" "$name" >/dev/null) || { echo "$name fails in 4 MiB of address space"; exit 1; }
done
"$top/krb_realm" </dev/null
exec python3 -B "$top/faults/hostile.py" "$top/crates/krb_realmd/out/krb_realmd" "$top/crates/replay_realm/data" "$@"
