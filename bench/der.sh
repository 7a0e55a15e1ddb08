#!/bin/sh
# Prints how many instructions and nanoseconds of processor reading and writing takes, for each byte of the messages of a
# recorded AS exchange: the request, the reply with a ticket, the error. Instructions are valgrind's (Debian: valgrind),
# where it is at hand. The first run proves and builds the program crates/bench_codecs.
set -e
cd "$(dirname "$0")/.."
(cd crates/bench_codecs && mkdir -p out && rt run -- $(cat args) > out/first_run.txt 2>&1) || { cat crates/bench_codecs/out/first_run.txt; exit 1; }
exec python3 -B bench/der.py crates/bench_codecs/out/bench_codecs crates/replay_realm/data
