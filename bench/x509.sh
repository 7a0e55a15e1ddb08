#!/bin/sh
# Prints how long reading and writing of a certificate's parts takes, its subject and its extensions: how many a second, and
# nanoseconds and instructions for each byte. Beside them, in the same run, what openssl takes for the same parts of a certificate, one
# process each, and for whole certificates in one process (Debian: openssl, and valgrind for the instructions). The first run proves
# and builds the program crates/bench_codecs.
set -e
cd "$(dirname "$0")/.."
(cd crates/bench_codecs && mkdir -p out && rt run -- $(cat args) > out/first_run.txt 2>&1) || { cat crates/bench_codecs/out/first_run.txt; exit 1; }
exec python3 -B bench/x509.py crates/bench_codecs/out/bench_codecs
