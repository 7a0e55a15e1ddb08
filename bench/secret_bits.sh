#!/bin/sh
# Counts the instructions of powers with secret exponents of one length and of weights from 0 to all bits, by callgrind (Debian: valgrind): a
# public value and a shared secret in the 2048-bit group, and RSA signatures with 2,048 bits by the private exponent and by the two primes.
# It ends with 1 where two weights differ. The first run proves and builds the program crates/replay_crypto, and lets it fail for want of data.
set -e
cd "$(dirname "$0")/.."
said=crates/replay_crypto/out/first_run.txt
(cd crates/replay_crypto && mkdir -p out && rt run > out/first_run.txt 2>&1) || grep -q '^rt: running' $said || { cat $said; exit 1; }
exec python3 -B bench/secret_bits.py crates/replay_crypto
