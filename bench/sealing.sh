#!/bin/sh
# Prints side by side how fast keys are derived from passwords (PBKDF2 with 4,096 rounds of HMAC-SHA1, and with 32,768 rounds of
# HMAC-SHA-256 and HMAC-SHA-384 for the types 19 and 20) and how fast AES-128 with ciphertext stealing and triple DES in a chain seal and open a megabyte: here, and by python3's hashlib and
# cryptography where they are at hand. Both sides must come to the same bytes. The first run proves and builds the program crates/bench_codecs.
set -e
cd "$(dirname "$0")/.."
(cd crates/bench_codecs && mkdir -p out && rt run -- $(cat args) > out/first_run.txt 2>&1) || { cat crates/bench_codecs/out/first_run.txt; exit 1; }
exec python3 bench/sealing.py crates/bench_codecs/out/bench_codecs
