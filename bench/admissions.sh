#!/bin/sh
# Prints how much processor time a call of Service::admit takes with 10 and with 1,000,000 pairs in the replay cache, the
# reading of its line included, and how much resident memory a pair takes. Each call is admitted (AES-256, no reply) and
# drops one old pair. The program crates/replay_crypto replays the calls, and compares each answer and what is kept.
# The requests are made by python3's cryptography (Debian: python3-cryptography). Their file takes 1 GB in the folder for
# temporary files, and the program takes as much memory. With the argument `jitter` there is a run more, with the times of
# the requests up to a minute out of order. The first run proves and builds the program.
set -e
cd "$(dirname "$0")/.."
program=crates/replay_crypto
(cd $program && mkdir -p out && rt run -- sequences data/replay_cache.txt >out/first_run.txt 2>&1) || { cat $program/out/first_run.txt; exit 1; }
exec python3 -B bench/admissions.py $program/out/replay_crypto $program/data/replay_cache.txt "$@"
