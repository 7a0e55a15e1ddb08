#!/bin/sh
# Prints, for realms of 10, 1,000, 100,000 and 1,000,000 accounts, how long it takes to make one and how much resident memory
# an account takes, and the processor time of an answer: an error for an unknown client, and a ticket by preauthentication
# (AES-256). Each answer is to another client, by chance, and the reading of its line is included. The program
# crates/replay_realm plays the lines. With 1,000,000 accounts it takes 1 GB of memory.
# Where valgrind is there, it also prints the instructions of an account and of an answer, their lines read. Valgrind counts each octet
# that one instruction clears or copies, and with 1,000,000 accounts takes some minutes.
# With arguments the numbers of accounts are these. The first run proves and builds the program.
set -e
cd "$(dirname "$0")/.."
program=crates/replay_realm
rm -f $program/out/replay_realm
(cd $program && mkdir -p out && rt run </dev/null >out/first_run.txt 2>&1) || [ -x $program/out/replay_realm ] || { cat $program/out/first_run.txt; exit 1; }
exec python3 -B bench/accounts.py $program/out/replay_realm "$@"
