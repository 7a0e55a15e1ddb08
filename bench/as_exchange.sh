#!/bin/sh
# How many AS exchanges a second the program answers on one core, from a file into a file, and where valgrind is at hand,
# which share of its instructions DER, sealing, memory and the rest take. Each frame is the preauthenticated request that
# MIT's kinit (1.20.1) made for krbtgt/R by the key of the stored run, and gets a ticket.
set -e
top=$(cd "$(dirname "$0")/.." && pwd)
"$top/krb_realm" </dev/null
exec python3 -B "$top/bench/as_exchange.py" "$top/crates/krb_realmd/out/krb_realmd"
