#!/bin/sh
# How many TGS exchanges a second the program answers on one core, from a file into a file, and where valgrind is at hand,
# which share of its instructions DER, sealing, memory and the rest take. Each frame is the request that MIT's kvno (1.20.1)
# made for krbtgt/R, by the ticket that kinit got in the stored run, and gets a ticket. Where krb5kdc is at hand, it is
# measured behind it (bench/stock_kdc.sh).
set -e
top=$(cd "$(dirname "$0")/.." && pwd)
"$top/krb_realm" </dev/null
python3 -B "$top/bench/tgs_exchange.py" "$top/crates/krb_realmd/out/krb_realmd"
if command -v krb5kdc >/dev/null; then
    exec "$top/bench/stock_kdc.sh"
fi
