#!/bin/sh
# What an exchange through krb_listen costs, in microseconds of processor of all its processes: over UDP, and over TCP with a connection
# for each, clients coming one after another, and of 16 clients at once. Beside it MIT's krb5kdc in the same run, where it is installed.
# faults/flood.sh has hostile clients.
#
# Usage: bench/listener.sh [cost [COMMAND ARGUMENT..]]. COMMAND is a program that answers frames. Without it the workers are a
# stub that answers at once, so the figures are those of the listener.
#
# Or bench/listener.sh kdcd [ACCOUNTS..]: the workers are krb_kdcd, which logs, over a realm of 10 and then of 1,000,000 accounts, or of the
# numbers given. Each exchange is a preauthenticated AS request, and krb5kdc has as many principals and logs too. Both run at once and take
# rounds in turn; what is printed are medians. First with one processor; then, where there are four, with four, of which krb5kdc uses one,
# and then all by four processes. It fails where an exchange costs more of the processor than krb5kdc's, or where with four processors there
# are fewer exchanges a second than one process of krb5kdc has. Making krb5kdc's database of 1,000,000 takes a minute or two, and 0.8 GB of
# disk. krb_listen runs by the system's python3, as a unit of systemd starts it.
#
# It needs python3, cc for the stub, and for krb_kdcd and krb5kdc what bench/kdc.sh needs. KRB_KDCD may name a built program.
set -e
top=$(cd "$(dirname "$0")/.." && pwd)
if [ "${1:-}" = kdcd ]; then
    . "$top/bench/programs.sh"
    program KRB_KDCD krb_kdcd
fi
exec python3 -B "$top/bench/listener.py" "$@"
