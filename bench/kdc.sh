#!/bin/sh
# Requests a second and processor time a request of the program with settings, put to it through a bridge (socat on TCP, a process for
# each connection, as inetd and systemd start them) and through one pipe, what a start alone takes, and what bounds it: the same bridge
# with cat in its place. Beside it MIT's krb5kdc with as many principals on this machine in the same run, over TCP with a connection for
# each request and over UDP. Clients come one after another. Each request is a preauthenticated AS request of a user by key for a ticket
# of the realm, made by MIT's kinit, with another nonce each, and each gets a ticket.
#
# Usage: bench/kdc.sh [ACCOUNTS..]. All of this is run with 10 and then with 5,000 accounts by key, or with the numbers given. A settings
# file of 1 MiB has room for 7,500. To measure a program that is built already: python3 bench/kdc.py PROGRAM [ACCOUNTS..].
#
# It needs kinit, ktutil, socat and python3, and for krb5kdc what bench/stock_kdc.sh needs: on Debian krb5-user, socat, krb5-kdc,
# krb5-admin-server.
set -e
top=$(cd "$(dirname "$0")/.." && pwd)
"$top/krb_realm" </dev/null
exec python3 -B "$top/bench/kdc.py" "$top/crates/krb_realmd/out/krb_realmd" "$@"
