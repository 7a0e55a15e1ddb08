#!/bin/sh
# A stock kinit gets a ticket from the program over TCP, and a stock kvno by it a further one. socat runs the program as inetd would,
# one process for each connection. kinit's clock is set to the moment of the stored run, and it asks as krbtgt/R, whose key has 32
# zero bytes. It needs kinit, kvno and klist (MIT), socat and faketime: on Debian krb5-user, socat and faketime.
set -e
top=$(cd "$(dirname "$0")/.." && pwd)
port=${1:-8888}
work=$(mktemp -d)
trap 'kill $bridge 2>/dev/null; rm -r "$work"' EXIT

"$top/krb_realm" </dev/null
socat "TCP-LISTEN:$port,bind=127.0.0.1,fork,reuseaddr" "EXEC:$top/crates/krb_realmd/out/krb_realmd" &
bridge=$!
sleep 1

cat >"$work/krb5.conf" <<CONF
[libdefaults]
    default_realm = R
    dns_lookup_kdc = false
    dns_canonicalize_hostname = false
    udp_preference_limit = 1
[realms]
    R = {
        kdc = 127.0.0.1:$port
    }
CONF

# A keytab of one entry: krbtgt/R@R, AES-256, kvno 1.
{
    printf '\5\2\0\0\0\101\0\2\0\1R\0\6krbtgt\0\1R\0\0\0\1\0\0\0\0\1\0\22\0\40'
    head -c 32 /dev/zero
    printf '\0\0\0\1'
} >"$work/keytab"

export KRB5_CONFIG="$work/krb5.conf" KRB5CCNAME="FILE:$work/tickets" TZ=UTC
faketime -f '@2000-01-01 00:00:00' kinit -k -t "$work/keytab" krbtgt/R@R
# By a TGS request: the session key is to be of another suite than that of the ticket at hand, which so doesn't do. kvno opens
# the ticket that it gets by the keytab's key.
faketime -f '@2000-01-01 00:00:00' kvno -e aes128-cts -k "$work/keytab" krbtgt/R@R
faketime -f '@2000-01-01 00:00:00' klist -e -f
