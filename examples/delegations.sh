#!/bin/sh
# MIT's gss-client delegates a forwarded ticket-granting ticket to the program example_acceptor, by tickets of MIT's krb5kdc: bare and through
# SPNEGO, with and without mutual authentication and a subkey of the acceptor. The acceptor writes it to a credential cache, by which
# MIT's klist shows it and MIT's kvno gets a ticket for the service. By that cache the program example_initiator logs in at MIT's
# gss-server and at example_acceptor, and delegates the ticket once more. Without the flag nothing is written. Prints what each gave; the
# status is 1 where one differs from what it should, and 2 where a tool is missing. All files are in a temporary folder, and what is
# started is ended.
set -u
script=delegations
top=$(cd "$(dirname "$0")/.." && pwd)
work=$(mktemp -d)
bridge= started=
trap 'kill $bridge $started 2>/dev/null; rm -rf "$work"' EXIT
trap 'exit 1' INT TERM
. "$top/examples/stock.sh"

need socat socat
need kinit krb5-user
need gss-client krb5-gss-samples
need krb5kdc krb5-kdc
need kadmin.local krb5-admin-server
need openssl openssl
[ "$missing" -eq 0 ] || exit 2

# The programs, proved and built first where they aren't yet. ACCEPTOR and INITIATOR may name built ones.
built() {
    if [ ! -x "$top/crates/$1/out/$1" ]; then
        (cd "$top/crates/$1" && rt run </dev/null >&2)
        [ -x "$top/crates/$1/out/$1" ] || exit 2
    fi
    echo "$top/crates/$1/out/$1"
}
acceptor=${ACCEPTOR:-$(built example_acceptor)} || exit 2
initiator=${INITIATOR:-$(built example_initiator)} || exit 2

start_mit "max_life = 10h"
echo "MIT: $(dpkg-query -W -f '${Version}' krb5-gss-samples 2>/dev/null)"
for command in "addprinc -pw \"$password\" user" "addprinc -randkey host/$host" "ktadd -k $work/host.keytab host/$host"; do
    mit kadmin.local -q "$command" >>"$work/log" 2>&1
done
cat >"$work/acceptor" <<ACCEPTOR
#!/bin/sh
exec $acceptor $work/host.keytab /dev/urandom now host/$host@EXAMPLE.COM \${SUBKEY:-} delegated $work/delegated 2>>$work/told
ACCEPTOR
chmod +x "$work/acceptor"

# served COMMAND..: one login at example_acceptor, by this command behind the port.
served() {
    rm -f "$work/told" "$work/delegated"
    listen socat TCP-LISTEN:PORT,bind=127.0.0.1,reuseaddr "EXEC:$work/acceptor"
    "$@" >"$work/client" 2>&1
    ended=$?
    wait "$started"
    started=
    cat "$work/client" "$work/told"
    return "$ended"
}

client() {
    mit gss-client -port "$port" "$@" localhost "host@$host" "a message"
}

# The program, by the cache of the acceptor before.
onward() {
    socat "TCP:127.0.0.1:$port" "EXEC:$initiator talk -c $work/received -d $1 host@$host hello"
}

# By the cache that was received.
received() {
    KRB5_CONFIG=$work/mit.conf KRB5CCNAME=FILE:$work/received TZ=UTC "$@"
}

unwritten() {
    "$@" && [ ! -e "$work/delegated" ]
}

try "kinit, forwardable" yes "" typed "$password" mit kinit -f user
for SUBKEY in '' subkey; do
    export SUBKEY
    [ -z "$SUBKEY" ] || echo "= with a subkey of the acceptor"
    try "a delegation" yes "has what the client delegates" served client -d
    try "the same without mutual authentication" yes "has what the client delegates" served client -d -nomutual
    try "the same through SPNEGO" yes "has what the client delegates" served client -d -spnego
    try "no delegation" yes "logged in" unwritten served client
done
SUBKEY=
try "a delegation that is kept" yes "has what the client delegates" served client -d
cp "$work/delegated" "$work/received"
try "klist: a forwarded ticket" yes "Flags: Ff" received klist -f
try "kvno: a ticket for the service by it" yes "kvno = " received kvno "host/$host"
try "the initiator delegates it once more" yes "has what the client delegates" served onward yes
try "klist: the same ticket" yes "Flags: Ff" received klist -f "$work/delegated"
try "the initiator doesn't" yes "logged in" unwritten served onward no
listen env KRB5_CONFIG="$work/mit.conf" gss-server -port PORT -keytab "$work/host.keytab" "host@$host"
try "the initiator delegates to MIT's gss-server" yes "context established" onward yes
cp "$work/mit.tickets" "$work/received"
received kvno "host/$host" >>"$work/log" 2>&1
try "a ticket-granting ticket that isn't forwarded: refused" no "expected a forwarded" onward yes
kill "$started"
started=

echo "$passed right, $failed wrong"
[ "$failed" -eq 0 ]
