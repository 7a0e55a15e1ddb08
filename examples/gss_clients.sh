#!/bin/sh
# MIT's gss-client logs in to the program example_acceptor, which has a keytab of MIT's ktutil, and sends it messages, by tickets of the
# realm of examples/settings.toml, with keys made anew, behind socat on 127.0.0.1: with each suite of AES, with and without mutual authentication, with messages that are
# encrypted, only protected by a checksum, and neither, and through SPNEGO, each with and without a subkey of the acceptor, and in sequence. ntlm_first.py, over the same library, offers NTLM before
# Kerberos, so that both sides' MICs of the list are due. It is refused as it should be with triple DES, for another
# service, by a clock that is 10 minutes off, and where its frames come again or have one octet changed. Prints what each gave; the
# status is 1 where one differs from what it should, and 2 where a tool is missing. All files are in a temporary folder, and what is
# started is ended.
set -u
script=gss_clients
top=$(cd "$(dirname "$0")/.." && pwd)
work=$(mktemp -d)
bridge= one=
trap 'kill $bridge $one 2>/dev/null; rm -rf "$work"' EXIT
trap 'exit 1' INT TERM
. "$top/examples/stock.sh"

need socat socat
need kinit krb5-user
need ktutil krb5-user
need gss-client krb5-gss-samples
need faketime faketime
need openssl openssl
if ! /usr/bin/python3 -c 'import gssapi' 2>/dev/null || [ ! -e /etc/gss/mech.d/mech.ntlmssp.conf ]; then
    echo "$script: a module or a mechanism is missing (Debian: python3-gssapi, gss-ntlmssp)" >&2
    missing=1
fi
[ "$missing" -eq 0 ] || exit 2

# The acceptor, proved and built first where it isn't yet.
program=$top/crates/example_acceptor/out/example_acceptor
if [ ! -x "$program" ] || [ -n "$(find "$top/crates" -name out -prune -o -path '*/src/*.rt' -newer "$program" -print | head -n 1)" ]; then
    (cd "$top/crates/example_acceptor" && rt run </dev/null >&2)
    [ -x "$program" ] || exit 2
fi
cat >"$work/acceptor" <<ACCEPTOR
#!/bin/sh
\${CLOCK:-} $program $work/host.keytab /dev/urandom now host/\${SERVICE:-$host}@EXAMPLE.COM \${SUBKEY:-} 2>>$work/told
echo "acceptor: status \$?" >>$work/told
ACCEPTOR
chmod +x "$work/acceptor"

# connect COMMAND..: one connection of gss-client, begun by this command, to an acceptor. The client's frames are kept in sent.
connect() {
    rm -f "$work/sent" "$work/told"
    listen socat -r "$work/sent" TCP-LISTEN:PORT,bind=127.0.0.1,reuseaddr "EXEC:$work/acceptor"
    "$@" -port "$port" localhost "host@$host" "${message:-a message}" >"$work/client" 2>&1
    ended=$?
    wait "$started"
    grep -v -e '^ *[0-9]: {' -e '^Name type' -e '^Mechanism' -e '^$' "$work/client"
    cat "$work/told"
    return "$ended"
}

# served COUNT COMMAND..: likewise. The client has to verify so many checksums, and the acceptor to end well.
served() {
    sums=$1
    shift
    connect "$@" && [ "$(grep -c '^Signature verified' "$work/client")" -eq "$sums" ] && grep -q '^acceptor: status 0' "$work/told"
}

client() {
    mit gss-client "$@"
}

# By an initiator that offers NTLM first.
ntlm_first() {
    mit "$top/examples/ntlm_first.py" "$@"
}

# By a clock of its own.
late() {
    mit faketime -f +10m gss-client "$@"
}

# again FILE..: what one acceptor makes of the frames of these files, one after the other.
again() {
    rm -f "$work/told"
    cat "$@" | "$work/acceptor" >/dev/null
    cat "$work/told"
    grep -q '^acceptor: status 0' "$work/told"
}

# changed PLACE: likewise of the frames that were kept, with another octet at this place.
changed() {
    octet=$(od -An -v -tu1 -j "$1" -N 1 "$work/kept" | tr -d ' ')
    {
        head -c "$1" "$work/kept"
        printf "\\$(printf %o $((octet ^ 1)))"
        tail -c +"$(($1 + 2))" "$work/kept"
    } >"$work/changed"
    again "$work/changed"
}

# Two connections to one acceptor, and then the frames of the first again.
one_for_all() {
    rm -f "$work/told" "$work/in" "$work/out" "$work/sent1" "$work/sent2"
    mkfifo "$work/in" "$work/out"
    "$work/acceptor" <"$work/in" >"$work/out" &
    one=$!
    exec 3>"$work/in" 4<"$work/out"
    for turn in 1 2; do
        listen socat -r "$work/sent$turn" TCP-LISTEN:PORT,bind=127.0.0.1,reuseaddr 'FD:4!!FD:3'
        client -q -port "$port" localhost "host@$host" "a message" || return 1
        wait "$started"
    done
    cat "$work/sent1" >&3
    exec 3>&- 4<&-
    wait "$one"
    one=
    cat "$work/told"
    [ "$(grep -c 'logged in' "$work/told")" -eq 2 ]
}

# by_suite SUITE: keys made anew, of this suite, also for a further service, with their keytab, and the user's first ticket.
by_suite() {
    echo "== $1"
    make_settings "$1" "$1" "$1"
    printf '\n[[account]]\nname = ["host", "other.example.com"]\nsuite = "%s"\nkey = "%s"\n' "$1" "$host_key" >>"$work/settings.toml"
    rm -f "$work/mit.tickets" "$work/host.keytab"
    ktutil_lines "addent -key -p host/$host@EXAMPLE.COM -k 1 -e ${1%-kd}" "$host_key" \
        "addent -key -p host/other.example.com@EXAMPLE.COM -k 1 -e ${1%-kd}" "$host_key" "wkt $work/host.keytab" >"$work/log" 2>&1
    try "the keytab of the services" yes "$host_key" mit klist -k -e -K "$work/host.keytab"
    try "kinit" yes "" typed "$password" mit kinit user
}

# settle FURTHER: the client's configuration. Its clock isn't to be put right by what the realm told.
settle() {
    configuration "127.0.0.1:$realm_port" "kdc_timesync = 0
    allow_weak_crypto = true
    allow_des3 = true
    $1" >"$work/mit.conf"
}

start_realm
realm_port=$port
settle ""
login="user@EXAMPLE.COM logged in"
echo "MIT: $(dpkg-query -W -f '${Version}' krb5-gss-samples 2>/dev/null)"
for suite in aes128-cts-hmac-sha1-96 aes256-cts-hmac-sha1-96 aes128-cts-hmac-sha256-128 aes256-cts-hmac-sha384-192; do
    by_suite $suite
    for SUBKEY in '' subkey; do
        export SUBKEY
        [ -z "$SUBKEY" ] || echo "= with a subkey of the acceptor"
        try "a message that is encrypted" yes "$login" served 1 client
        try "without mutual authentication" yes "$login" served 1 client -nomutual
        try "three messages" yes "$login" served 3 client -mcount 3
        try "three messages in sequence" yes "$login" served 3 client -seq -mcount 3
        try "three messages that have a checksum alone" yes "$login" served 3 client -mcount 3 -nx
        try "a message that isn't protected" yes "$login" served 1 client -nw
        try "no checksum in return" yes "Response received" served 0 client -nm
        try "SPNEGO" yes "$login" served 1 client -spnego
        try "SPNEGO without mutual authentication, three messages" yes "$login" served 3 client -spnego -nomutual -mcount 3
        try "SPNEGO with NTLM first, and MICs of the list" yes "$login" served 1 ntlm_first
        try "the same without mutual authentication" yes "$login" served 1 ntlm_first -nomutual
    done
    SUBKEY=
    try "two connections to one acceptor, and the first one's frames again: refused" yes "Krb(34)" one_for_all
done

echo "== refused"
head -c 60000 /dev/zero | tr '\0' a >"$work/long"
message=$work/long
try "a message of 60000 octets, which is taken" yes "$login" served 1 client -f
head -c 70000 /dev/zero | tr '\0' a >"$work/long"
try "a message of 70000 octets" no "TokenTooLong" connect client -f
message=
try "a message without a login" no "NoContext" connect client -na
try "a client's clock 10 minutes off" no "Krb(37)" connect late
CLOCK="faketime -f +10m" && export CLOCK
try "the acceptor's clock 10 minutes off" no "Krb(37)" connect client
CLOCK=
SERVICE=other.example.com && export SERVICE
try "a ticket for another service" no "Krb(35)" connect client
SERVICE=
# The first frame has five octets, and so has the next one before its token.
try "a login whose frames are kept" yes "$login" served 1 client
cp "$work/sent" "$work/kept"
size=$(od -An -v -tu1 -j 8 -N 2 "$work/kept" | awk '{ print 256 * $1 + $2 }')
try "its frames at another process, which is another acceptor: taken" yes "$login" again "$work/kept"
try "its frames twice at one process" no "Krb(34)" again "$work/kept" "$work/kept"
try "another mechanism" no "NotAToken" changed 20
try "another ticket" no "Krb(31)" changed $((10 + size / 2))
try "another authenticator" no "Krb(31)" changed $((10 + size - 1))
try "another message" no "WrongChecksum" changed $(($(wc -c <"$work/kept") - 6))
head -c $((size / 2)) "$work/kept" >"$work/cut"
try "a part of its frames" no "Truncated" again "$work/cut"
by_suite des3-cbc-sha1-kd
try "tickets of triple DES, and a subkey of AES: taken" yes "$login" served 1 client
settle "permitted_enctypes = des3-cbc-sha1"
try "a subkey of triple DES" no "OldSuite" connect client

echo "$passed right, $failed wrong"
[ "$failed" -eq 0 ]
