#!/bin/sh
# Stock kpasswd of MIT and Heimdal change passwords of a realm of krb_kdcd, at krb_kpasswdd behind krb_listen, over TCP and UDP. Each change
# counts at the next login, and text and database agree after it. What is refused, or asked a second time, changes neither file. Prints
# what each gave; the status is 1 where one differs from what it should, and 2 where a tool is missing. All files are in a temporary folder,
# and what is started is ended.
#
# Usage: examples/password_changes.sh. KRB_KPASSWDD, KRB_KDCD and KRB_ACCOUNTS may name programs that are built already. Heimdal's clients
# are those of real_clients.sh.
set -u
script=password_changes
top=$(cd "$(dirname "$0")/.." && pwd)
work=$(mktemp -d)
bridge= server= relay=
trap 'kill $bridge $server $relay 2>/dev/null; wait; rm -rf "$work"' EXIT
trap 'exit 1' INT TERM
. "$top/examples/stock.sh"
. "$top/bench/programs.sh"
umask 077

need kpasswd krb5-user
need kinit krb5-user
need socat socat
need setsid util-linux
[ "$missing" -eq 0 ] || exit 2
fetch_heimdal kpasswd.heimdal heimdal-clients
program KRB_ACCOUNTS krb_accounts
program KRB_KDCD krb_kdcd
program KRB_KPASSWDD krb_kpasswdd

heimdal() {
    KRB5_CONFIG=$work/heimdal.conf KRB5CCNAME=FILE:$work/heimdal.tickets TZ=UTC LD_LIBRARY_PATH=$libraries "$@"
}

# lines LINE..: what a command reads. Without a terminal of its own Heimdal's kpasswd reads it, too.
lines() {
    printf '%s\n' "$@"
}

# mit_kpasswd OLD NEW USER
mit_kpasswd() {
    lines "$1" "$2" "$2" | mit kpasswd "$3"
}

# heimdal_kpasswd OLD NEW ARGUMENT..
heimdal_kpasswd() {
    typed_first=$1 typed_next=$2
    shift 2
    lines "$typed_first" "$typed_next" "$typed_next" | heimdal setsid -w kpasswd.heimdal "$@"
}

# logs_in PASSWORD USER: by a client of each.
logs_in() {
    lines "$1" | mit kinit "$2" && lines "$1" >"$work/password" && heimdal kinit.heimdal "--password-file=$work/password" "$2@EXAMPLE.COM"
}

agree() {
    "$KRB_ACCOUNTS" check "$work/accounts" "$work/accounts.cdb"
}

kvno_of() {
    "$KRB_ACCOUNTS" list "$work/accounts" "$1" | grep "^$1[[:space:]]" | cut -f 3
}

has_kvno() {
    [ "$(kvno_of "$1")" = "$2" ]
}

# changed NAME OLD NEW USER KVNO COMMAND..: the command changes the password of the user, whose key has this kvno then.
changed() {
    name=$1 before=$2 after=$3 whose=$4 number=$5
    shift 5
    try "$name" yes "" "$@"
    try "  the key has kvno $number" yes "" has_kvno "$whose" "$number"
    try "  text and database agree" yes "" agree
    try "  a login by the new password" yes "" logs_in "$after" "$whose"
    try "  no login by the old one" no "Password incorrect" logs_in "$before" "$whose"
}

# refused NAME WANTED TEXT COMMAND..: the command says the text, with status 0 (WANTED is yes) or another, and neither file changes.
refused() {
    name=$1 wanted=$2 text=$3
    shift 3
    cp "$work/accounts" "$work/accounts.old"
    cp "$work/accounts.cdb" "$work/accounts.cdb.old"
    try "$name" "$wanted" "$text" "$@"
    try "  neither file changed" yes "" same
}

same() {
    cmp "$work/accounts" "$work/accounts.old" && cmp "$work/accounts.cdb" "$work/accounts.cdb.old"
}

make_realm() {
    "$KRB_ACCOUNTS" create -k random "$work/accounts" EXAMPLE.COM &&
        "$KRB_ACCOUNTS" add -k random "$work/accounts" kadmin/changepw &&
        for user in user other root/admin; do lines "$password" | "$KRB_ACCOUNTS" add "$work/accounts" "$user" || return 1; done &&
        printf '#admins\troot/admin\n' >>"$work/accounts" &&
        "$KRB_ACCOUNTS" make "$work/accounts" "$work/accounts.cdb"
}

# serve_passwords: krb_kpasswdd by one process; sets server and its port. A request of a time before its start isn't admitted.
serve_passwords() {
    listen "$top/bridges/krb_listen" --listen 127.0.0.1:PORT --workers 1 -- \
        "$KRB_KPASSWDD" --address 127.0.0.1 --refused "$work/words" "$work/accounts" "$work/accounts.cdb" /dev/urandom
    server=$started passwords=$port
    sleep 1
}

# clients_over tcp|udp PORT: where the clients ask; MIT's at this port for a new password.
clients_over() {
    limit=1
    [ "$1" = tcp ] || limit=4096
    configuration "127.0.0.1:$kdc_port
        kpasswd_server = 127.0.0.1:$2" "" "$limit" >"$work/mit.conf"
    configuration "$1/127.0.0.1:$kdc_port
        kpasswd_server = $1/127.0.0.1:$passwords" "" >"$work/heimdal.conf"
}

# over_udp_alone: a port where nothing listens over TCP, since MIT's kpasswd asks over TCP first; sets relay and port.
over_udp_alone() {
    port=$((passwords + 1))
    while is_taken || ! start_relay; do
        port=$((port + 1))
    done
}

start_relay() {
    socat "UDP4-LISTEN:$port,bind=127.0.0.1,fork" "UDP4:127.0.0.1:$passwords" >>"$work/log" 2>&1 &
    relay=$!
    sleep 0.5
    kill -0 "$relay" 2>/dev/null
}

# again FILE: sends recorded requests once more, after the seconds for which the listener repeats its replies.
again() {
    sleep 3
    socat -t 5 - "TCP:127.0.0.1:$passwords" <"$1" | tr -c '[:print:]' '\n'
}

make_realm >>"$work/log" 2>&1 || { cat "$work/log" >&2; exit 2; }
lines "correct horse" letmein123 >"$work/words"
listen "$top/bridges/krb_listen" --listen 127.0.0.1:PORT --workers 2 -- "$KRB_KDCD" "$work/accounts.cdb" /dev/urandom --log
bridge=$started kdc_port=$port
serve_passwords

weak="The password is too short, or a word that is refused."
wrong="Password incorrect\|Preauthentication failed"
now=$password kvno=1 others=$password others_kvno=2
for way in tcp udp; do
    echo "== over $way"
    port=$passwords
    [ $way = tcp ] || over_udp_alone
    clients_over $way "$port"
    for client in mit heimdal; do
        next="$client's new password over $way" kvno=$((kvno + 1))
        changed "$client: kpasswd" "$now" "$next" user $kvno ${client}_kpasswd "$now" "$next" user
        now=$next
        # Heimdal's has status 0 where a password is refused. Then it asks once more, by version 1 and over UDP alone.
        told=no says=$weak
        case $client-$way in
            heimdal-tcp) says="Unable to reach any changepw server" ;;
            heimdal-udp) told=yes ;;
        esac
        refused "$client: a short password" $told "$says" ${client}_kpasswd "$now" short user
        refused "$client: a word that is refused" $told "$says" ${client}_kpasswd "$now" letmein123 user
        refused "$client: another password than the user's" no "$wrong" ${client}_kpasswd "no such password" "a new password" user
    done
    echo "== an administrator, over $way"
    next="set by root/admin over $way"
    changed "heimdal: root/admin sets the password of another" "$others" "$next" other $others_kvno \
        heimdal_kpasswd "$password" "$next" --admin-principal=root/admin@EXAMPLE.COM other@EXAMPLE.COM
    others=$next others_kvno=3
    # Version 1 changes no other's password, so that the client refuses to ask by it.
    says="Operation not permitted"
    [ $way = udp ] || says="Unable to reach any changepw server"
    refused "heimdal: who is no administrator" no "$says" \
        heimdal_kpasswd "$now" "set by a user" --admin-principal=user@EXAMPLE.COM other@EXAMPLE.COM
    refused "heimdal: an account that isn't there" no "$says" \
        heimdal_kpasswd "$password" "set for nobody" --admin-principal=root/admin@EXAMPLE.COM nobody@EXAMPLE.COM
    refused "heimdal: the account of the ticket-granting service" no "$says" \
        heimdal_kpasswd "$password" "set for krbtgt" --admin-principal=root/admin@EXAMPLE.COM krbtgt/EXAMPLE.COM@EXAMPLE.COM
done

echo "== a request that was granted, once more"
kill "$relay"
listen socat -r "$work/requests" "TCP-LISTEN:PORT,bind=127.0.0.1,fork,reuseaddr" "TCP:127.0.0.1:$passwords"
relay=$started
clients_over tcp "$port"
changed "mit: kpasswd, recorded" "$now" "a recorded password" user $((kvno + 1)) mit_kpasswd "$now" "a recorded password" user
cp "$work/accounts" "$work/accounts.old"
cp "$work/accounts.cdb" "$work/accounts.cdb.old"
try "the request again" yes "The request is not authenticated." again "$work/requests"
try "  neither file changed" yes "" same
kill "$server"
wait "$server"
serve_passwords
try "the request again, at a service that was started anew" yes "The request is not authenticated." again "$work/requests"
try "  neither file changed" yes "" same

echo "$passed right, $failed wrong"
[ "$failed" -eq 0 ]
