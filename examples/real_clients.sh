#!/bin/sh
# Stock clients of MIT and Heimdal log in to the realm of examples/settings.toml, with keys made anew, on 127.0.0.1: by
# password and by keytab, with a service ticket, which the service opens and takes a message, and each refused as it should be
# with a wrong password, an unknown name and a clock that is 10 minutes off. Then they log in where all keys are of each other suite,
# and where realm, user and service have keys of different ones. Prints what each gave; the status is 1 where one differs
# from what it should, and 2 where a tool is missing. All files are in a temporary folder, and what is started is ended.
#
# Usage: examples/real_clients.sh [socat|tcp|udp..]. All of this is done three times, or in the ways that are named:
#   socat     krb_realm behind socat
#   tcp, udp  krb_kdcd behind krb_listen, over this protocol, with a database that krb_accounts makes of the settings. Then keys of the
#             service, of the user and of the realm are changed, attributes are set, and an account is removed, while the
#             listener stays.
# KRB_REALMD, KRB_KDCD and KRB_ACCOUNTS may name programs that are built already.
#
# Heimdal's clients are those on the path (Debian: heimdal-clients), or those unpacked in the folder HEIMDAL, or else they are
# downloaded by apt-get and unpacked in the temporary folder, so that they can be used beside MIT's.
set -u
script=real_clients
top=$(cd "$(dirname "$0")/.." && pwd)
work=$(mktemp -d)
bridge= server=
trap 'kill $bridge $server 2>/dev/null; rm -rf "$work"' EXIT
trap 'exit 1' INT TERM
. "$top/examples/stock.sh"

# By the client's own clock: it isn't to put right by the realm's error what its clock says.
mit_late() {
    KRB5_CONFIG=$work/mit_late.conf KRB5CCNAME=FILE:$work/mit.tickets TZ=UTC faketime -f +10m "$@"
}

heimdal() {
    KRB5_CONFIG=$work/heimdal.conf KRB5CCNAME=FILE:$work/heimdal.tickets TZ=UTC LD_LIBRARY_PATH=$libraries "$@"
}

heimdal_late() {
    heimdal faketime -f +10m "$@"
}

# A kinit of Heimdal takes the realm's time from its error 37 and asks again, however it is configured. So the realm's replies show
# that the first request was refused (error-code [6] of RFC 4120, section 5.9.1, with 37), or the log of krb_kdcd does.
heimdal_told() {
    : >"$work/replies"
    logged=$(wc -l <"$work/log")
    heimdal_late kinit.heimdal "--password-file=$work/password" user@EXAMPLE.COM || return 1
    if od -An -v -tx1 "$work/replies" | tr -d ' \n' | grep -q a603020125 ||
        tail -n "+$((logged + 1))" "$work/log" | grep -q "error=KRB_AP_ERR_SKEW"; then
        echo "refused with code 37, then a ticket"
    fi
}

# What a client sends to the service and gets back, by the tickets of KRB5CCNAME. The service has the keytab alone.
gss() {
    listen gss-server -port PORT -once -verbose -keytab "$work/host.keytab" "host@$host"
    server=$started
    KRB5_CONFIG=$work/mit.conf KRB5CCNAME=FILE:$work/$1.tickets gss-client -port "$port" localhost "host@$host" "a message" || return 1
    wait "$server"
    server=
}

need socat socat
need kinit krb5-user
need kvno krb5-user
need ktutil krb5-user
need gss-client krb5-gss-samples
need gss-server krb5-gss-samples
need faketime faketime
need openssl openssl
heimdal_folder=${HEIMDAL:-}
if [ -z "$heimdal_folder" ] && ! command -v kinit.heimdal >/dev/null; then
    need apt-get "apt, or install heimdal-clients"
    need dpkg "dpkg, or install heimdal-clients"
fi
[ "$missing" -eq 0 ] || exit 2

fetch_heimdal kinit.heimdal heimdal-clients

# The realm of the settings, in the way that is named; sets port, limit (of messages over UDP, for MIT) and kdc (for Heimdal).
serve() {
    limit=1
    : >"$work/log"
    if [ "$way" = socat ]; then
        start_realm
    else
        listen "$top/bridges/krb_listen" --listen 127.0.0.1:PORT --workers 2 -- "$KRB_KDCD" "$work/accounts.cdb" /dev/urandom --log
        bridge=$started
    fi
    kdc=tcp/127.0.0.1:$port
    if [ "$way" = udp ]; then
        limit=4096 kdc=udp/127.0.0.1:$port
    fi
}

# The settings with keys made anew, and what krb_kdcd has in their place.
settle() {
    make_settings "$@"
    rm -f "$work"/*.keytab "$work"/*.tickets
    [ "$way" = socat ] || import
}

# Warnings of keys and passwords that everyone knows are left aside.
import() {
    rm -f "$work/accounts"
    if ! { "$KRB_ACCOUNTS" import "$work/settings.toml" "$work/accounts" && publish; } 2>"$work/warnings"; then
        cat "$work/warnings" >&2
        echo "$script: krb_accounts makes no database of the settings" >&2
        exit 2
    fi
}

publish() {
    "$KRB_ACCOUNTS" make "$work/accounts" "$work/accounts.cdb"
}

# changed COMMAND..: a command of krb_accounts, and then the database is made and judged anew.
changed() {
    "$KRB_ACCOUNTS" "$@" && publish && "$KRB_ACCOUNTS" check "$work/accounts" "$work/accounts.cdb"
}

by_one_suite() {
    echo "== MIT: $(dpkg-query -W -f '${Version}' krb5-user 2>/dev/null)"
    try "keytab of the service, of its key" yes "" ktutil_lines "addent -key -p host/$host@EXAMPLE.COM -k 1 -e $suite" "$host_key" "wkt $work/host.keytab"
    try "keytab of the user, of its password" yes "" ktutil_lines "addent -password -p user@EXAMPLE.COM -k 1 -e $suite" "$password" "wkt $work/user.keytab"
    try "the service's keytab holds its key" yes "$host_key" mit klist -k -e -K "$work/host.keytab"
    try "kinit by password" yes "" typed "$password" mit kinit user
    try "klist" yes "krbtgt/EXAMPLE.COM@EXAMPLE.COM" mit klist -e -f
    try "kinit by password, asking for a ticket to be forwarded, proxied and renewed" yes "" typed "$password" mit kinit -f -p -r 7d user
    try "kinit by keytab" yes "" mit kinit -k -t "$work/user.keytab" user
    try "kvno: clock 10 minutes off" no "Clock skew too great" mit_late kvno "host/$host"
    try "kvno: a ticket for the service, which its keytab opens" yes "kvno = 1, keytab entry valid" mit kvno -k "$work/host.keytab" "host/$host"
    try "klist" yes "host/$host@EXAMPLE.COM" mit klist -e -f
    try "gss-client to gss-server" yes "Signature verified" gss mit
    try "kvno: an unknown service" no "not found in Kerberos database" mit kvno "host/nobody.example.com"
    try "kinit: wrong password" no "Password incorrect" typed wrong mit kinit user
    try "kinit: unknown client" no "not found in Kerberos database" typed wrong mit kinit nobody
    try "kinit: clock 10 minutes off" no "Clock skew too great" mit_late kinit -k -t "$work/user.keytab" user

    echo "== Heimdal: $(heimdal kinit.heimdal --version 2>&1 | head -n 1)"
    try "keytab of the user, of its password" yes "" heimdal ktutil.heimdal -k "$work/heimdal.keytab" add -p user@EXAMPLE.COM -V 1 -e $suite -w "$password"
    try "kinit by password" yes "" heimdal kinit.heimdal "--password-file=$work/password" user@EXAMPLE.COM
    try "klist" yes "krbtgt/EXAMPLE.COM@EXAMPLE.COM" heimdal heimtools klist -v
    try "kinit by keytab" yes "" heimdal kinit.heimdal -k -t "$work/heimdal.keytab" user@EXAMPLE.COM
    try "kinit by MIT's keytab" yes "" heimdal kinit.heimdal -k -t "$work/user.keytab" user@EXAMPLE.COM
    try "kgetcred: clock 10 minutes off" no "skew" heimdal_late kgetcred "host/$host@EXAMPLE.COM"
    try "kgetcred: a ticket for the service" yes "" heimdal kgetcred "host/$host@EXAMPLE.COM"
    try "klist" yes "host/$host@EXAMPLE.COM" heimdal heimtools klist -v
    try "gss-client of MIT to gss-server, by Heimdal's tickets" yes "Signature verified" gss heimdal
    try "kgetcred: an unknown service" no "unknown" heimdal kgetcred "host/nobody.example.com@EXAMPLE.COM"
    try "kinit: wrong password" no "Password incorrect" heimdal kinit.heimdal "--password-file=$work/wrong" user@EXAMPLE.COM
    try "kinit: unknown client" no "unknown" heimdal kinit.heimdal "--password-file=$work/wrong" nobody@EXAMPLE.COM
    try "kinit: clock 10 minutes off, which the realm tells, and it then goes by the realm's" yes "refused with code 37" heimdal_told
}

# by_suites REALM USER SERVICE: what each client does where the keys are of these suites. Triple DES is switched on for it.
by_suites() {
    echo "== realm $1, user $2, service $3"
    settle "$1" "$2" "$3"
    user_suite=$(echo "$2" | sed 's/-kd$//') host_suite=$(echo "$3" | sed 's/-kd$//')
    try "MIT: keytab of the service" yes "" ktutil_lines "addent -key -p host/$host@EXAMPLE.COM -k 1 -e $host_suite" "$host_key" "wkt $work/host.keytab"
    try "MIT: keytab of the user" yes "" ktutil_lines "addent -password -p user@EXAMPLE.COM -k 1 -e $user_suite" "$password" "wkt $work/user.keytab"
    try "MIT: kinit by password" yes "" typed "$password" mit kinit user
    try "MIT: kinit by keytab" yes "" mit kinit -k -t "$work/user.keytab" user
    try "MIT: kvno, with the service's keytab" yes "kvno = 1, keytab entry valid" mit kvno -k "$work/host.keytab" "host/$host"
    try "MIT: klist" yes "host/$host@EXAMPLE.COM" mit klist -e
    try "MIT: gss-client to gss-server" yes "Signature verified" gss mit
    try "MIT: kinit, wrong password" no "Password incorrect" typed wrong mit kinit user
    try "Heimdal: kinit by password" yes "" heimdal kinit.heimdal "--password-file=$work/password" user@EXAMPLE.COM
    try "Heimdal: kinit by MIT's keytab" yes "" heimdal kinit.heimdal -k -t "$work/user.keytab" user@EXAMPLE.COM
    try "Heimdal: kgetcred" yes "" heimdal kgetcred "host/$host@EXAMPLE.COM"
    try "Heimdal: klist" yes "host/$host@EXAMPLE.COM" heimdal heimtools klist -v
    try "gss-client of MIT to gss-server, by Heimdal's tickets" yes "Signature verified" gss heimdal
    try "Heimdal: kinit, wrong password" no "Password incorrect" heimdal kinit.heimdal "--password-file=$work/wrong" user@EXAMPLE.COM
}

# Keys are changed and an account is removed, while clients have tickets. For each, MIT's clients and Heimdal's.
by_changed_keys() {
    echo "== changed keys"
    settle $suite $suite $suite
    try "keytab of the service, by krb_accounts" yes "" "$KRB_ACCOUNTS" keytab "$work/accounts" "$work/host.keytab" "host/$host"
    try "the service's keytab holds its key" yes "$host_key" mit klist -k -e -K "$work/host.keytab"
    try "MIT: kinit by password" yes "" typed "$password" mit kinit user
    try "Heimdal: kinit by password" yes "" heimdal kinit.heimdal "--password-file=$work/password" user@EXAMPLE.COM
    keep mit granting
    keep heimdal granting
    try "MIT: kvno" yes "kvno = 1, keytab entry valid" mit kvno -k "$work/host.keytab" "host/$host"
    try "Heimdal: kgetcred" yes "" heimdal kgetcred "host/$host@EXAMPLE.COM"
    keep mit first
    keep heimdal first

    echo "== the service's key"
    try "the service's next key" yes "" typed "$(openssl rand -hex 32)" changed key -k "$work/accounts" "host/$host"
    try "MIT: gss-client, by the ticket that it has" yes "Signature verified" gss mit
    try "gss-client of MIT, by the ticket that Heimdal has" yes "Signature verified" gss heimdal
    take mit granting
    take heimdal granting
    try "MIT: kvno, a new ticket, which the old keytab doesn't open" no "kvno = 2" mit kvno -k "$work/host.keytab" "host/$host"
    try "the service's next key for its keytab" yes "" "$KRB_ACCOUNTS" keytab "$work/accounts" "$work/host.keytab" "host/$host"
    take mit granting
    try "MIT: kvno, a new ticket, which the keytab opens" yes "kvno = 2, keytab entry valid" mit kvno -k "$work/host.keytab" "host/$host"
    try "Heimdal: kgetcred, a new ticket" yes "" heimdal kgetcred "host/$host@EXAMPLE.COM"
    try "MIT: gss-client, by the new ticket" yes "Signature verified" gss mit
    try "gss-client of MIT, by Heimdal's new ticket" yes "Signature verified" gss heimdal
    take mit first
    take heimdal first
    try "MIT: gss-client, by the ticket from before" yes "Signature verified" gss mit
    try "gss-client of MIT, by Heimdal's ticket from before" yes "Signature verified" gss heimdal

    echo "== the realm's key"
    try "the realm's next key" yes "" typed "$(openssl rand -hex 32)" changed key -k "$work/accounts" krbtgt/EXAMPLE.COM
    try "MIT: gss-client, by the ticket that it has" yes "Signature verified" gss mit
    take mit granting
    take heimdal granting
    try "MIT: kvno, by a ticket-granting ticket from before" yes "kvno = 2, keytab entry valid" mit kvno -k "$work/host.keytab" "host/$host"
    try "Heimdal: kgetcred, by a ticket-granting ticket from before" yes "" heimdal kgetcred "host/$host@EXAMPLE.COM"
    try "the realm's keys before are taken away" yes "" changed purge "$work/accounts" krbtgt/EXAMPLE.COM
    take mit granting
    take heimdal granting
    try "MIT: kvno, by a ticket-granting ticket under a key that was taken away" no "Key version is not available" mit kvno "host/$host"
    try "Heimdal: kgetcred, by one under a key that was taken away" no "Key version is not available" heimdal kgetcred "host/$host@EXAMPLE.COM"
    try "MIT: kinit by password" yes "" typed "$password" mit kinit user
    try "MIT: kvno" yes "kvno = 2, keytab entry valid" mit kvno -k "$work/host.keytab" "host/$host"
    try "Heimdal: kinit by password" yes "" heimdal kinit.heimdal "--password-file=$work/password" user@EXAMPLE.COM
    try "Heimdal: kgetcred" yes "" heimdal kgetcred "host/$host@EXAMPLE.COM"

    echo "== the user's password"
    echo "another horse, another battery" >"$work/new_password"
    try "the user's next password" yes "" typed "$(cat "$work/new_password")" changed key "$work/accounts" user
    try "MIT: kinit, the old password" no "Password incorrect" typed "$password" mit kinit user
    try "Heimdal: kinit, the old password" no "Password incorrect" heimdal kinit.heimdal "--password-file=$work/password" user@EXAMPLE.COM
    try "MIT: kinit by password" yes "" typed "$(cat "$work/new_password")" mit kinit user
    try "Heimdal: kinit by password" yes "" heimdal kinit.heimdal "--password-file=$work/new_password" user@EXAMPLE.COM

    echo "== attributes"
    try "the user is switched off" yes "" changed attributes "$work/accounts" user +off
    try "MIT: kinit of who is switched off" no "revoked" typed "$(cat "$work/new_password")" mit kinit user
    try "Heimdal: kinit of who is switched off" no "revoked" heimdal kinit.heimdal "--password-file=$work/new_password" user@EXAMPLE.COM
    try "MIT: kvno, by the ticket-granting ticket of who is switched off" no "revoked" mit kvno "host/$host"
    try "Heimdal: kgetcred, by that of who is switched off" no "revoked" heimdal kgetcred "host/$host@EXAMPLE.COM"
    try "the user has ended" yes "" changed attributes "$work/accounts" user -off ends=20200101000000Z
    try "MIT: kinit of who has ended" no "expired" typed "$(cat "$work/new_password")" mit kinit user
    try "Heimdal: kinit of who has ended" no "expired" heimdal kinit.heimdal "--password-file=$work/new_password" user@EXAMPLE.COM
    try "the user doesn't end, and the service is none" yes "" no_service
    try "MIT: kvno, no service" no "policy" mit kvno "host/$host"
    try "Heimdal: kgetcred, no service" no "policy" heimdal kgetcred "host/$host@EXAMPLE.COM"
    try "the service is one again" yes "" changed attributes "$work/accounts" "host/$host" -no-service
    try "MIT: kvno, as before" yes "kvno = 2, keytab entry valid" mit kvno -k "$work/host.keytab" "host/$host"
    try "MIT: kinit by password, as before" yes "" typed "$(cat "$work/new_password")" mit kinit user
    try "Heimdal: kinit by password, as before" yes "" heimdal kinit.heimdal "--password-file=$work/new_password" user@EXAMPLE.COM

    echo "== guarded passwords"
    try "MIT: kvno, a ticket for the user" yes "kvno = 2" mit kvno user
    try "Heimdal: kgetcred, a ticket for the user" yes "" heimdal kgetcred user@EXAMPLE.COM
    try "the user's next password, where passwords are guarded" yes "" typed "$(cat "$work/new_password")" guarded_key
    try "MIT: kvno, the service" yes "kvno = 2, keytab entry valid" mit kvno -k "$work/host.keytab" "host/$host"
    try "MIT: kinit by a guarded password" yes "" typed "$(cat "$work/new_password")" mit kinit user
    try "Heimdal: kinit by a guarded password" yes "" heimdal kinit.heimdal "--password-file=$work/new_password" user@EXAMPLE.COM
    try "MIT: kvno, no ticket for the user" no "policy" mit kvno user
    # After error 12 it asks for a referral, and says that the name is none of a service.
    try "Heimdal: kgetcred, no ticket for the user" no "too short to do referals" heimdal kgetcred user@EXAMPLE.COM

    echo "== an account that is removed"
    try "the user's account" yes "" changed remove "$work/accounts" user
    try "MIT: kvno, by the ticket-granting ticket of who was removed" no "not found in Kerberos database" mit kvno "host/$host"
    try "Heimdal: kgetcred, by that of who was removed" no "unknown" heimdal kgetcred "host/$host@EXAMPLE.COM"
    try "MIT: kinit" no "not found in Kerberos database" typed "$password" mit kinit user
    try "Heimdal: kinit" no "unknown" heimdal kinit.heimdal "--password-file=$work/new_password" user@EXAMPLE.COM
}

no_service() {
    "$KRB_ACCOUNTS" attributes "$work/accounts" user ends=- && changed attributes "$work/accounts" "host/$host" +no-service
}

# The realm guards passwords from now on, and the user has the next one.
guarded_key() {
    sed -i "/^realm	/s/\$/	guards-passwords	-/" "$work/accounts" && changed key "$work/accounts" user
}

# keep CLIENTS NAME, take CLIENTS NAME: their tickets as they are now, for later, and back.
keep() {
    cp "$work/$1.tickets" "$work/$1.$2"
}

take() {
    cp "$work/$1.$2" "$work/$1.tickets"
}

# The messages of krb_kdcd's log came over this protocol, and there were some.
over_one_protocol() {
    grep -c "^127.0.0.1:[0-9]* $way " "$work/log" && ! grep "^127.0.0.1:[0-9]* " "$work/log" | grep -v "^127.0.0.1:[0-9]* $way "
}

# all_steps WAY
all_steps() {
    way=$1 suite=aes256-cts-hmac-sha1-96
    echo "==== $way"
    settle $suite $suite $suite
    serve
    configuration "127.0.0.1:$port" "" "$limit" >"$work/mit.conf"
    configuration "127.0.0.1:$port" "kdc_timesync = 0" "$limit" >"$work/mit_late.conf"
    # Heimdal asks over UDP first where it isn't told.
    configuration "$kdc" "kdc_timesync = false" >"$work/heimdal.conf"
    kdc_port=$port
    by_one_suite
    configuration "127.0.0.1:$kdc_port" "allow_weak_crypto = true
    allow_des3 = true" "$limit" >"$work/mit.conf"
    configuration "$kdc" "kdc_timesync = false
    allow_weak_crypto = true" >"$work/heimdal.conf"
    for suite in aes128-cts-hmac-sha1-96 aes256-cts-hmac-sha384-192 aes128-cts-hmac-sha256-128 des3-cbc-sha1-kd; do
        by_suites $suite $suite $suite
    done
    by_suites aes256-cts-hmac-sha1-96 aes128-cts-hmac-sha256-128 aes256-cts-hmac-sha384-192
    by_suites aes256-cts-hmac-sha384-192 aes128-cts-hmac-sha1-96 des3-cbc-sha1-kd
    by_suites aes128-cts-hmac-sha256-128 des3-cbc-sha1-kd aes256-cts-hmac-sha1-96
    if [ "$way" != socat ]; then
        suite=aes256-cts-hmac-sha1-96
        by_changed_keys
        try "all messages came over $way" yes "" over_one_protocol
    fi
    kill "$bridge"
    wait "$bridge"
    bridge=
}

[ $# -gt 0 ] || set -- socat tcp udp
for way in "$@"; do
    case $way in
        socat) ;;
        tcp | udp)
            . "$top/bench/programs.sh"
            program KRB_KDCD krb_kdcd
            program KRB_ACCOUNTS krb_accounts
            ;;
        *) echo "real_clients: $way: expected socat, tcp or udp" >&2 && exit 2 ;;
    esac
done
echo "$password" >"$work/password"
echo "wrong" >"$work/wrong"
for way in "$@"; do
    all_steps "$way"
done

echo "$passed right, $failed wrong"
[ "$failed" -eq 0 ]
