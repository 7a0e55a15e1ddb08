#!/bin/sh
# Forwardable, proxiable and renewable tickets, and renewals. MIT's and Heimdal's clients ask for them at krb_kdcd behind krb_listen, in a
# realm whose policy grants them. For comparison MIT's clients ask at krb5kdc too, and Heimdal's at Heimdal's kdc. krb_login asks at all
# three: it renews the tickets of MIT's kinit, which renews those of krb_login. klist says which flags and which renew-till the tickets
# have. What isn't renewable is refused, and so is a ticket whose renew-till is past. Prints what each gave; the status is 1 where one
# differs from what it should, and 2 where a tool is missing. All files are in a temporary folder, and what is started is ended.
#
# Usage: examples/renewals.sh [realm|mit|heimdal..]: at all three KDCs, or at those that are named. KRB_LOGIN, KRB_KDCD and KRB_ACCOUNTS may
# name programs that are built already. HEIMDAL is as in real_clients.sh. NO_LOGIN=1 leaves krb_login out.
set -u
script=renewals
top=$(cd "$(dirname "$0")/.." && pwd)
work=$(mktemp -d)
bridge=
trap 'kill $bridge 2>/dev/null; rm -rf "$work"' EXIT
trap 'exit 1' INT TERM
. "$top/examples/stock.sh"
. "$top/bench/programs.sh"
week=604800

[ $# -gt 0 ] || set -- realm mit heimdal
for kdc in "$@"; do
    case $kdc in
        realm) ;;
        mit)
            need krb5kdc krb5-kdc
            need kadmin.local krb5-admin-server
            ;;
        heimdal) ;;
        *) echo "renewals: $kdc: expected realm, mit or heimdal" >&2 && exit 2 ;;
    esac
done
need python3 python3
need kinit krb5-user
need kvno krb5-user
[ "$missing" -eq 0 ] || exit 2
[ -n "${NO_LOGIN:-}" ] || program KRB_LOGIN krb_login
case " $* " in
    *" realm "* | *" heimdal "*)
        fetch_heimdal kinit.heimdal heimdal-clients heimdal-kdc
        ;;
esac

heimdal() {
    KRB5_CONFIG=$work/heimdal.conf KRB5CCNAME=FILE:$work/heimdal.tickets TZ=UTC LD_LIBRARY_PATH=$libraries "$@"
}

# login ARGUMENT..: krb_login at the KDC, with the cache of MIT's clients.
login() {
    login_of "$work/mit.tickets" "$@"
}

# login_of CACHE ARGUMENT..: krb_login with this cache
login_of() {
    cache=$1
    shift
    "$top/bridges/krb_connect" "127.0.0.1:$port" -- "$KRB_LOGIN" -c "$cache" "$@"
}

# flags SERVICE: the flags of the cache's ticket for the service, by MIT's klist, and whether it is renewable.
flags() {
    mit klist -f | awk -v service="$1@EXAMPLE.COM" '
        index($0, service) == length($0) - length(service) + 1 && /^[0-9]/ { own = 1; next }
        own && match($0, /Flags: [A-Za-z]+/) { print substr($0, RSTART + 7, RLENGTH - 7) (/renew until/ ? " renewable" : ""); exit }
        /^[0-9]/ { own = 0 }'
}

# has SERVICE FLAGS: the ticket for the service has these flags, and no other.
has() {
    mit klist -f
    had=$(flags "$1")
    echo "flags of $1: $had"
    [ "$had" = "$2" ]
}

# The renew-till of the ticket-granting ticket, by klist.
renew_till() {
    mit klist | sed -n 's/.*renew until //p' | head -n 1
}

# The renewed ticket has the renew-till of the one before it, and another starttime.
renews() {
    before=$(renew_till) start=$(mit klist | sed -n '/krbtgt/s/^\([^ ]* [^ ]*\) .*/\1/p')
    sleep 1.1
    "$@" || return 1
    mit klist -f
    [ "$(renew_till)" = "$before" ] && [ "$(mit klist | sed -n '/krbtgt/s/^\([^ ]* [^ ]*\) .*/\1/p')" != "$start" ]
}

# Its renew-till passes, while a ticket that isn't renewed would still be taken.
outlived() {
    typed "$password" mit kinit -l 2s -r 4s user && sleep 5.5 && "$@"
}

# At a realm of this repository, its key changes: tickets from before stay good.
rotated() {
    [ "$kdc" != realm ] || try "the realm's next key" yes "" next_key
}

next_key() {
    "$KRB_ACCOUNTS" key -k random "$work/accounts" krbtgt/EXAMPLE.COM && "$KRB_ACCOUNTS" make "$work/accounts" "$work/accounts.cdb"
}

# mit_clients FLAGS SERVICE_FLAGS RENEWED: what MIT's clients get.
mit_clients() {
    try "kinit -f -p -r 7d" yes "" typed "$password" mit kinit -f -p -r 7d user
    try "its flags" yes "" has krbtgt/EXAMPLE.COM "$1 renewable"
    try "kvno" yes "kvno = " mit kvno "host/$host"
    try "the flags of the ticket for the service" yes "" has "host/$host" "$2"
    rotated
    try "kinit -R: a later start, and the same renew-till" yes "" renews mit kinit -R
    try "the flags of the renewed ticket" yes "" has krbtgt/EXAMPLE.COM "$3 renewable"
    try "kinit -R once more" yes "" renews mit kinit -R
    try "kvno by the renewed ticket" yes "kvno = " mit kvno "host/$host"
    try "kinit -f, and by renewable-ok up to a day" yes "" typed "$password" mit kinit -f user
    try "its flags" yes "" has krbtgt/EXAMPLE.COM "FRIA renewable"
    try "kinit -f, for five hours" yes "" typed "$password" mit kinit -f -l 5h user
    try "its flags" yes "" has krbtgt/EXAMPLE.COM FIA
    try "kinit -R of a ticket that isn't renewable" no "KDC can't fulfill requested option" mit kinit -R
    try "kinit without options, for five hours" yes "" typed "$password" mit kinit -F -P -l 5h user
    try "its flags" yes "" has krbtgt/EXAMPLE.COM IA
    try "kinit -R after the renew-till" no "expired" outlived mit kinit -R
}

# heimdal_clients: what Heimdal's clients get.
heimdal_clients() {
    try "Heimdal: kinit, forwardable, proxiable and renewable" yes "" \
        heimdal kinit.heimdal "--password-file=$work/password" --forwardable --proxiable --renewable-life=7d user@EXAMPLE.COM
    try "its flags" yes "flags: .*initial, renewable, proxiable, forwardable" heimdal heimtools klist -v
    rotated
    try "Heimdal: kinit --renew" yes "" heimdal kinit.heimdal --renew
    try "its flags" yes "flags: .*pre-authent, renewable, proxiable, forwardable" heimdal heimtools klist -v
    try "Heimdal: kgetcred by the renewed ticket" yes "" heimdal kgetcred "host/$host@EXAMPLE.COM"
}

# logins FLAGS RENEWED: what krb_login gets. Heimdal's kdc refuses a renewal after the renew-till by an error of its own.
logins() {
    [ -z "${NO_LOGIN:-}" ] || return
    past="KRB_AP_ERR_TKT_EXPIRED (32); log in anew"
    [ "$kdc" != heimdal ] || past="KDC_ERR_NEVER_VALID (11)"
    rm -f "$work/mit.tickets"
    try "krb_login -f -P -L" yes "" login -p "$work/password" -f -P -L $week -s "host/$host" user@EXAMPLE.COM
    try "its flags" yes "" has krbtgt/EXAMPLE.COM "$1 renewable"
    rotated
    try "krb_login -R: a later start, and the same renew-till" yes "" renews login -R
    try "the flags of the renewed ticket" yes "" has krbtgt/EXAMPLE.COM "$2 renewable"
    try "krb_login -R, with a ticket for the service" yes "" renews login -R -s "host/$host"
    try "MIT's kinit -R of krb_login's ticket" yes "" renews mit kinit -R
    try "krb_login -R of that ticket" yes "" renews login -R
    try "kvno by the renewed ticket" yes "kvno = " mit kvno "host/$host"
    try "krb_login without options" yes "" login -p "$work/password" user@EXAMPLE.COM
    try "its flags" yes "" has krbtgt/EXAMPLE.COM IA
    try "krb_login -R of a ticket that isn't renewable" no "KDC_ERR_BADOPTION (13); -L SECONDS" login -R
    try "its flags stay" yes "" has krbtgt/EXAMPLE.COM IA
    try "kinit -f -r 7d" yes "" typed "$password" mit kinit -f -r 7d user
    try "krb_login -R of that ticket" yes "" renews login -R
    try "krb_login -R after the renew-till" no "$past" outlived login -R
    try "krb_login -R with a password" no "expected no USER, MEANS, -f, -P or -L" login -R -p "$work/password"
    try "krb_login -R without a cache" no "nothing can't be read" login_of "$work/nothing" -R
    try "krb_login -R of a file that is no cache" no "password: the credential cache has version" login_of "$work/password" -R
    printf '\005\004\000\000\000\000\000\001\000\000\000\001\000\000\000\013EXAMPLE.COM\000\000\000\004user' >"$work/empty"
    try "krb_login -R of a cache without a ticket" no "expected a user with a ticket-granting ticket" login_of "$work/empty" -R
}

realm_rows() {
    program KRB_KDCD krb_kdcd
    program KRB_ACCOUNTS krb_accounts
    words="limits-des3,forwardable,proxiable,renewable=$week"
    sed "s/^realm\t.*/realm\tEXAMPLE.COM\t300\t36000\t$words\t-/" "$top/examples/accounts" >"$work/accounts"
    chmod 600 "$work/accounts"
    if ! "$KRB_ACCOUNTS" make "$work/accounts" "$work/accounts.cdb" 2>"$work/warnings"; then
        cat "$work/warnings" >&2
        exit 2
    fi
    listen "$top/bridges/krb_listen" --listen 127.0.0.1:PORT --workers 2 -- "$KRB_KDCD" "$work/accounts.cdb" /dev/urandom --log
    bridge=$started
    configuration "127.0.0.1:$port" "" >"$work/mit.conf"
    configuration "tcp/127.0.0.1:$port" "" >"$work/heimdal.conf"
    # krb5kdc leaves a renewed ticket the flag initial, and sets transited-policy-checked in each ticket of a TGS exchange (T).
    mit_clients FPRIA "FPRA renewable" FPRA
    heimdal_clients
    logins FPRIA FPRA
}

mit_rows() {
    start_mit "max_life = 10h
        max_renewable_life = 7d"
    mit kadmin.local -q "addprinc -randkey host/$host" >>"$work/log" 2>&1
    mit kadmin.local -q "addprinc +requires_preauth -pw \"$password\" user" >>"$work/log" 2>&1
    mit kadmin.local -q "modprinc -maxrenewlife 7d krbtgt/EXAMPLE.COM" >>"$work/log" 2>&1
    mit_clients FPRIA "FPRAT renewable" FPRIAT
    logins FPRIA FPRIAT
}

heimdal_rows() {
    start_heimdal
    kadmin_heimdal add --random-key --use-defaults "host/$host" >>"$work/log" 2>&1
    kadmin_heimdal add "--password=$password" --attributes=requires-pre-auth --use-defaults user >>"$work/log" 2>&1
    heimdal_clients
    logins FPRIA FPRAT
}

echo "$password" >"$work/password"
for kdc in "$@"; do
    echo "==== $kdc"
    "${kdc}_rows"
    kill "$bridge"
    wait "$bridge"
    bridge=
done

echo "$passed right, $failed wrong"
[ "$failed" -eq 0 ]
