#!/bin/sh
# A user logs in to a web server: krb_kdcd behind krb_listen is the realm, krb_login gets the tickets, and Apache with mod_auth_gssapi has a
# keytab that krb_accounts and krb_keytab wrote. With the credential cache of krb_login `curl --negotiate` gets 200, and without it 401.
# Then the web server's key is changed: tickets under the old key are good as long as the keytab has it. Prints what each gave; the
# status is 1 where one differs from what it should, and 2 where a tool is missing. All files are in a temporary folder, and what is
# started is ended.
#
# Usage: examples/web_login.sh. KRB_KDCD, KRB_ACCOUNTS, KRB_LOGIN and KRB_KEYTAB may name programs that are built already.
set -u
script=web_login
top=$(cd "$(dirname "$0")/.." && pwd)
work=$(mktemp -d)
bridge= web=
trap 'kill $web $bridge 2>/dev/null; wait; rm -rf "$work"' EXIT
trap 'exit 1' INT TERM
. "$top/examples/stock.sh"
. "$top/bench/programs.sh"
. "$top/examples/stock_web.sh"
service=HTTP/$host

need_web
need klist krb5-user
need python3 python3
need openssl openssl
if ! curl --version 2>/dev/null | grep -q GSS-API; then
    echo "$script: this curl has no GSS-API" >&2
    missing=1
fi
[ "$missing" -eq 0 ] || exit 2
program KRB_KDCD krb_kdcd
program KRB_ACCOUNTS krb_accounts
program KRB_LOGIN krb_login
program KRB_KEYTAB krb_keytab

# The accounts of a user and of the web server, with keys made anew.
make_accounts() {
    openssl rand -hex 32 | "$KRB_ACCOUNTS" create "$work/accounts" EXAMPLE.COM &&
        printf %s "$password" | "$KRB_ACCOUNTS" add "$work/accounts" user &&
        openssl rand -hex 32 | "$KRB_ACCOUNTS" add -k "$work/accounts" "$service" &&
        openssl rand -hex 32 | "$KRB_ACCOUNTS" add -k "$work/accounts" "host/$host" && publish
}

publish() {
    "$KRB_ACCOUNTS" make "$work/accounts" "$work/accounts.cdb"
}

next_key() {
    openssl rand -hex 32 | "$KRB_ACCOUNTS" key -k "$work/accounts" "$service"
}

keytab() {
    "$KRB_ACCOUNTS" keytab "$work/accounts" "$work/all.keytab" "$service" "host/$host"
}

# web_keytab OPTION..: the web server gets the chosen keys of its own name alone, in place of those that it had.
web_keytab() {
    rm -f "$work/web.copy"
    "$KRB_KEYTAB" copy "$work/all.keytab" "$work/web.copy" "$@" "$service" && "$KRB_KEYTAB" list "$work/web.copy" &&
        chown "$web_user" "$work/web.copy" && mv "$work/web.copy" "$work/web.keytab"
}

# login CACHE OPTION..
login() {
    cache=$1
    shift
    "$top/bridges/krb_connect" "127.0.0.1:$kdc_port" -- "$KRB_LOGIN" -c "$work/$cache" -p "$work/password" "$@" user@EXAMPLE.COM
}

by_cache() {
    cache=$1
    shift
    KRB5_CONFIG=$work/krb5.conf KRB5CCNAME=FILE:$work/$cache TZ=UTC "$@"
}

# get CACHE OPTION..: the page, by the tickets of the cache. It says the status of HTTP, and whom the server took for the user.
get() {
    cache=$1
    shift
    by_cache "$cache" curl -s -o "$work/page" -D "$work/head" "$@" --resolve "$host:$web_port:127.0.0.1" "http://$host:$web_port/" || return 1
    head -n 1 "$work/head"
    grep -i '^WWW-Authenticate' "$work/head" | cut -c 1-40
    tail -n 1 "$work/requests"
    cat "$work/page"
    head -n 1 "$work/head" | grep -q " 200 "
}

echo "$password" >"$work/password"
try "the realm's accounts" yes "" make_accounts
try "a keytab of all services, by krb_accounts" yes "" keytab
try "the web server's own, by krb_keytab" yes "   1 .* $service@EXAMPLE.COM" web_keytab
listen "$top/bridges/krb_listen" --listen 127.0.0.1:PORT --workers 2 -- "$KRB_KDCD" "$work/accounts.cdb" /dev/urandom --log
bridge=$started kdc_port=$port
configuration "127.0.0.1:$kdc_port" "" >"$work/krb5.conf"
start_web "$work/krb5.conf"

try "without tickets" no " 401 " get none
try "the server asks for them" no "WWW-Authenticate: Negotiate" get none
try "without tickets, by curl --negotiate" no " 401 " get none --negotiate -u :
try "krb_login, with a ticket for the web server" yes "" login old -s "$service"
try "klist" yes "$service@EXAMPLE.COM" by_cache old klist -e
try "by curl --negotiate" yes " 200 " get old --negotiate -u :
try "the server knows the user" yes "user@EXAMPLE.COM 200" get old --negotiate -u :
try "without curl's option" no " 401 " get old
try "krb_login, without a ticket for the web server, which curl then gets of the realm" yes "" login granting
try "by curl --negotiate" yes "user@EXAMPLE.COM 200" get granting --negotiate -u :
try "krb_login, with a ticket for another service" yes "" login other -s "host/$host"
try "by curl --negotiate, which gets that ticket" yes "user@EXAMPLE.COM 200" get other --negotiate -u :

echo "== the web server's key"
try "its next key" yes "" next_key
try "the keytab has both" yes "" keytab
try "the web server's own has both" yes "   2 .* $service@EXAMPLE.COM" web_keytab
try "the realm has the next one" yes "" publish
try "by the ticket under the old key" yes "user@EXAMPLE.COM 200" get old --negotiate -u :
try "krb_login, with a ticket under the new key" yes "" login new -s "$service"
try "by the ticket under the new key" yes "user@EXAMPLE.COM 200" get new --negotiate -u :
try "the old key goes" yes "   2 .* $service@EXAMPLE.COM" web_keytab --kvno 2
try "by the ticket under the old key" no " 401 " get old --negotiate -u :
try "by the ticket under the new key" yes "user@EXAMPLE.COM 200" get new --negotiate -u :
try "the old key alone" yes "   1 .* $service@EXAMPLE.COM" web_keytab --kvno 1
try "by the ticket under the new key" no " 401 " get new --negotiate -u :
try "by the ticket under the old key" yes "user@EXAMPLE.COM 200" get old --negotiate -u :

echo "$passed right, $failed wrong"
[ "$failed" -eq 0 ]
