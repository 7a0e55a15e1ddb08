#!/bin/sh
# A realm moves from MIT's krb5kdc to krb_kdcd: its keys go into a keytab, which mit_accounts makes a text of, and krb_accounts a database.
# Then kinit logs in with the old passwords, and services open their tickets by their old keytabs. Prints what each gave; the status is 1
# where one differs from what it should, and 2 where a tool is missing. All files are in a temporary folder, and what is started is ended.
#
# Usage: examples/move_realm.sh. KRB_KDCD and KRB_ACCOUNTS may name programs that are built already.
set -u
script=move_realm
top=$(cd "$(dirname "$0")/.." && pwd)
work=$(mktemp -d)
bridge=
trap 'kill $bridge 2>/dev/null; wait; rm -rf "$work"' EXIT
trap 'exit 1' INT TERM
. "$top/examples/stock.sh"
. "$top/bench/programs.sh"
umask 077

need python3 python3
need krb5kdc krb5-kdc
need kadmin.local krb5-admin-server
need kvno krb5-user
need openssl openssl
[ "$missing" -eq 0 ] || exit 2
program KRB_KDCD krb_kdcd
program KRB_ACCOUNTS krb_accounts

admin() {
    mit kadmin.local -q "$1"
}

# MIT's realm: users of one and of two kvnos, names that sort by components, services of two suites, and one whose keytab is older.
mit_realm() {
    start_mit
    admin "addprinc -pw \"$password\" user"
    admin "addprinc -pw old changed"
    admin "cpw -keepold -pw \"$password\" changed"
    admin "addprinc -pw \"$password\" user-b"
    admin "addprinc -pw \"$password\" user/admin"
    admin "addprinc -pw \"$password\" -e aes128-cts-hmac-sha1-96:normal small"
    admin "addprinc -pw \"$password\" -e aes256-cts-hmac-sha384-192:normal new"
    admin "addprinc -randkey host/$host"
    admin "addprinc -randkey HTTP/$host"
    admin "ktadd -norandkey -k $work/old.keytab HTTP/$host"
    admin "cpw -keepold -randkey HTTP/$host"
    admin "ktadd -norandkey -k $work/host.keytab host/$host"
    admin "ktadd -norandkey -k $work/http.keytab HTTP/$host"
    admin "addprinc -pw \"$password\" locked"
    admin "modprinc -allow_tix locked"
    admin "addprinc -pw \"$password\" expired"
    admin "modprinc -expire 2020-01-01 expired"
    admin "ktadd -norandkey -k $work/all.keytab -glob *"
    mit kdb5_util dump "$work/all.dump"
}

moved() {
    "$top/examples/mit_accounts" "$work/all.keytab" "$work/all.dump" EXAMPLE.COM "$work/accounts"
}

log_in() {
    typed "$password" mit kinit "$1"
}

# A service opens a new ticket by this keytab.
opened_by() {
    mit kdestroy && log_in user && mit kvno -k "$1" "$2"
}

mit_realm >>"$work/log" 2>&1
kill "$bridge" 2>/dev/null
bridge=
try "a text of MIT's keys" yes "locked is locked .*disabled" moved
try "not over a text that is there" no "is there already" moved
try "the text" yes "changed.*[[:space:]]2[[:space:]]key" "$KRB_ACCOUNTS" list "$work/accounts"
try "the database" yes "" "$KRB_ACCOUNTS" make "$work/accounts" "$work/accounts.cdb"
listen "$top/bridges/krb_listen" --listen 127.0.0.1:PORT --workers 2 -- "$KRB_KDCD" "$work/accounts.cdb" /dev/urandom --log
bridge=$started
configuration "127.0.0.1:$port" "" >"$work/mit.conf"

for user in user changed user-b user/admin small new; do
    try "kinit of $user" yes "" log_in "$user"
done
for user in locked expired; do
    try "not $user" no "" log_in "$user"
done
try "not with an older password" no "" typed old mit kinit changed
try "a ticket opens by the old keytab" yes "keytab entry valid" opened_by "$work/host.keytab" "host/$host"
try "with the kvno that MIT's realm had" yes "kvno = 2, keytab entry valid" opened_by "$work/http.keytab" "HTTP/$host"
try "not by a keytab of an older kvno" no "" opened_by "$work/old.keytab" "HTTP/$host"

echo "$passed right, $failed wrong"
[ "$failed" -eq 0 ]
