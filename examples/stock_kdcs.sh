#!/bin/sh
# krb_login logs in at MIT's krb5kdc and at Heimdal's kdc on 127.0.0.1, with databases that are made anew: by password and by keytab, with
# a key of each suite, with a salt of the KDC's own, and without preauthentication. Triple DES and such a salt need an option. MIT's klist, kvno
# and gss-client use its caches, and Heimdal's klist and kgetcred. It is refused with a wrong or an expired password, an unknown name, and a
# clock that is 10 minutes off.
# krb_keytab lists and copies keytabs of both. Prints what each gave; the status is 1 where one differs from what it should, and 2
# where a tool is missing. All files are in a temporary folder, and what is started is ended.
#
# Usage: examples/stock_kdcs.sh [mit|heimdal..]: at both KDCs, or at those that are named. KRB_LOGIN and KRB_KEYTAB may name programs that
# are built already. HEIMDAL is as in real_clients.sh.
#        examples/stock_kdcs.sh record: makes the files of the run of crates/krb_login anew, by a login at MIT's krb5kdc
set -u
script=stock_kdcs
top=$(cd "$(dirname "$0")/.." && pwd)
work=$(mktemp -d)
bridge= server=
trap 'kill $bridge $server 2>/dev/null; rm -rf "$work"' EXIT
trap 'exit 1' INT TERM
. "$top/examples/stock.sh"
. "$top/bench/programs.sh"
suite=aes256-cts-hmac-sha1-96
weak_suite=des3-cbc-sha1-kd

need python3 python3
need krb5kdc krb5-kdc
need kadmin.local krb5-admin-server
need kvno krb5-user
need gss-client krb5-gss-samples
[ "$missing" -eq 0 ] || exit 2
program KRB_LOGIN krb_login
if [ "$*" != record ]; then
    fetch_heimdal kinit.heimdal heimdal-clients heimdal-kdc
    heimdal_kdc=$(ls "$heimdal_folder/usr/lib/heimdal-servers/kdc" /usr/lib/heimdal-servers/kdc 2>/dev/null | head -n 1)
    program KRB_KEYTAB krb_keytab
fi

heimdal() {
    KRB5_CONFIG=$work/heimdal.conf TZ=UTC LD_LIBRARY_PATH=$libraries "$@"
}

# login ARGUMENT..: krb_login at the KDC, with the cache. Both KDCs close a connection after each reply.
login() {
    "$top/bridges/krb_connect" "127.0.0.1:$port" -- "$KRB_LOGIN" -c "$work/cache" "$@"
}

late() {
    login -t "$(later 10)" "$@"
}

by_descriptor() {
    login -p /dev/fd/3 user@EXAMPLE.COM 3<"$work/password"
}

# The cache and the realm are those of the environment.
by_environment() {
    rm -f "$work/cache"
    KRB5_CONFIG=$work/mit.conf KRB5CCNAME=FILE:$work/cache "$top/bridges/krb_connect" "127.0.0.1:$port" -- "$KRB_LOGIN" -p "$work/password" user &&
        by_cache klist
}

by_cache() {
    KRB5_CONFIG=$work/mit.conf KRB5CCNAME=FILE:$work/cache TZ=UTC "$@"
}

gss() {
    gss_port=$port
    listen gss-server -port PORT -once -keytab "$work/host.keytab" "host@$host"
    server=$started
    by_cache gss-client -port "$port" localhost "host@$host" "a message"
    status=$?
    port=$gss_port
    kill "$server" 2>/dev/null
    server=
    return "$status"
}

# What is refused leaves the cache as it was.
is_kept() {
    cp "$work/cache" "$work/cache.before"
    ! login -p "$work/wrong" user@EXAMPLE.COM && cmp "$work/cache" "$work/cache.before" && [ -z "$(find "$work" -maxdepth 1 -name '.cache.*.new')" ]
}

expired() {
    login -p "$work/password" -l 2 user@EXAMPLE.COM && sleep 3 && ! by_cache klist -s && ! by_cache kvno "host/$host"
}

# same_rows KEYTAB: krb_keytab prints the rows of klist, and the times.
same_rows() {
    mit klist -k -e "$1" | sed -n '4,$ { s/DEPRECATED://; s/des3-cbc-sha1)/des3-cbc-sha1-kd)/; s/ *$//; p }' >"$work/rows"
    "$KRB_KEYTAB" list "$1" | tee "$work/listed" && [ -s "$work/rows" ] &&
        sed 's/^\( *[0-9]*\) [0-9-]* [0-9:]*Z /\1 /' "$work/listed" | diff - "$work/rows"
}

copies() {
    rm -f "$work/copy"
    "$KRB_KEYTAB" copy "$work/user.keytab" "$work/copy" --etype "$suite" user@EXAMPLE.COM &&
        mit klist -k -e "$work/copy" && [ "$(stat -c %a "$work/copy")" = 600 ] && login -k "$work/copy" user@EXAMPLE.COM &&
        ! "$KRB_KEYTAB" copy "$work/user.keytab" "$work/copy"
}

mit_add() {
    mit kadmin.local -q "addprinc +requires_preauth -e $2:normal -pw \"$password\" $1"
}

mit_keytab() {
    mit kadmin.local -q "ktadd -norandkey -k $1 $2"
}

mit_rows() {
    start_mit
    mit kadmin.local -q "addprinc -randkey host/$host" >>"$work/log" 2>&1
    mit kadmin.local -q "addprinc +requires_preauth -pw \"$password\" user" >>"$work/log" 2>&1
    mit kadmin.local -q "addprinc -pw \"$password\" open" >>"$work/log" 2>&1
    mit kadmin.local -q "addprinc +requires_preauth -pw \"$password\" -pwexpire yesterday expired" >>"$work/log" 2>&1
    mit kadmin.local -q "addprinc +requires_preauth -e $suite:special -pw \"$password\" salted" >>"$work/log" 2>&1
    mit_keytab "$work/host.keytab" "host/$host" >>"$work/log" 2>&1
    mit_keytab "$work/user.keytab" user >>"$work/log" 2>&1
    mit kadmin.local -q "cpw -pw \"$password\" -keepold user" >>"$work/log" 2>&1
    mit_keytab "$work/user.keytab" user >>"$work/log" 2>&1
    each_suite mit aes256-cts-hmac-sha1-96 aes128-cts-hmac-sha1-96 aes256-cts-hmac-sha384-192 aes128-cts-hmac-sha256-128
    try "triple DES: MIT's KDC makes no session key of it" yes "" mit_add triple des3-cbc-sha1
    try "so the login is refused" no "KDC_ERR_ETYPE_NOSUPP (14)" login -p "$work/password" -e $weak_suite triple@EXAMPLE.COM
    try "triple DES, not asked for" no "doesn't say how the key is made; -e SUITE asks for others" login -p "$work/password" triple@EXAMPLE.COM
    try "by password, with a salt of the KDC's" no "a salt that isn't the default one" login -p "$work/password" salted@EXAMPLE.COM
    try "the same, in a suite that is asked for" yes "the KDC names $suite with the salt " login -v -p "$work/password" -e $suite salted@EXAMPLE.COM
    all_rows
}

# The run of crates/krb_login: arguments, password, random octets, requests and replies.
record() {
    crate=$top/crates/krb_login
    start_mit
    mit kadmin.local -q "addprinc -randkey host/$host" >>"$work/log" 2>&1
    mit kadmin.local -q "addprinc +requires_preauth -pw \"$password\" user" >>"$work/log" 2>&1
    mkdir -p "$crate/data"
    cp "$work/password" "$crate/data/password"
    head -c 288 /dev/urandom >"$crate/data/words"
    printf '%s\n' -c cache -p password -r words -t "$(later 0)" -s "host/$host" user@EXAMPLE.COM >"$crate/args"
    cat >"$work/recorder" <<RECORDER
#!/bin/bash
cp $crate/data/* $work && cd $work
exec xargs -a $crate/args $KRB_LOGIN < <(tee $crate/stdin) > >(tee $crate/stdout)
RECORDER
    chmod +x "$work/recorder"
    "$top/bridges/krb_connect" "127.0.0.1:$port" -- "$work/recorder" && by_cache klist -e -f
}

start_heimdal() {
    cat >"$work/heimdal.in" <<CONF
[kdc]
    database = {
        dbname = $work/heimdal_db
        realm = EXAMPLE.COM
        mkey_file = $work/mkey
        log_file = $work/heimdal_changes
        acl_file = $work/acl
    }
    enable-pkinit = no
    require-preauth = no
[logging]
    default = FILE:$work/heimdal.log
CONF
    configuration 127.0.0.1:PORT "allow_weak_crypto = true" >>"$work/heimdal.in"
    cp "$work/heimdal.in" "$work/heimdal.conf"
    kadmin_heimdal init --realm-max-ticket-life=unlimited --realm-max-renewable-life=unlimited EXAMPLE.COM >"$work/log" 2>&1
    cat >"$work/start" <<START
#!/bin/sh
sed "s/PORT/\$1/" $work/heimdal.in >$work/heimdal.conf
cp $work/heimdal.conf $work/mit.conf
LD_LIBRARY_PATH=$libraries exec $heimdal_kdc --config-file=$work/heimdal.conf --ports=\$1/tcp --addresses=127.0.0.1
START
    chmod +x "$work/start"
    listen "$work/start" PORT
    bridge=$started
}

kadmin_heimdal() {
    heimdal kadmin.heimdal -l "--config-file=$work/heimdal.conf" "$@"
}

heimdal_add() {
    printf '[kadmin]\n    default_keys = %s:pw-salt\n' "$2" >"$work/keys"
    cat "$work/heimdal.conf" "$work/keys" >"$work/with_keys"
    heimdal kadmin.heimdal -l "--config-file=$work/with_keys" add "--password=$password" --attributes=requires-pre-auth --use-defaults "$1"
}

heimdal_keytab() {
    kadmin_heimdal ext_keytab "--keytab=$1" "$2"
}

heimdal_rows() {
    start_heimdal
    heimdal_add "host/$host" $suite >>"$work/log" 2>&1
    heimdal_add user $suite >>"$work/log" 2>&1
    kadmin_heimdal add "--password=$password" --use-defaults open >>"$work/log" 2>&1
    heimdal_add expired $suite >>"$work/log" 2>&1
    kadmin_heimdal modify --pw-expiration-time=2020-01-01 expired >>"$work/log" 2>&1
    heimdal_keytab "$work/host.keytab" "host/$host" >>"$work/log" 2>&1
    heimdal_keytab "$work/user.keytab" user >>"$work/log" 2>&1
    each_suite heimdal aes256-cts-hmac-sha1-96 aes128-cts-hmac-sha1-96 aes256-cts-hmac-sha384-192 aes128-cts-hmac-sha256-128 des3-cbc-sha1
    all_rows
    try "triple DES, by a keytab, not asked for" no "is of a suite that is asked for" login -k "$work/own.keytab" "$own@EXAMPLE.COM"
    try "triple DES, by password, not asked for" no "-e SUITE asks for others" login -p "$work/password" "$own@EXAMPLE.COM"
    try "Heimdal's klist" yes "krbtgt/EXAMPLE.COM@EXAMPLE.COM" heimdal heimtools klist -v -c "FILE:$work/cache"
    try "Heimdal's kgetcred" yes "" heimdal kgetcred --cache="FILE:$work/cache" "host/$host@EXAMPLE.COM"
}

# each_suite KDC SUITE..
each_suite() {
    kdc=$1
    shift
    for etype in "$@"; do
        own=of-$etype asked=
        case $kdc-$etype in
            *-des3-cbc-sha1) asked="-e $weak_suite -e $suite" ;;
            # Heimdal's salts of these are random.
            heimdal-*-sha384-192 | heimdal-*-sha256-128) asked="-e $etype -e $suite" ;;
        esac
        rm -f "$work/cache" "$work/own.keytab"
        try "$etype: a user with this key" yes "" "${kdc}_add" "$own" "$etype"
        try "$etype: its keytab" yes "" "${kdc}_keytab" "$work/own.keytab" "$own"
        # shellcheck disable=SC2086
        try "$etype: by password" yes "" login $asked -p "$work/password" "$own@EXAMPLE.COM"
        try "$etype: klist" yes "krbtgt/EXAMPLE.COM@EXAMPLE.COM" by_cache klist -e -f
        try "$etype: kvno" yes "kvno = " by_cache kvno "host/$host"
        # shellcheck disable=SC2086
        try "$etype: by keytab, with a ticket for the service" yes "" login $asked -k "$work/own.keytab" -s "host/$host" "$own@EXAMPLE.COM"
        try "$etype: klist" yes "host/$host@EXAMPLE.COM" by_cache klist -e -f
        try "$etype: gss-client" yes "Signature verified" gss
    done
}

all_rows() {
    try "by the password of a file descriptor" yes "" by_descriptor
    try "the cache and the realm of the environment" yes "Default principal: user@EXAMPLE.COM" by_environment
    try "what it asks and what the KDC answers" yes "AS-REQ without padata for \"user@EXAMPLE.COM\", etypes .*: KDC_ERR_PREAUTH_REQUIRED (25)" \
        login -v -p "$work/password" user@EXAMPLE.COM
    try "a realm in lower case" no "hint: realms are mostly written in upper case" login -p "$work/password" user@example.com
    try "by password, without preauthentication" yes "" login -p "$work/password" open@EXAMPLE.COM
    try "without preauthentication, wrong password" no "isn't sealed" login -p "$work/wrong" open@EXAMPLE.COM
    try "wrong password" no "KDC_ERR_PREAUTH_FAILED (24)" login -p "$work/wrong" user@EXAMPLE.COM
    try "unknown client" no "KDC_ERR_C_PRINCIPAL_UNKNOWN (6)" login -p "$work/password" nobody@EXAMPLE.COM
    try "unknown service" no "KDC_ERR_S_PRINCIPAL_UNKNOWN (7)" login -p "$work/password" -s HTTP/nobody.example.com user@EXAMPLE.COM
    try "expired password" no "KDC_ERR_KEY_EXPIRED (23)" login -p "$work/password" expired@EXAMPLE.COM
    try "clock 10 minutes off" no "KRB_AP_ERR_SKEW (37)" late -p "$work/password" user@EXAMPLE.COM
    try "a keytab without the client" no "expected a key of user@EXAMPLE.COM" login -k "$work/host.keytab" user@EXAMPLE.COM
    try "two services" yes "" login -p "$work/password" -s "host/$host" -s "host/$host@EXAMPLE.COM" user@EXAMPLE.COM
    try "a refused login leaves the cache" yes "" is_kept
    try "an expired ticket" yes "" expired
    try "krb_keytab list: the rows of klist, user" yes "" same_rows "$work/user.keytab"
    try "krb_keytab list: the rows of klist, service" yes "" same_rows "$work/host.keytab"
    try "krb_keytab copy, and a login by the copy" yes "user@EXAMPLE.COM ($suite)" copies
    try "by keytab, with a ticket for the service" yes "" login -k "$work/user.keytab" -s "host/$host" user@EXAMPLE.COM
}

echo "$password" >"$work/password"
echo "wrong" >"$work/wrong"
if [ "$*" = record ]; then
    record
    exit
fi
[ $# -gt 0 ] || set -- mit heimdal
for kdc in "$@"; do
    case $kdc in
        mit | heimdal) ;;
        *) echo "stock_kdcs: $kdc: expected mit or heimdal" >&2 && exit 2 ;;
    esac
    echo "==== $kdc"
    rm -f "$work"/*.keytab
    "${kdc}_rows"
    kill "$bridge"
    wait "$bridge"
    bridge=
done

echo "$passed right, $failed wrong"
[ "$failed" -eq 0 ]
