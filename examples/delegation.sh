#!/bin/sh
# Logins are delegated to stock services: delegation.sh [realm|mit|heimdal ..], at krb_kdcd, at MIT's krb5kdc and at Heimdal's kdc, or at
# those that are named. OpenSSH forwards a user's ticket to sshd, and curl to Apache with mod_auth_gssapi. There klist shows the ticket's
# flags, and kvno gets a ticket for a service by it. From sshd it is forwarded once more, and renewed there. The tickets are those of
# kinit of MIT and Heimdal, and of krb_login. Without the option, with a ticket that isn't forwardable, or in a realm whose policy grants
# none, a user is logged in and nothing is delegated. Prints what each step gave; the status is 1 where one differs from what it should,
# and 2 where a program is missing.
#
# It runs as root, in namespaces of its own: with a copy of /etc, a network of its own, and folders of the services that are empty. So
# nothing of this machine changes. KRB_KDCD, KRB_ACCOUNTS and KRB_LOGIN may name programs that are built already. HEIMDAL is as in
# real_clients.sh. NO_LOGIN=1 leaves krb_login out.
set -u
script=delegation
top=$(cd "$(dirname "$0")/.." && pwd)
[ "$(id -u)" -eq 0 ] || { echo "$script: expected root, for namespaces of its own" >&2; exit 2; }
. "$top/examples/stock.sh"
. "$top/bench/programs.sh"
PATH=$PATH:/usr/sbin:/sbin
[ $# -gt 0 ] || set -- realm mit heimdal
if [ -z "${DELEGATION_ROOM:-}" ]; then
    for kdc in "$@"; do
        case $kdc in
        realm) program KRB_KDCD krb_kdcd; program KRB_ACCOUNTS krb_accounts ;;
        mit) need krb5kdc krb5-kdc; need kadmin.local krb5-admin-server ;;
        heimdal) ;;
        *) echo "$script: $kdc: expected realm, mit or heimdal" >&2 && exit 2 ;;
        esac
    done
    need kinit krb5-user
    need sshd openssh-server
    need ssh openssh-client
    need apache2 "apache2, libapache2-mod-auth-gssapi"
    need curl curl
    need gss-server krb5-gss-samples
    need openssl openssl
    [ "$missing" -eq 0 ] || exit 2
    [ -n "${NO_LOGIN:-}" ] || program KRB_LOGIN krb_login
    DELEGATION_ROOM=$(mktemp -d) work=$DELEGATION_ROOM
    trap 'rm -rf "$DELEGATION_ROOM"' EXIT
    # The network of the namespace reaches no archive.
    fetch_heimdal kinit.heimdal heimdal-clients heimdal-kdc
    HEIMDAL=$heimdal_folder
    export DELEGATION_ROOM HEIMDAL
    unshare --mount --net --uts --ipc --pid --fork --mount-proc --propagation private "$0" "$@"
    exit
fi
work=$DELEGATION_ROOM HOME=$DELEGATION_ROOM KRB5CCNAME=FILE:$DELEGATION_ROOM/mit.tickets
export HOME KRB5CCNAME
unset KRB5_CONFIG
fetch_heimdal kinit.heimdal heimdal-clients heimdal-kdc
week=604800

# empty FOLDER..: hides what a folder has.
empty() {
    for folder in "$@"; do
        mkdir -p "$folder"
        mount -t tmpfs tmpfs "$folder"
    done
}

# A machine server.example.com with a user alice, who has no password of the system.
make_machine() {
    chmod 755 "$work"
    cp -a /etc "$work/etc"
    mount --bind "$work/etc" /etc
    empty /run /home /var/mail /var/tmp /var/log/apache2
    mkdir -p /run/lock /run/sshd /run/apache2 "$work/web" "$work/delegated"
    ip link set lo up
    hostname "$host"
    printf '127.0.0.1 localhost\n127.0.1.1 %s server\n' "$host" >/etc/hosts
    useradd --create-home --shell /bin/sh alice 2>/dev/null
}

configure_services() {
    printf '%s\n' 'GSSAPIAuthentication yes' 'PasswordAuthentication no' 'KbdInteractiveAuthentication no' \
        'PubkeyAuthentication no' >/etc/ssh/sshd_config.d/gssapi.conf
    printf '%s\n' 'BatchMode yes' 'StrictHostKeyChecking no' 'UserKnownHostsFile /dev/null' 'LogLevel ERROR' \
        'GSSAPIAuthentication yes' >/etc/ssh/ssh_config.d/gssapi.conf
    printf '%s\n' '#!/bin/sh' 'printf "Content-Type: text/plain\n\n"' 'echo "$REMOTE_USER, cache: ${KRB5CCNAME:-none}"' \
        '[ -z "$KRB5CCNAME" ] || { klist -f; kvno "host/$SERVER_NAME"; } 2>&1' >"$work/web/tickets"
    chmod 755 "$work/web/tickets"
    chown www-data "$work/delegated"
    chmod 700 "$work/delegated"
    a2enmod auth_gssapi cgid >"$work/log"
    printf '%s\n' "ServerName $host" "ScriptAlias /web/ $work/web/" '<Location />' 'AuthType GSSAPI' 'AuthName "EXAMPLE.COM"' \
        'GssapiCredStore keytab:/etc/apache2/http.keytab' "GssapiDelegCcacheDir $work/delegated" 'Require valid-user' '</Location>' \
        >/etc/apache2/conf-enabled/gssapi.conf
}

# The services, whose keytabs are there.
start_services() {
    chown www-data /etc/apache2/http.keytab
    [ -n "${services_run:-}" ] && return
    services_run=yes
    "$(command -v sshd)" # which starts itself anew for each login, and so has to know its path
    till_open 22
    setsid apache2ctl start
    till_open 80
}

# till_open PORT: waits up to 20 seconds until a service listens.
till_open() {
    port=$1
    for _ in $(seq 200); do
        ! is_taken || return 0
        sleep 0.1
    done
    echo "$script: nothing listens on port $1" >&2
}

heimdal() {
    KRB5_CONFIG=$work/heimdal.conf LD_LIBRARY_PATH=$libraries "$@"
}

# login ARGUMENT..: krb_login at the KDC, with the cache of MIT's clients.
login() {
    "$top/bridges/krb_connect" "127.0.0.1:$kdc_port" -- "$KRB_LOGIN" -c "$work/mit.tickets" "$@"
}

# far yes|no COMMAND: what the command gives on the machine of sshd, with delegation or without.
far() {
    ssh -o GSSAPIDelegateCredentials="$1" "alice@$host" "$2"
}

# web OPTION..: what Apache's script gives.
web() {
    curl -s -S --negotiate -u : "$@" "http://$host/web/tickets"
}

# What sshd has stored is gone with the session.
none_is_left() {
    ! ls /tmp/krb5cc_"$(id -u alice)"_* 2>/dev/null
}

# gss-client delegates to gss-server, which says which flags its context has.
gss() {
    : >"$work/log"
    listen gss-server -port PORT -once -verbose -keytab /etc/krb5.keytab "host@$host"
    gss-client -port "$port" "$@" localhost "host@$host" "a message" >/dev/null && wait "$started" && grep "context flag" "$work/log"
}

# farther COMMAND: the same one machine on, with delegation on both ways.
farther() {
    far yes "ssh -o GSSAPIDelegateCredentials=yes $host $1"
}

# far_is_empty: alice is logged in, and nothing is delegated to sshd.
far_is_empty() {
    [ "$(far yes whoami)" = alice ] && far yes klist
}

# At a realm of this repository, its key changes: tickets from before stay good.
rotated() {
    [ "$kdc" != realm ] || try "the realm's next key" yes "" next_key
}

next_key() {
    "$KRB_ACCOUNTS" key -k random "$work/accounts" krbtgt/EXAMPLE.COM && "$KRB_ACCOUNTS" make "$work/accounts" "$work/accounts.cdb"
}

# steps FLAGS: logins are delegated. What a forwarded ticket has as flags is given.
steps() {
    try "kinit -f -r 7d" yes "" typed "$password" kinit -f -r 7d alice
    try "klist" yes "Flags: FRIA\$" klist -f
    rotated
    try "ssh, without delegation" yes "^alice\$" far no whoami
    try "  no ticket is there" no "No credentials cache found" far no klist
    try "ssh, with delegation: klist there" yes "Flags: $1\$" far yes "klist -f"
    try "  kvno there, by the forwarded ticket" yes "^HTTP/$host@EXAMPLE.COM: kvno = 1" far yes "kvno HTTP/$host"
    try "  the forwarded ticket is forwarded once more: klist there" yes "Flags: $1\$" farther "klist -f"
    try "  kvno there" yes "^HTTP/$host@EXAMPLE.COM: kvno = 1" farther "kvno HTTP/$host"
    try "  kinit -R there" yes "Flags: $1\$" far yes "kinit -R && klist -f"
    try "  the renewed ticket is forwarded" yes "Flags: $1\$" far yes "kinit -R && ssh -o GSSAPIDelegateCredentials=yes $host klist -f"
    try "  the sessions are over: no ticket is left" yes "" none_is_left
    try "gss-client -d to gss-server" yes "GSS_C_DELEG_FLAG" gss -d

    try "curl, without delegation" yes "^alice@EXAMPLE.COM, cache: none" web
    try "curl --delegation policy: the ticket isn't ok-as-delegate" yes "^alice@EXAMPLE.COM, cache: none" web --delegation policy
    try "curl --delegation always: klist there" yes "Flags: $1\$" web --delegation always
    try "  kvno there" yes "^host/$host@EXAMPLE.COM: kvno = " web --delegation always

    echo "== tickets of other clients"
    try "Heimdal: kinit, forwardable" yes "" heimdal kinit.heimdal "--password-file=$work/password" --forwardable alice@EXAMPLE.COM
    try "ssh, with delegation: klist there" yes "Flags: Ff" far yes "klist -f"
    try "  kvno there" yes "^HTTP/$host@EXAMPLE.COM: kvno = 1" far yes "kvno HTTP/$host"
    if [ -z "${NO_LOGIN:-}" ]; then
        try "krb_login -f -L" yes "" login -p "$work/password" -f -L $week alice@EXAMPLE.COM
        try "ssh, with delegation: klist there" yes "Flags: $1\$" far yes "klist -f"
        try "  kvno there" yes "^HTTP/$host@EXAMPLE.COM: kvno = 1" far yes "kvno HTTP/$host"
        try "curl --delegation always" yes "Flags: $1\$" web --delegation always
        try "krb_login -R" yes "" login -R
        try "ssh, with delegation: klist there" yes "Flags: $1\$" far yes "klist -f"
    fi

    echo "== tickets that aren't forwardable"
    try "kinit -F" yes "" typed "$password" kinit -F alice
    try "ssh, with delegation" yes "^alice\$" far yes whoami
    try "  no ticket is there" no "No credentials cache found" far_is_empty
    try "curl --delegation always" yes "^alice@EXAMPLE.COM, cache: none" web --delegation always
}

# own_realm WORDS: makes the text of accounts say these words of the realm's policy, and its database.
own_realm() {
    sed -i "s/^realm	.*/realm	EXAMPLE.COM	300	36000	$1	-/" "$work/accounts"
    "$KRB_ACCOUNTS" make "$work/accounts" "$work/accounts.cdb"
}

make_realm() {
    "$KRB_ACCOUNTS" create -k random "$work/accounts" EXAMPLE.COM &&
        typed "$password" "$KRB_ACCOUNTS" add "$work/accounts" alice &&
        "$KRB_ACCOUNTS" add -k random "$work/accounts" "host/$host" &&
        "$KRB_ACCOUNTS" add -k random "$work/accounts" "HTTP/$host" &&
        "$KRB_ACCOUNTS" keytab "$work/accounts" /etc/krb5.keytab "host/$host" &&
        "$KRB_ACCOUNTS" keytab "$work/accounts" /etc/apache2/http.keytab "HTTP/$host" &&
        own_realm "limits-des3,forwardable,renewable=$week"
}

realm_steps() {
    make_realm || exit 2
    listen "$top/bridges/krb_listen" --listen 127.0.0.1:PORT --workers 2 -- "$KRB_KDCD" "$work/accounts.cdb" /dev/urandom --log
    bridge=$started kdc_port=$port
    configuration "127.0.0.1:$port" "" >/etc/krb5.conf
    configuration "tcp/127.0.0.1:$port" "" >"$work/heimdal.conf"
    start_services
    steps FfRA
    echo "== a realm whose policy grants no forwardable tickets"
    own_realm "limits-des3,renewable=$week"
    try "kinit -f" yes "" typed "$password" kinit -f -l 5h alice
    try "klist" yes "Flags: IA\$" klist -f
    try "ssh, with delegation" yes "^alice\$" far yes whoami
    try "  no ticket is there" no "No credentials cache found" far_is_empty
    try "curl --delegation always" yes "^alice@EXAMPLE.COM, cache: none" web --delegation always
}

# krb5kdc sets transited-policy-checked in each ticket of a TGS exchange (T).
mit_steps() {
    start_mit "max_life = 10h
        max_renewable_life = 7d"
    kdc_port=$port
    {
        mit kadmin.local -q "addprinc +requires_preauth -pw \"$password\" alice"
        for service in host HTTP; do mit kadmin.local -q "addprinc -randkey $service/$host"; done
        mit kadmin.local -q "modprinc -maxrenewlife 7d krbtgt/EXAMPLE.COM"
        rm -f /etc/krb5.keytab /etc/apache2/http.keytab
        mit kadmin.local -q "ktadd -norandkey -k /etc/krb5.keytab host/$host"
        mit kadmin.local -q "ktadd -norandkey -k /etc/apache2/http.keytab HTTP/$host"
    } >>"$work/log" 2>&1
    cp "$work/mit.conf" /etc/krb5.conf
    configuration "tcp/127.0.0.1:$port" "" >"$work/heimdal.conf"
    start_services
    steps FfRAT
}

heimdal_steps() {
    start_heimdal
    kdc_port=$port
    {
        kadmin_heimdal add "--password=$password" --attributes=requires-pre-auth --use-defaults alice
        rm -f /etc/krb5.keytab /etc/apache2/http.keytab
        for service in host HTTP; do kadmin_heimdal add --random-key --use-defaults "$service/$host"; done
        kadmin_heimdal ext_keytab --keytab=/etc/krb5.keytab "host/$host"
        kadmin_heimdal ext_keytab --keytab=/etc/apache2/http.keytab "HTTP/$host"
    } >>"$work/log" 2>&1
    cp "$work/mit.conf" /etc/krb5.conf
    start_services
    steps FfRAT
}

make_machine
configure_services
echo "$password" >"$work/password"
for kdc in "$@"; do
    echo "==== $kdc"
    "${kdc}_steps"
    kill "$bridge"
    wait "$bridge"
    bridge=
done
echo "$passed right, $failed wrong"
[ "$failed" -eq 0 ]
