#!/bin/sh
# Stock services take users of a realm of krb_kdcd, each by its recipe in docs/SERVICES.md: stock_services.sh [SERVICE ..], all if none is
# named. A SERVICE is sshd, samba, openldap, postgresql, apache, dovecot, sssd or java. Prints what each step gave; the status is 1 where
# one differs from what it should, and 2 where a program is missing.
#
# It runs as root, in namespaces of its own: with a copy of /etc, a network of its own, and folders of the services that are empty. So
# nothing of this machine changes. KRB_KDCD and KRB_ACCOUNTS may name programs that are built already.
set -u
script=stock_services
top=$(cd "$(dirname "$0")/.." && pwd)
if [ -z "${STOCK_SERVICES_ROOM:-}" ]; then
    [ "$(id -u)" -eq 0 ] || { echo "$script: expected root, for namespaces of its own" >&2; exit 2; }
    STOCK_SERVICES_ROOM=$(mktemp -d)
    export STOCK_SERVICES_ROOM
    trap 'rm -rf "$STOCK_SERVICES_ROOM"' EXIT
    unshare --mount --net --uts --ipc --pid --fork --mount-proc --propagation private "$0" "$@"
    exit
fi
work=$STOCK_SERVICES_ROOM HOME=$STOCK_SERVICES_ROOM KRB5CCNAME=FILE:$STOCK_SERVICES_ROOM/tickets
export HOME KRB5CCNAME
unset KRB5_CONFIG
. "$top/examples/stock.sh"
. "$top/bench/programs.sh"
program KRB_KDCD krb_kdcd
program KRB_ACCOUNTS krb_accounts
need kinit krb5-user
need openssl openssl

# empty FOLDER..: hides what a folder has.
empty() {
    for folder in "$@"; do
        mkdir -p "$folder"
        mount -t tmpfs tmpfs "$folder"
    done
}

# A machine server.example.com with a user alice, who has no password of the system.
make_machine() {
    chmod 755 "$work"
    cp -a /etc "$work/etc"
    mount --bind "$work/etc" /etc
    empty /run /home /var/mail /var/tmp
    mkdir -p /run/lock
    ip link set lo up
    hostname "$host"
    printf '127.0.0.1 localhost kdc.example.com\n127.0.1.1 %s server\n' "$host" >/etc/hosts
    useradd --create-home --shell /bin/sh alice 2>/dev/null
    configuration kdc.example.com "" >/etc/krb5.conf
    sed -i '/udp_preference_limit/d' /etc/krb5.conf
    rm -f /etc/krb5.keytab
}

make_realm() {
    openssl rand -hex 32 | "$KRB_ACCOUNTS" create "$work/accounts" EXAMPLE.COM &&
        printf %s "$password" | "$KRB_ACCOUNTS" add "$work/accounts" alice &&
        "$KRB_ACCOUNTS" make "$work/accounts" "$work/accounts.cdb"
}

# service NAME KEYTAB OWNER: an account with a key of its own, and its keytab.
service() {
    openssl rand -hex 32 | "$KRB_ACCOUNTS" add -k "$work/accounts" "$1" &&
        "$KRB_ACCOUNTS" keytab "$work/accounts" "$2" "$1" &&
        chown "$3" "$2" && "$KRB_ACCOUNTS" make "$work/accounts" "$work/accounts.cdb"
}

# till_open PORT: waits up to 20 seconds until a service listens.
till_open() {
    port=$1
    for _ in $(seq 200); do
        ! is_taken || return 0
        sleep 0.1
    done
    echo "$script: nothing listens on port $1" >&2
}

login() {
    echo "$password" | kinit alice
}

by_ssh() {
    ssh -o BatchMode=yes -o StrictHostKeyChecking=no -o UserKnownHostsFile="$work/hosts" -o GSSAPIAuthentication=yes "$1@$host" whoami
}

of_sshd() {
    service "host/$host" /etc/krb5.keytab root
    mkdir -p /run/sshd
    printf '%s\n' 'GSSAPIAuthentication yes' 'PasswordAuthentication no' 'KbdInteractiveAuthentication no' \
        'PubkeyAuthentication no' >/etc/ssh/sshd_config.d/gssapi.conf
    /usr/sbin/sshd
    till_open 22
    try "sshd" yes "^alice$" by_ssh alice
    try "sshd, as another user" no "Permission denied" by_ssh root
}

of_samba() {
    service "cifs/$host" /etc/samba/krb5.keytab root
    empty /var/lib/samba /var/cache/samba /var/log/samba
    mkdir -p /var/lib/samba/private /run/samba "$work/files"
    echo "a file for users" >"$work/files/file"
    printf '%s\n' '[global]' 'realm = EXAMPLE.COM' 'kerberos method = dedicated keytab' \
        'dedicated keytab file = /etc/samba/krb5.keytab' '[files]' "path = $work/files" >/etc/samba/smb.conf
    smbd --foreground --no-process-group >"$work/log" 2>&1 &
    till_open 445
    try "samba" yes "file  *N" smbclient --use-kerberos=required --no-pass -c ls "//$host/files"
}

of_openldap() {
    service "ldap/$host" /etc/ldap/krb5.keytab openldap
    empty /var/lib/ldap /run/slapd
    chown openldap /var/lib/ldap /run/slapd
    printf '%s\n' 'include /etc/ldap/schema/core.schema' 'modulepath /usr/lib/ldap' 'moduleload back_mdb' \
        "sasl-host $host" 'sasl-realm EXAMPLE.COM' \
        'authz-regexp ^uid=([^,/]+),cn=example.com,cn=gssapi,cn=auth$ uid=$1,dc=example,dc=com' \
        'database mdb' 'suffix dc=example,dc=com' 'directory /var/lib/ldap' >/etc/ldap/slapd.conf
    KRB5_KTNAME=/etc/ldap/krb5.keytab slapd -u openldap -g openldap -h "ldap://$host/" -f /etc/ldap/slapd.conf
    till_open 389
    try "openldap" yes "^dn:uid=alice,dc=example,dc=com$" ldapwhoami -Y GSSAPI -N -H "ldap://$host/"
}

of_postgresql() {
    empty /var/lib/postgresql /var/log/postgresql /run/postgresql
    chown postgres /var/lib/postgresql /var/log/postgresql /run/postgresql
    version=$(ls /usr/lib/postgresql | tail -n 1)
    at=/etc/postgresql/$version/main
    rm -rf "$at"
    pg_createcluster "$version" main --start-conf manual >"$work/log" 2>&1
    service "postgres/$host" "$at/krb5.keytab" postgres
    printf '%s\n' "listen_addresses = '*'" "krb_server_keyfile = '$at/krb5.keytab'" >>"$at/postgresql.conf"
    printf '%s\n' 'local all postgres peer' 'hostgssenc all all samenet gss include_realm=0 krb_realm=EXAMPLE.COM' >"$at/pg_hba.conf"
    pg_ctlcluster "$version" main start
    till_open 5432
    su postgres -c 'createuser alice && createdb -O alice alice'
    who='select principal, encrypted from pg_stat_gssapi where pid = pg_backend_pid()'
    try "postgresql" yes "alice@EXAMPLE.COM|t" psql -At -h "$host" -U alice -c "$who" alice
    try "postgresql, as another user" no "GSSAPI authentication failed" psql -At -h "$host" -U postgres -c "$who" postgres
}

of_apache() {
    service "HTTP/$host" /etc/apache2/http.keytab www-data
    mkdir -p /run/apache2
    empty /var/log/apache2
    a2enmod auth_gssapi >"$work/log"
    printf '%s\n' "ServerName $host" '<Location />' 'AuthType GSSAPI' 'AuthName "EXAMPLE.COM"' \
        'GssapiCredStore keytab:/etc/apache2/http.keytab' 'Require valid-user' '</Location>' >/etc/apache2/conf-enabled/gssapi.conf
    setsid apache2ctl start
    till_open 80
    try "apache" yes "^200$" curl -s -o /dev/null -w '%{http_code}\n' --negotiate -u : "http://$host/"
    try "apache, without a ticket" yes "^401$" curl -s -o /dev/null -w '%{http_code}\n' "http://$host/"
}

of_dovecot() {
    service "imap/$host" /etc/dovecot/krb5.keytab dovecot
    printf '%s\n' 'auth_mechanisms = gssapi' "auth_gssapi_hostname = $host" 'auth_krb5_keytab = /etc/dovecot/krb5.keytab' \
        'auth_username_format = %n' 'ssl = no' >/etc/dovecot/local.conf
    sed -i '/^ssl_/d' /etc/dovecot/conf.d/10-ssl.conf # a certificate that this machine may not have
    empty /var/lib/dovecot
    dovecot
    till_open 143
    mkdir "$work/mail"
    printf '%s\n' 'IMAPAccount alice' "Host $host" 'User alice' 'AuthMechs GSSAPI' 'SSLType None' '' 'IMAPStore far' 'Account alice' '' \
        'MaildirStore near' "Path $work/mail/" "Inbox $work/mail/inbox" '' 'Channel mail' 'Far :far:' 'Near :near:' 'Patterns INBOX' \
        'Create Near' >"$work/mbsyncrc"
    try "dovecot" yes "Opening far side box INBOX" mbsync -V -c "$work/mbsyncrc" mail
}

of_sssd() {
    [ -e /etc/krb5.keytab ] || service "host/$host" /etc/krb5.keytab root
    cp -a /var/lib/sss "$work/sss"
    mount --bind "$work/sss" /var/lib/sss
    empty /var/log/sssd /run/sssd
    printf '%s\n' '[sssd]' 'services = pam' 'domains = EXAMPLE.COM' '[domain/EXAMPLE.COM]' 'id_provider = proxy' \
        'proxy_lib_name = files' 'auth_provider = krb5' 'krb5_server = kdc.example.com' 'krb5_realm = EXAMPLE.COM' \
        'krb5_validate = true' 'krb5_ccname_template = FILE:%h/tickets' >/etc/sssd/sssd.conf
    chmod 600 /etc/sssd/sssd.conf
    printf '%s\n' 'auth required pam_sss.so' 'account required pam_permit.so' >/etc/pam.d/try
    sssd --interactive >"$work/log" 2>&1 &
    for _ in $(seq 100); do
        [ ! -S /var/lib/sss/pipes/pam ] || break
        sleep 0.2
    done
    try "sssd" yes "successfully authenticated" typed "$password" pamtester try alice authenticate
    try "sssd, by a wrong password" no "Authentication failure" typed "no password" pamtester try alice authenticate
}

of_java() {
    [ -e /etc/apache2/http.keytab ] && cp /etc/apache2/http.keytab "$work/http.keytab" || service "HTTP/$host" "$work/http.keytab" root
    cat >"$work/jaas.conf" <<CONF
client { com.sun.security.auth.module.Krb5LoginModule required useTicketCache=true; };
server { com.sun.security.auth.module.Krb5LoginModule required useKeyTab=true storeKey=true isInitiator=false
    keyTab="$work/http.keytab" principal="HTTP/$host"; };
CONF
    try "java" yes "alice@EXAMPLE.COM is admitted" \
        java -Djava.security.auth.login.config="$work/jaas.conf" "$top/examples/Contexts.java" "HTTP@$host"
}

# The programs that a service needs, with their packages.
needed_by() {
    case $1 in
    sshd) need /usr/sbin/sshd openssh-server ;;
    samba) need smbd samba; need smbclient smbclient ;;
    openldap) need slapd slapd; need ldapwhoami ldap-utils ;; # and libsasl2-modules-gssapi-mit
    postgresql) need pg_createcluster postgresql ;;
    apache) need apache2 "apache2, libapache2-mod-auth-gssapi"; need curl curl ;;
    dovecot) need dovecot "dovecot-imapd, dovecot-gssapi"; need mbsync isync ;; # and libsasl2-modules-gssapi-mit
    sssd) need sssd "sssd-krb5, sssd-proxy, libpam-sss"; need pamtester pamtester ;;
    java) need java openjdk-17-jdk-headless ;;
    *) echo "$script: $1: expected sshd, samba, openldap, postgresql, apache, dovecot, sssd or java" >&2; missing=1 ;;
    esac
}

PATH=$PATH:/usr/sbin:/sbin
[ $# -gt 0 ] || set -- sshd samba openldap postgresql apache dovecot sssd java
for name in "$@"; do
    needed_by "$name"
done
[ "$missing" -eq 0 ] || exit 2
make_machine
make_realm
"$top/bridges/krb_listen" --listen 127.0.0.1:88 --workers 1 -- "$KRB_KDCD" "$work/accounts.cdb" /dev/urandom --log 2>"$work/kdc.log" &
till_open 88
try "kinit" yes "Password for alice@EXAMPLE.COM" login
for name in "$@"; do
    "of_$name"
done
echo "$passed right, $failed wrong"
[ "$failed" -eq 0 ]
