#!/bin/sh
# krb_login logs in by certificate (PKINIT, RFC 4556) on 127.0.0.1: at MIT's krb5kdc with its PKINIT module, at Heimdal's kdc, at the KDC of
# Samba's domain controller, and at a realm of this project, krb_kdcd behind krb_listen. Databases, keys and certificates are made anew. Keys
# are of RSA with 2048, 3072 and 4096 bits. At krb5kdc and krb_kdcd they come from PEM and DER, PKCS#8 and PKCS#1, and at krb5kdc the session
# keys are of each suite of AES. MIT's klist, kvno and gss-client use its caches. It is refused with another authority, an expired
# certificate, another user's certificate or key, a certificate for another name, and where the KDC's certificate doesn't name krbtgt; and
# files and arguments that it doesn't take are named. MIT's and Heimdal's kinit log in by certificate at our realm where its line has the
# word `pkinit-agility`, and don't without it. Prints what each gave, and what a login costs krb5kdc and krb_kdcd; the status is 1 where one
# differs from what it should, and 2 where a tool is missing. All files are in a temporary folder, and what is started is ended.
#
# Usage: examples/certificate_logins.sh [mit|heimdal|samba|realm..]: at MIT's krb5kdc, or at the KDCs that are named. KRB_LOGIN, KRB_KDCD and
# KRB_ACCOUNTS may name programs that are built already. Debian's samba is needed for Samba's.
set -u
script=certificate_logins
top=$(cd "$(dirname "$0")/.." && pwd)
work=$(mktemp -d)
bridge= server=
trap 'kill $bridge $server 2>/dev/null; wait; rm -rf "$work"' EXIT
trap 'exit 1' INT TERM
. "$top/examples/stock.sh"
. "$top/bench/programs.sh"
conf=$top/examples/pkinit.cnf

[ $# -gt 0 ] || set -- mit
for kdc in "$@"; do
    case $kdc in
        mit | heimdal | samba | realm) ;;
        *) echo "$script: $kdc: expected mit, heimdal, samba or realm" >&2 && exit 2 ;;
    esac
done
need python3 python3
need openssl openssl
need krb5kdc krb5-kdc
need kadmin.local krb5-admin-server
need kvno krb5-user
need gss-client krb5-gss-samples
case " $* " in *" samba "*) need samba samba && need samba-tool samba && need ldbmodify ldb-tools ;; esac
if ! ls /usr/lib/*/krb5/plugins/preauth/pkinit.so >/dev/null 2>&1; then
    echo "$script: MIT's PKINIT module is missing (Debian: krb5-pkinit)" >&2
    missing=1
fi
[ "$missing" -eq 0 ] || exit 2
program KRB_LOGIN krb_login
case " $* " in *" realm "* | *" heimdal "*) fetch_heimdal kinit.heimdal heimdal-clients heimdal-kdc ;; esac

# made FOLDER BITS: an authority, and its certificates for the KDC and the user, with RSA keys of so many bits.
made() {
    KEY="-algorithm RSA -pkeyopt rsa_keygen_bits:$2" "$top/examples/pkinit_certificates.sh" EXAMPLE.COM user "$work/$1" >>"$work/log" 2>&1
}

# issued NAME SECTION USER REALM DAYS [FILE]: a certificate by the authority of 2048 bits, with the extensions of a section of FILE.
issued() {
    (
        umask 077
        export USER="$3" REALM="$4" HOLDER="$1"
        openssl req -new -newkey rsa:2048 -nodes -sha256 -config "$conf" -keyout "$work/2048/$1.key" -out "$work/2048/$1.req"
        openssl x509 -req -sha256 -days "$5" -in "$work/2048/$1.req" -out "$work/2048/$1.pem" -extfile "${6:-$conf}" -extensions "$2" \
            -CA "$work/2048/anchor.pem" -CAkey "$work/2048/anchor.key" -set_serial "0x$(openssl rand -hex 16)"
    ) >>"$work/log" 2>&1
}

make_certificates() {
    for bits in 2048 3072 4096; do
        made "$bits" "$bits" || return 1
    done
    made other 2048 || return 1
    printf '%s\n' '[nameless]' 'keyUsage = critical, digitalSignature' 'extendedKeyUsage = 1.3.6.1.5.2.3.5' >"$work/nameless.cnf"
    issued alice client alice EXAMPLE.COM 365 && issued elsewhere client user OTHER.EXAMPLE.COM 365 && issued late client user EXAMPLE.COM -1 &&
        issued late_kdc kdc - EXAMPLE.COM -1 && issued other_kdc kdc - OTHER.EXAMPLE.COM 365 &&
        issued nameless nameless - EXAMPLE.COM 365 "$work/nameless.cnf" && issued user_kdc client krbtgt EXAMPLE.COM 365
}

# The user's key and certificate in each form, and keys that are refused.
make_forms() (
    cd "$work/2048" || exit 1
    umask 077
    openssl rsa -in client.key -traditional -out pkcs1.pem && openssl rsa -in client.key -traditional -outform DER -out pkcs1.der &&
        openssl pkcs8 -topk8 -nocrypt -in client.key -outform DER -out pkcs8.der &&
        openssl pkcs8 -topk8 -in client.key -passout pass:secret -out encrypted.pem &&
        openssl rsa -in client.key -traditional -aes128 -passout pass:secret -out encrypted1.pem &&
        openssl genpkey -algorithm EC -pkeyopt ec_paramgen_curve:P-256 -out curve.pem && openssl genrsa -out weak.pem 1024 &&
        sed '/END/d' client.key >cut.pem &&
        python3 -c 'octets = bytearray(open("pkcs1.der", "rb").read()); octets[-1] ^= 1; open("broken.der", "wb").write(octets)'
)

# by CERTIFICATE KEY ANCHOR ARGUMENT..: krb_login at the KDC, with the cache, by files of the folder.
by() {
    files="-C $folder/$1 -K $folder/$2 -A $folder/$3"
    shift 3
    # shellcheck disable=SC2086
    "$top/bridges/krb_connect" "127.0.0.1:$port" -- "$KRB_LOGIN" -c "$work/cache" $files "$@"
}

# login ARGUMENT..: as the user, by the certificate of the folder.
login() {
    by client.pem client.key anchor.pem "$@" user@EXAMPLE.COM
}

# only ARGUMENT..: without a KDC, since the arguments or the files are refused.
only() {
    "$KRB_LOGIN" -c "$work/cache" "$@" user@EXAMPLE.COM </dev/null
}

# with_key FILE: the same, with this file of a key.
with_key() {
    only -C "$work/2048/client.pem" -K "$1" -A "$work/2048/anchor.pem"
}

by_cache() {
    KRB5_CONFIG=$work/mit.conf KRB5CCNAME=FILE:$work/cache TZ=UTC "$@"
}

gss() {
    kdc_port=$port
    listen gss-server -port PORT -once -keytab "$work/host.keytab" "host@$host"
    server=$started
    by_cache gss-client -port "$port" localhost "host@$host" "a message"
    status=$?
    port=$kdc_port
    kill "$server" 2>/dev/null
    server=
    return "$status"
}

# What is refused leaves the cache as it was.
is_kept() {
    cp "$work/cache" "$work/cache.before"
    ! by alice.pem alice.key anchor.pem user@EXAMPLE.COM && cmp "$work/cache" "$work/cache.before" && [ -z "$(find "$work" -maxdepth 1 -name '.cache.*.new')" ]
}

# uses NAME: what stock programs make of the cache of a login with a ticket for the service.
uses() {
    try "$1: klist" yes "host/$host@EXAMPLE.COM" by_cache klist -e
    try "$1: gss-client" yes "Signature verified" gss
    try "$1: without a ticket for the service" yes "" login
    try "$1: kvno" yes "kvno = " by_cache kvno "host/$host"
    try "$1: gss-client" yes "Signature verified" gss
}

# ==== MIT's krb5kdc

start_mit_pkinit() {
    kdc_has "$work/2048" kdc
    start_mit "pkinit_identity = FILE:$work/kdc.pem,$work/kdc.key
        pkinit_anchors = FILE:$work/kdc.anchor"
    {
        mit kadmin.local -q "addprinc -randkey host/$host"
        mit kadmin.local -q "addprinc +requires_preauth -nokey user"
        mit kadmin.local -q "addprinc +requires_preauth -nokey alice"
        mit kadmin.local -q "ktadd -norandkey -k $work/host.keytab host/$host"
    } >>"$work/log" 2>&1
}

# kdc_has FOLDER NAME: the KDC's files are a certificate of the folder, its key and the authority.
kdc_has() {
    cp "$1/$2.pem" "$work/kdc.pem"
    cp "$1/$2.key" "$work/kdc.key"
    cp "$1/anchor.pem" "$work/kdc.anchor"
}

# mit_with FOLDER NAME: krb5kdc is started anew with these files.
mit_with() {
    kdc_has "$1" "$2"
    kill "$bridge"
    wait "$bridge"
    listen "$work/start" PORT
    bridge=$started
}

# mit_suite SUITE: the session keys of the ticket-granting service and of the service are of this suite alone.
mit_suite() {
    mit kadmin.local -q "setstr krbtgt/EXAMPLE.COM session_enctypes $1" && mit kadmin.local -q "setstr host/$host session_enctypes $1"
}

mit_any_suite() {
    mit kadmin.local -q "delstr krbtgt/EXAMPLE.COM session_enctypes" && mit kadmin.local -q "delstr host/$host session_enctypes"
}

mit_rows() {
    start_mit_pkinit
    for etype in aes256-cts-hmac-sha1-96 aes128-cts-hmac-sha1-96 aes256-cts-hmac-sha384-192 aes128-cts-hmac-sha256-128; do
        try "$etype: session keys of it" yes "" mit_suite $etype
        try "$etype: login" yes "" login -s "host/$host"
        try "$etype: klist" yes "$etype, " by_cache klist -e
        uses $etype
    done
    try "triple DES: session keys of it" yes "" mit_suite des3-cbc-sha1
    try "triple DES: login" no "KDC_ERR_ETYPE_NOSUPP (14)" login
    try "session keys of each suite" yes "" mit_any_suite
    try "the cost of a login" yes "" cost krb5kdc "$bridge"
    sizes mit_with
    refused_rows
    # krb5kdc itself doesn't sign by it.
    refused_kdcs mit_with "refused: KDC_ERR_PREAUTH_FAILED (24)"
}

# ==== Heimdal's kdc

heimdal() {
    KRB5_CONFIG=$work/heimdal.conf TZ=UTC LD_LIBRARY_PATH=$libraries "$@"
}

heimdal_rows() {
    kdc_has "$work/2048" kdc
    start_heimdal "enable-pkinit = yes
    pkinit_identity = FILE:$work/kdc.pem,$work/kdc.key
    pkinit_anchors = FILE:$work/kdc.anchor"
    {
        kadmin_heimdal add --random-key --use-defaults "host/$host"
        kadmin_heimdal add --random-key --attributes=requires-pre-auth --use-defaults user
        kadmin_heimdal add --random-key --attributes=requires-pre-auth --use-defaults alice
        kadmin_heimdal ext_keytab "--keytab=$work/host.keytab" "host/$host"
    } >>"$work/log" 2>&1
    try "login" yes "" login -s "host/$host"
    uses "Heimdal's kdc"
    sizes mit_with
    try "another user, by its own certificate" yes "" by alice.pem alice.key anchor.pem alice@EXAMPLE.COM
    refused_by_stock
    refused_kdcs mit_with "the reply isn't signed by the realm"
}

# What Heimdal's kdc refuses, alone and in a domain controller.
refused_by_stock() {
    try "another authority's certificate" no "refused: " by ../other/client.pem ../other/client.key anchor.pem user@EXAMPLE.COM
    try "an expired certificate" no "refused: " by late.pem late.key anchor.pem user@EXAMPLE.COM
    try "another user's certificate" no "refused: " by alice.pem alice.key anchor.pem user@EXAMPLE.COM
    try "another key than the certificate's" no "refused: " by client.pem alice.key anchor.pem user@EXAMPLE.COM
    try "the KDC's authority isn't trusted" no "user@EXAMPLE.COM: the reply isn't signed by the realm" by client.pem client.key ../other/anchor.pem user@EXAMPLE.COM
}

# ==== Samba's domain controller

domain() {
    samba-tool "$@" -s "$work/domain/etc/smb.conf"
}

secret='Correct horse battery staple 1'

# typed_login USER: krb_login by the password.
typed_login() {
    echo "$secret" >"$work/secret"
    "$top/bridges/krb_connect" "127.0.0.1:$port" -- "$KRB_LOGIN" -c "$work/cache" -p "$work/secret" "$1"
}

# A domain controller of which its KDC alone runs, with the certificate that the KDC has; sets port and bridge.
start_domain() {
    configuration 127.0.0.1:PORT "" >"$work/domain.in"
    cat >>"$work/domain.in" <<CONF
[kdc]
    enable-pkinit = yes
    pkinit_identity = FILE:$work/kdc.pem,$work/kdc.key
    pkinit_anchors = FILE:$work/kdc.anchor
CONF
    {
        samba-tool domain provision "--targetdir=$work/domain" --realm=EXAMPLE.COM --domain=EXAMPLE --server-role=dc --dns-backend=NONE \
            --host-name=dc1 --host-ip=127.0.0.1 "--adminpass=$(openssl rand -hex 16)Aa" --option="vfs objects = acl_xattr xattr_tdb"
        sed -i "/server services/d; /log file/d; s|^\\[global]|&\n interfaces = lo\n bind interfaces only = yes\n log file = $work/log.%m|" "$work/domain/etc/smb.conf"
        domain user create typed "$secret"
        domain user create old "$secret"
        # The account `old` keeps its key of RC4 alone, as one whose password is older than AES.
        printf 'dn: CN=old,CN=Users,DC=example,DC=com\nchangetype: modify\ndelete: supplementalCredentials\n' |
            ldbmodify -H "$work/domain/private/sam.ldb" --controls=local_oid:1.3.6.1.4.1.7165.4.3.12:0
        domain user create user --random-password
        domain user create alice --random-password
        domain user create server --random-password
        domain spn add "host/$host" server
        domain domain exportkeytab "$work/host.keytab" "--principal=host/$host"
    } >>"$work/log" 2>&1
    cat >"$work/start" <<START
#!/bin/sh
sed "s/PORT/\$1/" $work/domain.in >$work/mit.conf
mkdir -p $work/run
KRB5_CONFIG=$work/mit.conf exec samba -i -M single -s $work/domain/etc/smb.conf --option="server services = kdc" --option="krb5 port = \$1" \
    --option="kpasswd port = 0" --option="pid directory = $work/run" --option="ncalrpc dir = $work/run/ncalrpc" --option="cache directory = $work/run"
START
    chmod +x "$work/start"
    listen "$work/start" PORT
    bridge=$started
}

samba_rows() {
    kdc_has "$work/2048" kdc
    start_domain
    try "login" yes "" login -s "host/$host"
    uses "Samba's domain controller"
    sizes mit_with
    try "another user, by its own certificate" yes "" by alice.pem alice.key anchor.pem alice@EXAMPLE.COM
    refused_by_stock
    refused_kdcs mit_with "the reply isn't signed by the realm"
    kdc_has "$work/2048" kdc
    mit_with "$work/2048" kdc
    try "by certificate, a realm in lower case" no "hint: realms are mostly written in upper case" by client.pem client.key anchor.pem user@example.com
    try "by password" yes "" typed_login typed@EXAMPLE.COM
    try "by password, a realm in lower case" no "hint: realms are mostly written in upper case" typed_login typed@example.com
    try "by password, keys of RC4 alone" no "RC4 is never asked for: an account with RC4 keys alone needs a new password" typed_login old@EXAMPLE.COM
}

# ==== this project's realm

start_realm_kdc() {
    program KRB_KDCD krb_kdcd
    program KRB_ACCOUNTS krb_accounts
    {
        openssl rand -hex 32 | "$KRB_ACCOUNTS" create "$work/accounts" EXAMPLE.COM
        openssl rand -hex 32 | "$KRB_ACCOUNTS" add -k "$work/accounts" user
        openssl rand -hex 32 | "$KRB_ACCOUNTS" add -k "$work/accounts" alice
        openssl rand -hex 32 | "$KRB_ACCOUNTS" add -k "$work/accounts" "host/$host"
        "$KRB_ACCOUNTS" keytab "$work/accounts" "$work/host.keytab" "host/$host"
    } >>"$work/log" 2>&1
    realm_with "$work/2048" kdc
    listen "$top/bridges/krb_listen" --listen 127.0.0.1:PORT --workers 2 -- "$KRB_KDCD" "$work/accounts.cdb" /dev/urandom --log
    bridge=$started
    configuration "127.0.0.1:$port" "" >"$work/mit.conf"
}

# realm_with FOLDER NAME: the realm's record has a certificate of the folder, its key and the authority. krb_kdcd reads it anew.
realm_with() {
    "$KRB_ACCOUNTS" certify "$work/accounts" "$1/$2.pem" "$1/$2.key" "$1/anchor.pem" &&
        "$KRB_ACCOUNTS" make "$work/accounts" "$work/accounts.cdb"
}

# worded WORDS: the realm's line has these words, and then `pkinit`. krb_kdcd reads its record anew.
worded() {
    sed -i "s/^\\(realm\t.*\t\\)limits-des3,[^\t]*\t/\\1limits-des3,$1pkinit\t/" "$work/accounts" && "$KRB_ACCOUNTS" make "$work/accounts" "$work/accounts.cdb"
}

by_stock() {
    KRB5_CONFIG=$work/mit.conf KRB5CCNAME=FILE:$work/stock TZ=UTC "$@"
}

# mit_kinit NAME USER: MIT's kinit by a certificate of the folder.
mit_kinit() {
    by_stock kinit -X "X509_user_identity=FILE:$folder/$1.pem,$folder/$1.key" -X "X509_anchors=FILE:$folder/anchor.pem" "$2@EXAMPLE.COM" </dev/null
}

# heimdal_kinit NAME USER: the same of Heimdal's. Without pkinit_dh_min_bits it agrees in group 2, with which it gets error 65.
heimdal_kinit() {
    configuration "127.0.0.1:$port" "pkinit_dh_min_bits = ${min_bits:-1024}" >"$work/heimdal.conf"
    KRB5_CONFIG=$work/heimdal.conf KRB5CCNAME=FILE:$work/stock TZ=UTC LD_LIBRARY_PATH=$libraries \
        kinit.heimdal "--pk-user=FILE:$folder/$1.pem,$folder/$1.key" "--x509-anchors=FILE:$folder/anchor.pem" "$2@EXAMPLE.COM" </dev/null
}

# heimdal_in_group_2: the same in the group that it takes by default.
heimdal_in_group_2() {
    min_bits=0
    heimdal_kinit client user
    status=$?
    min_bits=
    return "$status"
}

# spent PROCESS..: the processor time of these, in hundredths of a second.
spent() {
    for process in "$@"; do
        sed 's/.*) //' "/proc/$process/stat"
    done | awk '{ sum += $12 + $13 } END { print sum }'
}

# cost NAME PROCESS..: what 100 logins of MIT's kinit by certificate cost the KDC's processes.
cost() {
    title=$1
    shift
    before=$(spent "$@")
    for _ in $(seq 100); do
        mit_kinit client user >>"$work/log" 2>&1 || return 1
    done
    after=$(spent "$@")
    echo "$title: $(((after - before) / 10)).$(((after - before) % 10)) milliseconds of processor for a login by certificate"
}

# Stock clients, by the policy of the realm.
stock_rows() {
    try "MIT's kinit without pkinit-agility" no "" mit_kinit client user
    try "Heimdal's kinit without pkinit-agility" no "" heimdal_kinit client user
    try "the word pkinit-agility" yes "" worded "pkinit-agility,"
    for client in mit heimdal; do
        rm -f "$work/stock"
        try "$client's kinit" yes "" "${client}_kinit" client user
        try "$client's kinit: kvno" yes "kvno = " by_stock kvno "host/$host"
        try "$client's kinit: another user's certificate" no "" "${client}_kinit" alice user
        try "$client's kinit: an expired certificate" no "" "${client}_kinit" late user
    done
    # shellcheck disable=SC2046
    try "the cost of a login" yes "" cost krb_kdcd $(pgrep -P "$bridge")
    try "Heimdal's kinit in group 2" no "DH parameters not accepted" heimdal_in_group_2
    try "krb_login with pkinit-agility" yes "" login -s "host/$host"
    uses "our realm with pkinit-agility"
    try "without the word" yes "" worded ""
    try "MIT's kinit without the word again" no "" mit_kinit client user
}

realm_rows() {
    start_realm_kdc
    try "login" yes "" login -s "host/$host"
    uses "our realm"
    sizes realm_with
    refused_rows
    refused_kdcs realm_with "the reply isn't signed by the realm"
    realm_with "$work/2048" kdc
    stock_rows
}

# ==== both

# sizes WITH: keys of each size, on both sides.
sizes() {
    for bits in 3072 4096 2048; do
        folder=$work/$bits
        try "RSA of $bits bits: the KDC has its certificate" yes "" "$1" "$folder" kdc
        rm -f "$work/cache"
        try "RSA of $bits bits: login" yes "" login -s "host/$host"
        uses "RSA of $bits bits"
    done
}

refused_rows() {
    try "certificate, key and anchor in DER, PKCS#8" yes "" by client.der pkcs8.der anchor.der user@EXAMPLE.COM
    try "PKCS#1 in PEM" yes "" by client.pem pkcs1.pem anchor.pem user@EXAMPLE.COM
    try "PKCS#1 in DER" yes "" by client.pem pkcs1.der anchor.pem user@EXAMPLE.COM
    try "another user, by its own certificate" yes "" by alice.pem alice.key anchor.pem alice@EXAMPLE.COM
    try "another authority's certificate" no "KDC_ERR_CANT_VERIFY_CERTIFICATE (70)" by ../other/client.pem ../other/client.key anchor.pem user@EXAMPLE.COM
    try "an expired certificate" no "KDC_ERR_INVALID_CERTIFICATE (71)" by late.pem late.key anchor.pem user@EXAMPLE.COM
    try "another user's certificate" no "KDC_ERR_CLIENT_NAME_MISMATCH (75)" by alice.pem alice.key anchor.pem user@EXAMPLE.COM
    try "a certificate for the name in another realm" no "KDC_ERR_CLIENT_NAME_MISMATCH (75)" by elsewhere.pem elsewhere.key anchor.pem user@EXAMPLE.COM
    try "another key than the certificate's" no "KDC_ERROR_INVALID_SIG (64)" by client.pem alice.key anchor.pem user@EXAMPLE.COM
    try "the KDC's authority isn't trusted" no "user@EXAMPLE.COM: the reply isn't signed by the realm" by client.pem client.key ../other/anchor.pem user@EXAMPLE.COM
    try "unknown client" no "KDC_ERR_C_PRINCIPAL_UNKNOWN (6)" by client.pem client.key anchor.pem nobody@EXAMPLE.COM
    try "unknown service" no "KDC_ERR_S_PRINCIPAL_UNKNOWN (7)" login -s HTTP/nobody.example.com
    try "clock 10 minutes off" no "KRB_AP_ERR_SKEW (37)" login -t "$(later 10)"
    try "a login" yes "" login
    try "a refused login leaves the cache" yes "" is_kept
}

# refused_kdcs WITH LATE: certificates of the KDC that the client refuses. With one that has expired the login ends so: LATE.
refused_kdcs() {
    refused_kdc "$1" nameless "without a name in the realm" "the reply isn't signed by the realm"
    refused_kdc "$1" user_kdc "for a user that is called krbtgt" "the reply isn't signed by the realm"
    refused_kdc "$1" other_kdc "for another realm" "the reply isn't signed by the realm"
    refused_kdc "$1" late_kdc "expired" "$2"
}

# refused_kdc WITH NAME TITLE TEXT
refused_kdc() {
    try "a certificate of the KDC, $3" yes "" "$1" "$work/2048" "$2"
    try "the login, with it" no "user@EXAMPLE.COM: $4" login
}

# Files and arguments that are refused, each by its name, without a KDC.
file_rows() {
    pem=$work/2048/client.pem key=$work/2048/client.key anchor=$work/2048/anchor.pem
    expected="expected a private RSA key of PKCS#8 or PKCS#1 in PEM or DER, not encrypted"
    try "an encrypted key, PKCS#8" no "encrypted.pem: the key at octet 0 of the file is encrypted: $expected" with_key "$work/2048/encrypted.pem"
    try "an encrypted key, PKCS#1" no "encrypted1.pem: the key at octet 0 of the file is encrypted: $expected" with_key "$work/2048/encrypted1.pem"
    try "a key on a curve" no "curve.pem: the key at octet 0 of the file is not an RSA key: $expected" with_key "$work/2048/curve.pem"
    try "a key without its END line" no "cut.pem: the BEGIN line at octet 0 of the file has no END line: $expected" with_key "$work/2048/cut.pem"
    try "a certificate as key" no "client.pem: the file is text that has no BEGIN line of what is asked for: $expected" with_key "$pem"
    try "a weak key" no "weak.pem: the RSA key has fewer than 2,048 bits: expected an RSA key of 2048 to 4096 bits" with_key "$work/2048/weak.pem"
    try "a key whose numbers don't belong together" no "user@EXAMPLE.COM: no key function for what is asked" with_key "$work/2048/broken.der"
    try "a key that isn't there" no "missing can't be read: " with_key "$work/missing"
    try "a key as certificate" no "client.key: the file is text that has no BEGIN line of what is asked for: expected a certificate in PEM or DER" \
        only -C "$key" -K "$key" -A "$anchor"
    try "DER of something else as anchor" no "pkcs8.der: what is at octet 0 of the file is not what is asked for: expected a certificate in PEM or DER" \
        only -C "$pem" -K "$key" -A "$work/2048/pkcs8.der"
    together="-C CERTIFICATE, -K KEY and -A ANCHOR go together: expected all three"
    try "-C alone" no "$together" only -C "$pem"
    try "-K and -A" no "$together" only -K "$key" -A "$anchor"
    try "-C and -A" no "$together" only -C "$pem" -A "$anchor"
    one="expected one of: -k KEYTAB; -p FILE; -C CERTIFICATE with -K KEY and -A ANCHOR"
    try "with a password" no "$one" only -p /dev/null -C "$pem" -K "$key" -A "$anchor"
    try "with a keytab" no "$one" only -k /dev/null -C "$pem" -K "$key" -A "$anchor"
    try "none" no "$one" only
}

try "certificates by openssl" yes "" make_certificates
try "other forms" yes "" make_forms
echo "==== files"
file_rows
folder=$work/2048
for kdc in "$@"; do
    echo "==== $kdc"
    rm -f "$work/cache" "$work/host.keytab"
    "${kdc}_rows"
    kill "$bridge"
    wait "$bridge"
    bridge=
done

echo "$passed right, $failed wrong"
[ "$failed" -eq 0 ]
