# What the scripts of this folder that run stock clients share. A script names itself in `script`, the repository in `top` and a
# temporary folder in `work`, and then reads this file.
missing=0 failed=0 passed=0 bridge=
password='correct horse battery staple'
host=server.example.com

# need COMMAND PACKAGE
need() {
    if ! command -v "$1" >/dev/null; then
        echo "$script: $1 is missing (Debian: $2)" >&2
        missing=1
    fi
}

# try NAME WANTED TEXT COMMAND..: the command's status is 0 (WANTED is yes) or isn't (no), and it says TEXT.
try() {
    name=$1 wanted=$2 text=$3
    shift 3
    "$@" >"$work/said" 2>&1
    status=$?
    gave=yes
    [ "$status" -eq 0 ] || gave=no
    if [ "$gave" = "$wanted" ] && { [ -z "$text" ] || grep -q -e "$text" "$work/said"; }; then
        echo "right: $name"
        passed=$((passed + 1))
    else
        echo "WRONG: $name: status $status, which should be success: $wanted, and it should say '$text'"
        failed=$((failed + 1))
    fi
    sed 's/^/    /' "$work/said"
}

# Whether something listens on the port.
is_taken() {
    grep -qi "^ *[0-9]*: [0-9A-F]*:$(printf %04x "$port") [0-9A-F:]* 0A " /proc/net/tcp /proc/net/tcp6 2>/dev/null
}

# listen COMMAND..: starts it with a free port for PORT, and waits until it listens; sets port and started.
listen() {
    port=$((8800 + $$ % 1000))
    while [ "$port" -lt 9900 ]; do
        if is_taken; then
            port=$((port + 1))
            continue
        fi
        (
            for word in "$@"; do
                shift
                set -- "$@" "$(echo "$word" | sed "s|PORT|$port|")"
            done
            exec "$@"
        ) >>"$work/log" 2>&1 &
        started=$!
        while kill -0 "$started" 2>/dev/null; do
            is_taken && return
            sleep 0.1
        done
        port=$((port + 1))
    done
    echo "$script: no free port" >&2
    exit 2
}

mit() {
    KRB5_CONFIG=$work/mit.conf KRB5CCNAME=FILE:$work/mit.tickets TZ=UTC "$@"
}

typed() {
    told=$1
    shift
    echo "$told" | "$@"
}

# One line at a time, as from a terminal: ktutil takes what it is given at once for one answer.
ktutil_lines() {
    for line in "$@"; do
        echo "$line"
        sleep 0.5
    done | mit ktutil
    echo
}

# later MINUTES: the time that it is then.
later() {
    date -u -d "$1 minutes" +%Y%m%d%H%M%SZ
}

# make_settings REALM USER SERVICE: the settings with keys made anew, of these suites; sets host_key.
make_settings() {
    awk -v suites="$1 $2 $2 $3" '
        # A byte with odd parity, as triple DES wants it.
        function odd(byte,    bits, rest) {
            for (rest = int(byte / 2); rest > 0; rest = int(rest / 2)) bits += rest % 2
            return byte - byte % 2 + (bits + 1) % 2
        }
        function made(suite,    size, command, digits, key, i) {
            size = suite ~ /^aes256/ ? 32 : suite ~ /^aes128/ ? 16 : 24
            command = "openssl rand -hex " size
            command | getline digits
            close(command)
            if (suite !~ /^des3/) return digits
            for (i = 1; i < 2 * size; i += 2)
                key = key sprintf("%02x", odd(16 * (index(hex, substr(digits, i, 1)) - 1) + index(hex, substr(digits, i + 1, 1)) - 1))
            return key
        }
        BEGIN { split(suites, of, " "); hex = "0123456789abcdef" }
        /^suite = / { suite = of[++place]; print "suite = \"" suite "\""; next }
        /^key = / { print "key = \"" made(suite) "\""; next }
        { print }' "$top/examples/settings.toml" >"$work/settings.toml"
    chmod 600 "$work/settings.toml"
    host_key=$(sed -n 's/^key = "\(.*\)"/\1/p' "$work/settings.toml" | tail -n 1)
}

# The realm of the settings behind socat, whose replies are kept, too; sets port and bridge. KRB_REALMD may name the built program.
start_realm() {
    if [ -z "${KRB_REALMD:-}" ]; then
        "$top/krb_realm" </dev/null || exit 2
        KRB_REALMD=$top/crates/krb_realmd/out/krb_realmd
    fi
    printf '#!/bin/sh\n%s %s/settings.toml /dev/urandom now | tee -a %s/replies\n' "$KRB_REALMD" "$work" "$work" >"$work/realm"
    chmod +x "$work/realm"
    listen socat "TCP-LISTEN:PORT,bind=127.0.0.1,fork,reuseaddr" "EXEC:$work/realm"
    bridge=$started
}

# configuration KDC FURTHER [LIMIT]: MIT's clients ask over TCP where a message has more octets than the limit. Without one that is each.
configuration() {
    cat <<CONF
[libdefaults]
    default_realm = EXAMPLE.COM
    dns_lookup_kdc = false
    dns_lookup_realm = false
    dns_canonicalize_hostname = false
    rdns = false
    udp_preference_limit = ${3:-1}
    $2
[realms]
    EXAMPLE.COM = {
        kdc = $1
    }
[domain_realm]
    .example.com = EXAMPLE.COM
CONF
}

# start_mit [LINES]: MIT's krb5kdc, with a database that is made anew, and these settings of its realm; sets port and bridge.
start_mit() {
    configuration 127.0.0.1:PORT "allow_weak_crypto = true" >"$work/mit.in"
    cat >"$work/kdc.in" <<CONF
[kdcdefaults]
    kdc_listen = ""
    kdc_tcp_listen = 127.0.0.1:PORT
[realms]
    EXAMPLE.COM = {
        database_name = $work/principal
        key_stash_file = $work/stash
        acl_file = $work/acl
        supported_enctypes = aes256-cts-hmac-sha1-96:normal aes128-cts-hmac-sha1-96:normal aes256-cts-hmac-sha384-192:normal aes128-cts-hmac-sha256-128:normal des3-cbc-sha1:normal
        ${1:-}
    }
CONF
    export KRB5_KDC_PROFILE="$work/kdc.conf"
    cp "$work/mit.in" "$work/mit.conf"
    cp "$work/kdc.in" "$work/kdc.conf"
    mit kdb5_util create -s -r EXAMPLE.COM -P "$(openssl rand -hex 16)" >"$work/log" 2>&1
    cat >"$work/start" <<START
#!/bin/sh
sed "s/PORT/\$1/" $work/mit.in >$work/mit.conf
sed "s/PORT/\$1/" $work/kdc.in >$work/kdc.conf
KRB5_CONFIG=$work/mit.conf exec krb5kdc -n
START
    chmod +x "$work/start"
    listen "$work/start" PORT
    bridge=$started
}

# start_heimdal [LINES]: Heimdal's kdc over TCP, with a database of its own in the temporary folder, by the programs that fetch_heimdal found,
# and these settings of PKINIT; heimdal runs one of them. Sets started, port and bridge, and writes heimdal.conf and mit.conf.
start_heimdal() {
    heimdal_kdc=$(ls "$heimdal_folder/usr/lib/heimdal-servers/kdc" /usr/lib/heimdal-servers/kdc 2>/dev/null | head -n 1)
    cat >"$work/heimdal.in" <<CONF
[kdc]
    database = {
        dbname = $work/heimdal_db
        realm = EXAMPLE.COM
        mkey_file = $work/mkey
        log_file = $work/heimdal_changes
        acl_file = $work/acl
    }
    ${1:-enable-pkinit = no}
    require-preauth = no
[logging]
    default = FILE:$work/heimdal.log
CONF
    configuration tcp/127.0.0.1:PORT "" >>"$work/heimdal.in"
    cp "$work/heimdal.in" "$work/heimdal.conf"
    kadmin_heimdal init --realm-max-ticket-life=10h --realm-max-renewable-life=7d EXAMPLE.COM >"$work/log" 2>&1
    cat >"$work/start" <<START
#!/bin/sh
sed "s/PORT/\$1/" $work/heimdal.in >$work/heimdal.conf
sed "s/PORT/\$1/; s|tcp/||" $work/heimdal.in >$work/mit.conf
LD_LIBRARY_PATH=$libraries exec $heimdal_kdc --config-file=$work/heimdal.conf --ports=\$1/tcp --addresses=127.0.0.1
START
    chmod +x "$work/start"
    listen "$work/start" PORT
    bridge=$started
}

kadmin_heimdal() {
    heimdal kadmin.heimdal -l "--config-file=$work/heimdal.conf" "$@"
}

# fetch_heimdal COMMAND PACKAGE..: Heimdal's programs are those on the path, if COMMAND is among them, or those unpacked in the folder
# HEIMDAL, or else the packages are downloaded by apt-get and unpacked in the temporary folder; sets heimdal_folder, libraries and PATH.
fetch_heimdal() {
    heimdal_folder=${HEIMDAL:-} wanted=$1
    shift
    if [ -z "$heimdal_folder" ] && ! command -v "$wanted" >/dev/null; then
        heimdal_folder=$work/heimdal
        mkdir "$heimdal_folder"
        packages=$(apt-cache depends --recurse --no-recommends --no-suggests --no-conflicts --no-breaks --no-replaces --no-enhances "$@" | grep -E '^lib[a-z0-9-]*-heimdal$' | sort -u)
        (cd "$heimdal_folder" && apt-get download "$@" $packages) >"$work/log" 2>&1
        for package in "$heimdal_folder"/*.deb; do
            dpkg -x "$package" "$heimdal_folder" || exit 2
        done
        if [ ! -x "$heimdal_folder/usr/bin/$wanted" ]; then
            echo "$script: Heimdal is missing, and apt-get can't download it (apt-get update, or set HEIMDAL)" >&2
            exit 2
        fi
    fi
    libraries=$(dirname "$(find "$heimdal_folder/usr/lib" -name 'libkrb5.so.26' 2>/dev/null | head -n 1)")
    PATH=$PATH:$heimdal_folder/usr/bin
}
