#!/bin/sh
# The program example_initiator logs in at stock acceptors on 127.0.0.1, by tickets that krb_login gets of MIT's krb5kdc: at MIT's gss-server,
# at Heimdal's library behind gss_server.py, since Debian has no such server of Heimdal's, and at Apache with mod_auth_gssapi. At the first two
# it sends messages that are encrypted, only protected by a checksum, and neither, with a session key of each suite of AES, with and without
# mutual authentication, bare and through SPNEGO, and verifies the acceptor's MIC of each. gss_server.py, over both libraries, wants channel
# bindings, too. Acceptors refuse it as they should by a clock that is 10 minutes off, by an expired ticket, with another key, with other
# bindings, and where its frames come again. It refuses answers to another request, answers with one octet changed, and no answer. Prints
# what each gave; the status is 1 where one differs from what it should, and 2 where a tool is missing. All files are in a temporary folder,
# and what is started is ended.
#
# Usage: examples/gss_servers.sh [mit|heimdal|bindings|web..]: all of it, or the parts that are named. KRB_LOGIN and EXAMPLE_INITIATOR may name
# programs that are built already. HEIMDAL is as in real_clients.sh.
#        examples/gss_servers.sh record: makes the files of the run of crates/example_initiator anew, by a login at MIT's gss-server
set -u
script=gss_servers
top=$(cd "$(dirname "$0")/.." && pwd)
work=$(mktemp -d)
bridge= server= web= one=
trap 'kill $bridge $server $web $one 2>/dev/null; wait; rm -rf "$work"' EXIT
trap 'exit 1' INT TERM
. "$top/examples/stock.sh"
. "$top/examples/stock_web.sh"
. "$top/bench/programs.sh"
suites='aes256-cts-hmac-sha1-96 aes128-cts-hmac-sha1-96 aes256-cts-hmac-sha384-192 aes128-cts-hmac-sha256-128'
[ $# -gt 0 ] || set -- mit heimdal bindings web

need socat socat
need python3 python3
need krb5kdc krb5-kdc
need kadmin.local krb5-admin-server
need gss-server krb5-gss-samples
need faketime faketime
case " $* " in *" web "*) need_web ;; esac
[ "$missing" -eq 0 ] || exit 2
program KRB_LOGIN krb_login
program EXAMPLE_INITIATOR example_initiator
case " $* " in *" heimdal "* | *" bindings "*) fetch_heimdal kinit.heimdal heimdal-clients ;; esac
export KRB5RCACHEDIR="$work/replays"
mkdir "$KRB5RCACHEDIR"

# The initiator at a server, behind socat, which runs this with the arguments of the file.
cat >"$work/run" <<RUN
#!/bin/sh
. $work/arguments
$EXAMPLE_INITIATOR talk -c $work/cache "\$@"
echo \$? >$work/ended
RUN
chmod +x "$work/run"

# talk ARGUMENT..: the initiator at the server, by the cache, on one connection. The frames of both are kept in sent and got.
talk() {
    rm -f "$work/sent" "$work/got" "$work/ended"
    : >"$work/log"
    {
        printf 'set --'
        printf " '%s'" "$@"
    } >"$work/arguments"
    socat -r "$work/got" -R "$work/sent" "TCP:127.0.0.1:$server_port" "EXEC:$work/run"
    ended=$(cat "$work/ended")
    echo "status $ended"
    return "$ended"
}

# server_says TEXT [COUNT]: whether the server says it within two seconds, in so many lines.
server_says() {
    for _ in 1 2 3 4 5 6 7 8 9 10; do
        if [ "$(grep -a -c -e "$1" "$work/log")" -ge "${2:-1}" ]; then
            grep -a -e "$1" "$work/log"
            return 0
        fi
        sleep 0.2
    done
    return 1
}

# served COUNT ARGUMENT..: likewise. The initiator has to find so many MICs right, and the server to know the user and receive the messages.
served() {
    count=$1
    shift
    talk "$@" >"$work/talked" 2>&1 && cat "$work/talked" && [ "$(grep -c "^the service's MIC of .* is right" "$work/talked")" -eq "$count" ] &&
        server_says "user@EXAMPLE.COM" && { [ "$count" -eq 0 ] || server_says "eceived" "$count"; }
}

# told CAUSE ARGUMENT..: likewise, where the server says why it refuses.
told() {
    cause=$1
    shift
    talk "$@"
    ended=$?
    server_says "$cause" || echo "the server doesn't say: $cause"
    return "$ended"
}

# heard FILE ARGUMENT..: the initiator with these frames for the server's.
heard() {
    frames=$1
    shift
    "$EXAMPLE_INITIATOR" talk -c "$work/cache" "$@" <"$frames" >/dev/null
}

# changed FILE PLACE: the frames with one bit of an octet changed, at this place or, if it is negative, so many octets before the end.
changed() {
    python3 - "$work/$1" "$2" "$work/changed" <<'PYTHON'
import sys
octets = bytearray(open(sys.argv[1], "rb").read())
octets[int(sys.argv[2])] ^= 1
open(sys.argv[3], "wb").write(octets)
PYTHON
}

# serve_mit: MIT's gss-server with the keytab.
serve_mit() {
    listen ${CLOCK:-} gss-server -port PORT -verbose -keytab "$work/host.keytab" "host@$host"
    server=$started server_port=$port
}

# serve_library FOLDER LIBRARY OPTION..: gss_server.py over this library.
serve_library() {
    folder=$1 library=$2
    shift 2
    listen env "LD_LIBRARY_PATH=$folder" "KRB5_KTNAME=FILE:$work/host.keytab" ${CLOCK:-} "$top/examples/gss_server.py" --port PORT "$@" "$library"
    server=$started server_port=$port
}

serve_heimdal() {
    serve_library "$libraries" libgssapi.so.3 "$@"
}

stop_server() {
    kill "$server"
    wait "$server" 2>/dev/null
    server=
}

login() {
    "$top/bridges/krb_connect" "127.0.0.1:$kdc_port" -- "$KRB_LOGIN" -c "$work/cache" -p "$work/password" "$@" user@EXAMPLE.COM
}

# key_of SUITE: a further key of the service, the only one that the KDC has, and a keytab with it alone. Session keys are of the suite.
key_of() {
    rm -f "$work/host.keytab"
    mit kadmin.local -q "cpw -randkey -e $1:normal host/$host" && mit kadmin.local -q "setstr host/$host session_enctypes $1" &&
        mit kadmin.local -q "ktadd -norandkey -k $work/host.keytab host/$host" && mit klist -k -e "$work/host.keytab" | grep "$1"
}

# by_suite SUITE: a key of this suite, and tickets for the service.
by_suite() {
    try "$1: the service's key" yes "($1)" key_of "$1"
    try "$1: krb_login, with a ticket for the service" yes "" login -s "host/$host"
    try "$1: its session key" yes "skey, tkt): $1, " mit klist -e -c "$work/cache"
}

# rows SUITE: what each suite is tried with.
rows() {
    try "$1: a message that is encrypted" yes "has authenticated itself" served 1 "host@$host" "a message"
    try "$1: the service as a principal, and three messages" yes "" served 3 "host/$host@EXAMPLE.COM" one two three
    try "$1: three messages that have a checksum alone" yes "" served 3 -p checksum "host@$host" one two three
    try "$1: a message that isn't wrapped" yes "" served 1 -p bare "host@$host" "a message"
    try "$1: without mutual authentication" yes "has not authenticated itself yet" served 1 -m no "host@$host" "a message"
    try "$1: without mutual authentication, three messages that have a checksum alone" yes "" served 3 -m no -p checksum "host@$host" one two three
    try "$1: channel bindings that the acceptor doesn't ask for" yes "" served 1 -b "some data" "host@$host" "a message"
    try "$1: no message" yes "" served 0 "host@$host"
    try "$1: SPNEGO" yes "has authenticated itself" served 1 -f spnego "host@$host" "a message"
    try "$1: SPNEGO, three messages that have a checksum alone" yes "" served 3 -f spnego -p checksum "host@$host" one two three
    try "$1: SPNEGO, a message that isn't wrapped" yes "" served 1 -f spnego -p bare "host@$host" "a message"
    try "$1: SPNEGO without mutual authentication, three messages" yes "" served 3 -f spnego -m no "host@$host" one two three
}

# What the acceptor refuses. It says why in an answer where mutual authentication is asked for, and else to its own log.
refused_rows() {
    try "$acceptor: the initiator's clock 10 minutes ahead" no "KRB_AP_ERR_SKEW (37)" talk -t "$(later 10)" "host@$host" "a message"
    try "$acceptor: 10 minutes behind" no "KRB_AP_ERR_SKEW (37)" talk -t "$(later -10)" "host@$host" "a message"
    try "$acceptor: through SPNEGO" no "" talk -f spnego -t "$(later 10)" "host@$host" "a message"
    try "$acceptor: without mutual authentication" no "" talk -m no -t "$(later 10)" "host@$host" "a message"
    try "$acceptor: a service that the cache has no ticket for" no "expected a user with a ticket for host@other.example.com" talk host@other.example.com "a message"
}

# What the initiator refuses: answers that are kept, where it has the same random octets and time once more.
answer_rows() {
    head -c 960 /dev/urandom >"$work/words"
    set -- -r "$work/words" -t "$(later 0)" "host@$host" "a message"
    try "$acceptor: a login whose frames are kept" yes "" served 1 "$@"
    cp "$work/got" "$work/kept_got"
    try "$acceptor: the server's frames again, of a file" yes "is right" heard "$work/kept_got" "$@"
    try "$acceptor: the answer to another request" no "" heard "$work/kept_got" "host@$host" "a message"
    for place in 5 24 40 60; do
        changed kept_got $place
        try "$acceptor: the answer with octet $place changed" no "" heard "$work/changed" "$@"
    done
    changed kept_got -1
    try "$acceptor: the MIC with its last octet changed" no "the checksum is wrong" heard "$work/changed" "$@"
    changed kept_got -20
    try "$acceptor: the MIC with an octet of its sequence number changed" no "" heard "$work/changed" "$@"
    head -c 50 "$work/kept_got" >"$work/cut"
    try "$acceptor: a part of the answer" no "ended within a frame" heard "$work/cut" "$@"
    try "$acceptor: no answer" no "expected the service's token" heard /dev/null "$@"
    # Heimdal's library has no replay cache: it takes a token twice.
    [ "$acceptor" = heimdal ] || try "$acceptor: the same token again" no "KRB_AP_ERR_REPEAT (34)" talk "$@"
}

# Tickets that the acceptor can't take, for reasons of its own.
ticket_rows() {
    stop_server
    CLOCK="faketime -f +11h"
    "serve_$acceptor"
    try "$acceptor: an expired ticket" no "" talk -t "$(later 660)" "host@$host" "a message"
    stop_server
    CLOCK=
    key_of aes256-cts-hmac-sha1-96 >>"$work/keys" 2>&1
    "serve_$acceptor"
    try "$acceptor: a ticket under a key that the acceptor doesn't have" no "" talk "host@$host" "a message"
    stop_server
}

# acceptor_part NAME: all of this at an acceptor.
acceptor_part() {
    acceptor=$1
    for suite in $suites; do
        by_suite "$suite"
        "serve_$acceptor"
        rows "$suite"
        [ "$suite" = aes256-cts-hmac-sha1-96 ] && refusals
        stop_server
    done
}

refusals() {
    refused_rows
    answer_rows
    ticket_rows
    by_suite aes256-cts-hmac-sha1-96
    "serve_$acceptor"
    try "$acceptor: a login after all of these" yes "" served 1 "host@$host" "a message"
}

mit_part() {
    echo "==== MIT's gss-server"
    acceptor_part mit
}

heimdal_part() {
    echo "==== Heimdal's library"
    acceptor_part heimdal
}

# Acceptors that want channel bindings.
bindings_part() {
    echo "==== channel bindings"
    by_suite aes256-cts-hmac-sha1-96
    serve_library "" libgssapi_krb5.so.2 --bindings "some data"
    bindings_rows "MIT's library"
    serve_heimdal --bindings "some data"
    bindings_rows "Heimdal's library"
}

bindings_rows() {
    for form in kerberos spnego; do
        try "$1, $form: the bindings that it wants" yes "" served 1 -f $form -b "some data" "host@$host" "a message"
        try "$1, $form: without mutual authentication" yes "" served 1 -f $form -m no -b "some data" "host@$host" "a message"
        try "$1, $form: other bindings" no "refused: .*bindings" told "refused: " -f $form -b "other data" "host@$host" "a message"
    done
    stop_server
}

# web_login OPTION..: the page, by the token as a field of the request. The initiator takes the server's answer.
web_login() {
    rm -f "$work/answer" "$work/request"
    mkfifo "$work/answer" "$work/request"
    "$EXAMPLE_INITIATOR" negotiate -c "$work/cache" "$@" "HTTP@$host" <"$work/answer" >"$work/request" &
    one=$!
    exec 3>"$work/answer" 4<"$work/request"
    read -r field <&4
    get -H "$field"
    got=$?
    sed -n 's/^WWW-Authenticate: Negotiate //ip' "$work/head" | tr -d '\r' >&3
    exec 3>&- 4<&-
    wait "$one"
    ended=$?
    one=
    echo "the initiator: status $ended"
    [ "$got" -eq 0 ] && [ "$ended" -eq 0 ]
}

# served_more COUNT: waits until the server's log has more lines than so many. Apache writes a line after its answer.
served_more() {
    tries=50
    until [ "$(wc -l <"$work/requests")" -gt "$1" ] || [ $((tries -= 1)) -eq 0 ]; do
        sleep 0.1
    done
}

# get OPTION..: the page by curl. It says the status of HTTP, and whom the server took for the user.
get() {
    before=$(wc -l <"$work/requests")
    KRB5CCNAME=FILE:$work/none curl -s -o "$work/page" -D "$work/head" "$@" --resolve "$host:$web_port:127.0.0.1" "http://$host:$web_port/" || return 1
    head -n 1 "$work/head"
    grep -i '^WWW-Authenticate' "$work/head" | cut -c 1-60
    served_more "$before"
    tail -n 1 "$work/requests"
    head -n 1 "$work/head" | grep -q " 200 "
}

web_keytab() {
    mit kadmin.local -q "addprinc -randkey HTTP/$host" && mit kadmin.local -q "ktadd -norandkey -k $work/web.keytab HTTP/$host" &&
        chown "$web_user" "$work/web.keytab"
}

web_part() {
    echo "==== Apache"
    try "the web server's keytab" yes "" web_keytab
    try "krb_login, with a ticket for the web server" yes "" login -s "HTTP/$host"
    start_web "$work/mit.conf"
    try "without a token" no " 401 " get
    for form in spnego kerberos; do
        try "$form: the token as Authorization: Negotiate, and the answer" yes "user@EXAMPLE.COM 200" web_login -f $form
        kept=$field
        try "$form: the same token again" no " 401 " get -H "$kept"
        try "$form: without mutual authentication" yes "user@EXAMPLE.COM 200" web_login -f $form -m no
        try "$form: the initiator's clock 10 minutes off" no " 401 " web_login -f $form -t "$(later 10)"
    done
    try "no base64 for the answer" no "expected the server's token in base64" typed "a b" "$EXAMPLE_INITIATOR" negotiate -c "$work/cache" "HTTP@$host"
    try "no answer" no "expected the server's token in base64" "$EXAMPLE_INITIATOR" negotiate -c "$work/cache" "HTTP@$host"
}

# The run of crates/example_initiator: arguments, cache, random octets, and the frames of both.
record() {
    crate=$top/crates/example_initiator
    by_suite aes256-cts-hmac-sha1-96
    serve_mit
    mkdir -p "$crate/data"
    head -c 288 /dev/urandom >"$work/words"
    moment=$(later 0)
    served 2 -f spnego -r "$work/words" -t "$moment" "host@$host" "a message" "another message" || exit 1
    cp "$work/got" "$crate/stdin"
    cp "$work/sent" "$crate/stdout"
    install -m 644 "$work/words" "$work/cache" "$crate/data"
    printf '%s\n' talk -c cache -f spnego -r words -t "$moment" "host@$host" "a message" "another message" >"$crate/args"
}

echo "$password" >"$work/password"
start_mit
kdc_port=$port
mit kadmin.local -q "addprinc +requires_preauth -pw \"$password\" user" >>"$work/keys" 2>&1
mit kadmin.local -q "addprinc -randkey host/$host" >>"$work/keys" 2>&1
export KRB5_CONFIG="$work/mit.conf"
for part in "$@"; do
    case $part in
        mit | heimdal | bindings | web) "${part}_part" ;;
        record) record ;;
        *) echo "$script: $part: expected mit, heimdal, bindings, web or record" >&2 && exit 2 ;;
    esac
done

echo "$passed right, $failed wrong"
[ "$failed" -eq 0 ]
