#!/bin/sh
# Makes the certificates and keys anew, by openssl: an authority's, the realm's and the user's, valid from 1999 to 2048.
cd "$(dirname "$0")" || exit 1
made=$(mktemp -d) || exit 1
trap 'rm -rf "$made"' EXIT
conf=../../../examples/pkinit.cnf
export REALM=EXAMPLE.COM USER=user
: >"$made/index"
printf '%s\n' '[ca]' 'default_ca = own' '[own]' "database = $made/index" "new_certs_dir = $made" 'rand_serial = yes' 'default_md = sha256' \
    'policy = any' '[any]' 'O = optional' 'CN = optional' >"$made/ca.cnf"

# certificate NAME SECTION OPTION..: a certificate with a key of its own and the extensions of a section, issued by the authority.
certificate() {
    export HOLDER="$1"
    section=$2
    shift 2
    openssl req -new -newkey rsa:2048 -noenc -config $conf -keyout "$made/$HOLDER.key" -out "$made/$HOLDER.req" &&
        openssl ca -batch -notext -config "$made/ca.cnf" -keyfile "$made/anchor.key" -startdate 19990101000000Z -enddate 20490101000000Z \
            -in "$made/$HOLDER.req" -out "$made/$HOLDER.pem" -extfile $conf -extensions "$section" "$@"
}

certificate anchor authority -selfsign && certificate realm kdc -cert "$made/anchor.pem" && certificate user client -cert "$made/anchor.pem" &&
    cat "$made/anchor.pem" >anchor.pem && cat "$made/realm.pem" >realm.pem && cat "$made/realm.key" >realm.key &&
    cat "$made/user.pem" >user.pem && cat "$made/user.key" >user.key
