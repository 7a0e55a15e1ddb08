#!/bin/sh
# Makes certificates for PKINIT by openssl: an authority's, a KDC's and a client's, each with a key of its own.
#
#     examples/pkinit_certificates.sh REALM USER FOLDER
#
# FOLDER gets anchor.pem, kdc.pem and client.pem, the same in DER (anchor.der, ..), and the keys anchor.key, kdc.key and client.key.
# Nobody else can read the keys, which are of RSA with 2,048 bits. Each certificate is valid for a year. DAYS, and KEY (what
# `openssl genpkey` gets), may say otherwise, as KEY='-algorithm RSA -pkeyopt rsa_keygen_bits:4096'. This project takes RSA keys alone, of
# 2,048 to 4,096 bits.
#
# Where FOLDER has an authority already, it stays. It signs one further certificate then, with a key of its own: USER.pem, USER.der and
# USER.key, or for the USER `-` the KDC's next one: kdc-next.pem, .. Files that are there already are an error.
set -eu
[ $# -eq 3 ] || { echo "usage: $0 REALM USER FOLDER" >&2; exit 2; }
export REALM="$1" USER="$2"
folder=$3
config=$(dirname "$0")/pkinit.cnf
days=${DAYS:-365}
umask 077
mkdir -p "$folder"

# The key of a holder, and a request for its certificate, by the name of their files.
asked() {
    # shellcheck disable=SC2086
    openssl genpkey ${KEY:--algorithm RSA -pkeyopt rsa_keygen_bits:2048} -out "$folder/$1.key"
    HOLDER="$2" openssl req -new -sha256 -config "$config" -key "$folder/$1.key" -out "$folder/$1.req"
}

# The certificate of such a holder, with the extensions of a section, signed by the anchor's key.
signed() {
    HOLDER="$1" openssl x509 -req -sha256 -days "$days" -in "$folder/$1.req" -out "$folder/$1.pem" \
        -extfile "$config" -extensions "$2" -CA "$folder/anchor.pem" -CAkey "$folder/anchor.key" -set_serial "0x$(openssl rand -hex 16)"
    rm "$folder/$1.req"
    openssl x509 -in "$folder/$1.pem" -outform DER -out "$folder/$1.der"
    openssl verify -x509_strict -CAfile "$folder/anchor.pem" "$folder/$1.pem"
}

if [ -e "$folder/anchor.key" ]; then
    name=$USER section=client holder=$USER
    [ "$USER" != - ] || { name=kdc-next section=kdc holder="KDC of $REALM"; }
    case $USER in */* | .* | anchor | client | kdc | kdc-next) echo "$0: USER '$USER' is no name for files in $folder" >&2; exit 2 ;; esac
    for file in "$folder/$name.key" "$folder/$name.pem" "$folder/$name.der"; do
        [ ! -e "$file" ] || { echo "$0: $file is there already: move it away first" >&2; exit 1; }
    done
    asked "$name" "$holder"
    signed "$name" "$section"
    exit
fi

asked anchor 'Certificate authority'
HOLDER='Certificate authority' openssl x509 -req -sha256 -days "$days" -in "$folder/anchor.req" -out "$folder/anchor.pem" \
    -extfile "$config" -extensions authority -signkey "$folder/anchor.key"
rm "$folder/anchor.req"
openssl x509 -in "$folder/anchor.pem" -outform DER -out "$folder/anchor.der"
asked kdc "KDC of $REALM"
signed kdc kdc
asked client "$USER"
signed client client
