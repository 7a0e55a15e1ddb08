#!/bin/bash
# Writes openssl.txt: signed data of the one form that is read here, of keys and certificates that openssl makes. A line comes only
# where `openssl cms -verify` takes the signed data, and refuses it with another content. For each there is a line of what is read
# (the columns of read.txt) and one of what is written (those of written.txt, with the keys 'alg=.. signature=..'): what is
# written is then what openssl took. Keys are new at each run.
cd "$(dirname "$0")" || exit 1
here=$PWD
folder=$(mktemp -d) || exit 1
trap 'rm -rf "$folder"' EXIT

hexadecimal() {
    od -An -v -tx1 | tr -d ' \n'
}

binary() {
    printf '%b' "$(printf %s "$1" | sed 's/../\\x&/g')"
}

# An element: its identifier octet and its content as hexadecimal digits.
element() {
    length=$((${#2} / 2))
    if [ $length -lt 128 ]; then
        printf '%s%02x%s' "$1" $length "$2"
    elif [ $length -lt 256 ]; then
        printf '%s81%02x%s' "$1" $length "$2"
    else
        printf '%s82%04x%s' "$1" $length "$2"
    fi
}

# The element number N from 0 inside the first element inside a certificate, by openssl: of the part that is signed.
signed_field() {
    openssl asn1parse -inform DER -in "$folder/certificate" |
        sed -n 's/^ *\([0-9]*\):d=2 *hl=\([0-9]*\) *l= *\([0-9]*\).*/\1 \2 \3/p' |
        sed -n "$(($1 + 1))p" | while read -r start header content; do
        tail -c +$((start + 1)) "$folder/certificate" | head -c $((header + content)) | hexadecimal
    done
}

signed_data=06092a864886f70d010702
content_type=06092a864886f70d010903
message_digest=06092a864886f70d010904
sha256=300d06096086480165030402010500

# Signed data of these parts: content type, content, certificate, signer, signed attributes' content, algorithm, signature.
whole() {
    info=$(element 30 "020101$4$sha256$(element a0 "$5")$6$(element 04 "$7")")
    parts=020103$(element 31 $sha256)$(element 30 "$1$(element a0 "$(element 04 "$2")")")$(element a0 "$3")$(element 31 "$info")
    element 30 "$signed_data$(element a0 "$(element 30 "$parts")")"
}

# Whether openssl takes the signed data, and its content is this one.
verifies() {
    binary "$1" >"$folder/whole"
    openssl cms -verify -inform DER -in "$folder/whole" -CAfile "$folder/pem" -purpose any -out "$folder/content" 2>"$folder/said" &&
        [ "$(hexadecimal <"$folder/content")" = "$2" ]
}

# Lines of a kind of key: its label, arguments of `openssl genpkey`, algorithm, content type as text and as an element, content.
lines() {
    label=$1 algorithm=$3 text=$4 type=$5 content=$6
    # shellcheck disable=SC2086
    openssl genpkey $2 -out "$folder/key" 2>"$folder/said" || exit 1
    openssl req -x509 -new -key "$folder/key" -subj "/O=Example/CN=$label" -days 36500 -sha256 -out "$folder/pem" || exit 1
    openssl x509 -in "$folder/pem" -outform DER -out "$folder/certificate"
    certificate=$(hexadecimal <"$folder/certificate")
    own=$(openssl pkey -in "$folder/key" -pubout -outform DER | hexadecimal)
    serial=$(signed_field 1)
    issuer=$(signed_field 3)
    digest=$(binary "$content" | openssl dgst -sha256 -binary | hexadecimal)
    attributes=$(element 30 "$content_type$(element 31 "$type")")$(element 30 "$message_digest$(element 31 "$(element 04 "$digest")")")
    binary "$(element 31 "$attributes")" >"$folder/judged"
    signature=$(openssl dgst -sha256 -sign "$folder/key" "$folder/judged" | hexadecimal)
    signer=$(element 30 "$issuer$serial")
    bytes=$(whole "$type" "$content" "$certificate" "$signer" "$attributes" "$algorithm" "$signature")
    verifies "$bytes" "$content" || { echo "$label: refused by openssl" >&2; cat "$folder/said" >&2; exit 1; }
    other=$(whole "$type" "${content}00" "$certificate" "$signer" "$attributes" "$algorithm" "$signature")
    if verifies "$other" "${content}00"; then echo "$label: another content is taken" >&2; exit 1; fi
    printf '%s\t%s\tRead\t%s\t%s\t%s\t%s\t%s\t' "$label" "$bytes" "$text" "$content" "$certificate" "$issuer" "${serial:4}"
    printf '%s\t%s\t%s\t%s\t%s\t%s\t0\t0\tsigner\tdigest\n' "$(element a0 "$attributes")" "$(hexadecimal <"$folder/judged")" "$digest" \
        "$algorithm" "$algorithm" "$signature"
    printf '%s\t%s\t%s\t%s\talg=%s signature=%s\t%s\t%s\n' "$label" "$text" "$content" "$certificate" "$algorithm" "$signature" "$own" "$bytes"
}

{
    echo "# Made by openssl.sh ($(openssl version | cut -d' ' -f1-2)): 'openssl cms -verify' takes each input. The columns are those of read.txt and of written.txt."
    lines rsa "-algorithm RSA -pkeyopt rsa_keygen_bits:2048" 300d06092a864886f70d01010b0500 1.3.6.1.5.2.3.1 06072b060105020301 \
        "$(printf 'what a client signs' | hexadecimal)"
    lines ec "-algorithm EC -pkeyopt ec_paramgen_curve:P-256" 300a06082a8648ce3d040302 1.3.6.1.5.2.3.2 06072b060105020302 \
        "$(printf 'what a KDC signs' | hexadecimal)"
    lines data "-algorithm EC -pkeyopt ec_paramgen_curve:P-384" 300a06082a8648ce3d040302 1.2.840.113549.1.7.1 06092a864886f70d010701 \
        "$(head -c 300 /dev/zero | hexadecimal)"
} >"$here/openssl.txt"
