#!/bin/bash
# Writes published.txt: the parts of the certificates of RFC 5280, appendix C, as they are published, and the same parts looser.
cd "$(dirname "$0")" || exit 1
folder=$(mktemp -d) || exit 1
trap 'rm -rf "$folder"' EXIT

# Elements of the certificate at a depth: the part's place in it, and its identifier as openssl prints it.
elements() {
    openssl asn1parse -inform DER -in "$folder/whole" | sed -n "s/^ *\([0-9]*\):d=$1 .*: *\([^ ].*\)$/\1 \2/p"
}

# The element at a place, as hexadecimal digits.
at() {
    openssl asn1parse -inform DER -in "$folder/whole" -strparse "$1" -noout -out "$folder/part" || exit 1
    od -An -v -tx1 <"$folder/part" | tr -d ' \n'
}

# A SEQUENCE of less than 256 octets, of its content as hexadecimal digits.
sequence() {
    length=$((${#1} / 2))
    if [ $length -lt 128 ]; then printf '30%02x%s' $length "$1"; else printf '3081%02x%s' $length "$1"; fi
}

# An extension with a critical of FALSE behind its identifier of three octets, where it is not critical.
spelled_out() {
    case $1 in
        30??0603??????0101ff*) printf %s "$1" ;;
        *) sequence "${1:4:10}010100${1:14}" ;;
    esac
}

echo '# Parts of the certificates of RFC 5280, appendix C (published.sh), as they stand there, and with critical spelled out or NULL left out.'
echo '# Type | bytes | deviations in them | strict bytes, or type | bytes | refused. Bytes are hexadecimal.'
for number in 1 2 3; do
    openssl x509 -in rfc5280_c$number.pem -outform DER -out "$folder/whole" || exit 1
    readarray -t places < <(elements 2 | sed -n 's/ SEQUENCE.*//p')
    types=(AlgorithmIdentifier Name Validity Name SubjectPublicKeyInfo)
    for index in 0 1 2 3 4; do
        digits=$(at "${places[index]}")
        case ${types[index]}$number in
            SubjectPublicKeyInfo3) echo "${types[index]} | $digits | refused" ;;
            *) echo "${types[index]} | $digits | 0 | $digits" ;;
        esac
        case ${types[index]},$digits in
            AlgorithmIdentifier,*0500) echo "AlgorithmIdentifier | $(sequence "${digits:4:-4}") | 1 | $digits" ;;
        esac
    done
    strict=
    loose=
    deviations=0
    field=$(elements 2 | sed -n 's/ cont \[ 3 \].*//p')
    for place in $(elements 4 | awk -v field="$field" '$1 > field && $2 == "SEQUENCE" { print $1 }'); do
        digits=$(at "$place")
        other=$(spelled_out "$digits")
        strict+=$digits
        loose+=$other
        echo "Extension | $digits | 0 | $digits"
        if [ "$other" != "$digits" ]; then
            echo "Extension | $other | 1 | $digits"
            deviations=$((deviations + 1))
        fi
    done
    echo "Extensions | $(sequence "$strict") | 0 | $(sequence "$strict")"
    echo "Extensions | $(sequence "$loose") | $deviations | $(sequence "$strict")"
done
