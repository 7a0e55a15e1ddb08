#!/bin/sh
# Makes a certificate anew, and writes what openssl reads in it, as the program prints it, behind the messages in ../stdout.
cd "$(dirname "$0")" || exit 1
key=$(mktemp) || exit 1
names=$(mktemp) || exit 1
trap 'rm -f "$key" "$names"' EXIT
openssl req -x509 -newkey ec -pkeyopt ec_paramgen_curve:P-256 -noenc -keyout "$key" -subj '/CN=Desk' -days 36500 -outform DER -out certificate.der \
    -addext 'subjectAltName=DNS:desk.example.org,DNS:kdc.example.org,email:desk@example.org,URI:https://desk.example.org/' || exit 1
openssl x509 -inform DER -in certificate.der -noout -ext subjectAltName | sed -n '2s/, /\n/gp' | sed 's/^ *//' >"$names"
openssl asn1parse -inform DER -in certificate.der -strparse 4 -noout -out "$key"
messages=$(head -n 6 ../stdout)
{
    printf '%s\n' "$messages"
    cat "$names"
    od -An -v -tx1 "$key" | tr -d ' \n'
    echo
} >../stdout
