#!/bin/sh
# Writes lines of standards.txt: a private and a public key of each kind, as openssl makes them anew.
hexadecimal() {
    od -An -v -tx1 | tr -d ' \n'
}

line() {
    echo "$1 | $2 | 0 | $2"
}

made=$(mktemp) || exit 1
trap 'rm -f "$made"' EXIT
for kind in '-algorithm RSA -pkeyopt rsa_keygen_bits:2048' '-algorithm EC -pkeyopt ec_paramgen_curve:P-256' '-algorithm ED25519' '-algorithm X25519'; do
    # shellcheck disable=SC2086
    openssl genpkey $kind -out "$made" 2>/dev/null || exit 1
    line PrivateKeyInfo "$(openssl pkcs8 -topk8 -nocrypt -in "$made" -outform DER | hexadecimal)"
    line SubjectPublicKeyInfo "$(openssl pkey -in "$made" -pubout -outform DER | hexadecimal)"
done
