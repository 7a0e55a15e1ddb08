#!/bin/bash
# Writes rfc5280.txt: the certificates of RFC 5280, appendix C, put together from its dumps. A line tells of a signed part only where
# openssl verifies that part with the key of the first certificate, which shows that the bytes are the published ones.
cd "$(dirname "$0")" || exit 1
folder=$(mktemp -d) || exit 1
trap 'rm -rf "$folder"' EXIT

# The bytes, as hexadecimal digits, and in a file.
bytes() {
    openssl x509 -in "$1" -outform DER -out "$folder/whole" || exit 1
    od -An -v -tx1 <"$folder/whole" | tr -d ' \n'
}

# Where the first element inside the certificate stands, and its length.
place() {
    openssl asn1parse -inform DER -in "$folder/whole" |
        sed -n '2s/^ *\([0-9]*\):d=1 *hl=\([0-9]*\) *l= *\([0-9]*\).*/\1 \2 \3/p' | while read -r start header content; do
            echo "$start $((header + content))"
        done
}

verified() {
    start=$(openssl asn1parse -inform DER -in "$folder/whole" | awk -F: '/d=1/ { start = $1 + 0 } END { print start }')
    openssl asn1parse -inform DER -in "$folder/whole" -strparse "$start" -noout -out "$folder/signature" || exit 1
    tail -c "+$(($1 + 1))" "$folder/whole" | head -c "$2" >"$folder/part"
    openssl dgst -sha1 -verify "$folder/public" -signature "$folder/signature" "$folder/part" >"$folder/said" || exit 1
}

echo '# The certificates of RFC 5280, appendix C (rfc5280.sh): of an authority and of an end entity, with keys of RSA, and of one with a'
echo '# key of DSA, an algorithm that no public key here has.'
echo '# Type | bytes | deviations in them | strict bytes | place of the signed part, its start and its length; or type | bytes | refused.'
openssl x509 -in rfc5280_c1.pem -noout -pubkey >"$folder/public" || exit 1
for file in rfc5280_c1.pem rfc5280_c2.pem; do
    digits=$(bytes $file)
    bytes $file >"$folder/said"
    where=$(place)
    # shellcheck disable=SC2086
    verified $where
    echo "Certificate | $digits | 0 | $digits | $where"
done
echo "Certificate | $(bytes rfc5280_c3.pem) | refused"
