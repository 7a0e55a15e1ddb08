#!/bin/bash
# Writes openssl.txt: certificates and requests that openssl makes, and the same in looser spellings, signed as they stand
# there. A line of a certificate or a request comes only where openssl verifies the part whose place is the last column with the
# signer's key, and, where the strict bytes are others, refuses the part of those. Keys are new at each run.
cd "$(dirname "$0")" || exit 1
here=$PWD
folder=$(mktemp -d) || exit 1
trap 'rm -rf "$folder"' EXIT

hexadecimal() {
    od -An -v -tx1 | tr -d ' \n'
}

binary() {
    printf '%b' "$(printf %s "$1" | sed 's/../\\x&/g')"
}

# An element: its identifier octet and its content as hexadecimal digits.
element() {
    length=$((${#2} / 2))
    if [ $length -lt 128 ]; then
        printf '%s%02x%s' "$1" $length "$2"
    elif [ $length -lt 256 ]; then
        printf '%s81%02x%s' "$1" $length "$2"
    else
        printf '%s82%04x%s' "$1" $length "$2"
    fi
}

# Where the first element inside an element stands, and its length (by openssl), as `4 267`.
place() {
    binary "$1" >"$folder/whole"
    openssl asn1parse -inform DER -in "$folder/whole" |
        sed -n '2s/^ *\([0-9]*\):d=1 *hl=\([0-9]*\) *l= *\([0-9]*\).*/\1 \2 \3/p' | while read -r start header content; do
        echo "$start $((header + content))"
    done
}

# Bytes of a part, as hexadecimal digits, by its place.
part() {
    printf %s "$1" | cut -c "$(($2 * 2 + 1))-$((($2 + $3) * 2))"
}

key() {
    case $1 in
        rsa) openssl genpkey -algorithm RSA -pkeyopt rsa_keygen_bits:2048 -out "$2" 2>"$folder/said" ;;
        ec) openssl genpkey -algorithm EC -pkeyopt ec_paramgen_curve:P-256 -out "$2" ;;
        *) openssl genpkey -algorithm "$1" -out "$2" ;;
    esac || exit 1
}

# Signs the bytes, hexadecimal digits, by the key of a kind.
sign() {
    binary "$3" >"$folder/text"
    case $1 in
        ED25519) openssl pkeyutl -sign -rawin -inkey "$2" -in "$folder/text" ;;
        *) openssl dgst -sha256 -sign "$2" "$folder/text" ;;
    esac | hexadecimal
}

# Whether a signature over these bytes, both hexadecimal digits, is that of the public key of a kind.
verifies() {
    binary "$3" >"$folder/text"
    binary "$4" >"$folder/signature"
    case $1 in
        ED25519) openssl pkeyutl -verify -rawin -pubin -inkey "$2" -in "$folder/text" -sigfile "$folder/signature" ;;
        *) openssl dgst -sha256 -verify "$2" -signature "$folder/signature" "$folder/text" ;;
    esac >"$folder/said" 2>&1
}

# The content octets of the signature at the end of a certificate or a request.
signature() {
    binary "$1" >"$folder/whole"
    start=$(openssl asn1parse -inform DER -in "$folder/whole" | awk -F: '/d=1/ { start = $1 + 0 } END { print start }')
    openssl asn1parse -inform DER -in "$folder/whole" -strparse "$start" -noout -out "$folder/bits" 2>"$folder/said"
    hexadecimal <"$folder/bits"
}

# A line: type, kind and public key of the signer, bytes, count, strict bytes.
line() {
    where=$(place "$4")
    signed=$(signature "$4")
    # shellcheck disable=SC2086
    verifies "$2" "$3" "$(part "$4" $where)" "$signed" || { echo "not verified: $1 $5" >&2; exit 1; }
    # shellcheck disable=SC2046
    if [ "$4" != "$6" ] && [ "$(part "$4" $where)" != "$(part "$6" $(place "$6"))" ]; then
        verifies "$2" "$3" "$(part "$6" $(place "$6"))" "$signed" && { echo "verified rewritten: $1" >&2; exit 1; }
    fi
    echo "$1 | $4 | $5 | $6 | $where"
}

strict() {
    line "$1" "$2" "$3" "$4" 0 "$4"
}

# The fields inside a certificate's or a request's first element, each as hexadecimal digits, one a line.
fields() {
    binary "$1" >"$folder/whole"
    openssl asn1parse -inform DER -in "$folder/whole" |
        sed -n 's/^ *\([0-9]*\):d=2 *hl=\([0-9]*\) *l= *\([0-9]*\).*/\1 \2 \3/p' >"$folder/places"
    end=$(place "$1" | awk '{ print $1 + $2 }')
    while read -r start header content; do
        [ "$start" -lt "$end" ] && part "$1" "$start" $((header + content)) && echo
    done <"$folder/places"
}

# Puts a signed thing together: kind, key, fields, algorithm of the outside.
signed() {
    inside=$(element 30 "$3")
    element 30 "$inside$4$(element 03 "00$(sign "$1" "$2" "$inside")")"
}

der() {
    "$@" -outform DER | hexadecimal
}

public() {
    openssl pkey -in "$1" -pubout -out "$1.public"
}

cd "$folder" || exit 1
cp "$here/openssl.cnf" .
echo "# Certificates and requests by $(openssl version | cut -d' ' -f1,2) (openssl.sh, of openssl.cnf), and a published one."
echo '# Type | bytes | deviations in them | strict bytes | place of the signed part, its start and its length, which openssl verifies.'
for kind in rsa ec ED25519; do
    key $kind $kind && public $kind
done
export HOLDER=authority
for kind in rsa ec ED25519; do
    openssl req -x509 -config openssl.cnf -extensions authority -key $kind -days 3650 -out $kind.root || exit 1
    strict Certificate $kind $kind.public "$(der openssl x509 -in $kind.root)"
done
# A leaf of each kind under a root of another, and one of version 1; the chain is verified too.
export HOLDER=server.example.com
while read -r root kind; do
    key $kind leaf && public leaf
    case $kind in
        X25519) openssl req -new -config openssl.cnf -key $root -out request ;;
        *) openssl req -new -config openssl.cnf -key leaf -out request ;;
    esac || exit 1
    openssl x509 -req -in request -CA $root.root -CAkey $root -CAcreateserial -days 365 -extfile openssl.cnf -extensions server \
        -force_pubkey leaf.public -out leaf.certificate 2>said || exit 1
    openssl verify -CAfile $root.root leaf.certificate >said 2>&1 || { cat said >&2; exit 1; }
    strict Certificate $root $root.public "$(der openssl x509 -in leaf.certificate)"
done <<KINDS
rsa ec
ec rsa
ED25519 X25519
rsa ED25519
KINDS
openssl req -new -config openssl.cnf -key rsa -out request || exit 1
openssl x509 -req -in request -signkey rsa -days 365 -out plain 2>said || exit 1
plain=$(der openssl x509 -in plain)
strict Certificate rsa rsa.public "$plain"
for kind in rsa ec ED25519; do
    openssl req -new -config openssl.cnf -key $kind -out $kind.request || exit 1
    strict CertificationRequest $kind $kind.public "$(der openssl req -in $kind.request)"
    openssl req -new -config openssl.cnf -reqexts asked -key $kind -out request || exit 1
    strict CertificationRequest $kind $kind.public "$(der openssl req -in request)"
done
# The strict bytes of what is spelled more loosely have the loose one's signature.
loosely() {
    bits=$(element 03 "00$(signature "$4")")
    line "$1" "$2" "$3" "$4" "$5" "$(element 30 "$(element 30 "$6")$7$bits")"
}
null=300d06092a864886f70d01010b0500
none=300b06092a864886f70d01010b
ecdsa=300a06082a8648ce3d040302
ecdsa_null=300c06082a8648ce3d0403020500
ed25519=300506032b6570
ed25519_null=300706032b65700500
# Version 1 spelled out; no NULL of RSA, inside, outside and both.
held=$(fields "$plain" | tr -d '\n')
loosely Certificate rsa rsa.public "$(signed rsa rsa "a003020100$held" $null)" 1 "$held" $null
missing=$(echo "$held" | sed "s/$null/$none/")
loosely Certificate rsa rsa.public "$(signed rsa rsa "$missing" $none)" 2 "$held" $null
loosely Certificate rsa rsa.public "$(signed rsa rsa "$held" $none)" 1 "$held" $null
loosely Certificate rsa rsa.public "$(signed rsa rsa "a003020100$missing" $none)" 3 "$held" $null
inside() {
    echo "$1 | $(element 30 "$2") | $3 | $(element 30 "$4")"
}
inside TbsCertificate "a003020100$held" 1 "$held"
inside TbsCertificate "$held" 0 "$held"
# A fourth version; something behind a certificate, inside it and outside; one that is cut; one with no signature.
echo "TbsCertificate | $(element 30 "a003020103$held") | refused"
whole=$(element 30 "$held")$null$(element 03 "00$(signature "$plain")")
echo "Certificate | ${plain}00 | refused"
echo "Certificate | $(element 30 "${whole}0500") | refused"
echo "Certificate | ${plain%??} | refused"
echo "Certificate | $(element 30 "$(element 30 "$held")$null") | refused"
# NULL where ECDSA and Ed25519 have none.
held=$(fields "$(der openssl x509 -in ec.root)" | tr -d '\n')
loosely Certificate ec ec.public "$(signed ec ec "$(echo "$held" | sed "s/$ecdsa/$ecdsa_null/")" $ecdsa_null)" 2 "$held" $ecdsa
held=$(fields "$(der openssl x509 -in ED25519.root)" | tr -d '\n')
spelled=$(echo "$held" | sed "s/$ed25519/$ed25519_null/")
loosely Certificate ED25519 ED25519.public "$(signed ED25519 ED25519 "$spelled" $ed25519_null)" 2 "$held" $ed25519
# Extensions: critical and cA spelled out as FALSE, fields of an authority key identifier out of order, and one of them twice.
held=$(fields "$(der openssl x509 -in ec.root)" | grep -v '^a3' | tr -d '\n')
extensions() {
    element a3 "$(element 30 "$1")"
}
while read -r count loose tight; do
    loosely Certificate ec ec.public "$(signed ec ec "$held$(extensions "$loose")" $ecdsa)" "$count" "$held$(extensions "$tight")" $ecdsa
done <<EXTENSIONS
1 300c0603551d1301010004023000 30090603551d1304023000
1 300c0603551d1304053003010100 30090603551d1304023000
2 300f0603551d1301010004053003010100 30090603551d1304023000
1 300f0603551d23040830068201058001aa 300f0603551d23040830068001aa820105
1 300f0603551d23040830068001aa8001bb 300c0603551d23040530038001bb
EXTENSIONS
# A request with no attributes at all, and with no NULL beside it.
for kind in rsa ec; do
    held=$(fields "$(der openssl req -in $kind.request)" | grep -v '^a0' | tr -d '\n')
    case $kind in rsa) algorithm=$null ;; *) algorithm=$ecdsa ;; esac
    loosely CertificationRequest $kind $kind.public "$(signed $kind $kind "$held" $algorithm)" 1 "${held}a000" $algorithm
done
held=$(fields "$(der openssl req -in rsa.request)" | grep -v '^a0' | tr -d '\n')
loosely CertificationRequest rsa rsa.public "$(signed rsa rsa "$held" $none)" 2 "${held}a000" $null
inside CertificationRequestInfo "$held" 1 "${held}a000"
inside CertificationRequestInfo "${held}a000" 0 "${held}a000"
# A request of another version, and one with further fields.
echo "CertificationRequestInfo | $(element 30 "$(echo "${held}a000" | sed 's/^020100/020101/')") | refused"
echo "CertificationRequestInfo | $(element 30 "${held}a0000500") | refused"
# The certificate of RFC 8410, section 10.2: critical FALSE twice and cA FALSE, spelled out, under the key of section 10.1.
published=$(openssl x509 -in "$here/published.pem" -outform DER | hexadecimal)
held=$(fields "$published" | grep -v '^a3' | tr -d '\n')$(extensions "300c0603551d130101ff04023000\
300b0603551d0f040403020308301d0603551d0e041604149b1f5eeded043385e4f7bc623c5975b90bc8bb3b")
loosely Certificate ED25519 "$here/published_key.pem" "$published" 3 "$held" $ed25519
