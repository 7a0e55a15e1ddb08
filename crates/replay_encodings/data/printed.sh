#!/bin/sh
# Writes printed.txt: names of names.cnf as openssl makes and prints them, strings, names of any kind, extensions of certificates, and
# algorithms that are refused. The key of the certificates is new at each run.
cd "$(dirname "$0")" || exit 1
folder=$(mktemp -d) || exit 1
trap 'rm -rf "$folder"' EXIT
openssl genpkey -algorithm ED25519 -out "$folder/key" || exit 1

hexadecimal() {
    od -An -v -tx1 | tr -d ' \n'
}

# One value as hexadecimal digits.
value() {
    openssl asn1parse -genstr "$1" -noout -out "$folder/value" || exit 1
    hexadecimal <"$folder/value"
}

# A name, and its text: identifiers as numbers, nothing escaped, values of unknown type as their elements. Openssl puts `+` between
# attributes of one set, and `#` in front of an element.
name() {
    openssl req -new -utf8 -config names.cnf -section "$1" -key "$folder/key" -outform DER -out "$folder/request" || exit 1
    start=$(openssl asn1parse -inform DER -in "$folder/request" | awk -F: '/d=2/ && ++n == 2 { print $1 + 0 }')
    openssl asn1parse -inform DER -in "$folder/request" -strparse "$start" -noout -out "$folder/name" || exit 1
    text=$(openssl req -inform DER -in "$folder/request" -noout -subject -nameopt "oid,utf8,dump_der,sep_comma_plus,$2" | sed "s/^subject=//; $3")
    echo "text Name | $(hexadecimal <"$folder/name") | $text"
}

# The subject of the last request, by some options of openssl.
subject() {
    openssl req -inform DER -in "$folder/request" -noout -subject -nameopt "$1" | sed 's/^subject=//'
}

# A line of the notation of RFC 4514, with backslashes as they stand.
row() {
    printf 'text Rfc4514 | %s | %s\n' "$1" "$2"
}

# A name in the notation of RFC 4514, which has short names for fewer types than openssl: another type is a number there, and its value
# an encoding. No value of such a name has a comma.
notation() {
    name "$1" dump_unknown '' >"$folder/line"
    subject "RFC2253$2" | tr ',' '\n' >"$folder/short"
    subject RFC2253,oid,dump_all | tr ',' '\n' >"$folder/long"
    text=$(paste -d '\n' "$folder/short" "$folder/long" | sed -n 'h;n;x;/^\(CN\|C\|L\|ST\|O\|OU\|DC\|UID\)=/{p;d;};s/^street=/STREET=/;t print;x;:print;p' | paste -sd ,)
    row "$(cut -d ' ' -f 4 "$folder/line")" "$text"
}

# The same of a name with types of RFC 4514 alone, as openssl prints it.
plainly() {
    name "$1" dump_unknown '' >"$folder/line"
    row "$(cut -d ' ' -f 4 "$folder/line")" "$(subject RFC2253 | sed "$2")"
}

# A certificate of a section of names.cnf.
certificate() {
    openssl req -x509 -config names.cnf -section holder -extensions "$1" -key "$folder/key" -days 36500 -outform DER -out "$folder/certificate" || exit 1
    hexadecimal <"$folder/certificate"
}

# The text that openssl has for an extension of it, without the lines around.
extension() {
    openssl x509 -inform DER -in "$folder/certificate" -noout -ext "$1" 2>"$folder/said" | sed -n '2s/^ *//p'
}

echo "# Values and their text. Names are made and printed by $(openssl version | cut -d' ' -f1,2) (printed.sh, of names.cnf)."
echo '# The word `text`, type | bytes in hexadecimal | text to the end of the line.'
for section in holder person marks greek two_octets; do
    name "$section" dump_unknown ''
done >"$folder/names"
name joined dump_unknown 's/+/,/g' >>"$folder/names"
name unknown dump_unknown 's/=#/=/' >>"$folder/names"
name components dump_all 's/=#/=/g' >>"$folder/names"
cat "$folder/names"
# The first common name among the attributes.
echo 'text CommonName | 300c310a300806035504030c0154 | T'
awk -F ' [|] ' 'match($3, /2\.5\.4\.3=/) { first = substr($3, RSTART + 8); sub(/,.*/, "", first); print "text CommonName | " $2 " | " first }' "$folder/names"
for text in '' 'Example' "it's (a) +b, -c. /d: =e?"; do
    echo "text DirectoryString | $(value "PRINTABLE:$text") | $text"
done
for text in 'Example' 'Österreich 東京 😀' ', = # \ "'; do
    echo "text DirectoryString | $(value "FORMAT:UTF8,UTF8:$text") | $text"
done
for text in 'Example' 'Παράδειγμα'; do
    echo "text DirectoryString | $(value "FORMAT:UTF8,BMP:$text") | $text"
done
# Characters of two units (RFC 2781, section 2.1), and halves of such that stand alone.
echo 'text DirectoryString | 1e04d83dde00 | 😀'
echo 'text DirectoryString | 1e040061d83d | a�'
echo 'text DirectoryString | 1e04de000061 | �a'
echo 'text DirectoryString | 1e06d83dd83dde00 | �😀'
# Names in the notation of RFC 4514. The digits of its example `Before\0dAfter` are capital letters here.
for section in uid james return lucic marks greek ends; do
    plainly "$section" 's/street=/STREET=/'
done
plainly sales 's/^CN=J.  Smith+OU=Sales/OU=Sales+CN=J.  Smith/'
notation person ''
notation holder ''
notation two_octets ,dump_all
printf '%s\n' 'asn1 = SEQUENCE:sets' '[sets]' 'set = SET:pairs' '[pairs]' 'pair = SEQUENCE:pair' '[pair]' 'type = OID:1.3.6.1.4.1.1466.0' 'value = FORMAT:HEX,OCT:4869' >"$folder/pair"
openssl asn1parse -genconf "$folder/pair" -noout -out "$folder/value" || exit 1
echo "text Rfc4514 | $(hexadecimal <"$folder/value") | 1.3.6.1.4.1.1466.0=#04024869"
echo 'text Rfc4514 | 3000 | '
# Names of any kind. The one of a directory is `C=SE`, and the other names are a text and a partner.
echo "text GeneralName | $(value IMP:2,IA5:server.example.com) | DNS:server.example.com"
echo "text GeneralName | $(value IMP:1,IA5:admin@example.com) | email:admin@example.com"
echo "text GeneralName | $(value IMP:6,IA5:https://example.com/) | URI:https://example.com/"
echo "text GeneralName | $(value IMP:7,FORMAT:HEX,OCT:C0000201) | IP Address:192.0.2.1"
echo "text GeneralName | $(value IMP:7,FORMAT:HEX,OCT:20010DB8000000000000000000FF0042) | IP Address:2001:DB8:0:0:0:0:FF:42"
echo "text GeneralName | $(value IMP:7,FORMAT:HEX,OCT:C00002) | IP Address:#C00002"
echo "text GeneralName | $(value IMP:8,OID:1.2.3.4) | Registered ID:1.2.3.4"
echo 'text GeneralName | a40f300d310b3009060355040613025345 | DirName:C=SE'
echo 'text GeneralName | a01106062b0601050202a0070c05616c696365 | othername:1.3.6.1.5.2.2=#0C05616C696365'
echo 'text GeneralName | a509a1070c056361726f6c | EdiPartyName:carol'
echo 'text GeneralName | a510a0050c03626f62a1070c056361726f6c | EdiPartyName:bob/carol'
# Extensions of certificates, as openssl prints them. Of key usages it has the names of RFC 5280 apart and with capital letters.
for section in printed served bare; do
    bytes=$(certificate "$section")
    names=$(extension subjectAltName)
    echo "text AltNames | $bytes | ${names:-none}"
    uses=$(extension keyUsage | sed 's/Digital S/digitalS/;s/Non R/nonR/;s/Key E/keyE/;s/Data E/dataE/;s/Key A/keyA/;s/Certificate Sign/keyCertSign/;s/CRL Sign/cRLSign/;s/Encipher Only/encipherOnly/;s/Decipher Only/decipherOnly/')
    echo "text KeyUsage | $bytes | ${uses:-none}"
    constraints=$(extension basicConstraints)
    echo "text BasicConstraints | $bytes | ${constraints:-none}"
done
# Hashes that RSA signatures can't be made over, and identifiers that are no hash's.
echo "text UnsupportedAlgorithmError | $(value OID:1.2.840.113549.2.5) | unsupported algorithm:  MD5"
echo "text UnsupportedAlgorithmError | $(value OID:2.16.840.1.101.3.4.2.5) | unsupported algorithm:  SHA2_512_224"
echo "text UnsupportedAlgorithmError | $(value OID:2.16.840.1.101.3.4.2.6) | unsupported algorithm:  SHA2_512_256"
echo "text UnsupportedAlgorithmError | $(value OID:2.16.840.1.101.3.4.2.11) | unsupported algorithm:  SHAKE128"
echo "text UnsupportedAlgorithmError | $(value OID:2.16.840.1.101.3.4.2.12) | unsupported algorithm:  SHAKE256"
for text in 1.2.840.113549.1.1.1 2.16.840.1.101.3.4.2.13 2.999.18446744073709551615; do
    echo "text UnsupportedAlgorithmError | $(value "OID:$text") | unsupported algorithm:  $text"
done
