#!/bin/sh
# Writes pkinit.txt: each type of pkinit_types.txt once or more, as openssl makes it of pkinit.cnf, and what pkinit_refused.txt has of
# types that don't read it.
cd "$(dirname "$0")" || exit 1
made=$(mktemp) || exit 1
trap 'rm -f "$made"' EXIT

# One line for each line of a file, followed by what is expected.
lines() {
    while IFS='|' read -r type what; do
        openssl asn1parse -genstr "${what# }" -genconf pkinit.cnf -noout -out "$made" || exit 1
        echo "$type| $(od -An -v -tx1 "$made" | tr -d ' \n')$2"
    done <"$1"
}

echo "# Messages as $(openssl version | cut -d' ' -f1,2) makes them (pkinit.sh, of pkinit_types.txt, pkinit_refused.txt and pkinit.cnf)."
echo '# Type | bytes in hexadecimal, and perhaps | refused.'
lines pkinit_types.txt ''
lines pkinit_refused.txt ' | refused'
