# What openssl makes of messages.cnf, for the scripts that write lines of it.
settings=$(dirname "$0")/messages.cnf
made=$(mktemp) || exit 1
trap 'rm -f "$made"' EXIT

# One value as hexadecimal digits.
value() {
    openssl asn1parse -genstr "$1" -genconf "$settings" -noout -out "$made" || exit 1
    od -An -v -tx1 "$made" | tr -d ' \n'
}

# The types of a file, each as a line.
lines_of() {
    while IFS='|' read -r type what; do
        echo "$type| $(value "${what# }")"
    done <"$1"
}

# What the file is, and what its lines are.
head_of() {
    echo "# $1 as $(openssl version | cut -d' ' -f1,2) makes them ($(basename "$0"), of messages.cnf)."
    echo '# Type | bytes in hexadecimal, and perhaps | written other bytes, or | refused.'
}
