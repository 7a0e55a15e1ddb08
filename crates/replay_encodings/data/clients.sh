#!/bin/sh
# Writes the lines of clients.txt: the requests of MIT and Heimdal clients among the data of replay_realm, and the replies of an
# independent implementation there, each once.
exchanges=$(dirname "$0")/../../replay_realm/data/real_clients.txt

echo '# Requests that MIT 1.20 and Heimdal 7.8 clients sent, and replies of an independent implementation (clients.sh).'
echo '# Type | bytes in hexadecimal.'
cut -d'|' -f2,3 "$exchanges" | tr '| ' '\n' | grep '^6[ac]\|^7e' | awk '!seen[$0]++' |
    sed 's/^6a/AsReq | 6a/; s/^6c/TgsReq | 6c/; s/^7e/KrbError | 7e/'
