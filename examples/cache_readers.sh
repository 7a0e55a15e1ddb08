#!/bin/sh
# MIT's and Heimdal's klist list credential caches that the crate krb_file_formats writes: the credentials of each stock cache in
# crates/replay_encodings/data in reverse order, in a cache without header tags. Each klist must say the same of them as of the stock
# cache, but for the order. It must refuse the same cache cut short. Prints what each gave; the status is 1 where one differs from
# what it should, and 2 where a tool is missing. All files are in a temporary folder.
#
# Heimdal's heimtools is that on the path (Debian: heimdal-clients), or that of its packages unpacked in the folder HEIMDAL. CACHES may
# name the built program replay_encodings, which is proved and built first where it isn't yet.
set -u
script=cache_readers
top=$(cd "$(dirname "$0")/.." && pwd)
work=$(mktemp -d)
trap 'rm -rf "$work"' EXIT
trap 'exit 1' INT TERM
. "$top/examples/stock.sh"

heimdal_folder=${HEIMDAL:-}
PATH=$PATH:$heimdal_folder/usr/bin
need klist krb5-user
need heimtools heimdal-clients
[ "$missing" -eq 0 ] || exit 2
libraries=
if [ -n "$heimdal_folder" ]; then
    libraries=$(dirname "$(find "$heimdal_folder/usr/lib" -name 'libkrb5.so.26' 2>/dev/null | head -n 1)")
fi
data=$top/crates/replay_encodings/data
program=${CACHES:-$top/crates/replay_encodings/out/replay_encodings}
if [ -z "${CACHES:-}" ] && { [ ! -x "$program" ] || [ -n "$(find "$top/crates" -name out -prune -o -path '*/src/*.rt' -newer "$program" -print | head -n 1)" ]; }; then
    (cd "$top/crates/replay_encodings" && rt run -- "$data/mit.cache" </dev/null >/dev/null)
    [ -x "$program" ] || exit 2
fi
configuration 127.0.0.1 "" >"$work/krb5.conf"
export KRB5_CONFIG="$work/krb5.conf" TZ=UTC

by_mit() {
    klist -f -e -C -a -n -c "FILE:$1"
}

by_heimdal() {
    LD_LIBRARY_PATH=$libraries heimtools klist -v --hidden -c "FILE:$1"
}

# said READER FILE: what it says of a cache, line by line in a fixed order, but for the file's name.
said() {
    "$1" "$2" >"$work/lines" || return 1
    sed "s|$2|CACHE|" "$work/lines" | sort
}

# listed READER FILE WRITTEN: it says the same of both.
listed() {
    said "$1" "$2" >"$work/stock" && said "$1" "$3" >"$work/ours" && cat "$work/ours" && cmp "$work/stock" "$work/ours"
}

for cache in mit addresses heimdal; do
    cp "$data/$cache.cache" "$work/$cache.cache"
    "$program" "$data/$cache.cache" >"$work/written" || exit 2
    LC_ALL=C sed s/user/usex/ "$work/written" >"$work/changed"
    chmod 600 "$work/$cache.cache" "$work/written" "$work/changed"
    try "the written cache has another order: $cache" no "differ" cmp "$work/$cache.cache" "$work/written"
    for reader in by_mit by_heimdal; do
        try "$reader: $cache" yes "user@EXAMPLE.COM" listed "$reader" "$work/$cache.cache" "$work/written"
        try "$reader: $cache, with a name changed" no "usex@EXAMPLE.COM" listed "$reader" "$work/$cache.cache" "$work/changed"
    done
done
echo "$passed right, $failed wrong"
[ "$failed" -eq 0 ]
