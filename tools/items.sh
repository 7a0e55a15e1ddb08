#!/bin/sh
# Prints for each item of items.txt the crate that has it, or why none has it. Ends with 1 where the front doesn't name an
# item that has no reason, or names one that has. With `table` it writes the same as rows of DIFFERENCES.md, one for the items of a
# module that one crate has.
cd "$(dirname "$0")/.." || exit 1
front=crates/picky_krb/src/lib.rt
all="$(sed -n 's/^picky_krb: //p' crates.txt)"
others=$(echo "$all" | tr ' ' '\n' | grep -vx krb_crypto)

# One line for each item: its path, and the crate or the reason.
places() {
    status=0
    while read -r path dash reason; do
        case $path in '#'*) continue ;; esac
        name=${path##*::}
        above=${path%::*}
        module=${above##*::}
        home=
        case $path in
            crypto::diffie_hellman::*) crates=krb_crypto ;;
            crypto::*) crates='krb_crypto encryption_profiles block_ciphers' ;;
            *) crates=$others ;;
        esac
        for crate in $crates; do
            if grep -rqE "^ *pub (struct|enum|type|trait|const|fn) $name\b" "crates/$crate/src"; then
                home=$crate
                if grep -qE "pub use $crate(::.*)?\b($name|$module)\b" "$front"; then break; fi
            fi
        done
        handed=no
        if grep -qw "$name" "$front"; then handed=yes; fi
        case $path in
            crypto::aes::* | crypto::des::*) if grep -qw "$name" "crates/krb_crypto/src/$module.rt"; then handed=yes; fi ;;
            constants::*) if grep -qw "$module" "$front"; then handed=yes; fi ;;
        esac
        if [ -n "$dash" ]; then
            echo "$path | absent: $reason"
            if [ $handed = yes ]; then status=1; fi
        elif [ -n "$home" ] && [ $handed = yes ]; then
            echo "$path | $home"
        else
            echo "$path | nowhere"
            status=1
        fi
    done <tools/items.txt
    return $status
}

# The same as a table, the modules in their order.
table() {
    echo '| Module | Items | Where |'
    echo '|---|---|---|'
    awk -F ' [|] ' '{
        name = $1; sub(/.*::/, "", name); module = $1; sub(/::[^:]*$/, "", module); row = module " " $2
        if (!(row in items)) { order[++rows] = row; of[row] = module; at[row] = $2 }
        items[row] = items[row] (items[row] == "" ? "" : ", ") "`" name "`"
    } END { for (i = 1; i <= rows; i++) print "| `" of[order[i]] "` | " items[order[i]] " | " (at[order[i]] ~ /^(absent|nowhere)/ ? "" : "`") at[order[i]] (at[order[i]] ~ /^(absent|nowhere)/ ? "" : "`") " |" }'
}

if [ "$1" = table ]; then
    places | table
else
    places
fi
