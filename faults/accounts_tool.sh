#!/bin/bash
# krb_accounts is killed at each of its system calls, and writes to full disks. After each run a file is its old content or its new one, and
# never another. Before it, commands that would lose or weaken the realm's key are refused, and others print what they should. It needs strace
# and python3, and the program built (./krb_accounts --version) or KRB_ACCOUNTS=PROGRAM. The part of the small disk needs the right to mount,
# and is left out without it.
set -e
top=$(cd "$(dirname "$0")/.." && pwd)
tool=${KRB_ACCOUNTS:-$top/crates/krb_accounts/out/krb_accounts}
[ -x "$tool" ] || { echo "accounts_tool: $tool is missing: run make build PROGRAM=krb_accounts first" >&2; exit 2; }
command -v strace >/dev/null || { echo "accounts_tool: strace is missing" >&2; exit 2; }
work=$(mktemp -d)
trap 'cd /; umount "$work/disk" 2>/dev/null || true; rm -rf "$work"' EXIT
key=000102030405060708090a0b0c0d0e0f101112131415161718191a1b1c1d1e1f
mkdir "$work/start"
cd "$work/start"
echo $key | tr 0 f | "$tool" create accounts EXAMPLE.COM
echo $key | tr 0 e | "$tool" add -k accounts user
"$tool" make accounts accounts.cdb
echo $key | tr 0 d | "$tool" add -k accounts other

# says STATUS TEXT COMMAND..: the command ends with this status, and writes a line with this text on standard output or standard error. A
# refused one changes no file.
says() {
    status=$1 text=$2; shift 2
    before=$(cat -- accounts* 2>/dev/null | cksum) ended=0
    line=$(echo "${input:-$key}" | "$tool" "$@" 2>&1) || ended=$?
    [ "$ended" = "$status" ] || { echo "accounts_tool: $*: status $ended, and not $status: $line" >&2; exit 1; }
    case $line in *"$text"*) ;; *) echo "accounts_tool: $*: expected '$text': $line" >&2; exit 1 ;; esac
    [ "$ended" = 0 ] || [ "$before" = "$(cat -- accounts* 2>/dev/null | cksum)" ] || { echo "accounts_tool: $*: changed a file" >&2; exit 1; }
    tried=$((tried + 1))
}

# the realm's own account, names of realms, salts and disabled accounts
commands_answer() {
    rm -rf "$work/run"; mkdir "$work/run"; cd "$work/run"
    tried=0 own=krbtgt/EXAMPLE.COM
    for realm in "EXAMPLE COM" EXAMPLE/COM 'EXAMPLE@COM' 'EXAMPLE#COM' 'EXAMPLE\COM' "$(printf 'EXAMPLE\001COM')" ""; do
        says 1 "REALM: expected 1 to 255 printable ASCII characters" create accounts "$realm"
    done
    says 0 "" create -k random accounts EXAMPLE.COM
    says 1 "is there" create -k random accounts EXAMPLE.COM
    says 1 "$own: the account of the ticket-granting service is kept" remove accounts $own
    says 1 "$own: the account of the ticket-granting service is kept" disable accounts $own
    says 1 "$own: the realm's key is made of no password" key accounts $own
    says 1 "$own: the account is there already" add -k random accounts $own
    says 0 "" key -k random accounts $own
    says 0 "$own	aes256-cts-hmac-sha1-96	2	key	older=1" list accounts
    says 0 "older keys	1" show accounts $own
    says 1 "$own: the account of the ticket-granting service is kept" attributes accounts $own +off
    says 0 "" purge accounts $own
    says 0 "older keys	-" show accounts $own
    for suite in aes128-cts-hmac-sha1-96 aes256-cts-hmac-sha1-96 des3-cbc-sha1-kd aes128-cts-hmac-sha256-128 aes256-cts-hmac-sha384-192; do
        says 0 "" add -e $suite -k random accounts $suite
    done
    python3 -c '
import sys
sizes = {"aes128-cts-hmac-sha1-96": 16, "aes256-cts-hmac-sha1-96": 32, "des3-cbc-sha1-kd": 24, "aes128-cts-hmac-sha256-128": 16, "aes256-cts-hmac-sha384-192": 32}
keys = [bytes.fromhex(line.split()[4]) for line in open("accounts") if line.split()[0] in sizes]
assert sorted(map(len, keys)) == sorted(sizes.values()) and len(set(keys)) == 5 and all(len(set(it)) > 4 for it in keys)
assert all(bin(octet).count("1") % 2 == 1 for octet in next(it for it in keys if len(it) == 24))'
    input="a long password" says 0 "" add accounts alice/admin
    says 0 "alice/admin	aes256-cts-hmac-sha1-96	1	password" list accounts 'alice/*'
    [ "$("$tool" list accounts 'a?ice*' | wc -l)" = 1 ] || { echo "accounts_tool: list with a pattern" >&2; exit 1; }
    says 0 "salt	4558414d504c452e434f4d616c69636561646d696e" show accounts alice/admin
    says 1 "nobody: no such account" show accounts nobody
    for command in remove disable enable key purge; do says 1 "nobody: no such account" $command accounts nobody; done
    says 1 "nobody: no such account" attributes accounts nobody +off
    for word in +none off ends=2030 lifetime=0; do says 1 ": expected " attributes accounts alice/admin $word; done
    says 0 "" attributes accounts alice/admin ends=20301231235959Z lifetime=3600 +off +no-service -off
    says 0 "	lifetime=3600	no-service" list accounts 'alice/*'
    says 0 "attributes	no-service" show accounts alice/admin
    says 0 "" attributes accounts alice/admin ends=- lifetime=- -no-service
    input="another long password" says 0 "" key --keep accounts alice/admin
    says 0 "alice/admin	aes256-cts-hmac-sha1-96	2	password	older=1" list accounts 'alice/*'
    input="a third long password" says 0 "" key accounts alice/admin
    says 0 "older keys	-" show accounts alice/admin
    says 0 "" disable accounts alice/admin
    says 0 "password	disabled" list accounts 'alice/*'
    says 1 "alice/admin: the account is there already" add accounts alice/admin
    says 0 "" make accounts accounts.cdb
    says 0 "" check accounts accounts.cdb
    ! grep -q alice accounts.cdb || { echo "accounts_tool: a disabled account is in the database" >&2; exit 1; }
    says 0 "" enable accounts alice/admin
    says 1 "does not answer as accounts does" check accounts accounts.cdb
    says 0 "" add -k accounts '#ops'
    says 0 "#ops	" list accounts '#*'
    says 0 "" make accounts accounts.cdb
    sed "s|^$own|#disabled	&|" accounts >accounts_disabled
    sed "/^krbtgt/d" accounts >accounts_without
    sed "s/4558414d/4558418d/" accounts >accounts_salt
    for command in "make T accounts.cdb" "check T accounts.cdb" "warnings T"; do
        says 1 "the account of the ticket-granting service is disabled" ${command/T/accounts_disabled}
        says 1 "accounts_without: expected a line of $own" ${command/T/accounts_without}
    done
    for command in "make T accounts.cdb" "check T accounts.cdb" "list T" "show T alice/admin" "key -k random T alice/admin" "remove T alice/admin"; do
        says 1 "salt: expected octets below 128" ${command/T/accounts_salt}
    done
    says 0 "" add -k random accounts_without $own
    says 0 "" make accounts_without accounts.cdb
    sed "/^realm/s/limits-des3/&,guards-passwords/" accounts >accounts_guarded
    says 0 "realm	EXAMPLE.COM	300	36000	limits-des3	guards-passwords" list accounts_guarded
    input="a long password" says 0 "" add accounts_guarded dora
    says 0 "dora	aes256-cts-hmac-sha1-96	1	password	no-service" list accounts_guarded dora
    says 0 "" attributes accounts_guarded dora -no-service
    says 0 "attributes	-" show accounts_guarded dora
    input="another long password" says 0 "" key --keep accounts_guarded dora
    says 0 "2	password	older=1	no-service" list accounts_guarded dora
    says 0 "" add -k random accounts_guarded eve
    says 0 "attributes	-" show accounts_guarded eve
    sed "/^realm/s/limits-des3/guards-passwords,&/" accounts >accounts_unordered
    says 1 "words: expected some of" list accounts_unordered
    echo "$tried commands answered as they should"
}
commands_answer

# a run of a command in a fresh folder, of which FILE is the file that it writes
in_folder() { rm -rf "$work/run"; cp -a "$work/start" "$work/run"; cd "$work/run"; }

# says whether FILE is old or new, and fails if it is neither
judge() {
    if cmp -s "$1" "$work/start/$1"; then echo old
    elif cmp -s "$1" "$work/new"; then echo new
    else echo "accounts_tool: $1 is neither the old file nor the new one after: $2" >&2; exit 1; fi
}

# strace counts the calls of each name apart
killed_at_each_call() {
    file=$1; shift
    in_folder
    echo $key | strace -f -o "$work/calls" "$tool" "$@" >/dev/null 2>&1
    cp "$file" "$work/new"
    runs=0 old=0 new=0
    while read -r count name; do
        for number in $(seq "$count"); do
            in_folder
            (echo $key | strace -f -o /dev/null -e "inject=$name:signal=KILL:when=$number" "$tool" "$@") >/dev/null 2>&1 || true
            case $(judge "$file" "$* killed at call $number of $name") in
                old) old=$((old + 1)) ;;
                new) new=$((new + 1)) ;;
                *) exit 1 ;;
            esac
            runs=$((runs + 1))
        done
    done < <(sed -n 's/^[0-9]* *\([a-z_0-9]*\)(.*/\1/p' "$work/calls" | sort | uniq -c)
    echo "$1: killed at each of $runs calls: the old file $old times, the new one $new times"
}

refused_by_disk() {
    file=$1; shift
    status=0
    line=$(echo $key | "$tool" "$@" 2>&1 | grep -v warning) || status=$?
    [ "$(judge "$file" "$* on a full disk")" = old ] || exit 1
    [ -z "$(find . -maxdepth 1 -name ".$file.*.new")" ] || { echo "accounts_tool: a new file was left beside $file" >&2; exit 1; }
    echo "$1: the old file, and: $line"
}

killed_at_each_call accounts add -k accounts one_more
killed_at_each_call accounts key -k accounts user
killed_at_each_call accounts attributes accounts user +off
killed_at_each_call accounts remove accounts user
killed_at_each_call accounts.cdb make accounts accounts.cdb

# a limit of the size of files, which stops each write
for words in "accounts add -k accounts one_more" "accounts.cdb make accounts accounts.cdb"; do
    in_folder
    told=$(trap '' XFSZ; ulimit -f 0; refused_by_disk $words)
    echo "$told"
done

# a disk of 16 kilobytes that is full
mkdir "$work/disk"
if mount -t tmpfs -o size=16k none "$work/disk" 2>/dev/null; then
    cp -a "$work/start/." "$work/disk"
    cd "$work/disk"
    cat /dev/zero >filler 2>/dev/null || true
    refused_by_disk accounts add -k accounts one_more
    refused_by_disk accounts.cdb make accounts accounts.cdb
else
    echo "the small disk was left out: no right to mount"
fi
