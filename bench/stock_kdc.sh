#!/bin/sh
# How much processor time MIT's krb5kdc takes for a preauthenticated AS exchange and for a TGS exchange over UDP on this
# machine, to compare with bench/as_exchange.sh and bench/tgs_exchange.sh: its own realm and database, AES-256, lockout
# counters off. Since it keeps its last replies, each AS request has another nonce, and the TGS requests, which are sealed,
# are kvno's own, put to a second krb5kdc over the same database. It needs krb5kdc, kinit, kvno, socat and python3: on
# Debian krb5-kdc, krb5-admin-server, krb5-user, socat.
set -e
work=$(mktemp -d)
trap 'kill $(cat "$work/pid" "$work/second") $tap 2>/dev/null; rm -r "$work"' EXIT

for port in 8892 8893; do
    printf '[libdefaults]\n    default_realm = R\n    dns_lookup_kdc = false\n    udp_preference_limit = 1\n' >"$work/$port.conf"
    printf '[realms]\n    R = {\n        kdc = 127.0.0.1:%s\n    }\n' "$port" >>"$work/$port.conf"
done
cat >"$work/kdc.conf" <<CONF
[kdcdefaults]
    kdc_listen = 127.0.0.1:8892
    kdc_tcp_listen = 127.0.0.1:8892
[realms]
    R = {
        key_stash_file = $work/stash
        supported_enctypes = aes256-cts-hmac-sha1-96:normal
        master_key_type = aes256-cts-hmac-sha1-96
    }
[dbmodules]
    R = {
        db_library = db2
        database_name = $work/principal
        disable_last_success = true
        disable_lockout = true
    }
CONF
export KRB5_CONFIG="$work/8892.conf" KRB5_KDC_PROFILE="$work/kdc.conf" KRB5CCNAME="FILE:$work/tickets"
kdb5_util create -r R -s -P master >/dev/null 2>&1
kadmin.local -r R -q "addprinc +requires_preauth -pw pw a" >/dev/null 2>&1
kadmin.local -r R -q "ktadd -k $work/keytab -norandkey a" >/dev/null 2>&1
kadmin.local -r R -q "addprinc -randkey h" >/dev/null 2>&1
krb5kdc -r R -P "$work/pid" >/dev/null 2>&1

# kinit asks through a tap, which keeps the requests.
printf '#!/bin/sh\ntee -a %s/requests | socat - TCP:127.0.0.1:8892\n' "$work" >"$work/tap"
chmod +x "$work/tap"
socat TCP-LISTEN:8893,fork,reuseaddr,bind=127.0.0.1 "EXEC:$work/tap" &
tap=$!
sleep 1
KRB5_CONFIG="$work/8893.conf" kinit -k -t "$work/keytab" a
mv "$work/requests" "$work/as_requests"

# A thousand tickets for one service, none of them kept: each is asked for anew.
services=$(yes h | head -n 100)
for _ in 1 2 3 4 5 6 7 8 9 10; do
    KRB5_CONFIG="$work/8893.conf" kvno -q --no-store $services
done
mv "$work/requests" "$work/tgs_requests"
sed -i s/8892/8894/ "$work/kdc.conf"
KRB5RCACHENAME=none: krb5kdc -r R -P "$work/second" >/dev/null 2>&1
sleep 1

python3 - "$work" 20000 <<'PYTHON'
import os, socket, sys

work, count = sys.argv[1], int(sys.argv[2])


def requests_in(name):
    stream = open(os.path.join(work, name), "rb").read()
    while stream:
        end = 4 + int.from_bytes(stream[:4], "big")
        yield stream[4:end]
        stream = stream[end:]


def processor_seconds(process):
    fields = open(f"/proc/{process}/stat").read().rsplit(")", 1)[1].split()
    return [int(field) / os.sysconf("SC_CLK_TCK") for field in fields[11:13]]


def measure(name, pid, port, requests, kind):
    process = int(open(os.path.join(work, pid)).read())
    kdc = socket.socket(socket.AF_INET, socket.SOCK_DGRAM)
    kdc.connect(("127.0.0.1", port))
    before, tickets, asked = processor_seconds(process), 0, 0
    for request in requests:
        kdc.send(request)
        tickets += kdc.recv(65535)[0] == kind
        asked += 1
    user, system = ((now - then) / asked * 1e6 for now, then in zip(processor_seconds(process), before))
    print(f"{asked} {name} exchanges of krb5kdc, {tickets} tickets: {user:.0f} microseconds of processor each, and {system:.0f} of the system's")


request = list(requests_in("as_requests"))[-1]
nonce = request.rfind(bytes.fromhex("a7060204")) + 4
numbered = (request[:nonce] + (0x01000000 + number).to_bytes(4, "big") + request[nonce + 4:] for number in range(count))
measure("AS", "pid", 8892, numbered, 0x6B)
measure("TGS", "second", 8894, requests_in("tgs_requests"), 0x6D)
PYTHON
