"""Writes stock.txt, tokens of MIT's contexts (RFC 4121): stock.py PROGRAM > stock.txt. It needs Debian's krb5-user, python3-gssapi and socat.

PROGRAM is the built krb_realm. It serves a realm of one suite, MIT's kinit gets a ticket there, and two contexts of MIT's library log in to each
other. The library exports the key that protects their tokens (gss_krb5_export_lucid_sec_context). Keys are random at each run.
"""
import os, socket, struct, subprocess, sys, tempfile, time

SUITES = {"aes128-cts-hmac-sha1-96": (17, 16), "aes256-cts-hmac-sha1-96": (18, 32),
          "aes128-cts-hmac-sha256-128": (19, 16), "aes256-cts-hmac-sha384-192": (20, 32)}
SERVICE = "host/server.example.com@EXAMPLE.COM"
MESSAGES = [b"", b"a", b"sixteen octets..", bytes(range(100))]
CONF = """[libdefaults]
default_realm = EXAMPLE.COM
dns_lookup_kdc = false
rdns = false
dns_canonicalize_hostname = false
udp_preference_limit = 1
permitted_enctypes = {suite}
[realms]
EXAMPLE.COM = {{
    kdc = 127.0.0.1:{port}
}}
"""
SETTINGS = """realm = "EXAMPLE.COM"
suite = "{suite}"
key = "{key}"
skew = 300
lifetime = 36000
[[account]]
name = ["user"]
suite = "{suite}"
password = "correct horse battery staple"
[[account]]
name = ["host", "server.example.com"]
suite = "{suite}"
key = "{key}"
"""


def keytab(number, key):
    """A keytab of the service, in MIT's file format 0502."""
    text = lambda it: struct.pack(">H", len(it)) + it
    entry = struct.pack(">H", 2) + text(b"EXAMPLE.COM") + text(b"host") + text(b"server.example.com")
    entry += struct.pack(">IIB", 1, 0, 1) + struct.pack(">H", number) + text(key) + struct.pack(">I", 1)
    return b"\x05\x02" + struct.pack(">i", len(entry)) + entry


def calls_of(sender):
    """The calls that take what a context wraps and signs."""
    calls = []
    for message in MESSAGES:
        calls.append(("unwrap Sealed", sender.wrap(message, True).message, message))
        calls.append(("unwrap Checksum", sender.wrap(message, False).message, message))
        calls.append(("verify_mic ok", message, sender.get_signature(message)))
    return calls


def shown(octets):
    return octets.hex() or "-"


def contexts(mutual):
    import gssapi
    flags = gssapi.RequirementFlag.integrity | gssapi.RequirementFlag.confidentiality
    if mutual:
        flags |= gssapi.RequirementFlag.mutual_authentication
    name = gssapi.Name(SERVICE, gssapi.NameType.kerberos_principal)
    ours = gssapi.SecurityContext(name=name, usage="initiate", flags=flags)
    theirs = gssapi.SecurityContext(creds=gssapi.Credentials(usage="accept"), usage="accept")
    token = ours.step()
    while token:
        token = theirs.step(token)
        if token:
            token = ours.step(token)
    return ours, theirs


def rows(number):
    from gssapi.raw import krb5_export_lucid_sec_context as export
    for mutual in (False, True):
        ours, theirs = contexts(mutual)
        sent, answered = calls_of(ours), calls_of(theirs)
        told = export(ours, 1)
        kept = told.cfx_kd
        key = kept.acceptor_subkey or kept.ctx_key
        kind = kept.acceptor_subkey_type if kept.acceptor_subkey else kept.ctx_key_type
        assert kind == number, (kind, number)
        flag = "subkey" if kept.acceptor_subkey else "session"
        print(f"# Etype {number}, {'with' if mutual else 'without'} mutual authentication.")
        for side, calls in (("Acceptor", sent), ("Initiator", answered)):
            first = int.from_bytes(calls[0][1][8:16], "big")
            print(f"new ok {number} {side} {flag} 0 {first} | {key.hex()}")
            for call, one, other in calls:
                print(f"{call} | {shown(one)} {shown(other)}")


def main():
    if len(sys.argv) > 2:
        return rows(int(sys.argv[2]))
    print("# Tokens that contexts of MIT's libgssapi-krb5 wrap and sign, taken by the other end. Written by stock.py in this folder.")
    print("# The lines are those of tokens.txt.")
    sys.stdout.flush()
    for suite, (number, size) in SUITES.items():
        with tempfile.TemporaryDirectory() as room:
            key = os.urandom(size)
            with socket.socket() as it:
                it.bind(("127.0.0.1", 0))
                port = it.getsockname()[1]
            with open(f"{room}/settings.toml", "w") as it:
                it.write(SETTINGS.format(suite=suite, key=key.hex()))
            with open(f"{room}/krb5.conf", "w") as it:
                it.write(CONF.format(suite=suite, port=port))
            with open(f"{room}/keytab", "wb") as it:
                it.write(keytab(number, key))
            started = f"{sys.argv[1]} {room}/settings.toml /dev/urandom now"
            bridge = subprocess.Popen(["socat", f"TCP-LISTEN:{port},bind=127.0.0.1,fork,reuseaddr", f"EXEC:{started}"])
            try:
                time.sleep(0.5)
                env = {**os.environ, "KRB5_CONFIG": f"{room}/krb5.conf", "KRB5_KTNAME": f"{room}/keytab"}
                env["KRB5CCNAME"] = f"{room}/cache"
                subprocess.run(["kinit", "user"], input=b"correct horse battery staple\n", env=env, check=True,
                               stdout=subprocess.DEVNULL)
                subprocess.run([sys.executable, __file__, sys.argv[1], str(number)], env=env, check=True)
            finally:
                bridge.terminate()


main()
