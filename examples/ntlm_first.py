#!/usr/bin/python3
"""An initiator of MIT's sample protocol, as gss-client, that offers NTLM before Kerberos in SPNEGO: ntlm_first.py [-nomutual] [-port PORT] HOST SERVICE MESSAGE

It needs Debian's python3-gssapi and gss-ntlmssp, and a ticket. The acceptor has to choose Kerberos, and both sides send a MIC of the list
of mechanisms (RFC 4178, section 5), which MIT's library makes and verifies.
"""
import argparse, os, socket, tempfile

import gssapi
from gssapi.raw import set_neg_mechs

NOOP, CONTEXT, DATA, CONTEXT_NEXT, WRAPPED, ENCRYPTED, SEND_MIC = 1, 2, 4, 16, 32, 64, 128
NTLM, SPNEGO = (gssapi.OID.from_int_seq(it) for it in ("1.3.6.1.4.1.311.2.2.10", "1.3.6.1.5.5.2"))


def credentials():
    """Kerberos' tickets, and any password for NTLM, whose first token is sent and ignored."""
    with tempfile.NamedTemporaryFile("w") as passwords:
        passwords.write("DOMAIN:user:password\n")
        passwords.flush()
        os.environ["NTLM_USER_FILE"] = passwords.name
        found = gssapi.Credentials(usage="initiate", mechs=[SPNEGO])
    set_neg_mechs(found, [NTLM, gssapi.MechType.kerberos])
    return found


def main():
    parser = argparse.ArgumentParser()
    parser.add_argument("-nomutual", action="store_true")
    parser.add_argument("-port", type=int, default=4444)
    for it in "host", "service", "message":
        parser.add_argument(it)
    asked = parser.parse_args()
    peer = socket.create_connection((asked.host, asked.port))
    stream = peer.makefile("rb")

    def send(flags, token=b""):
        peer.sendall(bytes([flags]) + len(token).to_bytes(4, "big") + token)

    def receive():
        head = stream.read(5)
        return stream.read(int.from_bytes(head[1:], "big"))

    flags = gssapi.RequirementFlag.integrity | gssapi.RequirementFlag.confidentiality
    if not asked.nomutual:
        flags |= gssapi.RequirementFlag.mutual_authentication
    target = gssapi.Name(asked.service, gssapi.NameType.hostbased_service)
    context = gssapi.SecurityContext(name=target, creds=credentials(), mech=SPNEGO, flags=flags, usage="initiate")
    send(NOOP | CONTEXT_NEXT)
    token = context.step()
    while token:
        print(f"sends a token of {len(token)} octets")
        send(CONTEXT, token)
        token = None if context.complete else context.step(receive())
    message = asked.message.encode()
    send(DATA | WRAPPED | ENCRYPTED | SEND_MIC, context.wrap(message, True).message)
    context.verify_signature(message, receive())
    print("Signature verified.")
    send(NOOP)


main()
