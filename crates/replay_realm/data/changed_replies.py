#!/usr/bin/env python3
"""Writes changed_replies.txt: the replies of clients.txt with another pvno, msg-type, session key, key usage or time, and what a client makes of
each.

This is an independent writer. The replies are those that another implementation computed for clients.txt. Their DER is that of hints.py,
and their encryption that of tokens.py. It shares no code with the program that replays the file, and each run writes the same file. Each
outcome stands here by name.

Run it in this folder: python3 changed_replies.py
"""
import sys

sys.dont_write_bytecode = True
sys.path += ["../../replay_encodings/data", "../../replay_crypto/data"]
from hints import element, field, fields_of, inner, number, parts_of, sequence, write_again
from tokens import SUITES, check_against_the_standards

AS_REP, TGS_REP, AP_REP, AP_REQ, ERROR = 11, 13, 15, 14, 30
TGS_REP_ENC_SESSION_KEY, TGS_REP_ENC_SUB_KEY, AP_REQ_AUTHENTICATOR, AP_REP_ENC = 8, 9, 11, 12
# The place of enc-part in a KDC-REP and in an AP-REP.
KDC_REP_PART, AP_REP_PART = 6, 2
# A key of RC4 (RFC 4757), which is no suite here.
RC4 = 23

HEAD = """\
# The replies of clients.txt with another pvno, msg-type, session key, key usage or time, and what a client makes of them. Written by
# changed_replies.py in this folder, an independent writer by RFC 4120, sections 5.2.9, 5.4.2, 5.5.2 and 7.5.1. A line is a step with a
# label, the reply, and what comes of it. The reply that is due is taken after the others. The random bytes of each request are 00 to 7F.
random 0 1
moment 20000101000000Z 7
"""


def recorded():
    """The lines of each client of clients.txt: its line `client`, and the step and the text of those behind it."""
    with open("clients.txt", encoding="ascii") as file:
        blocks = [it for it in file.read().split("\n\n") if it.startswith("client ")]
    for block in blocks:
        first, *lines = block.splitlines()
        yield first, [[it.strip() for it in line.split("|")] for line in lines]


def texts_of(lines, step):
    return [line[1] for line in lines if line[0] == step and len(line) == 2]


def with_part(reply, place, suite, key, usage, changes, other_usage=None):
    """The reply with other fields in its enc-part, which is encrypted anew, perhaps for another key usage."""
    sealed = dict(parts_of(inner(fields_of(reply)[place])))
    part = SUITES[suite].decrypt(key, usage, inner(sealed[0xA2]))
    assert write_again(part, {}) == part
    sealed[0xA2] = element(4, SUITES[suite].encrypt(key, other_usage or usage, bytes(16), write_again(part, changes)))
    return write_again(reply, {place: sequence(*(element(tag, sealed[tag]) for tag in sorted(sealed)))})


def changed_tgs_parts(reply, suite, session, key):
    """The TGS-REP with another session key, or for the key usage of a subkey."""
    for label, kind, other in ("key type", RC4, bytes(16)), ("key length", suite, key[1:]), ("key length", suite, key + b"\0"):
        changes = {0: sequence(field(0, number(kind)), field(1, element(4, other)))}
        yield label, with_part(reply, KDC_REP_PART, suite, session, TGS_REP_ENC_SESSION_KEY, changes), "NotAsked"
    yield "key usage", with_part(reply, KDC_REP_PART, suite, session, TGS_REP_ENC_SESSION_KEY, {}, TGS_REP_ENC_SUB_KEY), "NotSealed"


def changed_ap_parts(reply, suite, key):
    """The AP-REP with another ctime or cusec than the authenticator's, or for another key usage."""
    for label, changes in ("ctime", {0: element(0x18, b"20000101000001Z")}), ("cusec", {1: number(8)}):
        yield label, with_part(reply, AP_REP_PART, suite, key, AP_REP_ENC, changes), "NotAsked"
    yield "key usage", with_part(reply, AP_REP_PART, suite, key, AP_REP_ENC, {}, AP_REQ_AUTHENTICATOR), "NotSealed"


def changed_errors(error):
    """The KRB-ERROR with another pvno or msg-type, which aren't judged: its error-code is the refusal."""
    assert write_again(error, {0: number(5), 1: number(ERROR)}) == error
    code = int.from_bytes(inner(fields_of(error)[6]), "big")
    for label, changes in ("pvno", {0: number(4)}), ("msg-type", {1: number(AS_REP)}):
        yield f"take_as_reply KRB-ERROR {label} | {write_again(error, changes).hex()} | refused: Refused({code})"


def rows_of(client, lines):
    suite = int(client.split()[3])
    as_reply, tgs_reply = map(bytes.fromhex, texts_of(lines, "answer"))
    (ap_reply,) = map(bytes.fromhex, texts_of(lines, "reply"))
    (error,) = {line[1] for line in lines if line[0] == "take_as_reply KRB-ERROR"}
    (session,) = texts_of(lines, "take_as_reply")
    (further,) = texts_of(lines, "take_tgs_reply")
    key = bytes.fromhex(further)
    yield client
    yield "as_request krbtgt/R"
    yield from changed_types("take_as_reply", as_reply, AS_REP, TGS_REP)
    yield from changed_errors(bytes.fromhex(error))
    yield f"take_as_reply due | {as_reply.hex()} | {session}"
    yield "tgs_request h"
    yield from changed_types("take_tgs_reply", tgs_reply, TGS_REP, AS_REP)
    for label, reply, refusal in changed_tgs_parts(tgs_reply, suite, bytes.fromhex(session), key) if suite in SUITES else ():
        yield f"take_tgs_reply {label} | {reply.hex()} | refused: {refusal}"
    yield f"take_tgs_reply due | {tgs_reply.hex()} | {further}"
    yield "ap_request 1 1"
    yield from changed_types("take_ap_reply", ap_reply, AP_REP, AP_REQ)
    for label, reply, refusal in changed_ap_parts(ap_reply, suite, key) if suite in SUITES else ():
        yield f"take_ap_reply {label} | {reply.hex()} | refused: {refusal}"
    yield f"take_ap_reply due | {ap_reply.hex()} | ok"


def changed_types(step, reply, own, other):
    """The reply with another pvno, and with another msg-type."""
    assert write_again(reply, {0: number(5), 1: number(own)}) == reply
    for label, changes in ("pvno", {0: number(4)}), ("msg-type", {1: number(other)}):
        yield f"{step} {label} | {write_again(reply, changes).hex()} | refused: Unreadable"


def main():
    check_against_the_standards()
    blocks = ["\n".join(rows_of(client, lines)) for client, lines in recorded()]
    with open("changed_replies.txt", "w", encoding="ascii") as file:
        file.write(HEAD + "\n" + "\n\n".join(blocks) + "\n")


if __name__ == "__main__":
    main()
