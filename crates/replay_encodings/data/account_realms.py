#!/usr/bin/env python3
"""Writes attributes.cdb, a database of accounts with attributes and of a ticket-granting service with three keys, purged.cdb, in which it
has the newest alone, and account_realms.txt: requests of these accounts and for them, with the reply of the realm and the entry of the log.

The replies are those of the implementation in company_realms.py.

usage: python3 account_realms.py        in this folder
"""
import os
import sys

sys.dont_write_bytecode = True
import databases
import file_realms
from company_realms import (
    ACCOUNTS, ALL, A_KEY, DAY, HOUR, KRBTGT, LIFETIME, NOW, PLAIN, RENEW, RENEWABLE, SERVICE, SKEW, WEEK, Realm, as_request,
    check_without_policy, policy_number, rows_of, tgs_request, ticket_of, write)
from file_realms import account, key_of

# The marks of attributes.
OFF, MUST_CHANGE, NO_SERVICE = 1, 2, 4
# The keys of the ticket-granting service, the newest first: suite, kvno and key.
KEYS = [(18, 3, bytes([9]) * 32), (17, 2, bytes([8]) * 16), (18, 1, bytes(32))]
NEWEST = KEYS[0]
OLD_KEY = bytes([7]) * 32
CHANGEPW = (2, [b"kadmin", b"changepw"])


def with_attributes(end=0, lifetime=0, marks=0):
    return account(18, A_KEY.key, attributes=(end, lifetime, marks))


OWN = [
    (key_of(b"changing"), with_attributes(marks=MUST_CHANGE)),
    (key_of(b"ended"), with_attributes(end=NOW - 1)),
    (key_of(b"ended off"), with_attributes(end=NOW - 1, marks=OFF)),
    (key_of(b"idle"), with_attributes(marks=OFF | MUST_CHANGE)),
    (key_of(b"kadmin", b"changepw"), account(18, A_KEY.key)),
    (key_of(b"lasting"), with_attributes(end=NOW)),
    (key_of(b"off"), with_attributes(marks=OFF)),
    (key_of(b"off user"), with_attributes(marks=OFF | NO_SERVICE)),
    (key_of(b"rekeyed"), account(18, A_KEY.key, b"Rrekeyed", 2, [(18, 1, OLD_KEY)], (0, 2 * HOUR, 0))),
    (key_of(b"ended user"), with_attributes(end=NOW - 1, marks=NO_SERVICE)),
    (key_of(b"short"), with_attributes(lifetime=HOUR)),
    (key_of(b"user"), account(18, A_KEY.key, b"Ruser", attributes=(0, 0, NO_SERVICE))),
]


def accounts_of(krbtgt):
    """The records, in the order of their keys."""
    name = key_of(b"krbtgt", b"R")
    return sorted([one for one in ACCOUNTS if one[0] != name] + OWN + [(name, krbtgt)])


REALM = accounts_of(account(18, NEWEST[2], kvno=3, older=KEYS[1:]))


def named(*components):
    return (1, list(components))


def first_tickets():
    """AS requests."""
    yield "as honest, attributes", as_request(())
    yield "as client ended", as_request((), b"ended")
    yield "as client ends now", as_request((), b"lasting")
    yield "as service ended", as_request((), service=named(b"ended"))
    yield "as service ends now", as_request((), service=named(b"lasting"))
    yield "as password to be changed", as_request((), b"changing")
    yield "as password to be changed, changepw", as_request((), b"changing", service=CHANGEPW)
    yield "as password to be changed, a service", as_request((), b"changing", service=SERVICE)
    yield "as client off", as_request((), b"off")
    yield "as service off", as_request((), service=named(b"off"))
    yield "as no service", as_request((), service=named(b"user"))
    yield "as client is no service", as_request((), b"user")
    yield "as no service, no preauthentication", as_request((), key=None, service=named(b"user"))
    yield "as client off, no preauthentication", as_request((), b"off", None)
    yield "as both ended", as_request((), b"ended", service=named(b"ended"))
    yield "as client ended and off", as_request((), b"ended off")
    yield "as password to be changed, service ended", as_request((), b"changing", service=named(b"ended"))
    yield "as password to be changed, off", as_request((), b"idle")
    yield "as password to be changed, off, changepw", as_request((), b"idle", service=CHANGEPW)
    yield "as both off", as_request((), b"off", service=named(b"off"))
    yield "as service off, no service", as_request((), service=named(b"off user"))
    yield "as client off, etype", as_request((), b"off", etypes=(17,))
    yield "as lifetime of the client", as_request((), b"short")
    yield "as lifetime of the service", as_request((), service=named(b"short"))
    yield "as lifetimes of both", as_request((), b"rekeyed", service=named(b"short"))
    yield "as lifetime of the client, till before", as_request((), b"short", till=NOW + 600)
    yield "as lifetime of the client, renewable", as_request({RENEWABLE}, b"short", rtime=NOW + DAY)
    yield "as newest key of the client", as_request((), b"rekeyed")
    yield "as older key of the client", as_request((), b"rekeyed", OLD_KEY)
    yield "as older keys, no preauthentication", as_request((), b"rekeyed", None)


def further_tickets():
    """TGS requests."""
    def by(who, service=SERVICE, options=(), given=PLAIN, under=NEWEST, **asked):
        ticket = ticket_of(given, who=who, under=under, till=NOW + WEEK if given is ALL else None)
        return tgs_request(ticket, options, service, who, **asked)

    yield "tgs honest, attributes", by(b"a")
    yield "tgs client ended", by(b"ended")
    yield "tgs client ends now", by(b"lasting")
    yield "tgs client off", by(b"off")
    yield "tgs service ended", by(b"a", named(b"ended"))
    yield "tgs service off", by(b"a", named(b"off"))
    yield "tgs no service", by(b"a", named(b"user"))
    yield "tgs client is no service", by(b"user")
    yield "tgs password to be changed", by(b"changing")
    yield "tgs client ended and off", by(b"ended off")
    yield "tgs client off, service ended", by(b"off", named(b"ended"))
    yield "tgs service ended and off", by(b"a", named(b"ended off"))
    yield "tgs service off, no service", by(b"a", named(b"off user"))
    yield "tgs no service, service ended", by(b"a", named(b"ended user"))
    yield "tgs client off, etype", by(b"off", etypes=(1,))
    yield "tgs lifetime of the service", by(b"a", named(b"short"))
    yield "tgs lifetime of the client", by(b"short")
    yield "tgs lifetime of the service, end before", by(b"a", named(b"short"), till=NOW + 600)
    yield "tgs renew, client off", by(b"off", KRBTGT, {RENEW}, ALL)
    yield "tgs renew for a service, off", by(b"a", named(b"off"), {RENEW}, ALL)
    yield "tgs renew, older key", by(b"a", KRBTGT, {RENEW}, ALL, KEYS[2])

    yield "tgs older key", by(b"a", under=KEYS[2])
    yield "tgs key before, of another suite", by(b"a", under=KEYS[1])
    yield "tgs newest key, no kvno", by(b"a", under=(18, None, NEWEST[2]))
    yield "tgs older key, no kvno", by(b"a", under=(18, None, KEYS[2][2]))
    yield "tgs purged key", by(b"a", under=(18, 4, bytes([6]) * 32))
    yield "tgs kvno of an older key, newest key", by(b"a", under=(18, 1, NEWEST[2]))
    yield "tgs kvno of the newest, older key", by(b"a", under=(18, 3, KEYS[2][2]))
    yield "tgs kvno of a key of another suite", by(b"a", under=(18, 2, KEYS[2][2]))


file_realms.ERRORS |= {1: "KDC_ERR_NAME_EXP", 2: "KDC_ERR_SERVICE_EXP", 18: "KDC_ERR_CLIENT_REVOKED", 23: "KDC_ERR_KEY_EXPIRED"}
HEAD = """\
# Written by account_realms.py.
# The rows are as in file_realms.txt: open PATH, and ask | label | request | reply | entry at 2000-01-01 00:00:00 with the random octets 00
# to 7F. Realm R has the accounts of four_accounts.cdb and those with attributes and older keys that account_realms.py names. Its tickets
# are renewable for a week. In attributes.cdb krbtgt/R has keys of kvno 3, 2 and 1, and in purged.cdb that of kvno 3 alone.
"""


def main():
    print(f"{check_without_policy()} recorded replies are given without a policy")
    requests = [*first_tickets(), *further_tickets()]
    record = file_realms.realm_record(b"R", SKEW, LIFETIME, policy_number(life=WEEK))
    with open(os.path.join(os.path.dirname(os.path.abspath(__file__)), "account_realms.txt"), "w", encoding="ascii") as out:
        out.write(HEAD)
        for path, accounts in ("attributes.cdb", REALM), ("purged.cdb", accounts_of(account(18, NEWEST[2], kvno=3))):
            write(path, databases.database(accounts + [(b"\xff", record)]))
            told = rows_of(Realm(accounts, life=WEEK), requests, accounts)
            out.write(f"open {path}\n" + told)


if __name__ == "__main__":
    main()
