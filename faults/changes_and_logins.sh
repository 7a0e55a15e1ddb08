#!/bin/sh
# 1,000 password changes beside 100,000 logins. Stock kpasswd of MIT changes the passwords of ten users, two at a time, at krb_kpasswdd, and
# krb_accounts adds 50 accounts meanwhile. Four clients log in at krb_kdcd by the password that a user has, had, or is about to have. A
# password counts from the moment on at which kpasswd says so, or a login by it was granted: then each login by an older one is refused. A
# reply is sealed under the key of the password that was asked with, and has its kvno. At the end text and database agree, and have the
# last password of each user. Prints a line for each failure; the status is 1 where there is one, and 2 where a tool is missing.
#
# Usage: faults/changes_and_logins.sh [CHANGES]. With each change there are 100 logins. The clients encrypt by libk5crypto, which comes with
# kpasswd. KRB_KPASSWDD, KRB_KDCD and KRB_ACCOUNTS may name built programs.
#
# It needs kpasswd and python3: on Debian krb5-user.
set -e
top=$(cd "$(dirname "$0")/.." && pwd)
. "$top/bench/programs.sh"
command -v kpasswd >/dev/null || { echo "changes_and_logins: kpasswd is missing (Debian: krb5-user)" >&2; exit 2; }
program KRB_ACCOUNTS krb_accounts
program KRB_KDCD krb_kdcd
program KRB_KPASSWDD krb_kpasswdd
exec python3 -B "$top/faults/changes_and_logins.py" "$@"
