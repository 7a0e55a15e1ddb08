#!/bin/sh
# Writes the lines of messages.txt: each type of types.txt once or more, as openssl makes it of messages.cnf.
here=$(dirname "$0")
. "$here/value.sh"

head_of Messages
lines_of "$here/types.txt"
