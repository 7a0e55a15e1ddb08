"""Measures reading and writing of DER by the program that is the first argument, with the recorded messages of the folder
that is the second: see der.sh."""
import os, sys
from turns import counted, nanoseconds

PROGRAM, DATA = sys.argv[1:3]
TURNS = 200_000
KINDS = {"6a": "as_req", "6c": "tgs_req", "6b": "as_rep", "7e": "krb_error"}


def recorded(name, label):
    """The request and the reply of the line that is labelled so."""
    with open(os.path.join(DATA, name)) as lines:
        for line in lines:
            words = [word.strip() for word in line.split("|")]
            if words[0] == label:
                return words[1], words[2]
    raise SystemExit(f"{name}: nothing is labelled {label}")


def show(name, text):
    count = len(text) // 2
    for task in ("read", "write"):
        command = [PROGRAM, "der", task, KINDS[text[:2]], text]
        each = nanoseconds(command, TURNS)
        print(f"{name:<12} {count:4} bytes  {task:<5}  {each:7.0f} ns, {each / count:5.1f} a byte   {counted(command, count)}")


def main():
    request, reply = recorded("kdc_exchanges.txt", "as honest")
    _, error = recorded("real_clients.txt", "real client 1")
    for name, text in (("AS request", request), ("AS reply", reply), ("error", error)):
        show(name, text)


main()
