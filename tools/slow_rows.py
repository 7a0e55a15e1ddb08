"""Rows of the programs' data that take long without optimisation. tools/test leaves them out unless ROWS=all; `rt ci` runs them all."""
import collections, re

# Rows of a crate's file that match a pattern, and how many of them are run all the same: the first ones. Where they begin a passage, the
# rows up to the next empty line go with them.
Slow = collections.namedtuple("Slow", "crate file pattern kept passage", defaults=(False,))
SLOW = (
    # Keys of passwords in 32,768 rounds (RFC 8009, section 4): ten seconds each. Its two examples stay, and five_suites.txt has two keys.
    Slow("replay_crypto", "sealing_sha2.txt", r"^key 19 ", 1),
    Slow("replay_crypto", "sealing_sha2.txt", r"^key 20 ", 1),
    Slow("replay_encodings", "hints.txt", r"\|suite (19|20) .* key ", 1),
    Slow("replay_realm", "clients.txt", r"^add_by_password \S+ (19|20) ", 0),
    Slow("replay_realm", "clients.txt", r"^client R \S+ (19|20) ", 0, passage=True),
    Slow("replay_realm", "changed_replies.txt", r"^client R \S+ (19|20) ", 0, passage=True),
    Slow("replay_realm", "logins.txt", r"^add_by_password \S+ (19|20) ", 0, passage=True),
    # A request with each of its octets replaced by each other value: 26,265 requests.
    Slow("replay_realm", "realms.txt", r"^answer_replaced ", 0),
    # Logins by RSA keys, honest ones and refused ones.
    Slow("replay_realm", "rsa_logins.txt", r"^honest:", 1),
    Slow("replay_realm", "rsa_logins.txt", r"^Taken\(", 1),
    # Powers with exponents as long as RSA's moduli of 2,048 to 4,096 bits and the 4,096-bit group's prime (RFC 3526, section 5).
    Slow("replay_crypto", "keys.txt", r"^sign ", 2),
    Slow("replay_crypto", "keys.txt", r"^(public|shared) 16 ", 2),
    Slow("replay_crypto", "primes.txt", r"^sign_by_primes ", 2),
    Slow("replay_crypto", "rsa_keys.txt", r"^(agree|element) 16 ", 2),
    Slow("replay_crypto", "rsa_keys.txt", r"^sign ", 2),
)


def files_of(crate):
    """The files of a crate that have slow rows."""
    return sorted({it.file for it in SLOW if it.crate == crate})


def is_row(line):
    return bool(line.strip()) and not line.startswith("#")


def matched(lines, slow):
    """The places of the rows that are left out for this."""
    begins = [at for at, line in enumerate(lines) if is_row(line) and re.search(slow.pattern, line)][slow.kept :]
    if not slow.passage:
        return begins
    ends = [next((at for at in range(begin, len(lines)) if not lines[at].strip()), len(lines)) for begin in begins]
    return [at for begin, end in zip(begins, ends) for at in range(begin, end) if is_row(lines[at])]


def without(crate, file, octets, stdout):
    """A file and what its program has to print, without the slow rows, and how many these are."""
    lines = octets.decode().splitlines(True)
    count = sum(map(is_row, lines))
    left_out = {at for it in SLOW if (it.crate, it.file) == (crate, file) for at in matched(lines, it)}
    said = re.compile(rf"^({re.escape(file)}: ){count} ".encode(), re.M)
    if len(said.findall(stdout)) != 1:
        raise SystemExit(f"test: the stdout of {crate} doesn't say once that {file} has {count} rows")
    kept = "".join(line for at, line in enumerate(lines) if at not in left_out)
    return kept.encode(), said.sub(rf"\g<1>{count - len(left_out)} ".encode(), stdout), len(left_out)
