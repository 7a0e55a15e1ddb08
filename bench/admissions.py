"""Measures admissions by the program that is the first argument, with the ticket of the file of rows that is the second: see
admissions.sh. It writes lists of calls in the form that crates/replay_crypto reads. Each call has a request of its own."""
import heapq, hmac, os, struct, subprocess, sys, tempfile
from cryptography.hazmat.primitives.ciphers import Cipher, algorithms, modes

PROGRAM, ROWS = sys.argv[1:3]
MILLION = 1_000_000


def encrypted(key, iv, text):
    encryptor = Cipher(algorithms.AES(key), modes.CBC(iv)).encryptor()
    return encryptor.update(text) + encryptor.finalize()


def folded(octets):
    """The n-fold of 5 octets to 16 (RFC 3961, section 5.1)."""
    number = int.from_bytes(octets, "big")
    turns = [13 * i % 40 for i in range(16)]
    turned = b"".join((number >> by | number << 40 - by & (1 << 40) - 1).to_bytes(5, "big") for by in turns)
    total = sum(int.from_bytes(turned[i : i + 16], "big") for i in range(0, 80, 16))
    while total >> 128:
        total = (total & (1 << 128) - 1) + (total >> 128)
    return total.to_bytes(16, "big")


def derived(key, usage, kind):
    """A key of AES-256 for a usage (RFC 3961, section 5.1)."""
    first = encrypted(key, bytes(16), folded(struct.pack(">IB", usage, kind)))
    return first + encrypted(key, bytes(16), first)


SESSION = bytes(32)
SECRECY, INTEGRITY = derived(SESSION, 11, 0xAA), derived(SESSION, 11, 0x55)


def sealed(text):
    """The text under the session key, usage 11 and a confounder of zeros (RFC 3962)."""
    plain = bytes(16) + text
    cut = len(plain) % 16 or 16
    blocks = encrypted(SECRECY, bytes(16), plain + bytes(16 - cut))
    stolen = blocks[:-32] + blocks[-16:] + blocks[-32:-16][:cut]
    return stolen + hmac.digest(INTEGRITY, plain, "sha1")[:12]


def element(tag, content):
    count = len(content)
    if count < 128:
        return bytes([tag, count]) + content
    octets = count.to_bytes(1 if count < 256 else 2, "big")
    return bytes([tag, 0x80 + len(octets)]) + octets + content


def ticket():
    """The ticket of the first request in the rows, with its tag [3]."""
    with open(ROWS) as lines:
        request = next(bytes.fromhex(line.split("|")[1]) for line in lines if "|" in line)
    start = request.index(bytes.fromhex("a381"))
    return request[start : start + 3 + request[start + 2]]


FRONT = bytes.fromhex("a003020105a10302010ea20703050000000000") + ticket()
CLIENT = bytes.fromhex("a003020105a1031b0152a20e300ca003020101a10530031b0161")


def request(micros):
    """The request whose authenticator has a time that many microseconds after 2000-01-01, within that day."""
    second, micro = divmod(micros, MILLION)
    time = b"20000101%02d%02d%02dZ" % (second // 3600, second // 60 % 60, second % 60)
    number = micro.to_bytes(micro.bit_length() // 8 + 1, "big")
    times = element(0xA4, element(2, number)) + element(0xA5, element(0x18, time))
    cipher = element(0xA2, element(4, sealed(element(0x62, element(0x30, CLIENT + times)))))
    part = element(0xA4, element(0x30, bytes.fromhex("a003020112") + cipher))
    return element(0x6E, element(0x30, FRONT + part))


def write_calls(calls, skew, step, count, jitter, marked):
    """Calls whose moments are a step apart, with the answer and what is kept after each. The time of each lies up to jitter
    microseconds before its moment. A marked call has another number of what is kept, so that the program prints it."""
    calls.write(f"sequence 0 skew {skew}\n")
    window, known = [], set()
    for i in range(count):
        moment = MILLION * 400 + i * step
        time = moment - (i * 2654435761 % jitter if jitter else 0)
        while window and window[0] < moment - skew * MILLION:
            known.remove(heapq.heappop(window))
        answer = "Krb(34)" if time in known else "Ok R a"
        if time not in known:
            known.add(time)
            heapq.heappush(window, time)
        kept = len(window) + (i in marked)
        calls.write(f"{moment} | {request(time).hex()} | {answer} | {kept} | {moment}\n")
    calls.flush()


def seconds_and_bytes(process):
    """The processor time of a process so far, and its resident memory."""
    with open(f"/proc/{process}/schedstat") as used, open(f"/proc/{process}/statm") as pages:
        return int(used.read().split()[0]) / 1e9, int(pages.read().split()[1]) * os.sysconf("SC_PAGE_SIZE")


def measured(skew, step, first, count, jitter):
    """Prints how much memory a pair takes after the first calls, and how long each of the others takes."""
    marked = (0, first, first + count)
    with tempfile.NamedTemporaryFile("w") as calls:
        write_calls(calls, skew, step, first + count + 1, jitter, marked)
        program = subprocess.Popen([PROGRAM, "sequences", calls.name], stdout=subprocess.PIPE, text=True)
        at = [(program.stdout.readline().split(" kept")[0].split(" ")[-1], *seconds_and_bytes(program.pid)) for _ in marked]
        end = program.communicate()[0]
    if not end.endswith(f" {len(marked)} differ\n"):
        raise SystemExit(end)
    (_, _, empty), (held, begun, full), (still, ended, _) = at
    microseconds = (ended - begun) / count * MILLION
    memory = f", {(full - empty) / int(held):.0f} bytes of resident memory a pair" if first >= MILLION else ""
    order = f", times up to {jitter / MILLION:g} seconds out of order" if jitter else ""
    print(f"{held} to {still} pairs held{order}: {microseconds:.2f} microseconds a call{memory}", flush=True)


def main():
    measured(1, 110_000, 100, 200_000, 0)
    measured(300, 300, MILLION, 200_000, 0)
    measured(1, 110_000, 100, 200_000, 0)
    if "jitter" in sys.argv[3:]:
        measured(300, 300, MILLION, 200_000, 60 * MILLION)


main()
