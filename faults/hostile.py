"""Puts damaged requests to the program that is the first argument, made from the recorded ones of the folder that is the second:
see hostile.sh.

Of each message it is known in part what has to come: what isn't one element of canonical DER under the tag of an AS or TGS request is
no request; what is answered gets one message of canonical DER: an error, or the reply that belongs to the request. The same message
gets the same reply in another stream, and under a limit of memory, where the program may also end for want of it.
"""
import concurrent.futures, os, random, re, resource, subprocess, sys, tempfile

PROGRAM, DATA = sys.argv[1:3]
COUNT = int(sys.argv[3]) if len(sys.argv) > 3 else 36_000
SEED = int(sys.argv[4]) if len(sys.argv) > 4 else random.randrange(1 << 32)
FRAME_LIMIT = 65_536
IN_ONE_STREAM, PART = 50, 500
FIRST_LIMIT, LIMITS, STEP = 1 << 20, 40, 64 << 10
# Of a request its reply: first octet and message type (RFC 4120, section 5.10).
REPLY_OF = {0x6A: (0x6B, 11), 0x6C: (0x6D, 13)}
KRB_ERROR, KRB_ERROR_TYPE = 0x7E, 30

# The realm of the recorded requests. The keys of a, b and d are those of the password pw (RFC 3961 and RFC 3962).
ACCOUNTS = (
    ("a", "aes256-cts-hmac-sha1-96", "a2790112b3a6d69866b001ef9ce674a3b23e289c1bf28acf33738852b2f9b31d"),
    ("h", "aes256-cts-hmac-sha1-96", "01" * 32),
    ("b", "aes128-cts-hmac-sha1-96", "5be5c8497d50785a4d90f611859b5ca2"),
    ("d", "des3-cbc-sha1-kd", "9d851a5437832649c458c1ba32ef26cda7ad1ad50d2c8979"),
)
MOMENT = "20000101000000Z"
WRONG = []


def wrong(text):
    WRONG.append(text[:300])
    if len(WRONG) <= 20:
        print("WRONG:", text[:300], flush=True)


def write_settings(path):
    with open(path, "w") as it:
        it.write(f'realm = "R"\nsuite = "{ACCOUNTS[0][1]}"\nkey = "{"00" * 32}"\nskew = 300\nlifetime = 36000\n')
        for name, suite, key in ACCOUNTS:
            it.write(f'[[account]]\nname = ["{name}"]\nsuite = "{suite}"\nkey = "{key}"\n')


def recorded():
    """The recorded requests, readable or not."""
    found = []
    for name in ("kdc_exchanges.txt", "real_clients.txt", "five_suites.txt"):
        with open(os.path.join(DATA, name)) as lines:
            found += [bytes.fromhex(line.split(" | ")[1]) for line in lines if not line.startswith("#")]
    return [it for it in found if it and len(it) < FRAME_LIMIT]


def lengths(message):
    """The places of octets that look like a length, and the first one."""
    return [0] + [at + 1 for at in range(len(message) - 1) if message[at] in b"\x30\x6a\x6c\x6e\x61\xa0\xa1\xa2\xa3\xa4\x04\x02\x03\x1b\x18"]


def damaged(message, others, chance):
    """The message with one damage."""
    it, at = bytearray(message), chance.randrange(len(message))
    kind = chance.randrange(10)
    if kind == 0:
        it[at] ^= 1 << chance.randrange(8)
    elif kind == 1:
        it[at] = chance.choice((0, 1, 0x7F, 0x80, 0xFF, chance.randrange(256)))
    elif kind == 2:
        del it[at : at + chance.randrange(1, 9)]
    elif kind == 3:
        it[at:at] = chance.randbytes(chance.randrange(1, 9))
    elif kind == 4:
        it[at:at] = it[at : at + chance.randrange(1, 40)]
    elif kind == 5:
        del it[at:]
    elif kind == 6:
        it += chance.randbytes(chance.randrange(1, 9))
    elif kind == 7:
        place = chance.choice(lengths(it))
        it[place : place + 1] = chance.choice((b"\x80", b"\x81\x00", b"\x84\xff\xff\xff\xff", b"\x88" + b"\xff" * 8, b"\x82\x00\x10", b"\xff"))
    elif kind == 8:
        other = chance.choice(others)
        it[at:] = other[chance.randrange(len(other)) :]
    else:
        place = chance.randrange(len(it))
        it[place] = (it[place] + chance.choice((1, 255))) % 256
    return bytes(it[:FRAME_LIMIT]) or b"\0"


def messages(count, chance):
    """Recorded requests, of which most are damaged once, and some more often."""
    requests = recorded()
    for _ in range(count):
        it = chance.choice(requests)
        for _ in range(chance.choice((0, 1, 1, 1, 1, 1, 2, 3))):
            it = damaged(it, requests, chance)
        yield it


def element(octets, at):
    """First octet, content and end of the element of canonical DER there; None where there is none."""
    if at + 2 > len(octets) or octets[at] & 31 == 31:
        return None
    size, begin = octets[at + 1], at + 2
    if size >= 128:
        more = octets[begin : begin + (size & 127)]
        size, begin = int.from_bytes(more, "big"), begin + len(more)
        if not more or len(more) < octets[at + 1] & 127 or not more[0] or size < 128:
            return None
    return (octets[at], octets[begin : begin + size], begin + size) if begin + size <= len(octets) else None


def is_der(octets):
    """Whether these are elements of canonical DER, as far as lengths go."""
    at = 0
    while at < len(octets):
        found = element(octets, at)
        if not found or found[0] & 32 and not is_der(found[1]):
            return False
        at = found[2]
    return True


def may_be_request(message):
    found = element(message, 0)
    return bool(found) and found[0] in REPLY_OF and found[2] == len(message) and is_der(message)


def number(content):
    found = element(content, 0)
    return int.from_bytes(found[1], "big", signed=True) if found and found[0] == 2 and found[2] == len(content) else None


def is_reply(message, reply):
    """Whether the reply is an error, or belongs to the request, and is canonical DER."""
    found = element(reply, 0)
    if not found or found[2] != len(reply) or not is_der(reply):
        return False
    tag, kind = REPLY_OF[message[0]]
    fields, at, body = {}, 0, element(found[1], 0)
    while body and at < len(body[1]):
        field = element(body[1], at)
        fields[field[0] & 31], at = field[1], field[2]
    if found[0] == KRB_ERROR:
        tag, kind = KRB_ERROR, KRB_ERROR_TYPE
        if number(fields.get(6, b"")) not in range(1, 128):
            return False
    return found[0] == tag and [number(fields.get(at, b"")) for at in (0, 1)] == [5, kind]


def large_request(request):
    """An AS request with the body of this one, and 60,000 octets of padata of a type that no one knows."""
    fields, at = {}, 0
    content = element(element(request, 0)[1], 0)[1]
    while at < len(content):
        field = element(content, at)
        fields[field[0]] = content[at : field[2]]
        at = field[2]
    padata = der(0x30, der(0xA1, der(2, b"\x7f")) + der(0xA2, der(4, bytes(60_000))))
    parts = [fields[0xA1], fields[0xA2], der(0xA3, der(0x30, padata)), fields[0xA4]]
    return der(0x6A, der(0x30, b"".join(parts)))


def der(tag, content):
    size = len(content)
    octets = size.to_bytes((size.bit_length() + 7) // 8, "big")
    return bytes([tag]) + (bytes([size]) if size < 128 else bytes([128 | len(octets)]) + octets) + content


def frame(message):
    return len(message).to_bytes(4, "big") + message


def frames_of(output):
    """The messages of the whole frames of an output, and how many octets stand behind these."""
    found, at = [], 0
    while at + 4 <= len(output):
        end = at + 4 + int.from_bytes(output[at : at + 4], "big")
        if end > len(output):
            break
        found.append(output[at + 4 : end])
        at = end
    return found, len(output) - at


def run(settings, stream, limit=None):
    """Status, line and replies of the program on a stream, perhaps with so much address space."""
    bounds = (lambda: resource.setrlimit(resource.RLIMIT_AS, (limit, limit))) if limit else None
    ran = subprocess.run([PROGRAM, settings, "/dev/zero", MOMENT], input=stream, capture_output=True, preexec_fn=bounds)
    replies, rest = frames_of(ran.stdout)
    return ran.returncode, ran.stderr.decode(errors="replace").strip(), replies, rest


def play(settings, batch):
    """The reply to each message, None where it is no request. The program ends at such a one, and goes on behind it anew."""
    answers = []
    while len(answers) < len(batch):
        some = batch[len(answers) : len(answers) + IN_ONE_STREAM]
        status, line, replies, rest = run(settings, b"".join(map(frame, some)))
        if rest or len(replies) > len(some):
            wrong(f"output that is no frame, behind {len(replies)} replies")
            return answers
        answers += replies
        if (status, line) == (2, "krb_realm: NoRequest") and len(replies) < len(some):
            answers.append(None)
        elif (status, line) != (0, "") or len(replies) < len(some):
            wrong(f"status {status}, {line!r} at {some[min(len(replies), len(some) - 1)].hex()}")
            return answers
    return answers


def judge(batch, answers):
    """Counts what was answered, and compares it with what is known."""
    counts = {"no request": 0, "error": 0, "reply": 0}
    for message, reply in zip(batch, answers):
        if reply is None:
            counts["no request"] += 1
            continue
        if not may_be_request(message):
            wrong(f"answered, and is no request: {message.hex()}")
        elif not is_reply(message, reply):
            wrong(f"a wrong reply {reply.hex()} to {message.hex()}")
        counts["error" if reply[0] == KRB_ERROR else "reply"] += 1
    return counts


def play_broken_frames(settings, good, chance):
    """Streams of good frames that end within a frame, or announce a longer one than may be."""
    for _ in range(200):
        before = [chance.choice(good) for _ in range(chance.randrange(4))]
        announced = chance.randrange(1, FRAME_LIMIT)
        tail, line = chance.choice((
            (chance.randbytes(4)[: chance.randrange(1, 4)], "Truncated"),
            (announced.to_bytes(4, "big") + bytes(chance.randrange(announced)), "Truncated"),
            (chance.randrange(FRAME_LIMIT + 1, 1 << 32).to_bytes(4, "big") + chance.randbytes(9), "FrameTooLong"),
            (b"\xff" * 4, "FrameTooLong"),
        ))
        status, said, replies, rest = run(settings, b"".join(map(frame, before)) + tail)
        if (status, said, rest, len(replies)) != (2, f"krb_realm: {line}", 0, len(before)):
            wrong(f"{said!r} and {len(replies)} replies behind {len(before)} frames and {tail[:8].hex()}")


def peak(settings, stream, times):
    """The most memory that the program took once it answered a stream so many times, in KiB, and its replies' octets."""
    with tempfile.NamedTemporaryFile() as replies:
        running = subprocess.Popen([PROGRAM, settings, "/dev/zero", MOMENT], stdin=subprocess.PIPE, stdout=replies)
        for _ in range(times):
            running.stdin.write(stream)
        running.stdin.flush()
        before = -1
        while before != os.path.getsize(replies.name) or not before:
            before = os.path.getsize(replies.name)
            try:
                running.wait(0.5)
            except subprocess.TimeoutExpired:
                pass
        with open(f"/proc/{running.pid}/status") as status:
            most = int(re.search(r"VmHWM:\s+(\d+)", status.read())[1])
        running.stdin.close()
        running.wait()
        return most


def play_limited(settings, requests, replies):
    """The same requests with little memory: the same replies, or a front of them and `Memory`."""
    stream, counts = b"".join(map(frame, requests)), {"whole": 0, "want of memory": 0}
    least = FIRST_LIMIT
    while run(settings, b"", least)[:2] != (0, "") and least < 1 << 30:
        least += STEP
    for limit in range(least, least + LIMITS * STEP, STEP):
        status, line, told, rest = run(settings, stream, limit)
        is_front = told == replies[: len(told)] and not rest
        if is_front and (status, line) == (0, "") and len(told) == len(replies):
            counts["whole"] += 1
        elif is_front and (status, line) == (2, "krb_realm: Memory"):
            counts["want of memory"] += 1
        else:
            wrong(f"status {status}, {line!r} and {len(told)} replies with {limit} octets of address space")
    return least, counts


def main():
    chance = random.Random(SEED)
    with tempfile.TemporaryDirectory() as folder:
        settings = os.path.join(folder, "settings.toml")
        write_settings(settings)
        batch = list(messages(COUNT, chance))
        parts = [batch[at : at + PART] for at in range(0, COUNT, PART)]
        with concurrent.futures.ThreadPoolExecutor(len(os.sched_getaffinity(0))) as pool:
            answers = list(pool.map(lambda part: play(settings, part), parts))
        batch = [message for part, told in zip(parts, answers) for message in part[: len(told)]]
        answers = [reply for told in answers for reply in told]
        print(f"{len(answers)} of {COUNT} messages, seed {SEED}:", judge(batch, answers), flush=True)
        good = [(message, reply) for message, reply in zip(batch, answers) if reply is not None]
        chance.shuffle(good)
        good = good[:5000]
        requests, replies = [message for message, _ in good], [reply for _, reply in good]
        if play(settings, requests) != replies:
            wrong("another reply in another stream")
        play_broken_frames(settings, requests, chance)
        large = large_request(recorded()[0])
        some = requests[:100] + [large] + requests[100:200]
        least, counts = play_limited(settings, some, play(settings, some))
        print(f"{len(some)} messages under {LIMITS} limits of address space, from {least} octets on: {counts}", flush=True)
        stream = b"".join(map(frame, requests))
        few, many = peak(settings, stream, 2), peak(settings, stream, 20)
        print(f"at most {few} KiB after {2 * len(requests)} requests, {many} KiB after {20 * len(requests)}")
        if many > few + 256:
            wrong("more memory for more requests")
    print(f"{len(WRONG)} wrong")
    sys.exit(bool(WRONG))


main()
