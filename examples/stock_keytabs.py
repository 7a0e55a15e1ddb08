#!/usr/bin/env python3
"""MIT's klist and kinit at keytabs with an odd entry between host/a@R and host/b@R, against what krb_keytab's definitions say.

klist should list the entries that `keytab_at` (crates/krb_file_formats/specs/Reading.antt) reads, up to that at which `stop_of` gives a part
(crates/krb_keytab/specs/Mit.antt), and kinit find a key of host/b@R where it is listed. Both definitions are written anew here. Where a row
begins with `refused:`, `keytab_at` refuses the keytab, and klist's list is only shown. The status is 1 if a row is wrong or klist missing.
"""
import os, pathlib, shutil, struct, subprocess, sys, tempfile


def counted(octets):
    return struct.pack(">H", len(octets)) + octets


def body(name=(b"odd",), realm=b"R", key=b"k" * 32, etype=18, low=1, left=b"", time=1_700_000_000, name_type=1):
    """The octets of an entry without its size; `low` is the kvno of 8 bits, and `left` what is behind the key."""
    fixed = struct.pack(">IIBH", name_type, time, low, etype)
    return struct.pack(">H", len(name)) + counted(realm) + b"".join(map(counted, name)) + fixed + counted(key) + left


def sized(octets, size=None):
    return struct.pack(">i", len(octets) if size is None else size) + octets


def rows():
    """What stands between the two plain entries, by its title."""
    for size in 0, 1, 2, 200, 32767, 32768, 65535:
        yield f"{size} components", sized(body([b"x"] * size))
    for size in 0, 1, 32767, 32768, 65535:
        yield f"one component, its length {size}", sized(body((b"x" * size,)))
        yield f"second of two components, its length {size}", sized(body((b"x", b"y" * size)))
        yield f"realm, its length {size}", sized(body(realm=b"S" * size))
        yield f"key, its length {size}", sized(body(key=b"k" * size))
    for etype, size in (18, 16), (18, 33), (0, 32), (23, 16), (999, 32), (32768, 32), (65535, 32):
        yield f"etype {etype}, key of {size} octets", sized(body(key=b"k" * size, etype=etype))
    for low, left in (0, ""), (0, "00000000"), (0, "00000101"), (3, "00000000"), (3, "00000101"), (3, "ffffffff"), (255, ""):
        yield f"kvno {low} in 8 bits, {left or 'none'} in 32", sized(body(low=low, left=bytes.fromhex(left)))
    for size in 1, 2, 3, 5, 8, 100:
        yield f"octets behind the key: {size}", sized(body(left=(b"\0\0\0\2" + b"z" * 96)[:size]))
    for number in 0, 2**31, 2**32 - 1:
        yield f"timestamp and name type {number}", sized(body(time=number, name_type=number))
    for hole in b"", bytes(1), bytes(3), body():
        yield f"hole, its size {-len(hole)}", sized(hole, -len(hole))
    yield "components and realm with NUL", sized(body((b"x\0y", b"\0"), b"R\0"))
    yield "component of octets 1 to 127, but no line feed", sized(body((bytes({*range(1, 128)} - {10}),)))
    yield "refused: component with octets 255", sized(body((b"x\xff\xff",)))
    yield "refused: realm with an octet 255", sized(body(realm=b"R\xff"))
    for part, octets in ("realm", b"R"), ("component", b"odd"), ("key", b"k" * 32):
        yield f"refused: {part}, its length 100 past the entry", sized(body().replace(counted(octets), b"\0\x64" + octets))
    for size in 1, 4, 9, 15, 19, 21, len(body()) - 1:
        yield f"refused: entry cut, its length {size}", sized(body()[:size])
    for size in 10_000, -10_000:
        yield f"refused: size {size}, past the file", sized(body(), size)


def entries_of(whole):
    """Realm, components, key and kvno of each entry (`keytab_at`). It raises ValueError where the keytab is refused."""
    place, entries = 2, []

    def taken(size, end):
        nonlocal place
        if end - place < size:
            raise ValueError
        place += size
        return whole[place - size : place]

    number = lambda size, end: int.from_bytes(taken(size, end), "big", signed=size == 4)
    while place < len(whole) and (size := number(4, len(whole))):
        end = place + abs(size)
        if size > 0 and end <= len(whole):
            realm, *components = [taken(number(2, end), end).decode("ascii") for _ in range(number(2, end) + 1)]
            low, key = taken(11, end)[8], taken(number(2, end), end)
            wide = int.from_bytes(taken(4, end), "big") if end - place >= 4 else 0
            entries.append((realm, components, key, wide or low))
        taken(end - place, len(whole))
    return entries


def stop_of(realm, components, key):
    """The first part of an entry at which MIT's library stops (`stop_of`)."""
    parts = ("components", [components]), ("realm", [realm]), ("component", components), ("key", [key])
    return next((part for part, texts in parts if not all(0 < len(it) < 32768 for it in texts)), None)


def judged(title, whole, klist, kinit):
    """Whether the row is right, and its line."""
    shown = lambda name, kvno: f"{name if name in ('host/a', 'host/b') else 'odd'} {kvno % 2**32}"
    rows = [line.split(None, 3) for line in klist.stdout.decode("latin-1").split("\n")[3:-1]]
    listed = [shown(name.split("@R")[0], int(kvno)) for kvno, _, _, name in rows]
    answer = b"Cannot find KDC" if "host/b 1" in listed else b"no suitable keys"
    is_right, line = (klist.returncode, klist.stderr) == (0, b"") and answer in kinit.stderr, f"{title}: klist lists {', '.join(listed)}"
    try:
        entries = entries_of(whole)
    except ValueError:
        return is_right and title.startswith("refused:"), line
    stops = [stop_of(*it[:3]) for it in entries] + ["end"]
    first = next(place for place, stop in enumerate(stops) if stop)
    is_right = is_right and not title.startswith("refused:") and listed == [shown("/".join(it[1]), it[3]) for it in entries[:first]]
    return is_right, f"{line}; stop: {stops[first]}"


def main():
    results = []
    with tempfile.TemporaryDirectory() as folder:
        keytab, configuration = pathlib.Path(folder, "keytab"), pathlib.Path(folder, "krb5.conf")
        configuration.write_text("[libdefaults]\n default_realm = R\n dns_lookup_kdc = false\n", encoding="ascii")
        environment = {**os.environ, "KRB5_CONFIG": str(configuration), "LC_ALL": "C", "TZ": "UTC"}
        run = lambda *words: subprocess.run([*words], env=environment, capture_output=True)
        for title, octets in rows():
            keytab.write_bytes(b"\5\2" + sized(body((b"host", b"a"))) + octets + sized(body((b"host", b"b"))))
            kinit = run("kinit", "-c", "MEMORY:", "-kt", keytab, "host/b@R")
            is_right, line = judged(title, keytab.read_bytes(), run("klist", "-kte", keytab), kinit)
            print("right:" if is_right else "WRONG:", line)
            results.append(is_right)
    print(f"{sum(results)} right, {len(results) - sum(results)} wrong")
    return 0 if all(results) else 1


if __name__ == "__main__":
    sys.exit(main() if shutil.which("klist") else "stock_keytabs: klist is missing (Debian: krb5-user)")
