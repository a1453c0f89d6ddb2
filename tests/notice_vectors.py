#!/usr/bin/env python3
"""notice_vectors.py [VECTORS]: writes crates/notice_test/stdin and stdout from the cases and answers of VECTORS/read.txt, VECTORS/write.txt and VECTORS/11-find.txt, after document 01's Op42 and E and cases at the limits.

One case a line, byte strings in hex, `-` for none. read.txt: notice, k, number, place, kind, name, value. write.txt: buffer, named length, name, kind, value, number, place, new length, buffer afterwards.
11-find.txt: notice, name, index or `-`, names looked at. Names are also found in other notices, those of read.txt among them, with answers after document 02's request 11.
"""
import struct
import sys
from pathlib import Path

E = "0400000001000000"
OP42 = "0F 00 00 00 01 00 01 00 09 00 01 00 02 4F 70 2A 00 00 00".replace(" ", "").lower()


def field(kind, name, value):
    return struct.pack("<HHB", 3 + len(name) + len(value), kind, len(name)) + name + value


def notice(fields):
    body = b"".join(field(kind, name, value) for name, kind, value in sorted(fields))
    return struct.pack("<IHH", 4 + len(body), 1, len(fields)) + body


def full(size):
    """15 fields that fill a notice of so many bytes."""
    fields = [(b"f%02d" % i, 4, b"x" * 1024) for i in range(15)]
    return fields + [(b"g", 4, b"y" * (size - len(notice(fields + [(b"g", 4, b"")]))))]


def written(fields, new, spare, number):
    """A case of writing, refused unless the number is 0: the new field is added, and the spare bytes that are left stay."""
    name, kind, value = new
    old = notice(fields)
    buffer = old + spare
    if number:
        return buffer, len(old), name, kind, value, number, 0, len(old), buffer
    now = notice(fields + [new])
    return buffer, len(old), name, kind, value, 0, 0, len(now), now + buffer[len(now) :]


def limits():
    """Cases of reading and of writing at the limits of names, values, fields and sizes."""
    reads, writes = [], []
    many = [(b"n%02d" % i, 5, b"") for i in range(64)]
    reads.append((notice(many), 63, 0, 0, 5, b"n63", b""))
    reads.append((notice(many), 64, 17, 0, 0, b"", b""))
    reads.append((notice(many + [(b"o", 5, b"")]), 0, 11, 0, 0, b"", b""))
    reads.append((notice(full(16384)), 15, 0, 0, 4, b"g", full(16384)[15][2]))
    reads.append((notice(full(16385)), 15, 11, 0, 0, b"", b""))
    reads.append((notice([(b"~" * 64, 4, b"z" * 1024)]), 0, 0, 0, 4, b"~" * 64, b"z" * 1024))
    reads.append((notice([(b"~" * 65, 4, b"")]), 0, 11, 8, 0, b"", b""))
    reads.append((notice([(b"a", 4, b"z" * 1025)]), 0, 11, 8, 0, b"", b""))
    reads.append((notice([(b"a", 4, b"")]) + b"\0", 0, 11, 0, 0, b"", b""))
    spare = bytes(range(256)) * 8
    writes.append(written(many[:63], many[63], spare, 0))
    writes.append(written(many, (b"o", 5, b""), spare, 15))
    writes.append(written(many[1:], many[0], spare[:8], 0))
    writes.append(written(many[1:], many[0], spare[:7], 15))
    rest = full(16384)
    for extra, number in ((0, 0), (1, 15)):
        writes.append(written(rest[:7] + rest[8:], (rest[7][0] + b"a" * extra, 4, rest[7][2]), spare, number))
    writes.append(written([], (b" " * 64, 5, b"\xff" * 1024), spare, 0))
    writes.append(written([], (b" " * 65, 5, b""), spare, 13))
    writes.append(written([], (b"a", 5, b"\xff" * 1025), spare, 16))
    buffer = notice([]) + spare
    writes.append((buffer, len(buffer) + 1, b"a", 5, b"", 11, 0, len(buffer) + 1, buffer))
    return reads, writes


def names_of(s):
    """The names of a well-formed notice."""
    names, at = [], 8
    for _ in range(struct.unpack_from("<H", s, 6)[0]):
        size, _, length = struct.unpack_from("<HHB", s, at)
        names.append(s[at + 5 : at + 5 + length])
        at += 2 + size
    return names


def found(names, name):
    """"those below the one sought, and one more if any is left"; 64 for the index of no field."""
    below = sum(other < name for other in names)
    return 0, 0, names.index(name) if name in names else 64, below + (below < len(names))


def sought(names):
    """Names to find: none, below and above all, and each name, its starts and longer ones, one of them as long as it but for a whole 256."""
    some = [b"", b"\0", b" ", b"\x7f", b"~" * 65, b"\xff", b"\xc3\xa9"]
    for name in names:
        some += [name, name[:-1], name[:1], name + b"\0", name + b" ", name + b"\x80", name[:-1] + b"\xff", name.swapcase(), name + bytes(256)]
    return list(dict.fromkeys(some))


def edges():
    """Cases of finding, with all these names, in notices of none, one and many fields, and of names that begin others."""
    cases = []
    for own in ([], [b"Op"], [b"a", b"ab", b"abc", b"abd", b"b", b"bb"], [b"~" * 63, b"~" * 64], [b"n%02d" % i for i in range(64)]):
        s = notice([(name, 5, b"") for name in own])
        cases += [(s, name, *found(own, name)) for name in sought(own[:4] + own[-2:])]
    return cases


def finds(reads):
    """Two names in each notice of some cases of reading. One that is no notice is refused as reading refuses it, and no name is looked at."""
    cases, seen = [], set()
    for i, (s, _, number, place, *_) in enumerate(reads):
        if s not in seen:
            own = [] if number == 11 else names_of(s)
            some = sought(own)
            for name in (some[i % len(some)], some[(7 * i + 3) % len(some)]):
                cases.append((s, name, 11, place, 64, 0) if number == 11 else (s, name, *found(own, name)))
        seen.add(s)
    return cases


def unhex(word):
    return b"" if word == "-" else bytes.fromhex(word)


def show(s):
    return s.hex() if s else "-"


def main(vectors=Path(__file__).resolve().with_name("vectors")):
    folder = Path(vectors)
    here = Path(__file__).resolve().parent.parent / "crates" / "notice_test"
    reads, writes = limits()
    e, op42 = bytes.fromhex(E), bytes.fromhex(OP42)
    reads += [(op42, 0, 0, 0, 1, b"Op", b"\x2a\0\0\0"), (op42, 1, 17, 0, 0, b"", b""), (e, 0, 17, 0, 0, b"", b"")]
    writes.append((e + bytes(11), 8, b"Op", 1, b"\x2a\0\0\0", 0, 0, 19, op42))
    for line in (folder / "read.txt").read_text().splitlines():
        s, k, number, place, kind, name, value = line.split()
        reads.append((unhex(s), int(k), int(number), int(place), int(kind), unhex(name), unhex(value)))
    for line in (folder / "write.txt").read_text().splitlines():
        buffer, size, name, kind, value, number, place, now, after = line.split()
        writes.append((unhex(buffer), int(size), unhex(name), int(kind), unhex(value), int(number), int(place), int(now), unhex(after)))
    finding = edges() + finds(reads)
    for line in (folder / "11-find.txt").read_text().splitlines():
        s, name, index, looked = line.split()
        finding.append((unhex(s), unhex(name), 0, 0, 64 if index == "-" else int(index), int(looked)))
    stdin, rows = [], []

    def put(*parts):
        stdin.extend(struct.pack("<I", len(part)) + part for part in parts)

    for s, k, number, place, kind, name, value in reads:
        put(b"\1", s, struct.pack("<Q", k))
        looked_up = f"{kind} {show(value)} " if number == 0 else ""
        rows.append(f"{number} {place} {kind} {show(name)} {show(value)} {looked_up}")
    for buffer, size, name, kind, value, number, place, now, after in writes:
        put(b"\2", buffer, struct.pack("<Q", size), name, struct.pack("<H", kind), value)
        rows.append(f"{number} {place} {now} {show(after)} ")
    for s, name, number, place, index, looked in finding:
        put(b"\3", s, name)
        rows.append(f"{number} {place} {index} {looked} ")
    (here / "stdin").write_bytes(b"".join(stdin))
    (here / "stdout").write_text("\n".join(rows) + "\n")


main(*sys.argv[1:])
