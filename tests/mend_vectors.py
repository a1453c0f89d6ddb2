#!/usr/bin/env python3
"""mend_vectors.py [VECTORS]: writes crates/mend_test/stdin and stdout from VECTORS/14-mend.txt, and cases at the limits that document 02's request 14 names.

The answers are those of `mend` below, by the request's sentences and document 01's of a field. It is held to every answer of the file."""
import random
import struct
import sys
from pathlib import Path

MOST, KEPT, BUFFER = 16384, 64, 65536
CODES = KEEP, MOVE, REPEAT, BAD, CUT = range(5)
# kind: the lengths that its value may have
SIZES = {1: range(4, 5), 2: range(8, 9), 3: range(8, 9), 4: range(1025), 5: range(1025)}
E = bytes.fromhex("0400000001000000")
cases = []


def plain(word):
    return b"" if word == "-" else bytes.fromhex(word)


def hexed(b):
    return bytes(b).hex() or "-"


def name_of(rest):
    """The name of a field, given all after its length word, if the field is right by itself."""
    if len(rest) < 3:
        return None
    kind, size = struct.unpack_from("<HB", rest)
    name, value = rest[3:3 + size], rest[3 + size:]
    right = len(name) == size and 1 <= size <= 64 and all(32 <= b <= 126 for b in name) and kind in SIZES and len(value) in SIZES[kind]
    return name if right else None


def walk(s):
    """The fields kept, by name, and the list."""
    kept, listed, at = {}, [], 8
    while at < len(s):
        if at + 1 == len(s) or at + 2 + struct.unpack_from("<H", s, at)[0] > len(s):
            listed.append((at, CUT))
            break
        end = at + 2 + struct.unpack_from("<H", s, at)[0]
        name = name_of(s[at + 2:end])
        if name is None:
            code = BAD
        elif name in kept:
            code = REPEAT
        else:
            code = MOVE if any(other > name for other in kept) else KEEP
            kept[name] = s[at:end]
        listed.append((at, code))
        at = end
    return kept, listed


def mend(s, list_room, notice_room):
    """Number, place, notice and list."""
    if len(s) < 8:
        return 30, 0, b"", []
    if len(s) > MOST:
        return 10, 0, b"", []
    kept, listed = walk(s)
    if len(kept) > KEPT:
        return 15, 0, b"", []
    fields = b"".join(kept[name] for name in sorted(kept))
    notice = struct.pack("<IHH", 4 + len(fields), 1, len(kept)) + fields
    if list_room < 3 * len(listed) or notice_room < len(notice):
        return 9, 0, b"", []
    return 0, 0, notice, listed


def packed(listed):
    return b"".join(struct.pack("<HB", *entry) for entry in listed)


def case(s, list_room=BUFFER, notice_room=BUFFER):
    number, place, notice, listed = mend(s, list_room, notice_room)
    cases.append((list_room, notice_room, s, "%d %d %d %d %s %s 1 1 " % (number, place, len(notice), len(listed), hexed(packed(listed)), hexed(notice))))
    return number, listed


def tight(s):
    """With each lent buffer as long as its result, one byte shorter and one longer."""
    _, _, notice, listed = mend(s, BUFFER, BUFFER)
    a, b = 3 * len(listed), len(notice)
    for list_room, notice_room in ((a, b), (a - 1, b), (a, b - 1), (a - 1, b - 1), (a + 1, b), (a, b + 1), (0, BUFFER), (BUFFER, 0), (0, 0), (a // 2, BUFFER)):
        if list_room >= 0 and notice_room >= 0:
            case(s, list_room, notice_room)


def field(name, kind=4, value=b"", size=None, namelen=None):
    rest = struct.pack("<HB", kind, len(name) if namelen is None else namelen) + name + value
    return struct.pack("<H", len(rest) if size is None else size) + rest


def vectors(path):
    for line in path.read_text().splitlines():
        s, list_room, notice_room, number, place, notice, count, listed = line.split()
        s, list_room, notice_room = plain(s), int(list_room), int(notice_room)
        got = mend(s, list_room, notice_room)
        if (got[0], got[1], got[2], len(got[3]), packed(got[3])) != (int(number), int(place), plain(notice), int(count), plain(listed)):
            sys.exit("mend_vectors.py: %s" % line)
        case(s, list_room, notice_room)


def lengths():
    """30 and 10, before all others, and the lengths beside them."""
    for n in (*range(10), 16, MOST - 1, MOST, MOST + 1, MOST + 2, 20000, 65536):
        for s in (bytes(n), b"\xff" * n, (E + field(b"a", 5, b"v" * 900) * 80)[:n])[:1 if n > MOST + 1 else 3]:
            case(s)
            case(s, 0, 0)
    # as many fields as there can be, and as many that are kept, to the last byte
    case(E + bytes(MOST - 8), 3 * 8188, 8)
    case(E + bytes(MOST - 8), 3 * 8188 - 1, 8)
    # .. and beside the lengths from which on more of them are noted
    for n in (135, 136, 137, 138, 2055, 2056, 2057, 2058):
        tight(E + bytes(n - 8))
    fields = [field(b"%02d" % i, 4, b"v" * (249 if i < 56 else 248)) for i in range(KEPT)]
    for order in (fields, fields[::-1]):
        s = E + b"".join(order)
        assert len(s) == MOST
        tight(s)
        case(s[:-1])
        case(s + b"\0")


def counts():
    """64 and 65 kept, in order and out of it, with others between them that are not kept; 15 before 9."""
    for n in (63, 64, 65, 66, 100):
        names = [b"n%03d" % i for i in range(n)]
        for order in (names, names[::-1], names[1::2] + names[::2], random.Random(n).sample(names, n)):
            for between in (b"", field(b"", 4), field(names[0], 9), field(order[0], 1, b"four"), field(b"\x1f", 5) + bytes(2)):
                s = b"anything" + between.join(field(name, 5, b"x") for name in order) + between
                case(s)
                case(s, 0, 0)
                case(s, 3 * (n + 1), 8 + 10 * n)
    # the 65th is the last field, or would be if it were whole
    s = E + b"".join(field(b"%02d" % i) for i in range(KEPT))
    for last in (field(b"zz"), field(b"zz")[:-1], field(b"zz", 9), field(b"00"), b"\0"):
        tight(s + last)


def ends():
    """A single byte left, a length that passes the end by one and by many, and one that ends just there."""
    for before in (b"", field(b"m"), field(b"m") + field(b"b", 1, b"1234"), bytes(2), field(b"m", 7)):
        for byte in (0, 1, 4, 255):
            tight(E + before + bytes([byte]))
        whole = field(b"k", 4, b"value")
        for n in range(len(whole) + 1):
            case(E + before + whole[:n])
        for size in (0, 1, 2, 3, 4, 5, 8, 9, 10, 11, 255, 256, 258, 65535):
            case(E + before + field(b"k", 4, b"value", size))
            tight(E + before + field(b"k", 4, b"value", size) + field(b"l"))
    # lengths from 0 on with nothing behind
    for size in range(8):
        for spare in range(8):
            case(E + struct.pack("<H", size) + bytes(spare))


def judgements():
    """What is right by itself: each kind with each length, names of each length and byte; and a bad field hides no later one."""
    for kind in (*range(8), 255, 256, 257, 260, 65535):
        for n in (0, 1, 3, 4, 5, 7, 8, 9, 1023, 1024, 1025):
            s = field(b"f", kind, b"v" * n)
            case(E + s)
            case(E + s + field(b"f", 4, b"later") + s)
    for n in (0, 1, 2, 63, 64, 65, 100, 255):
        case(E + field(b"n" * n) + field(b"n" * 64) + field(b"n" * 63) + field(b"n" * n))
        for namelen in (0, 1, n, 255):
            case(E + field(b"n" * n, 4, b"vv", None, namelen) + field(b"n", 5))
    for byte in range(256):
        for name in (bytes([byte]), b"name" + bytes([byte]), bytes([byte]) + b"name", b"long name" + bytes([byte]) + b"inside"):
            case(E + field(name) + field(name, 5, b"again") + field(b"name") + field(b"m"))


def orders():
    """Moved and repeated ones: chains that fall, names that begin others, and names that differ late."""
    names = [b"a", b"aa", b"ab", b"a ", b"b", b"~", b" ", b"ba", b"A", b"n" * 64, b"n" * 63, b"n" * 63 + b"o", b"12345678", b"123456789", b"12345679"]
    for k in range(len(names)):
        turned = names[k:] + names[:k]
        tight(b"????????" + b"".join(map(field, turned)))
        tight(b"????????" + b"".join(map(field, turned[::-1])))
        tight(b"????????" + b"".join(map(field, sorted(turned[:8]) + turned)))
    # a repeated one keeps the first, whatever its kind and value, also if the first was moved
    tight(E + field(b"b", 1, b"1111") + field(b"a", 4, b"x") + field(b"a", 5, b"yyyy") + field(b"b", 2, b"22222222") + field(b"c"))
    # what the header says is not believed
    body = field(b"b") + field(b"a", 1, b"1234") + field(b"c", 9)
    for header in (E, bytes(8), b"\xff" * 8, struct.pack("<IHH", 4 + len(body), 1, 3), struct.pack("<IHH", 4 + len(body), 2, 1), struct.pack("<IHH", 3, 1, 65), struct.pack("<IHH", 4 + len(body), 1, 0)):
        tight(header + body)


def at_random():
    rnd = random.Random(14)
    names = [bytes(rnd.choice(b"abcAB ~") for _ in range(rnd.choice([1, 1, 2, 3, 8, 9, 64]))) for _ in range(90)]

    def one(damage):
        kind = rnd.choice([1, 1, 2, 3, 4, 4, 5, 5, 0, 6])
        name = rnd.choice(names)
        if rnd.random() < 0.05:
            name = bytes([rnd.randrange(256)]) + name
        value = bytes(rnd.randrange(256) for _ in range({1: 4, 2: 8, 3: 8}.get(kind, rnd.choice([0, 1, 5, 30]))))
        if rnd.random() < 0.05:
            value += b"x"
        s = field(name, kind, value)
        if rnd.random() < damage:
            s = struct.pack("<H", max(0, len(s) - 2 + rnd.choice([-1, 1, 3, 300]))) + s[2:]
        return s

    for _ in range(600):
        damage = rnd.choice([0, 0, 0.002, 0.04])
        s = bytes(rnd.randrange(256) for _ in range(8)) + b"".join(one(damage) for _ in range(rnd.choice([0, 1, 3, 10, 40, 70])))
        if rnd.random() < 0.3:
            s = s[:rnd.randrange(len(s) + 1)]
        if rnd.random() < 0.05:
            s = bytes(8) + bytes(rnd.choice([0, 0, 0, 1, 3]) for _ in range(rnd.randrange(3000)))
        _, _, notice, listed = mend(s, BUFFER, BUFFER)
        case(s, *rnd.choice([(BUFFER, BUFFER), (3 * len(listed), len(notice)), (max(0, 3 * len(listed) - 1), BUFFER), (BUFFER, max(0, len(notice) - 1))]))


def main(folder=Path(__file__).resolve().with_name("vectors")):
    here = Path(__file__).resolve().parent.parent / "crates" / "mend_test"
    vectors(Path(folder) / "14-mend.txt")
    for more in (lengths, counts, ends, judgements, orders, at_random):
        more()
    (here / "stdin").write_bytes(b"".join(struct.pack("<III", 8, a, b) + struct.pack("<I", len(s)) + s for a, b, s, _ in cases))
    (here / "stdout").write_text("".join(line + "\n" for _, _, _, line in cases))


main(*sys.argv[1:])
