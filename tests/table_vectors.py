#!/usr/bin/env python3
"""table_vectors.py [VECTORS]: writes crates/table_test/stdin and stdout from the tables of VECTORS/run.txt, 01-run.txt, 01-check.txt, 09-run.txt, 09-check.txt, 13-run.txt and 13-check.txt, document 01's 48-byte table, and tables at the limits that the documents name; then entries of some of them by their numbers.

A vector says whether its table is refused by 12. What a table holds is read by struct."""
import struct
import sys
from pathlib import Path


def table(entries, pool=b"", kind=2, count=None, size=None, spare=b"", word=0):
    body = struct.pack("<HHH", kind, len(entries) if count is None else count, len(pool) if size is None else size)
    for op, a, b in entries:
        body += struct.pack("<HHQ", op, a, b)
    body += pool + spare
    return struct.pack("<I", len(body) + word) + body


def limits():
    """Tables with the documents' own answer: whether they pass."""
    name, number, compare = (5, 2, 0), (1, 0, 42), (32, 0, 0)
    op42 = [name, number, compare]
    yield table(op42, b"Op"), True
    # layout: "u32 length of all after it; u16 kind 2; u16 entry count N 1..512; u16 pool length 0..4,096; .. nothing more"
    yield b"", False
    yield table(op42, b"Op")[:9], False
    yield table(op42, b"Op")[:-1], False
    yield table(op42, b"Op", spare=b"x"), False
    yield table(op42, b"Op", word=1), False
    yield table(op42, b"Op", kind=1), False
    yield table([]), False
    yield table(op42, b"Op", count=2), False
    yield table(op42, b"Op", size=1), False
    yield table(op42 + [(40, 0, 0)] * 509, b"Op"), True
    yield table(op42 + [(40, 0, 0)] * 510, b"Op"), False
    yield table(op42, b"O" * 4096), True
    yield table(op42, b"O" * 4097), False
    # "int32 widened by sign and in range"
    for b, right in ((2**31 - 1, True), (2**31, False), (2**64 - 2**31 - 1, False), (2**64 - 2**31, True), (2**64 - 1, True)):
        yield table([(1, 0, b), number, compare]), right
    yield table([(2, 0, 2**31), number, compare]), True
    yield table([(3, 0, 2**64 - 1), number, compare]), True
    # "a length, b pool offset, a + b at most the pool length; a name keeps the notice's name rules"
    for a, b, right in ((2, 0, True), (1, 1, True), (0, 2, True), (3, 0, False), (0, 3, False), (1, 2**64 - 1, False)):
        yield table([(4, a, b), number, compare], b"Op"), right
    for pool, right in ((b"n" * 64, True), (b"n" * 65, False), (b"", False), (b" ~", True), (b"\x1f", False), (b"\x7f", False)):
        yield table([(5, len(pool), 0), number, compare], pool), right
    # "Unused a and b are zero."
    for op in (1, 2, 3):
        yield table([(op, 1, 42), number, compare]), False
    for op in (6, 7, 8):
        for a, b in ((0, 0), (1, 0), (0, 1)):
            yield table([name, (op, a, b), number, compare], b"Op"), (a, b) == (0, 0)
    for op in (*range(16, 27), *range(32, 38)):
        for a, b in ((0, 0), (1, 0), (0, 1)):
            tail = [number, compare] if op < 27 else []
            yield table([name, number, (op, a, b)] + tail, b"Op"), (a, b) == (0, 0)
    for op in (41, 42, 43):
        for a, b in ((0, 0), (1, 0), (0, 1)):
            yield table(op42 + op42 + [(op, a, b)], b"Op"), (a, b) == (0, 0)
    for op in range(48, 55):
        for a, b in ((0, 0), (1, 0), (0, 1)):
            yield table([name, (op, a, b)], b"Op"), (a, b) == (0, 0)
    # "a: literals or values, 1..8"
    for op in range(56, 60):
        for a in (0, 1, 8, 9):
            yield table([name] + [number] * a + [(op, a, 0)], b"Op"), 1 <= a <= 8
        yield table([name, number, (op, 1, 1)], b"Op"), False
        yield table([number, (op, 1, 0)]), False
    # ops that are not named
    for op in (0, 9, 15, 27, 31, 38, 39, 46, 47, 55, 62, 65535):
        yield table(op42 + [(op, 0, 0)], b"Op"), False
    # "each entry has enough operands of the right kind"; "the end has one logic slot"
    yield table([number]), False
    yield table([number, number]), False
    yield table([number, compare]), False
    yield table([compare]), False
    yield table(op42 + [(8, 0, 0)], b"Op"), False
    yield table([number, (40, 0, 0)]), False
    yield table(op42 + op42, b"Op"), False
    yield table(op42 + [number, (41, 0, 0)], b"Op"), False
    yield table([number] + op42 + [compare], b"Op"), False
    # "depth is at most 32"
    for depth in (2, 31, 32, 33, 64):
        yield table([number] * depth + [(25, 0, 0)] * (depth - 2) + [compare]), depth <= 32
    # "a skip lands at or before N; every way of reaching an entry, or the end, finds the same depth and kinds"
    for op in (44, 45):
        for a, b in ((0, 0), (1, 0), (2, 0), (3, 0), (4, 0), (5, 0), (65535, 0), (4, 1)):
            yield table(op42 + [(op, a, b)] + op42 + [(41, 0, 0)], b"Op"), (a, b) == (4, 0)
        # the skip's own kinds: logic over nothing at the end, value and logic where it lands
        yield table(op42 + [(op, 1, 0), (40, 0, 0), (40, 0, 0)], b"Op"), True
        yield table(op42 + [(op, 2, 0), (40, 0, 0), (40, 0, 0)], b"Op"), True
        yield table(op42 + [(op, 3, 0), (40, 0, 0), (40, 0, 0)], b"Op"), False
        yield table([number, (op, 1, 0), number, compare]), False
        yield table(op42 + [(op, 1, 0)], b"Op"), False


def wildcards():
    """The same of document 02's request 1: op 60."""
    name, star = (5, 1, 0), (4, 1, 1)
    for a in (0, 1, 8, 9):
        yield table([name] + [star] * a + [(60, a, 0)], b"a*"), 1 <= a <= 8
    yield table([name, star, (60, 1, 1)], b"a*"), False
    yield table([star, (60, 1, 0)], b"a*"), False
    yield table([star, star, (60, 1, 0)], b"a*"), True
    # "It gets op 60.": it has its operands' kinds as `begins-with` has
    yield table([(1, 0, 1), (1, 0, 1), (32, 0, 0), star, (60, 1, 0)], b"a*"), False
    yield table([name, star, (60, 1, 0), (40, 0, 0)], b"a*"), True
    yield table([name, star, (60, 1, 0), (8, 0, 0)], b"a*"), False
    # ".. and for a pattern operand that is no op 4 entry directly before"
    for entries in ([name], [star, (6, 0, 0)], [(1, 0, 1)], [star, name], [name, star], [star, star, (25, 0, 0)]):
        yield table([name] + entries + [(60, 1 if (6, 0, 0) in entries or (25, 0, 0) in entries else len(entries), 0)], b"a*"), False
    yield table([name, (6, 0, 0), star, (60, 1, 0)], b"a*"), True
    yield table([name, (1, 0, 1), star, (60, 2, 0)], b"a*"), False
    yield table([(1, 0, 1), star, star, (60, 2, 0)], b"a*"), True
    # a skip to where the patterns stand would find other kinds
    equal = [(1, 0, 1), (1, 0, 1), (32, 0, 0)]
    yield table(equal + [(44, 4, 0), name, star, (60, 1, 0), (41, 0, 0)], b"a*"), True
    for a in (1, 2, 3):
        yield table(equal + [(44, a, 0), name, star, (60, 1, 0), (41, 0, 0)], b"a*"), False
    # "An unclosed or empty set (`[!]` too), a range that falls and a backslash at the end are ill-formed, nothing else.": "the table check gives 12 for it"
    ill = [b"[", b"a[b", b"[!", b"[]", b"[!]", b"[]a]", b"[!]]", b"[b-a]", b"[a--]", b"[\xff-\xfe]", b"[\\b-\\a]", b"[\\]", b"[a\\]", b"\\", b"a\\", b"\\\\\\"]
    well = [b"", b"]", b"-", b"!", b"[a-]", b"[-a]", b"[--a]", b"[!-z]", b"[a-b-c]", b"[[]", b"[*?]", b"[!!]", b"[a-a]", b"[\0-\xff]", b"[\\]]", b"[\\!]", b"[b\\-a]", b"\\\\", b"\0\xff"]
    for pattern, right in [(p, False) for p in ill] + [(p, True) for p in well]:
        yield table([name, (4, len(pattern), 1), (60, 1, 0)], b"a" + pattern), right
        # the last of two, and the first
        yield table([name, (4, 0, 0), (4, len(pattern), 1), (60, 2, 0)], b"a" + pattern), right
        yield table([name, (4, len(pattern), 1), (4, 0, 0), (60, 2, 0)], b"a" + pattern), right
    # a pattern of the whole pool; one whose set closes past its own end in the pool; a string that passes the pool's end
    yield table([(4, 4096, 0), (4, 4096, 0), (60, 1, 0)], b"?" * 4095 + b"*"), True
    yield table([(4, 4096, 0), (4, 4096, 0), (60, 1, 0)], b"?" * 4095 + b"["), False
    yield table([name, (4, 2, 1), (60, 1, 0)], b"a[b]"), False
    yield table([name, (4, 3, 1), (60, 1, 0)], b"a[b]"), True
    yield table([name, (4, 4, 1), (60, 1, 0)], b"a[b]"), False


def editions():
    """Document 02, request 9: "Tables of kind 4 shall be second edition ..; kind 2 keeps the first." """
    shifts = [(5, 2, 0), (1, 0, 33), (17, 0, 0), (1, 0, 21), (32, 0, 0)]
    for kind in (*range(16), 258, 260, 512, 514, 516, 1024, 1026, 32770, 32772, 65535):
        yield table(shifts, b"Op", kind=kind), kind in (2, 4)
    # a table of kind 4 that fails as one of kind 2 does
    yield table(shifts[:-1], b"Op", kind=4), False
    yield table(shifts, b"Op", kind=4, word=1), False
    yield table(shifts, b"Op", kind=4)[:-1], False
    yield table([], kind=4), False
    # and one at each limit
    yield table([(1, 0, 1)] * 32 + [(25, 0, 0)] * 30 + [(32, 0, 0)] + [(40, 0, 0)] * 449, b"O" * 4096, kind=4), True
    yield table([(1, 0, 1)] * 33 + [(25, 0, 0)] * 31 + [(32, 0, 0)], kind=4), False
    yield table([(5, 2, 0), (4, 2, 2), (60, 1, 0)], b"Op[]", kind=4), False


def regexes():
    """Document 02, request 13: op 61; "the table check gives 12 as for op 60". """
    name, any_byte = (5, 1, 0), (4, 1, 1)
    for a in (0, 1, 8, 9):
        yield table([name] + [any_byte] * a + [(61, a, 0)], b"a."), 1 <= a <= 8
    yield table([name, any_byte, (61, 1, 1)], b"a."), False
    yield table([any_byte, (61, 1, 0)], b"a."), False
    yield table([any_byte, any_byte, (61, 1, 0)], b"a."), True
    yield table([(1, 0, 1), (1, 0, 1), (32, 0, 0), any_byte, (61, 1, 0)], b"a."), False
    yield table([name, any_byte, (61, 1, 0), (40, 0, 0)], b"a."), True
    yield table([name, any_byte, (61, 1, 0), (8, 0, 0)], b"a."), False
    for entries, a in (([name], 1), ([any_byte, (6, 0, 0)], 1), ([(1, 0, 1)], 1), ([any_byte, name], 2), ([name, any_byte], 2), ([any_byte, any_byte, (25, 0, 0)], 1)):
        yield table([name] + entries + [(61, a, 0)], b"a."), False
    yield table([name, (6, 0, 0), any_byte, (61, 1, 0)], b"a."), True
    yield table([(1, 0, 1), any_byte, any_byte, (61, 2, 0)], b"a."), True
    # "Ill-formed are request 1's cases, an empty branch or group, a repeat mark first or after `^`, `(` or `|`, unmatched parentheses, `^` or `$` elsewhere, and depth over 8."
    nested = lambda depth: b"(" * depth + b"a" + b")" * depth
    ill = [b"[", b"a[b", b"[^", b"[]", b"[^]", b"[]a]", b"[^]]", b"[b-a]", b"[a--]", b"[\xff-\xfe]", b"[\\]", b"\\", b"a\\", b"", b"|", b"a|", b"|a", b"a||b", b"^|", b"|$", b"(a|)", b"(|a)", b"()", b"a()", b"*", b"+", b"?a", b"^*", b"(*a)", b"a|+",
           b"(", b")", b"a)", b"(a", b"((a)", b"(a))", b")(", b"[)](", b"a^", b"^^", b"$^", b"(^a)", b"a|^b", b"$a", b"a$|b", b"(a$)", b"$*", b"a$\\", nested(9), nested(8) + nested(9), b"(a" * 9 + b")" * 9]
    well = [b"^", b"$", b"^$", b"^|b", b"b|$", b"^|$", b"^a|b$", b"]", b"-", b"!", b"{", b"}", b"a{2}", b"[!]", b"[a^]", b"[\\^]", b"[[:alpha:]]", b"[.*|()$^]", b"[)(]", b"a+?", b"a*+?*", b"(a*)*b", b"\\(", b"\\)a", b"\\^\\$\\|\\*", b"\\$a", b"\\\\$",
            nested(8), nested(8) * 2, b"(a" * 8 + b")" * 8, b"\0\xff"]
    for pattern, right in [(p, False) for p in ill] + [(p, True) for p in well]:
        for kind in (2, 4):
            yield table([name, (4, len(pattern), 1), (61, 1, 0)], b"a" + pattern, kind=kind), right
        # the last of two, and the first
        yield table([name, (4, 1, 0), (4, len(pattern), 1), (61, 2, 0)], b"a" + pattern), right
        yield table([name, (4, len(pattern), 1), (4, 1, 0), (61, 2, 0)], b"a" + pattern), right
    # what one function's patterns may hold is not what the other's may
    for op, pattern, right in ((60, b"*", True), (61, b"*", False), (60, b"[!]", False), (61, b"[!]", True), (60, b"(", True), (61, b"(", False), (60, b"", True), (61, b"", False)):
        yield table([name, (4, len(pattern), 1), (op, 1, 0)], b"a" + pattern), right
    # a pattern of the whole pool; one whose group closes past its own end in the pool; a string that passes the pool's end
    yield table([(4, 4096, 0), (4, 4096, 0), (61, 1, 0)], b"a" + b"*" * 4095), True
    yield table([(4, 4096, 0), (4, 4096, 0), (61, 1, 0)], b"a|" * 2047 + b"b$"), True
    yield table([(4, 4096, 0), (4, 4096, 0), (61, 1, 0)], b"a|" * 2048), False
    yield table([(4, 4096, 0), (4, 4096, 0), (61, 1, 0)], b"(" * 2048 + b")" * 2048), False
    yield table([name, (4, 2, 1), (61, 1, 0)], b"a(b)"), False
    yield table([name, (4, 3, 1), (61, 1, 0)], b"a(b)"), True
    yield table([name, (4, 4, 1), (61, 1, 0)], b"a(b)"), False


def reading(t):
    n, p = struct.unpack_from("<HH", t, 6)
    fields = "".join("%d %d %d " % struct.unpack_from("<HHQ", t, 10 + 12 * i) for i in range(n))
    return "0 " + fields + (t[10 + 12 * n:].hex() or "-")


def asked():
    """Tables, whether they pass, and an entry's number: document 02's request 7, which field was lacking."""
    op42 = table([(5, 2, 0), (1, 0, 42), (32, 0, 0)], b"Op")
    fits = table([(5, 4, 3), (4, 2, 1), (4, 0, 7), (60, 2, 0)], b"xT*User")
    most = table([(5, 64, 4032), (4, 4096, 0), (32, 0, 0)] + [(40, 0, 0)] * 509, b"n" * 4096)
    wide = table([(1, 0, 2**64 - 1), (3, 0, 2**64 - 1), (32, 0, 0)])
    second = table([(5, 2, 0), (1, 0, 33), (17, 0, 0), (1, 0, 21), (32, 0, 0)], b"Op", kind=4)
    regex = table([(5, 4, 0), (4, 10, 4), (61, 1, 0)], b"User[Ss]egall?")
    for t, ks in ((op42, (0, 1, 2, 3, 4, 2**32, 2**64 - 1)), (fits, range(5)), (regex, range(4)), (most, (0, 1, 511, 512)), (wide, range(4)), (second, range(6))):
        yield from ((t, True, k) for k in ks)
    for t in (b"", op42[:-1]):
        yield from ((t, False, k) for k in (0, 3, 2**64 - 1))


def parts(t, right, k):
    """Number, op, a, b, start and end: 12 for a table that fails, then 17 at the count and past it."""
    n = struct.unpack_from("<H", t, 6)[0] if right else 0
    if k >= n:
        return "%d 0 0 0 0 0 " % (17 if right else 12)
    op, a, b = struct.unpack_from("<HHQ", t, 10 + 12 * k)
    start = 10 + 12 * n + b if op in (4, 5) else 0
    return "0 %d %d %d %d %d " % (op, a, b, start, start + a if op in (4, 5) else 0)


def framed(part):
    return struct.pack("<I", len(part)) + part


def main(vectors=Path(__file__).resolve().with_name("vectors")):
    here = Path(__file__).resolve().parent.parent / "crates" / "table_test"
    cases = [*limits(), *wildcards(), *editions(), *regexes()]
    for name, at in (("run.txt", 2), ("01-run.txt", 2), ("01-check.txt", 1), ("09-run.txt", 2), ("09-check.txt", 1), ("13-run.txt", 2), ("13-check.txt", 1)):
        for line in (Path(vectors) / name).read_text().splitlines():
            words = line.split()
            cases.append((bytes.fromhex(words[0]) if words[0] != "-" else b"", words[at] != "12"))
    cases = list(dict.fromkeys(cases))
    entries = [*asked()]
    stdin = [framed(t) + framed(b"") for t, _ in cases] + [framed(t) + framed(struct.pack("<Q", k)) for t, _, k in entries]
    stdout = [reading(t) if right else "12" for t, right in cases] + [parts(*e) for e in entries]
    (here / "stdin").write_bytes(b"".join(stdin))
    (here / "stdout").write_text("".join(line + "\n" for line in stdout))


main(*sys.argv[1:])
