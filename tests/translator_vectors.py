#!/usr/bin/env python3
"""translator_vectors.py [VECTORS]: writes crates/translator_test/stdin and stdout from translate.txt, 01-translate.txt, 09-translate.txt, 13-translate.txt and the texts of 10-more.txt in the folder VECTORS, document 01's own examples, and texts at the limits that it and document 02 name.

A case is two parts: the buffer's length and the edition's number, then the text. The examples and limits are asked of both editions and the vectors from before request 9 of the two by turns; the second has the answers of the first but
for the table's kind. A vector's answer is its own; the tables of 10-more.txt, which has none, are those of compiled.py. A vector with a buffer of 65,536 bytes is asked again with none, and one with a table also with a buffer of the table's length and with one byte less: "9 | lent buffer shorter than the table", the
last of the refusals. The answers of the other cases follow from the documents' sentences, which are named beside them."""
import struct
import sys
from pathlib import Path

import compiled

LARGE = 65536
ONE, EQUAL = (1, 0, 1), (32, 0, 0)


def table(entries, pool=b""):
    body = struct.pack("<HHH", 2, len(entries), len(pool)) + b"".join(struct.pack("<HHQ", *e) for e in entries) + pool
    return struct.pack("<I", len(body)) + body


def accepted(text, written, rooms=(LARGE,)):
    """The text with buffers that have room, with one of just the table's length, and with shorter ones."""
    for room in (*rooms, len(written)):
        yield text, room, 0, 0, written
    for room in (len(written) - 1, 0):
        yield text, room, 9, 0, b""


def refused(text, number, place=0):
    for room in (LARGE, 0):
        yield text, room, number, place, b""


def by_edition(edition, rows):
    """The rows, whose tables are the first edition's: "Tables of kind 4 shall be second edition". """
    kind = struct.pack("<H", 2 * edition)
    for text, room, number, place, written in rows:
        yield edition, text, room, number, place, written[:4] + kind + written[6:] if written else b""


def editions():
    # document 02, request 9: "25 for an edition other than 1 or 2, before 10", whatever the text and the buffer
    refusals = [b"[", b"2147483648", b"(" * 25, b"", b"f(a) + 1", b"wildcard (a, '[')", b"1", b"!!(" + b" ^^ ".join([b"1 == 1"] * 128) + b")", sum_of(15, b"1 + 1 * 1", [])[0]]
    # among them numbers whose lowest byte, two bytes or four are 1 or 2
    for edition in (0, 3, 255, 257, 258, 65537, 2**32 + 1, 2**32 + 2, 2**63, 2**64 - 1):
        for text in (b"Op == 42", b" " * 4097, *refusals):
            for room in (LARGE, 0):
                yield edition, text, room, 25, 0, b""
    # the three shifts, whose entries are the same in both
    shifts = [(5, 1, 0), (1, 0, 2**64 - 1), (16, 0, 0), (1, 0, 33), (17, 0, 0), (2, 0, 2**63), (18, 0, 0), ONE, EQUAL]
    rows = [*accepted(b"a << -1 >> 33 >>> -9223372036854775808L == 1", table(shifts, b"a"))]
    for edition in (1, 2):
        yield from by_edition(edition, rows)


def examples():
    # "P `Op == 42` .. Table of 48 bytes: `2C 00 00 00 02 00 03 00 02 00`, entries (5,2,0) (1,0,42) (32,0,0), `4F 70`."
    yield from accepted(b"Op == 42", bytes.fromhex(
        "2C 00 00 00 02 00 03 00 02 00"
        "05 00 02 00 00 00 00 00 00 00 00 00"
        "01 00 00 00 2A 00 00 00 00 00 00 00"
        "20 00 00 00 00 00 00 00 00 00 00 00"
        "4F 70"), (LARGE, 49))
    for text in (b"pipe=>20", b"Op", b"! Op == 42", b"1.0e23"):
        yield from refused(text, 5)
    yield from refused(b"a -5", 2, 2)
    yield from refused(b"", 2, 0)
    yield from refused(b"Op == 42 &&", 2, 11)
    yield from refused(b"09 == 9", 1)
    yield from refused(b"int32 ((a))", 4)
    for text in (b"0x80000000 == 0", b"1.0e24", b"123456789012345.6"):
        yield from refused(text, 3)


def names():
    # "`L && R` becomes L, skip if false, R, op 41; `L || R` uses skip if true; a is R's entries plus 1."; "each time anew"
    for sign, skip, op in ((b"&&", 44, 41), (b"||", 45, 43)):
        same = [[(5, 1, i), (5, 1, i + 1), EQUAL] for i in (0, 2, 4)]
        yield from accepted(b"a == a %b a == a" % sign, table(same[0] + [(skip, 4, 0)] + same[1] + [(op, 0, 0)], b"aaaa"))
        right = [(skip, 4, 0)] + same[2] + [(op, 0, 0)]
        yield from accepted(b"a == a %b a == a %b a == a" % (sign, sign), table(same[0] + [(skip, 4, 0)] + same[1] + [(op, 0, 0)] + right, b"aaaaaa"))
        yield from accepted(b"a == a %b (a == a %b a == a)" % (sign, sign), table(same[0] + [(skip, 9, 0)] + same[1] + right + [(op, 0, 0)], b"aaaaaa"))
    # "Operand names (not functions') and strings enter the pool unescaped, in text order"
    yield from accepted(b'begins-with (\\(b, "\\"x", "b")', table([(5, 2, 0), (4, 2, 2), (4, 1, 4), (56, 2, 0)], b'(b"xb'))


def sum_of(levels, last, entries):
    """Two slots for each level under those of the last sum."""
    text = b"1 + 1 * (" * levels + last + b")" * levels + b" == 1"
    return text, [ONE] * (2 * levels) + entries + [(22, 0, 0), (25, 0, 0)] * levels + [ONE, EQUAL]


def limits():
    # "10 | text over 4,096 bytes"; the grammar's place is "the text's length"
    yield from refused(b" " * 4096, 2, 4096)
    yield from refused(b" " * 4097, 10)
    long = b'"' + b"x" * 4090 + b'"==""'
    yield from accepted(long, table([(4, 4090, 0), (4, 0, 4090), EQUAL], b"x" * 4090))
    yield from refused(long + b" ", 10)
    # "7 | over 512 entries": 128 comparisons and 127 times `^^` are 511
    text = b" ^^ ".join([b"1 == 1"] * 128)
    entries = [ONE, ONE, EQUAL] + [ONE, ONE, EQUAL, (42, 0, 0)] * 127
    yield from accepted(b"!(" + text + b")", table(entries + [(40, 0, 0)]))
    yield from refused(b"!!(" + text + b")", 7)
    # "8 | stack over 32"
    text, entries = sum_of(15, b"1 + 1", [ONE, ONE, (25, 0, 0)])
    yield from accepted(text, table(entries))
    high = sum_of(15, b"1 + 1 * 1", [])[0]
    yield from refused(high, 8)
    # "first that applies in this order: 10, then 1 or 3 at the first bad token, 6, 2, 4, 5, 7, 8, 9": each beside the next ones
    deep, wide = b"(" * 25, b" ^^ ".join([b"1 == 1"] * 129)
    yield from refused(b"[" + b" " * 4096, 10)
    yield from refused(deep + b"[ 2147483648", 1, 25)
    yield from refused(deep + b"2147483648 [", 3, 25)
    yield from refused(deep + b")", 6)
    yield from refused(b"f(a) + 1 )", 2, 9)
    yield from refused(b"f(a) + 1", 4)
    yield from refused(b"1 == 1 == 1 ^^ " + wide, 5)
    yield from refused(wide + b" ^^ " + high, 7)


def wildcards():
    # document 02, request 1: "Dispatch wants `wildcard (Cab, "T-4?", "V*")`. Same argument forms as `begins-with`"; "It gets op 60."
    yield from accepted(b'wildcard (Cab, "T-4?", "V*")', table([(5, 3, 0), (4, 4, 3), (4, 2, 7), (60, 2, 0)], b"CabT-4?V*"))
    yield from accepted(b'wildcard (fold-case (Cab), "")', table([(5, 3, 0), (6, 0, 0), (4, 0, 3), (60, 1, 0)], b"Cab"))
    eight = b",".join([b"'*'"] * 8)
    yield from accepted(b"wildcard (a, " + eight + b")", table([(5, 1, 0)] + [(4, 1, 1 + i) for i in range(8)] + [(60, 8, 0)], b"a********"))
    for text in (b"wildcard (a)", b"wildcard (a, b)", b"wildcard ('a', '*')", b"wildcard (a, " + eight + b",'*')", b"w\\ildcard (a, '*')"):
        yield from refused(text, 4)
    # "a backslash makes the next byte plain, in a set too": in the text a string's own escapes are taken off first
    yield from accepted(b'wildcard (a, "[\\\\]]")', table([(5, 1, 0), (4, 4, 1), (60, 1, 0)], b"a[\\]]"))
    # "An unclosed or empty set (`[!]` too), a range that falls and a backslash at the end are ill-formed, nothing else."
    for pattern in (b"[", b"a[b", b"[!", b"[]", b"[!]", b"[]a]", b"[!]]", b"[b-a]", b"[a--]", b"[\\\\]", b"\\\\", b"a\\\\"):
        yield from refused(b'wildcard (a, "*", "' + pattern + b'")', 18)
    for pattern in (b"]", b"-", b"!", b"[a-]", b"[-a]", b"[--a]", b"[!-z]", b"[a-b-c]", b"[[]", b"[*?]", b"[!!]"):
        pool = b"a" + pattern
        yield from accepted(b'wildcard (a, "' + pattern + b'")', table([(5, 1, 0), (4, len(pattern), 1), (60, 1, 0)], pool))
    # "18 for an ill-formed pattern, after 4 and before 5 in translation": over the whole text
    yield from refused(b"wildcard (a, '[') == f (a)", 4)
    yield from refused(b"wildcard (a, '[') == 1", 18)
    yield from refused(b"1 && wildcard (a, '[')", 18)
    yield from refused(b"wildcard (a, '[]') ^^ " + b" ^^ ".join([b"1 == 1"] * 129), 18)
    yield from refused(b"wildcard (a, '*') == 1", 5)


def regexes():
    # document 02, request 13: "Head office sends `regex (User, "[Ss]egall?")`."; "Argument and bottom rules as for `begins-with`; op 61."
    yield from accepted(b'regex (User, "[Ss]egall?")', table([(5, 4, 0), (4, 10, 4), (61, 1, 0)], b"User[Ss]egall?"))
    yield from accepted(b"regex (fold-case (User), '^s', 'l$')", table([(5, 4, 0), (6, 0, 0), (4, 2, 4), (4, 2, 6), (61, 2, 0)], b"User^sl$"))
    eight = b",".join([b"'.'"] * 8)
    yield from accepted(b"regex (a, " + eight + b")", table([(5, 1, 0)] + [(4, 1, 1 + i) for i in range(8)] + [(61, 8, 0)], b"a........"))
    for text in (b"regex (a)", b"regex ()", b"regex (a, b)", b"regex ('a', 'b')", b"regex ((a), 'b')", b"regex (a, ('b'))", b"regex (a, " + eight + b",'.')", b"r\\egex (a, 'b')", b"Regex (a, 'b')"):
        yield from refused(text, 4)
    # "A backslash makes the next byte plain.": in the text a string's own escapes are taken off first
    yield from accepted(b'regex (a, "\\\\*")', table([(5, 1, 0), (4, 2, 1), (61, 1, 0)], b"a\\*"))
    yield from refused(b'regex (a, "\\*")', 18)
    # "Ill-formed are request 1's cases, an empty branch or group, a repeat mark first or after `^`, `(` or `|`, unmatched parentheses, `^` or `$` elsewhere, and depth over 8."
    nested = lambda depth: b"(" * depth + b"a" + b")" * depth
    for pattern in (b"[", b"[^", b"[]", b"[^]", b"[]a]", b"[b-a]", b"[\\\\]", b"\\\\", b"", b"|", b"a|", b"|a", b"a||b", b"^|", b"|$", b"(a|)", b"()", b"*", b"+a", b"?", b"^*", b"(+a)", b"a|?", b"(", b"a)", b"(a", b"(a))",
                    b"a^", b"^^", b"$^", b"(^a)", b"a|^b", b"$a", b"a$|b", b"(a$)", b"$*", nested(9)):
        yield from refused(b'regex (a, "b", "' + pattern + b'")', 18)
    for pattern in (b"^", b"$", b"^$", b"^|b", b"b|$", b"^|$", b"^a|b$", b"]", b"{", b"}", b"a{2}", b"-", b"!", b"[!]", b"[a^]", b"[[:alpha:]]", b"[.*|()$]", b"a+?", b"a***", b"(a*)*b", b"(a|aa)*b", nested(8), nested(8) + nested(8)):
        yield from accepted(b'regex (a, "' + pattern + b'")', table([(5, 1, 0), (4, len(pattern), 1), (61, 1, 0)], b"a" + pattern))
    # "18 for an ill-formed pattern, at request 1's place": after 4, before 5, over the whole text, beside patterns of the other function
    yield from refused(b"regex (a, '(') == f (a)", 4)
    yield from refused(b"regex (a, '(') == 1", 18)
    yield from refused(b"1 && regex (a, 'a||b')", 18)
    yield from refused(b"regex (a, '()') ^^ " + b" ^^ ".join([b"1 == 1"] * 129), 18)
    yield from refused(b"regex (a, 'b*') == 1", 5)
    yield from refused(b"wildcard (a, '*') && regex (a, '*')", 18)
    yield from refused(b"regex (a, '[!]') && wildcard (a, '[!]')", 18)
    yield from accepted(b"wildcard (a, '*') ^^ regex (a, '[!]')", table([(5, 1, 0), (4, 1, 1), (60, 1, 0), (5, 1, 2), (4, 3, 3), (61, 1, 0), (42, 0, 0)], b"a*a[!]"))


def asked(path):
    for turn, line in enumerate(path.read_text().split("\n")):
        if not line:
            continue
        *edition, text, room, number, place, written = line.split()
        text, written = (b"" if s == "-" else bytes.fromhex(s) for s in (text, written))
        room, number, place = int(room), int(number), int(place)
        if number == 0:
            rows = accepted(text, written, (room,))
        else:
            rows = (text, room, number, place, b""), (text, 0, number, place, b"")
        yield from ((int(*edition), *row) for row in rows) if edition else by_edition(1 + turn % 2, rows)


def more(path):
    """The texts of request 10's vectors, all of which are accepted."""
    for line in path.read_text().splitlines():
        edition, text = int(line.split()[0]), bytes.fromhex(line.split()[1])
        yield edition, text, LARGE, 0, 0, compiled.table_of(text, edition)


def main(vectors=Path(__file__).resolve().with_name("vectors")):
    here = Path(__file__).resolve().parent.parent / "crates" / "translator_test"
    path = Path(vectors)
    own = [*examples(), *names(), *limits(), *wildcards(), *regexes()]
    rows = [*by_edition(1, own), *by_edition(2, own), *editions()]
    for name in ("translate.txt", "01-translate.txt", "09-translate.txt", "13-translate.txt"):
        rows += asked(path / name)
    rows += more(path / "10-more.txt")
    part = lambda s: struct.pack("<I", len(s)) + s
    (here / "stdin").write_bytes(b"".join(part(struct.pack("<IQ", room, edition)) + part(text) for edition, text, room, *_ in rows))
    (here / "stdout").write_text("".join("%d %d %d %s kept\n" % (number, place, len(t), t.hex() or "-") for *_, number, place, t in rows))


main(*sys.argv[1:])
