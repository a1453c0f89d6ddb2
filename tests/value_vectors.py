#!/usr/bin/env python3
"""Writes crates/value_test/stdin and stdout: what the ops of tables give on values, by Python's integers, floats, bytes, UTF-8 decoder and regular expressions.

A value is None (bottom) or a pair of a field's kind (1 int32, 2 int64, 3 real64, 4 string, 5 opaque) and an int, a float or bytes. A truth value is
"true", "bottom" or "false". The rules are those of document 01, "Meaning" and "Table", and of document 02, requests 1, 2, 9 and 13; numbers are those of number_vectors.py.
An op to run has 256 added for the second edition.
"""
import itertools
import math
import random
import re
import struct
from pathlib import Path

import number_vectors as numbers
import stretches

INT32, INT64, REAL, STRING, OPAQUE = 1, 2, 3, 4, 5
FALSE, BOTTOM, TRUE = "false", "bottom", "true"
RANKS = [FALSE, BOTTOM, TRUE]
SHORT = 20

# The page's truth tables, as printed: A, B, !A, &&, or, ^^.
PRINTED = """
T T F T T F
T bot F bot T bot
T F F F T T
bot T bot bot T bot
bot bot bot bot bot bot
bot F bot F bot bot
F T T F T T
F bot T F bot bot
F F T F F F
"""
WORDS = {"T": TRUE, "bot": BOTTOM, "F": FALSE}
ROWS = [[WORDS[w] for w in row.split()] for row in PRINTED.split("\n") if row]
NOT = {a: n for a, _, n, *_ in ROWS}
LOGIC = {
    41: {(a, b): r for a, b, _, r, _, _ in ROWS},
    42: {(a, b): r for a, b, _, _, _, r in ROWS},
    43: {(a, b): r for a, b, _, _, r, _ in ROWS},
}
COMBINE = dict(zip(range(16, 27), "<< >> >>> & ^ | * / % + -".split()))
ORDER = {34: "<", 35: "<=", 36: ">", 37: ">="}


def truth(b):
    return TRUE if b else FALSE


def number(v):
    """The number that a value is, in the sense of number_vectors.py."""
    return v if v is not None and v[0] <= REAL else None


def is_string(v):
    return v is not None and v[0] == STRING


def fold(v):
    """`fold-case` turns A..Z to a..z and keeps other bytes; bottom for a non-string."""
    if not is_string(v):
        return None
    return (STRING, bytes(b + 32 if 65 <= b <= 90 else b for b in v[1]))


def size(v):
    """`size` is the number of UTF-8 characters of a string, bottom if it is not well-formed, and the length in bytes of an opaque, as int32; else bottom."""
    if is_string(v):
        try:
            return INT32, len(v[1].decode("utf-8"))
        except UnicodeDecodeError:
            return None
    return (INT32, len(v[1])) if v is not None and v[0] == OPAQUE else None


def equal(v, w):
    """String with string by bytes, number with number; otherwise bottom."""
    if is_string(v) and is_string(w):
        return truth(v[1] == w[1])
    return numbers.compare(numbers.TESTS["=="], number(v), number(w))


def test(op, v):
    """Type tests: bottom if missing. `nan`: false for other present values. `require`: true or bottom."""
    if v is None:
        return BOTTOM
    if op == 54:
        return TRUE
    if op == 53:
        return truth(v[0] == REAL and math.isnan(v[1]))
    return truth(v[0] == op - 47)


def of_set(p, at, mark):
    """The set that begins at `at` as an expression of one byte, and where its `]` ends."""
    fit, at = stretches.one_of(p, at, mark)
    return b"(?:" + b"|".join(re.escape(bytes([b])) for b in fit) + b")" if fit else b"(?!)", at


def expression(p):
    """A well-formed pattern of `wildcard` as a regular expression of Python."""
    out, at = b"", 0
    while at < len(p):
        c = p[at:at + 1]
        at += 1
        if c == b"*":
            out += b".*"
        elif c == b"?":
            out += b"."
        elif c == b"[":
            fit, at = of_set(p, at, b"!")
            out += fit
        else:
            at += c == b"\\"
            out += re.escape(p[at - 1:at])
    return out


def stretch(p):
    """A well-formed pattern of `regex` as one of Python, in which marks in a row would mean otherwise, and `$` would fit before a last LF."""
    opened, at = [[]], 0
    while at < len(p):
        c = p[at:at + 1]
        at += 1
        if c in b"*+?":
            opened[-1][-1] = b"(?:" + opened[-1][-1] + b")" + c
        elif c == b"(":
            opened.append([])
        elif c == b")":
            group = b"(?:" + b"".join(opened.pop()) + b")"
            opened[-1].append(group)
        elif c == b"[":
            fit, at = of_set(p, at, b"^")
            opened[-1].append(fit)
        elif c in (b"^", b"$", b".", b"|"):
            opened[-1].append({b"^": b"\\A", b"$": b"\\Z"}.get(c, c))
        else:
            at += c == b"\\"
            opened[-1].append(re.escape(p[at - 1:at]))
    return b"".join(opened[0])


def fits(op, s, p):
    if op == 60:
        return re.fullmatch(expression(p), s, re.DOTALL) is not None
    if op == 61:
        fit = stretches.fits(s, p)
        # on a long value Python's own would try every way
        assert len(s) > SHORT or fit == (re.search(stretch(p), s, re.DOTALL) is not None), (s, p)
        return fit
    return {56: s.startswith(p), 57: p in s, 58: s.endswith(p)}[op]


def many(op, first, later):
    if op == 59:
        r = FALSE
        for w in later:
            r = LOGIC[43][(r, equal(first, w))]
        return r
    if not is_string(first) or not all(is_string(w) for w in later):
        return BOTTOM
    return truth(any(fits(op, first[1], w[1]) for w in later))


def combine(op, v, w, edition):
    a, b = number(v), number(w)
    if op in numbers.EXACT:
        return numbers.arithmetic(op, a, b)
    if op in ("&", "^", "|"):
        return numbers.bitwise(op, a, b)
    return numbers.shift(op, a, b, edition)


def give(op, xs, edition=1):
    if op == 0:
        return xs[0]
    if op == 6:
        return fold(xs[0])
    if op == 7:
        return size(xs[0])
    if op == 8:
        return numbers.complement(number(xs[0]))
    if op in COMBINE:
        return combine(COMBINE[op], *xs, edition)
    if op == 32:
        return equal(*xs)
    if op == 33:
        return NOT[equal(*xs)]
    if op in ORDER:
        return numbers.compare(numbers.TESTS[ORDER[op]], number(xs[0]), number(xs[1]))
    if op == 40:
        return NOT[xs[0]]
    if op in LOGIC:
        return LOGIC[op][tuple(xs)]
    if 48 <= op <= 54:
        return test(op, xs[0])
    return many(op, xs[0], xs[1:])


def show(r):
    if r is None:
        return BOTTOM
    if isinstance(r, str):
        return r
    if r[0] <= REAL:
        return numbers.show(r)
    return f"{'string' if r[0] == STRING else 'opaque'} {r[1].hex() or '-'}"


def field(name, v):
    kind, x = v
    data = x if kind >= STRING else struct.pack({INT32: "<i", INT64: "<q", REAL: "<d"}[kind], x)
    return struct.pack("<HHB", 3 + len(name) + len(data), kind, len(name)) + name + data


class Cases:
    """The pool and the notice grow by what the operands name."""

    def __init__(self):
        self.pool = b""
        self.fields = {}
        self.parts = []
        self.rows = []

    def pooled(self, s):
        at = self.pool.find(s)
        if at < 0:
            at = len(self.pool)
            self.pool += s
        return len(s), at

    def notice(self):
        body = b"".join(field(n, self.fields[n]) for n in sorted(self.fields))
        return struct.pack("<IHH", 4 + len(body), 1, len(self.fields)) + body

    def literal(self, v):
        """A value as ops 1..4 push it."""
        kind, x = v
        if kind == STRING:
            return (4, *self.pooled(x), v)
        return (kind, 0, numbers.bits_of(x) if kind == REAL else x % 2**64, v)

    def named(self, name, v=None):
        """A value as op 5 finds it; no value: the name is missing."""
        if v is not None:
            self.fields[name] = v
        return (5, *self.pooled(name), v)

    def folded(self, operand):
        op, a, b, v = operand
        return (op + 256, a, b, fold(v))

    def add(self, op, *operands, edition=1):
        entries = [(o, a, b) for o, a, b, _ in operands] + [(op + 256 * (edition == 2), len(operands) - 1 if op >= 56 else 0, 0)]
        self.parts.append(b"".join(struct.pack("<HHQ", *e) for e in entries))
        self.rows.append(show(give(op, [v for *_, v in operands], edition)))


def values(c):
    nan = math.nan
    ints = [c.literal((INT32, z)) for z in (0, -1, 7, 31, -(2**31), 2**31 - 1)] + [c.literal((INT64, z)) for z in (0, 7, -(2**63), 2**63 - 1, 2**53 + 1)]
    reals = [c.literal((REAL, x)) for x in (0.0, -0.0, 7.0, 0.1, nan, math.inf)]
    fields = [c.named(n, v) for n, v in ((b"I", (INT32, -5)), (b"L", (INT64, 2**40)), (b"R", (REAL, 2.5)), (b"RN", (REAL, nan)), (b"Op", (STRING, b"Abc")), (b"Empty", (STRING, b"")), (b"Blob", (OPAQUE, b"Abc")), (b"Bare", (OPAQUE, b"")))]
    texts = [c.literal((STRING, s)) for s in (b"", b"Abc", b"abc", b"bC", b"@[`{Zz\xc1")]
    return ints, reals, fields, texts, [c.named(b"Gone")]


def all_cases(rng):
    c = Cases()
    ints, reals, fields, texts, gone = values(c)
    every = ints + reals + fields + texts + gone
    every += [c.folded(x) for x in (texts[1], texts[4], fields[4], fields[6], ints[0], gone[0])]
    for x in every:
        for op in (0, 6, 7, 8, *range(48, 55)):
            c.add(op, x)
    for op in (*COMBINE, 32, 33, *ORDER):
        pairs = [pair for x in (ints[0], reals[2], fields[4], fields[6], texts[1], gone[0]) for pair in ((x, gone[0]), (gone[0], x))]
        pairs += rng.sample([*itertools.product(ints + reals, ints + reals)], 50)
        pairs += rng.sample([*itertools.product(every, every)], 30)
        if op == 32:
            pairs += itertools.product(every, every)
        for x, y in pairs:
            c.add(op, x, y)
    logic = [(0, rank, 0, t) for rank, t in enumerate(RANKS)]
    for x in logic:
        c.add(40, x)
        for y in logic:
            for op in LOGIC:
                c.add(op, x, y)
    strings = [x for x in every if is_string(x[3])] + [c.literal((STRING, s)) for s in (b"A", b"B", b"c", b"Ab", b"bc", b"BC", b"Abcd")]
    strings += [c.folded(x) for x in strings[-3:]]
    for op in (56, 57, 58):
        for x, y in itertools.product(strings[:9], strings):
            c.add(op, x, y)
        for x in every:
            c.add(op, x, texts[0])
            c.add(op, texts[1], texts[1], x, texts[1])
    for op in (56, 57, 58, 59):
        for _ in range(150):
            from_all = rng.random() < 0.3 or op == 59
            c.add(op, rng.choice(every), *(rng.choice(every if from_all else strings) for _ in range(rng.randrange(1, 9))))
    for x in every:
        c.add(59, x, gone[0], x, gone[0])
        c.add(59, gone[0], x)
    wildcards(c, rng, every, strings)
    sizes(c)
    editions(c, random.Random(9), every)
    regexes(c, random.Random(13), every, strings)
    return c


def wildcards(c, rng, every, strings):
    """Document 02, request 1: "Same argument forms as `begins-with`, same bottom rule; the whole value must fit a pattern." """
    patterns = [c.literal((STRING, p)) for p in (
        b"", b"*", b"?", b"???", b"A*", b"*c", b"*b*", b"a?c", b"A?C", b"**?**", b"[A-Z]*", b"[!A-Z]*", b"[A-Zb]?[!\\]-z]", b"[a-b-c]??", b"[-A]bc", b"[A-]bc", b"[--A]bc",
        b"[\\A]bc", b"\\Abc", b"\\*", b"[*]", b"@[[][`]*", b"*\xc1", b"*[\x80-\xff]", b"[!!]??", b"[\\]]*", b"[\0-\xff]*", b"[!\0-\xff]*")]
    patterns += [c.folded(p) for p in patterns[10:13]]
    values = strings + [c.literal((STRING, s)) for s in (b"*", b"]Abc", b"a" * 30, b"-bc")]
    for x, y in itertools.product(values, patterns):
        c.add(60, x, y)
    for x in every:
        c.add(60, x, patterns[1])
        if not is_string(x[3]):
            c.add(60, strings[1], patterns[4], x, patterns[4])
    for _ in range(200):
        c.add(60, rng.choice(every), *(rng.choice(patterns) for _ in range(rng.randrange(1, 9))))


def regexes(c, rng, every, strings):
    """Document 02, request 13: "True if some stretch of the value fits."; "Argument and bottom rules as for `begins-with`". """
    patterns = [c.literal((STRING, p)) for p in (
        b"A", b"bc", b".", b"b*", b"^b*$", b"^A", b"c$", b"^Abc$", b"^a.c$", b"A+b?c", b"[A-Z]b", b"[^A-Z]$", b"^[A-Zb].[^\\]-z]", b"^|x", b"x|$", b"^|$", b"^$", b"^b|c$", b"^(A|b|c)*$",
        b"(A*)*b", b"(b|bb)*c$", b"^(a?b?)+$", b"((((((((b))))))))", b"(((((((b*)*)*)*)*)*)*)*c", b"a+?", b"^A?*+bc", b"\\^", b"[\\^a]", b"[a^]", b"]", b"{", b"\\*", b"\\.", b"[.]", b"\\(|\\)", b"\xc1$", b"[\x80-\xff]$",
        b"[\0-\xff]+", b"[^\0-\xff]", b"[^\0-\xff]*$", b"x?y?z?$", b"^-|\n$")]
    patterns += [c.folded(p) for p in patterns[7:13]]
    values = strings + [c.literal((STRING, s)) for s in (b"*", b"]Abc", b"a" * 30, b"-bc", b"bbbbc", b"b\n", b"Abc\n", b"(", b"^", b"{")]
    for x, y in itertools.product(values, patterns):
        c.add(61, x, y)
    for x in every:
        c.add(61, x, patterns[3])
        if not is_string(x[3]):
            c.add(61, strings[1], patterns[0], x, patterns[0])
    for i in range(200):
        c.add(61, rng.choice(every), *(rng.choice(patterns) for _ in range(rng.randrange(1, 9))), edition=1 + i % 2)


def sizes(c):
    """Document 02, request 2: "For a string, `size` is to be the number of UTF-8 characters, and bottom if the bytes are not well-formed UTF-8 (RFC 3629). Opaque values keep their byte count." """
    accents = "José Müller ÀÉ ".encode()
    strings = [accents, accents[:-2], "Ωμέγα 漢字 \U0001F600\0\uFEFF\uFFFF".encode(), b"A" * 40 + accents, b"\xed\xa0\x80", b"\xc0\x80", b"\xf4\x90\x80\x80", accents + b"\xe6\xbc"]
    for i, s in enumerate(strings):
        for x in (c.literal((STRING, s)), c.named(b"S%d" % i, (STRING, s))):
            c.add(7, x)
            c.add(7, c.folded(x))
        c.add(7, c.named(b"O%d" % i, (OPAQUE, s)))


def editions(c, rng, every):
    """Document 02, request 9: "Tables of kind 4 shall be second edition and differ in the three shifts alone". """
    left = [c.literal(v) for v in ((INT32, 1), (INT32, -42), (INT32, 2**31 - 1), (INT64, -1), (INT64, 2**62 + 5))] + [c.named(b"I", (INT32, -5)), c.named(b"Gone")]
    counts = [c.literal((INT32, k)) for k in (0, 31, 32, 33, 63, 64, -1, -32, -33, 2**31 - 1, -(2**31))]
    counts += [c.literal((INT64, k)) for k in (5, 40, 64, -1, 2**32 + 5, -(2**32) - 5, 2**63 - 1, -(2**63))] + [c.literal((REAL, 1.0)), c.named(b"Gone")]
    for edition in (1, 2):
        for op in (16, 17, 18):
            for x, y in itertools.product(left, counts):
                c.add(op, x, y, edition=edition)
    for op in (*COMBINE, 32, 33, *ORDER):
        for _ in range(25):
            c.add(op, rng.choice(every), rng.choice(every), edition=2)
    for op in (6, 7, 8, *range(48, 55)):
        for x in rng.sample(every, 6):
            c.add(op, x, edition=2)
    for op in range(56, 60):
        for _ in range(12):
            c.add(op, *(rng.choice(every) for _ in range(rng.randrange(2, 10))), edition=2)


def main():
    here = Path(__file__).resolve().parent.parent / "crates" / "value_test"
    c = all_cases(random.Random(5))
    parts = [c.pool, c.notice(), *c.parts]
    (here / "stdin").write_bytes(b"".join(struct.pack("<I", len(part)) + part for part in parts))
    (here / "stdout").write_text("".join(row + "\n" for row in c.rows))


if __name__ == "__main__":
    main()
