#!/usr/bin/env python3
"""Writes crates/number_test/stdin and stdout: the operators on numbers by Python's integers, fractions and floats.

A number is None (bottom) or a pair of a kind (1 int32, 2 int64, 3 real64) and an int or a float. The rules are those of document 01, "Meaning", and of
document 02, requests 6 and 9.
"""
import math
import operator
import random
import struct
from fractions import Fraction
from pathlib import Path

INT32, INT64, REAL = 1, 2, 3
WIDTH = {INT32: 32, INT64: 64}
NAN_BITS = 0x7FF8000000000000
BOTTOM = None


def bits_of(x):
    return NAN_BITS if math.isnan(x) else struct.unpack("<Q", struct.pack("<d", x))[0]


def real_of(n):
    return struct.unpack("<d", struct.pack("<Q", n))[0]


def is_integer(a):
    return a is not None and a[0] != REAL


def fits(kind, z):
    half = 1 << (WIDTH[kind] - 1)
    return -half <= z < half


def nearest(z):
    """The nearest f64 of an integer, ties to even: of the reals around it the one at the least distance, and of two the one whose last digit is even."""
    size = abs(z)
    k = max(size.bit_length() - 53, 0)
    m = min((m for m in range(max((size >> k) - 1, 0), (size >> k) + 3)), key=lambda m: (abs((m << k) - size), m % 2))
    return math.copysign(math.ldexp(m, k), -1 if z < 0 else 1)


def typed(a, b, z):
    """The result is int32 if both are int32 and it fits, else int64; outside int64 it becomes the nearest f64."""
    if a[0] == b[0] == INT32 and fits(INT32, z):
        return (INT32, z)
    return (INT64, z) if fits(INT64, z) else (REAL, nearest(z))


def beside_real(a):
    """In arithmetic with a real the integer is rounded to the nearest f64."""
    return a[1] if a[0] == REAL else nearest(a[1])


def exact(a):
    """A number's exact value; an infinity or NaN stays a float."""
    return Fraction(a[1]) if a[0] != REAL or math.isfinite(a[1]) else a[1]


def quotient(x, y):
    q = abs(x) // abs(y)
    return q if (x < 0) == (y < 0) else -q


EXACT = {"*": operator.mul, "/": quotient, "%": lambda x, y: x - y * quotient(x, y), "+": operator.add, "-": operator.sub}
REALS = {"*": operator.mul, "/": operator.truediv, "+": operator.add, "-": operator.sub}


def arithmetic(op, a, b):
    if a is None or b is None:
        return BOTTOM
    if op in "/%" and b[1] == 0:
        return BOTTOM
    if is_integer(a) and is_integer(b):
        return typed(a, b, EXACT[op](a[1], b[1]))
    if op == "%":
        return BOTTOM
    return (REAL, REALS[op](beside_real(a), beside_real(b)))


def signed(kind, n):
    n %= 1 << WIDTH[kind]
    return (kind, n - (1 << WIDTH[kind]) if n >> (WIDTH[kind] - 1) else n)


def bitwise(op, a, b):
    if not (is_integer(a) and is_integer(b)):
        return BOTTOM
    kind = INT32 if a[0] == b[0] == INT32 else INT64
    return signed(kind, {"&": operator.and_, "^": operator.xor, "|": operator.or_}[op](a[1], b[1]))


def complement(a):
    return (a[0], ~a[1]) if is_integer(a) else BOTTOM


def shift(op, a, b, edition=1):
    """The first edition: a count outside the width gives bottom. The second: "the count's remainder by the width, 0 to width less 1", which Python's `%` is."""
    if not (is_integer(a) and is_integer(b)):
        return BOTTOM
    width = WIDTH[a[0]]
    if edition == 1 and not 0 <= b[1] < width:
        return BOTTOM
    count = b[1] % width
    if op == "<<":
        return signed(a[0], a[1] << count)
    if op == ">>":
        return (a[0], a[1] >> count)
    return signed(a[0], a[1] % (1 << width) >> count)


def compare(test, a, b):
    """By exact value, an infinity beyond every integer on its side; Python compares fractions with infinities and NaN so."""
    if a is None or b is None:
        return "bottom"
    return "true" if test(exact(a), exact(b)) else "false"


GROUPS = [
    ["*", "/", "%", "+", "-"],
    ["&", "^", "|"],
    ["~"],
    ["<<", ">>", ">>>"],
    ["=="],
    ["<", "<=", ">", ">="],
]
TESTS = {"==": operator.eq, "<": operator.lt, "<=": operator.le, ">": operator.gt, ">=": operator.ge}


def show(r):
    if r is None:
        return "none"
    kind, v = r
    if kind == REAL:
        return f"real64 {bits_of(v):016x}"
    return f"int{WIDTH[kind]} {v % (1 << WIDTH[kind]):016x}"


def answer(op, a, b):
    if op in EXACT:
        return show(arithmetic(op, a, b))
    if op in "&^|":
        return show(bitwise(op, a, b))
    if op == "~":
        return show(complement(a))
    if op in ("<<", ">>", ">>>"):
        return show(shift(op, a, b))
    return compare(TESTS[op], a, b)


def raw(a):
    if a is None:
        return 0, 0
    return a[0], bits_of(a[1]) if a[0] == REAL else a[1] % 2**64


def edges():
    """Both ends of both ranges, 2^53 and its neighbours, zeros of both signs, NaN, the infinities."""
    small = [-(2**31), 1 - 2**31, -7, -1, 0, 1, 2, 31, 32, 46341, 2**31 - 1]
    large = [-(2**63), 1 - 2**63, -(2**53) - 1, -(2**53), -(2**31) - 1, -2, -1, 0, 1, 63, 64, 2**31, 2**32, 3037000499, 3037000500, 2**53 - 1, 2**53, 2**53 + 1, 2**62, 2**63 - 1]
    reals = [0.0, -0.0, 1.0, -1.5, 0.1, 5e-324, 1.7976931348623157e308, -1e308, 2.0**53, -(2.0**53), 2.0**63, 1e22, 1e23, math.inf, -math.inf, math.nan]
    return [(INT32, z) for z in small], [(INT64, z) for z in large], [(REAL, x) for x in reals]


def operators(rng):
    small, large, reals = edges()
    integers = small + large
    for group, ops in enumerate(GROUPS):
        for code, op in enumerate(ops):
            if op == "~":
                pairs = [(a, None) for a in integers + reals[:3] + [None]]
            else:
                pairs = [(rng.choice(small), rng.choice(small)) for _ in range(25)]
                pairs += [(rng.choice(integers), rng.choice(integers)) for _ in range(40)]
                pairs += [rng.choice([(x, y), (y, x)]) for x, y in ((rng.choice(reals), rng.choice(integers + reals)) for _ in range(30))]
                pairs += [(None, rng.choice(integers)), (rng.choice(reals), None), (None, None)]
            if op in "/%":
                pairs += [((kind, -(2 ** (WIDTH[kind] - 1))), (kind, -1)) for kind in (INT32, INT64)]
                pairs += [((INT32, x), (INT32, y)) for x in (-7, 7) for y in (-2, 2, 0)] + [((REAL, math.nan), (REAL, -0.0)), ((INT64, 1), (REAL, 0.0))]
            if op == "*":
                pairs += [((INT64, x), (INT64, y)) for x, y in ((2**32, 2**31), (-(2**32), 2**31), (2**62, 2), (2**62, -2), (-(2**63), -1), (2**63 - 1, -1), (3037000500, 3037000500), (2**63 - 1, 2**63 - 1))]
            if op in ("<<", ">>", ">>>"):
                pairs += [(a, (kind, k)) for a in ((INT32, -1), (INT32, 2**31 - 1), (INT64, -1), (INT64, -(2**63))) for kind in (INT32, INT64) for k in (0, 1, 28, 31, 32, 63, 64, -1)]
            if op in TESTS:
                pairs += [((INT32, 5), (INT64, 5)), ((REAL, 0.0), (REAL, -0.0)), ((INT32, 0), (REAL, -0.0)), ((INT64, 2**53 + 1), (REAL, math.nan)), ((REAL, math.inf), (INT64, -(2**53) - 1)), ((INT64, 2**53), (REAL, 2.0**53))]
            for a, b in pairs:
                ka, va = raw(a)
                kb, vb = raw(b)
                yield bytes([group, code, ka, kb]) + struct.pack("<QQ", va, vb), answer(op, a, b)


def meters():
    """Integers around 2^53, 2^63 and the ties between, of both signs."""
    rng = random.Random(6)
    found = {0, -(2**63), 1 - 2**63, 2**63 - 2, 2**63 - 1}
    for p in (31, 52, 53, 54, 55, 62, 63):
        for d in range(-5, 6):
            found |= {2**p + d, -(2**p) - d}
    for p in (53, 54, 58, 62):
        for _ in range(4):
            half = 2 ** (p - 53)
            tie = 2**p + (2 * rng.randrange(2**52) + 1) * half
            for d in (-1, 0, 1):
                found |= {tie + d, -tie - d}
    for _ in range(20):
        found.add(rng.choice((1, -1)) * rng.getrandbits(rng.randrange(1, 64)))
    return sorted(z for z in found if fits(INT64, z))


def neighbours(z):
    """The reals next to an integer and not of its value, those with a fraction beside it too."""
    x = nearest(z)
    yield from (x, math.nextafter(x, math.inf), math.nextafter(x, -math.inf), x + 0.5, x - 0.25)


ALONE = [0.0, -0.0, 0.5, -0.5, 5e-324, -5e-324, 2.2250738585072014e-308, 1.5, 2.0**53, 2.0**63, -(2.0**63), 2.0**64, -(2.0**64), 1e308, -1e308, math.inf, -math.inf, math.nan]


def tied_products(rng):
    """Factors whose product lies half way between two reals, and such that only a digit among the last 32 tells it from half way."""
    for j in (10, 11, 30, 53, 61, 62):
        for _ in range(3):
            a = 2**53 + 2 * rng.randrange(2**52) + 1
            yield a, 2**j
            yield -a * 2**9, 2**j
    wanted = 24
    while wanted:
        a, r = rng.getrandbits(63) | 1, rng.choice((1, 2, 3, 2**16 + 1, 2**31, 2**32 - 1))
        b = r * pow(a, -1, 2**63) % 2**63
        k = (a * b).bit_length() - 53
        if k > 64 and (a * b) % 2**k == 2 ** (k - 1) + r:
            wanted -= 1
            yield rng.choice((a, -a)), b


def beyond(rng):
    """Request 6: comparisons by exact value, integers rounded beside a real, and results outside int64."""
    integers = meters()
    near = [x for z in rng.sample(integers, 40) for x in neighbours(z)]
    for op in TESTS:
        for z in integers:
            pairs = [(z, x) for x in neighbours(z)] + [(z, rng.choice(ALONE)), (z, rng.choice(near))]
            for z, x in rng.sample(pairs, 3):
                yield op, *rng.choice([((INT64, z), (REAL, x)), ((REAL, x), (INT64, z))])
        for x in ALONE:
            for a in ((INT32, rng.choice((0, 1, -1, 2**31 - 1, -(2**31)))), (INT64, rng.choice(integers))):
                yield op, *rng.choice([(a, (REAL, x)), ((REAL, x), a)])
    for op in REALS:
        for z in rng.sample(integers, 70):
            yield op, *rng.choice([((INT64, z), (REAL, rng.choice(ALONE + near))), ((REAL, rng.choice(ALONE + near)), (INT64, z))])
    large = [z for z in integers if abs(z) > 2**61]
    for op in ("+", "-", "*"):
        for _ in range(180):
            yield op, (INT64, rng.choice(large)), (INT64, rng.choice(large if rng.random() < 0.6 else integers))
    for a, b in tied_products(rng):
        yield "*", *rng.choice([((INT64, a), (INT64, b)), ((INT64, b), (INT64, a))])
    for kind in (INT32, INT64):
        yield "/", (kind, -(2 ** (WIDTH[kind] - 1))), (kind, -1)


def multiples(rng):
    """Request 6: integers beyond 2^53 at and next to multiples of 2^32, beside the reals around them and around the multiple, and beside reals with a fraction."""
    fractions = [2.0**52 - 0.5, 2.0**51 + 0.25, 0.5, 5e-324]
    for op in TESTS:
        for _ in range(40):
            multiple = rng.choice((1, -1)) * rng.randrange(2**21 + 1, 2**31) * 2**32
            z = multiple + rng.choice((0, 1, -1, 2**31, -(2**31), 5, 2**32 - 1))
            x = rng.choice([*neighbours(z), *neighbours(multiple), *fractions, *(-f for f in fractions)])
            for pair in (((INT64, z), (REAL, x)), ((REAL, x), (INT64, z))):
                yield op, *pair


def beyond_cases(cases):
    for op, a, b in cases:
        group = next(i for i, ops in enumerate(GROUPS) if op in ops)
        (ka, va), (kb, vb) = raw(a), raw(b)
        yield bytes([group, GROUPS[group].index(op), ka, kb]) + struct.pack("<QQ", va, vb), answer(op, a, b)


def second_edition(rng):
    """Request 9: shifts of the second edition, which are group 8; counts within the width, and outside it on both sides, to both ends of both types."""
    small, large, reals = edges()
    left = [(INT32, z) for z in (1, -1, 42, -(2**31), 2**31 - 1)] + [(INT64, z) for z in (1, -1, 42, -(2**63), 2**63 - 1, 0x0123456789ABCDEF)]
    counts = [0, 1, 28, 31, 32, 33, 63, 64, 65, 95, 96, 127, 128, -1, -2, -31, -32, -33, -63, -64, -65, 2**31 - 1, -(2**31)]
    far = [2**31, 2**32 - 1, 2**32, 2**32 + 1, 2**32 + 63, -(2**32) - 1, -(2**32) - 33, 2**63 - 1, 2**63 - 33, -(2**63), 1 - 2**63]
    for code, op in enumerate(GROUPS[3]):
        pairs = [(a, (kind, k)) for a in left for kind in (INT32, INT64) for k in counts] + [(a, (INT64, k)) for a in left for k in far]
        pairs += [(rng.choice(small + large), rng.choice(small + large)) for _ in range(60)]
        pairs += [(rng.choice(reals), (INT32, 1)), ((INT32, 1), rng.choice(reals)), ((INT64, 1), (REAL, 64.0)), (None, (INT32, 40)), ((INT64, 1), None), (None, None)]
        for a, b in pairs:
            (ka, va), (kb, vb) = raw(a), raw(b)
            yield bytes([8, code, ka, kb]) + struct.pack("<QQ", va, vb), show(shift(op, a, b, 2))


def literals(rng):
    """A literal's value by Python's own reading of the decimal, which is rounded once."""
    cases = [(10, 22), (1, 22), (1, -22), (0, 0), (0, 22), (0, -22), (999999999999999, 22), (999999999999999, -22), (1, -1), (3, -1), (123456789012345, -7), (42, 0), (9007199254740, 3)]
    cases += [(rng.randrange(10 ** rng.randrange(1, 16)), rng.randrange(-22, 23)) for _ in range(40)]
    for d, e in cases:
        for sign in (0, 1):
            value = float(f"{'-' * sign}{d}e{e}")
            yield bytes([6, (e < 0) + 2 * sign, 0, 0]) + struct.pack("<QQ", d, abs(e)), show((REAL, value))
    for d, e in ((10**15, 0), (2**64 - 1, 0), (1, 23), (1, 2**64 - 1)):
        yield bytes([6, 0, 0, 0]) + struct.pack("<QQ", d, e), show((REAL, math.nan))


def patterns(rng):
    inf = 0x7FF0000000000000
    cases = [0, 1, 1 << 63, inf - 1, inf, inf + 1, NAN_BITS, NAN_BITS + 1, 2**63 - 1, 2**63 + inf, 2**63 + inf + 1, 2**64 - 1, bits_of(1.0), bits_of(-0.1), 0x000FFFFFFFFFFFFF, 0x0010000000000000]
    for n in cases + [rng.randrange(2**64) for _ in range(20)]:
        x = real_of(n)
        yield bytes([7, 0, 0, 0]) + struct.pack("<QQ", n, 0), f"{int(math.isnan(x))} {bits_of(x):016x}"


def main():
    here = Path(__file__).resolve().parent.parent / "crates" / "number_test"
    rng = random.Random(4)
    cases = [*operators(rng), *literals(rng), *patterns(rng), *beyond_cases(beyond(random.Random(6))), *second_edition(random.Random(9)), *beyond_cases(multiples(random.Random(32)))]
    (here / "stdin").write_bytes(b"".join(struct.pack("<I", len(part)) + part for part, _ in cases))
    (here / "stdout").write_text("".join(row + "\n" for _, row in cases))


if __name__ == "__main__":
    main()
