#!/usr/bin/env python3
"""regex_vectors.py [VECTORS]: writes crates/regex_test/stdin and stdout from VECTORS/13-patterns.txt, listed patterns and made ones, whose answers the model below gives.

The model follows the wording of request 13: it parses by recursion, and matches by the set of ends of a tree's stretches, with no table and no marks.
A case without capitals is also run with its value's letters raised and folded back by the mark, and, if its pattern has no `-` and so no range, with the pattern's too: the answers stay."""
import random
import struct
import sys
from pathlib import Path


class Ill(Exception):
    pass


class Text:
    def __init__(self, p):
        self.p, self.i = p, 0

    def peek(self):
        return self.p[self.i] if self.i < len(self.p) else None

    def take(self):
        if self.i == len(self.p):
            raise Ill
        self.i += 1
        return self.p[self.i - 1]


def read_set(t):
    outside = t.peek() == ord("^")
    if outside:
        t.take()
    members = []
    while True:
        b = t.take()
        if b == ord("]"):
            break
        members.append((t.take(), True) if b == ord("\\") else (b, False))
    if not members:
        raise Ill
    taken, k = set(), 0
    while k < len(members):
        low = high = members[k][0]
        if k + 2 < len(members) and members[k + 1] == (ord("-"), False):
            high = members[k + 2][0]
            k += 2
        if high < low:
            raise Ill
        taken |= set(range(low, high + 1))
        k += 1
    return ("set", set(range(256)) - taken if outside else taken)


def read_piece(t, depth):
    b = t.take()
    if b == ord("("):
        if depth == 8:
            raise Ill
        tree = read_branches(t, depth + 1)
        if t.take() != ord(")"):
            raise Ill
    elif b == ord("["):
        tree = read_set(t)
    elif b == ord("."):
        tree = ("set", set(range(256)))
    elif b == ord("\\"):
        tree = ("set", {t.take()})
    elif b in b")|*+?^$":
        raise Ill
    else:
        tree = ("set", {b})
    while t.peek() is not None and t.peek() in b"*+?":
        tree = (chr(t.take()), tree)
    return tree


def read_branch(t, depth, stops):
    pieces = []
    while t.peek() is not None and t.peek() not in stops:
        pieces.append(read_piece(t, depth))
    return pieces


def read_branches(t, depth):
    trees = []
    while True:
        pieces = read_branch(t, depth, b"|)")
        if not pieces:
            raise Ill
        trees.append(("seq", pieces))
        if t.peek() != ord("|"):
            return ("alt", trees)
        t.take()


def read_pattern(p):
    """The branches: bound at the start, bound at the end, tree."""
    t, branches = Text(p), []
    while True:
        hat = t.i == 0 and t.peek() == ord("^")
        if hat:
            t.take()
        pieces = read_branch(t, 0, b"|)$")
        dollar = t.peek() == ord("$")
        if dollar:
            t.take()
            if t.peek() is not None:
                raise Ill
        if not pieces and not hat and not dollar:
            raise Ill
        branches.append((hat, dollar, ("seq", pieces)))
        if t.peek() is None:
            return branches
        if t.take() != ord("|"):
            raise Ill


def ends(tree, s, starts):
    """Where the stretches end that begin at one of the starts."""
    kind, body = tree
    if kind == "set":
        return {i + 1 for i in starts if i < len(s) and s[i] in body}
    if kind == "seq":
        for x in body:
            starts = ends(x, s, starts)
        return starts
    if kind == "alt":
        return set().union(*(ends(x, s, starts) for x in body))
    if kind == "?":
        return starts | ends(body, s, starts)
    seen = fresh = ends(body, s, starts)
    while fresh:
        fresh = ends(body, s, fresh) - seen
        seen = seen | fresh
    return seen | starts if kind == "*" else seen


def answer(p, s):
    try:
        branches = read_pattern(p)
    except Ill:
        return "0 0"
    for hat, dollar, tree in branches:
        found = ends(tree, s, {0} if hat else set(range(len(s) + 1)))
        if (len(s) in found) if dollar else found:
            return "1 1"
    return "1 0"


LISTED = [b"", b"|$", b"^|", b"(^a)", b"(a$)", b"a|^b", b"a$|b", b"$^", b"^^", b"^|b", b"b|$", b"^|$", b"^", b"$", b"^$", b"^a|b$", b"]", b"{", b"}", b"a{2}", b"-", b"[[:alpha:]]", b"a+?", b"a**", b"()", b"(a|)", b"(|a)",
          b"*a", b"^*", b"(*a)", b"a|*", b"a)", b"(a", b"a\\", b"[a", b"[]", b"[^]", b"[z-a]", b"[^^]", b"(a*)*b", b"(a|aa)*b", b"(a*)*", b"((a*)*|b)*c", b"(a|b*)+$", b"[Ss]egall?", b"(a?)+b", b"(^|b)", b"a\\$", b"\\^a",
          b"(" * 8 + b"a" + b")" * 8, b"(" * 9 + b"a" + b")" * 9, b"(" * 8 + b"a" + b")" * 8 + b"*b", b"(a" * 9 + b")" * 9, b"(a)(b)(a)(b)(a)(b)(a)(b)(a)(b)"]
VALUES = [b"", b"a", b"b", b"ab", b"ba", b"aab", b"Segall", b"segal", b"}", b"a{2}", b"al]", b"$", b"a$", b"^a", b"aaaaaaaaaaaac", b"ababababab"]


def made(r, depth):
    k = r.randrange(14)
    if k == 0 and depth < 9:
        return b"(" + b"|".join(b"".join(made(r, depth + 1) for _ in range(r.randrange(1, 3))) for _ in range(r.randrange(1, 3))) + b")"
    if k == 1:
        return b"[" + (b"^" if r.randrange(3) == 0 else b"") + r.choice([b"a-b", b"ab", b"-a", b"a-", b"b-a", b"\\]a"]) + b"]"
    if k == 2:
        return r.choice([b".", b"\\.", b"\\*", b"\\("])
    if k < 8:
        return made(r, depth) + r.choice([b"*", b"+", b"?"])
    return r.choice([b"a", b"b", b"c"])


def pattern(r):
    size = r.choice([1, 2, 3, 4, 6, 30, 200])
    p = b"|".join(b"".join(made(r, 0) for _ in range(r.randrange(1, size + 1))) for _ in range(r.choice([1, 1, 2, 3])))
    p = (b"^" if r.randrange(5) == 0 else b"") + p + (b"$" if r.randrange(5) == 0 else b"")
    if r.randrange(6) == 0:
        at = r.randrange(len(p) + 1)
        p = p[:at] + r.choice([b"(", b")", b"|", b"*", b"^", b"$", b"[", b"\\", b""]) + p[at + r.randrange(2):]
    return p[:1000]


def main(vectors=Path(__file__).resolve().with_name("vectors")):
    here = Path(__file__).resolve().parent.parent / "crates" / "regex_test"
    cases = []
    for line in (Path(vectors) / "13-patterns.txt").read_text().split("\n"):
        if line:
            p, s, formed, fits = line.split(" ")
            p, s = (b"" if x == "-" else bytes.fromhex(x) for x in (p, s))
            cases.append((p, s, formed + " " + fits))
            if answer(p, s) != cases[-1][2]:
                sys.exit("the model differs: %r %r" % (p, s))
    cases += [(p, s, answer(p, s)) for p in LISTED for s in VALUES]
    r = random.Random(13)
    for _ in range(1500):
        p, s = pattern(r), bytes(r.choice(b"aabbc") for _ in range(r.choice([0, 1, 2, 3, 5, 8, 60])))
        cases.append((p, s, answer(p, s)))
    stdin, stdout = b"", ""
    for p, s, told in cases:
        ways = [(b"\0\0", s, p)]
        if not any(65 <= b <= 90 for b in s + p):
            ways.append((b"\1\0", s.upper(), p))
            if b"-" not in p:
                ways.append((b"\1\1", s.upper(), p.upper()))
        for parts in ways:
            stdin += b"".join(struct.pack("<I", len(x)) + x for x in parts)
            stdout += told + "\n"
    (here / "stdin").write_bytes(stdin)
    (here / "stdout").write_text(stdout)


main(*sys.argv[1:])
