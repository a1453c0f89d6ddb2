#!/usr/bin/env python3
"""Writes crates/utf8_test/stdin and stdout: how many characters strings have, by Python's strict UTF-8 decoder, `-` where it refuses."""
import random
import struct
from pathlib import Path

# the code points on both sides of each limit of RFC 3629, the surrogates and 110000 among them
BOUNDARIES = [0, 0x41, 0x7F, 0x80, 0x7FF, 0x800, 0xD7FF, 0xD800, 0xDBFF, 0xDC00, 0xDFFF, 0xE000, 0xFEFF, 0xFFFD, 0xFFFE, 0xFFFF, 0x10000, 0x10FFFF, 0x110000, 0x1FFFFF]


def spread(c, n):
    """The bits of c laid into n bytes, as the table of section 3 lays them, whether or not they are that character's: overlong if n is too large."""
    if n == 1:
        return bytes([c])
    lead = (0xF00 >> n) & 0xFF | c >> 6 * (n - 1)
    return bytes([lead] + [0x80 | c >> 6 * k & 0x3F for k in reversed(range(n - 1))])


def forms(c):
    """c in each number of bytes that has room for it."""
    return [spread(c, n) for n, room in ((1, 7), (2, 11), (3, 16), (4, 21)) if c < 2**room]


def followers(lead):
    """How many bytes the table has behind a lead byte, those of the longer forms before RFC 3629 too."""
    return 0 if lead < 0xC0 else 1 if lead < 0xE0 else 2 if lead < 0xF0 else 3 if lead < 0xF8 else 4 if lead < 0xFC else 5


def boundaries():
    for c in BOUNDARIES:
        for s in forms(c):
            yield s
            for cut in range(len(s)):
                yield s[:cut]
                yield s[:cut] + b"A"
            for n in range(1, 20):
                yield b"a" * n + s
                yield s + b"z" * n
                yield s * n
    for c in BOUNDARIES:
        for d in BOUNDARIES:
            yield forms(c)[0] + forms(d)[0]


def wrong_bytes():
    """Each lead byte with each second byte; and each third and fourth byte."""
    for lead in range(0x80, 0x100):
        for second in range(0x100):
            yield bytes([lead, second]) + b"\x80" * (followers(lead) - 1)
    for start in (b"\xe0\xa0", b"\xe1\x80", b"\xec\xbf", b"\xed\x9f", b"\xee\x80", b"\xef\xbf"):
        for b in range(0x100):
            yield start + bytes([b])
    for start in (b"\xf0\x90", b"\xf1\x80", b"\xf3\xbf", b"\xf4\x8f"):
        for b in range(0x100):
            yield start + bytes([b, 0xBF])
            yield start + bytes([0x80, b])


def mixed(rng):
    """Characters of all lengths and runs of ASCII; every third with a byte changed, every third cut."""
    for i in range(600):
        s = ""
        for _ in range(rng.randrange(1, 12)):
            s += "a" * rng.randrange(40) if rng.random() < 0.3 else chr(rng.choice([rng.randrange(0x80), rng.randrange(0x80, 0x800), rng.randrange(0x800, 0xD800), rng.randrange(0x10000, 0x110000)]))
        b = bytearray(s.encode("utf-8"))
        if i % 3 == 1 and b:
            b[rng.randrange(len(b))] = rng.randrange(256)
        if i % 3 == 2:
            del b[-rng.randrange(1, 4):]
        yield bytes(b)


def count(s):
    try:
        return str(len(s.decode("utf-8")))
    except UnicodeDecodeError:
        return "-"


def main():
    here = Path(__file__).resolve().parent.parent / "crates" / "utf8_test"
    strings = [*boundaries(), *wrong_bytes(), *mixed(random.Random(2))]
    (here / "stdin").write_bytes(b"".join(struct.pack("<I", len(s)) + s for s in strings))
    (here / "stdout").write_text("".join(count(s) + "\n" for s in strings))


main()
