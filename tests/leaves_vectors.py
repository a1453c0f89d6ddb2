#!/usr/bin/env python3
"""Writes crates/leaves_test/stdin and stdout: document 01's truth table as printed, words by struct, and comparisons by Python's bytes."""
import random
import struct
from pathlib import Path

TABLE = """T T F T T F
T bot F bot T bot
T F F F T T
bot T bot bot T bot
bot bot bot bot bot bot
bot F bot F bot bot
F T T F T T
F bot T F bot bot
F F T F F F"""


def fold(mark, s):
    return bytes(b + 32 if mark and 65 <= b <= 90 else b for b in s)


def main():
    here = Path(__file__).resolve().parent.parent / "crates" / "leaves_test"
    rows = [row + " " for row in TABLE.split("\n")]
    buffer = struct.pack("<Hiqxx", 0xBEEF, -2, -(2**63))
    rows.append(buffer.hex())
    rows.append(f"{0xBEEF} {2**32 - 2} {2**63} {2**63} 1 ")
    rng = random.Random(1)
    cases = [(b"", b""), (b"a", b""), (b"", b"a"), (b"ab", b"abc"), (b"abc", b"ab"), (b"@AZ[", b"@az["), (b"`az{", b"`AZ{"), (b"\xc1\xe1", b"\xe1\xc1")]
    for _ in range(200):
        s = bytes(rng.choice(b"aAbB") for _ in range(rng.randrange(7)))
        t = rng.choice([s[rng.randrange(len(s) + 1):], s[: rng.randrange(len(s) + 1)], bytes(rng.choice(b"aAbB") for _ in range(rng.randrange(4)))])
        cases.append((s, t.swapcase() if rng.random() < 0.3 else t))
    # strings of several words of eight bytes, equal but for one byte, and literals that are all but contained again and again
    for _ in range(60):
        s = bytes(rng.choice(b"aAzZ@[`{\xc1") for _ in range(rng.randrange(8, 40)))
        at = rng.randrange(len(s))
        cases.append((s, s[:at] + rng.choice([s[at : at + 1], b"b"]) + s[at + 1 :]))
    for size, n in [(200, 9), (300, 64), (400, 65), (700, 300)]:
        for p in (b"a" * (n - 1) + b"b", b"aab" * (n // 3) + b"a"):
            s = (p[:-1] * size)[:size]
            cases += [(s, p), (s + p, p), (s[: size - n // 2] + p.swapcase() + s[:3], p)]
    # .. and strings that begin longer ones, or differ late
    for n in range(7, 34):
        s = bytes(rng.choice(b"nN\x00\xff") for _ in range(n))
        cases += [(s, s + b"\0"), (s + b"n", s), (s + b"a", s + b"b"), (s[:-1] + b"\x7f" + s, s[:-1] + b"\x80")]
    stdin = b""
    for s, t in cases:
        for marks in range(4):
            m, n = marks & 1, marks >> 1
            for part in (bytes([m, n]), s, t):
                stdin += struct.pack("<I", len(part)) + part
            x, y = fold(m, s), fold(n, t)
            rows.append("".join(f"{int(v)} " for v in (x == y, x < y, s < t, x.startswith(y), y in x, x.endswith(y))))
    (here / "stdin").write_bytes(stdin)
    (here / "stdout").write_text("\n".join(rows) + "\n")


main()
