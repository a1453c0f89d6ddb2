#!/usr/bin/env python3
"""grammar_vectors.py [VECTORS]: writes crates/grammar_test/stdin and stdout from VECTORS/translate.txt, 01-translate.txt and 13-translate.txt and document 01's examples.

A text that is refused 1, 3, 10, 6, 2, 4, 18 or 5 answers number and place; an accepted one, or one refused 9, answers 0 and its table's entries, pool length and
slots, which are read off the table's bytes (a text refused 7, 8 or 9 has no table and is left out, and so is one of no edition)."""
import struct
import sys
from pathlib import Path

OPERANDS = {n: 0 for n in range(1, 6)}
OPERANDS.update({n: 1 for n in (6, 7, 8, 40, 48, 49, 50, 51, 52, 53, 54)})
OPERANDS.update({n: 2 for n in list(range(16, 27)) + list(range(32, 38)) + [41, 42, 43]})


def sizes(table):
    entries, pool = struct.unpack_from("<HH", table, 6)
    depth = most = 0
    for i in range(entries):
        op, a = struct.unpack_from("<HH", table, 10 + 12 * i)
        if op not in (44, 45):
            depth += 1 - (a + 1 if op >= 56 else OPERANDS[op])
        most = max(most, depth)
    return entries, pool, most


EXAMPLES = [(b"pipe=>20", 5, 0), (b"Op", 5, 0), (b"! Op == 42", 5, 0), (b"a -5", 2, 2), (b"", 2, 0), (b"Op == 42 &&", 2, 11), (b"09 == 9", 1, 0), (b"int32 ((a))", 4, 0),
            (b"0x80000000 == 0", 3, 0), (b"f(a,)", 2, 4), (b"()", 2, 1), (b"(a,b)", 2, 2), (b"f(,", 2, 2), (b'"a"b', 2, 3), (b"(a)-5", 2, 3)]


def main(vectors=Path(__file__).resolve().with_name("vectors")):
    here = Path(__file__).resolve().parent.parent / "crates" / "grammar_test"
    stdin, rows = b"", []
    for text, number, place in EXAMPLES:
        stdin += struct.pack("<I", len(text)) + text
        rows.append(f"{number} {place} ")
    for name in ("translate.txt", "01-translate.txt", "13-translate.txt"):
        for line in (Path(vectors) / name).read_text().splitlines():
            text, _, number, place, table = line.split()[-5:]
            if number in ("7", "8", "9", "25"):
                continue
            text = b"" if text == "-" else bytes.fromhex(text)
            stdin += struct.pack("<I", len(text)) + text
            rows.append("0 %d %d %d " % sizes(bytes.fromhex(table)) if number == "0" else f"{number} {place} ")
    (here / "stdin").write_bytes(stdin)
    (here / "stdout").write_text("\n".join(rows) + "\n")


main(*sys.argv[1:])
