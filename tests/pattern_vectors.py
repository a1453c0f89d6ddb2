#!/usr/bin/env python3
"""pattern_vectors.py [VECTORS]: writes crates/pattern_test/stdin and stdout from VECTORS/01-patterns.txt.

A case without capitals is also run with its value's letters raised and folded back by the mark, and, if its pattern has no `-` and so no range, with the pattern's too: the answers stay."""
import struct
import sys
from pathlib import Path


def main(vectors=Path(__file__).resolve().with_name("vectors")):
    here = Path(__file__).resolve().parent.parent / "crates" / "pattern_test"
    stdin, stdout = b"", ""
    for line in (Path(vectors) / "01-patterns.txt").read_text().split("\n"):
        if not line:
            continue
        pattern, value, *answer = line.split(" ")
        p, s = (b"" if x == "-" else bytes.fromhex(x) for x in (pattern, value))
        ways = [(b"\0\0", s, p)]
        if not any(65 <= b <= 90 for b in s + p):
            ways.append((b"\1\0", s.upper(), p))
            if b"-" not in p:
                ways.append((b"\0\1", s, p.upper()))
                ways.append((b"\1\1", s.upper(), p.upper()))
        for parts in ways:
            stdin += b"".join(struct.pack("<I", len(x)) + x for x in parts)
            stdout += " ".join(answer) + "\n"
    (here / "stdin").write_bytes(stdin)
    (here / "stdout").write_text(stdout)


main(*sys.argv[1:])
