#!/usr/bin/env python3
"""verdict_vectors.py [VECTORS]: writes stdin and stdout of crates/verdict_test from VECTORS/program.txt and 07-program.txt, from inputs at the limits that document 01 names and from one that is longer than the program's buffer, and those of
crates/verdict, document 01's example.

A vector's lines are its own. The undecided entry of document 02's request 7, which program.txt does not have, is that of evaluate.py on the table of compiled.py; all lines are held to both, and compiled.py to the vectors of translation."""
import struct
import sys
from pathlib import Path

import compiled
import evaluate

OP42 = bytes.fromhex("0F000000010001000900010002 4F702A000000".replace(" ", ""))
EMPTY = bytes.fromhex("0400000001000000")


def record(kind, body, length=None):
    return struct.pack("<IH", len(body) + 2 if length is None else length, kind) + body


def text(t):
    return record(3, t)


def notice(name, kind, value):
    """A notice of one field."""
    return record(1, struct.pack("<HHHB", 1, 3 + len(name) + len(value), kind, len(name)) + name + value)


def plain(h):
    return b"" if h == "-" else bytes.fromhex(h)


def notice_line(table, notice, line):
    """The line of a notice with the undecided entry at its end; "A refused run .. give[s] 65535"."""
    words = line.split()
    entry = evaluate.NO_ENTRY
    if words[1] == "0":
        verdict, steps, entry = evaluate.run(table, notice)
        assert words[1:5] == ["0", verdict, str(steps), "0"], (notice.hex(), line)
    assert words[5:] in ([], [str(entry)]), (notice.hex(), line, entry)
    return " ".join(words[:5] + [str(entry)])


def with_entries(data, lines):
    """The lines of an input, those of notices with their undecided entries: "The `N` line of `verdict` gains it at its end". """
    table, at, out = None, 0, []
    for line in lines.splitlines():
        length, kind = struct.unpack_from("<IH", data, at) if line != "E" else (0, 0)
        part, at = data[at:at + 4 + length], at + 4 + length
        if kind == 3:
            table = compiled.table_of(part[6:]) if line.startswith("S 0 ") else None
        out.append(notice_line(table, part, line) if kind == 1 else line)
    return "".join(line + "\n" for line in out)


def limits():
    """Standard inputs with document 01's own answers."""
    # document 02, request 7: "document 01's three lines end in 48 (`S`, unchanged), 65535 and 0"
    yield text(b"Op == 42") + OP42 + EMPTY, "S 0 0 48\nN 0 true 3 0 65535\nN 0 bottom 3 0 0\n"
    yield b"", ""
    # "stops where a record is cut"
    for n in (1, 2, 3, 4, 5, 7):
        yield EMPTY[:n], "E\n"
        yield EMPTY + EMPTY[:n], "N 12 bottom 0 0 65535\nE\n"
    # ".. or its length is under 2 or over 16,380"
    yield record(7, b"", 0), "E\n"
    yield record(7, b"", 1) + EMPTY, "E\n"
    yield record(7, b""), "X 7\n"
    yield record(65535, b""), "X 65535\n"
    yield record(0, b"\0") + record(2, b"ab"), "X 0\nX 2\n"
    yield record(9, b"\0" * 16378), "X 9\n"
    yield record(9, b"\0" * 16379), "E\n"
    yield record(9, b"\0" * 16378)[:-1], "E\n"
    yield record(9, b"", 2**32 - 1), "E\n"
    # "no table gives 12", whatever the notice is
    yield EMPTY, "N 12 bottom 0 0 65535\n"
    yield record(1, b"x"), "N 12 bottom 0 0 65535\n"
    # "which replaces the last one even if refused"
    yield text(b"Op == 42") + text(b"Op") + OP42, "S 0 0 48\nS 5 0 0\nN 12 bottom 0 0 65535\n"
    yield text(b"") + text(b"a -5") + text(b"09 == 9"), "S 2 0 0\nS 2 2 0\nS 1 0 0\n"
    # document 02, request 1: 18, after 4 and before 5
    yield text(b"wildcard (Op, '[') == 1") + OP42, "S 18 0 0\nN 12 bottom 0 0 65535\n"
    # request 13: the same number, and op 61
    yield text(b"regex (Op, '*') == 1") + OP42, "S 18 0 0\nN 12 bottom 0 0 65535\n"
    yield text(b'regex (User, "[Ss]egall?")') + notice(b"User", 4, b"Bill Segall") + notice(b"User", 4, b"Sega") + OP42, "S 0 0 60\nN 0 true 3 0 65535\nN 0 false 3 0 65535\nN 0 bottom 3 0 0\n"
    # request 9: "(`verdict` names 1)"; a table of kind 4 is a record of another kind, and replaces no text
    yield text(b"Op >> 33 == 21") + OP42, "S 0 0 72\nN 0 bottom 5 0 2\n"
    yield text(b"Op == 42") + compiled.table_of(b"Op == 41", 2) + OP42 + record(4, b""), "S 0 0 48\nX 4\nN 0 true 3 0 65535\nX 4\n"
    # "11", with its place
    yield text(b"Op == 42") + record(1, b"\0\0x"), "S 0 0 48\nN 11 bottom 0 8 65535\n"
    yield text(b"Op == 42") + record(1, b""), "S 0 0 48\nN 11 bottom 0 0 65535\n"
    # request 7: the letter's `Staff != "417"` (54 bytes), absent and of a kind that `!=` does not take; an entry that is passed over
    yield text(b'Staff != "417"') + EMPTY + notice(b"Staff", 1, b"\0\0\0\0") + notice(b"Staff", 4, b"417"), "S 0 0 54\nN 0 bottom 3 0 0\nN 0 bottom 3 0 2\nN 0 false 3 0 65535\n"
    yield text(b"Op == 41 && a == 1 ^^ b == 1") + OP42 + EMPTY, "S 0 0 158\nN 0 bottom 8 0 8\nN 0 bottom 12 0 0\n"


def long(cases):
    """A standard input longer than the program's buffer of 65,536 bytes, from cases with known answers: each begins with a text, which replaces what came before, and none ends the run. Its last record is cut."""
    whole = [(i, o) for i, o in cases if i[4:6] == b"\3\0" and not o.endswith(b"E\n")]
    data, answers = b"", b""
    while len(data) <= 65536:
        for i, o in whole:
            data, answers = data + i, answers + o
    return data + OP42[:-1], answers + b"E\n"


def main(vectors=Path(__file__).resolve().with_name("vectors")):
    crates = Path(__file__).resolve().parent.parent / "crates"
    cases = [(i, o.encode()) for i, o in limits()]
    (crates / "verdict" / "stdin").write_bytes(cases[0][0])
    (crates / "verdict" / "stdout").write_bytes(cases[0][1])
    for name in ("translate.txt", "01-translate.txt", "09-translate.txt", "13-translate.txt"):
        for *edition, t, _, number, _, table in map(str.split, (Path(vectors) / name).read_text().splitlines()):
            assert number != "0" or compiled.table_of(plain(t), *map(int, edition)) == plain(table), t
    for name in ("program.txt", "07-program.txt"):
        for line in (Path(vectors) / name).read_text().splitlines():
            cases.append(tuple(map(plain, line.split())))
    cases = [(data, with_entries(data, lines.decode()).encode()) for data, lines in cases]
    cases.append(long(cases))
    (crates / "verdict_test" / "stdin").write_bytes(b"".join(struct.pack("<I", len(i)) + i for i, _ in cases))
    (crates / "verdict_test" / "stdout").write_text("".join(o.hex() + "\n" for _, o in cases))


main(*sys.argv[1:])
