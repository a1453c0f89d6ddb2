#!/usr/bin/env python3
"""quorum_vectors.py [VECTORS]: writes crates/quorum_test/stdin and stdout from VECTORS/03-quorum.txt, 03-states.txt and 07-quorum.txt, and cases of the decision's layout and of the undecided entry.

A vector's answer is its own. Those of the other cases, and the bytes that are expected after a notice, follow from document 02's request 3 and from the layout (docs/FORMATS.md):
a value is added where the count rises, and no other byte changes. The undecided entry of request 7, which the vectors from before it do not have, is that of evaluate.py, to which the others are held."""
import struct
import sys
from pathlib import Path

import evaluate

HEAD, PLACE, FILL = 528, 65, 0xA5
NONE = "12 0 0 0"
cases, lines = [], []


def do(what, number=0, data=b"", answer=None):
    """One case of the program: what is done, a number, bytes; and the line that it prints, if it prints one."""
    cases.append(what + struct.pack("<Q", number) + data)
    if answer is not None:
        lines.append(answer)


def with_entry(table, notice, answer):
    """The answer to a notice that is shown, with the run's undecided entry at its end: "with 19 and 20 too. A refused run, and a counter's call without a run, give 65535." """
    ran = answer.split()[0] in ("0", "19", "20")
    entry = evaluate.run(table, notice)[2] if ran else evaluate.NO_ENTRY
    words = answer.split()
    assert words[4:] in ([], [str(entry)]), (table.hex(), notice.hex(), answer, entry)
    return " ".join(words[:4] + [str(entry)])


def opened(answer):
    """The answer to an opening, which runs nothing."""
    assert answer.split()[4:] in ([], [str(evaluate.NO_ENTRY)]), answer
    return " ".join(answer.split()[:4] + [str(evaluate.NO_ENTRY)])


def fresh(room):
    do(b"l", room)
    do(b"b", 0, bytes([FILL]) * room)


def unhex(s):
    return b"" if s == "-" else bytes.fromhex(s)


def rows(vectors, name):
    return [line for line in (Path(vectors) / name).read_text().split("\n") if line]


def state(table, needed, values):
    """A decision's bytes; more than 8 values, or a value over 64 bytes, as far as they can be written."""
    places = b"".join(bytes([min(len(v), 255)]) + v[:64].ljust(64, bytes([FILL])) for v in values[:8])
    return struct.pack("<IHBB", HEAD - 4 + len(table), 5, needed, len(values)) + places.ljust(8 * PLACE, bytes([FILL])) + table


def staff_of(notice):
    at = 8
    while at < len(notice):
        size, _, n = struct.unpack_from("<HHB", notice, at)
        if notice[at + 5:at + 5 + n] == b"Staff":
            return notice[at + 5 + n:at + 2 + size]
        at += 2 + size


def history(line):
    """An opening, and the notices shown after it."""
    left, right = line.split(":")
    table, needed, _, *notices = left.rstrip().split(" ")
    answers = [a.strip() for a in right.split("|")]
    notices = notices if len(answers) > 1 else []
    assert len(answers) == 1 + len(notices), line[:200]
    fresh(HEAD + len(unhex(table)) + 3)
    do(b"o", int(needed), unhex(table), opened(answers[0]))
    for notice, answer in zip(notices, answers[1:]):
        do(b"s", 0, unhex(notice), with_entry(unhex(table), unhex(notice), answer))


def made_by_hand(line):
    """A notice shown to a state, and every byte afterwards."""
    table, needed, values, notice, *answer = line.split(" ")
    values = [] if values == "-" else [bytes.fromhex(v) for v in values.split(",")]
    held = state(unhex(table), int(needed), values) + bytes([FILL]) * 2
    fresh(len(held))
    do(b"b", 0, held)
    do(b"s", 0, unhex(notice), with_entry(unhex(table), unhex(notice), " ".join(answer)))
    after = bytearray(held)
    if answer[0] == "0" and int(answer[2]) > len(values):
        staff, at = staff_of(unhex(notice)), 8 + PLACE * len(values)
        after[7] += 1
        after[at:at + 1 + len(staff)] = bytes([len(staff)]) + staff
    do(b"d", 0, b"", after.hex())


def layout():
    t = bytes.fromhex("230000000200020005000500050000000000000000003600000000000000000000005374616666")
    n = bytes.fromhex("1b000000010002000b000400055374616666616e6e08000100016100000000")
    size = HEAD + len(t)
    # a buffer of the exact room, one byte less (9), none; a needed number that no byte holds; 12 before 21 before 9
    for room, needed, table, answer in ((size, 3, t, "0 0 0 0"), (size - 1, 3, t, "9 0 0 0"), (0, 3, t, "9 0 0 0"), (527, 3, t, "9 0 0 0"), (size, 257, t, "21 0 0 0"),
                                        (size, 2 ** 64 - 1, t, "21 0 0 0"), (0, 0, t, "21 0 0 0"), (0, 0, t[:-1], NONE)):
        fresh(room)
        do(b"o", needed, table, opened(answer))
        done = answer[0] == "0"
        do(b"d", 0, b"", (state(t, needed, []) if done else bytes([FILL]) * room).hex() or "-")
        do(b"s", 0, n, with_entry(t, n, "0 0 1 0" if done else NONE))
    # one byte of a decision wrong, and bytes that may be anything
    held = state(t, 1, [b"Bob"])
    for at, byte, answer in ((0, 0, NONE), (0, held[0] + 1, NONE), (4, 2, NONE), (5, 1, NONE), (6, 0, NONE), (6, 9, NONE), (7, 9, NONE), (8, 0, NONE), (8, 65, NONE),
                             (HEAD, 0, NONE), (73, 7, "0 0 2 1"), (527, 7, "0 0 2 1"), (6, 2, "0 0 2 1"), (6, 8, "0 0 2 0")):
        fresh(len(held))
        do(b"b", 0, held[:at] + bytes([byte]) + held[at + 1:])
        do(b"s", 0, n, with_entry(t, n, answer))
        do(b"s", 0, n, with_entry(t, n, answer))
    # a buffer that ends before the decision does
    fresh(len(held) - 1)
    do(b"b", 0, held)
    do(b"s", 0, n, with_entry(t, n, NONE))


def notice_of(**fields):
    """A notice of string fields, or of int32 ones."""
    parts = b""
    for name, value in sorted(fields.items()):
        kind, data = (1, struct.pack("<i", value)) if isinstance(value, int) else (4, value)
        parts += struct.pack("<HHB", 3 + len(name) + len(data), kind, len(name)) + name.encode() + data
    return struct.pack("<IHH", 4 + len(parts), 1, len(fields)) + parts


def undecided():
    """Document 02, request 7: "The quorum counter passes it on, with 19 and 20 too." The table is that of `Level > 3 || require (Console)`."""
    entries = [(5, 5, 0), (1, 0, 3), (36, 0, 0), (45, 3, 0), (5, 7, 5), (54, 0, 0), (43, 0, 0)]
    body = struct.pack("<HHH", 2, len(entries), 12) + b"".join(struct.pack("<HHQ", *e) for e in entries) + b"LevelConsole"
    table = struct.pack("<I", len(body)) + body
    fresh(HEAD + len(table))
    do(b"o", 2, table, "0 0 0 0 65535")
    shown = lambda answer, **fields: do(b"s", 0, notice_of(**fields), with_entry(table, notice_of(**fields), answer))
    # decided: true by the left side, the right one being passed over
    shown("0 0 1 0 65535", Level=4, Staff=b"0")
    # Level is absent (entry 0), or of a kind that `>` does not take (entry 2): with 0, with 19
    shown("0 0 2 1 0", Console=b"yard", Staff=b"1")
    shown("0 0 3 1 2", Console=b"yard", Level=b"4", Staff=b"2")
    shown("19 0 3 1 0", Console=b"yard")
    shown("19 0 3 1 2", Console=b"yard", Level=b"4")
    shown("19 0 3 1 65535", Console=b"yard", Level=4)
    # bottom, the first entry being the name on the left; only the name on the right is absent
    shown("0 0 3 1 0", Staff=b"3")
    shown("0 0 3 1 4", Level=3, Staff=b"3")
    for i in range(3, 8):
        shown("0 0 %d 1 0" % (i + 1), Console=b"yard", Staff=b"%d" % i)
    # 20, and one of the eight; "A refused run .. give[s] 65535"
    shown("20 0 8 1 0", Console=b"yard", Staff=b"8")
    shown("20 0 8 1 65535", Level=4, Staff=b"8")
    shown("0 0 8 1 0", Console=b"yard", Staff=b"7")
    do(b"s", 0, notice_of(Console=b"yard")[:-1], "11 0 8 1 65535")


def editions():
    """Document 02, request 9: "all that runs or keeps tables takes both". The table is that of `Level >> 33 == 2`: of kind 2 it gives bottom, of kind 4 true where Level is 4 or 5."""
    entries = [(5, 5, 0), (1, 0, 33), (17, 0, 0), (1, 0, 2), (32, 0, 0)]
    for kind, answers in ((2, ("0 0 0 0 2", "0 0 0 0 2", "0 0 0 0 2", "0 0 0 0 0")), (4, ("0 0 1 0 65535", "0 0 2 1 65535", "0 0 2 1 65535", "0 0 2 1 0"))):
        body = struct.pack("<HHH", kind, len(entries), 5) + b"".join(struct.pack("<HHQ", *e) for e in entries) + b"Level"
        table = struct.pack("<I", len(body)) + body
        fresh(HEAD + len(table))
        do(b"o", 2, table, "0 0 0 0 65535")
        for fields, answer in zip((dict(Level=4, Staff=b"0"), dict(Level=5, Staff=b"1"), dict(Level=6, Staff=b"2"), dict(Staff=b"3")), answers):
            do(b"s", 0, notice_of(**fields), with_entry(table, notice_of(**fields), answer))
        # of another kind it is no table, at the opening and at a notice
        other = table[:4] + bytes([kind + 1]) + table[5:]
        fresh(HEAD + len(table))
        do(b"o", 2, other, opened(NONE))
        do(b"b", 0, state(other, 2, []))
        do(b"s", 0, notice_of(Level=4, Staff=b"0"), "12 0 0 0 65535")


def main(vectors=Path(__file__).resolve().with_name("vectors")):
    here = Path(__file__).resolve().parent.parent / "crates" / "quorum_test"
    for line in rows(vectors, "03-quorum.txt") + rows(vectors, "07-quorum.txt"):
        history(line)
    for line in rows(vectors, "03-states.txt"):
        made_by_hand(line)
    layout()
    undecided()
    editions()
    (here / "stdin").write_bytes(b"".join(struct.pack("<I", len(s)) + s for s in cases))
    (here / "stdout").write_text("".join(a + "\n" for a in lines))


main(*sys.argv[1:])
