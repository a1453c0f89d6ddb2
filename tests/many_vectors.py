#!/usr/bin/env python3
"""many_vectors.py [VECTORS]: writes crates/many_test/stdin and stdout from VECTORS/08-many.txt, and cases at the limits that document 02's request 8 names.

A vector's answer is its own, and its verdicts are held to evaluate.py. Those of the other cases are evaluate.py's; which tables are refused, and the numbers, follow from the request's sentences."""
import struct
import sys
from pathlib import Path

import evaluate

FILL, BUFFER, REFUSED = 0xA5, 72, 3
OP42 = bytes.fromhex("0F0000000100010009000100024F702A000000")
E = bytes.fromhex("0400000001000000")


class Refused(bytes):
    """Bytes that are no table."""


def byte_of(table, notice):
    return ("false", "true", "bottom").index(evaluate.run(table, notice)[0])


def equals(name, number):
    """The table of `name == number`."""
    body = struct.pack("<HHH", 2, 3, len(name)) + b"".join(struct.pack("<HHQ", *e) for e in ((5, len(name), 0), (1, 0, number), (32, 0, 0))) + name
    return struct.pack("<I", len(body)) + body


TRUE, FALSE, BOTTOM = equals(b"Op", 42), equals(b"Op", 43), equals(b"Up", 42)


def case(tables, notice, room, number, place, verdicts):
    return struct.pack("<I", room), tables, notice, "%d %d %d %s" % (number, place, len(verdicts), verdicts.ljust(BUFFER, bytes([FILL])).hex())


def stretches(s):
    """The tables, one after the other."""
    while s:
        size = 4 + struct.unpack("<I", s[:4])[0] if len(s) >= 4 else len(s)
        yield s[:size]
        s = s[size:]


def vectors_of(lines):
    for line in lines:
        tables, notice, room, number, place, count, verdicts = line.split(" ")
        tables, notice, verdicts = evaluate.plain(tables), evaluate.plain(notice), evaluate.plain(verdicts)
        held = [v == REFUSED or v == byte_of(t, notice) for t, v in zip(stretches(tables), verdicts)]
        if len(verdicts) != int(count) or (number == "0" and len(list(stretches(tables))) != int(count)) or not all(held):
            sys.exit("many_vectors.py: %s" % line)
        yield case(tables, notice, int(room), int(number), int(place), verdicts)


def written(parts, notice=OP42, spare=2):
    """Tables that are delivered, each with its byte."""
    verdicts = bytes(REFUSED if isinstance(p, Refused) else byte_of(p, notice) for p in parts)
    return case(b"".join(parts), notice, len(verdicts) + spare, 0, 0, verdicts)


def delivered():
    three, zero = [TRUE, FALSE, BOTTOM], Refused(4)
    # "write per table one byte: 0 false, 1 true, 2 bottom, 3 table refused"; no bytes are no table
    for notice in (OP42, E):
        for spare in (0, 2):
            yield written([], notice, spare)
            yield written(three, notice, spare)
    # a table that is refused does not end the walk: another kind, a spare byte within its length, a length word 0, too few bytes
    other_kind, one_spare = Refused(TRUE[:4] + b"\x03" + TRUE[5:]), Refused(struct.pack("<I", len(TRUE) - 3) + TRUE[4:] + b"\x00")
    for wrong in (other_kind, one_spare, zero, Refused(b"\x01" + bytes(4)), Refused(b"\x06\x00\x00\x00\x02" + bytes(5))):
        yield written([wrong])
        yield written([TRUE, wrong, FALSE])
        yield written([wrong, wrong, BOTTOM, wrong])
    # "if that passes the end, or 1 to 3 bytes are left, the remainder counts as one refused table"
    for left in (TRUE[:1], TRUE[:2], TRUE[:3], TRUE[:4], TRUE[:5], TRUE[:-1], bytes(1), bytes(3), b"\x01" + bytes(3), b"\xff" * 4, b"\xfc\xff\xff\xff" + TRUE + FALSE):
        yield written([Refused(left)])
        yield written([TRUE, Refused(left)])
        yield written([zero, FALSE, Refused(left)])
    # "up to 64 tables"; the remainder counts
    for full in ([zero] * 64, (three * 22)[:64], [TRUE] * 63 + [Refused(1)]):
        yield written(full, spare=0)
        yield written(full)


def editions():
    """Document 02, request 9: "all that runs or keeps tables takes both". The tables are those of `Op >> 33 == 21`: bottom by the first edition, true by the second."""
    body = lambda kind: struct.pack("<HHH", kind, 5, 2) + b"".join(struct.pack("<HHQ", *e) for e in ((5, 2, 0), (1, 0, 33), (17, 0, 0), (1, 0, 21), (32, 0, 0))) + b"Op"
    first, second = (struct.pack("<I", len(body(kind))) + body(kind) for kind in (2, 4))
    for parts in ([second], [first, second], [second, first, TRUE, second], [second] * 64):
        for notice in (OP42, E):
            yield written(parts, notice)
    yield written([second, Refused(first[:4] + b"\x06" + first[5:]), second])
    assert byte_of(first, OP42) == 2 and byte_of(second, OP42) == 1


def refused():
    """Nothing is written."""
    many = b"".join(([TRUE, FALSE, BOTTOM] * 22)[:64])
    faulty = ((OP42[:8] + b"\x08" + OP42[9:], 8), (OP42[:-1], 0), (OP42 + bytes(16385 - len(OP42)), 0), (b"", 0))
    # "Refusals: 11, then 24 for over 64 tables, then 9 if the verdict buffer is short."
    for tables in (many + bytes(1), many + bytes(3), many + bytes(4), many + TRUE, many + TRUE + bytes(1), bytes(4 * 65), TRUE * 70):
        for room in (0, 63, 64, 65, BUFFER):
            yield case(tables, OP42, room, 24, 0, b"")
            yield case(tables, faulty[0][0], room, 11, 8, b"")
    for tables, count in ((TRUE, 1), (TRUE + FALSE, 2), (TRUE + bytes(1), 2), (bytes(12), 3), (many, 64)):
        for room in (0, count - 1):
            yield case(tables, OP42, room, 9, 0, b"")
            for notice, place in faulty:
                yield case(tables, notice, room, 11, place, b"")
    for notice, place in faulty:
        yield case(b"", notice, 0, 11, place, b"")
        yield case(TRUE, notice, BUFFER, 11, place, b"")


def main(vectors=Path(__file__).resolve().with_name("vectors")):
    here = Path(__file__).resolve().parent.parent / "crates" / "many_test"
    rows = [*vectors_of((Path(vectors) / "08-many.txt").read_text().splitlines()), *delivered(), *editions(), *refused()]
    (here / "stdin").write_bytes(b"".join(struct.pack("<I", len(s)) + s for row in rows for s in row[:3]))
    (here / "stdout").write_text("".join(row[3] + "\n" for row in rows))


main(*sys.argv[1:])
