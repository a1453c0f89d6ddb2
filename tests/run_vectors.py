#!/usr/bin/env python3
"""run_vectors.py [VECTORS]: writes crates/interpreter_test/stdin and stdout from VECTORS/run.txt, 01-run.txt, 02-run.txt, 06-run.txt, 07-run.txt, 09-run.txt, 10-more.txt and 13-run.txt, document 01's own runs, and runs at the limits that the documents name.

A vector's answer is its own, and is held to evaluate.py. 10-more.txt has texts, whose tables are those of compiled.py, and verdicts alone. Those of the other cases follow from the documents' sentences, which are named beside them. Where an answer does not name the undecided entry, as in the vectors from before
request 7, it is that of evaluate.py."""
import struct
import sys
from pathlib import Path

import compiled
import evaluate

OP42 = bytes.fromhex("0F0000000100010009000100024F702A000000")
E = bytes.fromhex("0400000001000000")
NAME, NUMBER, EQUAL, NOT = (5, 2, 0), (1, 0, 42), (32, 0, 0), (40, 0, 0)


def table(entries, pool=b"Op", kind=2):
    body = struct.pack("<HHH", kind, len(entries), len(pool)) + b"".join(struct.pack("<HHQ", *e) for e in entries) + pool
    return struct.pack("<I", len(body)) + body


def cases():
    op42 = [NAME, NUMBER, EQUAL]
    # "P `Op == 42`: true on Op42, 3 steps."; "N 0 bottom 3 0" on E; document 02, request 7: the lines "end in .. 65535 and 0"
    yield table(op42), OP42, "0 0 true 3 65535"
    yield table(op42), E, "0 0 bottom 3 0"
    # "P `Op == 1 && 1 == 2` on E: false, 8 steps. P `1 == 2 && Op == 42` on E: false, 4 steps."
    one, two = (1, 0, 1), (1, 0, 2)
    yield table([NAME, one, EQUAL, (44, 4, 0), one, two, EQUAL, (41, 0, 0)]), E, "0 0 false 8"
    yield table([one, two, EQUAL, (44, 4, 0), NAME, NUMBER, EQUAL, (41, 0, 0)]), E, "0 0 false 4"
    # "P `1 / 0 == 0 || 1 == 1`: true"
    zero = (1, 0, 0)
    yield table([one, zero, (23, 0, 0), zero, EQUAL, (45, 4, 0), one, one, EQUAL, (43, 0, 0)]), E, "0 0 true 10"
    # "Running: 12 before 11."; "0 for the header (size over 16,384 ..)"
    yield table(op42)[:-1], OP42[:-1], "12 0 bottom 0 65535"
    yield table(op42), OP42[:-1], "11 0 bottom 0 65535"
    yield table(op42), OP42[:8] + b"\x08" + OP42[9:], "11 8 bottom 0"
    yield table(op42), OP42 + bytes(16385 - len(OP42)), "11 0 bottom 0"
    yield b"", b"", "12 0 bottom 0"
    # "entry count N 1..512": 509 times `!`
    yield table(op42 + [NOT] * 509), OP42, "0 0 false 512"
    yield table(op42 + [NOT] * 510), OP42, "12 0 bottom 0"
    # "depth is at most 32": 32 times 42 added up
    for depth in (32, 33):
        sums = [NUMBER] * depth + [(25, 0, 0)] * (depth - 1)
        yield table(sums[:depth] + sums[depth + 1:] + [(33, 0, 0)]), E, "0 0 true %d" % (2 * depth - 1) if depth <= 32 else "12 0 bottom 0"
    # "a: literals or values, 1..8; taken from the stack with the first": the last of eight is equal, the first deepest
    for last, verdict in ((42, "true"), (43, "false")):
        yield table([NAME] + [two] * 7 + [(1, 0, last), (59, 8, 0)]), OP42, "0 0 %s 10" % verdict


def cab(value, kind=4):
    field = struct.pack("<HHB", 6 + len(value), kind, 3) + b"Cab" + value
    return struct.pack("<IHH", 4 + len(field), 1, 1) + field


def wildcards():
    # document 02, request 1: `wildcard (Cab, "T-4?", "V*")`; "the whole value must fit a pattern"; "same bottom rule"
    dispatch = table([(5, 3, 0), (4, 4, 3), (4, 2, 7), (60, 2, 0)], b"CabT-4?V*")
    for value, verdict in ((b"T-41", "true"), (b"T-4", "false"), (b"T-412", "false"), (b"V", "true"), (b"V-1", "true"), (b"AV", "false"), (b"", "false")):
        yield dispatch, cab(value), "0 0 %s 4" % verdict
    yield dispatch, cab(b"T-41", 5), "0 0 bottom 4"
    yield dispatch, E, "0 0 bottom 4"
    # a folded value beside a pattern, which is not folded
    for pattern, verdict in ((b"t-4?", "true"), (b"T-4?", "false")):
        yield table([(5, 3, 0), (6, 0, 0), (4, 4, 3), (60, 1, 0)], b"Cab" + pattern), cab(b"T-41"), "0 0 %s 4" % verdict
    # "the table check gives 12 for it and for a pattern operand that is no op 4 entry directly before"
    yield table([(5, 3, 0), (4, 2, 3), (60, 1, 0)], b"Cab[]"), cab(b"[]"), "12 0 bottom 0"
    yield table([(5, 3, 0), (4, 1, 3), (6, 0, 0), (60, 1, 0)], b"Cab*"), cab(b"[]"), "12 0 bottom 0"


def sizes():
    # document 02, request 2: `size (Name) <= 20`, "a name of 20 letters with two accents"; "bottom if the bytes are not well-formed UTF-8"; "Opaque values keep their byte count."
    limit = table([(5, 3, 0), (7, 0, 0), (1, 0, 20), (35, 0, 0)], b"Cab")
    name = "Élodie Müller-Kerner".encode()
    for value, verdict in ((name, "true"), (name + b"s", "false"), (name[:-1] + b"\xc3", "bottom"), (b"\xed\xa0\x80", "bottom"), (b"", "true")):
        yield limit, cab(value), "0 0 %s 4" % verdict
    yield limit, cab(name, 5), "0 0 false 4"
    folded = table([(5, 3, 0), (6, 0, 0), (7, 0, 0), (1, 0, 20), (35, 0, 0)], b"Cab")
    yield folded, cab(name), "0 0 true 5"
    yield folded, cab(name + b"s"), "0 0 false 5"


def meters():
    # document 02, request 6: "The example with 9223372036854775807L turns from bottom to false."
    most = 2**63 - 1
    yield table([(2, 0, most), (1, 0, 1), (25, 0, 0), (1, 0, 0), EQUAL], b""), E, "0 0 false 5"
    # "`Meter > 1.5` gives bottom": the odometer of int64 beyond 2^53, beside 1.5, the infinities, NaN and the reals next to it
    odometer = struct.pack("<IHH", 4 + 18, 1, 1) + struct.pack("<HHB", 16, 2, 5) + b"Meter" + struct.pack("<q", 2**53 + 1)
    meter, real = (5, 5, 0), lambda x: (3, 0, struct.unpack("<Q", struct.pack("<d", x))[0])
    for op, x, verdict in ((36, 1.5, "true"), (34, float("inf"), "true"), (36, float("-inf"), "true"), (32, 2.0**53, "false"), (36, 2.0**53, "true"), (34, 2.0**53 + 2, "true"),
                           (32, float("nan"), "false"), (35, float("nan"), "false")):
        yield table([meter, real(x), (op, 0, 0)], b"Meter"), odometer, "0 0 %s 3" % verdict
    # "the integer is rounded to the nearest f64, ties to even": 2^53 + 1 is a tie
    yield table([meter, real(0.0), (25, 0, 0), real(2.0**53), EQUAL], b"Meter"), odometer, "0 0 true 5"
    # "`equals` included"
    yield table([meter, real(2.0**53), real(2.0**53 + 2), (59, 2, 0)], b"Meter"), odometer, "0 0 false 4"


def undecided():
    # document 02, request 7: "the number of the first visited entry that left bottom on the stack, counted from 0, or 65535 if none did"
    one, two, text, gone, add = (1, 0, 1), (1, 0, 2), (4, 2, 0), (5, 1, 2), (25, 0, 0)
    runs = lambda entries, answer, notice=OP42: (table(entries, b"Opg"), notice, "0 0 " + answer)
    # none: with true and with false
    yield runs([NAME, NUMBER, EQUAL], "true 3 65535")
    yield runs([NAME, one, EQUAL], "false 3 65535")
    # a missing name; an operator whose operands are there: of another kind, a zero divisor, a count of 32, 63 and 64
    yield runs([NUMBER, gone, EQUAL], "bottom 3 1")
    for op in (32, 33, 34, 35, 36, 37):
        yield runs([NAME, text, (op, 0, 0)], "bottom 3 2")
    for op in (16, 17, 18, 19, 20, 21, 22, 23, 24, 25, 26):
        yield runs([NAME, text, (op, 0, 0), one, EQUAL], "bottom 5 2")
    for op, right, verdict in ((23, (1, 0, 0), "bottom 5 2"), (24, (2, 0, 0), "bottom 5 2"), (23, (3, 0, 0), "bottom 5 2"), (16, (1, 0, 32), "bottom 5 2"), (17, (1, 0, 2**64 - 1), "bottom 5 2"), (16, (1, 0, 31), "false 5 65535")):
        yield runs([NAME, right, (op, 0, 0), one, EQUAL], verdict)
    for left, right, answer in (((2, 0, 1), (1, 0, 63), "false 5 65535"), ((2, 0, 1), (1, 0, 64), "bottom 5 2")):
        yield runs([left, right, (18, 0, 0), one, EQUAL], answer)
    for op in (6, 7):
        yield runs([NAME, (op, 0, 0), text, EQUAL], "bottom 4 1")
    yield runs([text, (8, 0, 0), text, EQUAL], "bottom 4 1")
    for op in (56, 57, 58, 60, 61):
        yield runs([NAME, text, (op, 1, 0)], "bottom 3 2")
    yield runs([text, one, (56, 1, 0)], "bottom 3 2")
    yield runs([NAME, text, two, (59, 2, 0)], "bottom 4 3")
    # `equals` is joined by `||`: true beside a bottom, and no entry is undecided
    yield runs([NAME, text, NUMBER, (59, 2, 0)], "true 4 65535")
    # ops 48..54 of a missing name: the name is the first
    for op in range(48, 55):
        yield runs([gone, (op, 0, 0)], "bottom 2 0")
    # "the first": of two names, of a name and the operators after it, and not the last
    yield runs([one, gone, add, gone, EQUAL], "bottom 5 1")
    yield runs([NAME, NUMBER, EQUAL, gone, one, EQUAL, (42, 0, 0), NOT, NOT], "bottom 9 3")
    # "visited": what a skip passes over is not, and the number is the entry's, not the visit's
    skipped = [NAME, one, EQUAL, (44, 4, 0), gone, one, EQUAL, (41, 0, 0)]
    yield runs(skipped, "false 4 65535")
    yield runs(skipped + [gone, one, EQUAL, (42, 0, 0)], "bottom 8 8")
    yield runs([NAME, NUMBER, EQUAL, (45, 4, 0), gone, one, EQUAL, (43, 0, 0)], "true 4 65535")
    # one that is taken is visited; bottom passes over nothing
    yield runs([NAME, NUMBER, EQUAL, (44, 4, 0), gone, one, EQUAL, (41, 0, 0)], "bottom 8 4")
    yield runs([gone, one, EQUAL, (44, 4, 0), gone, one, EQUAL, (41, 0, 0)], "bottom 8 0")
    # with verdict true and false too, also where bottom has left the stack and comes again
    yield runs([gone, one, EQUAL, (45, 4, 0), NAME, NUMBER, EQUAL, (43, 0, 0)], "true 8 0")
    yield runs([gone, one, EQUAL, (44, 4, 0), NAME, one, EQUAL, (41, 0, 0)], "false 8 0")
    yield runs([gone, one, EQUAL, (44, 4, 0), NAME, one, EQUAL, (41, 0, 0), NAME, text, EQUAL, (42, 0, 0)], "bottom 12 0")
    # the last entry, also of 512
    for last in (255, 256, 511):
        yield runs([one] + [(8, 0, 0)] * (last - 2) + [text, EQUAL], "bottom %d %d" % (last + 1, last))


def editions():
    # document 02, request 9: "takes the count's remainder by the width, 0 to width less 1, so -1 shifts an int32 by 31"; document 01: "the count must be 0 to width less 1, else bottom"
    short, long = lambda z: (1, 0, z % 2**64), lambda z: (2, 0, z % 2**64)
    for left, op, count, result in (
            (short(1), 16, short(-1), short(-(2**31))), (short(-1), 18, short(-1), short(1)), (short(-(2**31)), 17, short(-1), short(-1)), (NAME, 17, short(33), short(21)), (NAME, 16, short(32), short(42)),
            (NAME, 16, short(-32), short(42)), (NAME, 17, short(-31), short(21)), (NAME, 17, short(-33), short(0)), (NAME, 16, short(2**31 - 1), short(0)), (NAME, 16, short(-(2**31)), short(42)),
            (NAME, 16, long(2**32 + 1), short(84)), (NAME, 16, long(-(2**32) - 31), short(84)), (NAME, 17, long(-(2**63)), short(42)), (NAME, 18, long(2**63 - 1), short(0)),
            (long(1), 16, short(-1), long(-(2**63))), (long(-1), 18, short(-1), long(1)), (long(-(2**63)), 17, long(65), long(-(2**62))), (long(3), 16, long(2**32 + 2), long(12)), (long(3), 16, long(-(2**63)), long(3)),
            (long(-1), 18, short(2**31 - 1), long(1)), (long(5), 18, short(64), long(5))):
        entries = [left, count, (op, 0, 0), result, EQUAL]
        yield table(entries, kind=4), OP42, "0 0 true 5 65535"
        yield table(entries), OP42, "0 0 bottom 5 2"
    # within the width both are the same, and so is a count that is no integer, or missing
    for count in (0, 1, 5, 31):
        for kind in (2, 4):
            yield table([NAME, short(count), (16, 0, 0), short((42 << count) % 2**32 - (2**32 if (42 << count) % 2**32 >= 2**31 else 0)), EQUAL], kind=kind), OP42, "0 0 true 5 65535"
            yield table([long(2**40), long(count), (17, 0, 0), long(2 ** (40 - count)), EQUAL], kind=kind), OP42, "0 0 true 5 65535"
    for kind in (2, 4):
        yield table([NAME, (3, 0, 0), (16, 0, 0), NUMBER, EQUAL], kind=kind), OP42, "0 0 bottom 5 2"
        yield table([NUMBER, NAME, (16, 0, 0), NUMBER, EQUAL], kind=kind), E, "0 0 bottom 5 1"
        # no other operator: "differ in the three shifts alone"
        yield table([NAME, short(0), (23, 0, 0), NUMBER, EQUAL], kind=kind), OP42, "0 0 bottom 5 2"
        yield table([NAME, short(-1), (22, 0, 0), short(-42), EQUAL], kind=kind), OP42, "0 0 true 5 65535"
    # "Routers not yet renewed refuse kind 4 with 12.": others are refused
    for kind in (0, 1, 3, 5, 6, 258, 260, 1024):
        yield table([NAME, NUMBER, EQUAL], kind=kind), OP42, "12 0 bottom 0 65535"
    yield table([NAME, NUMBER, EQUAL], kind=4), OP42[:-1], "11 0 bottom 0 65535"


def regexes():
    # document 02, request 13: `regex (User, "[Ss]egall?")`; "True if some stretch of the value fits."; "Argument and bottom rules as for `begins-with`"
    regex = lambda pattern: table([(5, 3, 0), (4, len(pattern), 3), (61, 1, 0)], b"Cab" + pattern)
    office = regex(b"[Ss]egall?")
    for value, verdict in ((b"Segall", "true"), (b"Bill segal", "true"), (b"Segala", "true"), (b"Sega", "false"), (b"SEGALL", "false"), (b"", "false")):
        yield office, cab(value), "0 0 %s 3 65535" % verdict
    yield office, cab(b"Segall", 5), "0 0 bottom 3 2"
    yield office, E, "0 0 bottom 3 0"
    # "`^` only first and `$` only last in the whole pattern, where they anchor their own branch; a branch of anchors alone is not empty"
    for pattern, fit, miss in ((b"^a|b$", (b"ax", b"xb", b"ab"), (b"xa", b"bx", b"xax")), (b"^$", (b"",), (b"a",)), (b"^|b", (b"", b"a"), ()), (b"^a|b|c$", (b"xbx", b"xc"), (b"xa", b"cx")), (b"c$", (b"c",), (b"c\n",))):
        for value in fit:
            yield regex(pattern), cab(value), "0 0 true 3 65535"
        for value in miss:
            yield regex(pattern), cab(value), "0 0 false 3 65535"
    # "Braces are plain."; "A repeat mark may follow another.": `a+?` is (a+)?
    yield regex(b"^a{2}$"), cab(b"a{2}"), "0 0 true 3 65535"
    yield regex(b"^a{2}$"), cab(b"aa"), "0 0 false 3 65535"
    yield regex(b"^a+?$"), cab(b""), "0 0 true 3 65535"
    yield regex(b"^a+?$"), cab(b"aa"), "0 0 true 3 65535"
    # "also for a star over what fits the empty string": on values of which a matcher that goes back would try every way
    for pattern in (b"(a*)*b", b"(a|aa)*b", b"(((((((a*)*)*)*)*)*)*)*b", b"(a?)+b", b"(a*a*)*b"):
        for value, verdict in ((b"a" * 1000, "false"), (b"a" * 1000 + b"b", "true"), (b"", "false"), (b"b", "true")):
            yield regex(pattern), cab(value), "0 0 %s 3 65535" % verdict
    # a folded value beside a pattern, which is not folded
    for pattern, verdict in ((b"t-[4-6]", "true"), (b"T-[4-6]", "false")):
        yield table([(5, 3, 0), (6, 0, 0), (4, 7, 3), (61, 1, 0)], b"Cab" + pattern), cab(b"T-41"), "0 0 %s 4 65535" % verdict
    # the last of two alone
    yield table([(5, 3, 0), (4, 1, 3), (4, 1, 4), (61, 2, 0)], b"Cabab"), cab(b"xbx"), "0 0 true 4 65535"
    # "the table check gives 12 as for op 60"
    yield regex(b"()"), cab(b"()"), "12 0 bottom 0 65535"
    yield table([(5, 3, 0), (4, 1, 3), (6, 0, 0), (61, 1, 0)], b"Cab."), cab(b"()"), "12 0 bottom 0 65535"


def more(path):
    """Document 02, request 10: "If the first gives true, so does the second; if false, likewise." """
    for line in path.read_text().splitlines():
        edition, text, *notices, first, second = line.split()
        t = compiled.table_of(evaluate.plain(text), int(edition))
        assert first in ("bottom", second), line
        for notice, verdict in zip(map(evaluate.plain, notices), (first, second)):
            assert evaluate.run(t, notice)[0] == verdict, line
            yield t, notice, "0 0 %s %d %d" % evaluate.run(t, notice)


def main(vectors=Path(__file__).resolve().with_name("vectors")):
    here = Path(__file__).resolve().parent.parent / "crates" / "interpreter_test"
    rows = [*cases(), *wildcards(), *sizes(), *meters(), *undecided(), *editions(), *regexes()]
    for name in ("run.txt", "01-run.txt", "02-run.txt", "06-run.txt", "07-run.txt", "09-run.txt", "13-run.txt"):
        for line in (Path(vectors) / name).read_text().splitlines():
            t, notice, *answer = line.split()
            rows.append((evaluate.plain(t), evaluate.plain(notice), " ".join(answer)))
    rows += more(Path(vectors) / "10-more.txt")
    answers = [evaluate.answer_of(*row) for row in rows]
    for (t, notice, answer), whole in zip(rows, answers):
        if whole is None:
            sys.exit("run_vectors.py: %s on %s: %s" % (t.hex(), notice.hex(), answer))
    (here / "stdin").write_bytes(b"".join(struct.pack("<I", len(s)) + s for row in rows for s in row[:2]))
    (here / "stdout").write_text("".join(answer + "\n" for answer in answers))


main(*sys.argv[1:])
