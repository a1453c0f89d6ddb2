#!/usr/bin/env python3
"""store_vectors.py [VECTORS]: writes crates/store_test/stdin and stdout from VECTORS/12-store.txt, and calls at the limits that document 02's request 12 names, with bytes turned and with notices.

The answers are those of a model of the store's bytes, by the request's sentences and the layout (docs/FORMATS.md). It is held to every answer of the file with all the tables that pass there.
Which tables pass is what the file answers of them. The verdicts of a notice are evaluate.py's."""
import random
import struct
import sys
from pathlib import Path

import evaluate

# the kinds of tables that pass: from request 9 on 2 and 4
KINDS = (2, 4)
BUFFER, MOST, PLACES, VERDICTS, FILL = 65600, 65536, 64, 72, 0xA5
OP42 = bytes.fromhex("0F0000000100010009000100024F702A000000")
calls, lines = [], []


def equals(name, number, spare=0):
    """The table of `name == number`, with so many bytes more in its pool."""
    pool = name + bytes(spare)
    body = struct.pack("<HHH", 2, 3, len(pool)) + b"".join(struct.pack("<HHQ", *e) for e in ((5, len(name), 0), (1, 0, number), (32, 0, 0))) + pool
    return struct.pack("<I", len(body)) + body


TRUE, FALSE, BOTTOM = equals(b"Op", 42), equals(b"Op", 43), equals(b"Up", 42)


def kind_of(table):
    return struct.unpack_from("<H", table, 4)[0] if len(table) >= 6 else None


class Store:
    """A lent buffer, and the calls on it."""

    def __init__(self, passing, kinds):
        self.passing, self.kinds, self.bytes, self.lent = passing, kinds, bytearray([FILL]) * BUFFER, 0

    def passes(self, table):
        return table in self.passing and kind_of(table) in self.kinds

    def records(self):
        """Number and start and end of the table of each record, or None for bytes that break the layout."""
        b = self.bytes[:self.lent]
        if not 8 <= len(b) <= MOST:
            return None
        size, kind, count = struct.unpack_from("<IHH", b)
        if 4 + size > len(b) or kind != 6:
            return None
        at, found = 8, []
        for _ in range(count):
            if at + 4 > 4 + size:
                return None
            length, kind = struct.unpack_from("<HH", b, at)
            end = at + 2 + length
            if length < 2 or end > 4 + size or not 256 <= kind < 256 + PLACES or kind - 256 in [n for n, _, _ in found]:
                return None
            found.append((kind - 256, at + 4, end))
            at = end
        return found if at == 4 + size else None

    def held(self):
        records = self.records()
        return None if records is None else {n: bytes(self.bytes[start:end]) for n, start, end in records}

    def write(self, tables):
        body = b"".join(struct.pack("<HH", 2 + len(t), 256 + n) + t for n, t in tables.items())
        self.bytes[:8 + len(body)] = struct.pack("<IHH", 4 + len(body), 6, len(tables)) + body

    def make(self, lent):
        self.lent = lent
        if not 8 <= lent <= MOST:
            return 26
        self.write({})
        return 0

    def add(self, table):
        held = self.held()
        if held is None:
            return 26, 64
        if not self.passes(table):
            return 12, 64
        if len(held) == PLACES:
            return 27, 64
        # "the tables held, plus the new one, plus 4 bytes for each of these, the new one too, and 8 for the store, exceed the buffer"
        if sum(map(len, held.values())) + len(table) + 4 * (len(held) + 1) + 8 > self.lent:
            return 28, 64
        number = min(set(range(PLACES)) - set(held))
        self.write({**held, number: table})
        return 0, number

    def remove(self, number):
        held = self.held()
        if held is None:
            return 26
        if number not in held:
            return 29
        del held[number]
        self.write(held)
        return 0

    def find(self, number):
        records = self.records()
        if records is None:
            return 26, 0, 0
        return next(((0, start, end) for n, start, end in records if n == number), (29, 0, 0))

    def verdicts(self, room, notice, place):
        """Of a notice with its fault's place, or None for none."""
        held, out = self.held(), bytes([FILL]) * VERDICTS
        if held is None:
            return 26, 0, out
        if place is not None:
            return 11, place, out
        if room < PLACES:
            return 9, 0, out
        return 0, 0, bytes(4 if n not in held else self.byte_of(held[n], notice) for n in range(PLACES)) + out[PLACES:]

    def byte_of(self, table, notice):
        if not self.passes(table):
            assert kind_of(table) not in (2, 4), table.hex()
            return 3
        return ("false", "true", "bottom").index(evaluate.run(table, notice)[0])


def hexed(b):
    return bytes(b).hex() or "-"


def do(store, what, operand=0):
    """One call, and the line that it prints."""
    line = ""
    if what == "m":
        line = "%d " % store.make(operand)
    elif what == "a":
        line = "%d %d " % store.add(operand)
    elif what == "r":
        line = "%d " % store.remove(operand)
    elif what == "f":
        refusal, start, end = store.find(operand)
        line = "%d %d %d %s" % (refusal, start, end, hexed(store.bytes[start:end]))
    elif what == "n":
        room, notice, place = operand
        operand = struct.pack("<H", room) + notice
        line = "%d %d %s" % (*store.verdicts(room, notice, place)[:2], store.verdicts(room, notice, place)[2].hex())
    elif what == "b":
        at, byte = operand
        store.bytes[at] = byte
        operand = struct.pack("<QB", at, byte)
    elif what == "d":
        line = hexed(store.bytes[:store.lent])
    calls.append((what.encode(), struct.pack("<Q", operand) if isinstance(operand, int) else operand))
    lines.append(line)


def vectors(path):
    """Of each case the buffer's length, the calls, and their answers."""
    for line in path.read_text().splitlines():
        words = line.split()
        n = int(words[1])
        made, *answers = words[3 + n:]
        assert words[2 + n] == ":" and len(answers) == n, line
        yield int(words[0]), [(w[0], evaluate.plain(w[1:]) if w[0] == "a" else int(w[1:])) for w in words[2:2 + n]], int(made), [a.split(":") for a in answers]


def held_to(passing, room, ops, made, answers):
    """The model gives every answer of the file."""
    store = Store(passing, (2, 4))
    assert store.make(room) == made
    for (what, operand), (refusal, answer) in zip(ops, answers):
        if what == "a":
            assert store.add(operand) == (int(refusal), int(answer)), operand.hex()
        elif what == "r":
            assert store.remove(operand) == int(refusal)
        else:
            k, start, end = store.find(operand)
            assert (k, bytes(store.bytes[start:end])) == (int(refusal), evaluate.plain(answer))


def of_size(store, size):
    """A table of so many bytes that passes."""
    table = equals(b"Op", 42, size - 48)
    store.passing.add(table)
    return table


def limits(store):
    # "a buffer over 64 KiB or under 8 bytes"; nothing but the size counts when it is made empty
    for room in (0, 1, 7, 8, 9, 11, 12, 55, 56, 59, 60, 108, 109, MOST - 1, MOST, MOST + 1, BUFFER):
        for what in (("m", room), ("a", TRUE), ("a", b""), ("f", 0), ("a", FALSE), ("n", (PLACES, OP42, None)), ("r", 1), ("f", 1), ("a", BOTTOM), ("r", 0), ("f", 0), ("a", TRUE)):
            do(store, *what)
    # "27 for 64 held", before 28; the lowest free number; numbers from 64 on
    do(store, "m", 8 + 64 * (4 + len(TRUE)))
    for n in range(PLACES):
        do(store, "a", (TRUE, FALSE, BOTTOM)[n % 3])
    for what in (("a", TRUE), ("a", TRUE[:-1]), ("n", (VERDICTS, OP42, None)), ("r", 40), ("r", 5), ("r", 63), ("r", 0), ("f", 5), ("f", 6), ("n", (PLACES, OP42, None)), ("a", FALSE), ("a", FALSE), ("a", FALSE),
                 ("f", 5), ("a", FALSE), ("a", FALSE), ("f", 63), ("f", 64), ("r", 64), ("f", 1 << 40), ("r", (1 << 64) - 1), ("d",)):
        do(store, *what)
    # a buffer of 65,536 bytes, to its last byte: 64 tables, and a last record that starts at 65,484
    for sizes in ([1019] * 63 + [1076, 1075], [4141] * 15 + [3297, 49, 48]):
        do(store, "m", MOST)
        for size in sizes:
            do(store, "a", of_size(store, size))
        last = len(sizes) - 2
        for what in (("f", last), ("a", TRUE), ("n", (PLACES, OP42, None)), ("r", 0), ("f", last), ("a", of_size(store, sizes[0] + 1)), ("a", of_size(store, sizes[0])), ("f", 0), ("r", last), ("f", last)):
            do(store, *what)


def turned(store):
    """Bytes of a small store, its own and the spare ones, turned and turned back."""
    for tables in ([], [TRUE], [TRUE, FALSE, BOTTOM]):
        do(store, "m", 200)
        for t in tables:
            do(store, "a", t)
        used = struct.unpack_from("<I", store.bytes)[0] + 4
        for at in (*range(min(used, 16)), *range(16, used, 7), used - 1, used, 199):
            old = store.bytes[at]
            for what in (("b", (at, old ^ 255)), ("f", 0), ("f", 2), ("r", 5), ("b", (at, old))):
                do(store, *what)
    # the same number twice, a kind below and above, a length below 2, a count too high and too low: 26 of every call, and no byte changes
    second = 8 + 4 + len(TRUE)
    for at, new in ((second + 2, 0), (second + 2, 64), (second + 3, 0), (second + 3, 2), (second, 1), (6, 2), (6, 4), (6, 0), (4, 5), (0, store.bytes[0] + 1), (0, store.bytes[0] - 1), (3, 1)):
        old = store.bytes[at]
        for what in (("b", (at, new)), ("a", TRUE), ("r", 0), ("f", 1), ("n", (PLACES, OP42, None)), ("d",), ("b", (at, old))):
            do(store, *what)
    # a table that fails its check may lie in bytes that keep the layout
    do(store, "b", (second + 8, 3))
    for room, notice, place in ((PLACES, OP42, None), (63, OP42, None), (VERDICTS, OP42[:-1], 0), (0, OP42[:8] + b"\x08" + OP42[9:], 8)):
        do(store, "n", (room, notice, place))


def at_random(store, tables, notices):
    rnd = random.Random(12)
    for i in range(250):
        size = rnd.choice([rnd.randrange(12), rnd.randrange(8, 400), rnd.randrange(8, 400), 4000, MOST, MOST + 1])
        do(store, "m", size)
        for _ in range(rnd.randrange(1, 90 if size > 1000 else 25)):
            k = rnd.random()
            if k < 0.5:
                do(store, "a", rnd.choice(tables) if rnd.random() < 0.97 else bytes(rnd.randrange(30)))
            elif k < 0.68:
                do(store, "r", rnd.choice([rnd.randrange(8), rnd.randrange(70), 1 << 40]))
            elif k < 0.86:
                do(store, "f", rnd.choice([rnd.randrange(8), rnd.randrange(70)]))
            elif k < 0.9:
                do(store, "n", (rnd.choice([63, PLACES, VERDICTS]), *rnd.choice(notices)))
            elif k < 0.94 and 0 < size < 1000:
                at = rnd.choice([rnd.randrange(min(size, 16)), rnd.randrange(size)])
                old = store.bytes[at]
                for what in (("b", (at, old ^ 255)), ("f", rnd.randrange(4)), ("r", 70), ("b", (at, old))):
                    do(store, *what)
            elif size < 1000:
                do(store, "d")


def main(folder=Path(__file__).resolve().with_name("vectors")):
    here = Path(__file__).resolve().parent.parent / "crates" / "store_test"
    cases = list(vectors(Path(folder) / "12-store.txt"))
    passing = {t for _, ops, _, answers in cases for (what, t), (refusal, _) in zip(ops, answers) if what == "a" and refusal in ("0", "27", "28")}
    for case in cases:
        held_to(passing, *case)
    store = Store(passing | {TRUE, FALSE, BOTTOM}, KINDS)
    for room, ops, _, _ in cases:
        if room <= BUFFER:
            do(store, "m", room)
            for what in ops:
                do(store, *what)
    limits(store)
    turned(store)
    rows = [line.split() for line in (Path(folder) / "08-many.txt").read_text().splitlines()]
    notices = sorted({(evaluate.plain(r[1]), int(r[4]) if r[3] == "11" else None) for r in rows if len(r[1]) < 400}, key=str)[:40]
    tables = sorted(t for t in passing if len(t) < 70 and kind_of(t) in KINDS)
    at_random(store, tables, notices)
    (here / "stdin").write_bytes(b"".join(struct.pack("<I", len(s)) + s for call in calls for s in call))
    (here / "stdout").write_text("".join(line + "\n" for line in lines))


main(*sys.argv[1:])
