"""The table of an accepted text, by document 01's "Grammar" and "Table" and its edition's kind (document 02, request 9), from the tokens of lexer_vectors.py; verdict_vectors.py holds it to the vectors of translation."""
import struct
import sys

import lexer_vectors as lexer

# "Tightest first: `!` and `~` ..; `<< >> >>>`; `&`; `^`; `|`; `* / %`; `+ -`; `< <= > >=`; `== !=`; `&&`; `^^`; `||`", here the other way round, by op
LEVELS = [(43,), (42,), (41,), (32, 33), (34, 35, 36, 37), (25, 26), (22, 23, 24), (21,), (20,), (19,), (16, 17, 18)]
PREFIX, OPEN, CLOSE = (8, 40), 9, 10
SKIPS = {41: 44, 43: 45}
FUNCTIONS = dict(zip(b"fold-case size".split(), (6, 7)))
FUNCTIONS.update(zip(b"int32 int64 real64 string opaque nan require".split(), range(48, 55)))
FUNCTIONS.update(zip(b"begins-with contains ends-with equals wildcard regex".split(), range(56, 62)))
sys.setrecursionlimit(10000)


class Text:
    """Entries by recursive descent, names and strings entering the pool in text order."""

    def __init__(self, text):
        self.tokens = [(kind, value) for kind, _, value in lexer.lexed(text)[2]] + [(0, None)]
        self.at, self.pool = 0, b""

    def kind(self, ahead=0):
        return self.tokens[self.at + ahead][0]

    def take(self):
        self.at += 1
        return self.tokens[self.at - 1]

    def level(self, i=0):
        """ "`L && R` becomes L, skip if false, R, op 41; `L || R` uses skip if true; a is R's entries plus 1." """
        if i == len(LEVELS):
            return self.prefix()
        left = self.level(i + 1)
        while self.kind() in LEVELS[i]:
            op, right = self.take()[0], self.level(i + 1)
            skip = [(SKIPS[op], len(right) + 1, 0)] if op in SKIPS else []
            left = left + skip + right + [(op, 0, 0)]
        return left

    def prefix(self):
        if self.kind() in PREFIX:
            op = self.take()[0]
            return self.prefix() + [(op, 0, 0)]
        if self.kind() == 5 and self.kind(1) == OPEN:
            return self.call()
        kind, value = self.take()
        if kind == OPEN:
            inner = self.level()
            self.take()
            return inner
        if kind == 3:
            return [(3, 0, struct.unpack("<Q", struct.pack("<d", value))[0])]
        if kind <= 2:
            return [(kind, 0, value % 2**64)]
        bytes_ = value if kind == 4 else value[0]
        self.pool += bytes_
        return [(kind, len(bytes_), len(self.pool) - len(bytes_))]

    def call(self):
        op, entries, arguments = FUNCTIONS[self.take()[1][0]], [], 0
        # past `(`, and past each `,`, up to `)`
        while self.take()[0] != CLOSE:
            entries += self.level()
            arguments += 1
        return entries + [(op, arguments - 1 if op >= 56 else 0, 0)]


def table_of(text, edition=1):
    t = Text(text)
    entries = t.level()
    body = struct.pack("<HHH", 2 * edition, len(entries), len(t.pool)) + b"".join(struct.pack("<HHQ", *e) for e in entries) + t.pool
    return struct.pack("<I", len(body)) + body
