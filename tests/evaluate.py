"""A run of a table on a notice, both well-formed, by document 01's rule of each entry, the values of value_vectors.py and the table's edition (document 02, request 9), and its first undecided entry, by request 7. Run vectors are held to it."""
import struct

import number_vectors as numbers
import value_vectors as values

KINDS = {1: "<i", 2: "<q", 3: "<d"}
# "or 65535 if none did"
NO_ENTRY = 65535
# "Tables of kind 4 shall be second edition ..; kind 2 keeps the first."
EDITIONS = {2: 1, 4: 2}


def fields(notice):
    """The fields' values by name."""
    found, at = {}, 8
    while at < len(notice):
        length, kind, n = struct.unpack_from("<HHB", notice, at)
        end = at + 2 + length
        data = notice[at + 5 + n:end]
        found[notice[at + 5:at + 5 + n]] = (kind, struct.unpack(KINDS[kind], data)[0] if kind in KINDS else data)
        at = end
    return found


def run(table, notice):
    """The verdict, the steps and the first undecided entry."""
    count, pool = struct.unpack_from("<H", table, 6)[0], table[10 + 12 * struct.unpack_from("<H", table, 6)[0]:]
    edition = EDITIONS[struct.unpack_from("<H", table, 4)[0]]
    named, stack, at, steps, undecided = fields(notice), [], 0, 0, NO_ENTRY
    while at < count:
        op, a, b = struct.unpack_from("<HHQ", table, 10 + 12 * at)
        visited, at, steps = at, at + 1, steps + 1
        if op in (44, 45):
            at += a if stack[-1] == (values.FALSE if op == 44 else values.TRUE) else 0
        elif op <= 3:
            stack.append((op, numbers.real_of(b) if op == 3 else b - (b >> 63 << 64)))
        elif op == 4:
            stack.append((values.STRING, pool[b:b + a]))
        elif op == 5:
            stack.append(named.get(pool[b:b + a]))
        else:
            n = a + 1 if op >= 56 else 2 if 16 <= op <= 37 or 41 <= op <= 43 else 1
            stack[-n:] = [values.give(op, stack[-n:], edition)]
        # "the number of the first visited entry that left bottom on the stack, counted from 0"
        if undecided == NO_ENTRY and any(x is None or x == values.BOTTOM for x in stack):
            undecided = visited
    return stack[0], steps, undecided


def plain(s):
    return b"" if s == "-" else bytes.fromhex(s)


def answer_of(table, notice, answer):
    """The whole answer of a run, of which a vector gives number, place, verdict, steps and, from request 7 on, the entry: as given where the run is refused, with "A refused run .. give[s] 65535", else by `run`. None if the vector differs."""
    if answer.startswith("0 0 "):
        whole = "0 0 %s %d %d" % run(table, notice)
    else:
        whole = " ".join(answer.split()[:4] + [str(NO_ENTRY)])
    return whole if answer in (whole, whole.rsplit(" ", 1)[0]) else None
