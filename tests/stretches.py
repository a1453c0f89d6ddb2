"""Document 02, request 13: whether some stretch of a value fits a well-formed pattern of `regex`. A part of a pattern is a function from places of the value to the places that it leads to; places are the bits of an integer, so that no way is tried twice."""


def members(p, at):
    """The set whose members begin at `at`, as (low, high) pairs, and where its `]` ends: "In a set the first unescaped `]` closes; a member, `-` and a member is a range, read from the left; other bytes are plain." """
    xs = []
    while p[at] != ord("]"):
        escaped = p[at] == ord("\\")
        xs.append((p[at + escaped], escaped))
        at += 1 + escaped
    pairs = []
    while xs:
        span = 3 if len(xs) > 2 and xs[1] == (ord("-"), False) else 1
        pairs.append((xs[0][0], xs[span - 1][0]))
        xs = xs[span:]
    return pairs, at + 1


def one_of(p, at, mark):
    """The bytes of the set that begins at `at`, with its mark of the complement, and where its `]` ends."""
    out_of = p[at:at + 1] == mark
    pairs, at = members(p, at + out_of)
    return [b for b in range(256) if any(low <= b <= high for low, high in pairs) != out_of], at


def one(s, fit):
    mask = sum(1 << i for i, b in enumerate(s) if b in fit)
    return lambda places: (places & mask) << 1


def all_of(parts):
    def lead(places):
        for part in parts:
            places = part(places)
        return places
    return lead


def any_of(branches):
    def lead(places):
        found = 0
        for branch in branches:
            found |= branch(places)
        return found
    return lead


def rounds(part, none, more):
    """No round if that is allowed, one, and more, each from the places that none before has reached."""
    def lead(places):
        found = last = part(places)
        while more and last:
            last = part(last) & ~found
            found |= last
        return found | places if none else found
    return lead


def repeated(part, mark):
    """A part with one more mark; marks in a row are one: none if any of them takes none, more rounds if any takes more."""
    lead, none, more = part
    return lead, none or mark != b"+", more or mark != b"?"


def led(branch):
    return all_of([rounds(lead, none, more) if none or more else lead for lead, none, more in branch])


def fits(s, p):
    opened, at, ends = [[[]]], 0, 1 << len(s)
    every = 2 * ends - 1
    while at < len(p):
        c, at = p[at:at + 1], at + 1
        if c in b"*+?":
            opened[-1][-1][-1] = repeated(opened[-1][-1][-1], c)
        elif c == b"(":
            opened.append([[]])
        elif c == b")":
            group = any_of([led(branch) for branch in opened.pop()])
            opened[-1][-1].append((group, False, False))
        elif c == b"|":
            opened[-1].append([])
        elif c not in b"^$":
            at += c == b"\\"
            fit, at = one_of(p, at, b"^") if c == b"[" else (range(256) if c == b"." else p[at - 1:at], at)
            opened[-1][-1].append((one(s, fit), False, False))
    branches = [led(branch) for branch in opened[0]]
    # "`^` only first and `$` only last in the whole pattern, where they anchor their own branch"
    first = [1 if i == 0 and p[:1] == b"^" else every for i in range(len(branches))]
    last = [ends if i == len(branches) - 1 and c == b"$" else every for i in range(len(branches))]
    return any(branch(start) & end for branch, start, end in zip(branches, first, last))
