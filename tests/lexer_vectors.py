#!/usr/bin/env python3
"""lexer_vectors.py [VECTORS]: writes crates/lexer_test/stdin and stdout from the texts of VECTORS/translate.txt, document 01's lexical examples, and texts at the limits that it names.

Number and place of a refusal 1, 3 or 10 are the vectors'. The tokens are found here by regular expressions, written from document 01; what the vectors' tables hold is compared with them."""
import re
import struct
import sys
from pathlib import Path

DELIMITER = rb"[ \t\n\r(),]"
NAME = re.compile(rb"(?:\\[ -~]|[!#-&(-Z^-~])+", re.S)
NAME_RUN = re.compile(rb"(?:\\.|(?!" + DELIMITER + rb")[^\\])*\\?", re.S)
NUMBER_RUN = re.compile(rb"(?:(?!" + DELIMITER + rb").)*", re.S)
INTEGER = re.compile(rb"(-?)(?:0x([0-9a-fA-F]+)|(0[0-7]*)|([1-9][0-9]*))([lL]?)")
REAL = re.compile(rb"(-?)([0-9]+)\.([0-9]+)(?:[eE]([+-]?)([0-9]+))?")
STRING = re.compile(rb"(['\"])((?:\\.|(?!\1)[^\\])*)\1", re.S)
SYMBOLS = {
    b">>>": 18, b"<<": 16, b">>": 17, b"==": 32, b"!=": 33, b"<=": 35, b">=": 37, b"&&": 41, b"^^": 42, b"||": 43, b"~": 8, b"&": 19, b"^": 20, b"|": 21,
    b"*": 22, b"/": 23, b"%": 24, b"+": 25, b"-": 26, b"<": 34, b">": 36, b"!": 40, b"(": 9, b")": 10, b",": 11,
}


def unescaped(run):
    return re.sub(rb"\\(.)", rb"\1", run, flags=re.S)


class Refused(Exception):
    pass


def name_at(text, at):
    run = NAME_RUN.match(text, at).group()
    if not NAME.fullmatch(run):
        raise Refused(1, at)
    bytes_ = unescaped(run)
    if len(bytes_) > 64:
        raise Refused(3, at)
    return 5, at, (bytes_, b"\\" in run), len(run)


def number_at(text, at):
    run = NUMBER_RUN.match(text, at).group()
    found = INTEGER.fullmatch(run)
    if found:
        sign, hexadecimal, octal, decimal, long = found.groups()
        value = int(hexadecimal, 16) if hexadecimal else int(octal, 8) if octal else int(decimal)
        value = -value if sign else value
        half = 2**63 if long else 2**31
        if not -half <= value < half:
            raise Refused(3, at)
        return 2 if long else 1, at, value, len(run)
    found = REAL.fullmatch(run)
    if not found:
        raise Refused(1, at)
    sign, whole, fraction, down, digits = found.groups()
    d = int(whole + fraction)
    e = int((down or b"") + (digits or b"0")) - len(fraction)
    if len((whole + fraction).lstrip(b"0")) > 15 or not -22 <= e <= 22 or len(digits or b"") > 3:
        raise Refused(3, at)
    value = float(d) * float(f"1e{e}") if e >= 0 else float(d) / float(f"1e{-e}")
    return 3, at, -value if sign else value, len(run)


def token_at(text, at):
    if re.match(rb"[A-Za-z_\\]", text[at:]):
        return name_at(text, at)
    if re.match(rb"-?[0-9]", text[at:]):
        return number_at(text, at)
    if text[at] in b"'\"":
        found = STRING.match(text, at)
        if not found:
            raise Refused(1, at)
        return 4, at, unescaped(found.group(2)), len(found.group())
    for n in (3, 2, 1):
        kind = SYMBOLS.get(text[at:at + n])
        if kind:
            return kind, at, None, n
    raise Refused(1, at)


def lexed(text):
    """Number, place or count, and the tokens (kind, start, value)."""
    if len(text) > 4096:
        return 10, 0, []
    tokens, at = [], 0
    while at < len(text):
        if text[at] in b" \t\n\r":
            at += 1
            continue
        try:
            kind, start, value, length = token_at(text, at)
        except Refused as bad:
            return *bad.args, tokens
        tokens.append((kind, start, value))
        at += length
    return 0, len(tokens), tokens


def hexed(bytes_):
    return bytes_.hex() or "-"


def printed(kind, start, value):
    if kind in (1, 2):
        return f" {kind} {start} {struct.pack('>q', value).hex()}"
    if kind == 3:
        return f" {kind} {start} {struct.pack('>d', value).hex()}"
    if kind == 4:
        return f" {kind} {start} {hexed(value)}"
    if kind == 5:
        bytes_, escaped = value
        return f" {kind} {start} {hexed(bytes_)} {int(escaped)} {int(bytes_ == b'fold-case' and not escaped)}"
    return f" {kind} {start}"


def operands(tokens):
    """Literals and names that no `(` follows, in text order."""
    for (kind, _, value), after in zip(tokens, [t[0] for t in tokens[1:]] + [0]):
        if kind in (1, 2):
            yield kind, value % 2**64
        elif kind == 3:
            yield kind, struct.unpack("<Q", struct.pack("<d", value))[0]
        elif kind == 4:
            yield kind, value
        elif kind == 5 and after != 9:
            yield kind, value[0]


def loads(table):
    """The operands of a table: its entries with ops 1..5."""
    n, p = struct.unpack_from("<HH", table, 6)
    pool = table[10 + 12 * n:]
    for op, a, b in (struct.unpack_from("<HHQ", table, 10 + 12 * i) for i in range(n)):
        if op <= 5:
            yield op, b if op < 4 else pool[b:b + a]


def own():
    """Document 01's lexical examples and texts at its limits, with number and place, or 0 and the count of tokens."""
    yield b"09 == 9", 1, 0
    yield b"0x80000000 == 0", 3, 0
    yield b"1.0e23", 0, 1
    yield b"1.0e24", 3, 0
    yield b"123456789012345.6", 3, 0
    yield b"pipe=>20", 0, 1
    yield b"a==b", 0, 1
    yield b"a -5", 0, 2
    yield b"a - 5", 0, 3
    yield b"--5", 0, 2
    yield b"", 0, 0
    yield b" \t\n\r", 0, 0
    yield b" " * 4096, 0, 0
    yield b" " * 4097, 10, 0
    yield b"(" * 4096, 0, 4096
    yield b"(" * 4095 + b"[", 1, 4095
    yield b"a" * 4096, 3, 0
    # "After removing escapes 1..64 bytes."
    yield b"n" * 64, 0, 1
    yield b"n" * 65, 3, 0
    yield b"\\n" * 64, 0, 1
    yield b"\\n" * 65, 3, 0
    yield b"n" * 69 + b"[", 1, 0
    # "A backslash takes the next byte, which must be 32..126."
    yield b"a\\ b\\(c\\)d\\,e", 0, 1
    yield b"fold\\-case fold-case", 0, 2
    yield b"\\\\", 0, 1
    for b in (31, 127, 128, 255, 9, 10):
        yield b"\\" + bytes([b]), 1, 0
        yield b"n" + bytes([b]), *((0, 1) if b in (9, 10) else (1, 0))
    for b in b"[]'\"":
        yield b"n" + bytes([b]), 1, 0
        yield b"n\\" + bytes([b]), 0, 1
    yield b"\\", 1, 0
    yield b"a\\", 1, 0
    # integers
    for text, right in (
        (b"0", 0), (b"-0", 0), (b"00", 0), (b"07", 0), (b"08", 1), (b"0x", 1), (b"0X1", 1), (b"0xfFl", 0), (b"0xg", 1), (b"1l1", 1), (b"1ll", 1), (b"12a", 1), (b"1=", 1),
        (b"99999999999x", 1), (b"2147483647", 0), (b"2147483648", 3), (b"-2147483648", 0), (b"-2147483649", 3), (b"0x7fffffff", 0), (b"-0x80000000", 0), (b"017777777777", 0), (b"020000000000", 3),
        (b"9223372036854775807L", 0), (b"9223372036854775808L", 3), (b"-9223372036854775808L", 0), (b"-9223372036854775809L", 3), (b"18446744073709551616L", 3), (b"0x10000000000000000l", 3),
        (b"0" * 100 + b"1", 0), (b"0" * 100 + b"8", 1), (b"1" + b"0" * 100, 3), (b"1" + b"0" * 100 + b"x", 1), (b"5\\ 6", 1),
        # reals
        (b"1.", 1), (b".5", 1), (b"1e5", 1), (b"1.0e", 1), (b"1.0e+", 1), (b"1.0L", 1), (b"1.0.0", 1), (b"1.0e1x", 1), (b"08.5", 0), (b"00.5", 0), (b"-0.0", 0), (b"0x1.0", 1), (b"1.5E-3", 0), (b"1.5e+3", 0),
        (b"1.0e999", 3), (b"1.0e1000", 3), (b"1.0e0001", 3), (b"0.0e24", 3), (b"0.0e23", 0), (b"1.0e-21", 0), (b"1.0e-22", 3), (b"12345678901234.5", 0), (b"000000123456789012345.0", 3),
        (b"00000012345678901234.5", 0), (b"0." + b"0" * 21 + b"1", 0), (b"0." + b"0" * 22 + b"1", 3), (b"0." + b"0" * 22 + b"1e1", 0), (b"123456789012345.0e0x", 1),
    ):
        yield text, *((0, 1) if right == 0 else (right, 0))
    yield b"1(", 0, 2
    yield b"1.5,", 0, 2
    # strings
    for text, right in ((b'""', 0), (b"''", 0), (b"'\"'", 0), (b'"\\""', 0), (b'"\\\\"', 0), (b'"\\', 1), (b'"a', 1), (b'"a\\"', 1), (b'"a\'', 1), (bytes([34, *range(33), 34]), 0), (b"'\\\n\\\xff'", 0)):
        yield text, *((0, 1) if right == 0 else (1, 0))
    yield b'"a"=="b"', 0, 3
    yield b'"a"b', 0, 2
    # operators
    yield b">>>>=>!=<<<=&&&^^^|||~!-+*/%,()", 0, 22
    yield b">>>>>=", 1, 5
    for b in b"=#$.:;?@[]`{}":
        yield b"a " + bytes([b]), 1, 2
    yield b"a\x00", 1, 0
    yield b"a \x00", 1, 2
    yield b"a \x80", 1, 2


def vectors(path):
    for line in Path(path).read_text().split("\n"):
        if line:
            text, _, number, place, table = line.split()
            yield bytes.fromhex(text) if text != "-" else b"", int(number), int(place), table


def main(folder=Path(__file__).resolve().with_name("vectors")):
    here = Path(__file__).resolve().parent.parent / "crates" / "lexer_test"
    cases = {}
    for text, number, place in own():
        found = lexed(text)
        assert found[:2] == (number, place), (text, found, number, place)
        cases[text] = found
    for text, number, place, table in vectors(Path(folder) / "translate.txt"):
        found = lexed(text)
        if number in (1, 3, 10):
            assert found[:2] == (number, place), (text, found, number, place)
        else:
            assert found[0] == 0, (text, found)
        if number == 0:
            assert list(operands(found[2])) == list(loads(bytes.fromhex(table))), (text, table)
        cases[text] = found
    (here / "stdin").write_bytes(b"".join(struct.pack("<I", len(t)) + t for t in cases))
    (here / "stdout").write_text("".join(f"{n} {p}" + "".join(printed(*t) for t in tokens) + "\n" for n, p, tokens in cases.values()))


if __name__ == "__main__":
    main(*sys.argv[1:])
