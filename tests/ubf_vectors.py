#!/usr/bin/env python3
"""ubf_vectors.py [VECTORS]: writes crates/ubf_test/stdin and stdout from 05-read.txt and 05-write.txt in the folder VECTORS, and cases for each sentence of document 02's request 5 and of source document 001.

A vector's answer is its own. An accepted one is asked again with a buffer of the result's length and with one byte less: 15, the last of the refusals; a refused one with none. What is written is read again, and what is read is written in
the fixed form. The answers of the other cases follow from the sentences, which are named beside them; what they leave open is decided in docs/DECISIONS.md."""
import struct
import sys
from pathlib import Path

LARGE = 131072
INT32, INT64, REAL64, STRING, OPAQUE = 1, 2, 3, 4, 5
cases, lines = [], []


def ask(what, data, room, number, place=0, result=b""):
    cases.append((what + struct.pack("<I", room), data))
    lines.append(f"{number} {place} {len(result)} {result.hex() or '-'} kept")


def given(what, data, result):
    """Accepted: with room, with just enough, and with too little; a long one with just enough and a byte less."""
    short = len(data) + len(result) < 3000
    for room in (LARGE, len(result) + 1, len(result)) if short else (len(result),):
        ask(what, data, room, 0, 0, result)
    for room in (len(result) - 1, 0) if short else (len(result) - 1,):
        ask(what, data, room, 15)


def refused(what, data, number, place=0):
    for room in (LARGE, 0) if len(data) < 3000 else (LARGE,):
        ask(what, data, room, number, place)


def outside(*texts):
    for text in texts:
        refused(b"r", text, 22)


def other(*texts):
    for text in texts:
        refused(b"r", text, 23)


def field(name, kind, value):
    return struct.pack("<HHB", 3 + len(name) + len(value), kind, len(name)) + name + value


def notice(fields):
    body = struct.pack("<HH", 1, len(fields)) + b"".join(field(*f) for f in fields)
    return struct.pack("<I", len(body)) + body


def int32(n):
    return INT32, struct.pack("<i", n)


def int64(n):
    return INT64, struct.pack("<q", n)


def string(s):
    return b'"' + s.replace(b"\\", b"\\\\").replace(b'"', b'\\"') + b'"'


def value(kind, v):
    """"no whitespace, no comments, plain decimal, escapes only where needed" """
    if kind == INT32:
        return b"%d" % struct.unpack("<i", v)
    if kind == INT64:
        return b"%d`int64`" % struct.unpack("<q", v)
    return string(v) if kind == STRING else b"%d~%s~" % (len(v), v)


def fixed(fields):
    return b"{" + b"".join(string(name) + value(kind, v) for name, kind, v in fields) + b"}$"


def says(text, *fields):
    """A text that is a notice of these fields, which stand in the order of their names; and its fixed form."""
    made = notice(fields)
    given(b"r", text, made)
    both(fields)


def both(fields):
    """"Writing and then reading gives the same notice." """
    made, text = notice(fields), fixed(fields)
    given(b"w", made, text)
    given(b"r", text, made)


def unhex(s):
    return b"" if s == "-" else bytes.fromhex(s)


def fields_of(made):
    at, fields = 8, []
    while at < len(made):
        size, kind, n = struct.unpack_from("<HHB", made, at)
        fields.append((made[at + 5:at + 5 + n], kind, made[at + 5 + n:at + 2 + size]))
        at += 2 + size
    return fields


def vectors(folder):
    for what, name in ((b"r", "05-read.txt"), (b"w", "05-write.txt")):
        for line in filter(None, (Path(folder) / name).read_text().split("\n")):
            data, room, number, place, result = line.split(" ")
            ask(what, unhex(data), int(room), int(number), int(place), unhex(result))
            if number != "0":
                ask(what, unhex(data), 0, int(number), int(place))
                continue
            data, result = unhex(data), unhex(result)
            ask(what, data, len(result), 0, 0, result)
            ask(what, data, len(result) - 1, 15)
            if what == b"r":
                text = fixed(fields_of(result))
                ask(b"w", result, len(text), 0, 0, text)
            else:
                ask(b"r", result, len(data), 0, 0, data)


def values():
    # "Untagged integers are int32, integers tagged `int64` are int64, strings are strings, counted binaries are opaque."
    says(b'{"Op"42}$', (b"Op", *int32(42)))
    says(b'{"a"-7`int64`}$', (b"a", *int64(-7)))
    says(b'{"a""b c"}$', (b"a", STRING, b"b c"))
    says(b'{"a"3~b c~}$', (b"a", OPAQUE, b"b c"))
    says(b"{}$")
    # "integers that do not fit"
    for n, fits4, fits8 in ((2**31 - 1, 1, 1), (2**31, 0, 1), (-2**31, 1, 1), (-2**31 - 1, 0, 1), (2**32 + 1, 0, 1), (2**63 - 1, 0, 1), (2**63, 0, 0), (-2**63, 0, 1), (-2**63 - 1, 0, 0), (2**64 - 1, 0, 0), (2**64, 0, 0),
                           (2**64 + 1, 0, 0), (-2**64 - 1, 0, 0), (10**19, 0, 0), (10**20 + 5, 0, 0), (10**300, 0, 0), (-10**300, 0, 0)):
        for text, fits, make in ((b'{"a"%d}$' % n, fits4, int32), (b'{"a"%d`int64`}$' % n, fits8, int64)):
            if fits:
                says(text, (b"a", *make(n)))
            else:
                other(text)
    # "integer ::= '-'?[0-9]+": zeros before it, and a sign before 0
    for text, n in ((b"007", 7), (b"-007", -7), (b"-0", 0), (b"0" * 400 + b"5", 5), (b"-" + b"0" * 400 + b"2147483648", -2**31)):
        says(b'{"a"%s}$' % text, (b"a", *int32(n)))
        says(b'{"a"%s`int64`}$' % text, (b"a", *int64(n)))
    outside(b'{"a"-}$', b'{"a"--1}$', b'{"a"- 1}$', b'{"a"-%c%1}$')
    other(b'{"a"+1}$', b'{"a"+-1}$', b'{"a"1.5}$', b'{"a"1-2}$', b'{"a"1e5}$')
    # "string ::= '"' ([^\"] | '\\' | '\"')* '"'", of any bytes
    every = bytes(b for b in range(256) if b not in b'"\\')
    says(b'{"a""' + every + b'"}$', (b"a", STRING, every))
    says(b'{"a""\\"\\\\\\\\"}$', (b"a", STRING, b'"\\\\'))
    says(b'{"a"256~' + bytes(range(256)) + b"~}$", (b"a", OPAQUE, bytes(range(256))))


def counts():
    # "Pop an integer value n .. Read n bytes .. The next byte must be the character ~"; "a binary with no integer just before it or with a negative or wrong count"
    for inner in (b"", b"~", b"~~", b"$", b"}$", b'"', b"%", b"\\", b"abcdefghijkl"):
        made = (b"a", OPAQUE, inner)
        for count in (b"%d" % len(inner), b"000%d" % len(inner), b"%d \t\n\r" % len(inner), b"%d%%c%%" % len(inner), b"%d %%$%% " % len(inner)):
            says(b'{"a"' + count + b"~" + inner + b"~}$", made)
    for count in (b"-0", b"-000", b"0", b"00"):
        says(b'{"a"' + count + b"~~}$", (b"a", OPAQUE, b""))
    for count in (b"", b"-", b"-2", b"1", b"3", b"4", b"12", b"2-", b"258", b"65538", b"4294967298", b"18446744073709551618", b"2" * 300, b"1 2,", b"2`int64`", b"2``", b"2a", b"2>a", b"2&", b"2#", b"2{}", b'2""', b"2''", b"{2}", b"2}{", b"2 1~a~"):
        outside(b'{"a"' + count + b"~ab~}$")
    outside(b'{"a"-1~a~}$', b'{"a"-1~~}$', b'{"a"1~~}$', b'{"a"0~a~}$', b'{"a"-1~', b'{"a"0~')
    other(b'{"a"1 2~ab~}$', b'{"a"2~ab~`int64`}$', b'{"a"2~ab~`x`}$', b"2~ab~$", b"{2~ab~1}$", b'{"a"2~ab~2~ab~}$', b'{"a"2~ab~1}$')
    outside(b'{"a"2~ab~~}$', b'{"a"2~ab', b'{"a"2~ab~', b'{"a"2~', b'{"a"2~abc', b"~$", b"~~$", b"2~ab$", b'"2"~ab~$', b"{}~~$", b"2~ab~~ab~$")


def white():
    # "White space is any sequence of blank, tab, newline or carriage-return characters, and can appear before or after any instance of item"; "comments count as whitespace"
    parts = [b"{", b'"a"', b"1", b'"b"', b"2", b"`int64`", b'"c"', b'"s"', b'"d"', b"2", b"~~$~", b"}", b"$"]
    fields = (b"a", *int32(1)), (b"b", *int64(2)), (b"c", STRING, b"s"), (b"d", OPAQUE, b"~$")
    for blank in (b"", b" ", b"\t", b"\n", b"\r", b" \r\n\t", b"%%", b"%c%", b"%\\%\\\\%", b"% $ } { \" ' ` ~ 1 %", b" %a% %b%%c% ", b"%\x00\xff%"):
        says(blank + blank.join(parts), *fields)
        for at in range(1, len(parts)):
            given(b"r", b"".join(parts[:at]) + blank + b"".join(parts[at:]), notice(fields))
    for blank in (b"\x0b", b"\x0c", b"\x00", b"\xa0", b"\x85"):
        other(b"{" + blank + b"}$", blank + b"{}$")
    outside(b"{}%$", b"{}%\\%$", b"{}%\\a%$", b"%{}$", b"{}$%c%")
    says(b" " * 70000 + b'{"a"1}' + b"%" + b"c" * 30000 + b"%$", (b"a", *int32(1)))


def ends():
    # "The first `$` outside strings, atoms, binaries, tags and comments ends the text .. bytes after it .. break the syntax"
    says(b'{%$%"$""$""a"1~$~}$', (b"$", STRING, b"$"), (b"a", OPAQUE, b"$"))
    other(b"'$'$", b"{'$'}$", b"`$`$", b'{"a"1`$`}$')
    for after in (b" ", b"\n", b"$", b"%%", b"{}$", b"\x00", b"a"):
        outside(b"{}$" + after, b'{"a"1}$' + after, b"$" + after)
    outside(b"", b" ", b"{", b"{}", b"{$", b"{$}", b"{$}$", b"{{}$", b"{}}$", b"}$", b"}{$", b'{"a"1', b'{"a"1}', b'{"a"$1}$', b'{"a"1$}$')
    whole = b' {"a\\"" 12 `int64` %c% "b" "c\\\\" "d" 3 ~ab$~ }$'
    for end in range(len(whole)):
        outside(whole[:end])


def bytes_outside():
    # each byte alone behind a tuple: whitespace, the beginning of another value, a register ("[^-%"~'`{}#& \n\r\t,0-9]", and not `$`), or nothing that the syntax has
    for b in range(256):
        text = b"{}" + bytes([b]) + b"$"
        if b in b" \n\r\t":
            given(b"r", text, notice([]))
        elif b in b"-%\"~'`{},$":
            outside(text)
        else:
            other(text)
        # "store ::= '>' reg"; a `>` alone is a register too
        stored = b"{}>" + bytes([b]) + b"$"
        if b in b"-%\"~'`{},$":
            outside(stored)
        else:
            other(stored)
    other(b"{}>$", b">$", b"{>}$", b"{}>a>b$", b'{"a"1>a}$', b'{"a">a}$', b'{"a"a}$', b'{a 1}$', b"{}&$", b"&$", b"{}a$")


def escapes():
    # "'\\' | '\"'": a backslash stands before itself or the delimiter, and before nothing else
    for b in range(256):
        inner = b"x\\" + bytes([b]) + b"y"
        for quote, ok in ((b'"', 0), (b"'", 23), (b"`", 23), (b"%", 0)):
            text = {b'"': b'{"a""%s"}$', b"'": b"'%s'{}$", b"`": b"{}`%s`$", b"%": b"{%%%s%%}$"}[quote] % inner
            if bytes([b]) not in (quote, b"\\"):
                outside(text)
            elif ok:
                other(text)
            elif quote == b'"':
                given(b"r", text, notice([(b"a", STRING, b"x" + bytes([b]) + b"y")]))
            else:
                given(b"r", text, notice([]))
    says(b'{"\\"\\\\"1}$', (b'"\\', *int32(1)))
    outside(b'{"\\a"1}$', b'{"a""\\', b"'\\", b'{"a""b\\"}$', b'{"a""b\\')


def shapes():
    # "23 for anything but a single tuple (none or several too)"
    other(b"$", b" $", b"%c%$", b"{}{}$", b'{"a"1}{"b"2}$', b"{} {} {}$", b"1$", b'"a"$', b"'a'$", b"#$", b"1~a~$", b'{}"a"$', b"1{}$", b"{}1$")
    # "registers, atoms, lists"
    other(b"{'a'1}$", b"{\"a\"'b'}$", b"{\"a\"1'b'}$", b"'a'{}$", b"{}''$", b'{"a"#}$', b'{"a"#1&}$', b'{"a"#1&2&}$', b"#{}&$", b"{#}$", b'{"a"1&}$', b"{&}$", b'{"a"#"b"1}$')
    # "any tag but one `int64` on an integer"; in the syntax "a register, `&` or tag may follow any value or none"
    for tag in (b"", b"int32", b"int6", b"int640", b"int64 ", b" int64", b"INT64", b"int\n64", b"\\`", b"\\\\int64"):
        other(b'{"a"1`%s`}$' % tag)
    other(b'{"a"1`int64``int64`}$', b'{"a"1`int64` `x`}$', b'{"a"1`x``int64`}$', b'{"a""b"`int64`}$', b'{"a"`int64`1}$', b'{"a"`int64`"b"1}$', b"{}`int64`$", b"`int64`{}$", b"`a`$", b"{`a`}$", b'{`int64`"a"1}$', b'{"a"1"b"`int64`2}$')
    # "nested tuples"
    other(b"{{}}$", b'{"a"{}}$', b'{{}"a"1}$', b'{"a"{"b"1}}$', b"{" * 300 + b"}" * 300 + b"$")
    outside(b"{" * 301 + b"}" * 300 + b"$", b"{" * 300 + b"}" * 301 + b"$")
    # "a name that is no string or has no value"
    other(b'{"a"}$', b'{"a"1"b"}$', b"{1 1}$", b"{1~a~1}$", b'{"a"1 1}$', b'{"a"1"b"2 3}$', b"{1}$")
    # "22 for text outside the syntax .., then 23"
    outside(b"{'a',}$", b"{a}{$", b"#,$", b'{"a"2147483648,}$', b"'a'~~$", b"`a`-$", b"{{}}}$", b">,$", b'{"a"1`x`\x00"}$')


def fields():
    # "over all fields 13, 16, 14, 15 in that order"; 13: "name length 1..64; name (bytes 32..126)"
    for name in (b" ", b"~", b"n" * 64, b'"' * 64, b"\\" * 64, bytes(range(32, 96)), bytes(range(63, 127))):
        both([(name, *int32(1))])
    for name in (b"", b"n" * 65, b'"' * 65, b"n" * 2000, b"\x1f", b"\x7f", b"\x80", b"\xff", b"\x00", b"\n", b"a\x1f", b"\x7f" + b"n" * 63, b"n" * 63 + b"\x1f", b'"\x7f', b"nnnn\x1fnnn", b"nnnnnnn\xc3\xa9"):
        refused(b"r", b"{" + string(name) + b"1}$", 13)
        refused(b"r", b'{"a"1' + string(name) + b'"v""b"2}$', 13)
    refused(b"r", b"{" + string(b"n" * 65600) + b"1}$", 13)
    # 16: strings and opaque values of over 1,024 bytes
    for byte in (b"v", b'"', b"\\", b"~", b"\x00"):
        both([(b"a", STRING, byte * 1024), (b"b", OPAQUE, byte * 1024)])
        for size in (1025, 1026, 2048, 20000):
            refused(b"r", b'{"a"' + string(byte * size) + b"}$", 16)
            refused(b"r", b'{"a"%d~' % size + byte * size + b"~}$", 16)
    # 14, also where a name has escapes, and whatever stands between
    for again in (b'{"a"1"a"1}$', b'{"a"1"b"2"a"3}$', b'{"b"1"a""x""b"2}$', b'{"\\""1"a"1"\\""2}$', b'{"\\\\\\""1"\\\\"1"\\\\\\""2}$', b'{"' + b"n" * 64 + b'"1"' + b"n" * 63 + b'"1"' + b"n" * 64 + b'"2}$'):
        refused(b"r", again, 14)
    # 15: "65th field, over 16,384 bytes, or buffer too short"
    names = [b"%02d" % i for i in range(65)]
    both([(name, *int32(i)) for i, name in enumerate(names[:64])])
    many = b"".join(string(name) + b"1" for name in names)
    refused(b"r", b"{" + many + b"}$", 15)
    refused(b"r", b"{" + many + b'"64"1}$', 14)
    refused(b"r", b"{" + many + b'"00"1}$', 14)
    refused(b"r", b"{" + many + many + b"}$", 14)
    refused(b"r", b"{" + many + b'"\\""1"x"1"\\""1}$', 14)
    refused(b"r", b"{" + many + b'"x""' + b"v" * 1025 + b'"}$', 16)
    refused(b"r", b"{" + many + b'""1}$', 13)
    other(b"{" + many + b'"x"}$')
    outside(b"{" + many + b'"x"}')
    large = [(b"v%02d" % i, STRING, b"v" * 1015) for i in range(15)]
    full = large + [(b"v15", OPAQUE, b"w" * 1023)]
    assert len(notice(full)) == 16384
    both(full)
    both(large + [(b"v15", OPAQUE, b"w" * 1022)])
    refused(b"r", fixed(large + [(b"v15", OPAQUE, b"w" * 1024)]), 15)
    refused(b"r", fixed(full + [(b"a", *int32(1))]), 15)
    refused(b"r", fixed([(b"%02d" % i, STRING, b"v" * 1024) for i in range(64)]), 15)
    # 13 before 16 before 14 before 15
    long = string(b"v" * 1025)
    order = ((b'""1', 13), (b'"x"' + long, 16), (b'"y"1"y"2', 14), (many, 15))
    for i, (first, number) in enumerate(order):
        for then, _ in order[i + 1:]:
            refused(b"r", b"{" + first + then + b"}$", number)
            refused(b"r", b"{" + then + first + b"}$", number)
    # "23 .. then over all fields 13"
    other(b'{""1"a"}$', b'{"a"1"a"1 1}$', b'{"x"' + long + b"'b'}$", b'{""1"a"2147483648}$')


def names():
    # "with fields put in name order": "Names rise strictly by bytes, a prefix before the longer."
    rising = [b" ", b'"', b'"\\', b"A", b"AB", b"B", b"\\", b'\\"', b"\\\\", b"a", b"aa", b"ab", b"b", b"n" * 63, b"n" * 64, b"~"]
    assert rising == sorted(rising)
    made = [(name, *int32(i)) for i, name in enumerate(rising)]
    both(made)
    for turn in range(len(made)):
        for order in (made[turn:] + made[:turn], (made[turn:] + made[:turn])[::-1], made[turn::2] + made[:turn] + made[turn + 1::2]):
            given(b"r", fixed(order), notice(made))
    many = [(b"%02d" % i, *int32(i)) for i in range(64)]
    for step in (1, 3, 5, 27, 63):
        given(b"r", fixed([many[i * step % 64] for i in range(64)]), notice(many))


def writing():
    # "when writing: 11, then 23 for a real64 field, then 15 for room"
    real = (b"r", REAL64, bytes(8))
    for fs in ([real], [(b"a", *int32(1)), real], [real, (b"s", *int32(1))], [(b"a", *int64(1)), real, (b"s", STRING, b"x")]):
        refused(b"w", notice(fs), 23)
    right = notice([(b"a", *int32(1)), (b"b", STRING, b"x")])
    for end in range(8):
        refused(b"w", right[:end], 11, 0)
    refused(b"w", right[:-1], 11, 0)
    refused(b"w", right + b"\x00", 11, 0)
    # places: "the faulty field's start, the first spare byte, or 0 for the header"
    refused(b"w", notice([(b"a", *int32(1)), (b"a", *int32(1))]), 11, 18)
    refused(b"w", notice([(b"b", *int32(1)), (b"a", REAL64, bytes(8))]), 11, 18)
    refused(b"w", notice([(b"a", 6, bytes(4))]), 11, 8)
    refused(b"w", notice([(b"a", INT32, bytes(8))]), 11, 8)
    spare = right + b"\x00"
    refused(b"w", struct.pack("<I", len(spare) - 4) + spare[4:], 11, len(right))
    # "escapes only where needed": neither in binaries nor before other bytes
    both([(b"'`%{}$~\"\\", STRING, b"'`%{}$~\"\\\x00\xff\n"), (b"a", OPAQUE, b'"\\~'), (b"b", *int32(-1)), (b"c", *int32(0)), (b"d", *int64(0)), (b"e", *int64(-10)), (b"f", *int32(-2**31)), (b"g", *int64(-2**63)), (b"h", *int64(2**63 - 1)), (b"i", *int32(2**31 - 1))])
    for n in [10**k for k in range(10)] + [10**k - 1 for k in range(1, 10)]:
        both([(b"a", *int32(n)), (b"b", *int32(-n))])
    for n in [10**k for k in range(19)] + [10**k - 1 for k in range(1, 19)]:
        both([(b"a", *int64(n)), (b"b", *int64(-n))])
    for size in (0, 1, 9, 10, 99, 100, 999, 1000, 1024):
        both([(b"a", OPAQUE, b"~" * size), (b"b", STRING, b'"' * size)])


def main(folder=Path(__file__).resolve().with_name("vectors")):
    here = Path(__file__).resolve().parent.parent / "crates" / "ubf_test"
    vectors(folder)
    for more in (values, counts, white, ends, bytes_outside, escapes, shapes, fields, names, writing):
        more()
    (here / "stdin").write_bytes(b"".join(struct.pack("<I", len(s)) + s for case in cases for s in case))
    (here / "stdout").write_text("".join(a + "\n" for a in lines))


main(*sys.argv[1:])
