//! UBF(A) texts: right ones in many spellings, such texts with one thing done to them, and rows of
//! tokens. Each comes with the name of what was done, so that its refusals can be counted.

use crate::notices::Field;
use crate::random::Random;
use crate::words;

/// A text, and what was done to make it.
pub struct Text {
    pub bytes: Vec<u8>,
    pub done: String,
}

/// A part of a text between which whitespace and comments may stand.
#[derive(Clone, PartialEq)]
enum Piece {
    Open,
    Close,
    End,
    Name(Vec<u8>),
    String(Vec<u8>),
    Integer(Vec<u8>),
    Tag(Vec<u8>),
    Count(Vec<u8>),
    /// The bytes of a binary between their `~`.
    Binary(Vec<u8>),
    /// Bytes as they stand.
    Plain(Vec<u8>),
}

/// The body with a backslash before the delimiter and the backslash.
fn quoted(delimiter: u8, body: &[u8]) -> Vec<u8> {
    let mut text = vec![delimiter];
    for byte in body {
        if *byte == delimiter || *byte == b'\\' {
            text.push(b'\\');
        }
        text.push(*byte);
    }
    text.push(delimiter);
    text
}

impl Piece {
    fn bytes(&self) -> Vec<u8> {
        match self {
            Piece::Open => b"{".to_vec(),
            Piece::Close => b"}".to_vec(),
            Piece::End => b"$".to_vec(),
            Piece::Name(body) | Piece::String(body) => quoted(b'"', body),
            Piece::Tag(body) => quoted(b'`', body),
            Piece::Binary(body) => [b"~", &body[..], b"~"].concat(),
            Piece::Integer(bytes) | Piece::Count(bytes) | Piece::Plain(bytes) => bytes.clone(),
        }
    }
}

fn plain(bytes: &[u8]) -> Piece {
    Piece::Plain(bytes.to_vec())
}

fn int64_tag() -> Piece {
    Piece::Tag(b"int64".to_vec())
}

/// Whitespace and comments, most often none.
fn gap(random: &mut Random) -> Vec<u8> {
    let comments: [&[u8]; 8] = [
        b"%%",
        b"%c%",
        b"%\\%%",
        b"%\\\\%",
        b"% $ { \" ~ ' ` %",
        b"%\0\xff\n%",
        b"%1%",
        b"% %%\\\\\\%%",
    ];
    match random.below(8) {
        0 => vec![random.pick(b" \t\n\r")],
        1 => random.pick(&comments).to_vec(),
        2 if random.once_in(3) => [random.pick(&comments), b" ", random.pick(&comments)].concat(),
        3 if random.once_in(6) => vec![random.pick(b" \t\n\r"); random.between(2, 70)],
        _ => Vec::new(),
    }
}

/// The pieces one after the other, with gaps before each but the first, or with none at all.
fn joined(random: &mut Random, pieces: &[Piece]) -> Vec<u8> {
    let tight = random.once_in(4);
    let mut text = Vec::new();
    for piece in pieces {
        if !tight {
            text.extend(gap(random));
        }
        text.extend(piece.bytes());
    }
    text
}

/// An integer as digits: now and then with zeros before it, and 0 with a sign.
fn digits(random: &mut Random, value: i128) -> Vec<u8> {
    let zeros = match random.below(16) {
        0 => random.between(1, 4),
        1 => random.pick(&[18, 19, 20, 40, 300]),
        _ => 0,
    };
    let sign = value < 0 || (value == 0 && random.once_in(4));
    let mut text = if sign { vec![b'-'] } else { Vec::new() };
    text.extend(vec![b'0'; zeros]);
    text.extend(value.unsigned_abs().to_string().bytes());
    text
}

/// The pieces of a value.
fn value_pieces(random: &mut Random, field: &Field) -> Vec<Piece> {
    let number = |width: usize| {
        let mut word = [if field.value[width - 1] > 127 { 255 } else { 0 }; 16];
        word[..width].copy_from_slice(&field.value);
        i128::from_le_bytes(word)
    };
    match field.kind {
        1 => vec![Piece::Integer(digits(random, number(4)))],
        2 => vec![Piece::Integer(digits(random, number(8))), int64_tag()],
        4 => vec![Piece::String(field.value.clone())],
        _ => {
            let count = digits(random, field.value.len() as i128);
            vec![Piece::Count(count), Piece::Binary(field.value.clone())]
        }
    }
}

/// The pieces of a right text of the fields.
fn pieces(random: &mut Random, fields: &[Field]) -> Vec<Piece> {
    let mut pieces = vec![Piece::Open];
    for field in fields {
        pieces.push(Piece::Name(field.name.clone()));
        pieces.extend(value_pieces(random, field));
    }
    pieces.extend([Piece::Close, Piece::End]);
    pieces
}

/// Bytes that mean something elsewhere in a text.
const SIGNS: &[u8] = b"$~\"\\'`%{}#&>-, \n0a\0\xff";

fn body(random: &mut Random) -> Vec<u8> {
    match random.below(4) {
        0 => words::text(random),
        1 => random.bytes(3),
        _ => {
            let count = random.below(8);
            (0..count).map(|_| random.pick(SIGNS)).collect()
        }
    }
}

/// A name that keeps the rules.
fn name(random: &mut Random) -> Vec<u8> {
    const NAMES: [&[u8]; 16] = [
        b"a", b"b", b"ab", b"abc", b"Op", b"Cab", b"\"", b"\\", b"\\\"", b"a\"", b"a\\", b" ",
        b"~", b"$", b"{", b"a b",
    ];
    match random.below(8) {
        0 => vec![random.pick(b"n\"~ "); random.pick(&[63, 64])],
        1 => {
            let mut name = vec![random.pick(b"n\\"); 63];
            name.push(random.pick(b"ab"));
            name
        }
        2 | 3 => format!("f{}", random.below(40)).into_bytes(),
        _ => random.pick(&NAMES).to_vec(),
    }
}

/// A value of one of the four kinds.
fn field(random: &mut Random, name: Vec<u8>) -> Field {
    let kind = random.pick(&[1, 2, 4, 5]);
    let value = match kind {
        1 => words::short_whole(random).to_le_bytes().to_vec(),
        2 => words::whole(random).to_le_bytes().to_vec(),
        _ if random.once_in(30) => vec![random.pick(b"v\"\\~"); random.pick(&[1023, 1024, 1024])],
        _ => body(random),
    };
    Field { name, kind, value }
}

/// Fields with different names, in any order.
fn fields(random: &mut Random) -> Vec<Field> {
    let count = random.pick(&[0, 1, 1, 2, 2, 3, 3, 4, 6, 8, 12]);
    let mut names: Vec<Vec<u8>> = Vec::new();
    for _ in 0..count {
        let name = name(random);
        if !names.contains(&name) {
            names.push(name);
        }
    }
    if random.once_in(3) {
        names.sort();
    }
    names.into_iter().map(|name| field(random, name)).collect()
}

/// So many fields of short values, in any order.
fn many(random: &mut Random, count: usize) -> Vec<Field> {
    let mut fields: Vec<Field> = (0..count)
        .map(|at| Field {
            name: format!("{}{at}", random.pick(&["n", "\"", "\\"])).into_bytes(),
            kind: 1,
            value: (at as i32).to_le_bytes().to_vec(),
        })
        .collect();
    random.shuffle(&mut fields);
    fields
}

/// Fields whose notice has that size: 15 of 1,032 bytes and one that fills it up, in any order.
fn heavy(random: &mut Random, size: usize) -> Vec<Field> {
    let mut fields: Vec<Field> = (10..26)
        .map(|at| {
            let size = if at < 25 { 1032 } else { size - 8 - 15 * 1032 };
            Field {
                name: format!("v{at}").into_bytes(),
                kind: random.pick(&[4, 5]),
                value: vec![random.pick(b"v\"\\~"); size - 8],
            }
        })
        .collect();
    random.shuffle(&mut fields);
    fields
}

/// What is done to the fields before they are spelled, so that 13, 16, 14 or 15 may be met; now and then
/// two things are wrong.
fn with_field_faults(random: &mut Random) -> Text {
    let mut fields = match random.below(6) {
        0 | 1 => {
            let count = random.pick(&[63, 64, 64, 65, 65, 66, 130]);
            many(random, count)
        }
        2 => {
            let size = random.pick(&[16383, 16384, 16385, 16400]);
            heavy(random, size)
        }
        _ => fields(random),
    };
    for _ in 0..random.pick(&[0, 1, 1, 1, 2]) {
        let at = random.below(fields.len() + 1);
        let mut other = field(random, b"other".to_vec());
        match random.below(4) {
            0 => other.name = wrong_name(random),
            1 => {
                other.kind = random.pick(&[4, 5]);
                other.value = vec![random.pick(b"v\"\\~"); random.pick(&[1024, 1025, 1026, 3000])];
            }
            2 if !fields.is_empty() => {
                other.name = fields[random.pick(&[0, at, fields.len()]) % fields.len()]
                    .name
                    .clone();
            }
            _ => (),
        }
        fields.insert(at, other);
    }
    let pieces = pieces(random, &fields);
    Text {
        bytes: joined(random, &pieces),
        done: "fields".into(),
    }
}

/// A name of a wrong or a limiting size, or with a byte at the limits or outside them.
fn wrong_name(random: &mut Random) -> Vec<u8> {
    let size = random.pick(&[0, 1, 1, 2, 64, 65, 65, 66, 300]);
    let mut name = vec![random.pick(b"n\"\\"); size];
    if size > 0 && random.once_in(2) {
        name[random.below(size)] = random.pick(&[0, 10, 31, 32, 126, 127, 128, 255]);
    }
    name
}

/// Bytes that the syntax does not name, which are registers.
const REGISTERS: &[u8] = b"ab\\(/\0\x0b\x7f\x80\xff>";

/// A piece that does not belong, with its name.
fn stranger(random: &mut Random) -> (&'static str, Piece) {
    let register = random.pick(REGISTERS);
    let atom = body(random);
    let tags: [&[u8]; 8] = [
        b"", b"int32", b"int6", b"int640", b"int64 ", b" int64", b"INT64", b"`\\",
    ];
    match random.below(20) {
        0 => ("a register", plain(&[register])),
        1 => ("a store", plain(&[b'>', register])),
        2 => ("a lone >", plain(b">")),
        3 => ("&", plain(b"&")),
        4 => ("#", plain(b"#")),
        5 => ("a list", plain(b"# 1 & \"a\" &")),
        6 => ("an atom", Piece::Plain(quoted(b'\'', &atom))),
        7 => ("int64", int64_tag()),
        8 => ("another tag", Piece::Tag(random.pick(&tags).to_vec())),
        9 => (
            "a tuple",
            plain(random.pick(&[&b"{}"[..], b"{\"a\"1}", b"{{}}"])),
        ),
        10 => ("{", plain(b"{")),
        11 => ("}", plain(b"}")),
        12 => ("a comma", plain(b",")),
        13 => ("~", plain(b"~")),
        14 => ("$", plain(b"$")),
        15 => ("-", plain(b"-")),
        16 => ("a string", Piece::String(atom)),
        17 => {
            let value = words::short_whole(random).into();
            ("an integer", Piece::Integer(digits(random, value)))
        }
        18 => ("a binary", plain(b"2~}$~")),
        _ => ("an open quote", plain(&[random.pick(b"\"'`%")])),
    }
}

/// A right text with one piece more, one less, one for another, or two that have changed places.
fn with_piece_faults(random: &mut Random) -> Text {
    let fields = fields(random);
    let mut pieces = pieces(random, &fields);
    let at = random.below(pieces.len());
    let (name, piece) = stranger(random);
    let done = match random.below(12) {
        0 => {
            pieces.remove(at);
            "one piece less".into()
        }
        1 => {
            let other = random.below(pieces.len());
            pieces.swap(at, other);
            "two pieces swapped".into()
        }
        2 => {
            pieces[at] = piece;
            "one piece for another".into()
        }
        3 => {
            pieces.insert(at, pieces[at].clone());
            "one piece twice".into()
        }
        _ => {
            pieces.insert(at, piece);
            format!("more: {name}")
        }
    };
    Text {
        bytes: joined(random, &pieces),
        done,
    }
}

/// A right text that has a binary, whose count is changed or parted from it.
fn with_count(random: &mut Random) -> Text {
    let mut fields = fields(random);
    let size = random.pick(&[0, 1, 2, 5, 10, 12, 100]);
    let binary = Field {
        name: b"binary".to_vec(),
        kind: 5,
        value: (0..size).map(|_| random.pick(SIGNS)).collect(),
    };
    let place = random.below(fields.len() + 1);
    fields.insert(place, binary);
    let mut pieces = pieces(random, &fields);
    let name = Piece::Name(b"binary".to_vec());
    let at = 1 + pieces.iter().position(|piece| *piece == name).unwrap_or(0);
    let exact = size as i128;
    let wrong = |count: i128| Piece::Count(count.to_string().into_bytes());
    let done = match random.below(18) {
        0 => {
            pieces[at] = wrong(exact + 1);
            "one more"
        }
        1 => {
            pieces[at] = wrong(exact - 1);
            "one less"
        }
        2 => {
            pieces[at] = wrong(-exact.max(1));
            "negative"
        }
        3 => {
            pieces[at] = wrong(
                exact + random.pick(&[1i128 << 8, 1 << 16, 1 << 31, 1 << 32, 1 << 63, 1 << 64]),
            );
            "over by a power of 2"
        }
        4 => {
            let mut digits = random
                .pick(&[&b"1"[..], b"9", b"00"])
                .repeat(random.pick(&[20, 39, 200]));
            digits.extend(exact.to_string().bytes());
            pieces[at] = Piece::Count(digits);
            "hundreds of digits"
        }
        5 => {
            pieces.remove(at);
            "none"
        }
        6 | 14..=17 => {
            let (between, piece) = stranger(random);
            pieces.insert(at + 1, piece);
            return Text {
                bytes: joined(random, &pieces),
                done: format!("between count and ~: {between}"),
            };
        }
        7 => {
            pieces.insert(
                at + 1,
                plain(random.pick(&[&b" "[..], b"\n\t\r", b"%c%", b" % $ % "])),
            );
            "blanks after it"
        }
        8 => {
            pieces[at] =
                Piece::Count(format!("-{}", "0".repeat(random.between(1, 3))).into_bytes());
            "minus zero"
        }
        9 => {
            pieces.insert(at, plain(b"7 "));
            "an integer before it"
        }
        10 => {
            pieces.insert(at + 2, plain(b"~"));
            "a ~ after it"
        }
        11 => {
            pieces.insert(at + 2, int64_tag());
            "a tag after it"
        }
        12 => {
            pieces.truncate(at + 1);
            pieces.push(plain(b"~"));
            pieces.push(Piece::Plain(vec![b'v'; size]));
            "the text ends in it"
        }
        _ => {
            let zeros = "0".repeat(random.pick(&[1, 19, 300]));
            pieces[at] = Piece::Count(format!("{zeros}{exact}").into_bytes());
            "zeros before it"
        }
    };
    Text {
        bytes: joined(random, &pieces),
        done: format!("count: {done}"),
    }
}

/// The limits of int32 and int64, and numbers whose low words alone fit.
const LIMITS: [(&str, i128); 14] = [
    ("2^31-1", (1 << 31) - 1),
    ("2^31", 1 << 31),
    ("-2^31", -(1 << 31)),
    ("-2^31-1", -(1 << 31) - 1),
    ("2^32+5", (1 << 32) + 5),
    ("-2^32+5", -(1 << 32) + 5),
    ("2^63-1", (1 << 63) - 1),
    ("2^63", 1 << 63),
    ("-2^63", -(1 << 63)),
    ("-2^63-1", -(1 << 63) - 1),
    ("2^64-1", (1 << 64) - 1),
    ("2^64+5", (1 << 64) + 5),
    ("-2^64+5", -(1 << 64) + 5),
    ("10^19", 10_000_000_000_000_000_000),
];

/// A text with an integer at a limit, tagged or not, or of very many digits.
fn with_integer(random: &mut Random) -> Text {
    let (mut of, value) = random.pick(&LIMITS);
    let mut digits = digits(random, value);
    if random.once_in(6) {
        let first = random.pick(&[&b""[..], b"-"]);
        let size = random.pick(&[19, 20, 21, 39, 200, 700]);
        digits = [first, &vec![random.pick(b"19"); size]].concat();
        of = if size > 19 {
            "over 19 digits"
        } else {
            "19 digits"
        };
    }
    let tags = random.pick(&[0, 0, 1, 1, 1, 2]);
    let mut pieces = vec![
        Piece::Open,
        Piece::Name(b"a".to_vec()),
        Piece::Integer(digits),
    ];
    pieces.extend(vec![int64_tag(); tags]);
    if random.once_in(2) {
        pieces.extend([Piece::Name(b"b".to_vec()), Piece::String(Vec::new())]);
    }
    pieces.extend([Piece::Close, Piece::End]);
    Text {
        bytes: joined(random, &pieces),
        done: format!("integer {of}, tags {tags}"),
    }
}

/// A right text with a wrong escape in one of the five quoted kinds.
fn with_escape(random: &mut Random) -> Text {
    let fields = fields(random);
    let mut pieces = pieces(random, &fields);
    let (done, delimiter) = random.pick(&[
        ("a string", b'"'),
        ("a name", b'"'),
        ("an atom", b'\''),
        ("a tag", b'`'),
        ("a comment", b'%'),
    ]);
    let mut text = quoted(delimiter, &body(random));
    let inner = text.len() - 1;
    let mut after = random.pick(b"\"'`%anx0$ \n\0\xff");
    if after == delimiter {
        after = b'a';
    }
    // at the end of the body, where no backslash is pending
    text.splice(inner..inner, [b'\\', after]);
    let escaped = plain(&text);
    match done {
        "a name" => pieces.insert(1, escaped),
        "a string" => {
            pieces.insert(1, escaped);
            pieces.insert(1, Piece::Name(b"e".to_vec()));
        }
        _ => {
            let at = random.below(pieces.len());
            pieces.insert(at, escaped);
        }
    }
    Text {
        bytes: joined(random, &pieces),
        done: format!("wrong escape in {done}"),
    }
}

/// A right text, and something behind it, cut off it, or around it.
fn with_ends(random: &mut Random) -> Text {
    let fields = fields(random);
    let pieces = pieces(random, &fields);
    let mut bytes = joined(random, &pieces);
    let done = match random.below(9) {
        0 => {
            bytes.push(random.pick(b" \n$a}%\0\xff"));
            "a byte after it"
        }
        1 => {
            bytes.extend(random.pick(&[&b"%c%"[..], b"{}$", b" $"]));
            "more after it"
        }
        2 | 3 => {
            bytes.truncate(random.below(bytes.len()));
            "cut"
        }
        4 => {
            bytes = gap(random);
            bytes.push(b'$');
            "no tuple"
        }
        5 => {
            bytes.pop();
            bytes.extend(joined(random, &pieces));
            "two tuples"
        }
        6 => {
            bytes.pop();
            bytes.extend(gap(random));
            bytes.extend(random.pick(&[&b"`int64`$"[..], b">a$", b"a$", b"&$", b"'a'$"]));
            "something after the tuple"
        }
        7 => {
            bytes.splice(
                0..0,
                random
                    .pick(&[&b"`int64`"[..], b"a", b"#", b"\"a\"", b"1 "])
                    .to_vec(),
            );
            "something before the tuple"
        }
        _ => {
            bytes = blanks(random);
            bytes.extend(joined(random, &pieces));
            "long blanks"
        }
    };
    Text {
        bytes,
        done: format!("ends: {done}"),
    }
}

/// Whitespace or a comment of some length, now and then of over 65,536 bytes.
fn blanks(random: &mut Random) -> Vec<u8> {
    let size = random.pick(&[200, 2000, 2000, 70_000]);
    match random.below(2) {
        0 => vec![random.pick(b" \t\n\r"); size],
        _ => quoted(b'%', &vec![random.pick(b"c\\%$"); size]),
    }
}

/// Tuples in tuples, all closed or one not.
fn nested(random: &mut Random) -> Text {
    let depth = random.pick(&[2, 3, 9, 300, 2000]);
    let closed = depth + random.pick(&[0, 0, 1]) - random.pick(&[0, 0, 1]);
    let bytes = [&b"{".repeat(depth), &b"}".repeat(closed)[..], b"$"].concat();
    let done = if closed == depth {
        "nested"
    } else {
        "nested, not closed"
    };
    Text {
        bytes,
        done: done.into(),
    }
}

/// Something of 23 in a text, and something of 22 behind it.
fn with_both(random: &mut Random) -> Text {
    let fields = fields(random);
    let mut pieces = pieces(random, &fields);
    let first = random.pick(&[&b"'a'"[..], b"a", b"#", b"{}", b">>", b"`t`"]);
    pieces.insert(1, plain(first));
    let at = random.between(2, pieces.len() - 1);
    pieces.insert(
        at,
        plain(random.pick(&[&b","[..], b"~", b"{", b"}", b"'\\a'", b"2~abc~", b"$"])),
    );
    Text {
        bytes: joined(random, &pieces),
        done: "23, and 22 behind it".into(),
    }
}

/// A row of tokens, right or not, ended by `$` most often.
fn row(random: &mut Random) -> Text {
    let count = random.below(10);
    let mut pieces: Vec<Piece> = (0..count)
        .map(|_| match random.below(3) {
            0 => stranger(random).1,
            1 => plain(random.pick(&[&b"{"[..], b"}", b"\"a\"", b"1", b"2", b"~ab~", b"`int64`"])),
            _ => plain(&[random.pick(SIGNS)]),
        })
        .collect();
    if !random.once_in(8) {
        pieces.push(Piece::End);
    }
    Text {
        bytes: joined(random, &pieces),
        done: "row".into(),
    }
}

/// A right text with single bytes changed, taken out or put in.
fn damaged(random: &mut Random) -> Text {
    let fields = fields(random);
    let pieces = pieces(random, &fields);
    let mut bytes = joined(random, &pieces);
    for _ in 0..random.between(1, 2) {
        let at = random.below(bytes.len() + 1);
        let byte = random.pick(SIGNS);
        match random.below(3) {
            0 if at < bytes.len() => bytes[at] = byte,
            1 if at < bytes.len() => drop(bytes.remove(at)),
            _ => bytes.insert(at, byte),
        }
    }
    Text {
        bytes,
        done: "damaged".into(),
    }
}

/// Any text.
pub fn text(random: &mut Random) -> Text {
    match random.below(20) {
        0 | 1 => with_field_faults(random),
        2..=6 => with_piece_faults(random),
        7..=9 => with_count(random),
        10 | 11 => with_integer(random),
        12 => with_escape(random),
        13 | 14 => with_ends(random),
        15 if random.once_in(4) => nested(random),
        15 | 16 => with_both(random),
        17 => row(random),
        18 => damaged(random),
        _ => {
            let fields = fields(random);
            let pieces = pieces(random, &fields);
            Text {
                bytes: joined(random, &pieces),
                done: "right".into(),
            }
        }
    }
}

/// The notice of such fields as texts have, in name order.
pub fn notice(random: &mut Random) -> Vec<u8> {
    let mut fields = match random.below(12) {
        0 => many(random, 64),
        1 => heavy(random, 16384),
        _ => fields(random),
    };
    fields.sort_by(|left, right| left.name.cmp(&right.name));
    fields.dedup_by(|left, right| left.name == right.name);
    crate::notices::rendered(&fields)
}
