//! Where an op's rule turns: the operands that a run must have met there, op by op. A corner counts
//! where an entry is visited in a run that was not refused and whose answers agree.

use crate::edges::word;
use crate::meter_corners::METERS;
use crate::operands::*;
use crate::regex_corners;
use crate::size_corners::SIZES;
use crate::wildcard_corners::WILDCARDS;
use reference::compile::Entry;
use reference::op::Op;
use reference::table::{operands, pool_part};
use reference::value::Slot;
use std::collections::BTreeSet;
use std::sync::OnceLock;

/// An entry about to be visited.
pub struct Visit<'a> {
    pub op: Op,
    pub operands: &'a [Slot],
    /// The name that op 5 looks for, and where it stands or would stand.
    pub name: &'a [u8],
    pub place: Result<usize, usize>,
    /// The names of the notice's fields.
    pub names: &'a [&'a [u8]],
}

/// What holds at a corner of the ops.
pub type Corner = (&'static str, &'static [Op], fn(&Visit) -> bool);

const NAME: &[Op] = &[Op::Name];
const SIZE: &[Op] = &[Op::Size];
const FOLD: &[Op] = &[Op::FoldCase];
const NAN: &[Op] = &[Op::IsNan];
const EQUALS: &[Op] = &[Op::Equals];
const DIVIDE: &[Op] = &[Op::Divide];
const DIVISIONS: &[Op] = &[Op::Divide, Op::Rest];
const ENDS: &[Op] = &[Op::Times, Op::Plus, Op::Minus];
const BITS: &[Op] = &[Op::BitAnd, Op::BitXor, Op::BitOr];
const SAME: &[Op] = &[Op::Equal, Op::Unequal];
const ORDERS: &[Op] = &[Op::Less, Op::LessEqual, Op::Greater, Op::GreaterEqual];
const COMPARES: &[Op] = &[
    Op::Equal,
    Op::Unequal,
    Op::Less,
    Op::LessEqual,
    Op::Greater,
    Op::GreaterEqual,
];
/// Those that take reals.
const REALS: &[Op] = &[
    Op::Times,
    Op::Divide,
    Op::Plus,
    Op::Minus,
    Op::Equal,
    Op::Unequal,
    Op::Less,
    Op::LessEqual,
    Op::Greater,
    Op::GreaterEqual,
];
/// Those that take two integers.
const WHOLES: &[Op] = &[
    Op::ShiftLeft,
    Op::ShiftRight,
    Op::ShiftZeros,
    Op::BitAnd,
    Op::BitXor,
    Op::BitOr,
    Op::Times,
    Op::Divide,
    Op::Rest,
    Op::Plus,
    Op::Minus,
    Op::Equal,
    Op::Unequal,
    Op::Less,
    Op::LessEqual,
    Op::Greater,
    Op::GreaterEqual,
];
const TESTS: &[Op] = &[
    Op::IsInt32,
    Op::IsInt64,
    Op::IsReal64,
    Op::IsText,
    Op::IsOpaque,
    Op::IsNan,
    Op::Require,
];
const MATCHES: &[Op] = &[Op::Begins, Op::Contains, Op::Ends];

/// Corners of numbers; counts of shifts are told by `shift_edges`. 1,023 and 1,024 are sizes of strings and opaque values: no generator of numbers
/// has them.
const NUMBERS: [Corner; 30] = [
    ("NaN", REALS, |v| v.beside_number(is_nan)),
    ("NaN and NaN", COMPARES, |v| v.both(is_nan)),
    ("NaN", NAN, |v| v.is(is_nan)),
    ("+infinity", REALS, |v| v.beside_number(is_infinity)),
    ("-infinity", REALS, |v| v.beside_number(is_minus_infinity)),
    ("+infinity", NAN, |v| v.is(is_infinity)),
    ("-0.0", REALS, |v| v.beside_number(is_minus_zero)),
    ("-0.0 and 0.0", COMPARES, |v| {
        v.either(is_minus_zero, is_zero)
    }),
    ("least int32", WHOLES, |v| v.either(is_least_32, is_whole)),
    ("least int64", WHOLES, |v| v.either(is_least_64, is_whole)),
    ("least int32", &[Op::Complement], |v| v.is(is_least_32)),
    ("least int64", &[Op::Complement], |v| v.is(is_least_64)),
    ("least int64 and a real", REALS, |v| {
        v.either(is_least_64, is_real)
    }),
    ("2^53 - 1 and a real", REALS, |v| {
        v.beside_real((1 << 53) - 1)
    }),
    ("2^53 and a real", REALS, |v| v.beside_real(1 << 53)),
    ("2^53 + 1 and a real", REALS, |v| {
        v.beside_real((1 << 53) + 1)
    }),
    ("-2^53 and a real", REALS, |v| v.beside_real(-(1 << 53))),
    ("-2^53 - 1 and a real", REALS, |v| {
        v.beside_real(-(1 << 53) - 1)
    }),
    ("least int32 by -1", DIVISIONS, |v| {
        v.sides(is_least_32, is_minus_one)
    }),
    ("least int64 by -1", DIVISIONS, |v| {
        v.sides(is_least_64, is_minus_one)
    }),
    ("by whole 0", DIVISIONS, |v| {
        v.sides(is_number, is_whole_zero)
    }),
    ("by 0.0", DIVIDE, |v| v.sides(is_number, is_zero)),
    ("by -0.0", DIVIDE, |v| v.sides(is_number, is_minus_zero)),
    ("to an end of int32", ENDS, |v| v.to_end(32, 0)),
    ("to one over int32", ENDS, |v| v.to_end(32, 1)),
    ("to an end of int64", ENDS, |v| v.to_end(64, 0)),
    ("to one over int64", ENDS, |v| v.to_end(64, 1)),
    ("1024 and 1024", COMPARES, |v| v.wholes(1024, 1024)),
    ("1023 and 1024", COMPARES, |v| v.wholes(1023, 1024)),
    ("negative int32 and int64", BITS, |v| {
        v.either(is_negative_32, is_int64)
    }),
];

/// Corners of kinds, strings and opaque values.
const STRINGS: [Corner; 38] = [
    ("int32", TESTS, |v| v.is(is_int32)),
    ("int64", TESTS, |v| v.is(is_int64)),
    ("real64", TESTS, |v| v.is(is_real)),
    ("string", TESTS, |v| v.is(is_text)),
    ("opaque", TESTS, |v| v.is(is_opaque)),
    ("bottom", TESTS, |v| v.is(is_bottom)),
    ("string of 0", SIZE, |v| v.text_of(0)),
    ("string of 1023", SIZE, |v| v.text_of(1023)),
    ("string of 1024", SIZE, |v| v.text_of(1024)),
    ("string of 4096", SIZE, |v| v.text_of(4096)),
    ("opaque of 0", SIZE, |v| v.opaque_of(0)),
    ("opaque of 1023", SIZE, |v| v.opaque_of(1023)),
    ("opaque of 1024", SIZE, |v| v.opaque_of(1024)),
    ("number", SIZE, |v| v.is(is_number)),
    ("string of 0", FOLD, |v| v.text_of(0)),
    ("string of 1024", FOLD, |v| v.text_of(1024)),
    ("A and Z", FOLD, |v| v.holds(b'A') && v.holds(b'Z')),
    ("@ and [", FOLD, |v| v.holds(b'@') && v.holds(b'[')),
    ("opaque", FOLD, |v| v.is(is_opaque)),
    ("empty strings", SAME, |v| v.both(is_empty)),
    ("empty string and another", SAME, |v| {
        v.either(is_empty, is_some_text)
    }),
    ("1024 bytes alike", SAME, |v| v.alike(1024)),
    ("1024 bytes, the last unlike", SAME, |v| v.last_unlike(1024)),
    ("opaque and opaque", SAME, |v| v.both(is_opaque)),
    ("string and opaque", SAME, |v| v.either(is_text, is_opaque)),
    ("string and number", SAME, |v| v.either(is_text, is_number)),
    ("string and string", ORDERS, |v| v.both(is_text)),
    ("empty first", MATCHES, |v| v.is(is_empty)),
    ("empty literal", MATCHES, |v| {
        v.is(is_text) && v.later(is_empty)
    }),
    ("first of 1024", MATCHES, |v| v.text_of(1024)),
    ("first as long as a literal", MATCHES, |v| v.longer_by(0)),
    ("literal longer by one", MATCHES, |v| v.longer_by(1)),
    ("8 literals, the last fits alone", MATCHES, |v| {
        v.last_of_8()
    }),
    ("8 literals, none fits", MATCHES, |v| v.none_of_8()),
    ("no string beside one that fits", MATCHES, |v| {
        v.fits_beside_other()
    }),
    ("8 values, the last equal alone", EQUALS, |v| v.last_of_8()),
    ("8 values, none equal", EQUALS, |v| v.none_of_8()),
    ("bottom beside an equal value", EQUALS, |v| {
        v.equal_beside_bottom()
    }),
];

/// Corners of lookups.
const NAMES: [Corner; 12] = [
    ("at 0 of 64", NAME, |v| v.found_at(0)),
    ("at 57 of 64", NAME, |v| v.found_at(57)),
    ("at 62 of 64", NAME, |v| v.found_at(62)),
    ("at 63 of 64", NAME, |v| v.found_at(63)),
    ("missing, before the first of 64", NAME, |v| {
        v.missing_at(0..=0)
    }),
    ("missing, between two of 64", NAME, |v| v.missing_at(1..=63)),
    ("missing, behind the last of 64", NAME, |v| {
        v.missing_at(64..=64)
    }),
    ("64 bytes, found", NAME, |v| v.name.len() == 64 && v.found()),
    ("64 bytes, missing", NAME, |v| {
        v.name.len() == 64 && !v.found()
    }),
    ("in no field", NAME, |v| v.names.is_empty()),
    ("missing, a field begins with it", NAME, |v| {
        v.begins_field()
    }),
    ("missing, it begins with a field", NAME, |v| {
        v.field_begins()
    }),
];

fn all() -> impl Iterator<Item = &'static Corner> {
    NUMBERS
        .iter()
        .chain(&STRINGS)
        .chain(&NAMES)
        .chain(&WILDCARDS)
        .chain(&SIZES)
        .chain(&METERS)
}

fn name_of(corner: &Corner, op: Op) -> String {
    format!("{:?}: {}", op, corner.0)
}

fn of_regex(corner: &str) -> String {
    format!("{:?}: {corner}", Op::Regex)
}

/// The names of all corners, for each of their ops.
pub fn names() -> Vec<String> {
    let of_ops = all().flat_map(|corner| corner.1.iter().map(|op| name_of(corner, *op)));
    let of_regexes = regex_corners::names().into_iter().map(|one| of_regex(&one));
    of_ops.chain(of_regexes).collect()
}

/// The corners of each op, by its number.
fn by_op() -> &'static [Vec<&'static Corner>] {
    static BY_OP: OnceLock<Vec<Vec<&'static Corner>>> = OnceLock::new();
    BY_OP.get_or_init(|| {
        let of = |code: u16| {
            all()
                .filter(|corner| corner.1.iter().any(|op| op.code() == code))
                .collect()
        };
        (0..=Op::Regex.code()).map(of).collect()
    })
}

/// The corners that a run meets, each once.
pub struct Watch<'a> {
    pool: &'a [u8],
    names: Vec<&'a [u8]>,
    pub met: BTreeSet<String>,
}

impl<'a> Watch<'a> {
    /// For the run of a table on a notice; either may be refused.
    pub fn of(table: &'a [u8], notice: &'a [u8]) -> Watch<'a> {
        let count = word(table, 6);
        let fields = reference::notice::fields(notice).unwrap_or_default();
        Watch {
            pool: table.get(10 + 12 * count..).unwrap_or_default(),
            names: fields
                .into_iter()
                .map(|field| &notice[field.name])
                .collect(),
            met: BTreeSet::new(),
        }
    }

    /// The name and its place among the fields, whose names rise.
    fn lookup<'b>(&self, name: &'b [u8]) -> (&'b [u8], Result<usize, usize>) {
        (name, self.names.binary_search(&name))
    }

    /// An entry and the stack before its visit.
    pub fn see(&mut self, entry: &Entry, stack: &[Slot]) {
        let corners = &by_op()[usize::from(entry.op.code())];
        if corners.is_empty() && entry.op != Op::Regex {
            return;
        }
        let (name, place) = match entry.op {
            Op::Name => self.lookup(pool_part(self.pool, entry).unwrap_or_default()),
            _ => (&[][..], Err(0)),
        };
        let visit = Visit {
            op: entry.op,
            operands: &stack[stack.len() - operands(entry)..],
            name,
            place,
            names: &self.names,
        };
        for corner in corners.iter().filter(|corner| (corner.2)(&visit)) {
            self.met.insert(name_of(corner, entry.op));
        }
        if entry.op == Op::Regex {
            let found = regex_corners::met(&visit);
            self.met.extend(found.iter().map(|corner| of_regex(corner)));
        }
    }
}

#[cfg(test)]
mod tests {
    use super::*;
    use crate::notices::{rendered, Field};
    use reference::compile::table_of;
    use reference::run::run_shown;

    /// The corners that the text's run meets.
    fn met(text: &str, fields: &[Field]) -> Vec<String> {
        let (table, notice) = (table_of(1, text.as_bytes()).unwrap(), rendered(fields));
        let mut watch = Watch::of(&table, &notice);
        let answer = run_shown(&table, &notice, &mut |_, entry, stack| {
            watch.see(entry, stack)
        });
        assert_eq!(answer.number, 0);
        watch.met.into_iter().collect()
    }

    fn field(name: &str, kind: u16, value: &[u8]) -> Field {
        Field {
            name: name.into(),
            kind,
            value: value.to_vec(),
        }
    }

    #[test]
    fn corners_of_numbers() {
        let has =
            |text: &str, corner: &str| assert!(met(text, &[]).contains(&corner.into()), "{text}");
        has("1.0 < 9007199254740993L", "Less: 2^53 + 1 and a real");
        has("-2147483648 / -1 == 0", "Divide: least int32 by -1");
        has("2147483647 + 1 == 0", "Plus: to one over int32");
        has("-0.0 == 0.0", "Equal: -0.0 and 0.0");
        has("1 / -0.0 == 1", "Divide: by -0.0");
        assert_eq!(met("1 == 2", &[]), Vec::<String>::new());
        let nan = field("r", 3, &f64::NAN.to_le_bytes());
        assert_eq!(met("r < 1", &[nan]), ["Less: NaN"]);
    }

    #[test]
    fn corners_of_strings() {
        let long = [field("o", 5, &[b'o'; 1024]), field("s", 4, &[b's'; 1023])];
        assert_eq!(
            met("size (o) == 1024", &long),
            ["Equal: 1024 and 1024", "Size: opaque of 1024"]
        );
        assert_eq!(
            met("size (s) == 1024", &long),
            ["Equal: 1023 and 1024", "Size: string of 1023"]
        );
        let few = [field("s", 4, b"ab")];
        let call = "ends-with (s, 'a', 'a', 'a', 'a', 'a', 'a', 'a', 'b')";
        assert_eq!(met(call, &few), ["Ends: 8 literals, the last fits alone"]);
        assert_eq!(
            met("equals (s, 1, 's', t, 'ab')", &few)[0],
            "Equals: bottom beside an equal value"
        );
    }

    #[test]
    fn corners_of_characters() {
        let has = |kind, bytes: &[u8], corners: &[&str]| {
            let named = corners.iter().map(|corner| format!("Size: {corner}"));
            let found = met("size (s) == 1000", &[field("s", kind, bytes)]);
            assert_eq!(found, named.collect::<Vec<_>>(), "{bytes:02x?}");
        };
        has(4, b"ab", &[]);
        has(
            4,
            b"12345678\xdf\xbf",
            &["U+07FF", "other character behind 8 of one byte"],
        );
        has(
            4,
            "aé出🚕".as_bytes(),
            &[
                "characters of 1 to 4 bytes",
                "other character behind 1 of one byte",
            ],
        );
        has(
            4,
            b"1234567\xc1\xbf",
            &["C1 BF", "fault behind 7 of one byte"],
        );
        // two faults: the second is no corner
        has(4, b"a\xf5b\xff", &["fault behind 1 of one byte"]);
        has(4, b"12\xe2\x82", &["2 of 3 bytes, then the end"]);
        has(4, b"12\xe2\x82a", &["2 of 3 bytes, then others"]);
        has(4, b"12\xe0\x9f", &[]);
        has(5, b"\xdf\xbf", &["opaque of fewer characters"]);
        has(5, b"\xdf", &["opaque, ill-formed"]);
        has(
            4,
            &[b'\xc3', b'\xa9'].repeat(512),
            &[
                "512 characters of 2 bytes",
                "other character behind 0 of one byte",
                "string of 1024",
            ],
        );
    }

    #[test]
    fn corners_of_names() {
        let fields: Vec<Field> = (10..74)
            .map(|at| field(&format!("f{at}"), 4, b"x"))
            .collect();
        assert_eq!(met("f73 == 'y'", &fields), ["Name: at 63 of 64"]);
        assert_eq!(met("f67 == 'y'", &fields), ["Name: at 57 of 64"]);
        assert_eq!(
            met("g == 'y'", &fields),
            ["Name: missing, behind the last of 64"]
        );
        let behind = ["behind the last of 64", "it begins with a field"];
        assert_eq!(
            met("f730 == 'y'", &fields),
            behind.map(|one| format!("Name: missing, {one}"))
        );
        assert_eq!(
            met("f == 'y'", &fields[1..]),
            ["Name: missing, a field begins with it"]
        );
    }
}
