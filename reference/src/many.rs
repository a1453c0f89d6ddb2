//! Document 02, request 8: "One notice, many subscriptions". Words in quotes are that request's.

use crate::notice::check_notice;
use crate::run::run;
use crate::value::Truth;
use crate::word;

/// "up to 64 tables"
pub const MOST_TABLES: usize = 64;

/// "the number of verdict bytes is returned, 0 if refused"; 11 keeps its place.
#[derive(Clone, Copy, PartialEq, Eq, Debug)]
pub struct Many {
    pub number: u8,
    pub place: usize,
    pub count: usize,
}

/// What lies between two tables' starts, or behind the last start.
#[derive(Clone, Copy, PartialEq, Eq, Debug)]
pub enum Part<'a> {
    Whole(&'a [u8]),
    /// "if that passes the end, or 1 to 3 bytes are left, the remainder counts as one refused table"
    Remainder(&'a [u8]),
}

impl<'a> Part<'a> {
    pub fn bytes(self) -> &'a [u8] {
        let (Part::Whole(bytes) | Part::Remainder(bytes)) = self;
        bytes
    }
}

/// "tables laid end to end": "A table's extent is taken from its length word". The word counts what follows
/// it, so that a word of 0 is a part of 4 bytes.
pub fn parts(tables: &[u8]) -> Vec<Part<'_>> {
    let mut parts = Vec::new();
    let mut left = tables;
    while !left.is_empty() {
        let whole = word(left, 0, 4).and_then(|length| left.get(..4 + length as usize));
        let Some(whole) = whole else {
            parts.push(Part::Remainder(left));
            break;
        };
        parts.push(Part::Whole(whole));
        left = &left[whole.len()..];
    }
    parts
}

/// A remainder is refused.
fn verdict_byte(part: Part, notice: &[u8]) -> u8 {
    match part {
        Part::Whole(table) => byte_of(table, notice),
        Part::Remainder(_) => 3,
    }
}

/// "0 false, 1 true, 2 bottom, 3 table refused", of a table on a notice that is right: "The result must be the
/// same as calling one by one".
pub fn byte_of(table: &[u8], notice: &[u8]) -> u8 {
    let answer = run(table, notice);
    match (answer.number, answer.verdict) {
        (0, Truth::False) => 0,
        (0, Truth::True) => 1,
        (0, Truth::Bottom) => 2,
        _ => 3,
    }
}

/// "A single call shall take up to 64 tables laid end to end and one notice, and write per table one byte";
/// "Bytes past the last verdict stay."; "Refusals: 11, then 24 for over 64 tables, then 9 if the verdict
/// buffer is short."
pub fn run_many(tables: &[u8], notice: &[u8], verdicts: &mut [u8]) -> Many {
    let refused = |number, place| Many {
        number,
        place,
        count: 0,
    };
    let (number, place) = check_notice(notice);
    if number != 0 {
        return refused(number, place);
    }
    let parts = parts(tables);
    if parts.len() > MOST_TABLES {
        return refused(24, 0);
    }
    if parts.len() > verdicts.len() {
        return refused(9, 0);
    }
    for (part, byte) in parts.iter().zip(verdicts) {
        *byte = verdict_byte(*part, notice);
    }
    Many {
        number: 0,
        place: 0,
        count: parts.len(),
    }
}

#[cfg(test)]
mod tests {
    use super::*;
    use crate::compile::table_of;
    use crate::notice::examples::{E, OP42};

    /// The number, the place and the bytes afterwards, in a buffer of that length of sevens.
    fn answer(tables: &[&[u8]], notice: &[u8], room: usize) -> (u8, usize, Vec<u8>) {
        let mut verdicts = vec![7; room];
        let answer = run_many(&tables.concat(), notice, &mut verdicts);
        let written = if answer.number == 0 { tables.len() } else { 0 };
        assert_eq!(answer.count, written);
        (answer.number, answer.place, verdicts)
    }

    #[test]
    fn one_byte_a_table() {
        let (yes, no) = (
            table_of(1, b"Op == 42").unwrap(),
            table_of(1, b"Op < 42").unwrap(),
        );
        let bottom = table_of(1, b"a == 1").unwrap();
        let mut bad = yes.clone();
        bad[4] = 3;
        let all = [&no[..], &yes, &bottom, &bad, &yes];
        assert_eq!(answer(&all, &OP42, 6), (0, 0, vec![0, 1, 2, 3, 1, 7]));
        assert_eq!(answer(&all, &E, 5), (0, 0, vec![2, 2, 2, 3, 2]));
        assert_eq!(answer(&all, &OP42, 4), (9, 0, vec![7; 4]));
        assert_eq!(answer(&[], &E, 0), (0, 0, vec![]));
    }

    #[test]
    fn tables_of_both_editions() {
        let table = |edition| table_of(edition, b"Op >> 33 == 21").unwrap();
        let (first, second) = (&table(1)[..], &table(2)[..]);
        let all = [second, first, second];
        assert_eq!(answer(&all, &OP42, 3), (0, 0, vec![1, 2, 1]));
        assert_eq!(answer(&all, &E, 3), (0, 0, vec![2, 2, 2]));
    }

    #[test]
    fn where_a_table_ends() {
        let yes = &table_of(1, b"Op == 42").unwrap()[..];
        let zero = &[0; 4][..];
        let walked = [zero, yes, zero, zero, yes];
        assert_eq!(answer(&walked, &OP42, 5), (0, 0, vec![3, 1, 3, 3, 1]));
        for left in [1, 2, 3, 4, yes.len() - 1] {
            let cut = &yes[..left];
            assert_eq!(parts(cut), [Part::Remainder(cut)]);
            assert_eq!(answer(&[yes, cut], &OP42, 2), (0, 0, vec![1, 3]));
        }
        let long = [255; 9];
        assert_eq!(answer(&[yes, &long], &OP42, 2), (0, 0, vec![1, 3]));
    }

    #[test]
    fn refusals_in_their_order() {
        let yes = table_of(1, b"Op == 42").unwrap();
        let many = |count| vec![&yes[..]; count];
        let with_rest = |count| [many(count), vec![&yes[..3]]].concat();
        assert_eq!(answer(&many(65), b"", 0).0, 11);
        assert_eq!(answer(&many(65), &OP42, 64).0, 24);
        assert_eq!(answer(&with_rest(64), &OP42, 65).0, 24);
        assert_eq!(answer(&with_rest(63), &OP42, 63).0, 9);
        let (number, _, verdicts) = answer(&with_rest(63), &OP42, 64);
        assert_eq!((number, verdicts[62], verdicts[63]), (0, 1, 3));
        let mut cut = OP42;
        cut[8] = 8;
        assert_eq!(answer(&many(1), &cut, 1), (11, 8, vec![7]));
    }
}
