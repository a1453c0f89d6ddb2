//! Editions of tables (document 02, request 9): which one a text is translated by or a table is of, and,
//! for the tally, what met each of them.

use crate::edges::{met, word};
use crate::random::Random;
use reference::many::Part;
use reference::{Edition, Truth};

pub const EDITIONS: [Edition; 2] = [Edition::First, Edition::Second];
const VERDICTS: [Truth; 3] = [Truth::False, Truth::Bottom, Truth::True];

/// Editions that there are not: those beside 1 and 2, and some whose low byte, two or four are 1 or 2.
const OTHERS: [(usize, &str); 9] = [
    (0, "edition 0"),
    (3, "edition 3"),
    (4, "edition 4"),
    (0x101, "edition 257"),
    (0x102, "edition 258"),
    (0x1_0001, "edition 2^16 + 1"),
    (0x1_0000_0001, "edition 2^32 + 1"),
    (0x1_0000_0002, "edition 2^32 + 2"),
    (usize::MAX, "edition 2^64 - 1"),
];
/// What 25 stands before: nothing else, and each other refusal of a translation.
const BESIDE: [u8; 12] = [0, 10, 1, 3, 6, 2, 4, 18, 5, 7, 8, 9];

const CHECKS: [&str; 5] = [
    "check: kind 2 passes",
    "check: kind 2 fails",
    "check: kind 4 passes",
    "check: kind 4 fails",
    "check: another kind, all else right",
];
const MANY: [&str; 3] = [
    "many: first alone",
    "many: second alone",
    "many: both side by side",
];
const KEPT: [&str; 4] = [
    "quorum: First counts",
    "quorum: Second counts",
    "quorum: First, 19",
    "quorum: Second, 19",
];

/// What must occur in a run of many cases.
pub fn names() -> Vec<String> {
    let mut names: Vec<String> = OTHERS.map(|(_, name)| name.to_string()).into();
    names.extend(BESIDE.map(|number| format!("25 beside {number}")));
    names.extend(
        [CHECKS.as_slice(), &MANY, &KEPT]
            .concat()
            .iter()
            .map(|one| one.to_string()),
    );
    for edition in EDITIONS {
        names.extend(VERDICTS.map(|verdict| ran("run", edition, verdict)));
        names.extend(VERDICTS.map(|verdict| ran("demand 3", edition, verdict)));
    }
    names
}

pub fn any(random: &mut Random) -> Edition {
    random.pick(&EDITIONS)
}

/// A number that no edition has.
pub fn other(random: &mut Random) -> usize {
    random.pick(&OTHERS).0
}

/// A run, or a text's meaning, that gave the verdict.
pub fn ran(what: &str, edition: Edition, verdict: Truth) -> String {
    format!("{what}: {edition:?} {verdict:?}")
}

/// The edition of a table that passes the check.
pub fn of_table(table: &[u8]) -> Option<Edition> {
    reference::table::checked(table).map(|table| table.edition)
}

/// What a translation that 25 refuses met.
pub fn of_refused(edition: usize, text: &[u8], room: usize) -> Vec<String> {
    let beside = reference::translate(1, text, &mut vec![0; room]).number;
    let named = OTHERS.iter().filter(|(number, _)| *number == edition);
    let mut found: Vec<String> = named.map(|(_, name)| name.to_string()).collect();
    found.push(format!("25 beside {beside}"));
    found
}

/// What a check that answers the number met.
pub fn of_check(table: &[u8], number: u8) -> Vec<String> {
    let (kind, passes) = (word(table, 4), number == 0);
    let other = || {
        let mut first = table.to_vec();
        first[4..6].copy_from_slice(&[2, 0]);
        reference::check(&first) == 0
    };
    met([
        (kind == 2 && passes, CHECKS[0]),
        (kind == 2 && !passes, CHECKS[1]),
        (kind == 4 && passes, CHECKS[2]),
        (kind == 4 && !passes, CHECKS[3]),
        (
            ![2, 4].contains(&kind) && table.len() > 5 && other(),
            CHECKS[4],
        ),
    ])
}

/// Which editions the tables have that passed, in one call.
pub fn of_many(parts: &[Part]) -> Vec<String> {
    let has = |edition| {
        parts
            .iter()
            .any(|part| of_table(part.bytes()) == Some(edition))
    };
    let (first, second) = (has(Edition::First), has(Edition::Second));
    met([
        (first && !second, MANY[0]),
        (second && !first, MANY[1]),
        (first && second, MANY[2]),
    ])
}

/// A notice shown to a decision that keeps the table, which is answered so; counts if somebody is counted.
pub fn of_shown(table: &[u8], number: u8, counts: bool) -> Vec<String> {
    let (first, second) = match of_table(table) {
        Some(edition) => (edition == Edition::First, edition == Edition::Second),
        None => (false, false),
    };
    met([
        (first && counts, KEPT[0]),
        (second && counts, KEPT[1]),
        (first && number == 19, KEPT[2]),
        (second && number == 19, KEPT[3]),
    ])
}

#[cfg(test)]
mod tests {
    use super::*;
    use reference::compile::table_of;

    #[test]
    fn no_other_edition_is_one() {
        for (number, _) in OTHERS {
            assert_eq!(Edition::of_number(number), None);
        }
        assert_eq!(
            of_refused(0x101, b"Op == 42", 47),
            ["edition 257", "25 beside 9"]
        );
        assert_eq!(of_refused(3, b"Op == 42", 48), ["edition 3", "25 beside 0"]);
    }

    #[test]
    fn kinds_of_tables() {
        let mut table = table_of(1, b"Op == 42").unwrap();
        for (kind, name) in [(2, CHECKS[0]), (4, CHECKS[2]), (3, CHECKS[4])] {
            table[4] = kind;
            assert_eq!(of_check(&table, reference::check(&table)), [name]);
        }
        assert_eq!(of_check(&table[..47], 12), Vec::<String>::new());
        table[4] = 4;
        assert_eq!(of_check(&table[..47], 12), [CHECKS[3]]);
        assert_eq!(of_check(b"", 12), Vec::<String>::new());
    }
}
