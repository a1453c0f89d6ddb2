//! What tables end to end met, for the tally: how many there are, where each ends, what stands behind a
//! refused one, what the rest is, how much room there is, and which refusals meet.

use crate::edges::met;
use reference::many::{parts, Part, MOST_TABLES};
use reference::notice::{check_notice, fields};

const REFUSED: [&str; 12] = [
    "11 alone",
    "11 beside 24",
    "11 beside 9",
    "11 beside 24 and 9",
    "11 for the header",
    "11 for a field",
    "24 alone",
    "24 beside 9",
    "24 for one table more",
    "24 for several more",
    "9 for one byte",
    "9 for want of any room",
];
const ROOM: [&str; 4] = [
    "room to the byte",
    "more room",
    "over 64 bytes of room",
    "no room and no table",
];
const WORDS: [&str; 12] = [
    "a word of 0 first",
    "a word of 0 last",
    "a word of 0, a table that passes behind it",
    "two words of 0 in a row",
    "a table of 5 to 9 bytes",
    "a table of 5 to 9 bytes, one that passes behind it",
    "a refused table, one that passes behind it",
    "a word one too small",
    "a word one too large",
    "over 65,536 bytes of one table, one that passes behind it",
    "a table that passes behind 65,536 bytes",
    "all four bytes",
];
const RESTS: [&str; 10] = [
    "only a remainder",
    "a remainder behind a table that passes",
    "a remainder behind a refused table",
    "a remainder that would pass with its own length",
    "a remainder of 4 bytes",
    "a word past the end by 1",
    "a word past the end by more",
    "a word of 2^31 or more",
    "a word that with 4 wraps in 32 bits",
    "a remainder of zeros",
];

/// So many tables are told, and so many fields of the notice.
const COUNTS: [usize; 6] = [0, 1, 2, 40, 63, 64];
const FIELDS: [usize; 4] = [0, 1, 63, 64];
/// What a part is, told of the 64th and of the 65th.
const KINDS: [&str; 7] = [
    "a table that passes",
    "a refused table",
    "a word of 0",
    "1 byte",
    "2 bytes",
    "3 bytes",
    "a word past the end",
];

/// What must occur in a run of many cases.
pub fn names() -> Vec<String> {
    let told = [&REFUSED[..], &ROOM, &WORDS, &RESTS].concat();
    let told = told.into_iter().map(String::from);
    let counts = COUNTS.map(|count| format!("tables: {count}"));
    let fields = FIELDS.map(|count| format!("fields: {count}"));
    let kinds = KINDS
        .iter()
        .flat_map(|kind| ["any", "the 64th", "the 65th"].map(|which| format!("{which}: {kind}")));
    let bytes = (0..4)
        .flat_map(|byte| ["the first", "the 64th"].map(|which| format!("{which} verdict {byte}")));
    told.chain(counts)
        .chain(fields)
        .chain(kinds)
        .chain(bytes)
        .collect()
}

/// Which of `KINDS` the part is.
fn kind_of(part: Part) -> &'static str {
    match part {
        Part::Remainder([_, _, _, _, ..]) => KINDS[6],
        Part::Remainder(rest) => KINDS[2 + rest.len()],
        Part::Whole([0, 0, 0, 0]) => KINDS[2],
        Part::Whole(table) => KINDS[usize::from(reference::check(table) != 0)],
    }
}

/// The refusals and the room of a call, and the 65th table.
pub fn of_call(tables: &[u8], notice: &[u8], room: usize) -> Vec<String> {
    let parts = parts(tables);
    let count = parts.len();
    let (number, place) = check_notice(notice);
    let (over, short) = (count > MOST_TABLES, room < count);
    if number != 0 {
        return met([
            (!over && !short, REFUSED[0]),
            (over && !short, REFUSED[1]),
            (!over && short, REFUSED[2]),
            (over && short, REFUSED[3]),
            (place == 0, REFUSED[4]),
            (place != 0, REFUSED[5]),
        ]);
    }
    let mut all = met([
        (over && !short, REFUSED[6]),
        (over && short, REFUSED[7]),
        (count == MOST_TABLES + 1, REFUSED[8]),
        (count > MOST_TABLES + 1, REFUSED[9]),
        (!over && room + 1 == count, REFUSED[10]),
        (!over && room == 0 && count > 1, REFUSED[11]),
        (!over && room == count && count > 0, ROOM[0]),
        (!over && room > count, ROOM[1]),
        (!over && room > count && room > MOST_TABLES, ROOM[2]),
        (room == 0 && count == 0, ROOM[3]),
    ]);
    if let (&[.., last], true) = (&parts[..], count == MOST_TABLES + 1) {
        all.push(format!("the 65th: {}", kind_of(last)));
    }
    if !over && !short && COUNTS.contains(&count) {
        all.push(format!("tables: {count}"));
    }
    all
}

/// The tables of a call that was answered by these bytes, and was not refused.
pub fn of_tables(tables: &[u8], notice: &[u8], verdicts: &[u8]) -> Vec<String> {
    let parts = parts(tables);
    let fields = fields(notice).map_or(0, |fields| fields.len());
    let mut all = met([((0..4).all(|byte| verdicts.contains(&byte)), WORDS[11])]);
    if FIELDS.contains(&fields) {
        all.push(format!("fields: {fields}"));
    }
    all.push(format!("the first verdict {}", verdicts[0]));
    if let Some(byte) = verdicts.get(MOST_TABLES - 1) {
        all.push(format!("the 64th verdict {byte}"));
        all.push(format!("the 64th: {}", kind_of(parts[MOST_TABLES - 1])));
    }
    let mut start = 0;
    for (at, part) in parts.iter().enumerate() {
        all.push(format!("any: {}", kind_of(*part)));
        let before = at.checked_sub(1).map(|at| verdicts[at]);
        let behind = verdicts.get(at + 1).copied();
        all.extend(match part {
            Part::Remainder(rest) => of_rest(rest, before),
            Part::Whole(table) => of_whole(table, &tables[start..], before, behind),
        });
        let passes = verdicts[at] < 3;
        all.extend(met([(passes && start > 65_536, WORDS[10])]));
        start += part.bytes().len();
    }
    all
}

/// Whether the bytes are a table that passes, but for their length word.
fn passes_else(bytes: &[u8]) -> bool {
    let mut table = bytes.to_vec();
    let Some(length) = table.len().checked_sub(4) else {
        return false;
    };
    table[..4].copy_from_slice(&(length as u32).to_le_bytes());
    reference::check(&table) == 0
}

/// A table by its own length, from which on these bytes go; and the verdicts beside it.
fn of_whole(table: &[u8], from: &[u8], before: Option<u8>, behind: Option<u8>) -> Vec<String> {
    let size = table.len();
    let next = behind.is_some_and(|byte| byte < 3);
    let refused = reference::check(table) != 0;
    let again = from[size..].starts_with(&[0; 4]);
    let one_more = from.get(..size + 1).is_some_and(passes_else);
    met([
        (size == 4 && before.is_none(), WORDS[0]),
        (size == 4 && behind.is_none(), WORDS[1]),
        (size == 4 && next, WORDS[2]),
        (size == 4 && again, WORDS[3]),
        ((5..10).contains(&size), WORDS[4]),
        ((5..10).contains(&size) && next, WORDS[5]),
        (size >= 10 && refused && next, WORDS[6]),
        (refused && one_more, WORDS[7]),
        (refused && passes_else(&table[..size - 1]), WORDS[8]),
        (size > 65_536 && next, WORDS[9]),
    ])
}

/// What is left, and the verdict before it.
fn of_rest(rest: &[u8], before: Option<u8>) -> Vec<String> {
    let zeros = rest.iter().all(|byte| *byte == 0);
    let mut all = met([
        (before.is_none(), RESTS[0]),
        (before.is_some_and(|byte| byte < 3), RESTS[1]),
        (before == Some(3), RESTS[2]),
        (passes_else(rest), RESTS[3]),
        (rest.len() == 4, RESTS[4]),
        (zeros, RESTS[9]),
    ]);
    if let [a, b, c, d, ..] = rest {
        let word = u32::from_le_bytes([*a, *b, *c, *d]);
        let past = word as usize + 4 - rest.len();
        all.extend(met([
            (past == 1, RESTS[5]),
            (past > 1, RESTS[6]),
            (word >= 1 << 31, RESTS[7]),
            (word > u32::MAX - 4, RESTS[8]),
        ]));
    }
    all
}

#[cfg(test)]
mod tests {
    use super::*;
    use reference::compile::table_of;
    use virentolex::raw::EMPTY_NOTICE;

    fn met_by(tables: &[&[u8]], verdicts: &[u8]) -> Vec<String> {
        let all = of_tables(&tables.concat(), &EMPTY_NOTICE, verdicts);
        let named = names();
        all.iter()
            .for_each(|one| assert!(named.contains(one), "{one}"));
        all
    }

    #[test]
    fn edges_of_tables() {
        let right = &table_of(1, b"1 == 1").unwrap()[..];
        let has = |tables: &[&[u8]], verdicts: &[u8], edge: &str| {
            let all = met_by(tables, verdicts);
            assert!(all.contains(&edge.to_string()), "{edge}: {all:?}");
        };
        let zero = &[0; 4][..];
        has(&[zero, zero, right], &[3, 3, 1], "a word of 0 first");
        has(&[zero, zero, right], &[3, 3, 1], "two words of 0 in a row");
        has(&[right, zero], &[1, 3], "a word of 0 last");
        has(&[right, &right[..3]], &[1, 3], "any: 3 bytes");
        let cut = &right[..right.len() - 1];
        has(&[right, cut], &[1, 3], "a word past the end by 1");
        has(&[cut], &[3], "only a remainder");
        let mut changed = right.to_vec();
        changed[0] -= 1;
        has(&[&changed], &[3, 3], "a word one too small");
        changed[0] += 2;
        has(&[&changed, &[0]], &[3], "a word one too large");
        has(&[&changed], &[3], RESTS[3]);
        changed[..4].copy_from_slice(&[252, 255, 255, 255]);
        has(&[&changed], &[3], "a word that with 4 wraps in 32 bits");
        changed[0] = 251;
        let last = "a word that with 4 wraps in 32 bits".to_string();
        assert!(!met_by(&[&changed], &[3]).contains(&last));
    }

    #[test]
    fn edges_of_calls() {
        let right = table_of(1, b"1 == 1").unwrap();
        let edges = |count: usize, rest: &[u8], notice: &[u8], room| {
            of_call(&[&right.repeat(count), rest].concat(), notice, room)
        };
        let right = &EMPTY_NOTICE[..];
        assert_eq!(
            edges(64, &[0], b"", 64),
            ["11 beside 24 and 9", "11 for the header"]
        );
        assert_eq!(
            edges(64, &[0], right, 65),
            ["24 alone", "24 for one table more", "the 65th: 1 byte"]
        );
        assert_eq!(edges(63, &[0], right, 63), ["9 for one byte"]);
        assert_eq!(
            edges(64, &[], right, 64),
            ["room to the byte", "tables: 64"]
        );
        assert_eq!(
            edges(0, &[], right, 0),
            ["no room and no table", "tables: 0"]
        );
    }
}
