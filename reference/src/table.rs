//! "Table": its layout and "The check".

use crate::compile::Entry;
use crate::edition::Edition;
use crate::judge::{pattern_right, Kind};
use crate::notice::name_right;
use crate::op::Op;
use crate::{word, MOST_ENTRIES, MOST_POOL, MOST_SLOTS};
use std::ops::Range;

/// A table's entries and pool as they lie in the lent bytes, and the edition that its kind tells.
#[derive(Clone, PartialEq, Eq, Debug)]
pub struct Table<'a> {
    pub edition: Edition,
    pub entries: Vec<Entry>,
    pub pool: &'a [u8],
}

/// "12: table fails layout or check"; 0 if it passes.
pub fn check(table: &[u8]) -> u8 {
    match checked(table) {
        Some(_) => 0,
        None => 12,
    }
}

/// The table, if its layout is right and it passes the check.
pub fn checked(table: &[u8]) -> Option<Table<'_>> {
    let table = decode(table)?;
    let right = |(at, entry)| entry_right(&table, at, entry);
    (table.entries.iter().enumerate().all(right) && flows(&table.entries)).then_some(table)
}

/// "u32 length of all after it; u16 kind 2; u16 entry count N 1..512; u16 pool length 0..4,096; N
/// entries of 12 bytes; pool; nothing more."; document 02, request 9: kind 4 for the second edition, "and all
/// that runs or keeps tables takes both"
fn decode(table: &[u8]) -> Option<Table<'_>> {
    let length = word(table, 0, 4)? as usize;
    let edition = Edition::of_kind(word(table, 4, 2)?)?;
    let count = word(table, 6, 2)? as usize;
    let pool = word(table, 8, 2)? as usize;
    let limits = (1..=MOST_ENTRIES).contains(&count) && pool <= MOST_POOL;
    let whole = table.len() == 10 + 12 * count + pool && table.len() == 4 + length;
    if !limits || !whole {
        return None;
    }
    let entries: Option<Vec<Entry>> = (0..count).map(|k| entry(table, 10 + 12 * k)).collect();
    Some(Table {
        edition,
        entries: entries?,
        pool: &table[10 + 12 * count..],
    })
}

/// "Entry: u16 op, u16 a, u64 b."; none if the op is unknown.
pub fn entry(table: &[u8], at: usize) -> Option<Entry> {
    let op = Op::of_code(word(table, at, 2)?)?;
    let a = u16::try_from(word(table, at + 2, 2)?).ok()?;
    Some(Entry {
        op,
        a,
        b: word(table, at + 4, 8)?,
    })
}

/// What is told of an entry: number, op, a and b, and where its bytes lie in the table.
#[derive(Clone, PartialEq, Eq, Debug)]
pub struct Described {
    pub number: u8,
    pub op: u16,
    pub a: u16,
    pub b: u64,
    pub bytes: Range<usize>,
}

/// Document 02, request 7: "Support staff see `bottom` and can't tell which field was lacking." Entry k of
/// the table: 12, then 17 if it has none; for a string or a name its bytes, else none at 0.
pub fn describe(table: &[u8], k: usize) -> Described {
    let refused = |number| Described {
        number,
        op: 0,
        a: 0,
        b: 0,
        bytes: 0..0,
    };
    let Some(whole) = checked(table) else {
        return refused(12);
    };
    let Some(entry) = whole.entries.get(k) else {
        return refused(17);
    };
    let pool = table.len() - whole.pool.len();
    let bytes = match entry.op {
        Op::Text | Op::Name => {
            let start = pool + entry.b as usize;
            start..start + usize::from(entry.a)
        }
        _ => 0..0,
    };
    Described {
        number: 0,
        op: entry.op.code(),
        a: entry.a,
        b: entry.b,
        bytes,
    }
}

/// The part of the pool that a string's or a name's entry means: "a length, b pool offset, a + b at
/// most the pool length".
pub fn pool_part<'a>(pool: &'a [u8], entry: &Entry) -> Option<&'a [u8]> {
    let start = usize::try_from(entry.b).ok()?;
    pool.get(start..start.checked_add(usize::from(entry.a))?)
}

/// What is asked of an entry by itself.
fn entry_right(table: &Table, at: usize, entry: &Entry) -> bool {
    let part = || pool_part(table.pool, entry);
    match entry.op {
        // "int32 widened by sign and in range"
        Op::Int32 => entry.a == 0 && i32::try_from(entry.b as i64).is_ok(),
        Op::Int64 | Op::Real64 => entry.a == 0,
        Op::Text => part().is_some(),
        // "a name keeps the notice's name rules"
        Op::Name => part().is_some_and(name_right),
        // "a: entries passed over, at least 1"; "a skip lands at or before N"
        Op::SkipFalse | Op::SkipTrue => {
            entry.a >= 1 && entry.b == 0 && landing(at, entry) <= table.entries.len()
        }
        // "a: literals or values, 1..8"
        Op::Begins | Op::Contains | Op::Ends | Op::Equals => {
            (1..=8).contains(&entry.a) && entry.b == 0
        }
        Op::Wildcard | Op::Regex => {
            (1..=8).contains(&entry.a) && entry.b == 0 && patterns_right(table, at, entry)
        }
        // "Unused a and b are zero."
        _ => entry.a == 0 && entry.b == 0,
    }
}

/// Document 02, request 1: "the table check gives 12 for it [an ill-formed pattern] and for a pattern
/// operand that is no op 4 entry directly before"; request 13: "the table check gives 12 as for op 60".
fn patterns_right(table: &Table, at: usize, entry: &Entry) -> bool {
    let Some(first) = at.checked_sub(usize::from(entry.a)) else {
        return false;
    };
    table.entries[first..at].iter().all(|operand| {
        let pattern = pool_part(table.pool, operand).filter(|_| operand.op == Op::Text);
        pattern.is_some_and(|bytes| pattern_right(entry.op, bytes))
    })
}

/// Where a skip goes: "a + 1 entries on".
pub fn landing(at: usize, entry: &Entry) -> usize {
    at + usize::from(entry.a) + 1
}

/// "every way of reaching an entry, or the end, finds the same depth and kinds, and the end has one
/// logic slot": each skip counts as taken and as not taken. All ways lead forward, so one pass in
/// the order of the entries meets every way.
fn flows(entries: &[Entry]) -> bool {
    let mut found: Vec<Option<Vec<Kind>>> = vec![None; entries.len() + 1];
    found[0] = Some(Vec::new());
    for (at, entry) in entries.iter().enumerate() {
        let Some(next) = found[at].clone().and_then(|before| step(before, entry)) else {
            return false;
        };
        let skip = matches!(entry.op, Op::SkipFalse | Op::SkipTrue);
        if skip && !meets(&mut found[landing(at, entry)], &next) {
            return false;
        }
        if !meets(&mut found[at + 1], &next) {
            return false;
        }
    }
    found[entries.len()] == Some(vec![Kind::Logic])
}

/// Notes one way of reaching an entry; false if another way found other slots there.
fn meets(found: &mut Option<Vec<Kind>>, slots: &[Kind]) -> bool {
    found.get_or_insert_with(|| slots.to_vec()) == slots
}

/// The kinds on the stack after an entry: "each entry has enough operands of the right kind; depth is
/// at most 32".
fn step(mut slots: Vec<Kind>, entry: &Entry) -> Option<Vec<Kind>> {
    let (count, takes, gives) = effect(entry);
    let kept = slots.len().checked_sub(count)?;
    if slots[kept..].iter().any(|kind| *kind != takes) {
        return None;
    }
    slots.truncate(kept);
    slots.push(gives);
    (slots.len() <= MOST_SLOTS).then_some(slots)
}

/// How many operands an entry takes; it leaves one slot in their place.
pub fn operands(entry: &Entry) -> usize {
    effect(entry).0
}

/// How many operands an entry takes, of which kind, and the kind it gives.
fn effect(entry: &Entry) -> (usize, Kind, Kind) {
    use Kind::{Logic, Value};
    match entry.op {
        Op::Int32 | Op::Int64 | Op::Real64 | Op::Text | Op::Name => (0, Value, Value),
        Op::FoldCase | Op::Size | Op::Complement => (1, Value, Value),
        Op::Equal | Op::Unequal | Op::Less | Op::LessEqual | Op::Greater | Op::GreaterEqual => {
            (2, Value, Logic)
        }
        // "A skip keeps its operand."
        Op::Not | Op::SkipFalse | Op::SkipTrue => (1, Logic, Logic),
        Op::And | Op::Xor | Op::Or => (2, Logic, Logic),
        Op::Begins | Op::Contains | Op::Ends | Op::Equals | Op::Wildcard | Op::Regex => {
            (usize::from(entry.a) + 1, Value, Logic)
        }
        Op::IsInt32
        | Op::IsInt64
        | Op::IsReal64
        | Op::IsText
        | Op::IsOpaque
        | Op::IsNan
        | Op::Require => (1, Value, Logic),
        _ => (2, Value, Value),
    }
}

#[cfg(test)]
mod tests {
    use super::*;
    use crate::compile::table_of;

    #[test]
    fn a_translated_table_passes() {
        let table = table_of(1, b"a == 1 && (b == 2 || c == 3)").unwrap();
        assert_eq!(check(&table), 0);
    }

    #[test]
    fn entries_are_described() {
        let table = table_of(1, b"Op != '' && 1 == 2L").unwrap();
        let told = |k| {
            let told = describe(&table, k);
            (told.number, told.op, told.a, told.b, told.bytes)
        };
        let pool = 10 + 12 * 8;
        assert_eq!(table.len(), pool + 2);
        assert_eq!(told(0), (0, 5, 2, 0, pool..pool + 2));
        assert_eq!(told(1), (0, 4, 0, 2, pool + 2..pool + 2));
        assert_eq!(told(2), (0, 33, 0, 0, 0..0));
        assert_eq!(told(3), (0, 44, 4, 0, 0..0));
        assert_eq!(told(5), (0, 2, 0, 2, 0..0));
        assert_eq!(told(7), (0, 41, 0, 0, 0..0));
        for k in [8, 9, usize::MAX] {
            assert_eq!(told(k), (17, 0, 0, 0, 0..0));
        }
        assert_eq!(describe(&table[1..], 0).number, 12);
    }

    #[test]
    fn kinds_2_and_4_pass_and_no_other() {
        let first = table_of(1, b"Op << 33 == 84").unwrap();
        let second = table_of(2, b"Op << 33 == 84").unwrap();
        for kind in 0..=65535u16 {
            let mut table = first.clone();
            table[4..6].copy_from_slice(&kind.to_le_bytes());
            let number = if [2, 4].contains(&kind) { 0 } else { 12 };
            assert_eq!(check(&table), number, "{kind}");
            assert_eq!(table == second, kind == 4);
        }
        for k in 0..6 {
            assert_eq!(describe(&first, k), describe(&second, k));
        }
    }

    #[test]
    fn a_damaged_table_fails() {
        let table = table_of(1, b"a == 1 && b == 2").unwrap();
        for at in [0, 4, 5, 6, 8, 10, 12, 14, 24] {
            let mut damaged = table.clone();
            damaged[at] ^= 64;
            assert_eq!(check(&damaged), 12, "{at}");
        }
        assert_eq!(check(&table[..table.len() - 1]), 12);
    }

    #[test]
    fn a_pattern_is_well_formed_and_stands_directly_before() {
        let table = table_of(1, b"wildcard (a, \"x*\", \"[y]\")").unwrap();
        assert_eq!(check(&table), 0);
        let pool = 10 + 12 * 4;
        assert_eq!(&table[pool..], b"ax*[y]");
        let with = |at: usize, byte: u8| {
            let mut table = table.clone();
            table[at] = byte;
            check(&table)
        };
        assert_eq!(with(pool + 2, b'['), 12);
        assert_eq!(with(pool + 4, b']'), 12);
        assert_eq!(with(pool + 5, b'y'), 12);
        // an operand that is a name, which is as right as the string
        assert_eq!(with(10 + 12, 5), 12);
        // the string in a fold, so that another entry stands directly before
        let fold = [6, 0, 0, 0, 0, 0, 0, 0, 0, 0, 0, 0];
        let mut folded = table.clone();
        folded.splice(46..46, fold);
        folded[0] += 12;
        folded[6] += 1;
        assert_eq!(check(&folded), 12);
        let mut first = table.clone();
        first.splice(22..22, fold);
        first[0] += 12;
        first[6] += 1;
        assert_eq!(check(&first), 0);
    }

    #[test]
    fn a_skip_that_lands_elsewhere_fails() {
        let mut table = table_of(1, b"a == 1 && b == 2").unwrap();
        let skip = 10 + 12 * 3 + 2;
        assert_eq!(table[skip], 4);
        table[skip] = 3;
        assert_eq!(check(&table), 12);
        table[skip] = 5;
        assert_eq!(check(&table), 12);
    }
}
