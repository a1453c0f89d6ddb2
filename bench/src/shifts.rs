//! Shifts, by both editions (document 02, request 9).

use crate::clock::Pace;
use crate::hostile::{self, Entry};
use crate::load::Dice;
use crate::strings::{guarded, inner};
use crate::{head, table_of};

/// The kinds of both editions' tables.
const EDITIONS: [(&str, u16); 2] = [("first", 2), ("second", 4)];

/// `int32` and `int64`, which tell a result by its type, as one step.
const IS_SHORT: Entry = (48, 0, 0);
const IS_LONG: Entry = (49, 0, 0);

fn short(n: i32) -> Entry {
    (1, 0, n as i64 as u64)
}

fn long(n: i64) -> Entry {
    (2, 0, n as u64)
}

/// A notice of the int32 fields `Door` and `Open`.
fn door(door: i32) -> Vec<u8> {
    let field = |name: &[u8], n: i32| (name.to_vec(), 1, n.to_le_bytes().to_vec());
    hostile::notice(&[field(b"Door", door), field(b"Open", 2)])
}

pub fn rows(pace: Pace) {
    head("shifts, guarded run, per notice", "ns");
    let table = table_of("1 << Door & Open != 0");
    for count in [1, 33] {
        for (edition, kind) in EDITIONS {
            let name = format!("1 << Door & Open != 0, Door {count}, {edition} edition");
            let table = hostile::of_kind(kind, table.clone());
            guarded(&name, &table, &door(count), pace, 1.0, 1);
        }
    }
    head("shifts, inner run, per operator", "ns");
    let field = hostile::name(4, 0);
    let rows: [(&str, Entry, Entry, u16, Entry); 8] = [
        ("int32 << 5", short(42), short(5), 16, IS_SHORT),
        ("int32 >>> a field of 1", short(-42), field, 18, IS_SHORT),
        ("int64 >> 40", long(-1 << 50), short(40), 17, IS_LONG),
        ("int64 >>> 40 of int64", long(-1), long(40), 18, IS_LONG),
        ("int32 << -1", short(42), short(-1), 16, IS_SHORT),
        ("int32 >> 33", short(-42), short(33), 17, IS_SHORT),
        ("int64 << -1", long(42), short(-1), 16, IS_LONG),
        (
            "int64 >>> 2^32 + 5",
            long(-1),
            long((1 << 32) + 5),
            18,
            IS_LONG,
        ),
    ];
    for (name, left, count, op, test) in rows {
        let group = [left, count, (op, 0, 0), test];
        let entries = hostile::often(&group);
        let ops = (entries.len() + 1) / (group.len() + 1);
        for (edition, kind) in EDITIONS {
            let table = hostile::of_kind(kind, hostile::table(&entries, b"Door"));
            let name = format!("{name}, {edition} edition");
            inner(&name, &table, &door(1), pace, ops);
        }
    }
}

/// A table of either edition of one shift, its count near 0 or a multiple of a width, at an end of its type, or anywhere; the result beside
/// an integer that is often the same, or told by its type.
pub fn any(dice: &mut Dice) -> Vec<u8> {
    let op = 16 + dice.next(3) as u16;
    let wide = dice.next(2) == 1;
    let n = [0, 1, -1, -42, i64::MIN, i64::MAX][dice.next(6)] ^ dice.next(1 << 20) as i64;
    let k = match dice.next(4) {
        0 => dice.next(64) as i64,
        1 => (dice.next(9) as i64 - 4) * 32 + dice.next(3) as i64 - 1,
        2 => {
            let ends = [
                i32::MAX as i64,
                i32::MIN as i64,
                i64::MIN,
                i64::MAX,
                1 << 32,
            ];
            ends[dice.next(5)].wrapping_add(dice.next(70) as i64 - 35)
        }
        _ => (dice.next(1 << 32) as i64) << 31 ^ dice.next(1 << 32) as i64,
    };
    let left = if wide { long(n) } else { short(n as i32) };
    let count = if dice.next(2) == 0 {
        long(k)
    } else {
        short(k as i32)
    };
    let kind = [2, 4][dice.next(2)];
    let mut entries = vec![left, count, (op, 0, 0)];
    match dice.next(4) {
        0 => entries.push((48 + dice.next(7) as u16, 0, 0)),
        _ => {
            // the count of an int32 entry is its own
            let by = (count.2 as i64).rem_euclid(if wide { 64 } else { 32 }) as u32;
            let z = match (wide, op) {
                (true, 16) => long(n << by),
                (true, 17) => long(n >> by),
                (true, _) => long((n as u64 >> by) as i64),
                (false, 16) => short((n as i32) << by),
                (false, 17) => short(n as i32 >> by),
                (false, _) => short((n as i32 as u32 >> by) as i32),
            };
            entries.push([z, z, long(dice.next(9) as i64)][dice.next(3)]);
            entries.push((32 + dice.next(6) as u16, 0, 0));
        }
    }
    hostile::of_kind(kind, hostile::table(&entries, b""))
}
