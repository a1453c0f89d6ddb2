//! Integers beside reals and integer results beyond int64 (document 02, request 6).

use crate::clock::Pace;
use crate::hostile::{self, Entry};
use crate::load::Dice;
use crate::strings::{guarded, inner};
use crate::{head, table_of};

/// A meter that f64 counts, and one beyond 2^53 that it does not.
const SHORT: i64 = 1_234_567;
const LONG: i64 = (1 << 60) + 1;
const METERS: [(&str, i64); 2] = [("1,234,567", SHORT), ("2^60 + 1", LONG)];

const MOST: i64 = i64::MAX;
const LEAST: i64 = i64::MIN;

fn whole(n: i64) -> Entry {
    (2, 0, n as u64)
}

fn real(x: f64) -> Entry {
    (3, 0, x.to_bits())
}

/// `real64`, which tells a result by its type, as one step.
const IS_REAL: Entry = (50, 0, 0);

/// A notice of one field `Meter`.
fn meter(n: i64) -> Vec<u8> {
    hostile::notice(&[(b"Meter".to_vec(), 2, n.to_le_bytes().to_vec())])
}

/// The inner run of a table that has the group as often as it fits.
fn often(name: &str, group: &[Entry], notice: &[u8], pace: Pace) {
    let entries = hostile::often(group);
    let ops = (entries.len() + 1) / (group.len() + 1);
    inner(name, &hostile::table(&entries, b"Meter"), notice, pace, ops);
}

pub fn rows(pace: Pace) {
    head("trip meters, guarded run, per notice", "ns");
    let table = table_of("Meter > 1.5");
    for (name, n) in METERS {
        let name = format!("Meter > 1.5, {name}");
        guarded(&name, &table, &meter(n), pace, 1.0, 1);
    }
    head("integers and reals, inner run, per operator", "ns");
    for (name, n) in METERS {
        beside_reals(name, n, pace);
    }
    head("integer results, inner run, per operator", "ns");
    results(pace);
}

/// The integer compared with reals and added to one.
fn beside_reals(name: &str, n: i64, pace: Pace) {
    let field = [hostile::name(5, 0), real(1.5), (36, 0, 0)];
    often(&format!("a field > 1.5, {name}"), &field, &meter(n), pace);
    for (op, x, how) in [
        (36, 1.5, "> 1.5"),
        (34, n as f64, "< its nearest real"),
        (32, n as f64, "== its nearest real"),
        (34, f64::INFINITY, "< infinity"),
    ] {
        let group = [whole(n), real(x), (op, 0, 0)];
        often(&format!("{name} {how}"), &group, &hostile::EMPTY, pace);
    }
    let group = [whole(n), real(1.5), (25, 0, 0), IS_REAL];
    often(&format!("{name} + 1.5"), &group, &hostile::EMPTY, pace);
}

/// Results that int64 holds, and ones that it does not.
fn results(pace: Pace) {
    let rows: [(&str, i64, u16, i64); 10] = [
        ("a sum within int64", LONG, 25, SHORT),
        ("a sum beyond int64", MOST, 25, 1025),
        ("a sum beyond -2^63", LEAST, 25, -1025),
        ("a difference beyond int64", MOST, 26, -LONG),
        ("a product within int64", SHORT, 22, SHORT),
        ("a product beyond int64, 64 bits", LONG, 22, 8),
        ("a product beyond int64, 81 bits", LONG, 22, SHORT),
        ("a product beyond int64, 126 bits", MOST, 22, MOST),
        ("the least int64 times itself, 127 bits", LEAST, 22, LEAST),
        ("the least int64 by -1", LEAST, 23, -1),
    ];
    for (name, a, op, b) in rows {
        let group = [whole(a), whole(b), (op, 0, 0), IS_REAL];
        often(name, &group, &hostile::EMPTY, pace);
    }
}

/// A table of one operator on two numbers near the limits, its result, if it is no truth value, beside a third.
pub fn any(dice: &mut Dice) -> Vec<u8> {
    let op = [22, 23, 24, 25, 26, 32, 33, 34, 35, 36, 37][dice.next(11)];
    let (a, b) = (number(dice), number(dice));
    let mut entries = vec![a, b, (op, 0, 0)];
    if op < 32 {
        // a real near the result, so that one digit more or less tells
        let (x, y) = (as_real(a), as_real(b));
        let z = match op {
            22 => x * y,
            25 => x + y,
            26 => x - y,
            _ => x / y,
        };
        let near = f64::from_bits(z.to_bits().wrapping_add([0, 1, !0][dice.next(3)]));
        entries.push([real(z), real(z), real(near), number(dice)][dice.next(4)]);
        entries.push((32 + dice.next(6) as u16, 0, 0));
    }
    hostile::table(&entries, b"")
}

fn as_real(number: Entry) -> f64 {
    match number.0 {
        3 => f64::from_bits(number.2),
        _ => number.2 as i64 as f64,
    }
}

/// An int32, an int64 or a real near 0, 2^31, 2^53 or 2^63, or anywhere.
fn number(dice: &mut Dice) -> Entry {
    let few = dice.next(5) as i64 - 2;
    let n = match dice.next(6) {
        0 => few,
        1 => (1 << 31) + few,
        2 => (1 << (53 + dice.next(10))) + few,
        3 => MOST - dice.next(3) as i64 * 512,
        4 => LEAST + dice.next(3) as i64 * 512,
        _ => (dice.next(1 << 32) as i64) << 31 ^ dice.next(1 << 32) as i64,
    };
    let n = if dice.next(2) == 0 {
        n
    } else {
        n.wrapping_neg()
    };
    match dice.next(6) {
        0 => (1, 0, n as i32 as i64 as u64),
        1 | 2 => whole(n),
        3 => real(n as f64 + 0.5),
        4 => real(
            [
                f64::INFINITY,
                -f64::INFINITY,
                f64::NAN,
                f64::MAX,
                -0.0,
                5e-324,
            ][dice.next(6)],
        ),
        _ => {
            let bits = (n as f64).to_bits();
            (3, 0, bits.wrapping_add(dice.next(3) as u64).wrapping_sub(1))
        }
    }
}
