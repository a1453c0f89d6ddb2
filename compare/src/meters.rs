//! The kind of case `meter`: integers beside reals, and integer results beyond int64 (document 02, request
//! 6), in tables and in texts. Where they lie is told by the corners of the ops.

use crate::cases::{Case, Outcome};
use crate::editions;
use crate::notices::{rendered, Field};
use crate::operations::{pushed, told, whole};
use crate::random::Random;
use crate::tables::{laid_out, Draft};
use reference::op::Op;
use reference::value::{binary, Slot, Value};
use reference::Edition;

/// So many tables are tried in one case, and an eighth as many texts.
const TRIED: usize = 40;

const COMPARISONS: [(Op, &str); 6] = [
    (Op::Equal, "=="),
    (Op::Unequal, "!="),
    (Op::Less, "<"),
    (Op::LessEqual, "<="),
    (Op::Greater, ">"),
    (Op::GreaterEqual, ">="),
];
const ARITHMETIC: [(Op, &str); 5] = [
    (Op::Times, "*"),
    (Op::Divide, "/"),
    (Op::Plus, "+"),
    (Op::Minus, "-"),
    (Op::Rest, "%"),
];

impl Case<'_> {
    pub fn meter(&mut self) -> Outcome {
        (0..TRIED).try_for_each(|_| self.meter_table())?;
        (0..TRIED / 8).try_for_each(|_| self.meter_text())
    }

    /// A table of one operator on two numbers.
    fn meter_table(&mut self) -> Outcome {
        let (op, left, right) = numbers(&mut self.random);
        let edition = editions::any(&mut self.random);
        let table = match op {
            Op::Equals => equals(&mut self.random, edition, &left, &right),
            _ => told(&mut self.random, edition, op, left, right),
        };
        self.running(&table, &virentolex::raw::EMPTY_NOTICE)
            .map(|_| ())
    }

    /// A text of one operator on the fields `m` and `n`, its result beside the field `r`.
    fn meter_text(&mut self) -> Outcome {
        let (op, left, right) = numbers(&mut self.random);
        let spelled = |(of, spelling): &(Op, &'static str)| (*of == op).then_some(*spelling);
        let mut fields = vec![field("m", &left), field("n", &right)];
        let text = match ARITHMETIC.iter().find_map(spelled) {
            Some(operator) => {
                let result = binary(Edition::First, op, Some(left), Some(right));
                if let Slot::Value(Some(value)) = result {
                    fields.push(field("r", &value));
                }
                let comparison = self.random.pick(&COMPARISONS).1;
                format!("m {operator} n {comparison} r")
            }
            None => match COMPARISONS.iter().find_map(spelled) {
                Some(comparison) => format!("m {comparison} n"),
                None => "equals (m, 1, n, 'n')".to_string(),
            },
        };
        self.both_editions(text.as_bytes(), &rendered(&fields))
    }
}

/// `equals` with the value as one of 1 to 8.
fn equals(random: &mut Random, edition: Edition, first: &Value, value: &Value) -> Vec<u8> {
    let count = random.pick(&[1, 1, 2, 8]);
    let at = random.below(count);
    let mut entries = vec![pushed(first)];
    for other in 0..count {
        entries.push(match other == at {
            true => pushed(value),
            false => pushed(&Value::Int32(random.below(9) as i32)),
        });
    }
    entries.push((Op::Equals.code(), count as u16, 0));
    let pool = Vec::new();
    laid_out(edition, &Draft { entries, pool })
}

/// A field of the value.
pub fn field(name: &str, value: &Value) -> Field {
    let (kind, value) = match value {
        Value::Int32(n) => (1, n.to_le_bytes().to_vec()),
        Value::Int64(n) => (2, n.to_le_bytes().to_vec()),
        Value::Real64(x) => (3, x.to_bits().to_le_bytes().to_vec()),
        Value::Text(bytes) => (4, bytes.clone()),
        Value::Opaque(bytes) => (5, bytes.clone()),
    };
    let name = name.into();
    Field { name, kind, value }
}

/// An operator and its two numbers.
fn numbers(random: &mut Random) -> (Op, Value, Value) {
    match random.below(8) {
        0..=4 => {
            let (n, x) = compared(random);
            let op = match random.below(7) {
                0 => Op::Equals,
                _ => random.pick(&COMPARISONS).0,
            };
            turned(random, op, n, x)
        }
        5 => {
            let (n, x) = (large(random), partner(random));
            let op = random.pick(&ARITHMETIC).0;
            turned(random, op, n, x)
        }
        _ => beyond(random),
    }
}

/// The integer of either type, as it fits, and the real, in either order.
fn turned(random: &mut Random, op: Op, n: i64, x: f64) -> (Op, Value, Value) {
    let (n, x) = (whole(random, n), Value::Real64(x));
    match random.below(2) {
        0 => (op, n, x),
        _ => (op, x, n),
    }
}

/// An integer and a real that it is compared with.
fn compared(random: &mut Random) -> (i64, f64) {
    match random.below(10) {
        0 => halves(random),
        1 => tiny(random),
        2 => edges(random),
        3 => at_2_53(random),
        _ => {
            let n = large(random);
            (n, near(random, n))
        }
    }
}

/// An integer of which most have no f64 of their own: near 2^53 or another power, near an end, half way
/// between two reals, or any.
fn large(random: &mut Random) -> i64 {
    let few = random.below(7) as i64 - 3;
    let size = match random.below(6) {
        0 => (1 << 53) + few,
        1 => (1 << random.between(53, 62)) + few,
        2 => i64::MAX - random.pick(&[0, 0, 1, 511, 512, 513, 1023, 1024, 1025]),
        3 => between_reals(random) << random.below(9),
        4 => return random.pick(&[i64::MIN, i64::MIN, i64::MIN + 1, i64::MIN + few.abs()]),
        _ => (random.word() >> random.between(1, 10)) as i64,
    };
    signed(random, size)
}

/// An odd integer of 54 digits: half way between two reals.
fn between_reals(random: &mut Random) -> i64 {
    (1 << 53) | (random.word() >> 11) as i64 | 1
}

fn signed(random: &mut Random, size: i64) -> i64 {
    match random.below(2) {
        0 => size,
        _ => -size,
    }
}

/// The integer's nearest real, the next ones, or one that lies far off.
fn near(random: &mut Random, n: i64) -> f64 {
    let nearest = n as f64;
    match random.below(12) {
        0..=5 => nearest,
        6 | 7 => nearest.next_up(),
        8 | 9 => nearest.next_down(),
        _ => far(random),
    }
}

fn far(random: &mut Random) -> f64 {
    let size = random.pick(&[f64::INFINITY, f64::INFINITY, f64::NAN, f64::MAX, 1.5, 1e19]);
    match random.below(2) {
        0 => size,
        _ => -size,
    }
}

/// An integer and a real half above or below it.
fn halves(random: &mut Random) -> (i64, f64) {
    let size = match random.below(3) {
        0 => (1 << 51) - random.below(3) as i64,
        _ => random.below(4) as i64,
    };
    let n = signed(random, size);
    (n, n as f64 + random.pick(&[0.5, -0.5]))
}

/// -1, 0 or 1 and a real nearer to 0 than every normal one.
fn tiny(random: &mut Random) -> (i64, f64) {
    let any = random.word() >> 12 | 1;
    let bits = random.pick(&[1, 2, (1 << 52) - 1, any]);
    let sign = random.pick(&[0, 1 << 63]);
    (random.pick(&[-1, 0, 0, 1]), f64::from_bits(bits | sign))
}

/// 2^53 or one beside it, and 2^53 as a real; or these negated.
fn at_2_53(random: &mut Random) -> (i64, f64) {
    let size = (1 << 53) + random.pick(&[-1, 0, 1]);
    random.pick(&[(size, 2f64.powi(53)), (-size, -(2f64.powi(53)))])
}

/// The ends of int64, or an int32, and a real near -2^63 or 2^63.
fn edges(random: &mut Random) -> (i64, f64) {
    let end = random.pick(&[2f64.powi(63), -(2f64.powi(63))]);
    let x = random.pick(&[end, end, end.next_up(), end.next_down()]);
    let n = random.pick(&[i64::MAX, i64::MAX, i64::MIN, i64::MIN, i64::MIN + 1, 7, -7]);
    (n, x)
}

/// A real that stands beside an integer in arithmetic.
fn partner(random: &mut Random) -> f64 {
    match random.below(8) {
        0 => f64::from_bits(random.word()),
        1 => far(random),
        2 => large(random) as f64,
        _ => random.pick(&[1.0, -1.0, 0.5, 3.0, -2.5, 0.0, -0.0, 1e-300]),
    }
}

/// Two integers whose sum, difference, product or quotient lies beyond int64 as a rule.
fn beyond(random: &mut Random) -> (Op, Value, Value) {
    let (op, left, right) = match random.below(8) {
        0..=2 => sum_beyond(random),
        3 => half_way_product(random),
        4 | 5 => product_near_half(random),
        6 => ends(random),
        _ => {
            let a = random.word() as i64;
            (Op::Times, a, random.word() as i64 >> random.below(40))
        }
    };
    (op, whole(random, left), whole(random, right))
}

/// A sum or a difference of 64 digits: half way between two reals, one or two beside that, or any.
fn sum_beyond(random: &mut Random) -> (Op, i64, i64) {
    let few = random.below(7) as i128 - 3;
    let above = match random.below(4) {
        0 => i128::from(random.word() >> 2),
        1 => i128::from(random.word() >> 12) * 2048,
        _ => i128::from(random.word() >> 13) * 1024 + few,
    };
    let (most, size) = (i128::from(i64::MAX), (1i128 << 63) + above.max(0));
    let least = size - most;
    let part = least + i128::from(random.word()) % (most - least + 1);
    let (a, b) = (part as i64, (size - part) as i64);
    match random.below(4) {
        0 => (Op::Plus, a, b),
        1 => (Op::Plus, -a, -b),
        2 => (Op::Minus, a, -b),
        _ => (Op::Minus, -a, b),
    }
}

/// A product of 54 digits times a power of two.
fn half_way_product(random: &mut Random) -> (Op, i64, i64) {
    let power = 1i64 << random.between(10, 62);
    let a = between_reals(random);
    let (a, power) = (signed(random, a), signed(random, power));
    match random.below(2) {
        0 => (Op::Times, a, power),
        _ => (Op::Times, power, a),
    }
}

/// A product that, as often as not, is one to three beside half way between two reals: of an odd factor of
/// 53 digits and the one that makes its last digits so.
fn product_near_half(random: &mut Random) -> (Op, i64, i64) {
    let a = (1 << 52) | random.word() >> 12 | 1;
    let digits = random.between(12, 63);
    let few = random.pick(&[1, 2, 3, u64::MAX, u64::MAX - 1, u64::MAX - 2]);
    let last = (1u64 << (digits - 1)).wrapping_add(few);
    let b = last.wrapping_mul(inverse(a)) & ((1 << digits) - 1);
    let (a, b) = (a as i64, b as i64);
    (Op::Times, signed(random, a), signed(random, b))
}

/// The odd number's inverse by the power of two of a word, each step with twice as many right digits.
fn inverse(odd: u64) -> u64 {
    (0..6).fold(odd, |so_far, _| {
        so_far.wrapping_mul(2u64.wrapping_sub(odd.wrapping_mul(so_far)))
    })
}

/// The ends of int64 with each other, -1, 0 and 2.
fn ends(random: &mut Random) -> (Op, i64, i64) {
    const ENDS: [i64; 7] = [i64::MIN, i64::MIN, i64::MAX, i64::MAX, i64::MIN + 1, -1, 2];
    match random.below(4) {
        0 => (random.pick(&[Op::Divide, Op::Rest]), i64::MIN, -1),
        1 => (Op::Minus, 0, i64::MIN),
        _ => {
            let op = random.pick(&[Op::Times, Op::Times, Op::Plus, Op::Minus]);
            (op, random.pick(&ENDS), random.pick(&ENDS))
        }
    }
}

#[cfg(test)]
mod tests {
    use super::*;

    #[test]
    fn an_inverse_times_its_number_is_one() {
        for odd in [1, 3, 5, (1 << 52) + 1, u64::MAX, 0x1234_5678_9abc_def1] {
            assert_eq!(odd.wrapping_mul(inverse(odd)), 1, "{odd}");
        }
    }
}
