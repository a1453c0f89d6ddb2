//! What the operands of a visited entry are, for the corners.

use crate::corners::Visit;
use reference::op::Op;
use reference::value::{many, Slot, Truth, Value};

fn value(slot: &Slot) -> Option<&Value> {
    match slot {
        Slot::Value(value) => value.as_ref(),
        Slot::Truth(_) => None,
    }
}

pub fn is_bottom(slot: &Slot) -> bool {
    value(slot).is_none()
}

pub fn is_int32(slot: &Slot) -> bool {
    matches!(value(slot), Some(Value::Int32(_)))
}

pub fn is_int64(slot: &Slot) -> bool {
    matches!(value(slot), Some(Value::Int64(_)))
}

pub fn is_real(slot: &Slot) -> bool {
    real(slot).is_some()
}

pub fn is_text(slot: &Slot) -> bool {
    text(slot).is_some()
}

pub fn is_opaque(slot: &Slot) -> bool {
    opaque_bytes(slot).is_some()
}

pub fn is_whole(slot: &Slot) -> bool {
    whole(slot).is_some()
}

pub fn is_number(slot: &Slot) -> bool {
    is_whole(slot) || is_real(slot)
}

pub fn real(slot: &Slot) -> Option<f64> {
    match value(slot) {
        Some(Value::Real64(x)) => Some(*x),
        _ => None,
    }
}

pub fn whole(slot: &Slot) -> Option<i64> {
    match value(slot) {
        Some(Value::Int32(n)) => Some(i64::from(*n)),
        Some(Value::Int64(n)) => Some(*n),
        _ => None,
    }
}

pub fn text(slot: &Slot) -> Option<&[u8]> {
    match value(slot) {
        Some(Value::Text(bytes)) => Some(bytes),
        _ => None,
    }
}

pub fn opaque_bytes(slot: &Slot) -> Option<&[u8]> {
    match value(slot) {
        Some(Value::Opaque(bytes)) => Some(bytes),
        _ => None,
    }
}

/// The bytes of a string or an opaque value; 0 for others.
fn size(slot: &Slot) -> usize {
    match value(slot) {
        Some(Value::Text(bytes) | Value::Opaque(bytes)) => bytes.len(),
        _ => 0,
    }
}

pub fn is_nan(slot: &Slot) -> bool {
    real(slot).is_some_and(f64::is_nan)
}

pub fn is_infinity(slot: &Slot) -> bool {
    real(slot) == Some(f64::INFINITY)
}

pub fn is_minus_infinity(slot: &Slot) -> bool {
    real(slot) == Some(f64::NEG_INFINITY)
}

pub fn is_zero(slot: &Slot) -> bool {
    real(slot).is_some_and(|x| x.to_bits() == 0)
}

pub fn is_minus_zero(slot: &Slot) -> bool {
    real(slot).is_some_and(|x| x.to_bits() == 1 << 63)
}

pub fn is_least_32(slot: &Slot) -> bool {
    is_int32(slot) && whole(slot) == Some(i32::MIN.into())
}

pub fn is_least_64(slot: &Slot) -> bool {
    whole(slot) == Some(i64::MIN)
}

pub fn is_negative(slot: &Slot) -> bool {
    whole(slot).is_some_and(|n| n < 0)
}

pub fn is_negative_32(slot: &Slot) -> bool {
    is_int32(slot) && is_negative(slot)
}

pub fn is_minus_one(slot: &Slot) -> bool {
    whole(slot) == Some(-1)
}

pub fn is_whole_zero(slot: &Slot) -> bool {
    whole(slot) == Some(0)
}

pub fn is_empty(slot: &Slot) -> bool {
    text(slot).is_some_and(<[u8]>::is_empty)
}

pub fn is_some_text(slot: &Slot) -> bool {
    text(slot).is_some_and(|bytes| !bytes.is_empty())
}

type Is = fn(&Slot) -> bool;

impl Visit<'_> {
    /// The first operand.
    pub fn is(&self, first: Is) -> bool {
        first(&self.operands[0])
    }

    /// The first operand is a string of that size.
    pub fn text_of(&self, bytes: usize) -> bool {
        self.is(is_text) && size(&self.operands[0]) == bytes
    }

    pub fn opaque_of(&self, bytes: usize) -> bool {
        self.is(is_opaque) && size(&self.operands[0]) == bytes
    }

    /// The first operand is a string with the byte.
    pub fn holds(&self, byte: u8) -> bool {
        text(&self.operands[0]).is_some_and(|bytes| bytes.contains(&byte))
    }

    pub fn sides(&self, left: Is, right: Is) -> bool {
        left(&self.operands[0]) && right(&self.operands[1])
    }

    pub fn either(&self, one: Is, other: Is) -> bool {
        self.sides(one, other) || self.sides(other, one)
    }

    pub fn both(&self, each: Is) -> bool {
        self.sides(each, each)
    }

    pub fn beside_number(&self, one: Is) -> bool {
        self.either(one, is_number)
    }

    /// The integer beside a real.
    pub fn beside_real(&self, integer: i64) -> bool {
        let (left, right) = (&self.operands[0], &self.operands[1]);
        whole(left) == Some(integer) && is_real(right)
            || is_real(left) && whole(right) == Some(integer)
    }

    /// The two integers, in either order.
    pub fn wholes(&self, one: i64, other: i64) -> bool {
        let sides = (whole(&self.operands[0]), whole(&self.operands[1]));
        sides == (Some(one), Some(other)) || sides == (Some(other), Some(one))
    }

    /// Two integers of the width whose exact result is so far over an end of it.
    pub fn to_end(&self, width: u32, over: i128) -> bool {
        let wide = if width == 32 { is_int32 } else { is_int64 };
        let (Some(a), Some(b)) = (whole(&self.operands[0]), whole(&self.operands[1])) else {
            return false;
        };
        let (a, b) = (i128::from(a), i128::from(b));
        let result = match self.op {
            Op::Plus => a + b,
            Op::Minus => a - b,
            _ => a * b,
        };
        let half = 1i128 << (width - 1);
        self.both(wide) && (result == half - 1 + over || result == -half - over)
    }

    /// Two strings of that size that are equal.
    pub fn alike(&self, bytes: usize) -> bool {
        let (left, right) = (text(&self.operands[0]), text(&self.operands[1]));
        left == right && left.is_some_and(|text| text.len() == bytes)
    }

    /// Two strings of that size that differ in the last byte alone.
    pub fn last_unlike(&self, bytes: usize) -> bool {
        match (text(&self.operands[0]), text(&self.operands[1])) {
            (Some([left @ .., a]), Some([right @ .., b])) => {
                left.len() + 1 == bytes && left == right && a != b
            }
            _ => false,
        }
    }

    pub fn later(&self, any: Is) -> bool {
        self.operands[1..].iter().any(any)
    }

    /// What the op gives with the first so many of its later operands.
    fn with_later(&self, count: usize) -> Truth {
        let value = |slot: &Slot| value(slot).cloned();
        let later = self.operands[1..=count].iter().map(value).collect();
        many(self.op, value(&self.operands[0]), later)
    }

    pub fn last_of_8(&self) -> bool {
        self.operands.len() == 9
            && self.with_later(7) == Truth::False
            && self.with_later(8) == Truth::True
    }

    pub fn first_of_8(&self) -> bool {
        self.operands.len() == 9 && self.with_later(1) == Truth::True
    }

    pub fn none_of_8(&self) -> bool {
        self.operands.len() == 9 && self.with_later(8) == Truth::False
    }

    /// A later operand that is no string, and one that fits.
    pub fn fits_beside_other(&self) -> bool {
        let fits = |at: usize| {
            let two = [self.operands[0].clone(), self.operands[at].clone()];
            Visit {
                operands: &two,
                ..*self
            }
            .with_later(1)
                == Truth::True
        };
        self.is(is_text) && self.later(|slot| !is_text(slot)) && (1..self.operands.len()).any(fits)
    }

    /// `equals` is true, and one of its values is bottom.
    pub fn equal_beside_bottom(&self) -> bool {
        self.later(is_bottom) && self.with_later(self.operands.len() - 1) == Truth::True
    }

    /// A literal that is so much longer than the first operand.
    pub fn longer_by(&self, more: usize) -> bool {
        let first = size(&self.operands[0]);
        let is = |slot: &Slot| is_text(slot) && size(slot) == first + more;
        self.is(is_some_text) && self.operands[1..].iter().any(is)
    }

    pub fn found(&self) -> bool {
        self.place.is_ok()
    }

    /// The field at that place of 64 has the name.
    pub fn found_at(&self, at: usize) -> bool {
        self.names.len() == 64 && self.place == Ok(at)
    }

    /// None of 64 fields has the name, and it would stand at one of the places.
    pub fn missing_at(&self, mut at: std::ops::RangeInclusive<usize>) -> bool {
        self.names.len() == 64 && at.any(|at| self.place == Err(at))
    }

    /// The field that would come next starts with the name.
    pub fn begins_field(&self) -> bool {
        let next = self.place.err().and_then(|at| self.names.get(at));
        next.is_some_and(|next| next.starts_with(self.name))
    }

    /// The name starts with the field that would come before it.
    pub fn field_begins(&self) -> bool {
        let last = self
            .place
            .err()
            .and_then(|at| self.names.get(at.checked_sub(1)?));
        last.is_some_and(|last| self.name.starts_with(last))
    }
}
