//! Parts of a subscription that are bottom on every notice, or true on none.
use super::kinds::{Kinds, Literal, Need};
use super::possible::{Condition, Leaves, Possible};
use super::{wrong_kind, wrong_value, Part, Why};
use virentolex::{Entry, Operand};

/// What is to be said of an entry.
#[derive(Debug, Clone, PartialEq, Eq)]
pub struct Finding {
    pub entry: usize,
    pub why: String,
}

impl<'a> Why<'a> {
    /// Each operator of a table that was translated that is bottom on every notice, or true on none, by itself and not
    /// by an operand that is so; and the whole, if it is true on none.
    pub fn always(&self) -> Vec<Finding> {
        let possible = Possible::of(self);
        let mut found = Vec::new();
        for (entry, k) in self.program.entries().zip(0..) {
            found.extend(self.unfit(&possible, k, &entry));
            let why = match &possible.leaves[k] {
                leaves if leaves.is_bottom() => self.bottom(&possible, k, &entry),
                leaves if leaves.is_never_true() => self.never(&possible, k, &entry),
                _ => None,
            };
            found.extend(why.map(|why| Finding { entry: k, why }));
        }
        found.extend(whole(&possible, &found));
        found
    }

    /// Why entry k is always bottom; none if an operand is.
    fn bottom(&self, possible: &Possible<'a>, k: usize, entry: &Entry) -> Option<String> {
        let operands = &possible.operands[k];
        let is_bottom = |x: &usize| possible.leaves[*x].is_bottom();
        if operands.iter().any(is_bottom) {
            return None;
        }
        let part = |x: &usize| Part {
            phrase: self.shown(*x),
            kinds: possible.leaves[*x].kinds(),
        };
        let parts: Vec<Part> = operands.iter().map(part).collect();
        let why = match (entry.op, &operands[..]) {
            (40..=43, _) => None,
            (23 | 24, [_, x]) if self.is_zero(*x) => Some(wrong_value(entry, &parts)),
            _ => wrong_kind(entry, &parts).or_else(|| match (entry.op, &operands[..]) {
                (16..=18, [_, x]) if self.is_outside(Kinds::INT32, *x) => {
                    Some(wrong_value(entry, &parts))
                }
                _ => None,
            }),
        };
        let why = why.unwrap_or_else(|| "a field in it would have to be of two kinds".into());
        Some(format!("always bottom: {why}"))
    }

    /// Why entry k, a condition that is false on some notice, is true on none; none if an operand is the cause.
    fn never(&self, possible: &Possible<'a>, k: usize, entry: &Entry) -> Option<String> {
        let operands = &possible.operands[k];
        let conditions = possible.conditions(operands);
        let why = match (entry.op, &conditions[..]) {
            (40, [_]) if self.op(operands[0]) == Some(54) => {
                "! require is never true, since require is true or bottom; that a field is absent cannot be asked"
                    .into()
            }
            (40, [_]) => "never true: what ! stands before is never false".into(),
            (41, [a, b]) => conflict(a, b)?,
            (42, [a, b]) if [a, b].iter().all(|c| c.yes.is_some()) => {
                "never true: no notice makes one side of ^^ true and the other false".into()
            }
            (32..=37, _) if self.program.is_constant(k) => {
                "false on every notice, since there is no field in it".into()
            }
            _ => return None,
        };
        Some(why)
    }

    /// The strings that a folded operand of entry k never fits.
    fn unfit(&self, possible: &Possible<'a>, k: usize, entry: &Entry) -> Vec<Finding> {
        let operands = &possible.operands[k];
        let folded = |x: &usize| matches!(&possible.leaves[*x], Leaves::Value(v) if v.folded);
        // `equals` compares with its first operand, a name
        if !matches!(entry.op, 32 | 33 | 56..=58 | 60) || !operands.iter().any(folded) {
            return Vec::new();
        }
        let unfit = operands.iter().filter(|x| self.has_capitals(**x, entry.op));
        let why = "this never fits: fold-case leaves no A to Z, so write small letters";
        unfit
            .map(|x| Finding {
                entry: *x,
                why: why.into(),
            })
            .collect()
    }

    /// Whether entry x is a string, or a pattern of the op, that no string without A to Z fits.
    pub(super) fn has_capitals(&self, x: usize, op: u16) -> bool {
        let Some(bytes) = self.program.entry(x).filter(|e| e.op == 4).map(|e| e.bytes) else {
            return false;
        };
        match op {
            60 => plain(bytes).any(|byte| byte.is_ascii_uppercase()),
            61 => false,
            _ => bytes.iter().any(u8::is_ascii_uppercase),
        }
    }

    fn op(&self, k: usize) -> Option<u16> {
        self.program.entry(k).map(|entry| entry.op)
    }
}

/// The bytes of a wildcard pattern that stand for themselves, outside of sets.
fn plain(pattern: &[u8]) -> impl Iterator<Item = u8> + '_ {
    let (mut escaped, mut in_set) = (false, false);
    pattern.iter().copied().filter(move |byte| {
        if std::mem::take(&mut escaped) {
            return !in_set;
        }
        match byte {
            b'\\' => escaped = true,
            b'[' if !in_set => in_set = true,
            b']' if in_set => in_set = false,
            b'*' | b'?' => (),
            _ => return !in_set,
        }
        false
    })
}

/// What is to be said of the whole, if not yet said.
fn whole(possible: &Possible, found: &[Finding]) -> Option<Finding> {
    let entry = possible.leaves.len().checked_sub(1)?;
    let said = found.last().is_some_and(|f| f.entry == entry);
    let why = match &possible.leaves[entry] {
        _ if said => return None,
        leaves if leaves.is_bottom() => "so the whole is always bottom, and delivers no notice",
        leaves if leaves.is_never_true() => "so the whole is never true, and delivers no notice",
        _ => return None,
    };
    Some(Finding {
        entry,
        why: why.into(),
    })
}

/// Why two conditions that are each true on some notice are not true on one.
fn conflict(one: &Condition, other: &Condition) -> Option<String> {
    let (name, one, other) = one.yes.as_ref()?.conflict(other.yes.as_ref()?)?;
    let name = Operand::Name(name);
    let spelled = |need: &Need| match (need.only.as_deref(), need.bounds.spelled()) {
        (Some([literal]), _) => spelled(literal),
        (Some(_), _) => "one of the values that it is compared with".into(),
        (None, Some(bounds)) => bounds,
        (None, None) => need.kinds.spelled().into(),
    };
    Some(match one.kinds.meets(other.kinds) {
        true => format!(
            "never true: {name} would have to be {} and {}; or is ||",
            spelled(&one),
            spelled(&other)
        ),
        false => format!(
            "never true: {name} would have to be {} on the left of && and {} on its right",
            one.kinds.spelled(),
            other.kinds.spelled()
        ),
    })
}

fn spelled(literal: &Literal) -> String {
    match literal {
        Literal::Integer(n) => n.to_string(),
        Literal::Real(x) => virentolex::Value::Real64(*x).to_string(),
        Literal::String(bytes) => virentolex::Value::String(bytes).to_string(),
    }
}

#[cfg(test)]
mod tests;
