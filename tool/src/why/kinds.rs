//! Sets of kinds, and what a notice's fields must be for something to be so.
use std::collections::BTreeMap;
use std::ops::Range;
use virentolex::{Entry, Kind, Operand};

/// All kinds, each at its bit's index.
pub const KINDS: [Kind; 5] = [
    Kind::Int32,
    Kind::Int64,
    Kind::Real64,
    Kind::String,
    Kind::Opaque,
];

/// A bit set of kinds.
#[derive(Debug, Clone, Copy, PartialEq, Eq)]
pub struct Kinds(u8);

impl Kinds {
    pub const NONE: Kinds = Kinds(0);
    pub const INT32: Kinds = Kinds(1);
    pub const INT64: Kinds = Kinds(2);
    pub const INTEGERS: Kinds = Kinds(3);
    pub const REAL64: Kinds = Kinds(4);
    pub const NUMBERS: Kinds = Kinds(7);
    pub const STRING: Kinds = Kinds(8);
    pub const SIZED: Kinds = Kinds(24);
    pub const ALL: Kinds = Kinds(31);

    pub fn of(kind: Kind) -> Kinds {
        let bit = KINDS.iter().position(|k| *k == kind);
        Kinds(bit.map_or(0, |bit| 1 << bit))
    }

    pub fn and(self, other: Kinds) -> Kinds {
        Kinds(self.0 & other.0)
    }

    pub fn or(self, other: Kinds) -> Kinds {
        Kinds(self.0 | other.0)
    }

    pub fn without(self, other: Kinds) -> Kinds {
        Kinds(self.0 & !other.0)
    }

    pub fn is_empty(self) -> bool {
        self.0 == 0
    }

    pub fn meets(self, other: Kinds) -> bool {
        !self.and(other).is_empty()
    }

    pub fn is_within(self, other: Kinds) -> bool {
        self.without(other).is_empty()
    }

    /// The kinds of the set, each as a set.
    pub fn each(self) -> impl Iterator<Item = Kinds> {
        (0..KINDS.len())
            .map(|bit| Kinds(1 << bit))
            .filter(move |kind| self.meets(*kind))
    }

    /// The index of the one kind of a set.
    pub fn index(self) -> usize {
        self.0.trailing_zeros() as usize
    }

    /// What a value of these kinds is.
    pub fn spelled(self) -> &'static str {
        match KINDS.iter().find(|kind| Kinds::of(**kind) == self) {
            Some(kind) => kind.with_article(),
            None if self.is_within(Kinds::INTEGERS) => "an integer",
            None if self.is_within(Kinds::NUMBERS) => "a number",
            None if self.is_within(Kinds::SIZED) => "a string or opaque",
            None => "any value",
        }
    }
}

/// Whether `==` takes values of the two kinds.
pub fn compares(left: Kinds, right: Kinds) -> bool {
    let both = |kinds: Kinds| left.meets(kinds) && right.meets(kinds);
    both(Kinds::NUMBERS) || both(Kinds::STRING)
}

/// A literal as `==` takes it: whole reals are integers.
#[derive(Debug, Clone, Copy, PartialEq)]
pub enum Literal<'a> {
    Integer(i64),
    Real(f64),
    String(&'a [u8]),
}

impl<'a> Literal<'a> {
    /// What an entry holds, if it is a literal.
    pub fn of(entry: &Entry<'a>) -> Option<Literal<'a>> {
        match entry.operand() {
            Operand::Int32(n) => Some(Literal::Integer(n.into())),
            Operand::Int64(n) => Some(Literal::Integer(n)),
            Operand::Real64(x) if x.fract() == 0.0 && INT64.contains(&x) => {
                Some(Literal::Integer(x as i64))
            }
            Operand::Real64(x) => Some(Literal::Real(x)),
            Operand::String(bytes) => Some(Literal::String(bytes)),
            _ => None,
        }
    }
}

/// Between what a number lies, and whether it is neither of the two.
#[derive(Debug, Clone, Copy, PartialEq)]
pub struct Bounds {
    pub low: f64,
    pub above: bool,
    pub high: f64,
    pub below: bool,
}

/// Below this size every integer is a real exactly.
const EXACT: f64 = 9e15;
/// The reals of which the whole ones are int64s.
const INT64: Range<f64> = -9_223_372_036_854_775_808.0..9_223_372_036_854_775_808.0;

impl Bounds {
    pub const ALL: Bounds = Bounds {
        low: f64::NEG_INFINITY,
        above: false,
        high: f64::INFINITY,
        below: false,
    };

    /// Where `n op x` is true, for the op of an order or of `==`.
    fn of(op: u16, x: f64) -> Bounds {
        let mut bounds = Bounds::ALL;
        match op {
            34 => (bounds.high, bounds.below) = (x, true),
            35 => bounds.high = x,
            36 => (bounds.low, bounds.above) = (x, true),
            37 => bounds.low = x,
            _ => (bounds.low, bounds.high) = (x, x),
        }
        bounds
    }

    fn both(self, other: Bounds) -> Bounds {
        let ends = |one: (f64, bool), other: (f64, bool), least: bool| match one.0 == other.0 {
            true => (one.0, one.1 || other.1),
            false if (one.0 < other.0) == least => one,
            false => other,
        };
        let (low, above) = ends((self.low, self.above), (other.low, other.above), false);
        let (high, below) = ends((self.high, self.below), (other.high, other.below), true);
        Bounds {
            low,
            above,
            high,
            below,
        }
    }

    fn either(self, other: Bounds) -> Bounds {
        Bounds {
            low: self.low.min(other.low),
            above: self.above && other.above,
            high: self.high.max(other.high),
            below: self.below && other.below,
        }
    }

    fn is_empty(self) -> bool {
        let open = self.above || self.below;
        self.low > self.high || (self.low == self.high && open && self.low.abs() < EXACT)
    }

    /// `at least 22`, `below 6`; none if there is no bound.
    pub fn spelled(self) -> Option<String> {
        let low = if self.above { "above" } else { "at least" };
        let high = if self.below { "below" } else { "at most" };
        match (self.low.is_finite(), self.high.is_finite()) {
            (true, true) => Some(format!("{low} {} and {high} {}", self.low, self.high)),
            (true, false) => Some(format!("{low} {}", self.low)),
            (false, true) => Some(format!("{high} {}", self.high)),
            (false, false) => None,
        }
    }
}

/// What a field must be: of one of these kinds and, if some are listed, equal to one of these literals; a number
/// within bounds.
#[derive(Debug, Clone, PartialEq)]
pub struct Need<'a> {
    pub kinds: Kinds,
    pub only: Option<Vec<Literal<'a>>>,
    pub bounds: Bounds,
}

impl<'a> Need<'a> {
    fn both(&self, other: &Need<'a>) -> Option<Need<'a>> {
        let kinds = self.kinds.and(other.kinds);
        let only = match (&self.only, &other.only) {
            (Some(one), Some(other)) => {
                Some(one.iter().filter(|x| other.contains(x)).copied().collect())
            }
            (one, other) => one.as_ref().or(other.as_ref()).cloned(),
        };
        let bounds = self.bounds.both(other.bounds);
        let none = only.as_ref().is_some_and(Vec::is_empty) || bounds.is_empty();
        (!none && !kinds.is_empty()).then_some(Need {
            kinds,
            only,
            bounds,
        })
    }

    fn either(&self, other: &Need<'a>) -> Need<'a> {
        let only = match (&self.only, &other.only) {
            (Some(one), Some(other)) => Some([&one[..], other].concat()),
            _ => None,
        };
        Need {
            kinds: self.kinds.or(other.kinds),
            only,
            bounds: self.bounds.either(other.bounds),
        }
    }
}

/// What a notice's fields must be, by their names. None, where no notice will do.
#[derive(Debug, Clone, Default, PartialEq)]
pub struct Needs<'a>(BTreeMap<&'a [u8], Need<'a>>);

impl<'a> Needs<'a> {
    pub fn field(name: &'a [u8], kinds: Kinds) -> Needs<'a> {
        let need = Need {
            kinds,
            only: None,
            bounds: Bounds::ALL,
        };
        Needs(BTreeMap::from([(name, need)]))
    }

    /// The same, and the op of an order or of `==` is true of the field of the name and the literal.
    pub fn compared(mut self, name: &'a [u8], op: u16, literal: Literal<'a>) -> Needs<'a> {
        if let Some(need) = self.0.get_mut(name) {
            if op == 32 {
                need.only = Some(vec![literal]);
            }
            need.bounds = match literal {
                Literal::Integer(n) => Bounds::of(op, n as f64),
                Literal::Real(x) => Bounds::of(op, x),
                Literal::String(_) => Bounds::ALL,
            };
        }
        self
    }

    /// Whether a notice with fields of these kinds has what is needed, values aside.
    #[cfg(test)]
    pub fn admits(&self, kind: impl Fn(&[u8]) -> Option<Kind>) -> bool {
        let right = |(name, need): (&&[u8], &Need)| {
            kind(name).is_some_and(|kind| Kinds::of(kind).is_within(need.kinds))
        };
        self.0.iter().all(right)
    }

    /// A name of which no field will do for both.
    pub fn conflict(&self, other: &Needs<'a>) -> Option<(&'a [u8], Need<'a>, Need<'a>)> {
        self.0.iter().find_map(|(name, one)| {
            let other = other.0.get(name)?;
            let none = one.both(other).is_none();
            none.then(|| (*name, one.clone(), other.clone()))
        })
    }

    /// What is needed for both.
    pub fn both(one: &Option<Needs<'a>>, other: &Option<Needs<'a>>) -> Option<Needs<'a>> {
        let mut all = one.as_ref()?.0.clone();
        for (name, need) in &other.as_ref()?.0 {
            let need = match all.get(name) {
                Some(held) => held.both(need)?,
                None => need.clone(),
            };
            all.insert(name, need);
        }
        Some(Needs(all))
    }

    /// What is needed in either case.
    pub fn either(one: Option<Needs<'a>>, other: Option<Needs<'a>>) -> Option<Needs<'a>> {
        let (one, other) = match (one, other) {
            (Some(one), Some(other)) => (one, other),
            (one, other) => return one.or(other),
        };
        let shared = one.0.into_iter().filter_map(|(name, need)| {
            let other = other.0.get(name)?;
            Some((name, need.either(other)))
        });
        Some(Needs(shared.collect()))
    }
}

#[cfg(test)]
mod tests {
    use super::*;

    #[test]
    fn sets() {
        assert_eq!(Kinds::INT32.or(Kinds::INT64), Kinds::INTEGERS);
        assert_eq!(Kinds::NUMBERS.each().count(), 3);
        assert_eq!(Kinds::of(Kind::Opaque).index(), 4);
        assert!(Kinds::STRING.is_within(Kinds::SIZED) && !Kinds::STRING.meets(Kinds::NUMBERS));
        assert!(compares(Kinds::ALL, Kinds::STRING) && !compares(Kinds::STRING, Kinds::NUMBERS));
        let opaque = Kinds::of(Kind::Opaque);
        assert!(!compares(opaque, opaque));
    }

    #[test]
    fn words() {
        for (kinds, words) in [
            (Kinds::INT32, "an int32"),
            (Kinds::INTEGERS, "an integer"),
            (Kinds::INT64.or(Kinds::REAL64), "a number"),
            (Kinds::SIZED, "a string or opaque"),
            (Kinds::ALL, "any value"),
        ] {
            assert_eq!(kinds.spelled(), words);
        }
    }

    #[test]
    fn needs() {
        let is = |kinds| Some(Needs::field(b"a", kinds));
        let other = Some(Needs::field(b"b", Kinds::STRING));
        assert_eq!(Needs::both(&is(Kinds::STRING), &is(Kinds::NUMBERS)), None);
        assert_eq!(
            Needs::both(&is(Kinds::NUMBERS), &is(Kinds::INTEGERS)),
            is(Kinds::INTEGERS)
        );
        assert_eq!(
            Needs::either(is(Kinds::STRING), is(Kinds::NUMBERS)),
            is(Kinds::NUMBERS.or(Kinds::STRING))
        );
        assert_eq!(
            Needs::either(is(Kinds::STRING), other),
            Some(Needs::default())
        );
        assert_eq!(Needs::either(None, is(Kinds::STRING)), is(Kinds::STRING));
    }

    #[test]
    fn needs_of_literals() {
        let number = || Needs::field(b"a", Kinds::NUMBERS);
        let is = |n| Some(number().compared(b"a", 32, Literal::Integer(n)));
        assert_eq!(Needs::both(&is(1), &is(2)), None);
        assert_eq!(Needs::both(&is(1), &is(1)), is(1));
        let one_or_two = Needs::either(is(1), is(2));
        assert_eq!(Needs::both(&one_or_two, &is(2)), is(2));
        assert_eq!(Needs::both(&one_or_two, &is(3)), None);
        let any = Some(Needs::field(b"a", Kinds::NUMBERS));
        assert_eq!(Needs::either(is(1), any.clone()), any);
    }

    #[test]
    fn needs_of_bounds() {
        let is = |op, n| {
            let number = Needs::field(b"a", Kinds::NUMBERS);
            Some(number.compared(b"a", op, Literal::Integer(n)))
        };
        let (less, most, more, least, equal) = (34, 35, 36, 37, 32);
        for (one, other, both) in [
            (is(least, 22), is(less, 6), false),
            (is(more, 5), is(less, 5), false),
            (is(least, 5), is(less, 5), false),
            (is(least, 5), is(most, 5), true),
            (is(more, 5), is(less, 6), true),
            (is(equal, 7), is(more, 7), false),
            (is(equal, 7), is(least, 7), true),
            (is(more, i64::MAX - 1), is(less, i64::MAX), true),
        ] {
            assert_eq!(
                Needs::both(&one, &other).is_some(),
                both,
                "{one:?} {other:?}"
            );
            assert_eq!(
                Needs::both(&other, &one).is_some(),
                both,
                "{one:?} {other:?}"
            );
        }
        let night = Needs::either(is(least, 22), is(less, 6));
        assert!(Needs::both(&night, &is(equal, 12)).is_some());
        let early = Needs::either(is(less, 3), is(less, 6));
        assert_eq!(Needs::both(&early, &is(equal, 6)), None);
    }
}
