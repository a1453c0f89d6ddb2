//! What each entry may leave on the stack: a run on all notices at once, by the kinds of their fields.
//!
//! Of a value it keeps what a notice needs for each kind, of a condition what it needs for true and for false. Where
//! there is no such notice, the entry never leaves that. What is the same on every notice, the library tells.
use super::kinds::{compares, Kinds, Literal, Needs};
use super::Why;
use virentolex::{Entry, NoticeRef, Verdict};

/// What an entry may leave. A skip leaves nothing.
#[derive(Debug, Clone)]
pub enum Leaves<'a> {
    Value(Value<'a>),
    Condition(Condition<'a>),
    Nothing,
}

/// What a notice needs for a value of each kind, by the kind's index.
#[derive(Debug, Clone, Default)]
pub struct Value<'a> {
    needs: [Option<Needs<'a>>; 5],
    /// Whether it is a string without the letters A to Z.
    pub folded: bool,
}

const NO_VALUE: Value = Value {
    needs: [const { None }; 5],
    folded: false,
};

/// What a notice needs for true, and for false.
#[derive(Debug, Clone, Default)]
pub struct Condition<'a> {
    pub yes: Option<Needs<'a>>,
    pub no: Option<Needs<'a>>,
}

impl<'a> Value<'a> {
    /// The kinds that it may have.
    pub fn kinds(&self) -> Kinds {
        let some = Kinds::ALL.each().filter(|k| self.at(*k).is_some());
        some.fold(Kinds::NONE, Kinds::or)
    }

    pub fn at(&self, kind: Kinds) -> &Option<Needs<'a>> {
        &self.needs[kind.index()]
    }

    /// What is needed for any of some kinds.
    pub fn any(&self, kinds: Kinds) -> Option<Needs<'a>> {
        let needs = kinds.each().map(|k| self.at(k).clone());
        needs.fold(None, Needs::either)
    }

    fn add(&mut self, kind: Kinds, needs: Option<Needs<'a>>) {
        let held = &mut self.needs[kind.index()];
        *held = Needs::either(held.take(), needs);
    }
}

impl Leaves<'_> {
    /// Whether it leaves bottom on every notice.
    pub fn is_bottom(&self) -> bool {
        match self {
            Leaves::Value(value) => value.kinds().is_empty(),
            Leaves::Condition(condition) => condition.yes.is_none() && condition.no.is_none(),
            Leaves::Nothing => false,
        }
    }

    /// Whether it is a condition that is true on no notice.
    pub fn is_never_true(&self) -> bool {
        matches!(self, Leaves::Condition(Condition { yes: None, .. }))
    }

    pub fn kinds(&self) -> Kinds {
        match self {
            Leaves::Value(value) => value.kinds(),
            _ => Kinds::NONE,
        }
    }
}

/// The entries of a table with what each leaves, and the entries of its operands.
pub struct Possible<'a> {
    pub leaves: Vec<Leaves<'a>>,
    pub operands: Vec<Vec<usize>>,
}

impl<'a> Possible<'a> {
    pub fn of(why: &Why<'a>) -> Possible<'a> {
        let mut possible = Possible {
            leaves: Vec::new(),
            operands: Vec::new(),
        };
        // the entries whose results are on the stack, and whether each is the same on every notice
        let mut stack: Vec<(usize, usize, bool)> = Vec::new();
        for entry in why.program.entries() {
            let k = possible.leaves.len();
            let from = stack.len().saturating_sub(entry.takes().into());
            let taken = match entry.leaves() {
                0 => Vec::new(),
                _ => stack.split_off(from),
            };
            let first = taken.first().map_or(k, |(first, ..)| *first);
            let constant = entry.op != 5 && taken.iter().all(|(_, _, constant)| *constant);
            possible
                .operands
                .push(taken.iter().map(|(_, k, _)| *k).collect());
            let leaves = match (entry.leaves(), constant) {
                (0, _) => Leaves::Nothing,
                (_, true) => possible.constant(why, first, &entry),
                _ => possible.varied(why, &entry),
            };
            possible.leaves.push(leaves);
            if entry.leaves() > 0 {
                stack.push((first, k, constant));
            }
        }
        possible
    }

    /// What an entry leaves that is the same on every notice.
    fn constant(&self, why: &Why<'a>, first: usize, entry: &Entry<'a>) -> Leaves<'a> {
        let k = self.leaves.len();
        if !is_value(entry.op) {
            let verdict = why.verdict(NoticeRef::EMPTY, None, first..k + 1, &[]);
            let mut condition = Condition::default();
            match verdict {
                Some(Verdict::True) => condition.yes = Some(Needs::default()),
                Some(Verdict::False) => condition.no = Some(Needs::default()),
                _ => (),
            }
            return Leaves::Condition(condition);
        }
        let mut value = Value {
            folded: entry.op == 6,
            ..Value::default()
        };
        if let Some(kind) = why.kind(NoticeRef::EMPTY, k) {
            value.add(Kinds::of(kind), Some(Needs::default()));
        }
        Leaves::Value(value)
    }

    /// What an entry leaves that depends on the notice.
    fn varied(&self, why: &Why<'a>, entry: &Entry<'a>) -> Leaves<'a> {
        let k = self.leaves.len();
        let operands = &self.operands[k];
        match (entry.op, &operands[..]) {
            (5, _) => Leaves::Value(name(entry.bytes)),
            (6..=8, [x]) => Leaves::Value(unary(entry.op, self.value(*x))),
            (16..=26, [left, right]) => Leaves::Value(self.binary(why, entry.op, *left, *right)),
            (32..=37, [left, right]) => {
                Leaves::Condition(self.comparison(why, entry.op, *left, *right))
            }
            (48..=54, [x]) => Leaves::Condition(test(entry.op, self.value(*x))),
            (59, [x, others @ ..]) => Leaves::Condition(self.equals(why, *x, others)),
            (56..=61, [x, others @ ..]) => Leaves::Condition(self.fits(why, entry.op, *x, others)),
            (40..=43, _) => Leaves::Condition(logic(entry.op, &self.conditions(operands))),
            _ => Leaves::Nothing,
        }
    }

    /// The value that entry k leaves; one that no notice has, if a table that was not translated has none there.
    pub fn value(&self, k: usize) -> &Value<'a> {
        match &self.leaves[k] {
            Leaves::Value(value) => value,
            _ => &NO_VALUE,
        }
    }

    pub fn conditions(&self, operands: &[usize]) -> Vec<Condition<'a>> {
        let condition = |k: &usize| match &self.leaves[*k] {
            Leaves::Condition(condition) => Some(condition.clone()),
            _ => None,
        };
        operands.iter().filter_map(condition).collect()
    }

    fn binary(&self, why: &Why<'a>, op: u16, left: usize, right: usize) -> Value<'a> {
        let mut value = Value::default();
        let (left, divides) = (self.value(left), matches!(op, 23 | 24));
        if divides && why.is_zero(right) {
            return value;
        }
        let count = self.value(right);
        for one in left.kinds().each() {
            if (16..=18).contains(&op) && why.is_outside(one, right) {
                continue;
            }
            for other in count.kinds().each() {
                let needs = Needs::both(left.at(one), count.at(other));
                for kind in results(op, one, other).each() {
                    value.add(kind, needs.clone());
                }
            }
        }
        value
    }

    /// What is needed so that `==`, or an order of numbers, is decided.
    fn compared(&self, left: usize, right: usize, numbers: bool) -> Option<Needs<'a>> {
        let (left, right) = (self.value(left), self.value(right));
        let taken = if numbers { Kinds::NUMBERS } else { Kinds::ALL };
        let mut needs = None;
        for one in left.kinds().and(taken).each() {
            for other in right
                .kinds()
                .and(taken)
                .each()
                .filter(|o| compares(one, *o))
            {
                needs = Needs::either(needs, Needs::both(left.at(one), right.at(other)));
            }
        }
        needs
    }

    /// What is needed so that two values are equal, and so that they are not.
    fn equal(&self, why: &Why<'a>, left: usize, right: usize) -> Condition<'a> {
        let no = self.compared(left, right, false);
        let yes = no.clone().map(|needs| held(why, needs, 32, left, right));
        let never =
            |folded: usize, other: usize| self.value(folded).folded && why.has_capitals(other, 32);
        match never(left, right) || never(right, left) {
            true => Condition { yes: None, no },
            false => Condition { yes, no },
        }
    }

    fn comparison(&self, why: &Why<'a>, op: u16, left: usize, right: usize) -> Condition<'a> {
        let equal = self.equal(why, left, right);
        match op {
            32 => equal,
            33 => turned(equal),
            _ => {
                // false says nothing of a bound, since it is so of NaN
                let no = self.compared(left, right, true);
                let yes = no.clone().map(|needs| held(why, needs, op, left, right));
                Condition { yes, no }
            }
        }
    }

    /// `==` with each, joined by `||`.
    fn equals(&self, why: &Why<'a>, x: usize, others: &[usize]) -> Condition<'a> {
        let mut all = others.iter().map(|other| self.equal(why, x, *other));
        let first = all.next().unwrap_or_default();
        all.fold(first, |one, other| logic(43, &[one, other]))
    }

    /// `begins-with` and its kin.
    fn fits(&self, why: &Why<'a>, op: u16, x: usize, others: &[usize]) -> Condition<'a> {
        let no = self.value(x).at(Kinds::STRING).clone();
        let never = self.value(x).folded && others.iter().all(|o| why.has_capitals(*o, op));
        Condition {
            yes: if never { None } else { no.clone() },
            no,
        }
    }
}

/// What is needed so that a comparison is true: more, if one side is a name and the other a literal.
fn held<'a>(why: &Why<'a>, needs: Needs<'a>, op: u16, left: usize, right: usize) -> Needs<'a> {
    let literal = |k: usize| Literal::of(&why.program.entry(k)?);
    let name = |k: usize| Some(why.program.entry(k).filter(|e| e.op == 5)?.bytes);
    let turned = match op {
        34 | 35 => op + 2,
        36 | 37 => op - 2,
        _ => op,
    };
    if let (Some(name), Some(literal)) = (name(left), literal(right)) {
        return needs.compared(name, op, literal);
    }
    match (name(right), literal(left)) {
        (Some(name), Some(literal)) => needs.compared(name, turned, literal),
        _ => needs,
    }
}

/// Whether an op leaves a value.
fn is_value(op: u16) -> bool {
    op <= 26
}

fn name(bytes: &[u8]) -> Value<'_> {
    let mut value = Value::default();
    for kind in Kinds::ALL.each() {
        value.add(kind, Some(Needs::field(bytes, kind)));
    }
    value
}

/// `fold-case`, `size` and `~`.
fn unary<'a>(op: u16, x: &Value<'a>) -> Value<'a> {
    let mut value = Value {
        folded: op == 6,
        ..Value::default()
    };
    match op {
        6 => value.add(Kinds::STRING, x.any(Kinds::STRING)),
        7 => value.add(Kinds::INT32, x.any(Kinds::SIZED)),
        _ => Kinds::INTEGERS
            .each()
            .for_each(|kind| value.add(kind, x.at(kind).clone())),
    }
    value
}

/// The kinds that an operator may make of two kinds.
fn results(op: u16, left: Kinds, right: Kinds) -> Kinds {
    let (kinds, small) = (left.or(right), left.or(right) == Kinds::INT32);
    let integers = kinds.is_within(Kinds::INTEGERS);
    let wide = if small { Kinds::INT32 } else { Kinds::INT64 };
    match op {
        16..=18 if integers => left,
        19..=21 | 24 if integers => wide,
        22 | 23 | 25 | 26 if small => Kinds::INTEGERS,
        22 | 23 | 25 | 26 if integers => Kinds::INT64.or(Kinds::REAL64),
        22 | 23 | 25 | 26 if kinds.is_within(Kinds::NUMBERS) => Kinds::REAL64,
        _ => Kinds::NONE,
    }
}

/// The type tests, `nan` and `require`.
fn test<'a>(op: u16, x: &Value<'a>) -> Condition<'a> {
    let (yes, no) = match op {
        48..=52 => {
            let kind = Kinds::of(super::kinds::KINDS[usize::from(op - 48)]);
            (kind, Kinds::ALL.without(kind))
        }
        53 => (Kinds::REAL64, Kinds::ALL),
        _ => (Kinds::ALL, Kinds::NONE),
    };
    Condition {
        yes: x.any(yes),
        no: x.any(no),
    }
}

fn turned(condition: Condition) -> Condition {
    Condition {
        yes: condition.no,
        no: condition.yes,
    }
}

/// `!`, `&&`, `^^` and `||`.
fn logic<'a>(op: u16, operands: &[Condition<'a>]) -> Condition<'a> {
    let both = Needs::both;
    match (op, operands) {
        (40, [x]) => turned(x.clone()),
        (41, [a, b]) => Condition {
            yes: both(&a.yes, &b.yes),
            no: Needs::either(a.no.clone(), b.no.clone()),
        },
        (42, [a, b]) => Condition {
            yes: Needs::either(both(&a.yes, &b.no), both(&a.no, &b.yes)),
            no: Needs::either(both(&a.yes, &b.yes), both(&a.no, &b.no)),
        },
        (43, [a, b]) => Condition {
            yes: Needs::either(a.yes.clone(), b.yes.clone()),
            no: both(&a.no, &b.no),
        },
        _ => Condition::default(),
    }
}
