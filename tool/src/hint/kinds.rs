//! The first call that is wrong, the first ill-formed pattern, and the first operand of the wrong kind.
use super::cures;
use super::pattern;
use super::tokens::{tokens, Token, What};
use super::Hint;
use std::ops::Range;
use virentolex::Refusal;

/// The kinds of expressions.
#[derive(Debug, Clone, Copy, PartialEq, Eq)]
enum Kind {
    Logic,
    Value,
}

/// What an argument may have to be; one in parentheses of its own is `Other`.
#[derive(Debug, Clone, Copy, PartialEq, Eq)]
enum Shape {
    Name,
    String,
    Folded,
    Other,
}

/// The form of a function's arguments.
#[derive(Debug, Clone, Copy, PartialEq, Eq)]
enum Form {
    Name,
    Fold,
    Strings,
    Values,
}

impl Form {
    fn of(name: &str) -> Option<Form> {
        match name {
            "int32" | "int64" | "real64" | "string" | "opaque" | "nan" | "require" | "size" => {
                Some(Form::Name)
            }
            "fold-case" => Some(Form::Fold),
            "begins-with" | "contains" | "ends-with" | "wildcard" | "regex" => Some(Form::Strings),
            "equals" => Some(Form::Values),
            _ => None,
        }
    }

    fn takes(self) -> &'static str {
        match self {
            Form::Name => "one name, without parentheses of its own",
            Form::Fold => "one name, string or fold-case call",
            Form::Strings => "a name or a fold-case call, then 1 to 8 strings",
            Form::Values => "a name, then 1 to 8 values",
        }
    }

    /// The first argument that is wrong, and why; where one is missing, the number past the last.
    fn fault(self, arguments: &[Part]) -> Option<(usize, &'static str)> {
        let most = match self {
            Form::Name | Form::Fold => 1,
            Form::Strings | Form::Values => 9,
        };
        let right = |k: usize, shape: Shape| match self {
            Form::Fold => matches!(shape, Shape::Name | Shape::String | Shape::Folded),
            Form::Strings if k == 0 => matches!(shape, Shape::Name | Shape::Folded),
            Form::Strings => shape == Shape::String,
            Form::Values if k > 0 => true,
            Form::Name | Form::Values => shape == Shape::Name,
        };
        let wrong = (0..arguments.len().min(most)).find(|k| !right(*k, arguments[*k].shape));
        match (wrong, arguments.len()) {
            (Some(k), _) => Some((k, "this argument is of another form")),
            (None, n) if n > most => Some((most, "this argument is one too many")),
            (None, n) if n < most.min(2) => Some((n, "")),
            _ => None,
        }
    }
}

/// What is said of a name that has swallowed an operator.
pub const GLUED: &str =
    "it is one name, since a name runs to the next blank: write blanks around operators";

/// The most entries of a table, and the most places of its stack.
const ENTRIES: usize = 512;
const STACK: usize = 32;

/// An expression: its first token and its last, its kind and its shape.
#[derive(Debug, Clone, Copy)]
struct Part {
    first: usize,
    last: usize,
    kind: Kind,
    shape: Shape,
}

/// The binary operators, the loosest level first.
const LEVELS: [&[&str]; 11] = [
    &["||"],
    &["^^"],
    &["&&"],
    &["==", "!="],
    &["<", "<=", ">", ">="],
    &["+", "-"],
    &["*", "/", "%"],
    &["|"],
    &["^"],
    &["&"],
    &["<<", ">>", ">>>"],
];

/// An entry of the table, by its tokens: its expression's first and last, and how many slots it takes from the stack
/// and leaves there.
struct Step {
    tokens: (usize, usize),
    takes: usize,
    leaves: usize,
}

/// The fault that a refusal by 4, 18, 5, 7 or 8 is about.
pub fn fault(text: &[u8], refusal: Refusal) -> Option<Hint> {
    let tokens = tokens(text)?;
    let mut walk = Walk::over(&tokens)?;
    match refusal {
        Refusal::Function => walk.call.take(),
        Refusal::Pattern => walk.pattern.take(),
        Refusal::Entries => walk.many(),
        Refusal::Stack => walk.deep(),
        _ => walk.kind.take(),
    }
}

/// The part of an accepted text that each entry of its table came from.
pub fn parts(text: &[u8]) -> Option<Vec<Range<usize>>> {
    let tokens = tokens(text)?;
    let walk = Walk::over(&tokens)?;
    let part = |step: &Step| tokens[step.tokens.0].start..tokens[step.tokens.1].end;
    Some(walk.steps.iter().map(part).collect())
}

/// A walk over the tokens of a text that keeps the grammar, with the first fault of each sort.
struct Walk<'a> {
    tokens: &'a [Token<'a>],
    at: usize,
    steps: Vec<Step>,
    call: Option<Hint>,
    pattern: Option<Hint>,
    kind: Option<Hint>,
}

impl<'a> Walk<'a> {
    fn over(tokens: &'a [Token<'a>]) -> Option<Walk<'a>> {
        let mut walk = Walk {
            tokens,
            at: 0,
            steps: Vec::new(),
            call: None,
            pattern: None,
            kind: None,
        };
        let whole = walk.level(0)?;
        walk.asked(whole, Kind::Logic, "");
        Some(walk)
    }

    fn step(&mut self, first: usize, last: usize, takes: usize, leaves: usize) {
        self.steps.push(Step {
            tokens: (first, last),
            takes,
            leaves,
        });
    }

    /// How many entries there would be, at the first that is too many.
    fn many(&self) -> Option<Hint> {
        let step = self.steps.get(ENTRIES)?;
        Some(Hint {
            place: self.tokens[step.tokens.0].start,
            why: format!(
                "the text takes {} entries, {} too many; from here on they do not fit",
                self.steps.len(),
                self.steps.len() - ENTRIES
            ),
        })
    }

    /// How many places the stack would need, at the first entry that finds none.
    fn deep(&self) -> Option<Hint> {
        let (mut depth, mut most, mut first) = (0usize, 0, None);
        for step in &self.steps {
            depth = depth.saturating_sub(step.takes) + step.leaves;
            most = most.max(depth);
            if depth > STACK && first.is_none() {
                first = Some(self.tokens[step.tokens.0].start);
            }
        }
        Some(Hint {
            place: first?,
            why: format!(
                "the run would need {most} places, {} too many; from here on they do not fit",
                most - STACK
            ),
        })
    }

    fn peek(&self) -> Option<&'a Token<'a>> {
        self.tokens.get(self.at)
    }

    fn operator(&self) -> Option<&'a str> {
        let token = self.peek().filter(|t| t.what == What::Operator)?;
        std::str::from_utf8(token.bytes).ok()
    }

    /// An expression of operators of a level and tighter ones.
    fn level(&mut self, level: usize) -> Option<Part> {
        let Some(operators) = LEVELS.get(level) else {
            return self.prefix();
        };
        let mut left = self.level(level + 1)?;
        while let Some(operator) = self.operator().filter(|o| operators.contains(o)) {
            if matches!(operator, "&&" | "||") {
                self.step(self.at, self.at, 0, 0);
            }
            self.at += 1;
            let right = self.level(level + 1)?;
            self.step(left.first, right.last, 2, 1);
            let asked = if level < 3 { Kind::Logic } else { Kind::Value };
            self.asked(left, asked, operator);
            self.asked(right, asked, operator);
            let kind = if level < 5 { Kind::Logic } else { Kind::Value };
            left = Part {
                kind,
                last: right.last,
                shape: Shape::Other,
                ..left
            };
        }
        Some(left)
    }

    /// An operand with its prefix operators.
    fn prefix(&mut self) -> Option<Part> {
        let first = self.at;
        let (operator, kind) = match self.operator() {
            Some("!") => ("!", Kind::Logic),
            Some("~") => ("~", Kind::Value),
            _ => return self.operand(),
        };
        self.at += 1;
        let operand = self.prefix()?;
        self.step(first, operand.last, 1, 1);
        self.asked(operand, kind, operator);
        Some(Part {
            first,
            kind,
            shape: Shape::Other,
            ..operand
        })
    }

    fn operand(&mut self) -> Option<Part> {
        let first = self.at;
        let token = self.peek()?;
        self.at += 1;
        let shape = match token.what {
            What::Name if self.peek().is_some_and(|t| t.what == What::Open) => {
                return self.called(first)
            }
            What::Name => Shape::Name,
            What::String => Shape::String,
            What::Number => Shape::Other,
            What::Open => {
                let inner = self.level(0)?;
                self.at += 1;
                return Some(Part {
                    first,
                    last: self.at - 1,
                    kind: inner.kind,
                    shape: Shape::Other,
                });
            }
            _ => return None,
        };
        self.step(first, first, 0, 1);
        Some(Part {
            first,
            last: first,
            kind: Kind::Value,
            shape,
        })
    }

    /// A call, whose name is the token at `first`.
    fn called(&mut self, first: usize) -> Option<Part> {
        self.at += 1;
        let mut arguments = Vec::new();
        while self.peek()?.what != What::Close {
            arguments.push(self.level(0)?);
            if self.peek()?.what == What::Comma {
                self.at += 1;
            }
        }
        self.at += 1;
        self.step(first, self.at - 1, arguments.len(), 1);
        let name = std::str::from_utf8(self.tokens[first].bytes).unwrap_or_default();
        self.arguments(first, name, &arguments);
        let shape = if name == "fold-case" {
            Shape::Folded
        } else {
            Shape::Other
        };
        let kind = if matches!(name, "size" | "fold-case") {
            Kind::Value
        } else {
            Kind::Logic
        };
        Some(Part {
            first,
            last: self.at - 1,
            kind,
            shape,
        })
    }

    /// Holds a call to the forms of its arguments.
    fn arguments(&mut self, first: usize, name: &str, arguments: &[Part]) {
        let Some(form) = Form::of(name) else {
            return self.found_call(first, cures::function(name));
        };
        if let Some((k, why)) = form.fault(arguments) {
            let token = arguments.get(k).map_or(first, |argument| argument.first);
            let why = match arguments.get(k) {
                None => format!("{name} takes {}", form.takes()),
                Some(argument) => format!(
                    "{why}: {name} takes {}{}",
                    form.takes(),
                    self.quoted(form, *argument, k)
                ),
            };
            return self.found_call(token, why);
        }
        if name == "equals" {
            arguments[1..]
                .iter()
                .for_each(|a| self.asked(*a, Kind::Value, name));
        }
        if matches!(name, "wildcard" | "regex") {
            arguments[1..].iter().for_each(|a| self.patterned(*a, name));
        }
    }

    /// A word or a number where a string is asked may lack its quotes.
    fn quoted(&self, form: Form, argument: Part, k: usize) -> String {
        let token = &self.tokens[argument.first];
        let single = argument.first == argument.last;
        match form == Form::Strings && k > 0 && single && token.what != What::String {
            true => format!(
                "; write \"{}\"",
                crate::report::line(&String::from_utf8_lossy(token.bytes))
            ),
            false => String::new(),
        }
    }

    fn found_call(&mut self, token: usize, why: String) {
        let place = self.tokens[token].start;
        // an argument's call is walked over before the call around it
        if self.call.as_ref().is_none_or(|found| found.place > place) {
            self.call = Some(Hint { place, why });
        }
    }

    fn patterned(&mut self, argument: Part, name: &str) {
        if self.pattern.is_none() {
            let token = &self.tokens[argument.first];
            self.pattern = pattern::fault(name, token.bytes, token.start);
        }
    }

    /// Holds an expression to the kind that stands around it.
    fn asked(&mut self, part: Part, kind: Kind, by: &str) {
        let (place, end) = (self.tokens[part.first].start, self.tokens[part.last].end);
        // a fault inside the part is the cause of that around it
        if part.kind == kind || self.kind.as_ref().is_some_and(|found| found.place < end) {
            return;
        }
        let why = match kind {
            Kind::Logic if by == "!" && self.is_compared(part) => {
                "! takes the condition directly after it, and this is a value: write ! (..)".into()
            }
            Kind::Logic if by.is_empty() => {
                format!(
                    "the whole text must be a condition, and this is a value{}",
                    self.bare(part, by)
                )
            }
            Kind::Logic => format!(
                "{by} takes a condition, and this is a value{}",
                self.bare(part, by)
            ),
            Kind::Value => {
                self.kind = Some(self.conditioned(part, by));
                return;
            }
        };
        self.kind = Some(Hint { place, why });
    }

    /// What may be meant where an operator on values stands beside a condition.
    fn conditioned(&self, part: Part, by: &str) -> Hint {
        let place = self.tokens[part.first].start;
        let bits = |t: &&Token| t.what == What::Operator && cures::bits(t.bytes).is_some();
        let inside = &self.tokens[part.first..=part.last];
        let nearby = self.tokens[..part.first].last().into_iter();
        let nearby = nearby.chain(self.tokens.get(part.last + 1));
        let token = match cures::bits(by.as_bytes()) {
            Some(_) => nearby.filter(|t| t.bytes == by.as_bytes()).find(bits),
            None => inside.iter().find(bits),
        };
        match token.and_then(|t| Some((t, cures::bits(t.bytes)?))) {
            Some((token, why)) => Hint {
                place: token.start,
                why: why.into(),
            },
            None => Hint {
                place,
                why: format!(
                    "{by} takes a value, and this is a condition{}",
                    cures::between(by)
                ),
            },
        }
    }

    /// Why a value may stand for a condition: a name that has swallowed an operator, a field by itself, or one of
    /// several values.
    fn bare(&self, part: Part, by: &str) -> String {
        let token = &self.tokens[part.first];
        if part.first != part.last {
            return String::new();
        }
        let operator = |b: &u8| b"=<>!&|^+*/%".contains(b);
        match token.what {
            What::Name if token.bytes.iter().any(operator) => format!("; {GLUED}"),
            What::Name if token.bytes.eq_ignore_ascii_case(b"true") => {
                "; there is no literal true: 1 == 1 is true of every notice".into()
            }
            What::Name if token.bytes.eq_ignore_ascii_case(b"false") => {
                "; there is no literal false: 1 == 2 is false of every notice".into()
            }
            What::Name => format!(
                "; compare the field, or ask for it by require ({})",
                crate::report::line(&String::from_utf8_lossy(token.bytes))
            ),
            What::Number | What::String if by == "||" => {
                "; one of several values is written equals (a, 1, 2)".into()
            }
            _ => String::new(),
        }
    }

    /// Whether an operator on values stands behind a part.
    fn is_compared(&self, part: Part) -> bool {
        let next = self.tokens.get(part.last + 1);
        next.is_some_and(|t| t.what == What::Operator && !matches!(t.bytes, b"&&" | b"||" | b"^^"))
    }
}
