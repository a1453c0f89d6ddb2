//! What is accepted and yet may not be meant. None of it changes a verdict or the exit status.
pub mod staff;
mod strings;

use crate::args::Args;
use crate::hint::{self, Hint};
use crate::program::Program;
use crate::report::{Answer, Failure, Out, Status};
use crate::subscription::{Held, Named};
use crate::why::Why;
use std::io;
use std::ops::Range;
use virentolex::{Entry, Operand, Subscription};

/// Names that are literals in other languages, in small letters.
const LITERALS: [&str; 9] = [
    "true",
    "false",
    "null",
    "nil",
    "none",
    "undefined",
    "nan",
    "inf",
    "infinity",
];

/// The most bytes of an expression that are shown.
const SHOWN: usize = 60;

/// `lint TEXT`.
pub fn lint(args: &mut Args, out: &mut Out) -> Answer {
    let (text, subscription) = read(args)?;
    told(text.as_deref(), &subscription, out)?;
    Ok(Status::Yes)
}

/// The subscription that a command names, and its text unless that is a table.
pub fn read(args: &mut Args) -> Result<(Option<Vec<u8>>, Subscription), Failure> {
    match Named::only(args)?.read()? {
        Held::Table(subscription) => Ok((None, subscription)),
        Held::Text(text) => {
            let subscription = text.translate(args.edition)?;
            Ok((Some(text.bytes), subscription))
        }
    }
}

/// Writes what is found in an accepted text, each with its line and a caret; in a table, what shows without its text.
pub fn told(text: Option<&[u8]>, subscription: &Subscription, out: &mut Out) -> io::Result<()> {
    let Some(text) = text else {
        for found in Why::new(subscription).always() {
            out.line(format_args!("entry {}: {}", found.entry, found.why))?;
        }
        return Ok(());
    };
    for found in of(text, subscription) {
        out.line(format_args!("{}", found.told(text)))?;
    }
    Ok(())
}

/// What is found in an accepted text, in the order of the entries: what is said of the whole comes last.
fn of(text: &[u8], subscription: &Subscription) -> Vec<Hint> {
    let parts = hint::parts(text).unwrap_or_default();
    if parts.len() != usize::from(subscription.entry_count()) {
        return Vec::new();
    }
    let at = |entry: usize, why: String| Hint {
        place: parts[entry].start,
        why,
    };
    let always = Why::new(subscription).always();
    let lint = Lint::new(text, &parts, subscription);
    let mut found = Vec::new();
    for k in 0..parts.len() {
        found.extend(lint.string(k));
        let whys = [
            lint.unequal(k),
            lint.octal(k),
            lint.literal(k),
            lint.glued(k),
        ];
        found.extend(whys.into_iter().flatten().map(|why| at(k, why)));
        let always = always.iter().filter(|f| f.entry == k);
        found.extend(always.map(|f| at(k, f.why.clone())));
    }
    found
}

/// A text with the entries of its table, the part that each came from, and the entry that takes its value.
struct Lint<'a> {
    text: &'a [u8],
    parts: &'a [Range<usize>],
    program: Program<'a>,
    taker: Vec<Option<usize>>,
}

impl<'a> Lint<'a> {
    fn new(text: &'a [u8], parts: &'a [Range<usize>], subscription: &'a Subscription) -> Lint<'a> {
        let program = Program::new(subscription);
        let mut taker = vec![None; parts.len()];
        for entry in program.entries().filter(|e| takes_values(e.op)) {
            for operand in program.operands(entry.k.into()) {
                taker[operand] = Some(entry.k.into());
            }
        }
        Lint {
            text,
            parts,
            program,
            taker,
        }
    }

    /// The op that takes the value of entry k.
    fn taken_by(&self, k: usize) -> Option<Entry<'a>> {
        self.program.entry(self.taker[k]?)
    }

    fn source(&self, k: usize) -> &'a [u8] {
        &self.text[self.parts[k].clone()]
    }

    /// What a string literal loses that a pattern, or its reader, should have.
    fn string(&self, k: usize) -> Option<Hint> {
        let entry = self.program.entry(k).filter(|e| e.op == 4)?;
        let taker = self.taken_by(k).map_or(0, |taker| taker.op);
        let (place, why) = strings::lost(self.source(k), taker).or_else(|| {
            let why = strings::foreign(entry.bytes).filter(|_| taker == 61)?;
            Some((0, why.into()))
        })?;
        Some(Hint {
            place: self.parts[k].start + place,
            why,
        })
    }

    /// The first `x != "v"` of a field, which is bottom without it, if nothing in the text shows that this is meant.
    fn unequal(&self, k: usize) -> Option<String> {
        let name = self.unequal_name(k)?;
        let tests = |e: &Entry| matches!(e.op, 48..=52 | 54);
        let asked = |e: &Entry| self.program.entry(usize::from(e.k) - 1).map(|e| e.bytes);
        let mut tests = self.program.entries().filter(tests);
        let mut before = (0..k).filter_map(|k| self.unequal_name(k));
        if tests.any(|e| asked(&e) == Some(name)) || before.any(|other| other == name) {
            return None;
        }
        let name = Operand::Name(name);
        let whole = Some(self.program.phrase(k)).filter(|phrase| phrase.len() <= SHOWN);
        Some(format!(
            "bottom where there is no field {name}, and then not delivered; if so meant, say it: require ({name}) && {}",
            whole.as_deref().unwrap_or("..")
        ))
    }

    /// The name that entry k, `!=`, holds to a literal.
    fn unequal_name(&self, k: usize) -> Option<&'a [u8]> {
        self.program.entry(k).filter(|e| e.op == 33)?;
        let operands = self.program.operands(k);
        let entries: Vec<Entry> = operands
            .iter()
            .filter_map(|x| self.program.entry(*x))
            .collect();
        match entries[..] {
            [name, literal] | [literal, name] if name.op == 5 && literal.op < 5 => Some(name.bytes),
            _ => None,
        }
    }

    /// A name that has swallowed an operator or a semicolon, which no backslash shows to be meant.
    fn glued(&self, k: usize) -> Option<String> {
        self.program.entry(k).filter(|e| e.op == 5)?;
        let mut bytes = self.source(k).iter().peekable();
        while let Some(byte) = bytes.next() {
            let digit = bytes.peek().is_some_and(|b| b.is_ascii_digit());
            match byte {
                b'\\' => {
                    bytes.next();
                }
                b'/' if !digit => (),
                _ if b"+*/%&|^=<>!;".contains(byte) => {
                    let character = char::from(*byte);
                    return Some(format!(
                        "{}; or a backslash before {character}",
                        hint::GLUED
                    ));
                }
                _ => (),
            }
        }
        None
    }

    /// An octal number that reads as another decimal one, and is not there for its bits.
    fn octal(&self, k: usize) -> Option<String> {
        let entry = self.program.entry(k).filter(|e| matches!(e.op, 1 | 2))?;
        let word = std::str::from_utf8(self.source(k)).ok()?;
        let digits = word.trim_start_matches('-').trim_end_matches(['l', 'L']);
        let octal = digits.starts_with('0') && !digits.contains(['x', 'X']);
        let bits = self
            .taken_by(k)
            .is_some_and(|e| matches!(e.op, 8 | 16..=21));
        if !octal || bits || digits.trim_start_matches('0').len() < 2 {
            return None;
        }
        let value = match entry.operand() {
            Operand::Int32(n) => i64::from(n),
            Operand::Int64(n) => n,
            _ => return None,
        };
        Some(format!(
            "a leading 0 makes a number octal: {word} is {value}"
        ))
    }

    /// A name that is compared and is a literal elsewhere.
    fn literal(&self, k: usize) -> Option<String> {
        let entry = self.program.entry(k).filter(|e| e.op == 5)?;
        let word = std::str::from_utf8(entry.bytes).ok()?;
        let compared = self.taken_by(k).is_some_and(|e| match e.op {
            32..=37 => true,
            59 => self.program.operands(e.k.into()).first() != Some(&k),
            _ => false,
        });
        let known = LITERALS.contains(&word.to_ascii_lowercase().as_str());
        (known && compared).then(|| {
            format!("{word} is the name of a field here and no literal; there are numbers and strings, and require (a) asks for a field")
        })
    }
}

/// Whether an op takes values.
fn takes_values(op: u16) -> bool {
    matches!(op, 6..=8 | 16..=26 | 32..=37 | 48..=61)
}

#[cfg(test)]
mod tests;
