//! The kind of case `undecided` (document 02, request 7): runs in which bottom comes from names, kinds and
//! values, early and late, or is passed over; and what is told of a table's entries. Every other run that
//! is compared, those of the quorum counter and the program too, is compared in its undecided entry.

use crate::about::About;
use crate::cases::{same, Case, Outcome};
use crate::editions;
use crate::notices::{self, rendered, Field};
use crate::operations::push_string;
use crate::random::Random;
use crate::tables::{self, laid_out, Draft};
use crate::undecided_edges;
use reference::compile::table_of;
use reference::op::Op;
use reference::Described;

/// Clauses of which each is true, false or bottom on the notice below, by a name, a kind or a value.
const CLAUSES: [&str; 28] = [
    "Op == 42",
    "Op == 42",
    "s == 'ab'",
    "Op == 41",
    "Op == 41",
    "s == ''",
    "gone == 1",
    "1 < other",
    "-1L == other",
    "equals (gone, 1)",
    "begins-with (gone, 'a')",
    "Op / 0 == 1",
    "Op % 0 == 1",
    "Op / 0.0 > 1",
    "1 - Op << 32 == 1",
    "1L >> 64 == 1",
    "Op >>> -1 == 1",
    "size (Op) == 1",
    "size (t) == 1",
    "fold-case (Op) == 'x'",
    "~ s == 1",
    "begins-with (Op, 'a')",
    "contains (Op, 'a')",
    "ends-with (o, 'a')",
    "wildcard (Op, '*')",
    "regex (Op, '.*')",
    "equals (s, 1, 2)",
    "o == o",
];
/// Tests, which are never undecided by themselves.
const TESTS: [&str; 7] = [
    "int32", "int64", "real64", "string", "opaque", "nan", "require",
];
/// Operators that take no string beside a number.
const OPERATORS: [&str; 11] = ["<<", ">>", ">>>", "&", "^", "|", "*", "/", "%", "+", "-"];
const COMPARISONS: [&str; 6] = ["==", "!=", "<", "<=", ">", ">="];

fn clause(random: &mut Random) -> String {
    let clause = match random.below(6) {
        0 => format!("(s {} 1) == 1", random.pick(&OPERATORS)),
        1 => format!("Op {} s", random.pick(&COMPARISONS)),
        2 => {
            let name = random.pick(&["Op", "o", "gone"]);
            format!("{} ({name})", random.pick(&TESTS))
        }
        _ => random.pick(&CLAUSES).to_string(),
    };
    match random.below(5) {
        0 => format!("! ({clause})"),
        1 => format!("({clause})"),
        _ => clause,
    }
}

/// A text of such clauses.
fn clauses(random: &mut Random) -> Vec<u8> {
    let mut text = clause(random);
    for _ in 0..random.pick(&[0, 1, 1, 2, 2, 3, 7]) {
        let join = random.pick(&["&&", "&&", "||", "||", "^^"]);
        text = match random.below(4) {
            0 => format!("({text}) {join} {}", clause(random)),
            1 => format!("{} {join} ({text})", clause(random)),
            _ => format!("{text} {join} {}", clause(random)),
        };
    }
    text.into_bytes()
}

/// The notice that the clauses are about; t is ill-formed UTF-8. Now and then a field is left out.
fn notice(random: &mut Random) -> Vec<u8> {
    let field = |name: &[u8], kind, value: &[u8]| Field {
        name: name.to_vec(),
        kind,
        value: value.to_vec(),
    };
    let mut fields = vec![
        field(b"Op", 1, &42i32.to_le_bytes()),
        field(b"o", 5, b"ab"),
        field(b"s", 4, b"ab"),
        field(b"t", 4, b"a\xc3"),
    ];
    fields.retain(|_| !random.once_in(20));
    rendered(&fields)
}

/// A table whose entries all give a value or a truth value but for one, far behind, which compares unlike
/// kinds or seeks a name; most often it stands at one of the limits.
fn late(random: &mut Random) -> Vec<u8> {
    let at = match random.below(3) {
        0 => random.between(2, 511),
        _ => random.pick(&[254, 255, 256, 257, 510, 511]),
    };
    let mut draft = Draft::default();
    draft.entries.push((Op::Int32.code(), 0, 1));
    match random.once_in(3) {
        true => late_name(&mut draft, at),
        false => {
            draft.entries.resize(at - 1, (Op::Complement.code(), 0, 0));
            push_string(&mut draft, b"x");
            draft.entries.push((Op::Greater.code(), 0, 0));
        }
    }
    let more = random.pick(&[0, 0, 0, 1, 512]);
    let length = (draft.entries.len() + more).min(512);
    draft.entries.resize(length, (Op::Not.code(), 0, 0));
    laid_out(editions::any(random), &draft)
}

/// The name at that place, or before the last two entries of 512, and what compares it.
fn late_name(draft: &mut Draft, at: usize) {
    draft
        .entries
        .resize(at.min(510), (Op::Complement.code(), 0, 0));
    draft.pool.extend(b"gone");
    draft.entries.push((Op::Name.code(), 4, 0));
    draft.entries.push((Op::Equal.code(), 0, 0));
}

/// Numbers of entries: all of few, some of many, and some from the count on.
fn numbers(random: &mut Random, count: usize) -> Vec<usize> {
    let mut numbers: Vec<usize> = match count {
        0..=16 => (0..count).collect(),
        _ => (0..8).map(|_| random.below(count)).collect(),
    };
    let any = random.below(count.max(1));
    let past = [count, count, count + 1, 512, 65_535];
    let far = [any + 65_536, any + (1 << 32), 1 << 63, usize::MAX];
    numbers.extend([0, 256, 511, count.saturating_sub(1)]);
    numbers.extend([random.pick(&past), random.pick(&far)]);
    numbers
}

impl Case<'_> {
    /// A run, and what is told of some of the table's entries, the undecided one too.
    pub fn undecided(&mut self) -> Outcome {
        let (table, notice) = match self.random.below(8) {
            0..=3 => {
                let (edition, text) = (editions::any(&mut self.random), clauses(&mut self.random));
                let table = table_of(edition.number(), &text).expect("it is accepted");
                (table, notice(&mut self.random))
            }
            4 => (late(&mut self.random), notice(&mut self.random)),
            _ => {
                let notice = notices::well_formed(&mut self.random);
                let about = self.about(&notice);
                (self.any_table(&about), notice)
            }
        };
        self.running(&table, &notice)?;
        let count = crate::edges::word(&table, 6);
        let undecided = reference::run(&table, &notice).undecided;
        for k in numbers(&mut self.random, count)
            .into_iter()
            .chain([undecided])
        {
            self.telling(&table, k)?;
        }
        Ok(())
    }

    /// A table that passes the check or not.
    fn any_table(&mut self, about: &About) -> Vec<u8> {
        match self.random.below(3) {
            0 => tables::translated(&mut self.random, about),
            _ => tables::table(&mut self.random, about),
        }
    }

    /// One entry; every answer, and where its bytes lie.
    fn telling(&mut self, table: &[u8], k: usize) -> Outcome {
        let library = virentolex::raw::entry(table, k);
        let reference = reference::describe(table, k);
        self.tally.count("entry", reference.number);
        self.count("entry told", undecided_edges::of_told(table, k, &reference));
        if reference.number == 0 {
            self.tally.count("entry of op", reference.op);
        }
        let start = library.bytes.as_ptr() as usize - table.as_ptr() as usize;
        same(
            &format!("entry {k}: number, op, a, b, where its bytes lie"),
            &[("table", table)],
            Described {
                number: library.number,
                op: library.op,
                a: library.a,
                b: library.b,
                bytes: start..start + library.bytes.len(),
            },
            reference,
        )
    }
}

#[cfg(test)]
mod tests {
    use super::*;
    use crate::tally::Tally;

    fn with_case(run: impl Fn(&mut Case) -> Outcome) {
        let mut case = Case {
            random: Random::of_case(1, 1),
            tally: &mut Tally::default(),
            program: "",
        };
        assert_eq!(run(&mut case), Ok(()));
    }

    /// Every text of up to three clauses, of which one is true, one false and the others undecided by a name
    /// or by a kind, under each joint.
    #[test]
    fn every_short_text() {
        let clauses = ["Op == 42", "Op == 41", "gone == 1", "s < 1", "! (1 < gone)"];
        let mut texts: Vec<String> = clauses.map(String::from).into();
        for _ in 0..2 {
            let longer = |text: &String| {
                let joined = |join: &str| {
                    let text = text.clone();
                    let join = join.to_string();
                    clauses.map(|clause| format!("{text} {join} {clause}"))
                };
                ["&&", "||", "^^"].map(joined).concat()
            };
            let more: Vec<String> = texts.iter().flat_map(longer).collect();
            texts.extend(more);
        }
        texts.sort();
        texts.dedup();
        assert_eq!(texts.len(), 5 + 5 * 15 + 5 * 15 * 15);
        with_case(|case| {
            let notice = rendered(&[
                Field {
                    name: b"Op".to_vec(),
                    kind: 1,
                    value: 42i32.to_le_bytes().to_vec(),
                },
                Field {
                    name: b"s".to_vec(),
                    kind: 4,
                    value: b"ab".to_vec(),
                },
            ]);
            for text in &texts {
                for edition in [1, 2] {
                    case.running(&table_of(edition, text.as_bytes()).unwrap(), &notice)?;
                }
            }
            Ok(())
        });
    }

    /// Any byte of a table changed to any other.
    #[test]
    fn every_byte_of_a_table() {
        let table = table_of(1, b"Op == 'x' || 1 < a").unwrap();
        with_case(|case| {
            for at in 0..table.len() {
                for byte in 0..=255 {
                    let mut changed = table.clone();
                    changed[at] = byte;
                    for k in [0, 1, 2, 3, 5, 7, 8] {
                        case.telling(&changed, k)?;
                    }
                }
            }
            Ok(())
        });
    }
}
