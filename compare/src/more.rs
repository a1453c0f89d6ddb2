//! The kind of case `more` (document 02, request 10): "More fields never turn a verdict round". An accepted
//! text, by both editions, on notices of which each holds every field of the one before, with the same kind
//! and bytes, and one or more others. What is compared is the library's own: its tables, the notices that it
//! has written, its verdicts.

use crate::about::About;
use crate::cases::{same, truth, Case, Hex, Outcome};
use crate::editions::EDITIONS;
use crate::more_edges::Step;
use crate::notices::{self, rendered, Field};
use crate::random::Random;
use crate::texts;
use reference::compile::table_of;
use reference::op::Op;
use reference::table::{checked, pool_part};
use reference::Truth;

/// So many texts are tried in one case.
const TRIED: usize = 4;
/// A notice grows in at most so many steps.
const STEPS: usize = 6;

/// A notice that the library has written, with its fields.
struct Grown {
    fields: Vec<Field>,
    bytes: Vec<u8>,
}

impl Grown {
    fn empty() -> Grown {
        Grown {
            fields: Vec::new(),
            bytes: virentolex::raw::EMPTY_NOTICE.to_vec(),
        }
    }

    /// The notice with the fields too, each of which has a name of its own and for which there is room.
    fn with(&self, more: &[Field]) -> Result<Grown, String> {
        let mut fields = self.fields.clone();
        let mut bytes = self.bytes.clone();
        for field in more {
            let length = bytes.len();
            bytes.resize(length + 5 + field.name.len() + field.value.len(), 0);
            let (name, kind, value) = (&field.name, field.kind, &field.value);
            let written = virentolex::raw::write(&mut bytes, length, name, kind, value);
            let at = fields.partition_point(|other: &Field| other.name < field.name);
            fields.insert(at, field.clone());
            same(
                "write of a field more: number, length",
                &[("notice", &self.bytes), ("name", name), ("value", value)],
                (written.number, written.length),
                (0, bytes.len()),
            )?;
        }
        same(
            "the notice with more fields",
            &[("notice", &self.bytes)],
            Hex(bytes.clone()),
            Hex(rendered(&fields)),
        )?;
        Ok(Grown { fields, bytes })
    }
}

/// The fields of a well-formed notice.
pub fn fields_of(notice: &[u8]) -> Vec<Field> {
    let fields = reference::notice::fields(notice).unwrap_or_default();
    let field = |field: reference::notice::Field| Field {
        name: notice[field.name].to_vec(),
        kind: field.kind,
        value: notice[field.value].to_vec(),
    };
    fields.into_iter().map(field).collect()
}

/// The names that a table which passes the check looks for.
fn names_in(table: &[u8]) -> Vec<Vec<u8>> {
    let table = checked(table).expect("it is a text's");
    let names = table.entries.iter().filter(|entry| entry.op == Op::Name);
    names
        .filter_map(|entry| pool_part(table.pool, entry).map(<[u8]>::to_vec))
        .collect()
}

/// The fields in the order in which they come, and how many are there from the start: most often those come
/// late that the text names.
fn in_order(random: &mut Random, mut fields: Vec<Field>, names: &[Vec<u8>]) -> (Vec<Field>, usize) {
    random.shuffle(&mut fields);
    if !random.once_in(4) {
        fields.sort_by_key(|field| names.contains(&field.name));
    }
    let named = fields.iter().filter(|field| names.contains(&field.name));
    let others = fields.len() - named.count();
    let from = match random.below(4) {
        0 => 0,
        1 => random.below(fields.len() + 1),
        _ => others,
    };
    (fields, from)
}

/// The parts of the order by which the notice grows: one field at a time, the last with all that is left.
fn parts(random: &mut Random, fields: &[Field]) -> Vec<Vec<Field>> {
    let mut parts: Vec<Vec<Field>> = Vec::new();
    let mut left = fields;
    while !left.is_empty() && parts.len() < STEPS {
        let size = match random.below(4) {
            0 => random.between(1, left.len()),
            _ => 1,
        };
        let size = if parts.len() + 1 == STEPS {
            left.len()
        } else {
            size
        };
        parts.push(left[..size].to_vec());
        left = &left[size..];
    }
    parts
}

impl Case<'_> {
    pub fn more(&mut self) -> Outcome {
        let whole = notices::well_formed(&mut self.random);
        (0..TRIED).try_for_each(|_| self.grown_text(&whole))
    }

    /// One text about the notice, if it is accepted, on that notice as it grows.
    fn grown_text(&mut self, whole: &[u8]) -> Outcome {
        let text = texts::valid(&mut self.random, &About::of(whole));
        let Ok(table) = table_of(1, &text) else {
            return Ok(());
        };
        let names = names_in(&table);
        let (fields, from) = in_order(&mut self.random, fields_of(whole), &names);
        let mut grown = vec![Grown::empty().with(&fields[..from])?];
        for part in parts(&mut self.random, &fields[from..]) {
            let larger = grown[grown.len() - 1].with(&part)?;
            grown.push(larger);
        }
        for edition in EDITIONS {
            let mut table = vec![0; virentolex::raw::TABLE_MAX];
            let answer = virentolex::raw::translate_numbered(edition.number(), &text, &mut table);
            same(
                "translate: number, length",
                &[("text", &text)],
                (answer.number, answer.length),
                (
                    0,
                    table_of(edition.number(), &text).map_or(0, |table| table.len()),
                ),
            )?;
            table.truncate(answer.length);
            for pair in grown.windows(2) {
                let met = self.growing(&text, &table, &pair[0], &pair[1])?;
                let step = Step {
                    edition,
                    table: &table,
                    names: &names,
                    smaller: (&pair[0].bytes, &pair[0].fields),
                    larger: (&pair[1].bytes, &pair[1].fields),
                };
                self.count("more", step.met(met));
            }
        }
        Ok(())
    }

    /// "If the first gives true, so does the second; if false, likewise."
    fn growing(
        &mut self,
        text: &[u8],
        table: &[u8],
        smaller: &Grown,
        larger: &Grown,
    ) -> Result<(Truth, Truth), String> {
        let (first, second) = (
            virentolex::raw::run(table, &smaller.bytes),
            virentolex::raw::run(table, &larger.bytes),
        );
        let verdicts = (truth(first.verdict), truth(second.verdict));
        let inputs = [
            ("text", text),
            ("table", table),
            ("smaller notice", &smaller.bytes),
            ("larger notice", &larger.bytes),
        ];
        same(
            "runs on both notices: numbers",
            &inputs,
            (first.number, second.number),
            (0, 0),
        )?;
        if verdicts.0 != Truth::Bottom {
            same(
                "more fields: the verdict on the larger notice; the reference is the library's own on the smaller",
                &inputs,
                verdicts.1,
                verdicts.0,
            )?;
        }
        Ok(verdicts)
    }
}

#[cfg(test)]
mod tests {
    use super::*;
    use crate::tally::Tally;

    fn field(name: &str, kind: u16, value: &[u8]) -> Field {
        Field {
            name: name.into(),
            kind,
            value: value.to_vec(),
        }
    }

    fn with_case<T>(run: impl Fn(&mut Case) -> T) -> T {
        let mut case = Case {
            random: Random::of_case(1, 1),
            tally: &mut Tally::default(),
            program: "",
        };
        run(&mut case)
    }

    /// Every text of up to two clauses, on every notice of three fields of any kind or none, and on those
    /// with one field more.
    #[test]
    fn every_short_text_on_every_notice() {
        let clauses = [
            "a == 1",
            "a < b",
            "s != a",
            "a / b > 1",
            "b << a == 2",
            "require (s)",
            "string (a)",
            "size (s) == 1",
            "begins-with (s, 'x')",
            "regex (s, '^x?$')",
            "equals (a, b, s, 1)",
            "! (a == s)",
            "1 == 1",
        ];
        let mut texts: Vec<String> = clauses.map(String::from).into();
        for join in ["&&", "||", "^^"] {
            let two = |one: &&str| clauses.map(|other| format!("{one} {join} {other}"));
            texts.extend(clauses.iter().flat_map(two));
        }
        let one = 1i32.to_le_bytes();
        let minus = (-1i64).to_le_bytes();
        let values = |name: &str| {
            [
                None,
                Some(field(name, 1, &one)),
                Some(field(name, 2, &minus)),
                Some(field(name, 4, b"x")),
            ]
        };
        let all = ["a", "b", "s"].map(values);
        let notice = |which: [usize; 3]| {
            let fields = (0..3).filter_map(|at| all[at][which[at]].clone());
            Grown::empty().with(&fields.collect::<Vec<_>>()).unwrap()
        };
        with_case(|case| {
            for text in &texts {
                let text = text.as_bytes();
                for edition in [1, 2] {
                    let table = table_of(edition, text).unwrap();
                    for code in 0..64 {
                        let which = [code % 4, code / 4 % 4, code / 16];
                        for at in (0..3).filter(|at| which[*at] == 0) {
                            for value in 1..4 {
                                let mut more = which;
                                more[at] = value;
                                case.growing(text, &table, &notice(which), &notice(more))
                                    .unwrap();
                            }
                        }
                    }
                }
            }
        });
    }

    /// A table of no text, in which a skip if true stands before `&&`: there a verdict turns round.
    #[test]
    fn a_table_of_no_text_is_told() {
        let mut table = table_of(1, b"a == 1 && 1 == 2").unwrap();
        assert_eq!(table[10 + 12 * 3], 44);
        table[10 + 12 * 3] = 45;
        let one = Grown::empty().with(&[field("a", 1, &1i32.to_le_bytes())]);
        let told = with_case(|case| {
            let one = one.as_ref().unwrap();
            case.growing(b"", &table, &Grown::empty(), one)
        });
        assert!(told.is_err_and(|told| told.starts_with("more fields")));
    }
}
