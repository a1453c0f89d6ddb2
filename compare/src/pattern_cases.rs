//! Cases of the functions that take patterns, `wildcard` and `regex`: patterns in tables made by hand and in
//! texts. That a pattern fits or does not is told by the corners of their ops; here is told by which cause a
//! table or a text is refused.

use crate::cases::{Case, Outcome};
use crate::expressions::quoted;
use crate::notices::{rendered, Field};
use crate::random::Random;
use crate::tables::{laid_out, Draft};
use crate::{edges, editions, texts};
use reference::op::Op;
use reference::Edition;

/// What a function's patterns are.
pub struct Patterns {
    /// Its name, by which its causes are counted too.
    pub function: &'static str,
    pub op: Op,
    /// A pattern that every value fits.
    pub any: &'static [u8],
    /// Why a pattern is ill-formed, if it is.
    pub fault: fn(&[u8]) -> Option<String>,
    /// A value, and patterns that have to do with it: any, a well-formed and an ill-formed one.
    pub value: fn(&mut Random) -> Vec<u8>,
    pub pattern: Maker,
    pub well_formed: Maker,
    pub ill_formed: Maker,
}

pub type Maker = fn(&mut Random, &[u8]) -> Vec<u8>;

/// What must occur in a run of many cases beside the causes of ill-formed patterns: of a table or a text that
/// would pass with another pattern, why it is refused.
const CAUSES: [&str; 11] = [
    "table: operand Name",
    "table: operand Int32",
    "table: operand FoldCase",
    "table: the first operand of two no string",
    "table: 9 patterns",
    "table: right, folded",
    "text: 18 before 5",
    "text: 18 before 7",
    "text: 4 before 18",
    "text: right, folded",
    "text: right",
];

/// What must occur of a function whose patterns are ill-formed by these causes.
pub fn names(faults: &[String]) -> Vec<String> {
    let table = faults.iter().map(|fault| format!("table: {fault}"));
    let text = faults.iter().map(|fault| format!("text: {fault}"));
    let causes = CAUSES.iter().map(|cause| cause.to_string());
    table.chain(text).chain(causes).collect()
}

/// So many tables and texts are tried in one case.
const TRIED: usize = 4;

/// An operand in a pattern's place.
enum Operand {
    Pattern(Vec<u8>),
    Other(Op),
}

impl Case<'_> {
    pub fn patterns(&mut self, of: &Patterns) -> Outcome {
        (0..TRIED).try_for_each(|_| self.pattern_table(of))?;
        (0..TRIED / 2).try_for_each(|_| self.pattern_text(of))
    }

    /// A table of the op: its check, and its run on a notice that has the value, or has it not.
    fn pattern_table(&mut self, of: &Patterns) -> Outcome {
        let value = (of.value)(&mut self.random);
        let operands = self.operands(of, &value);
        let folded = self.random.once_in(6);
        let in_notice = value.len() <= 1024 && self.random.once_in(3);
        let edition = editions::any(&mut self.random);
        let table = drafted(of, edition, &value, in_notice, folded, &operands);
        self.count("edge", edges::of_entries(&table));
        let number = self.checking(&table)?;
        self.count_table(of, &value, (in_notice, folded), &operands, number);
        let notice = match in_notice {
            true => self.notice_with(&value),
            false => virentolex::raw::EMPTY_NOTICE.to_vec(),
        };
        self.running(&table, &notice).map(|_| ())
    }

    /// 1 to 9 operands, most often one; now and then one that is no pattern, or an ill-formed one.
    fn operands(&mut self, of: &Patterns, value: &[u8]) -> Vec<Operand> {
        let count = self.random.pick(&[1, 1, 1, 1, 1, 1, 1, 2, 2, 8, 8, 9]);
        let last = self.random.once_in(2);
        let mut all: Vec<Operand> = (1..=count)
            .map(|at| {
                // of eight, those before the last fit nothing as often as not
                let away: &[u8] = if at < count && last {
                    b"no value"
                } else {
                    value
                };
                Operand::Pattern((of.well_formed)(&mut self.random, away))
            })
            .collect();
        let at = self.random.below(all.len());
        match self.random.below(5) {
            0 => all[at] = Operand::Pattern((of.pattern)(&mut self.random, value)),
            1 => all[at] = Operand::Pattern((of.ill_formed)(&mut self.random, value)),
            2 if self.random.once_in(2) => {
                all[at] = Operand::Other(self.random.pick(&[Op::Name, Op::Int32, Op::FoldCase]));
            }
            _ => (),
        }
        all
    }

    /// A notice whose field `s` is the value, most often a string, or is missing.
    fn notice_with(&mut self, value: &[u8]) -> Vec<u8> {
        let field = Field {
            name: b"s".to_vec(),
            kind: self.random.pick(&[4, 4, 4, 4, 4, 5]),
            value: value.to_vec(),
        };
        match self.random.below(8) {
            0 => virentolex::raw::EMPTY_NOTICE.to_vec(),
            _ => rendered(&[field]),
        }
    }

    /// Why the table is refused, if it would pass with another pattern.
    fn count_table(
        &mut self,
        of: &Patterns,
        value: &[u8],
        (named, folded): (bool, bool),
        all: &[Operand],
        number: u8,
    ) {
        let right = |operands: &[Operand]| {
            let table = drafted(of, Edition::First, value, named, folded, operands);
            reference::check(&table) == 0
        };
        if number == 0 && folded {
            self.tally.count(of.function, "table: right, folded");
        }
        if number == 0 {
            return;
        }
        if all.len() == 9 && right(&all.iter().take(8).map(Operand::again).collect::<Vec<_>>()) {
            self.tally.count(of.function, "table: 9 patterns");
        }
        for at in 0..all.len() {
            let mut others: Vec<Operand> = all.iter().map(Operand::again).collect();
            others[at] = Operand::Pattern(of.any.to_vec());
            if !right(&others) {
                continue;
            }
            self.tally.count(of.function, all[at].cause(of));
            if at == 0 && all.len() == 2 && matches!(all[0], Operand::Other(_)) {
                self.tally
                    .count(of.function, "table: the first operand of two no string");
            }
        }
    }

    /// A text of one call, alone or beside others, on a notice.
    fn pattern_text(&mut self, of: &Patterns) -> Outcome {
        let value = (of.value)(&mut self.random);
        let count = self.random.pick(&[1, 1, 1, 2, 3, 8]);
        let mut literals: Vec<Vec<u8>> = (0..count)
            .map(|_| (of.well_formed)(&mut self.random, &value))
            .collect();
        if self.random.once_in(3) {
            let at = self.random.below(literals.len());
            literals[at] = (of.ill_formed)(&mut self.random, &value);
        }
        let folded = self.random.once_in(4);
        let call = self.call(of, folded, &literals);
        let text = self.beside(of, &call);
        let edition = editions::any(&mut self.random);
        let table = reference::compile::table_of(edition.number(), &text);
        let room = table.as_ref().map_or(64, Vec::len);
        for room in [room, room - 1, 0] {
            self.translation(edition.number(), &text, room)?;
        }
        let other = editions::other(&mut self.random);
        self.translation(other, &text, room)?;
        self.count_text(of, &text, &call, &literals, folded);
        let Ok(table) = table else {
            return Ok(());
        };
        let value = &value[..value.len().min(1024)];
        let notice = self.notice_with(value);
        self.demand_3(edition, &text, &table, &notice)
    }

    fn call(&mut self, of: &Patterns, folded: bool, literals: &[Vec<u8>]) -> Vec<u8> {
        let mut call = format!("{}(", of.function).into_bytes();
        call.extend(if folded {
            b"fold-case(s)".as_slice()
        } else {
            b"s"
        });
        for literal in literals {
            call.push(b',');
            call.extend(quoted(&mut self.random, literal));
        }
        call.push(b')');
        call
    }

    /// The call alone, joined with what is right, or with what 4, 5 or 7 refuses.
    fn beside(&mut self, of: &Patterns, call: &[u8]) -> Vec<u8> {
        let long = " ^^ 1 == 1".repeat(129).into_bytes();
        match self.random.below(10) {
            0 => [call, b" == 1"].concat(),
            1 => [b"s && ", call].concat(),
            2 => [call, b" ^^ f (s)"].concat(),
            3 => [of.function.as_bytes(), b" (s) || ", call].concat(),
            4 if self.random.once_in(4) => [call, &long].concat(),
            5 => [b"! (".as_slice(), call, b")"].concat(),
            6 => [call, b" || string (s)"].concat(),
            7 => texts::damaged(&mut self.random, call.to_vec()),
            _ => call.to_vec(),
        }
    }

    /// Why the text is refused, if it would not be with other patterns, or by a later number.
    fn count_text(
        &mut self,
        of: &Patterns,
        text: &[u8],
        call: &[u8],
        literals: &[Vec<u8>],
        folded: bool,
    ) {
        let Some(at) = text.windows(call.len()).position(|part| part == call) else {
            return;
        };
        let number = |text: &[u8]| {
            reference::compile::table_of(1, text).map_or_else(|(number, _)| number, |_| 0)
        };
        let any = self.call(of, false, &[of.any.to_vec()]);
        let right = [&text[..at], &any, &text[at + call.len()..]].concat();
        let faults: Vec<String> = literals.iter().filter_map(|one| (of.fault)(one)).collect();
        let told = match (number(text), number(&right), &faults[..]) {
            (0, 0, _) if folded => "text: right, folded".to_string(),
            (0, 0, _) => "text: right".to_string(),
            (18, 0, [fault]) => format!("text: {fault}"),
            (18, 5, _) => "text: 18 before 5".to_string(),
            (18, 7, _) => "text: 18 before 7".to_string(),
            (4, 4, [_, ..]) => "text: 4 before 18".to_string(),
            _ => return,
        };
        self.tally.count(of.function, told);
    }
}

impl Operand {
    fn again(&self) -> Operand {
        match self {
            Operand::Pattern(bytes) => Operand::Pattern(bytes.clone()),
            Operand::Other(op) => Operand::Other(*op),
        }
    }

    /// Why a table with this operand is refused.
    fn cause(&self, of: &Patterns) -> String {
        match self {
            Operand::Pattern(bytes) => match (of.fault)(bytes) {
                Some(fault) => format!("table: {fault}"),
                None => "table: well-formed".to_string(),
            },
            Operand::Other(op) => format!("table: operand {op:?}"),
        }
    }
}

/// The table of the op on the value, in the pool or as field `s`, with the operands.
fn drafted(
    of: &Patterns,
    edition: Edition,
    value: &[u8],
    named: bool,
    folded: bool,
    operands: &[Operand],
) -> Vec<u8> {
    let mut draft = Draft {
        entries: Vec::new(),
        pool: b"s".to_vec(),
    };
    match named {
        true => draft.entries.push((Op::Name.code(), 1, 0)),
        false => push(&mut draft, value),
    }
    if folded {
        draft.entries.push((Op::FoldCase.code(), 0, 0));
    }
    for operand in operands {
        match operand {
            Operand::Pattern(bytes) => push(&mut draft, bytes),
            Operand::Other(Op::FoldCase) => {
                push(&mut draft, of.any);
                draft.entries.push((Op::FoldCase.code(), 0, 0));
            }
            Operand::Other(op) => draft
                .entries
                .push((op.code(), u16::from(*op == Op::Name), 0)),
        }
    }
    draft.entries.push((of.op.code(), operands.len() as u16, 0));
    laid_out(edition, &draft)
}

fn push(draft: &mut Draft, bytes: &[u8]) {
    let (a, b) = (bytes.len() as u16, draft.pool.len() as u64);
    draft.entries.push((Op::Text.code(), a, b));
    draft.pool.extend(bytes);
}
