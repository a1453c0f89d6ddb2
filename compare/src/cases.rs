//! The kinds of cases: inputs from the generator, given to the static library and to the second
//! implementation, and every answer and lent byte compared.

use crate::about::About;
use crate::corners::Watch;
use crate::random::Random;
use crate::shift_edges::Shifts;
use crate::tally::Tally;
use crate::undecided_edges::Trace;
use crate::{
    edges, editions, inputs, notices, operations, program, spellings, tables, texts, words,
};
use reference::compile::Entry;
use reference::value::Slot;
use reference::{Edition, Truth};
use std::collections::BTreeSet;
use std::fmt::{Debug, Formatter};

/// Bytes that print as hex.
#[derive(Clone, PartialEq)]
pub struct Hex(pub Vec<u8>);

impl Debug for Hex {
    fn fmt(&self, f: &mut Formatter<'_>) -> std::fmt::Result {
        if self.0.is_empty() {
            return f.write_str("-");
        }
        self.0.iter().try_for_each(|byte| write!(f, "{byte:02x}"))
    }
}

/// One case under way.
pub struct Case<'a> {
    pub random: Random,
    pub tally: &'a mut Tally,
    /// The path of the program `verdict`.
    pub program: &'a str,
}

pub type Outcome = Result<(), String>;

/// The inputs and both answers, if these differ.
pub fn same<T: PartialEq + Debug>(
    call: &str,
    inputs: &[(&str, &[u8])],
    answered: T,
    reference: T,
) -> Outcome {
    if answered == reference {
        return Ok(());
    }
    let inputs: Vec<String> = inputs
        .iter()
        .map(|(name, bytes)| format!("  {name}: {:?}\n", Hex(bytes.to_vec())))
        .collect();
    Err(format!(
        "{call}\n{}  answered:  {answered:?}\n  reference: {reference:?}",
        inputs.concat()
    ))
}

/// Bytes kept before and after each lent buffer, which must stay.
pub const GUARD: usize = 16;

/// A buffer of that length with a pattern, between guards.
pub fn patterned(length: usize, salt: usize) -> Vec<u8> {
    (0..length + 2 * GUARD)
        .map(|at| (at * 7 + salt) as u8)
        .collect()
}

pub fn truth(verdict: virentolex::raw::Verdict) -> Truth {
    match verdict {
        virentolex::raw::Verdict::False => Truth::False,
        virentolex::raw::Verdict::Bottom => Truth::Bottom,
        virentolex::raw::Verdict::True => Truth::True,
    }
}

/// The number of the entry in the papers: "or 65535 if none did".
pub fn entry_number(undecided: Option<usize>) -> usize {
    undecided.unwrap_or(reference::run::NO_ENTRY)
}

/// The kinds in turn, by the case's number.
const KINDS: [&str; 33] = [
    "text",
    "table",
    "notice",
    "write",
    "text",
    "operator",
    "text",
    "notice",
    "text",
    "table",
    "text",
    "write",
    "text",
    "table",
    "notice",
    "text",
    "write",
    "text",
    "table",
    "quorum",
    "wildcard",
    "size",
    "ubf",
    "meter",
    "find",
    "undecided",
    "many",
    "shift",
    "more",
    "store",
    "regex",
    "mend",
    "delivery",
];
/// So many operators are tried in one case of theirs.
const OPERATORS: usize = 20;
/// One case of so many is a whole input of the program.
const PROGRAM_EACH: u64 = 100;

pub fn kind_of(number: u64) -> &'static str {
    match number % PROGRAM_EACH {
        0 => "program",
        _ => KINDS[(number % KINDS.len() as u64) as usize],
    }
}

impl Case<'_> {
    /// Runs the case of that kind.
    pub fn run(&mut self, kind: &'static str) -> Outcome {
        self.tally.count("case", kind);
        match kind {
            "text" => self.text(),
            "table" => self.table(),
            "notice" => self.notice(),
            "write" => self.write(),
            "quorum" => self.quorum(),
            "wildcard" => self.wildcard(),
            "size" => self.size(),
            "ubf" => self.ubf(),
            "meter" => self.meter(),
            "find" => self.find(),
            "undecided" => self.undecided(),
            "many" => self.many(),
            "shift" => self.shift(),
            "more" => self.more(),
            "store" => self.store(),
            "regex" => self.regex(),
            "mend" => self.mend(),
            "delivery" => self.delivery(),
            "operator" => (0..OPERATORS).try_for_each(|_| self.operator()),
            _ => self.program(),
        }
    }

    /// The notice's fields, or none now and then, for a text or a table about it.
    pub fn about(&mut self, notice: &[u8]) -> About {
        match self.random.below(3) {
            0 => About::nothing(),
            _ => About::of(notice),
        }
    }

    /// A text by one edition with buffers of each size, and demand 3 if it is accepted, on a notice that it
    /// is about and on another; and by no edition.
    fn text(&mut self) -> Outcome {
        let notice = notices::well_formed(&mut self.random);
        let about = self.about(&notice);
        let text = texts::text(&mut self.random, &about);
        self.count("edge", edges::of_text(&text));
        let edition = editions::any(&mut self.random);
        let table = reference::compile::table_of(edition.number(), &text);
        let length = table.as_ref().map_or(64, Vec::len);
        let larger = length + self.random.between(1, 300);
        for room in [length, length - 1, 0, larger] {
            self.translation(edition.number(), &text, room)?;
        }
        let (other, less) = (editions::other(&mut self.random), self.random.below(2));
        self.translation(other, &text, length - less)?;
        self.count("spelling", spellings::of_text(&text));
        let Ok(table) = table else {
            return Ok(());
        };
        self.demand_3(edition, &text, &table, &notice)?;
        let other = notices::well_formed(&mut self.random);
        self.demand_3(edition, &text, &table, &other)
    }

    /// A text that is accepted, by each edition on the notice, and by no edition.
    pub fn both_editions(&mut self, text: &[u8], notice: &[u8]) -> Outcome {
        for edition in editions::EDITIONS {
            let table = reference::compile::table_of(edition.number(), text)
                .map_err(|refusal| format!("{:?}: {refusal:?}", Hex(text.to_vec())))?;
            self.translation(edition.number(), text, table.len())?;
            self.demand_3(edition, text, &table, notice)?;
        }
        let other = editions::other(&mut self.random);
        self.translation(other, text, 64)
    }

    /// One translation; the whole buffer and its guards are compared.
    pub fn translation(&mut self, edition: usize, text: &[u8], room: usize) -> Outcome {
        let mut lent = patterned(room, self.random.below(256));
        let mut meant = lent.clone();
        let library =
            virentolex::raw::translate_numbered(edition, text, &mut lent[GUARD..GUARD + room]);
        let reference = reference::translate(edition, text, &mut meant[GUARD..GUARD + room]);
        self.tally.count("translate", reference.number);
        if reference.number == 25 {
            self.count("edition", editions::of_refused(edition, text, room));
        }
        same(
            &format!("translate, edition {edition}, buffer of {room} bytes within guards of {GUARD}: number, place, length, bytes after"),
            &[("text", text)],
            (library.number, library.place, library.length, Hex(lent)),
            (reference.number, reference.place, reference.length, Hex(meant)),
        )
    }

    /// The letter, number 3, of an accepted text and a well-formed notice. The table is the library's
    /// own, since the translations have agreed.
    pub fn demand_3(
        &mut self,
        edition: Edition,
        text: &[u8],
        table: &[u8],
        notice: &[u8],
    ) -> Outcome {
        let inputs = [("text", text), ("table", table), ("notice", notice)];
        same(
            "check of the text's table",
            &inputs,
            virentolex::raw::check(table),
            0,
        )?;
        let library = virentolex::raw::run(table, notice);
        let meaning = reference::meaning(edition.number(), text, notice);
        same(
            &format!("demand 3, {edition:?} edition: number, place, verdict; the reference is the meaning with nothing skipped"),
            &inputs,
            (library.number, library.place, Some(truth(library.verdict))),
            (0, 0, meaning),
        )?;
        let steps = self.running(table, notice)?;
        let verdict = truth(library.verdict);
        self.tally.count("demand 3", format!("{verdict:?}"));
        let met = editions::ran("demand 3", edition, verdict);
        self.tally.count("edition", met);
        self.count_skips("text runs", table, steps);
        Ok(())
    }

    /// One run; the steps answered.
    pub fn running(&mut self, table: &[u8], notice: &[u8]) -> Result<usize, String> {
        let mut watch = Watch::of(table, notice);
        let mut trace = Trace::default();
        let mut shifts = Shifts::of(table);
        let mut show = |at: usize, entry: &Entry, stack: &[Slot]| {
            watch.see(entry, stack);
            trace.see(at, entry, stack);
            shifts.see(entry, stack);
        };
        let library = virentolex::raw::run(table, notice);
        let reference = reference::run::run_shown(table, notice, &mut show);
        self.tally.count("run", reference.number);
        same(
            "run: number, place, verdict, steps, undecided entry",
            &[("table", table), ("notice", notice)],
            (
                library.number,
                library.place,
                truth(library.verdict),
                library.steps,
                entry_number(library.undecided),
            ),
            (
                reference.number,
                reference.place,
                reference.verdict,
                reference.steps,
                reference.undecided,
            ),
        )?;
        if reference.number == 0 {
            self.count("undecided", trace.met(table, notice, &reference));
            self.tally
                .count("verdict", format!("{:?}", reference.verdict));
            self.count_ops(table);
        }
        if let (0, Some(edition)) = (reference.number, editions::of_table(table)) {
            let met = editions::ran("run", edition, reference.verdict);
            self.tally.count("edition", met);
        }
        self.count("corner", watch.met);
        self.count("shift", shifts.met);
        Ok(reference.steps)
    }

    /// Counts whether a run that was not refused passed over entries.
    fn count_skips(&mut self, of: &'static str, table: &[u8], steps: usize) {
        let count = usize::from(u16::from_le_bytes([table[6], table[7]]));
        self.tally
            .count(of, if steps < count { "skipped" } else { "whole" });
    }

    /// Counts each op that a table that has run holds, once.
    fn count_ops(&mut self, table: &[u8]) {
        let count = usize::from(u16::from_le_bytes([table[6], table[7]]));
        let entries = table[10..].chunks(12).take(count);
        let ops: BTreeSet<u16> = entries
            .map(|entry| u16::from_le_bytes([entry[0], entry[1]]))
            .collect();
        ops.into_iter().for_each(|op| self.tally.count("op", op));
    }

    /// One check of a table; the number answered.
    pub fn checking(&mut self, table: &[u8]) -> Result<u8, String> {
        let reference = reference::check(table);
        self.tally.count("check", reference);
        self.count("edition", editions::of_check(table, reference));
        same(
            "check",
            &[("table", table)],
            virentolex::raw::check(table),
            reference,
        )?;
        Ok(reference)
    }

    /// A table, its check, and its run on notices of each sort.
    fn table(&mut self) -> Outcome {
        let notice = notices::well_formed(&mut self.random);
        let about = self.about(&notice);
        let table = tables::table(&mut self.random, &about);
        self.count("edge", edges::of_table(&table));
        self.count("edge", edges::of_entries(&table));
        let reference = self.checking(&table)?;
        let steps = self.running(&table, &notice)?;
        if reference == 0 {
            self.count_skips("table runs", &table, steps);
        }
        let notice = notices::notice(&mut self.random);
        self.running(&table, &notice).map(|_| ())
    }

    /// One operator on numbers near the limits, or on strings.
    fn operator(&mut self) -> Outcome {
        let edition = editions::any(&mut self.random);
        let table = match self.random.below(4) {
            0 => operations::on_strings(&mut self.random, edition),
            _ => operations::on_numbers(&mut self.random, edition),
        };
        self.count("edge", edges::of_entries(&table));
        self.running(&table, &virentolex::raw::EMPTY_NOTICE)
            .map(|_| ())
    }

    /// A notice, its check, all its fields and two more, and a run on it.
    fn notice(&mut self) -> Outcome {
        let notice = notices::notice(&mut self.random);
        let (number, place) = reference::check_notice(&notice);
        self.count("edge", edges::of_notice(&notice, number, place));
        self.tally.count("check_notice", number);
        let library = virentolex::raw::check_notice(&notice);
        let answers = ((library.number, library.place), (number, place));
        same(
            "check_notice: number, place",
            &[("notice", &notice)],
            answers.0,
            answers.1,
        )?;
        let count = reference::notice::fields(&notice).map_or(1, |fields| fields.len());
        for k in (0..=count + 1).chain([usize::MAX]) {
            self.reading(&notice, k)?;
        }
        let about = self.about(&notice);
        let table = tables::translated(&mut self.random, &about);
        self.running(&table, &notice).map(|_| ())
    }

    fn reading(&mut self, notice: &[u8], k: usize) -> Outcome {
        let library = virentolex::raw::read(notice, k);
        let reference = reference::read(notice, k);
        self.tally.count("read", reference.number);
        let part = |part: &[u8]| {
            let start = part.as_ptr() as usize - notice.as_ptr() as usize;
            start..start + part.len()
        };
        same(
            &format!("read field {k}: number, place, kind, where name and value lie"),
            &[("notice", notice)],
            (
                library.number,
                library.place,
                library.kind,
                part(library.name),
                part(library.value),
            ),
            (
                reference.number,
                reference.place,
                reference.kind,
                reference.name,
                reference.value,
            ),
        )
    }

    pub fn count(&mut self, of: &'static str, met: impl IntoIterator<Item = String>) {
        met.into_iter().for_each(|one| self.tally.count(of, one));
    }

    /// Fields written, one after another, to a notice in a buffer.
    fn write(&mut self) -> Outcome {
        let notice = match self.random.below(8) {
            0 => notices::full(&mut self.random),
            1 => notices::heavy(&mut self.random),
            _ => notices::notice(&mut self.random),
        };
        if self.random.once_in(4) {
            return self.written_again(&notice);
        }
        let field = self.field_to_write(notice.len());
        let size = 5 + field.name.len() + field.value.len();
        let room = self
            .random
            .pick(&[0, size - 1, size, size + 1, 100, 1100, 1100, 17000]);
        let mut lent = patterned(notice.len() + room, self.random.below(256));
        lent[GUARD..GUARD + notice.len()].copy_from_slice(&notice);
        let length = match self.random.below(16) {
            0 => notice.len() + self.random.between(1, room + 2),
            1 => self.random.below(notice.len() + 1),
            2 if self.random.once_in(4) => usize::MAX,
            _ => notice.len(),
        };
        let mut length = self.write_field(&mut lent, length, &field)?;
        for _ in 0..self.random.below(5) {
            let field = self.field_to_write(length);
            length = self.write_field(&mut lent, length, &field)?;
        }
        Ok(())
    }

    /// A field of any sort, right or wrong, for a notice of that length.
    fn field_to_write(&mut self, length: usize) -> notices::Field {
        let mut field = notices::field(&mut self.random);
        let random = &mut self.random;
        match random.below(12) {
            0 => field.kind = random.pick(&[0, 6, 256, 65535]),
            1 => field.value = vec![b'v'; random.pick(&[0, 3, 4, 5, 7, 8, 9, 1024, 1025])],
            2 => field.name = words::other_name(random),
            3 => field.name = vec![random.pick(b"Z_n~"); random.pick(&[63, 64, 65])],
            4 | 5 if length > 15_000 && length < 16_380 => {
                let whole = random.pick(&[16383, 16384, 16385]);
                let size = whole - (length + 5 + field.name.len()).min(whole);
                (field.kind, field.value) = (random.pick(&[4, 5]), vec![b'v'; size]);
            }
            _ => (),
        }
        field
    }

    /// One write; the whole buffer and its guards are compared.
    fn write_field(
        &mut self,
        lent: &mut [u8],
        length: usize,
        field: &notices::Field,
    ) -> Result<usize, String> {
        let end = lent.len() - GUARD;
        let before = lent.to_vec();
        let mut meant = before.clone();
        let (name, kind, value) = (&field.name[..], field.kind, &field.value[..]);
        let library = virentolex::raw::write(&mut lent[GUARD..end], length, name, kind, value);
        let reference = reference::write(&mut meant[GUARD..end], length, name, kind, value);
        self.tally.count("write", reference.number);
        let notice = before[GUARD..end].get(..length).unwrap_or_default();
        let met = edges::of_write(end - GUARD, notice, field, reference.number);
        self.count("edge", met);
        same(
            &format!("write, named length {length}, kind {kind}: number, place, length, bytes after with guards"),
            &[("buffer", &before[GUARD..end]), ("name", name), ("value", value)],
            (library.number, library.place, library.length, Hex(lent.to_vec())),
            (reference.number, reference.place, reference.length, Hex(meant)),
        )?;
        Ok(reference.length)
    }

    /// "one that is read and written again has the same bytes": the fields of a well-formed notice, read
    /// by the library and written in any order.
    fn written_again(&mut self, notice: &[u8]) -> Outcome {
        let count = match virentolex::raw::check_notice(notice).number {
            0 => usize::from(notice[6]),
            _ => 0,
        };
        let mut order: Vec<usize> = (0..count).collect();
        self.random.shuffle(&mut order);
        let mut lent = patterned(notice.len().max(8), 0);
        lent[GUARD..GUARD + 8].copy_from_slice(&virentolex::raw::EMPTY_NOTICE);
        let mut length = 8;
        for k in &order {
            let read = virentolex::raw::read(notice, *k);
            let field = notices::Field {
                name: read.name.into(),
                kind: read.kind,
                value: read.value.into(),
            };
            length = self.write_field(&mut lent, length, &field)?;
        }
        let again = Hex(lent[GUARD..GUARD + length].to_vec());
        let meant = if count > 0 {
            notice
        } else {
            &virentolex::raw::EMPTY_NOTICE
        };
        same(
            "read and written again",
            &[("notice", notice)],
            again,
            Hex(meant.to_vec()),
        )
    }

    /// A whole input of the program, given to it in pieces, of a long one at most 2,000.
    fn program(&mut self) -> Outcome {
        let input = inputs::input(&mut self.random);
        let piece = self.random.pick(&[1000, 7, 65536, 1 << 20]);
        let piece = piece.max(input.len() / 2000);
        let printed = program::output(self.program, &input, piece)?;
        let meant = reference::verdict(&input);
        self.count_lines(&meant);
        self.count("edge", edges::of_input(&input, &meant));
        let lines = |bytes: Vec<u8>| String::from_utf8_lossy(&bytes).into_owned();
        same(
            "program verdict",
            &[("input", &input)],
            lines(printed),
            lines(meant),
        )
    }

    fn count_lines(&mut self, printed: &[u8]) {
        for line in String::from_utf8_lossy(printed).lines() {
            let words: Vec<&str> = line.split(' ').collect();
            let what = match words[..] {
                ["S", "0", ..] => "S 0".to_string(),
                ["S", ..] => "S refused".to_string(),
                ["N", "0", verdict, _, _, "65535"] => format!("N {verdict}"),
                ["N", "0", verdict, ..] => format!("N {verdict}, an entry"),
                ["N", number, ..] => format!("N {number}"),
                ["X", "4"] => "X 4".to_string(),
                _ => words[0].to_string(),
            };
            self.tally.count("line", what);
        }
    }
}

#[cfg(test)]
mod tests {
    use super::*;

    #[test]
    fn a_difference_is_told_with_its_inputs() {
        assert_eq!(same("call", &[("text", b"a")], 1, 1), Ok(()));
        let told = same("call", &[("text", b"a"), ("none", b"")], 1, 2).unwrap_err();
        assert_eq!(
            told,
            "call\n  text: 61\n  none: -\n  answered:  1\n  reference: 2"
        );
    }

    #[test]
    fn every_kind_has_its_turn() {
        let mut kinds: Vec<&str> = (0..PROGRAM_EACH).map(kind_of).collect();
        kinds.sort();
        kinds.dedup();
        assert_eq!(
            kinds,
            [
                "delivery",
                "find",
                "many",
                "mend",
                "meter",
                "more",
                "notice",
                "operator",
                "program",
                "quorum",
                "regex",
                "shift",
                "size",
                "store",
                "table",
                "text",
                "ubf",
                "undecided",
                "wildcard",
                "write"
            ]
        );
    }
}
