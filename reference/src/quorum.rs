//! Document 02, request 3: "The quorum counter". Words in quotes are that request's.
//!
//! A decision is an owned value here, which answers by itself; in a lent buffer it has the layout of
//! docs/FORMATS.md, "Decision". What the count must be is worked out from the history alone, beside it.

use crate::notice::{fields, value_of};
use crate::run::{run, Running, NO_ENTRY};
use crate::table::check;
use crate::value::{Truth, Value};
use crate::word;
use std::collections::BTreeSet;

/// "a needed number of 1 to 8 people", "at most 8 values"
pub const MOST_PEOPLE: usize = 8;
/// "of 1..64 bytes"
pub const MOST_VALUE: usize = 64;
/// The field that names a person.
pub const STAFF: &[u8] = b"Staff";
/// Where the table begins.
pub const HEAD: usize = 528;
/// Where the places begin, and the size of each: "a length byte, 1 to 64, and 64 bytes".
pub const PLACES: usize = 8;
pub const PLACE: usize = 1 + MOST_VALUE;

/// "The answer is the count and whether it has reached the needed number."; "a refusal answers its
/// number, the run's place and the rest as it stood". Request 7, of the run's undecided entry: "The quorum
/// counter passes it on, with 19 and 20 too."
#[derive(Clone, Copy, PartialEq, Eq, Debug)]
pub struct Shown {
    pub number: u8,
    pub place: usize,
    pub count: usize,
    pub reached: bool,
    pub undecided: usize,
}

impl Shown {
    /// "(at opening and with 12: 0, not reached)"; request 7: "a counter's call without a run, give[s] 65535"
    fn of_none(number: u8) -> Shown {
        Shown {
            number,
            place: 0,
            count: 0,
            reached: false,
            undecided: NO_ENTRY,
        }
    }
}

/// "A decision is opened with a table, which it keeps, and a needed number of 1 to 8 people.", with the
/// values counted. One made by hand may hold anything.
#[derive(Clone, PartialEq, Eq, Debug)]
pub struct Decision {
    pub table: Vec<u8>,
    pub needed: usize,
    pub values: Vec<Vec<u8>>,
}

impl Decision {
    /// "Refusals: at opening 12, then 21 for a needed number outside 1..8"
    pub fn open(table: &[u8], needed: usize) -> Result<Decision, u8> {
        if check(table) != 0 {
            return Err(12);
        }
        if !(1..=MOST_PEOPLE).contains(&needed) {
            return Err(21);
        }
        Ok(Decision {
            table: table.to_vec(),
            needed,
            values: Vec::new(),
        })
    }

    /// "keeps a table that passes the check, a needed number in 1..8 and at most 8 values, all different,
    /// of 1..64 bytes"
    pub fn is_right(&self) -> bool {
        let different: BTreeSet<&Vec<u8>> = self.values.iter().collect();
        check(&self.table) == 0
            && (1..=MOST_PEOPLE).contains(&self.needed)
            && self.values.len() <= MOST_PEOPLE
            && different.len() == self.values.len()
            && self.values.iter().all(|value| size_right(value))
    }

    /// "at a notice first 12 unless the decision keeps .., then 11, then, if true, 19 .., then 20 for a
    /// ninth person; a refusal .. changes nothing"
    pub fn show(&mut self, notice: &[u8]) -> Shown {
        if !self.is_right() {
            return Shown::of_none(12);
        }
        let run = run(&self.table, notice);
        let (number, place) = match self.person(&run, notice) {
            Err(refusal) => refusal,
            Ok(person) => {
                self.values.extend(person);
                (0, 0)
            }
        };
        // "The answer is the count and whether it has reached the needed number."
        Shown {
            number,
            place,
            count: self.values.len(),
            reached: self.values.len() >= self.needed,
            undecided: run.undecided,
        }
    }

    /// The person that a notice adds: "Each notice shown to it is run; if the verdict is true, the string
    /// field Staff is taken and counted unless those bytes were counted before in this decision."
    fn person(&self, run: &Running, notice: &[u8]) -> Result<Option<Vec<u8>>, (u8, usize)> {
        if run.number != 0 {
            return Err((run.number, run.place));
        }
        if run.verdict != Truth::True {
            return Ok(None);
        }
        let staff = staff(notice).ok_or((19, 0))?;
        if self.values.contains(&staff) {
            return Ok(None);
        }
        if self.values.len() == MOST_PEOPLE {
            return Err((20, 0));
        }
        Ok(Some(staff))
    }

    /// The decision at the buffer's start, if its layout is that of docs/FORMATS.md; its table and values
    /// may still be wrong.
    pub fn read(buffer: &[u8]) -> Option<Decision> {
        let whole = buffer.get(..4 + word(buffer, 0, 4)? as usize)?;
        let table = whole.get(HEAD..)?;
        let count = word(whole, 7, 1)? as usize;
        if word(whole, 4, 2)? != 5 || count > MOST_PEOPLE {
            return None;
        }
        let values: Option<Vec<Vec<u8>>> = whole[PLACES..HEAD]
            .chunks(PLACE)
            .take(count)
            .map(|place| Some(place[1..].get(..usize::from(place[0]))?.to_vec()))
            .collect();
        Some(Decision {
            table: table.to_vec(),
            needed: word(whole, 6, 1)? as usize,
            values: values?,
        })
    }

    /// Puts a right decision at the start of a buffer that has room for it. "The places past the count,
    /// and what a value leaves of its 64 bytes" (docs/FORMATS.md) and the bytes past the decision stay.
    pub fn put(&self, buffer: &mut [u8]) {
        let length = HEAD - 4 + self.table.len();
        buffer[..4].copy_from_slice(&(length as u32).to_le_bytes());
        buffer[4..8].copy_from_slice(&[5, 0, self.needed as u8, self.values.len() as u8]);
        for (value, place) in self.values.iter().zip(buffer[PLACES..].chunks_mut(PLACE)) {
            place[0] = value.len() as u8;
            place[1..=value.len()].copy_from_slice(value);
        }
        buffer[HEAD..][..self.table.len()].copy_from_slice(&self.table);
    }
}

/// "of 1..64 bytes"
fn size_right(value: &[u8]) -> bool {
    (1..=MOST_VALUE).contains(&value.len())
}

/// The value of Staff; none for "19 if Staff is absent, no string or not 1..64 bytes".
pub fn staff(notice: &[u8]) -> Option<Vec<u8>> {
    match value_of(notice, &fields(notice).ok()?, STAFF)? {
        Value::Text(value) if size_right(&value) => Some(value),
        _ => None,
    }
}

/// Opens a decision at the buffer's start: 12, 21, then 9 if the buffer is too short for it (document
/// 01: "lent buffer shorter than the table").
pub fn open(buffer: &mut [u8], table: &[u8], needed: usize) -> Shown {
    match Decision::open(table, needed) {
        Err(number) => Shown::of_none(number),
        Ok(_) if buffer.len() < HEAD + table.len() => Shown::of_none(9),
        Ok(decision) => {
            decision.put(buffer);
            Shown::of_none(0)
        }
    }
}

/// Shows a notice to the decision at the buffer's start; "(a refused opening makes none)".
pub fn show(buffer: &mut [u8], notice: &[u8]) -> Shown {
    let Some(mut decision) = Decision::read(buffer) else {
        return Shown::of_none(12);
    };
    let shown = decision.show(notice);
    if shown.number == 0 {
        decision.put(buffer);
    }
    shown
}

/// What a notice, and the number that the counter answered to it, tell the history: its Staff value, if
/// it was "neither refused nor short of true".
pub fn told(table: &[u8], notice: &[u8], number: u8) -> Option<Vec<u8>> {
    if number != 0 || run(table, notice).verdict != Truth::True {
        return None;
    }
    let fields = fields(notice).ok()?;
    let strings = fields.into_iter().filter(|field| field.kind == 4);
    let named: Vec<_> = strings
        .filter(|field| notice[field.name.clone()] == *STAFF)
        .collect();
    Some(notice[named.first()?.value.clone()].to_vec())
}

/// "The count must, with nobody else changing the decision, be the number of different Staff values
/// among all notices that were neither refused nor short of true since opening, defined from that
/// history."
pub fn count_of(history: &[Option<Vec<u8>>]) -> usize {
    let mut values: Vec<&Vec<u8>> = history.iter().flatten().collect();
    values.sort();
    values.dedup();
    values.len()
}

#[cfg(test)]
mod tests {
    use super::*;
    use crate::compile::table_of;
    use crate::notice::{field_bytes, notice_bytes};

    /// An answer with no undecided entry.
    fn shown(number: u8, place: usize, count: usize, reached: bool) -> Shown {
        Shown {
            number,
            place,
            count,
            reached,
            undecided: 65535,
        }
    }

    /// A notice with Op 42 and, if any, that Staff of that kind.
    fn notice(staff: Option<(u16, &[u8])>) -> Vec<u8> {
        let op = field_bytes(b"Op", 1, &42i32.to_le_bytes());
        let staff = staff.map(|(kind, value)| field_bytes(STAFF, kind, value));
        let fields = [vec![op], staff.into_iter().collect()].concat();
        let parts: Vec<&[u8]> = fields.iter().map(Vec::as_slice).collect();
        notice_bytes(parts.len(), &parts)
    }

    fn op_is_42() -> Vec<u8> {
        table_of(1, b"Op == 42").unwrap()
    }

    #[test]
    fn the_letters_case() {
        let mut buffer = vec![7; HEAD + 48 + 2];
        assert_eq!(open(&mut buffer, &op_is_42(), 2), shown(0, 0, 0, false));
        let first = notice(Some((4, b"417")));
        let nameless = notice(None);
        let second = notice(Some((4, b"418")));
        assert_eq!(show(&mut buffer, &first), shown(0, 0, 1, false));
        let before = buffer.clone();
        assert_eq!(show(&mut buffer, &nameless), shown(19, 0, 1, false));
        assert_eq!(show(&mut buffer, &first), shown(0, 0, 1, false));
        assert_eq!(show(&mut buffer, &first[1..]), shown(11, 0, 1, false));
        assert_eq!(buffer, before);
        assert_eq!(show(&mut buffer, &second), shown(0, 0, 2, true));
        assert_eq!(show(&mut buffer, &nameless), shown(19, 0, 2, true));
        assert_eq!(buffer[8..12], *b"\x03417");
        assert_eq!(buffer[12..73], [7; 61]);
        assert_eq!(buffer[73..77], *b"\x03418");
        assert_eq!(buffer[HEAD + 48..], [7, 7]);
    }

    #[test]
    fn a_table_of_either_edition_is_kept() {
        for (edition, count) in [(1, 0), (2, 1)] {
            let table = table_of(edition, b"Op >> 33 == 21").unwrap();
            let mut decision = Decision::open(&table, 1).unwrap();
            let answer = decision.show(&notice(Some((4, b"417"))));
            assert_eq!((answer.number, answer.count), (0, count));
        }
    }

    #[test]
    fn openings_are_refused_in_order() {
        let table = op_is_42();
        for (room, table, needed, number) in [
            (0, &table[1..], 0, 12),
            (0, &table[..], 0, 21),
            (575, &table, 9, 21),
            (576, &table, usize::MAX, 21),
            (575, &table, 8, 9),
            (576, &table, 8, 0),
        ] {
            let mut buffer = vec![7; room];
            let answer = open(&mut buffer, table, needed);
            assert_eq!(answer, shown(number, 0, 0, false));
            assert_eq!(number != 0, buffer == vec![7; room]);
        }
    }

    #[test]
    fn staff_is_a_string_of_1_to_64_bytes() {
        let mut decision = Decision::open(&op_is_42(), 8).unwrap();
        let cases: [(u16, usize, u8); 6] = [
            (4, 0, 19),
            (4, 65, 19),
            (5, 3, 19),
            (1, 4, 19),
            (4, 64, 0),
            (4, 1, 0),
        ];
        for (kind, size, number) in cases {
            let staff = vec![b'x'; size];
            let answer = decision.show(&notice(Some((kind, &staff))));
            assert_eq!((answer.number, answer.place), (number, 0), "{kind} {size}");
        }
        assert_eq!(decision.values.len(), 2);
    }

    #[test]
    fn a_ninth_person_is_refused_and_one_of_the_eight_is_not() {
        let mut decision = Decision::open(&op_is_42(), 8).unwrap();
        let mut history = Vec::new();
        for at in (0..12).chain(0..8) {
            let notice = notice(Some((4, &[at])));
            let answer = decision.show(&notice);
            let number = if at < 8 { 0 } else { 20 };
            assert_eq!(
                (answer.number, answer.reached),
                (number, at >= 7 || history.len() >= 8)
            );
            history.push(told(&decision.table, &notice, answer.number));
            assert_eq!(answer.count, count_of(&history));
        }
    }

    /// Request 7: "passes it on, with 19 and 20 too. A refused run, and a counter's call without a run, give
    /// 65535."
    #[test]
    fn the_undecided_entry_is_passed_on() {
        let mut decision = Decision::open(&table_of(1, b"a == 1 || Op > 41").unwrap(), 1).unwrap();
        let mut answer = |notice: &[u8]| {
            let answer = decision.show(notice);
            (answer.number, answer.undecided)
        };
        assert_eq!(answer(&notice(None)), (19, 0));
        for at in 0..8 {
            assert_eq!(answer(&notice(Some((4, &[at])))), (0, 0));
        }
        assert_eq!(answer(&notice(Some((4, b"x")))), (20, 0));
        assert_eq!(answer(b""), (11, 65535));
        decision.needed = 0;
        assert_eq!(decision.show(&notice(None)), shown(12, 0, 0, false));
    }

    #[test]
    fn bytes_that_are_no_decision() {
        let mut decision = Decision::open(&op_is_42(), 2).unwrap();
        decision.values = vec![b"417".to_vec(), b"41".to_vec()];
        let mut right = vec![b'7'; HEAD + 48 + 1];
        decision.put(&mut right);
        assert_eq!(Decision::read(&right), Some(decision));
        let answer = |at: usize, byte: u8| {
            let mut buffer = right.clone();
            buffer[at] = byte;
            show(&mut buffer, &notice(None)).number
        };
        // the other places hold 55 times 7; three bytes of the second place are the first value
        let wrong = [(0, 0), (4, 2), (5, 1), (6, 0), (6, 9), (7, 4), (7, 9)];
        let values = [(8, 0), (8, 65), (73, 3), (HEAD, 0)];
        for (at, byte) in wrong.into_iter().chain(values) {
            assert_eq!(answer(at, byte), 12, "{at} {byte}");
        }
        for (at, byte) in [(6, 8), (7, 0), (7, 3), (8, 64), (12, 0), (73, 1), (576, 0)] {
            assert_eq!(answer(at, byte), 19, "{at} {byte}");
        }
        let mut cut = right[..right.len() - 2].to_vec();
        assert_eq!(show(&mut cut, &notice(None)), shown(12, 0, 0, false));
    }
}
