//! The kind of case `quorum`: decisions opened, notices shown one after the other, and states made by
//! hand; each answer, every byte of the buffer and its guards, and the count from the history.

use crate::cases::{entry_number, patterned, same, Case, Hex, Outcome, GUARD};
use crate::{decisions, editions, quorum_edges};
use reference::quorum::{self, Decision, Shown};

/// A lent buffer between its guards; the decision that was opened in it, kept apart from its bytes;
/// and what the notices since then have told.
struct Lent {
    bytes: Vec<u8>,
    kept: Option<Decision>,
    history: Vec<Option<Vec<u8>>>,
}

impl Lent {
    fn of(bytes: Vec<u8>) -> Lent {
        Lent {
            bytes,
            kept: None,
            history: Vec::new(),
        }
    }

    /// Adds a notice and the library's answer to the history of the decision, if one was opened: "the
    /// number of different Staff values among all notices that were neither refused nor short of true".
    fn tell(&mut self, notice: &[u8], library: Shown) -> Outcome {
        let Some(decision) = &self.kept else {
            return Ok(());
        };
        let told = quorum::told(&decision.table, notice, library.number);
        self.history.push(told);
        let count = quorum::count_of(&self.history);
        same(
            "quorum_show: count, reached; the reference is the history",
            &[("table", &decision.table), ("last notice", notice)],
            (library.count, library.reached),
            (count, count >= decision.needed),
        )
    }
}

/// The library's answer in the second implementation's form.
fn shown(library: virentolex::raw::Shown) -> Shown {
    Shown {
        number: library.number,
        place: library.place,
        count: library.count.into(),
        reached: library.reached,
        undecided: entry_number(library.undecided),
    }
}

/// A table of so many bytes is shown few notices.
const LARGE: usize = 1000;

impl Case<'_> {
    /// A sequence of calls, or a state made by hand.
    pub fn quorum(&mut self) -> Outcome {
        match self.random.below(3) {
            0 => self.hand_made_state(),
            _ => self.sequence(),
        }
    }

    /// One opening, at times more in the same buffer, and notices after each.
    fn sequence(&mut self) -> Outcome {
        let mut people = decisions::people(&mut self.random);
        people.truncate(self.random.pick(&[1, 2, 3, 8, 9, 10, 16, 16]));
        let mut table = decisions::table(&mut self.random, &people);
        let room = self.room(quorum::HEAD + table.len());
        let mut lent = Lent::of(patterned(room, self.random.below(256)));
        for _ in 0..self.random.pick(&[1, 1, 1, 1, 2, 3]) {
            self.opening(&mut lent, &table)?;
            let most = match lent.kept {
                None => 2,
                Some(_) if table.len() > LARGE => 4,
                Some(_) => self.random.pick(&[3, 10, 30]),
            };
            for _ in 0..self.random.between(1, most) {
                let notice = decisions::notice(&mut self.random, &people);
                self.showing(&mut lent, &notice)?;
            }
            table = decisions::table(&mut self.random, &people);
        }
        Ok(())
    }

    /// A buffer's length for a decision of that size.
    fn room(&mut self, size: usize) -> usize {
        let more = self.random.between(1, 60);
        let less = self.random.below(size);
        match self.random.below(12) {
            0 => size - 1,
            1 => less,
            2..=6 => size + more,
            _ => size,
        }
    }

    /// Notices shown to a buffer that may hold no decision.
    fn hand_made_state(&mut self) -> Outcome {
        let people = decisions::people(&mut self.random);
        let state = decisions::state(&mut self.random, &people);
        self.count("quorum", quorum_edges::of_state(&state));
        let mut bytes = patterned(state.len(), self.random.below(256));
        bytes[GUARD..GUARD + state.len()].copy_from_slice(&state);
        let mut lent = Lent::of(bytes);
        for _ in 0..self.random.between(1, 3) {
            let notice = decisions::notice(&mut self.random, &people);
            self.showing(&mut lent, &notice)?;
        }
        Ok(())
    }

    /// One opening; the whole buffer and its guards are compared.
    fn opening(&mut self, lent: &mut Lent, table: &[u8]) -> Outcome {
        let needed = decisions::needed(&mut self.random);
        let end = lent.bytes.len() - GUARD;
        let room = end - GUARD;
        let mut meant = lent.bytes.clone();
        let library = virentolex::raw::quorum_open(&mut lent.bytes[GUARD..end], table, needed);
        let reference = quorum::open(&mut meant[GUARD..end], table, needed);
        self.tally.count("quorum open", reference.number);
        let met = quorum_edges::of_opening(room, table, needed, lent.kept.is_some());
        self.count("quorum", met);
        same(
            &format!("quorum_open, needed {needed}, buffer of {room} bytes within guards of {GUARD}: answer, bytes after"),
            &[("table", table)],
            (shown(library), Hex(lent.bytes.clone())),
            (reference, Hex(meant)),
        )?;
        if library.number == 0 {
            lent.kept = Decision::open(table, needed).ok();
            lent.history.clear();
        }
        self.opened_apart(table, needed)
    }

    /// The wrapper's own buffer is just as long as the decision.
    fn opened_apart(&mut self, table: &[u8], needed: usize) -> Outcome {
        let library = virentolex::Decision::open(table, needed).map_err(|refusal| refusal.number());
        let mut meant = vec![0; quorum::HEAD + table.len()];
        let reference = match quorum::open(&mut meant, table, needed).number {
            0 => Ok(Hex(meant)),
            number => Err(number),
        };
        same(
            &format!("Decision::open, needed {needed}"),
            &[("table", table)],
            library.map(|decision| Hex(decision.into_buffer())),
            reference,
        )
    }

    /// One notice; the whole buffer and its guards are compared, and the count with the history's.
    fn showing(&mut self, lent: &mut Lent, notice: &[u8]) -> Outcome {
        let end = lent.bytes.len() - GUARD;
        let before = lent.bytes.clone();
        let mut meant = before.clone();
        self.count_notice(lent, notice);
        let reference = match &mut lent.kept {
            Some(decision) => {
                let answer = decision.show(notice);
                decision.put(&mut meant[GUARD..end]);
                answer
            }
            None => quorum::show(&mut meant[GUARD..end], notice),
        };
        let library = virentolex::raw::quorum_show(&mut lent.bytes[GUARD..end], notice);
        self.tally.count("quorum show", reference.number);
        same(
            "quorum_show: answer, bytes after with guards",
            &[("decision", &before[GUARD..end]), ("notice", notice)],
            (shown(library), Hex(lent.bytes.clone())),
            (reference, Hex(meant)),
        )?;
        if let Some(decision) = &lent.kept {
            let counts = reference.number == 0 && reference.count > 0;
            let met = editions::of_shown(&decision.table, reference.number, counts);
            self.count("edition", met);
        }
        lent.tell(notice, shown(library))
    }

    fn count_notice(&mut self, lent: &Lent, notice: &[u8]) {
        let met = match &lent.kept {
            Some(decision) => quorum_edges::of_notice(decision, notice),
            None => Decision::read(&lent.bytes[GUARD..lent.bytes.len() - GUARD])
                .map_or(Vec::new(), |decision| {
                    quorum_edges::of_notice(&decision, notice)
                }),
        };
        self.count("quorum", met);
    }
}

#[cfg(test)]
mod tests {
    use super::*;
    use crate::random::Random;
    use crate::tally::Tally;
    use reference::compile::table_of;

    /// Any byte of a decision, and the one past it, changed to any other.
    #[test]
    fn every_byte_of_a_decision() {
        let mut decision = Decision::open(&table_of(1, b"1 == 1").unwrap(), 3).unwrap();
        decision.values = [&b"417"[..], b"41", &[b'4'; 64]].map(<[u8]>::to_vec).into();
        let size = quorum::HEAD + decision.table.len();
        let mut bytes = patterned(size + 1, 0);
        decision.put(&mut bytes[GUARD..]);
        let mut case = Case {
            random: Random::of_case(1, 1),
            tally: &mut Tally::default(),
            program: "",
        };
        let notice = decisions::notice_of(b"418");
        for at in GUARD..=GUARD + size {
            for byte in 0..=255 {
                let mut changed = bytes.clone();
                changed[at] = byte;
                assert_eq!(case.showing(&mut Lent::of(changed), &notice), Ok(()));
            }
        }
    }
}
