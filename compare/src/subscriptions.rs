//! What a history of subscriptions must answer by the meaning of its texts alone: 64 places of texts (document 02,
//! request 12) and a decision about a text (request 3). No table is run, and of a table only the length is used.

use reference::notice::check_notice;
use reference::quorum::{staff, MOST_PEOPLE};
use reference::store::{FREE, HEAD, PLACES, RECORD};
use reference::{Edition, Truth};
use std::collections::BTreeSet;

/// An accepted text by its edition, and its table.
#[derive(Clone)]
pub struct Subscription {
    pub edition: Edition,
    pub text: Vec<u8>,
    pub table: Vec<u8>,
}

impl Subscription {
    /// The meaning on a well-formed notice with nothing skipped: "0 false, 1 true, 2 bottom" (request 8).
    pub fn byte_on(&self, notice: &[u8]) -> u8 {
        match reference::meaning(self.edition.number(), &self.text, notice) {
            Some(Truth::False) => 0,
            Some(Truth::True) => 1,
            Some(Truth::Bottom) => 2,
            None => unreachable!("the text is accepted, the notice well-formed"),
        }
    }
}

/// "a plain list of 64 places", and the numbers removed since it was made empty.
pub struct Places {
    pub all: Vec<Option<Subscription>>,
    pub removed: BTreeSet<usize>,
}

impl Places {
    pub fn empty() -> Places {
        Places {
            all: vec![None; PLACES],
            removed: BTreeSet::new(),
        }
    }

    pub fn held(&self) -> impl Iterator<Item = &Subscription> {
        self.all.iter().flatten()
    }

    /// What an add to a buffer of `room` bytes answers: "the lowest free number 0..63"; 27 for 64 held; 28 "exactly if
    /// the tables held, plus the new one, plus 4 bytes for each of these, the new one too, and 8 for the store,
    /// exceed the buffer". The bytes come from an empty store, the table from a text: neither 26 nor 12.
    pub fn added(&self, new: &Subscription, room: usize) -> (u8, usize) {
        let sizes = self.held().chain([new]).map(|one| one.table.len() + RECORD);
        match self.all.iter().position(Option::is_none) {
            None => (27, PLACES),
            Some(_) if HEAD + sizes.sum::<usize>() > room => (28, PLACES),
            Some(free) => (0, free),
        }
    }

    /// "29 for a number not held"
    pub fn remove(&mut self, number: usize) -> u8 {
        match self.all.get_mut(number).and_then(Option::take) {
            None => 29,
            Some(_) => {
                self.removed.insert(number);
                0
            }
        }
    }

    /// The byte of each place for a well-formed notice.
    pub fn bytes_on(&self, notice: &[u8]) -> Vec<u8> {
        let byte = |place: &Option<Subscription>| match place {
            Some(one) => one.byte_on(notice),
            None => FREE,
        };
        self.all.iter().map(byte).collect()
    }
}

/// What a decision answers: the number, its place, the count and whether the needed number is reached.
pub type Answer = (u8, usize, usize, bool);

/// A decision about a text, and the "different Staff values among all notices that were neither refused nor short of
/// true since opening".
pub struct Decision {
    pub about: Subscription,
    pub needed: usize,
    pub people: BTreeSet<Vec<u8>>,
}

impl Decision {
    pub fn show(&mut self, notice: &[u8]) -> Answer {
        let refusal = match self.person(notice) {
            Err(refusal) => refusal,
            Ok(person) => {
                self.people.extend(person);
                (0, 0)
            }
        };
        let count = self.people.len();
        (refusal.0, refusal.1, count, count >= self.needed)
    }

    /// The Staff value of a notice on which the text is true; 11, "then, if true, 19 .., then 20 for a ninth person".
    fn person(&self, notice: &[u8]) -> Result<Option<Vec<u8>>, (u8, usize)> {
        let refusal = check_notice(notice);
        if refusal.0 != 0 {
            return Err(refusal);
        }
        if self.about.byte_on(notice) != 1 {
            return Ok(None);
        }
        let person = staff(notice).ok_or((19, 0))?;
        if self.people.len() == MOST_PEOPLE && !self.people.contains(&person) {
            return Err((20, 0));
        }
        Ok(Some(person))
    }
}

#[cfg(test)]
mod tests {
    use super::*;
    use crate::decisions::notice_of;

    fn subscription(edition: Edition, text: &str) -> Subscription {
        Subscription {
            edition,
            text: text.into(),
            table: vec![0; 40],
        }
    }

    #[test]
    fn places_by_number_and_room() {
        let mut places = Places::empty();
        let [first, second] = [Edition::First, Edition::Second].map(|edition| {
            // only the second edition takes the count's remainder by the width
            subscription(edition, "1 << 33 == 2 && Staff == '417'")
        });
        assert_eq!(places.added(&first, 51), (28, PLACES));
        assert_eq!(places.added(&first, 52), (0, 0));
        (places.all[0], places.all[2]) = (Some(first), Some(second.clone()));
        assert_eq!(places.added(&second, 140), (0, 1));
        assert_eq!(places.bytes_on(&notice_of(b"417"))[..4], [2, 4, 1, 4]);
        assert_eq!(places.bytes_on(&notice_of(b"418"))[..4], [0, 4, 0, 4]);
        assert_eq!([0, 0, 1, 64].map(|at| places.remove(at)), [0, 29, 29, 29]);
        places.all.fill(Some(second.clone()));
        assert_eq!(places.added(&second, 65_536), (27, PLACES));
    }

    #[test]
    fn people_by_the_meaning() {
        let mut decision = Decision {
            about: subscription(Edition::First, "Staff != '0' || gone == 1"),
            needed: 2,
            people: BTreeSet::new(),
        };
        let mut show = |staff: &[u8]| decision.show(&notice_of(staff));
        let shown = [&b"0"[..], b"1", b"1", b"", b"2"].map(&mut show);
        let counts = [(0, 0), (0, 1), (0, 1), (19, 1), (0, 2)];
        assert_eq!(
            shown,
            counts.map(|(number, count)| (number, 0, count, count == 2))
        );
        assert!((3..9).all(|staff| show(&[staff]).0 == 0));
        assert_eq!([show(b"1"), show(b"x")].map(|shown| shown.0), [0, 20]);
        assert_eq!(decision.show(b"no notice"), (11, 0, 8, true));
    }
}
