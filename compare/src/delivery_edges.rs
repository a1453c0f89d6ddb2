//! What a history of subscriptions met, for the tally.

use crate::edges::met;
use crate::subscriptions::{Answer, Decision, Places};
use reference::notice::{fields, value_of};
use reference::quorum::{staff, MOST_PEOPLE, STAFF};
use reference::store::{FREE, PLACES};
use reference::{meaning, Truth};
use std::collections::BTreeSet;

const STORE: [&str; 6] = [
    "add: a place that was removed",
    "match: byte 4, removed",
    "match: byte 4, never held",
    "match: nothing held",
    "match: 64 held",
    "match: a shift count outside the width, both editions",
];
const SHOWN: [&str; 11] = [
    "show: 11 with people counted",
    "show: false with Staff",
    "show: bottom with Staff",
    "show: true, no Staff",
    "show: true, Staff not right",
    "show: the same Staff again",
    "show: the same Staff again, 8 counted",
    "show: a ninth person",
    "show: 19 when reached",
    "show: counted, not true by the other edition",
    "show: reached turns true",
];
/// Bytes of a place before and after fields were added.
const GROWN: [(u8, u8); 5] = [(0, 0), (1, 1), (2, 0), (2, 1), (2, 2)];

/// What must occur in a run of many cases.
pub fn names() -> Vec<String> {
    let mut names: Vec<String> = GROWN.map(|turn| format!("more fields: {turn:?}")).into();
    names.extend(STORE.iter().chain(&SHOWN).map(|one| one.to_string()));
    for edition in [1, 2] {
        names.extend([0, 1, 2].map(|byte| format!("match: edition {edition}, byte {byte}")));
    }
    names
}

/// The edges of an add that is answered by that number.
pub fn of_add(places: &Places, number: usize) -> Vec<String> {
    met([(places.removed.contains(&number), STORE[0])])
}

/// The edges of a match that writes these bytes.
pub fn of_match(places: &Places, bytes: &[u8]) -> Vec<String> {
    let held = places.all.iter().zip(bytes).filter_map(|(place, byte)| {
        let one = place.as_ref()?;
        Some((&one.text[..], one.edition.number(), *byte))
    });
    let held: BTreeSet<(&[u8], usize, u8)> = held.collect();
    // editions differ "in the three shifts alone"
    let shifted = |(text, edition, byte): &(&[u8], usize, u8)| {
        (0..FREE).any(|other| other != *byte && held.contains(&(text, 3 - edition, other)))
    };
    let free = |removed: bool| {
        (0..PLACES).any(|n| bytes[n] == FREE && places.removed.contains(&n) == removed)
    };
    let count = places.held().count();
    let of_bytes = held
        .iter()
        .map(|(_, edition, byte)| format!("match: edition {edition}, byte {byte}"));
    let mut found: BTreeSet<String> = of_bytes.collect();
    found.extend(met([
        (free(true), STORE[1]),
        (free(false), STORE[2]),
        (count == 0, STORE[3]),
        (count == PLACES, STORE[4]),
        (held.iter().any(shifted), STORE[5]),
    ]));
    found.into_iter().collect()
}

/// What became of the bytes when fields were added.
pub fn of_growth(before: &[u8], after: &[u8]) -> Vec<String> {
    let turns = |one: &(u8, u8)| before.iter().zip(after).any(|(b, a)| (*b, *a) == *one);
    let met = GROWN.into_iter().filter(turns);
    met.map(|turn| format!("more fields: {turn:?}")).collect()
}

/// The edges of a notice shown to a decision that had counted so many before, and of the answer.
pub fn of_shown(decision: &Decision, before: usize, notice: &[u8], answer: Answer) -> Vec<String> {
    let (number, _, count, reached) = answer;
    let Ok(fields) = fields(notice) else {
        return met([(before > 0, SHOWN[0])]);
    };
    let byte = decision.about.byte_on(notice);
    let there = value_of(notice, &fields, STAFF).is_some();
    let right = staff(notice).is_some();
    let (again, counted) = (byte == 1 && number == 0 && count == before, count > before);
    let by_other = || {
        meaning(
            3 - decision.about.edition.number(),
            &decision.about.text,
            notice,
        )
    };
    met([
        (byte == 0 && right, SHOWN[1]),
        (byte == 2 && right, SHOWN[2]),
        (number == 19 && !there, SHOWN[3]),
        (number == 19 && there, SHOWN[4]),
        (again, SHOWN[5]),
        (again && count == MOST_PEOPLE, SHOWN[6]),
        (number == 20, SHOWN[7]),
        (number == 19 && reached, SHOWN[8]),
        (counted && by_other() != Some(Truth::True), SHOWN[9]),
        (counted && count == decision.needed, SHOWN[10]),
    ])
}
