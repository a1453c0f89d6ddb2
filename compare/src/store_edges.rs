//! What a case of the store met, for the tally: the calls' refusals and which of them meet, where the records lie,
//! how much room is left, and the states laid out by hand.

use crate::edges::met;
use crate::stores::FAULTS;
use reference::notice::check_notice;
use reference::store::{places, records, Record, FREE, HEAD, MOST_STORE, PLACES};

const MADE: [&str; 6] = [
    "made: under 8 bytes",
    "made: over 65,536 bytes",
    "made: 8 bytes",
    "made: 65,536 bytes",
    "made: over a store that holds tables",
    "made: over bytes that are no store",
];
const ADDED: [&str; 19] = [
    "add: 26 beside 12",
    "add: 12 beside 27",
    "add: 12 beside 28",
    "add: 27 with room",
    "add: 27 beside 28",
    "add: 28 by one byte",
    "add: 28 by more",
    "add: 28 by one byte of 65,536",
    "add: 28 with nothing held",
    "add: the first",
    "add: the 64th",
    "add: a number below others",
    "add: number 63",
    "add: number 0, others held",
    "add: room to the byte",
    "add: 65,536 to the byte",
    "add: a byte spare",
    "add: a table of 10,250 bytes",
    "add: a table of the second edition",
];
const REMOVED: [&str; 10] = [
    "remove: the only record",
    "remove: the first record",
    "remove: one between",
    "remove: the last record",
    "remove: one of 64",
    "remove: number 63",
    "remove: a table that fails",
    "remove: an empty table",
    "remove: 26 beside 29",
    "remove: of a full buffer",
];
const FETCHED: [&str; 8] = [
    "fetch: the first record",
    "fetch: one between",
    "fetch: the last record",
    "fetch: the 64th record",
    "fetch: number 63",
    "fetch: a table that fails",
    "fetch: an empty table",
    "fetch: 26 beside 29",
];
/// Of removing and fetching.
const NOT_HELD: [&str; 6] = [
    "29: a free place",
    "29: a place that was freed",
    "29: number 64",
    "29: over 255, its low byte held",
    "29: over 2^32, its low word held",
    "29: nothing held",
];
const MATCHED: [&str; 14] = [
    "match: 26 alone",
    "match: 26 beside 11",
    "match: 26 beside 9",
    "match: 26 beside 11 and 9",
    "match: 11 alone",
    "match: 11 beside 9",
    "match: 11 for the header",
    "match: 11 for a field",
    "match: 9 for one byte",
    "match: 9 for want of any room",
    "match: 64 bytes of room",
    "match: more room",
    "match: no table",
    "match: 64 tables",
];
const RIGHT: [&str; 9] = [
    "right state: no record",
    "right state: 64 records",
    "right state: an empty table",
    "right state: a table that fails",
    "right state: a table over 10,250 bytes",
    "right state: numbers that fall",
    "right state: no spare byte",
    "right state: spare bytes like a record",
    "right state: 65,536 bytes",
];

/// What must occur in a run of many cases.
pub fn names() -> Vec<String> {
    let told = [
        &MADE[..],
        &ADDED,
        &REMOVED,
        &FETCHED,
        &NOT_HELD,
        &MATCHED,
        &RIGHT,
    ];
    let told = told.concat().into_iter().map(String::from);
    let faults = FAULTS.iter().map(|fault| format!("state: {fault}"));
    let bytes = (0..=FREE)
        .flat_map(|byte| [0, 63].map(|number| format!("match: byte {byte} of number {number}")));
    told.chain(faults).chain(bytes).collect()
}

/// Whether the table of a record fails its check, and whether it is empty.
fn failing(store: &[u8], record: &Record) -> (bool, bool) {
    let table = &store[record.table.clone()];
    (reference::check(table) != 0, table.is_empty())
}

/// Where the store ends.
fn end_of(records: &[Record]) -> usize {
    records.last().map_or(HEAD, |record| record.table.end)
}

/// The edges of making a buffer an empty store.
pub fn of_make(buffer: &[u8]) -> Vec<String> {
    let held = records(buffer).map(|records| records.len());
    let size = buffer.len();
    let right = (HEAD..=MOST_STORE).contains(&size);
    met([
        (size < HEAD, MADE[0]),
        (size > MOST_STORE, MADE[1]),
        (size == HEAD, MADE[2]),
        (size == MOST_STORE, MADE[3]),
        (held > Some(0), MADE[4]),
        (right && held.is_none(), MADE[5]),
    ])
}

/// The edges of an add.
pub fn of_add(store: &[u8], table: &[u8]) -> Vec<String> {
    let fails = reference::check(table) != 0;
    let Some(records) = records(store) else {
        return met([(fails, ADDED[0])]);
    };
    let held = records.len();
    let sum = places(store, &records).room_with(table);
    let (full, short) = (held == PLACES, sum > store.len());
    let (one, whole) = (sum == store.len() + 1, store.len() == MOST_STORE);
    let refused = met([
        (fails && full, ADDED[1]),
        (fails && !full && short, ADDED[2]),
        (!fails && full && !short, ADDED[3]),
        (!fails && full && short, ADDED[4]),
        (!fails && !full && one, ADDED[5]),
        (!fails && !full && short && !one, ADDED[6]),
        (!fails && !full && one && whole, ADDED[7]),
        (!fails && short && held == 0, ADDED[8]),
    ]);
    if fails || full || short {
        return refused;
    }
    let is_held = |number: &usize| records.iter().any(|record| record.number == *number);
    let number = (0..PLACES).find(|number| !is_held(number)).unwrap_or(0);
    let exact = sum == store.len();
    met([
        (held == 0, ADDED[9]),
        (held + 1 == PLACES, ADDED[10]),
        (number < held, ADDED[11]),
        (number == 63, ADDED[12]),
        (number == 0 && held > 0, ADDED[13]),
        (exact, ADDED[14]),
        (exact && whole, ADDED[15]),
        (sum + 1 == store.len(), ADDED[16]),
        (table.len() == 10_250, ADDED[17]),
        (table[4] == 4, ADDED[18]),
    ])
}

/// The edges of a remove; `freed` if the number's table was removed before.
pub fn of_remove(store: &[u8], number: usize, freed: bool) -> Vec<String> {
    let Some(records) = records(store) else {
        return met([(number >= PLACES, REMOVED[8])]);
    };
    let Some(at) = records.iter().position(|record| record.number == number) else {
        return of_not_held(&records, number, freed);
    };
    let (fails, empty) = failing(store, &records[at]);
    let (only, last) = (records.len() == 1, at + 1 == records.len());
    met([
        (only, REMOVED[0]),
        (!only && at == 0, REMOVED[1]),
        (at > 0 && !last, REMOVED[2]),
        (!only && last, REMOVED[3]),
        (records.len() == PLACES, REMOVED[4]),
        (number == 63, REMOVED[5]),
        (fails, REMOVED[6]),
        (empty, REMOVED[7]),
        (end_of(&records) == store.len(), REMOVED[9]),
    ])
}

/// The edges of a fetch, as of a remove.
pub fn of_fetch(store: &[u8], number: usize, freed: bool) -> Vec<String> {
    let Some(records) = records(store) else {
        return met([(number >= PLACES, FETCHED[7])]);
    };
    let Some(at) = records.iter().position(|record| record.number == number) else {
        return of_not_held(&records, number, freed);
    };
    let (fails, empty) = failing(store, &records[at]);
    let last = at + 1 == records.len();
    met([
        (at == 0, FETCHED[0]),
        (at > 0 && !last, FETCHED[1]),
        (at > 0 && last, FETCHED[2]),
        (at + 1 == PLACES, FETCHED[3]),
        (number == 63, FETCHED[4]),
        (fails, FETCHED[5]),
        (empty, FETCHED[6]),
    ])
}

fn of_not_held(records: &[Record], number: usize, freed: bool) -> Vec<String> {
    let held = |number: usize| records.iter().any(|record| record.number == number);
    met([
        (number < PLACES, NOT_HELD[0]),
        (number < PLACES && freed, NOT_HELD[1]),
        (number == PLACES, NOT_HELD[2]),
        (number > 255 && held(number & 255), NOT_HELD[3]),
        (number >> 32 > 0 && held(number & 0xffff_ffff), NOT_HELD[4]),
        (records.is_empty(), NOT_HELD[5]),
    ])
}

/// The edges of a match in a buffer of so many verdict bytes, which was answered by these, if it was not refused.
pub fn of_match(store: &[u8], notice: &[u8], verdicts: &[u8]) -> Vec<String> {
    let (number, place) = check_notice(notice);
    let (fails, room) = (number != 0, verdicts.len());
    let short = room < PLACES;
    let Some(records) = records(store) else {
        return met([
            (!fails && !short, MATCHED[0]),
            (fails && !short, MATCHED[1]),
            (!fails && short, MATCHED[2]),
            (fails && short, MATCHED[3]),
        ]);
    };
    let done = !fails && !short;
    let mut all = met([
        (fails && !short, MATCHED[4]),
        (fails && short, MATCHED[5]),
        (fails && place == 0, MATCHED[6]),
        (fails && place != 0, MATCHED[7]),
        (!fails && room + 1 == PLACES, MATCHED[8]),
        (!fails && room == 0, MATCHED[9]),
        (done && room == PLACES, MATCHED[10]),
        (done && room > PLACES, MATCHED[11]),
        (done && records.is_empty(), MATCHED[12]),
        (done && records.len() == PLACES, MATCHED[13]),
    ]);
    if done {
        let byte = |number: usize| format!("match: byte {} of number {number}", verdicts[number]);
        all.extend([byte(0), byte(63)]);
    }
    all
}

/// The edges of a state laid out by hand, with that fault or none.
pub fn of_state(buffer: &[u8], fault: Option<&str>) -> Vec<String> {
    if let Some(fault) = fault {
        return vec![format!("state: {fault}")];
    }
    let records = records(buffer).unwrap_or_default();
    let spare = &buffer[end_of(&records)..];
    let falls = |pair: &[Record]| pair[0].number > pair[1].number;
    let of_tables = |is: fn((bool, bool)) -> bool| {
        let mut all = records.iter().map(|record| failing(buffer, record));
        all.any(is)
    };
    let long = records.iter().any(|record| record.table.len() > 10_250);
    met([
        (records.is_empty(), RIGHT[0]),
        (records.len() == PLACES, RIGHT[1]),
        (of_tables(|(_, empty)| empty), RIGHT[2]),
        (of_tables(|(fails, empty)| fails && !empty), RIGHT[3]),
        (long, RIGHT[4]),
        (records.windows(2).any(falls), RIGHT[5]),
        (spare.is_empty(), RIGHT[6]),
        (spare.len() > 3 && spare[3] == 1, RIGHT[7]),
        (buffer.len() == MOST_STORE, RIGHT[8]),
    ])
}

#[cfg(test)]
mod tests {
    use super::*;
    use crate::stores::sized;
    use reference::store::laid;

    fn has(met: Vec<String>, edges: &[&str]) {
        let named = names();
        met.iter()
            .for_each(|one| assert!(named.contains(one), "{one}"));
        assert_eq!(met, edges);
    }

    #[test]
    fn edges_of_adds() {
        let (table, other) = (sized(46), sized(50));
        let held = laid(&[(0, &table), (2, &other)]);
        let with = |more: usize| [&held[..], &vec![0; more]].concat();
        let below = "add: a number below others";
        has(of_add(&with(50), &table), &[below, "add: room to the byte"]);
        has(of_add(&with(51), &table), &[below, "add: a byte spare"]);
        has(of_add(&with(49), &table), &["add: 28 by one byte"]);
        has(of_add(&with(48), &table), &["add: 28 by more"]);
        has(of_add(&with(48), &table[1..]), &["add: 12 beside 28"]);
        has(of_add(&held[1..], &table[1..]), &["add: 26 beside 12"]);
        let all: Vec<(usize, &[u8])> = (0..64).map(|n| (n, &table[..])).collect();
        has(of_add(&laid(&all), &table), &["add: 27 beside 28"]);
        has(of_add(&laid(&all), &table[1..]), &["add: 12 beside 27"]);
    }

    #[test]
    fn edges_of_removes_and_fetches() {
        let table = sized(46);
        let held = laid(&[(1, &table), (63, b"x"), (7, b"")]);
        has(
            of_remove(&held, 1, false),
            &["remove: the first record", "remove: of a full buffer"],
        );
        has(
            of_fetch(&held, 63, false),
            &[
                "fetch: one between",
                "fetch: number 63",
                "fetch: a table that fails",
            ],
        );
        let freed = ["29: a free place", "29: a place that was freed"];
        has(of_fetch(&held, 2, true), &freed);
        has(of_fetch(&held, 64, false), &["29: number 64"]);
        let low = ["29: over 255, its low byte held"];
        has(of_remove(&held, 256 + 7, false), &low);
        has(of_remove(&held[1..], 64, false), &["remove: 26 beside 29"]);
    }
}
