//! Decisions of the quorum counter: tables, people, the notices that they send, and states made by
//! hand.

use crate::about::About;
use crate::editions;
use crate::notices::{self, Field};
use crate::random::Random;
use crate::texts::damaged;
use crate::{tables, words};
use reference::compile::table_of;
use reference::quorum::{Decision, HEAD, PLACE, PLACES, STAFF};

/// Values of Staff, many of them alike but for one byte or for the length.
pub fn people(random: &mut Random) -> Vec<Vec<u8>> {
    let short: [&[u8]; 12] = [
        b"417",
        b"418",
        b"517",
        b"41",
        b"4170",
        b"a",
        b"b",
        b"\0",
        b"\0\0",
        b"Ann",
        b"ann",
        b"\xc3\xa9",
    ];
    let mut people: Vec<Vec<u8>> = short.map(<[u8]>::to_vec).into();
    for (at, byte) in [(0, b'x'), (63, b'y'), (0, b'z')] {
        let mut long = vec![b'x'; 64];
        long[at] = byte;
        people.push(long);
    }
    people.push(vec![b'x'; 63]);
    random.shuffle(&mut people);
    people
}

/// Texts that hold of many of the notices below, and not of all.
pub const TEXTS: [&str; 13] = [
    "1 == 1",
    "Op == 42",
    "Op == 42",
    "Op != 41 || 1 == 2",
    "Op == 42 && require (Staff)",
    "Staff != '417'",
    "string (Staff) || opaque (Staff)",
    "size (Staff) <= 64",
    "! (Op == 41 || fold-case (Staff) == 'ann')",
    "gone == 1 || Op == 42",
    "Op > 'x' || Op != 41",
    "gone == 1 && Op == 41",
    // true by the second edition, bottom by the first
    "Op >> 33 == 21",
];

/// A table: most often that of a text above, else one about a notice, or any, damaged ones too.
pub fn table(random: &mut Random, people: &[Vec<u8>]) -> Vec<u8> {
    match random.below(16) {
        0 | 1 => {
            let about = About::of(&sent(random, people));
            tables::table(random, &about)
        }
        2 => {
            let about = About::of(&sent(random, people));
            tables::translated(random, &about)
        }
        _ => {
            let edition = editions::any(random).number();
            table_of(edition, random.pick(&TEXTS).as_bytes()).expect("it is accepted")
        }
    }
}

/// A needed number, most often a right one, now and then one whose low bytes alone are right.
pub fn needed(random: &mut Random) -> usize {
    match random.below(12) {
        0 => random.pick(&[0, 9, 10, 255, 256, usize::MAX]),
        1 => random.pick(&[0x101, 0x1_0002, 0x1_0000_0003, usize::MAX - 251]),
        2 => random.pick(&[1, 8]),
        _ => random.between(1, 8),
    }
}

/// A notice that one of the people sends, now and then another or a damaged one.
pub fn notice(random: &mut Random, people: &[Vec<u8>]) -> Vec<u8> {
    let sent = sent(random, people);
    match random.below(24) {
        0 => notices::notice(random),
        1 => damaged(random, sent),
        2 => notices::with_length(damaged(random, sent)),
        _ => sent,
    }
}

/// A well-formed notice, most often with Staff and with Op 42.
pub fn sent(random: &mut Random, people: &[Vec<u8>]) -> Vec<u8> {
    let mut notice = match random.below(30) {
        0 | 1 => notices::wide(random),
        2 => notices::rich(random),
        3 => notices::valid(random),
        _ => virentolex::raw::EMPTY_NOTICE.to_vec(),
    };
    let mut fields: Vec<Field> = staff(random, people).into_iter().collect();
    if !random.once_in(10) {
        let op: i32 = if random.once_in(10) { 41 } else { 42 };
        fields.push(named(b"Op", 1, op.to_le_bytes().to_vec()));
    }
    if random.once_in(4) {
        let name: &[u8] = random.pick(&[b"Staf", b"Staff1", b"Staff ", b"STAFF", b"staff", b"A"]);
        fields.push(named(name, 4, person(random, people)));
    }
    fields.iter().for_each(|field| add(&mut notice, field));
    notice
}

fn named(name: &[u8], kind: u16, value: Vec<u8>) -> Field {
    Field {
        name: name.to_vec(),
        kind,
        value,
    }
}

fn person(random: &mut Random, people: &[Vec<u8>]) -> Vec<u8> {
    people[random.below(people.len())].clone()
}

/// Adds the field, if the notice has room for it and not the name.
fn add(notice: &mut Vec<u8>, field: &Field) {
    let length = notice.len();
    notice.resize(length + 5 + field.name.len() + field.value.len(), 0);
    let written = reference::write(notice, length, &field.name, field.kind, &field.value);
    notice.truncate(written.length);
}

/// The field Staff: one of the people, or one that gives 19, or none.
fn staff(random: &mut Random, people: &[Vec<u8>]) -> Option<Field> {
    let (kind, value) = match random.below(24) {
        0 => return None,
        1 => (5, person(random, people)),
        2 => {
            let kind = random.between(1, 3) as u16;
            (kind, notices::value(random, kind))
        }
        3 => (4, vec![b'x'; random.pick(&[0, 65, 65, 66, 1024])]),
        4 => (4, words::text(random)),
        _ => (4, person(random, people)),
    };
    Some(named(STAFF, kind, value))
}

/// A buffer whose bytes are a decision, most often one that is wrong in one place.
pub fn state(random: &mut Random, people: &[Vec<u8>]) -> Vec<u8> {
    let decision = Decision {
        table: table(random, people),
        needed: random.between(1, 8),
        values: people[..random.pick(&[0, 1, 2, 3, 5, 8, 8, 8])].to_vec(),
    };
    let room = HEAD + decision.table.len() + random.pick(&[0, 0, 1, 40]);
    let mut buffer = random.bytes(room);
    if random.once_in(2) {
        // a right value in every place, so that those past the count could be taken for counted ones
        let values = (0..8).map(|_| person(random, people)).collect();
        let other = Decision {
            values,
            ..decision.clone()
        };
        other.put(&mut buffer);
    }
    decision.put(&mut buffer);
    for _ in 0..random.pick(&[0, 1, 1, 1, 1, 1, 1, 2]) {
        damage(random, &mut buffer, &decision);
    }
    buffer
}

/// Changes bytes of the decision that was put into the buffer, or cuts it.
fn damage(random: &mut Random, buffer: &mut Vec<u8>, decision: &Decision) {
    let (used, whole) = (decision.values.len(), HEAD + decision.table.len());
    let end = buffer.len();
    if end < HEAD {
        return;
    }
    let any = random.below(whole);
    match random.below(16) {
        0 => damage_byte(random, buffer),
        1 | 2 if used == 8 => buffer[7] = random.pick(&[0, 7, 9, 9, 255]),
        1 | 2 => buffer[7] = random.pick(&[0, 1, 2, 3, 4, 5, 6, 7, 8, 9]),
        3 | 4 => buffer[6] = random.pick(&[0, 0, 1, 8, 9, 9, 255]),
        5 => buffer[4..6].copy_from_slice(&random.pick(&[[1, 0], [2, 0], [4, 0], [6, 0], [5, 1]])),
        6 | 7 => damage_length(random, buffer),
        8 => buffer.truncate(random.pick(&[whole - 1, whole - 1, HEAD, HEAD - 1, 8, 7, 3, any])),
        9 if end > HEAD => {
            let at = random.between(HEAD, end - 1);
            buffer[at] = buffer[at].wrapping_add(random.pick(&[1, 255, 64]));
        }
        _ if used > 0 => damage_values(random, buffer, used),
        _ => (),
    }
}

/// Any byte, those of the head and of the values more often.
fn damage_byte(random: &mut Random, buffer: &mut [u8]) {
    let most = random.pick(&[8, HEAD, buffer.len()]);
    let at = random.below(most);
    match random.below(2) {
        0 => buffer[at] = random.byte(),
        _ => buffer[at] ^= 1 << random.below(8),
    }
}

/// The length word one off, or far off.
fn damage_length(random: &mut Random, buffer: &mut [u8]) {
    let length = u32::from_le_bytes([buffer[0], buffer[1], buffer[2], buffer[3]]);
    let near = [length.wrapping_sub(1), length.wrapping_add(1)];
    let end = buffer.len() as u32;
    let far = [0, 523, 524, end - 4, end, end + 1, u32::MAX, u32::MAX - 3];
    let length = match random.below(2) {
        0 => random.pick(&near),
        _ => random.pick(&far),
    };
    buffer[..4].copy_from_slice(&length.to_le_bytes());
}

/// A value of another size, or one that is, or nearly is, another one.
fn damage_values(random: &mut Random, buffer: &mut [u8], used: usize) {
    let start = |at: usize| PLACES + PLACE * at;
    let (from, to) = (start(random.below(used)), start(random.below(used)));
    let size = usize::from(buffer[from]).min(PLACE - 1);
    let last = from + size.max(1);
    match random.below(8) {
        0..=2 => buffer[to] = random.pick(&[0, 0, 1, 63, 64, 65, 65, 255]),
        3 => buffer.copy_within(from..from + PLACE, to),
        // the same value, other bytes behind it
        4 => buffer.copy_within(from..from + 1 + size, to),
        // the same bytes, another length
        5 => {
            buffer.copy_within(from..from + PLACE, to);
            buffer[to] = buffer[to].wrapping_add(random.pick(&[1, 255]));
        }
        // one byte unlike
        6 => {
            let at = random.pick(&[from + 1, last]);
            buffer.copy_within(from..from + PLACE, to);
            buffer[at] ^= 1;
        }
        _ => buffer[last] = buffer[last].wrapping_add(1),
    }
}

/// A notice with Staff alone.
#[cfg(test)]
pub fn notice_of(staff: &[u8]) -> Vec<u8> {
    notices::rendered(&[named(STAFF, 4, staff.to_vec())])
}

#[cfg(test)]
mod tests {
    use super::*;

    #[test]
    fn people_are_all_different_and_right() {
        let mut random = Random::of_case(1, 1);
        let people = people(&mut random);
        let table = table_of(1, b"1 == 1").unwrap();
        let right = |values: &[Vec<u8>]| {
            let (table, values) = (table.clone(), values.to_vec());
            let decision = Decision {
                table,
                needed: 1,
                values,
            };
            decision.is_right()
        };
        assert_eq!(people.len(), 16);
        assert!(right(&people[..8]) && right(&people[8..]));
    }

    #[test]
    fn a_field_is_added_where_there_is_room() {
        let mut notice = virentolex::raw::EMPTY_NOTICE.to_vec();
        add(&mut notice, &named(b"b", 4, vec![1]));
        add(&mut notice, &named(b"b", 4, vec![2]));
        add(&mut notice, &named(b"a", 4, vec![3]));
        assert_eq!(reference::check_notice(&notice), (0, 0));
        assert_eq!(notice.len(), 8 + 7 + 7);
    }
}
