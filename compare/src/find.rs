//! The kind of case `find` (document 02, request 11): names sought in notices, right and broken; each
//! answer, and now and then what a run finds under the name.

use crate::cases::{same, Case, Outcome};
use crate::editions;
use crate::find_edges;
use crate::notices::{self, rendered, with_length, Field};
use crate::operations::pushed;
use crate::random::Random;
use crate::tables::{laid_out, Draft};
use crate::texts::damaged;
use crate::words;
use reference::notice::{fields, name_right, value_of, Finding};
use reference::op::Op;
use reference::value::Value;
use reference::Edition;

/// So many names are sought in one case.
const SOUGHT: usize = 16;
/// Of so many one is also looked up by a run.
const RUN_EACH: usize = 4;

/// Where names differ, most often: at the start, the end, and about each eighth byte.
const PLACES: [usize; 14] = [0, 1, 2, 6, 7, 8, 9, 14, 15, 16, 17, 62, 63, 64];
/// Bytes that go into a name sought, most of which no field's name has.
const BYTES: [u8; 10] = [0, 31, 32, 33, b'a', 126, 127, 128, 129, 255];

/// A well-formed notice of names that are alike in many bytes, of fields that tell them apart.
fn alike(random: &mut Random) -> Vec<u8> {
    let stem = [random.pick(b" aM~"), random.pick(b" !b~")].repeat(32);
    let count = random.pick(&[1, 2, 3, 5, 12, 30, 60, 120]);
    let mut names: Vec<Vec<u8>> = (0..count).map(|_| branch(random, &stem)).collect();
    names.retain(|name| name_right(name));
    names.sort();
    names.dedup();
    names.truncate(64);
    let numbered = names.into_iter().enumerate().map(|(at, name)| Field {
        name,
        kind: 1,
        value: (at as i32).to_le_bytes().to_vec(),
    });
    rendered(&numbered.collect::<Vec<Field>>())
}

/// The stem's start, or one that leaves it there.
pub fn branch(random: &mut Random, stem: &[u8]) -> Vec<u8> {
    let at = match random.below(3) {
        0 => random.between(0, 64),
        _ => random.pick(&PLACES),
    };
    let mut name = stem[..at].to_vec();
    if let (Some(byte), false) = (stem.get(at), random.once_in(3)) {
        name.push(random.pick(&[byte - 1, byte + 1, b' ', b'~', b'c']));
        name.resize(random.pick(&[at + 1, at + 1, at + 2, 64]).min(64), b'd');
    }
    name
}

/// A notice to search, and names near which others are sought: most often its own.
fn notice_with_names(random: &mut Random) -> (Vec<u8>, Vec<Vec<u8>>) {
    let notice = match random.below(10) {
        0 | 1 => notices::well_formed(random),
        2 => notices::full(random),
        3 => notices::notice(random),
        4 => virentolex::raw::EMPTY_NOTICE.to_vec(),
        _ => alike(random),
    };
    let Ok(fields) = fields(&notice) else {
        return (notice, vec![words::name(random).to_vec()]);
    };
    let mut names: Vec<Vec<u8>> = fields
        .into_iter()
        .map(|field| notice[field.name].to_vec())
        .collect();
    if names.is_empty() {
        names.push(words::name(random).to_vec());
    }
    match random.once_in(6) {
        true => (broken(random, notice), names),
        false => (notice, names),
    }
}

/// The well-formed notice with one thing wrong, or hardly more.
pub fn broken(random: &mut Random, mut notice: Vec<u8>) -> Vec<u8> {
    match random.below(6) {
        0 => notice[random.below(8)] ^= 1 << random.below(8),
        1 => notice.push(random.byte()),
        2 => notice.truncate(random.below(notice.len())),
        3 => return out_of_order(random, &notice),
        _ => notice = damaged(random, notice),
    }
    match random.once_in(4) {
        true => notice,
        false => with_length(notice),
    }
}

/// The notice with two of its fields at each other's places.
fn out_of_order(random: &mut Random, notice: &[u8]) -> Vec<u8> {
    let mut parts: Vec<&[u8]> = fields(notice)
        .unwrap_or_default()
        .into_iter()
        .map(|field| &notice[field.start..field.value.end])
        .collect();
    if let Some(last) = parts.len().checked_sub(1) {
        let (one, other) = (random.between(0, last), random.between(0, last));
        parts.swap(one, other);
    }
    reference::notice::notice_bytes(parts.len(), &parts)
}

/// A name to seek: one of those, one near it, or any bytes.
fn sought(random: &mut Random, names: &[Vec<u8>]) -> Vec<u8> {
    let which = match random.below(6) {
        0 => 0,
        1 => names.len() - 1,
        _ => random.below(names.len()),
    };
    let mut name = names[which].clone();
    let at = random.pick(&PLACES).min(name.len());
    match random.below(16) {
        0..=2 => (),
        3 => name.truncate(at),
        4 => name.truncate(name.len() - 1),
        5 | 6 => name.push(random.pick(&BYTES)),
        7..=10 => changed(random, &mut name, at),
        11 => longer(random, &mut name),
        12 => name = vec![random.pick(&BYTES); random.below(3)],
        13 => name = words::other_name(random),
        14 => name = words::name(random).to_vec(),
        _ => {
            let length = random.below(12);
            name = random.bytes(length);
        }
    }
    name
}

/// One byte another, near it or from the list; what stands behind it stays, or goes.
fn changed(random: &mut Random, name: &mut Vec<u8>, at: usize) {
    let Some(byte) = name.get_mut(at) else {
        return name.push(random.pick(&BYTES));
    };
    *byte = match random.below(4) {
        0 => *byte - 1,
        1 => *byte + 1,
        _ => random.pick(&BYTES),
    };
    if random.once_in(3) {
        name.truncate(at + 1);
    }
}

/// More bytes behind it, so that a length in one or two bytes would be the same.
fn longer(random: &mut Random, name: &mut Vec<u8>) {
    let length = name.len();
    let whole = random.pick(&[64, 65, 66, length + 256, length + 256, length + 65_536]);
    name.resize(whole.max(length), random.pick(&[0, b'a', b'~', 255]));
}

impl Case<'_> {
    pub fn find(&mut self) -> Outcome {
        let (notice, names) = notice_with_names(&mut self.random);
        for _ in 0..SOUGHT {
            let name = sought(&mut self.random, &names);
            self.finding(&notice, &name)?;
            if name_right(&name) && self.random.once_in(RUN_EACH) {
                let edition = editions::any(&mut self.random);
                self.running(&table_about(edition, &notice, &name), &notice)?;
            }
        }
        Ok(())
    }

    /// One search; the number, the place, the index and the names looked at.
    fn finding(&mut self, notice: &[u8], name: &[u8]) -> Outcome {
        let library = virentolex::raw::find(notice, name);
        let reference = reference::find(notice, name);
        self.tally.count("find", reference.number);
        self.count("search", find_edges::of(notice, name));
        same(
            "find: number, place, index, names looked at",
            &[("notice", notice), ("name", name)],
            Finding {
                number: library.number,
                place: library.place,
                index: library.index,
                looked: library.looked,
            },
            reference,
        )
    }
}

/// The table that asks whether the field of the name has its value, or, if that is no number, is there.
fn table_about(edition: Edition, notice: &[u8], name: &[u8]) -> Vec<u8> {
    let mut draft = Draft {
        entries: vec![(Op::Name.code(), name.len() as u16, 0)],
        pool: name.to_vec(),
    };
    match value_of(notice, &fields(notice).unwrap_or_default(), name) {
        Some(value @ (Value::Int32(_) | Value::Int64(_) | Value::Real64(_))) => {
            draft.entries.push(pushed(&value));
            draft.entries.push((Op::Equal.code(), 0, 0));
        }
        _ => draft.entries.push((Op::Require.code(), 0, 0)),
    }
    laid_out(edition, &draft)
}

#[cfg(test)]
mod tests {
    use super::*;
    use crate::tally::Tally;

    fn with_case(run: impl Fn(&mut Case) -> Outcome) {
        let mut case = Case {
            random: Random::of_case(1, 1),
            tally: &mut Tally::default(),
            program: "",
        };
        assert_eq!(run(&mut case), Ok(()));
    }

    /// All strings of one or two of the bytes.
    fn short(bytes: &[u8]) -> Vec<Vec<u8>> {
        let one = bytes.iter().map(|byte| vec![*byte]);
        let two = bytes
            .iter()
            .flat_map(|first| bytes.iter().map(|second| vec![*first, *second]));
        one.chain(two).collect()
    }

    fn notice_of(names: &[Vec<u8>]) -> Vec<u8> {
        let field = |name: &Vec<u8>| Field {
            name: name.clone(),
            kind: 4,
            value: b"v".to_vec(),
        };
        rendered(&names.iter().map(field).collect::<Vec<Field>>())
    }

    /// Each short name, and what no field can be called, in each notice of short names.
    #[test]
    fn every_short_name_in_every_notice() {
        let mut all = short(b" a~");
        all.sort();
        let mut names = short(b"\0 a~\xff");
        names.push(Vec::new());
        with_case(|case| {
            for which in 0..1usize << all.len() {
                let some = (0..all.len()).filter(|at| which >> at & 1 == 1);
                let some: Vec<Vec<u8>> = some.map(|at| all[at].clone()).collect();
                let notice = notice_of(&some);
                names
                    .iter()
                    .try_for_each(|name| case.finding(&notice, name))?;
            }
            Ok(())
        });
    }

    /// Any byte of a notice changed to any other.
    #[test]
    fn every_byte_of_a_notice() {
        let names = [&b"Cab"[..], b"Cabin", b"Staff"].map(<[u8]>::to_vec);
        let notice = notice_of(&names);
        with_case(|case| {
            for at in 0..notice.len() {
                for byte in 0..=255 {
                    let mut changed = notice.clone();
                    changed[at] = byte;
                    names
                        .iter()
                        .try_for_each(|name| case.finding(&changed, name))?;
                }
            }
            Ok(())
        });
    }
}
