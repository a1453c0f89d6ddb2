//! What a search for a name met, for the tally: where the name stands among those of the fields, how it
//! differs from its neighbours, and why a notice is refused.

use crate::edges::{met, word};
use reference::notice::{check_notice, fields, notice_bytes};

const WHERE: [&str; 10] = [
    "no field",
    "found, the only one",
    "found, the first",
    "found, within",
    "found, the last",
    "missing, below all",
    "missing, between",
    "missing, below the last alone",
    "missing, above all",
    "missing, beside the only one",
];
const OF_64: [&str; 7] = [
    "found, the first of 64",
    "found, within of 64",
    "found, the last of 64",
    "missing, below all of 64",
    "missing, between of 64",
    "missing, below the last alone of 64",
    "missing, above all of 64",
];
const NAMES: [&str; 9] = [
    "the empty name",
    "the empty name, no field",
    "a name of 64, found",
    "a name of 64, missing",
    "a name of 65",
    "a name of 65, a field has the first 64",
    "over 65 bytes",
    "a field's name and 256 bytes",
    "a field's name and 65,536 bytes",
];
const REFUSED: [&str; 7] = [
    "11: the header",
    "11: a field",
    "11: names do not rise",
    "11: a field is missing",
    "11: a spare byte",
    "11, though a field before the fault has the name",
    "11, though the faulty field has the name",
];

/// So many names looked at are told.
const LOOKED: [usize; 6] = [0, 1, 2, 62, 63, 64];
/// In so many bytes a name and its neighbour are alike, before they differ or the shorter one ends.
const ALIKE: [usize; 9] = [0, 1, 7, 8, 9, 15, 16, 17, 63];
/// How a name stands to its neighbours, the last one below it and the next one: in how many bytes they may
/// be alike, and the bytes of the name that must tell them apart.
const BESIDE: [(&str, &[usize], &[u8]); 5] = [
    ("found, behind one", &ALIKE, &[]),
    ("passes", &ALIKE, &[126, 127, 128, 255]),
    (
        "passes its start",
        &[1, 7, 8, 9, 15, 16, 17, 63, 64],
        &[0, 31, 32, 126, 127, 128, 255],
    ),
    ("stops", &ALIKE, &[0, 31, 32]),
    ("stops as its start", &ALIKE, &[]),
];

/// What must occur in a run of many cases.
pub fn names() -> Vec<String> {
    let told = [&WHERE[..], &OF_64, &NAMES, &REFUSED].concat();
    let told = told.into_iter().map(String::from);
    let looked = LOOKED.map(|looked| format!("looked at {looked}"));
    let beside = BESIDE.iter().flat_map(|(what, alike, bytes)| {
        let alike = alike.iter().map(move |at| format!("{what} alike in {at}"));
        alike.chain(bytes.iter().map(move |byte| format!("{what} by {byte}")))
    });
    told.chain(looked).chain(beside).collect()
}

/// A name and its neighbour, which are alike in so many bytes; the name's byte behind them, if one tells.
fn beside(which: usize, at: usize, byte: Option<u8>) -> Vec<String> {
    let (what, alike, bytes) = BESIDE[which];
    let alike = alike.contains(&at).then(|| format!("{what} alike in {at}"));
    let byte = byte.filter(|byte| bytes.contains(byte));
    let byte = byte.map(|byte| format!("{what} by {byte}"));
    alike.into_iter().chain(byte).collect()
}

/// What the search for the name in the notice met.
pub fn of(notice: &[u8], name: &[u8]) -> Vec<String> {
    let fields = match fields(notice) {
        Ok(fields) => fields,
        Err(place) => return of_refused(notice, place, name),
    };
    let names: Vec<&[u8]> = fields
        .into_iter()
        .map(|field| &notice[field.name])
        .collect();
    let below = names.iter().filter(|one| **one < name).count();
    let found = names.get(below) == Some(&name);
    let place = WHERE[place_of(names.len(), below, found)];
    let mut all = vec![place.to_string()];
    if names.len() == 64 {
        all.push(format!("{place} of 64"));
    }
    let looked = names.len().min(below + 1);
    if LOOKED.contains(&looked) {
        all.push(format!("looked at {looked}"));
    }
    all.extend(of_name(&names, name, found));
    if below > 0 {
        all.extend(beside_last_below(names[below - 1], name, found));
    }
    if let (Some(next), false) = (names.get(below), found) {
        all.extend(beside_next(next, name));
    }
    all
}

/// Which of `WHERE`: so many names, so many below the one sought, and whether a field has it.
fn place_of(count: usize, below: usize, found: bool) -> usize {
    match (found, count) {
        (_, 0) => 0,
        (true, 1) => 1,
        (false, 1) => 9,
        (true, _) if below == 0 => 2,
        (true, _) if below + 1 < count => 3,
        (true, _) => 4,
        (false, _) if below == 0 => 5,
        (false, _) if below + 1 < count => 6,
        (false, _) if below < count => 7,
        _ => 8,
    }
}

/// The sizes of the name.
fn of_name(names: &[&[u8]], name: &[u8], found: bool) -> Vec<String> {
    let after = |more: usize| {
        let starts = |one: &&[u8]| one.len() + more == name.len() && name.starts_with(one);
        names.iter().any(starts)
    };
    met([
        (name.is_empty() && !names.is_empty(), NAMES[0]),
        (name.is_empty() && names.is_empty(), NAMES[1]),
        (name.len() == 64 && found, NAMES[2]),
        (name.len() == 64 && !found, NAMES[3]),
        (name.len() == 65, NAMES[4]),
        (name.len() == 65 && after(1), NAMES[5]),
        (name.len() > 65, NAMES[6]),
        (after(256), NAMES[7]),
        (after(65_536), NAMES[8]),
    ])
}

/// In how many bytes from the start on the two are alike.
fn alike(one: &[u8], other: &[u8]) -> usize {
    let both = one.iter().zip(other);
    both.take_while(|(one, other)| one == other).count()
}

/// The last name below the one sought.
fn beside_last_below(last: &[u8], name: &[u8], found: bool) -> Vec<String> {
    let at = alike(last, name);
    match (found, at == last.len()) {
        (true, _) => beside(0, at, None),
        (_, false) => beside(1, at, Some(name[at])),
        _ => beside(2, at, Some(name[at])),
    }
}

/// The first name above the one sought.
fn beside_next(next: &[u8], name: &[u8]) -> Vec<String> {
    let at = alike(next, name);
    match name.get(at) {
        Some(byte) => beside(3, at, Some(*byte)),
        None => beside(4, at, None),
    }
}

/// Why the notice is refused at the place, and whether the name stands in it all the same.
fn of_refused(notice: &[u8], place: usize, name: &[u8]) -> Vec<String> {
    if place == 0 {
        return met([(true, REFUSED[0])]);
    }
    let part = |at: usize| &notice[at..notice.len().min(at + 2 + word(notice, at))];
    let named = |part: &[u8]| {
        let size = part.get(4).map_or(0, |size| usize::from(*size));
        part.get(5..5 + size) == Some(name)
    };
    let (mut at, mut before, mut has) = (8, 0, false);
    while at < place {
        has |= named(part(at));
        at += part(at).len();
        before += 1;
    }
    let (missing, spare) = (place == notice.len(), before == word(notice, 6));
    let right = !missing && !spare && check_notice(&notice_bytes(1, &[part(place)])).0 == 0;
    met([
        (!missing && !spare && !right, REFUSED[1]),
        (right, REFUSED[2]),
        (missing, REFUSED[3]),
        (spare, REFUSED[4]),
        (has, REFUSED[5]),
        (!missing && !spare && named(part(place)), REFUSED[6]),
    ])
}

#[cfg(test)]
mod tests {
    use super::*;
    use crate::notices::{rendered, Field};

    fn notice_of(names: &[&[u8]]) -> Vec<u8> {
        let field = |name: &&[u8]| Field {
            name: name.to_vec(),
            kind: 4,
            value: b"v".to_vec(),
        };
        rendered(&names.iter().map(field).collect::<Vec<Field>>())
    }

    #[test]
    fn edges_of_names() {
        let notice = notice_of(&[b"a", b"ab", b"c"]);
        let cases: [(&[u8], &[&str]); 4] = [
            (
                b"ab",
                &[
                    "found, within",
                    "looked at 2",
                    "found, behind one alike in 1",
                ],
            ),
            (
                b"a\0",
                &[
                    "missing, between",
                    "looked at 2",
                    "passes its start alike in 1",
                    "passes its start by 0",
                    "stops alike in 1",
                    "stops by 0",
                ],
            ),
            (
                b"",
                &[
                    "missing, below all",
                    "looked at 1",
                    "the empty name",
                    "stops as its start alike in 0",
                ],
            ),
            (
                b"\xff",
                &["missing, above all", "passes alike in 0", "passes by 255"],
            ),
        ];
        for (name, edges) in cases {
            assert_eq!(of(&notice, name), edges);
            edges
                .iter()
                .for_each(|edge| assert!(names().contains(&edge.to_string())));
        }
    }

    #[test]
    fn edges_of_refused_notices() {
        let of_names = |names: &[&[u8]]| of(&notice_of(names), b"b");
        assert_eq!(
            of_names(&[b"b", b"a"]),
            [
                REFUSED[2],
                "11, though a field before the fault has the name"
            ]
        );
        assert_eq!(
            of_names(&[b"c", b"b"]),
            [REFUSED[2], "11, though the faulty field has the name"]
        );
        assert_eq!(of_names(&[b"\n"]), [REFUSED[1]]);
        let mut notice = notice_of(&[b"a"]);
        notice[6] = 2;
        assert_eq!(of(&notice, b"b"), [REFUSED[3]]);
        notice[6] = 0;
        assert_eq!(of(&notice, b"b"), [REFUSED[4]]);
        assert_eq!(of(b"", b"b"), [REFUSED[0]]);
    }
}
