//! What mending met, for the tally: what became of each field and why, how names stand to those kept before, what
//! is left at the end, what the header says, the limits, and the sizes of both buffers.

use crate::edges::{met, word};
use reference::mend::{mended, Fate, HEAD, LISTED};
use reference::notice::check_notice;
use reference::{MOST_FIELDS, MOST_NOTICE};

const SIZES: [&str; 8] = [
    "no byte",
    "7 bytes",
    "8 bytes",
    "9 bytes",
    "16,383 bytes",
    "16,384 bytes",
    "16,385 bytes",
    "over 16,385 bytes",
];
const HEADERS: [&str; 7] = [
    "header: right, a field is not",
    "header: another length",
    "header: another kind",
    "header: count 0, fields kept",
    "header: a count under the fields listed",
    "header: a count over the fields listed",
    "header: a count over 64",
];
const LISTS: [&str; 14] = [
    "listed: none",
    "listed: one",
    "listed: 64",
    "listed: 65",
    "listed: 8,188",
    "listed: 8,188, the last of a byte",
    "listed: an offset over 255",
    "listed: some, none kept",
    "result: well-formed before",
    "result: 64 fields",
    "result: 64 fields, all but one moved",
    "result: 63 fields",
    "result: 16,384 bytes",
    "result: 16,384 bytes, some moved",
];
const KEPT: [&str; 5] = [
    "kept: behind a moved one",
    "kept: a bad one had its name",
    "kept: the 64th",
    "kept: the 65th",
    "kept: it goes on after the greatest",
];
const MOVED: [&str; 7] = [
    "moved: below all",
    "moved: between",
    "moved: above the last one kept",
    "moved: a bad one had its name",
    "moved: the 64th",
    "moved: the 65th",
    "moved: the start of a greater one",
];
const REPEATED: [&str; 9] = [
    "repeated: the first kept",
    "repeated: the last kept",
    "repeated: one between",
    "repeated: a moved one",
    "repeated: the same bytes",
    "repeated: another kind",
    "repeated: another value",
    "repeated: a third time",
    "repeated: 64 are kept",
];
const BAD: [&str; 6] = [
    "bad: the first field",
    "bad: the last bytes",
    "bad: 64 are kept",
    "bad: its name was kept",
    "bad: in two things",
    "bad: a name past the end",
];
const CUT: [&str; 10] = [
    "cut: a single byte of 0",
    "cut: a single byte over 0",
    "cut: a length word alone",
    "cut: by one byte",
    "cut: by more",
    "cut: a length of 65,535",
    "cut: the first field",
    "cut: 64 are kept",
    "cut: a name that was kept",
    "cut: at 16,384 bytes",
];
/// What is wrong in a field, each alone.
const FAULTS: [&str; 26] = [
    "length 0",
    "length 1",
    "length 2",
    "no name",
    "a name of 65",
    "a name of more",
    "a name past its field by one",
    "a name past its field",
    "a name with 0",
    "a name with 31",
    "a name with 127",
    "a name with 255",
    "kind 0",
    "kind 6",
    "kind 255",
    "a kind right in its low byte",
    "int32 of 3",
    "int32 of 5",
    "int64 of 7",
    "int64 of 9",
    "real64 of 7",
    "real64 of 9",
    "string of 1,025",
    "opaque of 1,025",
    "string of more",
    "opaque of more",
];
const ROOMS: [&str; 20] = [
    "30 with no room",
    "30 with room",
    "10 alone",
    "10 beside 15",
    "10 beside 9",
    "15 alone",
    "15 beside 9 for the list",
    "15 beside 9 for the notice",
    "9: the list by one byte",
    "9: the list by a field",
    "9: the list alone",
    "9: the notice by one byte",
    "9: the notice alone",
    "9: a notice buffer under 8",
    "9: both",
    "9: no room at all",
    "room: both to the byte",
    "room: both and more",
    "room: no list, none needed",
    "room: the list to the byte, the notice and more",
];

/// In so many bytes a name and its neighbour are alike, before they differ or the shorter one ends.
const ALIKE: [usize; 11] = [0, 1, 6, 7, 8, 9, 15, 16, 17, 62, 63];
/// So long are names that are repeated.
const LENGTHS: [usize; 8] = [1, 2, 7, 8, 9, 16, 63, 64];

/// What must occur in a run of many cases.
pub fn names() -> Vec<String> {
    let told = [
        &SIZES[..],
        &HEADERS,
        &LISTS,
        &KEPT,
        &MOVED,
        &REPEATED,
        &BAD,
        &CUT,
        &ROOMS,
    ];
    let told = told.concat().into_iter().map(String::from);
    let faults = FAULTS.map(|fault| format!("bad: {fault}"));
    let alike = ["kept", "moved"]
        .into_iter()
        .flat_map(|fate| ALIKE.map(|at| format!("{fate}: alike in {at}")));
    let repeated = LENGTHS.map(|length| format!("repeated: a name of {length}"));
    let all = told.chain(faults).chain(alike).chain(repeated);
    all.collect()
}

/// A field listed, with its bytes up to the end if it is cut; and its name, if it lies in the field.
struct Seen<'a> {
    offset: usize,
    fate: Fate,
    part: &'a [u8],
    name: Option<&'a [u8]>,
}

impl Seen<'_> {
    fn stays(&self) -> bool {
        matches!(self.fate, Fate::Kept | Fate::Moved)
    }
}

/// The fields of the bytes.
fn seen(bytes: &[u8]) -> Vec<Seen<'_>> {
    let seen = |(offset, fate): (usize, Fate)| {
        let end = match fate {
            Fate::Cut => bytes.len(),
            _ => offset + 2 + word(bytes, offset),
        };
        let part = &bytes[offset..end];
        let size = part.get(4).map(|size| usize::from(*size));
        Seen {
            offset,
            fate,
            part,
            name: size.and_then(|size| part.get(5..5 + size)),
        }
    };
    mended(bytes).list.into_iter().map(seen).collect()
}

/// Of so many fields each is told; of more the last alone.
const MOST_TOLD: usize = 300;

/// The edges of bytes, whatever the buffers.
pub fn of_bytes(bytes: &[u8]) -> Vec<String> {
    let mut all = of_size(bytes.len());
    if !(HEAD..=MOST_NOTICE).contains(&bytes.len()) {
        return all;
    }
    let fields = seen(bytes);
    all.extend(of_header(bytes, &fields));
    all.extend(of_list(bytes, &fields));
    for at in 0..fields.len() {
        if at < MOST_TOLD || at + 1 == fields.len() {
            all.extend(of_field(bytes, &fields[..at], &fields[at]));
        }
    }
    all
}

fn of_size(size: usize) -> Vec<String> {
    met([
        (size == 0, SIZES[0]),
        (size == 7, SIZES[1]),
        (size == 8, SIZES[2]),
        (size == 9, SIZES[3]),
        (size == 16_383, SIZES[4]),
        (size == 16_384, SIZES[5]),
        (size == 16_385, SIZES[6]),
        (size > 16_385, SIZES[7]),
    ])
}

/// What the header says that is not so.
fn of_header(bytes: &[u8], fields: &[Seen]) -> Vec<String> {
    let length = word(bytes, 0) + 65_536 * word(bytes, 2);
    let (kind, count, listed) = (word(bytes, 4), word(bytes, 6), fields.len());
    let right = length + 4 == bytes.len() && kind == 1 && count == listed;
    let wrong = fields.iter().any(|field| field.fate != Fate::Kept);
    let kept = fields.iter().any(Seen::stays);
    met([
        (right && wrong, HEADERS[0]),
        (length + 4 != bytes.len(), HEADERS[1]),
        (kind != 1, HEADERS[2]),
        (count == 0 && kept, HEADERS[3]),
        (count < listed, HEADERS[4]),
        (count > listed && count <= MOST_FIELDS, HEADERS[5]),
        (count > MOST_FIELDS, HEADERS[6]),
    ])
}

/// The list and the result, if it is one.
fn of_list(bytes: &[u8], fields: &[Seen]) -> Vec<String> {
    let (listed, last) = (fields.len(), fields.last());
    let stay: Vec<&Seen> = fields.iter().filter(|field| field.stays()).collect();
    let moved = stay.iter().filter(|field| field.fate == Fate::Moved);
    let (kept, moved) = (stay.len(), moved.count());
    let size = HEAD + stay.iter().map(|field| field.part.len()).sum::<usize>();
    let right = check_notice(bytes).0 == 0;
    let all = kept == MOST_FIELDS;
    let single = last.is_some_and(|last| last.part.len() == 1);
    met([
        (listed == 0, LISTS[0]),
        (listed == 1, LISTS[1]),
        (listed == 64, LISTS[2]),
        (listed == 65, LISTS[3]),
        (listed == 8188, LISTS[4]),
        (listed == 8188 && single, LISTS[5]),
        (last.is_some_and(|last| last.offset > 255), LISTS[6]),
        (listed > 0 && kept == 0, LISTS[7]),
        (right && kept > 0, LISTS[8]),
        (all, LISTS[9]),
        (all && moved == 63, LISTS[10]),
        (kept == 63, LISTS[11]),
        (size == MOST_NOTICE, LISTS[12]),
        (size == MOST_NOTICE && moved > 0, LISTS[13]),
    ])
}

/// The edges of a field behind others.
fn of_field(bytes: &[u8], before: &[Seen], field: &Seen) -> Vec<String> {
    match (field.fate, field.name) {
        (Fate::Kept, Some(name)) => of_kept(before, name),
        (Fate::Moved, Some(name)) => of_moved(before, name),
        (Fate::Repeated, Some(name)) => of_repeated(before, field, name),
        (Fate::Cut, _) => of_cut(bytes, before, field),
        _ => of_bad(bytes, before, field),
    }
}

/// The names kept before, in the order in which they lie.
fn kept_in<'a>(before: &[Seen<'a>]) -> Vec<&'a [u8]> {
    let stay = before.iter().filter(|field| field.stays());
    stay.filter_map(|field| field.name).collect()
}

/// Whether a bad field before has the name.
fn bad_before(before: &[Seen], name: &[u8]) -> bool {
    let bad = |field: &Seen| field.fate == Fate::Bad && field.name == Some(name);
    before.iter().any(bad)
}

/// How many bytes of two names are alike from the start, told if it is one of `ALIKE`.
fn alike(fate: &str, one: &[u8], other: &[u8]) -> Option<String> {
    let pairs = one.iter().zip(other);
    let at = pairs.take_while(|(one, other)| one == other).count();
    ALIKE
        .contains(&at)
        .then(|| format!("{fate}: alike in {at}"))
}

fn of_kept(before: &[Seen], name: &[u8]) -> Vec<String> {
    let kept = kept_in(before);
    let greatest = kept.iter().max();
    let moved = before.iter().any(|field| field.fate == Fate::Moved);
    let mut all = met([
        (moved, KEPT[0]),
        (bad_before(before, name), KEPT[1]),
        (kept.len() == 63, KEPT[2]),
        (kept.len() == 64, KEPT[3]),
        (greatest.is_some_and(|one| name.starts_with(one)), KEPT[4]),
    ]);
    all.extend(greatest.and_then(|one| alike("kept", one, name)));
    all
}

fn of_moved(before: &[Seen], name: &[u8]) -> Vec<String> {
    let kept = kept_in(before);
    let below = kept.iter().filter(|one| **one < name).count();
    let next = kept.iter().filter(|one| **one > name).min();
    let last = kept.last().is_some_and(|one| *one < name);
    let mut all = met([
        (below == 0, MOVED[0]),
        (below > 0, MOVED[1]),
        (last, MOVED[2]),
        (bad_before(before, name), MOVED[3]),
        (kept.len() == 63, MOVED[4]),
        (kept.len() == 64, MOVED[5]),
        (next.is_some_and(|one| one.starts_with(name)), MOVED[6]),
    ]);
    all.extend(next.and_then(|one| alike("moved", one, name)));
    all
}

fn of_repeated(before: &[Seen], field: &Seen, name: &[u8]) -> Vec<String> {
    let stay: Vec<&Seen> = before.iter().filter(|field| field.stays()).collect();
    let Some(at) = stay.iter().position(|one| one.name == Some(name)) else {
        return Vec::new();
    };
    let (first, last) = (at == 0, at + 1 == stay.len());
    let kind = word(stay[at].part, 2) == word(field.part, 2);
    let same = stay[at].part == field.part;
    let again = |one: &Seen| one.fate == Fate::Repeated && one.name == Some(name);
    let mut all = met([
        (first && !last, REPEATED[0]),
        (last && !first, REPEATED[1]),
        (!first && !last, REPEATED[2]),
        (stay[at].fate == Fate::Moved, REPEATED[3]),
        (same, REPEATED[4]),
        (!kind, REPEATED[5]),
        (kind && !same, REPEATED[6]),
        (before.iter().any(again), REPEATED[7]),
        (stay.len() == 64, REPEATED[8]),
    ]);
    if LENGTHS.contains(&name.len()) {
        all.push(format!("repeated: a name of {}", name.len()));
    }
    all
}

fn of_bad(bytes: &[u8], before: &[Seen], field: &Seen) -> Vec<String> {
    let kept = kept_in(before);
    let (faults, last) = (
        faults_of(field.part),
        field.offset + field.part.len() == bytes.len(),
    );
    let past = faults.iter().any(|fault| fault.starts_with(FAULTS[7]));
    let mut all = met([
        (before.is_empty(), BAD[0]),
        (last, BAD[1]),
        (kept.len() == 64, BAD[2]),
        (field.name.is_some_and(|name| kept.contains(&name)), BAD[3]),
        (faults.len() > 1, BAD[4]),
        (last && past, BAD[5]),
    ]);
    if let [fault] = faults[..] {
        all.push(format!("bad: {fault}"));
    }
    all
}

/// What is wrong in a whole field; a fault that is none of `FAULTS` is told as "another one".
fn faults_of(part: &[u8]) -> Vec<&'static str> {
    let length = part.len() - 2;
    if length < 3 {
        return vec![FAULTS[length]];
    }
    let (kind, size) = (word(part, 2), usize::from(part[4]));
    let mut all = Vec::new();
    match kind {
        0 => all.push(FAULTS[12]),
        6 => all.push(FAULTS[13]),
        255 => all.push(FAULTS[14]),
        1..=5 => (),
        _ if (1..=5).contains(&(kind & 255)) => all.push(FAULTS[15]),
        _ => all.push("another one"),
    }
    match size {
        0 => all.push(FAULTS[3]),
        1..=64 => (),
        65 => all.push(FAULTS[4]),
        _ => all.push(FAULTS[5]),
    }
    match part.get(5..5 + size) {
        None if size == length - 2 => all.push(FAULTS[6]),
        None => all.push(FAULTS[7]),
        Some(name) => {
            all.extend(name.iter().filter_map(|byte| fault_of_byte(*byte)));
            all.extend(fault_of_size(kind, length - 3 - size));
        }
    }
    all
}

/// "name (bytes 32..126)"
fn fault_of_byte(byte: u8) -> Option<&'static str> {
    match byte {
        32..=126 => None,
        0 => Some(FAULTS[8]),
        31 => Some(FAULTS[9]),
        127 => Some(FAULTS[10]),
        255 => Some(FAULTS[11]),
        _ => Some("another one"),
    }
}

/// A value's size that is wrong for its kind.
fn fault_of_size(kind: usize, size: usize) -> Option<&'static str> {
    match (kind, size) {
        (1, 4) | (2 | 3, 8) | (4 | 5, 0..=1024) => None,
        (1, 3) => Some(FAULTS[16]),
        (1, 5) => Some(FAULTS[17]),
        (2, 7) => Some(FAULTS[18]),
        (2, 9) => Some(FAULTS[19]),
        (3, 7) => Some(FAULTS[20]),
        (3, 9) => Some(FAULTS[21]),
        (4, 1025) => Some(FAULTS[22]),
        (5, 1025) => Some(FAULTS[23]),
        (4, _) => Some(FAULTS[24]),
        (5, _) => Some(FAULTS[25]),
        (1..=3, _) => Some("another one"),
        _ => None,
    }
}

fn of_cut(bytes: &[u8], before: &[Seen], field: &Seen) -> Vec<String> {
    let kept = kept_in(before);
    let (left, length) = (field.part.len(), word(field.part, 0));
    let lacks = (2 + length).saturating_sub(left);
    met([
        (field.part == [0], CUT[0]),
        (left == 1 && field.part != [0], CUT[1]),
        (left == 2, CUT[2]),
        (left > 1 && lacks == 1, CUT[3]),
        (left > 1 && lacks > 1, CUT[4]),
        (length == 65_535, CUT[5]),
        (before.is_empty(), CUT[6]),
        (kept.len() == 64, CUT[7]),
        (field.name.is_some_and(|name| kept.contains(&name)), CUT[8]),
        (bytes.len() == MOST_NOTICE, CUT[9]),
    ])
}

/// What a call must have, and how many fields would be kept.
pub struct Needs {
    pub bytes: usize,
    pub list: usize,
    pub notice: usize,
    pub kept: usize,
}

impl Needs {
    pub fn of(bytes: &[u8]) -> Needs {
        let mended = mended(bytes);
        Needs {
            bytes: bytes.len(),
            list: LISTED * mended.list.len(),
            notice: mended.notice().len(),
            kept: mended.kept.len(),
        }
    }
}

/// The edges of a call with buffers of these lengths.
pub fn of_room(needs: &Needs, list: usize, notice: usize) -> Vec<String> {
    let (lists, notices) = (list < needs.list, notice < needs.notice);
    let (short, many) = (lists || notices, needs.kept > MOST_FIELDS);
    if needs.bytes < HEAD {
        return met([(notice < HEAD, ROOMS[0]), (notice >= HEAD, ROOMS[1])]);
    }
    if needs.bytes > MOST_NOTICE {
        return met([
            (!many && !short, ROOMS[2]),
            (many && !short, ROOMS[3]),
            (!many && short, ROOMS[4]),
        ]);
    }
    if many {
        return met([
            (!short, ROOMS[5]),
            (lists && !notices, ROOMS[6]),
            (!lists && notices, ROOMS[7]),
        ]);
    }
    let exact = (list == needs.list, notice == needs.notice);
    met([
        (list + 1 == needs.list && !notices, ROOMS[8]),
        (list + LISTED == needs.list && !notices, ROOMS[9]),
        (lists && !notices, ROOMS[10]),
        (notice + 1 == needs.notice && !lists, ROOMS[11]),
        (notices && !lists, ROOMS[12]),
        (notice < HEAD && !lists, ROOMS[13]),
        (lists && notices, ROOMS[14]),
        (short && list == 0 && notice == 0, ROOMS[15]),
        (exact.0 && exact.1 && needs.kept > 0, ROOMS[16]),
        (list > needs.list && notice > needs.notice, ROOMS[17]),
        (list == 0 && !short, ROOMS[18]),
        (exact.0 && list > 0 && notice > needs.notice, ROOMS[19]),
    ])
}

#[cfg(test)]
mod tests {
    use super::*;
    use reference::notice::field_bytes;

    fn has(met: Vec<String>, edges: &[&str]) {
        let named = names();
        met.iter()
            .for_each(|one| assert!(named.contains(one), "{one}"));
        assert_eq!(met, edges);
    }

    #[test]
    fn faults_are_told_alone() {
        let faults = [
            (vec![1, 0, 9], "length 1"),
            (field_bytes(b"", 4, b""), "no name"),
            (field_bytes(&[b'a'; 65], 4, b""), "a name of 65"),
            (vec![3, 0, 4, 0, 1], "a name past its field by one"),
            (field_bytes(b"a\x7f", 5, b""), "a name with 127"),
            (field_bytes(b"a", 260, b""), "a kind right in its low byte"),
            (field_bytes(b"a", 2, b"1234567"), "int64 of 7"),
            (field_bytes(b"a", 4, &[0; 1025]), "string of 1,025"),
        ];
        for (field, fault) in faults {
            assert_eq!(faults_of(&field), [fault]);
            assert!(FAULTS.contains(&fault));
        }
        let two = field_bytes(b"", 6, b"");
        assert_eq!(faults_of(&two), ["kind 6", "no name"]);
        assert!(faults_of(&field_bytes(b"a", 1, b"four")).is_empty());
    }

    #[test]
    fn edges_of_fields() {
        let [a, ab, b] = [&b"a"[..], b"ab", b"b"].map(|name| field_bytes(name, 4, b""));
        let bad = field_bytes(b"a", 0, b"");
        let bytes = [&[0; 8][..], &ab, &bad, &a, &b, &ab, &[7]].concat();
        let fields = seen(&bytes);
        let of = |at: usize| of_field(&bytes, &fields[..at], &fields[at]);
        has(of(0), &[]);
        has(of(1), &["bad: kind 0"]);
        let moved = [
            "moved: below all",
            "moved: a bad one had its name",
            "moved: the start of a greater one",
            "moved: alike in 1",
        ];
        has(of(2), &moved);
        has(of(3), &["kept: behind a moved one", "kept: alike in 0"]);
        let repeated = [
            "repeated: the first kept",
            "repeated: the same bytes",
            "repeated: a name of 2",
        ];
        has(of(4), &repeated);
        has(of(5), &["cut: a single byte over 0"]);
    }

    #[test]
    fn edges_of_rooms() {
        let needs = Needs {
            bytes: 30,
            list: 6,
            notice: 14,
            kept: 1,
        };
        has(of_room(&needs, 6, 14), &["room: both to the byte"]);
        let one = ["9: the list by one byte", "9: the list alone"];
        has(of_room(&needs, 5, 14), &one);
        has(of_room(&needs, 0, 0), &["9: both", "9: no room at all"]);
        let many = Needs { kept: 65, ..needs };
        has(of_room(&many, 5, 14), &["15 beside 9 for the list"]);
    }
}
