//! Notices: well-formed ones of all kinds and sizes, and damaged ones.

use crate::random::Random;
use crate::texts::damaged;
use crate::words;

/// A field as it goes into a notice.
#[derive(Clone)]
pub struct Field {
    pub name: Vec<u8>,
    pub kind: u16,
    pub value: Vec<u8>,
}

/// A kind that suits the name, so that texts find numbers where they look for them.
fn kind_for(random: &mut Random, name: &[u8]) -> u16 {
    match name.first() {
        _ if random.once_in(8) => random.between(1, 5) as u16,
        Some(b'i' | b'O') => 1,
        Some(b'n') => random.between(1, 2) as u16,
        Some(b'r') => 3,
        Some(b's' | b'x') => 4,
        Some(b'o') => 5,
        _ => random.between(1, 5) as u16,
    }
}

/// A value of the kind; for an unknown kind any bytes.
pub fn value(random: &mut Random, kind: u16) -> Vec<u8> {
    match kind {
        1 => words::short_whole(random).to_le_bytes().to_vec(),
        2 => words::whole(random).to_le_bytes().to_vec(),
        3 => words::real(random).to_le_bytes().to_vec(),
        _ if random.once_in(30) => words::long(random),
        _ => words::text(random),
    }
}

/// A field with a name that texts use, or another one.
pub fn field(random: &mut Random) -> Field {
    let name = match random.below(6) {
        0 => words::other_name(random),
        _ => words::name(random).to_vec(),
    };
    suited(random, name)
}

/// The fields of a well-formed notice: names that keep the rules, rising.
pub fn fields(random: &mut Random) -> Vec<Field> {
    let count = random.pick(&[0, 1, 2, 4, 8, 12, 16, 24, 32, 90]);
    let mut fields: Vec<Field> = (0..count).map(|_| field(random)).collect();
    if random.once_in(20) {
        fields.extend((0..80).map(|at| numbered(random, at)));
    }
    if random.once_in(20) {
        fields.extend((0..16).map(|at| large(random, at)));
    }
    fields.retain(|field| reference::notice::name_right(&field.name));
    fields.sort_by(|left, right| left.name.cmp(&right.name));
    fields.dedup_by(|left, right| left.name == right.name);
    fields.truncate(64);
    within_size(fields)
}

/// A well-formed notice with most of the names that texts use.
pub fn rich(random: &mut Random) -> Vec<u8> {
    let mut names: Vec<&[u8]> = words::NAMES.to_vec();
    names.retain(|_| !random.once_in(10));
    names.sort();
    let fields = names.into_iter().map(|name| suited(random, name.to_vec()));
    rendered(&within_size(fields.collect()))
}

/// A well-formed notice of 60 to 64 fields of all kinds, most often 64. Any name may be the last.
pub fn wide(random: &mut Random) -> Vec<u8> {
    let count = random.pick(&[60, 61, 62, 63, 64, 64, 64, 64]);
    let mut names: Vec<Vec<u8>> = words::NAMES.map(<[u8]>::to_vec).into();
    names.retain(|_| random.once_in(3));
    while names.len() < count {
        let name = wide_name(random, &names);
        if !names.contains(&name) {
            names.push(name);
        }
    }
    names.sort();
    let fields = names.into_iter().map(|name| suited(random, name));
    rendered(&within_size(fields.collect()))
}

/// A name for a notice with those names: one that goes on after another, or one whose first byte tells
/// its kind.
fn wide_name(random: &mut Random, names: &[Vec<u8>]) -> Vec<u8> {
    let more = format!(
        "{}{}",
        random.pick(&["a", "i", "n", "o", "r", "s", "x"]),
        random.below(99)
    );
    match names.get(random.below(4 * names.len() + 1)) {
        Some(name) if name.len() + more.len() <= 64 => [name, more.as_bytes()].concat(),
        _ if random.once_in(40) => vec![b'n'; 64],
        _ => more.into_bytes(),
    }
}

/// A field of the name, of a kind that suits it.
pub fn suited(random: &mut Random, name: Vec<u8>) -> Field {
    let kind = kind_for(random, &name);
    Field {
        value: value(random, kind),
        name,
        kind,
    }
}

/// Fields with strings and opaque values of about 1,024 bytes, among a few others.
fn long_fields(random: &mut Random) -> Vec<Field> {
    let mut fields = Vec::new();
    for name in [&b"o1"[..], b"o2", b"s1", b"s2", b"s3", b"x y"] {
        let kind = if random.once_in(8) {
            random.pick(&[4, 5])
        } else {
            kind_for(random, name)
        };
        let value = if kind < 4 {
            value(random, kind)
        } else {
            words::long(random)
        };
        fields.push(Field {
            name: name.to_vec(),
            kind,
            value,
        });
    }
    fields
}

/// A well-formed notice with values of about 1,024 bytes.
pub fn long(random: &mut Random) -> Vec<u8> {
    rendered(&long_fields(random))
}

/// A notice in which one value has 1,025 bytes, or one name 65.
fn too_long(random: &mut Random) -> Vec<u8> {
    let mut fields = long_fields(random);
    let at = random.below(fields.len());
    match random.below(3) {
        0 => fields[at].name.resize(65, b'~'),
        _ => {
            fields[at].kind = random.pick(&[4, 5]);
            fields[at].value.resize(1025, b'v');
        }
    }
    rendered(&fields)
}

/// A well-formed notice of any sort, most often one with names that texts use.
pub fn well_formed(random: &mut Random) -> Vec<u8> {
    match random.below(12) {
        0 | 1 => valid(random),
        2..=4 => wide(random),
        5 => long(random),
        _ => rich(random),
    }
}

/// One of many fields with short values.
fn numbered(random: &mut Random, at: usize) -> Field {
    let kind = random.between(1, 3) as u16;
    Field {
        name: format!("f{at}").into_bytes(),
        kind,
        value: value(random, kind),
    }
}

/// A well-formed notice of 62 to 64 fields, or one with 65.
pub fn full(random: &mut Random) -> Vec<u8> {
    let count = random.pick(&[62, 63, 63, 64, 64, 65]);
    let fields: Vec<Field> = (10..10 + count).map(|at| numbered(random, at)).collect();
    rendered(&fields)
}

/// A notice of about 16,384 bytes: 15 fields of 1,032 bytes and one that fills it up.
pub fn heavy(random: &mut Random) -> Vec<u8> {
    let size = match random.below(3) {
        0 => random.pick(&[16383, 16384, 16385]),
        _ => random.between(15_500, 16_384),
    };
    let of_size = |at: usize, size: usize| {
        let kind = 4 + (at % 2) as u16;
        Field {
            name: format!("v{at}").into_bytes(),
            kind,
            value: vec![b'v'; size - 8],
        }
    };
    let mut fields: Vec<Field> = (10..25).map(|at| of_size(at, 1032)).collect();
    fields.push(of_size(25, size - 8 - 15 * 1032));
    rendered(&fields)
}

/// One of 16 fields that fill a notice of 16,384 bytes.
fn large(random: &mut Random, at: usize) -> Field {
    let length = if random.once_in(2) {
        1016
    } else {
        random.between(980, 1024)
    };
    Field {
        name: format!("v{at}").into_bytes(),
        kind: random.pick(&[4, 5]),
        value: vec![b'v'; length],
    }
}

/// As many of the fields as a notice holds.
fn within_size(fields: Vec<Field>) -> Vec<Field> {
    let mut size = 8;
    let keep = |field: &Field| {
        size += 5 + field.name.len() + field.value.len();
        size <= reference::MOST_NOTICE
    };
    fields.into_iter().take_while(keep).collect()
}

/// The notice of the fields, in the order given.
pub fn rendered(fields: &[Field]) -> Vec<u8> {
    let parts: Vec<Vec<u8>> = fields
        .iter()
        .map(|field| reference::notice::field_bytes(&field.name, field.kind, &field.value))
        .collect();
    let parts: Vec<&[u8]> = parts.iter().map(Vec::as_slice).collect();
    reference::notice::notice_bytes(fields.len(), &parts)
}

/// A notice that keeps the layout.
pub fn valid(random: &mut Random) -> Vec<u8> {
    let fields = fields(random);
    rendered(&fields)
}

/// Any notice, about one of three damaged.
pub fn notice(random: &mut Random) -> Vec<u8> {
    match random.below(18) {
        12 => full(random),
        13 => heavy(random),
        14 | 15 => wide(random),
        16 => long(random),
        17 => too_long(random),
        0 | 1 => with_bad_field(random),
        2 => with_bad_header(random),
        3 => {
            let notice = valid(random);
            let notice = damaged(random, notice);
            with_length(notice)
        }
        4 => {
            let length = random.below(30);
            random.bytes(length)
        }
        _ => valid(random),
    }
}

/// The notice with its length word put right.
pub fn with_length(mut notice: Vec<u8>) -> Vec<u8> {
    if notice.len() >= 4 {
        let length = (notice.len() - 4) as u32;
        notice[..4].copy_from_slice(&length.to_le_bytes());
    }
    notice
}

/// One field broken, out of order or twice there; or one too many.
fn with_bad_field(random: &mut Random) -> Vec<u8> {
    let mut fields = fields(random);
    if fields.is_empty() {
        fields.push(field(random));
    }
    let at = random.below(fields.len());
    match random.below(9) {
        0 => fields[at].kind = random.pick(&[0, 6, 255, 256, 65535]),
        1 => fields[at].kind = random.between(1, 5) as u16,
        2 => fields[at].name = words::other_name(random),
        3 => fields[at].name = vec![b'n'; random.pick(&[0, 64, 65, 255])],
        4 => fields[at].value.push(0),
        5 => fields[at]
            .value
            .resize(random.pick(&[0, 3, 7, 1024, 1025]), b'v'),
        6 => fields.insert(at, fields[at].clone()),
        7 => {
            let other = random.below(fields.len());
            fields.swap(at, other);
        }
        _ => fields = (10..75).map(|at| numbered(random, at)).collect(),
    }
    rendered(&fields)
}

/// A header word broken, spare bytes, bytes cut off, or a length of a field changed.
fn with_bad_header(random: &mut Random) -> Vec<u8> {
    let mut notice = valid(random);
    let end = notice.len();
    match random.below(7) {
        0 => notice[random.below(8)] ^= 1 << random.below(8),
        1 => notice[6] = notice[6].wrapping_add(1),
        2 => notice[6] = notice[6].saturating_sub(1),
        3 => notice.extend(vec![0; random.between(1, 6)]),
        4 => notice.truncate(random.below(end)),
        5 if end > 8 => notice[8] = random.byte(),
        _ => notice.resize(random.pick(&[16383, 16384, 16385, 16390]), 0),
    }
    if random.once_in(3) {
        notice
    } else {
        with_length(notice)
    }
}
