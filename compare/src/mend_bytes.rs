//! Bytes to mend: fields right and wrong in any order behind any header, and what is left at the end; whole notices;
//! and bytes near the limits.

use crate::notices::{self, suited, Field};
use crate::random::Random;
use crate::texts::damaged;
use crate::{find, words};
use reference::mend::HEAD;
use reference::notice::{field_bytes, name_right};

/// Bytes for the tool.
pub fn bytes(random: &mut Random) -> Vec<u8> {
    match random.below(24) {
        0 | 1 => whole(random),
        2 => short(random),
        3..=6 => about_64(random),
        7 | 8 => about_16384(random),
        9 if random.once_in(3) => small_fields(random),
        10 | 11 => {
            let notice = notices::well_formed(random);
            damaged(random, notice)
        }
        12 => out_of_header(random),
        _ => pieces(random),
    }
}

/// A notice, most often well-formed.
fn whole(random: &mut Random) -> Vec<u8> {
    match random.below(6) {
        0 => virentolex::raw::EMPTY_NOTICE.to_vec(),
        1 => notices::full(random),
        2 => notices::heavy(random),
        3 => notices::notice(random),
        _ => notices::well_formed(random),
    }
}

/// Up to a header and a few bytes more.
fn short(random: &mut Random) -> Vec<u8> {
    let length = match random.below(3) {
        0 => random.pick(&[0, 7, 8, 9, 10]),
        _ => random.below(16),
    };
    match random.below(3) {
        0 => vec![random.pick(&[0, 1, 255]); length],
        1 => random.bytes(length),
        _ => notices::rich(random)[..length].to_vec(),
    }
}

/// A well-formed notice behind another header.
fn out_of_header(random: &mut Random) -> Vec<u8> {
    let notice = notices::well_formed(random);
    let count = usize::from(notice[6]);
    [&header(random, notice.len(), count)[..], &notice[HEAD..]].concat()
}

/// A header for so many bytes and fields: right, or wrong in any word.
fn header(random: &mut Random, length: usize, count: usize) -> Vec<u8> {
    let mut header = ((length.max(4) - 4) as u32).to_le_bytes().to_vec();
    header.extend([1, 0]);
    header.extend((count as u16).to_le_bytes());
    match random.below(8) {
        0 | 1 => (),
        2 => header[random.below(8)] ^= 1 << random.below(8),
        3 => header[6] = header[6].wrapping_sub(1),
        4 => header[6] = header[6].wrapping_add(random.pick(&[1, 64])),
        5 => header[6..].copy_from_slice(&[0, 0]),
        6 => header = vec![random.pick(&[0, 255]); 8],
        _ => header = random.bytes(8),
    }
    header
}

/// A header, the fields, and what is left at the end.
fn assembled(random: &mut Random, fields: &[Vec<u8>]) -> Vec<u8> {
    let fields = [fields.concat(), left(random)].concat();
    let count = random.pick(&[fields.len(), fields.len() / 9, 64]);
    let header = header(random, HEAD + fields.len(), count);
    [header, fields].concat()
}

/// What is left behind the last whole field: nothing, a single byte, or a field that is cut.
fn left(random: &mut Random) -> Vec<u8> {
    let field = field_of(random, b"left".to_vec());
    match random.below(12) {
        0 => vec![0],
        1 => vec![random.pick(&[1, 3, 255])],
        2 => field[..2].to_vec(),
        3 => field[..field.len() - 1].to_vec(),
        4 => vec![255; random.between(2, 9)],
        5 => field[..random.between(2, field.len() - 1)].to_vec(),
        6 => {
            let (known, at) = (words::name(random).to_vec(), random.between(1, 4));
            let field = field_of(random, known);
            field[..field.len() - at].to_vec()
        }
        _ => Vec::new(),
    }
}

/// A right field of the name, its value seldom long.
fn field_of(random: &mut Random, name: Vec<u8>) -> Vec<u8> {
    let Field { name, kind, value } = suited(random, name);
    field_bytes(&name, kind, &value)
}

/// Names to choose from, few of them so that they come again: those that texts use, or such as are alike in many
/// bytes.
fn stock(random: &mut Random) -> Vec<Vec<u8>> {
    let count = random.pick(&[1, 2, 3, 5, 10, 25, 60]);
    let stem = [random.pick(b" aM~"), random.pick(b" !b~")].repeat(32);
    let alike = random.once_in(2);
    let mut names: Vec<Vec<u8>> = (0..count)
        .map(|_| match alike {
            true => find::branch(random, &stem),
            false => words::name(random).to_vec(),
        })
        .collect();
    names.retain(|name| name_right(name));
    names.push(stem[..random.pick(&[1, 7, 8, 9, 16, 63, 64])].to_vec());
    names
}

/// Fields of a few names in any order, some of them wrong.
fn pieces(random: &mut Random) -> Vec<u8> {
    let names = stock(random);
    let count = random.pick(&[0, 1, 2, 2, 3, 3, 4, 5, 8, 16, 40, 80]);
    let fields: Vec<Vec<u8>> = (0..count).map(|_| piece(random, &names)).collect();
    assembled(random, &fields)
}

/// A field, most often right.
fn piece(random: &mut Random, names: &[Vec<u8>]) -> Vec<u8> {
    let name = names[random.below(names.len())].clone();
    match random.below(6) {
        0 => wrong(random, name),
        _ => field_of(random, name),
    }
}

/// The size of a value that just breaks the rule of its kind.
fn wrong_size(random: &mut Random, kind: u16) -> usize {
    match kind {
        1 => random.pick(&[0, 3, 5, 8]),
        2 | 3 => random.pick(&[0, 4, 7, 9]),
        _ => random.pick(&[1025, 1025, 1026]),
    }
}

/// A whole field that is not right by itself, most often in one thing alone.
fn wrong(random: &mut Random, mut name: Vec<u8>) -> Vec<u8> {
    let kind = random.between(1, 5) as u16;
    let value = notices::value(random, kind);
    let value = &value[..value.len().min(9)];
    let mut field = field_bytes(&name, kind, value);
    match random.below(12) {
        0 => return [&[0, 0][..], &[1, 0, 4], &[2, 0, 4, 0]][random.below(3)].to_vec(),
        1 => return field_bytes(b"", kind, value),
        2 => {
            name.resize(random.pick(&[65, 65, 66, 200]), b'~');
            return field_bytes(&name, kind, value);
        }
        3 => field[4] = (field.len() - 5 + random.pick(&[1, 1, 2, 9])) as u8,
        4 | 5 => {
            let within = random.below(name.len());
            let at = random.pick(&[0, name.len() - 1, within]);
            name[at] = random.pick(&[0, 31, 127, 255]);
            return field_bytes(&name, kind, value);
        }
        6 => field[2] = random.pick(&[0, 0, 6, 6, 255]),
        7 => field[3] = random.pick(&[1, 255]),
        8 => return vec![3, 0, kind as u8, 0, random.pick(&[0, 1, 64])],
        _ => return field_bytes(&name, kind, &vec![b'v'; wrong_size(random, kind)]),
    }
    field
}

/// About 64 fields that are kept, in any order, with others among them, and one behind the last.
fn about_64(random: &mut Random) -> Vec<u8> {
    let count = random.pick(&[62, 63, 64, 64, 64, 65, 65, 66, 80]);
    let mut names: Vec<Vec<u8>> = (10..10 + count)
        .map(|at| format!("f{at}").into_bytes())
        .collect();
    if random.once_in(3) {
        let stem = vec![b'f'; random.pick(&[1, 5, 6, 7, 30, 60, 61])];
        names = names
            .iter()
            .map(|name| [&stem, &name[..]].concat())
            .collect();
    }
    match random.below(4) {
        0 => (),
        1 => names.reverse(),
        2 => names.rotate_left(random.below(count)),
        _ => random.shuffle(&mut names),
    }
    let mut fields: Vec<Vec<u8>> = names.iter().map(|name| numbered(random, name)).collect();
    if random.once_in(2) {
        for _ in 0..random.below(12) {
            let at = random.between(0, fields.len());
            fields.insert(at, piece(random, &names));
        }
    }
    match random.below(6) {
        0 => fields.push(fields[random.below(fields.len())].clone()),
        1 => fields.push(wrong(random, names[0].clone())),
        _ => (),
    }
    assembled(random, &fields)
}

/// A field with a short value.
fn numbered(random: &mut Random, name: &[u8]) -> Vec<u8> {
    let kind = random.between(1, 3) as u16;
    field_bytes(name, kind, &notices::value(random, kind))
}

/// About 16,384 bytes: 15 large fields, and one that fills them up to the limit or past it.
fn about_16384(random: &mut Random) -> Vec<u8> {
    let length = random.pick(&[16_383, 16_384, 16_384, 16_384, 16_385, 16_385, 16_500]);
    if random.once_in(8) {
        let names: Vec<Vec<u8>> = (10..99).map(|at| format!("g{at}").into_bytes()).collect();
        let mut fields: Vec<Vec<u8>> = names.iter().map(|name| numbered(random, name)).collect();
        fields.push(vec![0; length - HEAD - fields.concat().len()]);
        let header = header(random, length, 64);
        return [header, fields.concat()].concat();
    }
    let large = |at: usize, size: usize| {
        let name = format!("v{at}").into_bytes();
        field_bytes(&name, 4 + (at % 2) as u16, &vec![b'v'; size - 8])
    };
    let mut fields: Vec<Vec<u8>> = (10..25).map(|at| large(at, 1032)).collect();
    fields.push(large(25, 880));
    random.shuffle(&mut fields);
    let room = length - HEAD - fields.concat().len();
    match random.below(4) {
        0 => fields.push(large(26, room.max(8))),
        1 => fields.push([&[255, 255][..], &vec![0; room - 2]].concat()),
        2 => fields.insert(random.below(16), vec![0; room]),
        _ => fields.push(random.bytes(room)),
    }
    let header = header(random, length, 16);
    [header, fields.concat()].concat()
}

/// As many of the smallest fields as there is room for: bad ones, or of names of one byte.
fn small_fields(random: &mut Random) -> Vec<u8> {
    let names: Vec<u8> = match random.below(4) {
        0 => (32..=126).collect(),
        1 => (32..=95).collect(),
        2 => (63..=126).rev().collect(),
        _ => Vec::new(),
    };
    let length = random.pick(&[16_383, 16_384, 16_384, 5000]);
    let mut fields = Vec::new();
    for at in 0.. {
        let field = match names.get(at % names.len().max(1)) {
            None => vec![0; 2],
            Some(name) => field_bytes(&[*name], 4, b""),
        };
        if HEAD + fields.len() + field.len() > length {
            break;
        }
        fields.extend(field);
    }
    fields.resize(length - HEAD, 0);
    [header(random, length, 64), fields].concat()
}
