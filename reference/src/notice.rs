//! "Notice": its layout, reading a field, writing one; and, by document 02's request 11, finding one.

use crate::value::Value;
use crate::{word, MOST_FIELDS, MOST_NOTICE};
use std::ops::Range;

/// Where a field lies in its notice.
#[derive(Clone, PartialEq, Eq, Debug)]
pub struct Field {
    pub start: usize,
    pub kind: u16,
    pub name: Range<usize>,
    pub value: Range<usize>,
}

/// "name length 1..64; name (bytes 32..126)"
pub fn name_right(name: &[u8]) -> bool {
    (1..=64).contains(&name.len()) && name.iter().all(|byte| (32..=126).contains(byte))
}

/// "Kinds: 1 int32 (4 bytes), 2 int64 (8), 3 real64 (8, bits), 4 string, 5 opaque (each 0..1,024)."
fn size_right(kind: u16, size: usize) -> bool {
    match kind {
        1 => size == 4,
        2 | 3 => size == 8,
        4 | 5 => size <= 1024,
        _ => false,
    }
}

/// "11: notice fails layout", with its place; (0, 0) if it keeps it.
pub fn check_notice(notice: &[u8]) -> (u8, usize) {
    match fields(notice) {
        Ok(_) => (0, 0),
        Err(place) => (11, place),
    }
}

/// The field count, if the header is right: "size over 16,384 or under 8, length, kind, count".
fn header(notice: &[u8]) -> Option<usize> {
    let length = word(notice, 0, 4)? as usize;
    let kind = word(notice, 4, 2)?;
    let count = word(notice, 6, 2)? as usize;
    let right = notice.len() <= MOST_NOTICE && length == notice.len() - 4 && kind == 1;
    (right && count <= MOST_FIELDS).then_some(count)
}

/// All fields, or the place of the fault: "the faulty field's start, the first spare byte, or 0 for
/// the header".
pub fn fields(notice: &[u8]) -> Result<Vec<Field>, usize> {
    let count = header(notice).ok_or(0usize)?;
    let mut all: Vec<Field> = Vec::new();
    let mut at = 8;
    for _ in 0..count {
        let field = field(notice, at).ok_or(at)?;
        // "Names rise strictly by bytes, a prefix before the longer."
        let rises = |last: &Field| notice[last.name.clone()] < notice[field.name.clone()];
        if !all.last().is_none_or(rises) {
            return Err(at);
        }
        at = field.value.end;
        all.push(field);
    }
    // "exactly the slice"
    if at == notice.len() {
        Ok(all)
    } else {
        Err(at)
    }
}

/// "Field: u16 length of all after it; u16 kind; u8 name length 1..64; name (bytes 32..126); the value
/// takes the rest."
pub(crate) fn field(notice: &[u8], at: usize) -> Option<Field> {
    let end = at + 2 + word(notice, at, 2)? as usize;
    let part = notice.get(..end)?;
    let kind = word(part, at + 2, 2)? as u16;
    let name = at + 5..at + 5 + word(part, at + 4, 1)? as usize;
    let value = name.end..end;
    let right = name_right(part.get(name.clone())?) && size_right(kind, value.len());
    right.then_some(Field {
        start: at,
        kind,
        name,
        value,
    })
}

/// The value of the field of that name, if the notice has one.
pub fn value_of(notice: &[u8], fields: &[Field], name: &[u8]) -> Option<Value> {
    let field = fields
        .iter()
        .find(|field| notice[field.name.clone()] == *name)?;
    let bytes = &notice[field.value.clone()];
    match field.kind {
        1 => Some(Value::Int32(i32::from_le_bytes(bytes.try_into().ok()?))),
        2 => Some(Value::Int64(i64::from_le_bytes(bytes.try_into().ok()?))),
        3 => Some(Value::Real64(f64::from_bits(u64::from_le_bytes(
            bytes.try_into().ok()?,
        )))),
        4 => Some(Value::Text(bytes.to_vec())),
        _ => Some(Value::Opaque(bytes.to_vec())),
    }
}

/// "Reading field k gives its kind and its name and value as parts of the lent notice."
#[derive(Clone, PartialEq, Eq, Debug)]
pub struct Reading {
    pub number: u8,
    pub place: usize,
    pub kind: u16,
    pub name: Range<usize>,
    pub value: Range<usize>,
}

/// "Reading: 11, 17."; "when refused, returns kind 0 and empty parts"
pub fn read(notice: &[u8], k: usize) -> Reading {
    let refused = |number, place| Reading {
        number,
        place,
        kind: 0,
        name: 0..0,
        value: 0..0,
    };
    match fields(notice) {
        Err(place) => refused(11, place),
        Ok(fields) => match fields.into_iter().nth(k) {
            None => refused(17, 0),
            Some(Field {
                kind, name, value, ..
            }) => Reading {
                number: 0,
                place: 0,
                kind,
                name,
                value,
            },
        },
    }
}

/// Document 02, request 11: the index of the field that has the name, if one has, and "how many names it
/// looked at".
#[derive(Clone, Copy, PartialEq, Eq, Debug)]
pub struct Finding {
    pub number: u8,
    pub place: usize,
    pub index: Option<usize>,
    pub looked: usize,
}

/// Document 02, request 11: "it finds what a walk over all fields finds. Beside that it answers how many
/// names it looked at: those below the one sought, and one more if any is left." It asks for "a notice
/// found well-formed", so 11 otherwise. No order of the names is used here.
pub fn find(notice: &[u8], name: &[u8]) -> Finding {
    let fields = match fields(notice) {
        Ok(fields) => fields,
        Err(place) => {
            return Finding {
                number: 11,
                place,
                index: None,
                looked: 0,
            }
        }
    };
    let names = fields.iter().map(|field| &notice[field.name.clone()]);
    let below = names.clone().filter(|one| *one < name).count();
    Finding {
        number: 0,
        place: 0,
        index: names.clone().position(|one| one == name),
        looked: below + usize::from(below < names.len()),
    }
}

/// "writing answers number, place and the new length, or the old one if refused"
#[derive(Clone, Copy, PartialEq, Eq, Debug)]
pub struct Writing {
    pub number: u8,
    pub place: usize,
    pub length: usize,
}

/// "Writing adds one field, at its name's place, to a notice at the start of a lent buffer whose
/// length the caller names; the bytes after the new notice stay."
pub fn write(buffer: &mut [u8], length: usize, name: &[u8], kind: u16, value: &[u8]) -> Writing {
    match written(buffer, length, name, kind, value) {
        Err((number, place)) => Writing {
            number,
            place,
            length,
        },
        Ok(notice) => {
            buffer[..notice.len()].copy_from_slice(&notice);
            Writing {
                number: 0,
                place: 0,
                length: notice.len(),
            }
        }
    }
}

/// The new notice, or the first refusal: "Writing: 11 (also if the named length passes the buffer,
/// place 0), 13, 16, 14, 15."
fn written(
    buffer: &[u8],
    length: usize,
    name: &[u8],
    kind: u16,
    value: &[u8],
) -> Result<Vec<u8>, (u8, usize)> {
    let notice = buffer.get(..length).ok_or((11, 0))?;
    let fields = fields(notice).map_err(|place| (11, place))?;
    if !name_right(name) {
        return Err((13, 0));
    }
    if !size_right(kind, value.len()) {
        return Err((16, 0));
    }
    if fields
        .iter()
        .any(|field| notice[field.name.clone()] == *name)
    {
        return Err((14, 0));
    }
    let field = field_bytes(name, kind, value);
    let new_length = length + field.len();
    // "65th field, over 16,384 bytes, or buffer too short"
    if fields.len() == MOST_FIELDS || new_length > MOST_NOTICE || new_length > buffer.len() {
        return Err((15, 0));
    }
    let later = fields
        .iter()
        .find(|field| notice[field.name.clone()] > *name);
    let at = later.map_or(length, |field| field.start);
    Ok(notice_bytes(
        fields.len() + 1,
        &[&notice[8..at], &field, &notice[at..]],
    ))
}

/// One field's bytes.
pub fn field_bytes(name: &[u8], kind: u16, value: &[u8]) -> Vec<u8> {
    let mut bytes = ((3 + name.len() + value.len()) as u16)
        .to_le_bytes()
        .to_vec();
    bytes.extend(kind.to_le_bytes());
    bytes.push(name.len() as u8);
    bytes.extend(name);
    bytes.extend(value);
    bytes
}

/// "u32 length of all after it; u16 kind 1; u16 field count 0..64; fields."
pub fn notice_bytes(count: usize, fields: &[&[u8]]) -> Vec<u8> {
    let fields = fields.concat();
    let mut notice = ((4 + fields.len()) as u32).to_le_bytes().to_vec();
    notice.extend(1u16.to_le_bytes());
    notice.extend((count as u16).to_le_bytes());
    notice.extend(fields);
    notice
}

#[cfg(test)]
pub mod examples {
    pub const OP42: [u8; 19] = [
        0x0f, 0, 0, 0, 1, 0, 1, 0, 9, 0, 1, 0, 2, 0x4f, 0x70, 0x2a, 0, 0, 0,
    ];
    pub const E: [u8; 8] = [4, 0, 0, 0, 1, 0, 0, 0];
}

#[cfg(test)]
mod tests {
    use super::examples::{E, OP42};
    use super::*;

    #[test]
    fn op42_is_written_from_e_and_read() {
        let mut buffer = [9; 21];
        buffer[..8].copy_from_slice(&E);
        let answer = write(&mut buffer, 8, b"Op", 1, &42i32.to_le_bytes());
        assert_eq!(
            answer,
            Writing {
                number: 0,
                place: 0,
                length: 19
            }
        );
        assert_eq!(buffer[..19], OP42);
        assert_eq!(buffer[19..], [9, 9]);
        let field = read(&OP42, 0);
        assert_eq!(
            (field.number, field.kind, field.name, field.value),
            (0, 1, 13..15, 15..19)
        );
        assert_eq!(read(&OP42, 1).number, 17);
    }

    #[test]
    fn a_field_goes_to_its_names_place() {
        let mut buffer = [0; 64];
        buffer[..8].copy_from_slice(&E);
        let mut length = 8;
        for name in [&b"b"[..], b"ab", b"a", b"c"] {
            length = write(&mut buffer, length, name, 4, b"").length;
        }
        let names: Vec<&[u8]> = (0..4)
            .map(|k| &buffer[read(&buffer[..length], k).name])
            .collect();
        assert_eq!(names, [&b"a"[..], b"ab", b"b", b"c"]);
    }

    #[test]
    fn a_name_is_found_and_names_are_counted() {
        let names = [&b"a"[..], b"ab", b"b"];
        let fields = names.map(|name| field_bytes(name, 4, b"v"));
        let mut notice = notice_bytes(3, &[&fields[0], &fields[1], &fields[2]]);
        let cases: [(&[u8], Option<usize>, usize); 8] = [
            (b"a", Some(0), 1),
            (b"ab", Some(1), 2),
            (b"b", Some(2), 3),
            (b"", None, 1),
            (b"aa", None, 2),
            (b"abc", None, 3),
            (b"c", None, 3),
            (b"\xff", None, 3),
        ];
        let found = |number, place, index, looked| Finding {
            number,
            place,
            index,
            looked,
        };
        for (name, index, looked) in cases {
            assert_eq!(find(&notice, name), found(0, 0, index, looked));
            assert_eq!(find(&E, name), found(0, 0, None, 0));
        }
        notice[13] = b'c';
        assert_eq!(find(&notice, b"c"), found(11, 15, None, 0));
        assert_eq!(find(b"", b"a"), found(11, 0, None, 0));
    }

    #[test]
    fn refused_writes_keep_length_and_bytes() {
        let cases: [(usize, &[u8], u16, usize, u8); 7] = [
            (20, b"a", 1, 4, 11),
            (19, b"", 1, 4, 13),
            (19, b"\x7f", 9, 4, 13),
            (19, b"Op", 9, 4, 16),
            (19, b"a", 2, 4, 16),
            (19, b"Op", 1, 4, 14),
            (19, b"a", 1, 4, 15),
        ];
        for (length, name, kind, size, number) in cases {
            let mut buffer = OP42;
            let answer = write(&mut buffer, length, name, kind, &vec![0; size]);
            assert_eq!(
                answer,
                Writing {
                    number,
                    place: 0,
                    length
                }
            );
            assert_eq!(buffer, OP42);
        }
    }

    #[test]
    fn faults_have_places() {
        let mut spare = OP42.to_vec();
        spare.push(0);
        spare[0] += 1;
        assert_eq!(check_notice(&spare), (11, 19));
        let mut missing = OP42;
        missing[6] = 2;
        assert_eq!(check_notice(&missing), (11, 19));
        let mut kind = OP42;
        kind[10] = 6;
        assert_eq!(check_notice(&kind), (11, 8));
        assert_eq!(check_notice(&OP42[..18]), (11, 0));
        assert_eq!(check_notice(&OP42), (0, 0));
    }
}
