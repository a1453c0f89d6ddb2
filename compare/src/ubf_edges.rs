//! What a case of UBF(A) met, for the tally: limits of accepted texts, of two faults the one that is
//! refused first, and rooms.

use crate::edges::met;
use reference::ubf::{fields_of, items, Field};
use reference::{notice, MOST_FIELDS, MOST_NOTICE};
use std::collections::BTreeSet;

/// What must occur in a run of many cases.
pub const EDGES: [&str; 58] = [
    "no field",
    "64 fields",
    "65 fields",
    "over 65 fields",
    "names rising",
    "names not rising",
    "a name of 1",
    "a name of 64",
    "a name of 65",
    "a name of 0",
    "a name with byte 31",
    "a name with byte 32",
    "a name with byte 126",
    "a name with byte 127",
    "a name with byte 255",
    "a name with an escape",
    "two names alike to their last byte of 64",
    "a name that goes on after another",
    "a string of 0",
    "a string of 1,024",
    "a string of 1,024, all escaped",
    "a string of 1,025",
    "an opaque of 0",
    "an opaque of 1,024",
    "an opaque of 1,025",
    "int32",
    "int64",
    "16,384 bytes",
    "16,385 bytes",
    "again",
    "again, with an escape",
    "again, of over 64",
    "again, the first and the last",
    "13 before 16",
    "13 before 14",
    "13 before 15",
    "16 before 14",
    "16 before 15",
    "14 before 15",
    "read: 13 with room",
    "read: 14 with room",
    "read: 15 with room",
    "read: 16 with room",
    "read: 22 with room",
    "read: 23 with room",
    "read: room to the byte",
    "read: a byte too few",
    "read: more room",
    "write: room to the byte",
    "write: a byte too few",
    "write: more room",
    "write: 11 with room",
    "write: 23 with room",
    "write: an escape in a name",
    "write: an escape in a string",
    "write: real64 the last",
    "write: no field",
    "write: 11 with a place",
];

/// What must occur of the things done to texts, with the number of each.
pub const DONE: [&str; 127] = [
    "right: 0",
    "fields: 0",
    "fields: 13",
    "fields: 14",
    "fields: 15",
    "fields: 16",
    "one piece less: 0",
    "one piece less: 22",
    "one piece less: 23",
    "two pieces swapped: 0",
    "two pieces swapped: 22",
    "two pieces swapped: 23",
    "one piece for another: 22",
    "one piece for another: 23",
    "one piece twice: 22",
    "one piece twice: 23",
    "more: a register: 22",
    "more: a register: 23",
    "more: a store: 22",
    "more: a store: 23",
    "more: a lone >: 22",
    "more: a lone >: 23",
    "more: &: 22",
    "more: &: 23",
    "more: #: 22",
    "more: #: 23",
    "more: a list: 22",
    "more: a list: 23",
    "more: an atom: 22",
    "more: an atom: 23",
    "more: int64: 0",
    "more: int64: 22",
    "more: int64: 23",
    "more: another tag: 22",
    "more: another tag: 23",
    "more: a tuple: 22",
    "more: a tuple: 23",
    "more: {: 22",
    "more: }: 22",
    "more: a comma: 22",
    "more: ~: 22",
    "more: $: 22",
    "more: -: 0",
    "more: -: 22",
    "more: a string: 22",
    "more: a string: 23",
    "more: an integer: 22",
    "more: an integer: 23",
    "more: a binary: 22",
    "more: a binary: 23",
    "more: an open quote: 22",
    "count: one more: 22",
    "count: one less: 22",
    "count: negative: 22",
    "count: over by a power of 2: 22",
    "count: hundreds of digits: 0",
    "count: hundreds of digits: 22",
    "count: none: 22",
    "count: blanks after it: 0",
    "count: minus zero: 0",
    "count: minus zero: 22",
    "count: an integer before it: 23",
    "count: a ~ after it: 22",
    "count: a tag after it: 23",
    "count: the text ends in it: 22",
    "count: zeros before it: 0",
    "between count and ~: a register: 22",
    "between count and ~: a store: 22",
    "between count and ~: a lone >: 22",
    "between count and ~: &: 22",
    "between count and ~: #: 22",
    "between count and ~: a list: 22",
    "between count and ~: an atom: 22",
    "between count and ~: int64: 22",
    "between count and ~: another tag: 22",
    "between count and ~: a tuple: 22",
    "between count and ~: {: 22",
    "between count and ~: }: 22",
    "between count and ~: a comma: 22",
    "between count and ~: ~: 22",
    "between count and ~: -: 22",
    "between count and ~: a string: 22",
    "between count and ~: a binary: 22",
    "integer 2^31-1, tags 0: 0",
    "integer 2^31, tags 0: 23",
    "integer -2^31, tags 0: 0",
    "integer -2^31-1, tags 0: 23",
    "integer 2^32+5, tags 0: 23",
    "integer -2^32+5, tags 0: 23",
    "integer 2^64+5, tags 0: 23",
    "integer 2^31-1, tags 1: 0",
    "integer 2^31, tags 1: 0",
    "integer 2^32+5, tags 1: 0",
    "integer 2^63-1, tags 1: 0",
    "integer 2^63, tags 1: 23",
    "integer -2^63, tags 1: 0",
    "integer -2^63-1, tags 1: 23",
    "integer 2^64-1, tags 1: 23",
    "integer 2^64+5, tags 1: 23",
    "integer -2^64+5, tags 1: 23",
    "integer 10^19, tags 1: 23",
    "integer 2^31-1, tags 2: 23",
    "integer over 19 digits, tags 0: 23",
    "integer over 19 digits, tags 1: 23",
    "integer 19 digits, tags 0: 23",
    "integer 19 digits, tags 1: 0",
    "wrong escape in a string: 22",
    "wrong escape in a name: 22",
    "wrong escape in an atom: 22",
    "wrong escape in a tag: 22",
    "wrong escape in a comment: 22",
    "ends: a byte after it: 22",
    "ends: more after it: 22",
    "ends: cut: 22",
    "ends: no tuple: 23",
    "ends: two tuples: 23",
    "ends: something after the tuple: 23",
    "ends: something before the tuple: 23",
    "ends: long blanks: 0",
    "nested: 23",
    "nested, not closed: 22",
    "23, and 22 behind it: 22",
    "row: 22",
    "row: 23",
    "damaged: 0",
    "damaged: 22",
    "damaged: 23",
];

/// The edges of a text that is one tuple of fields.
pub fn of_text(text: &[u8]) -> Vec<String> {
    let Some(fields) = items(text).and_then(|items| fields_of(&items)) else {
        return Vec::new();
    };
    let size = 8 + fields.iter().map(size_of).sum::<usize>();
    let names: BTreeSet<&[u8]> = fields.iter().map(|field| &field.name[..]).collect();
    let wrong_name = !fields.iter().all(|field| notice::name_right(&field.name));
    let too_long = fields.iter().any(|field| field.value.len() > 1024);
    let again = names.len() < fields.len();
    let no_room = fields.len() > MOST_FIELDS || size > MOST_NOTICE;
    let order = met([
        (wrong_name && too_long, "13 before 16"),
        (wrong_name && again, "13 before 14"),
        (wrong_name && no_room, "13 before 15"),
        (!wrong_name && too_long && again, "16 before 14"),
        (!wrong_name && too_long && no_room, "16 before 15"),
        (!wrong_name && !too_long && again && no_room, "14 before 15"),
    ]);
    let alone = match [wrong_name, too_long, again, no_room]
        .iter()
        .filter(|wrong| **wrong)
        .count()
    {
        0 | 1 => of_fields(&fields, size),
        _ => Vec::new(),
    };
    let again = match (again, wrong_name || too_long) {
        (true, false) => of_names_again(&fields),
        _ => Vec::new(),
    };
    [order, alone, again].concat()
}

/// The bytes of a field in a notice.
fn size_of(field: &Field) -> usize {
    5 + field.name.len() + field.value.len()
}

/// The edges of fields of which one thing at most is refused.
fn of_fields(fields: &[Field], size: usize) -> Vec<String> {
    let name = |is: &dyn Fn(&[u8]) -> bool| fields.iter().any(|field| is(&field.name));
    let value = |kind: u16, size: usize| {
        fields
            .iter()
            .any(|field| field.kind == kind && field.value.len() == size)
    };
    let rising = fields.windows(2).all(|two| two[0].name < two[1].name);
    let two = |is: &dyn Fn(&[u8], &[u8]) -> bool| {
        name(&|one| name(&|other| one != other && is(one, other)))
    };
    let escaped = |field: &Field| field.value.iter().all(|byte| b"\"\\".contains(byte));
    let counts = met([
        (fields.is_empty(), "no field"),
        (fields.len() == 64, "64 fields"),
        (fields.len() == 65, "65 fields"),
        (fields.len() > 65, "over 65 fields"),
        (fields.len() > 1 && rising, "names rising"),
        (fields.len() > 1 && !rising, "names not rising"),
        (size == 16384, "16,384 bytes"),
        (size == 16385, "16,385 bytes"),
    ]);
    let names = met([
        (name(&|name| name.len() == 1), "a name of 1"),
        (name(&|name| name.len() == 64), "a name of 64"),
        (name(&|name| name.len() == 65), "a name of 65"),
        (name(&|name| name.is_empty()), "a name of 0"),
        (name(&|name| name.contains(&31)), "a name with byte 31"),
        (name(&|name| name.contains(&32)), "a name with byte 32"),
        (name(&|name| name.contains(&126)), "a name with byte 126"),
        (name(&|name| name.contains(&127)), "a name with byte 127"),
        (name(&|name| name.contains(&255)), "a name with byte 255"),
        (name(&is_escaped), "a name with an escape"),
        (
            two(&|one, other| one.len() == 64 && other.len() == 64 && one[..63] == other[..63]),
            "two names alike to their last byte of 64",
        ),
        (
            two(&|one, other| one.starts_with(other)),
            "a name that goes on after another",
        ),
    ]);
    let values = met([
        (value(1, 4), "int32"),
        (value(2, 8), "int64"),
        (value(4, 0), "a string of 0"),
        (value(4, 1024), "a string of 1,024"),
        (
            fields
                .iter()
                .any(|field| field.kind == 4 && field.value.len() == 1024 && escaped(field)),
            "a string of 1,024, all escaped",
        ),
        (value(4, 1025), "a string of 1,025"),
        (value(5, 0), "an opaque of 0"),
        (value(5, 1024), "an opaque of 1,024"),
        (value(5, 1025), "an opaque of 1,025"),
    ]);
    [counts, names, values].concat()
}

fn is_escaped(bytes: &[u8]) -> bool {
    bytes.iter().any(|byte| b"\"\\".contains(byte))
}

/// The edges of fields whose names are right and repeated.
fn of_names_again(fields: &[Field]) -> Vec<String> {
    let again: Vec<&[u8]> = fields
        .iter()
        .enumerate()
        .filter(|(at, field)| fields[..*at].iter().any(|before| before.name == field.name))
        .map(|(_, field)| &field.name[..])
        .collect();
    let ends = fields.len() > 2 && fields[0].name == fields[fields.len() - 1].name;
    met([
        (!again.is_empty(), "again"),
        (
            again.iter().any(|name| is_escaped(name)),
            "again, with an escape",
        ),
        (fields.len() > MOST_FIELDS, "again, of over 64"),
        (ends, "again, the first and the last"),
    ])
}

/// The edges of a buffer for a result of that size.
pub fn of_room(call: &str, number: u8, size: usize, room: usize) -> Option<String> {
    let edge = match room {
        _ if number != 0 => {
            return (room > MOST_NOTICE).then(|| format!("{call}: {number} with room"))
        }
        _ if room == size => "room to the byte",
        _ if room + 1 == size => "a byte too few",
        _ if room > size => "more room",
        _ => return None,
    };
    Some(format!("{call}: {edge}"))
}

/// The edges of a notice that is written.
pub fn of_notice(bytes: &[u8]) -> Vec<String> {
    let fields = match notice::fields(bytes) {
        Ok(fields) => fields,
        Err(place) => return met([(place > 0, "write: 11 with a place")]),
    };
    let real = |field: &notice::Field| field.kind == 3;
    let last =
        fields.last().is_some_and(real) && fields.iter().filter(|field| real(field)).count() == 1;
    let written = !fields.iter().any(real);
    let name = |field: &notice::Field| is_escaped(&bytes[field.name.clone()]);
    let string = |field: &notice::Field| field.kind == 4 && is_escaped(&bytes[field.value.clone()]);
    met([
        (
            written && fields.iter().any(name),
            "write: an escape in a name",
        ),
        (
            written && fields.iter().any(string),
            "write: an escape in a string",
        ),
        (last && fields.len() > 1, "write: real64 the last"),
        (fields.is_empty(), "write: no field"),
    ])
}

#[cfg(test)]
mod tests {
    use super::*;

    fn met_by(text: &[u8], edge: &str) -> bool {
        of_text(text).contains(&edge.to_string())
    }

    #[test]
    fn edges_of_texts() {
        assert!(met_by(b"{}$", "no field"));
        assert!(met_by(b"{\"b\"1\"a\"1}$", "names not rising"));
        assert!(met_by(
            b"{\"a\"1\"ab\"1}$",
            "a name that goes on after another"
        ));
        assert!(met_by(b"{\"\\\"\"1\"\\\"\"1}$", "again, with an escape"));
        assert!(met_by(b"{\"\"1\"a\"1\"a\"1}$", "13 before 14"));
        assert!(!met_by(b"{\"a\"1\"a\"1}$", "13 before 14"));
        assert!(of_text(b"{\"a\"1").is_empty());
        assert!(of_text(b"{\"a\"}$").is_empty());
        let many: Vec<u8> = (0..65)
            .flat_map(|at| format!("\"{at}\"1").into_bytes())
            .collect();
        assert!(met_by(&[b"{", &many[..], b"}$"].concat(), "65 fields"));
        assert!(met_by(
            &[b"{", &many[..], b"\"7\"1}$"].concat(),
            "again, of over 64"
        ));
        assert!(met_by(
            &[b"{", &many[..], b"\"7\"1}$"].concat(),
            "14 before 15"
        ));
    }

    #[test]
    fn edges_of_rooms() {
        let of = |number, size, room| of_room("read", number, size, room);
        assert_eq!(of(0, 20, 19), Some("read: a byte too few".into()));
        assert_eq!(of(0, 20, 20), Some("read: room to the byte".into()));
        assert_eq!(of(0, 20, 0), None);
        assert_eq!(of(15, 0, 16384), None);
        assert_eq!(of(15, 0, 16385), Some("read: 15 with room".into()));
    }
}
