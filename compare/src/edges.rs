//! Which limits a case stands at, just inside or just over, for the tally.

use crate::notices::Field;
use reference::compile::{sizes, Entry};
use reference::grammar::deepest;
use reference::notice::fields;
use reference::op::Op;
use reference::tokens::tokens;
use std::collections::BTreeSet;

/// What must occur in a run of many cases.
pub const EDGES: [&str; 60] = [
    "text of 4096 bytes",
    "text of 4097 bytes",
    "text with 24 open",
    "text with 25 open",
    "text with 24 in a row",
    "text with 25 in a row",
    "text of 512 entries",
    "text of 513 entries",
    "text of 32 slots",
    "text of 33 slots",
    "table of 512 entries",
    "table of 513 entries",
    "table of 32 slots",
    "table of 33 slots",
    "table with a pool of 4096",
    "table with a pool of 4097",
    "notice of 16384 bytes",
    "notice of 16385 bytes",
    "table with a name of 64",
    "table with a name of 65",
    "table with op 56 of 8",
    "table with op 56 of 9",
    "table with op 57 of 8",
    "table with op 57 of 9",
    "table with op 58 of 8",
    "table with op 58 of 9",
    "table with op 59 of 8",
    "table with op 59 of 9",
    "table with op 60 of 8",
    "table with op 60 of 9",
    "notice of 64 fields",
    "notice of 65 fields",
    "notice with a name of 64",
    "notice with a name of 65",
    "notice with a string of 0",
    "notice with a string of 1024",
    "notice with a string of 1025",
    "notice with an opaque of 0",
    "notice with an opaque of 1024",
    "notice with an opaque of 1025",
    "write of field 64",
    "write of field 65",
    "write before 63 fields",
    "write behind 63 fields",
    "write to 16384 bytes",
    "write to 16385 bytes",
    "write with room to the byte",
    "write with a byte too few",
    "write with a name of 64",
    "write with a name of 65",
    "write with a string of 0",
    "write with a string of 1024",
    "write with a string of 1025",
    "write with an opaque of 0",
    "write with an opaque of 1024",
    "write with an opaque of 1025",
    "input over 65536 bytes",
    "input cut behind 65536 bytes",
    "input wrong behind 65536 bytes",
    "output over 65536 bytes",
];

/// The names of the edges that are met.
pub fn met<const N: usize>(edges: [(bool, &str); N]) -> Vec<String> {
    let those = edges.iter().filter(|(at, _)| *at);
    those.map(|(_, edge)| edge.to_string()).collect()
}

/// The name of an edge: a size at its limit or one over, between its words.
fn at_limit((before, size, after, limit): (&str, usize, &str, usize)) -> Option<String> {
    (size == limit || size == limit + 1).then(|| format!("{before} {size}{after}"))
}

/// The edges of a text.
pub fn of_text(text: &[u8]) -> Vec<String> {
    let (open, row) = tokens(text).map_or((0, 0), |tokens| deepest(&tokens));
    let (entries, slots) = sizes(text).unwrap_or((0, 0));
    let sizes = [
        ("text of", text.len(), " bytes", 4096),
        ("text with", open, " open", 24),
        ("text with", row, " in a row", 24),
        ("text of", entries, " entries", 512),
        ("text of", slots, " slots", 32),
    ];
    sizes.into_iter().filter_map(at_limit).collect()
}

/// The word of two bytes at the place, 0 if there is none.
pub fn word(bytes: &[u8], at: usize) -> usize {
    let two = bytes.get(at..at + 2);
    two.map_or(0, |two| usize::from(two[0]) + 256 * usize::from(two[1]))
}

/// The edges of a table whose length is right.
pub fn of_table(table: &[u8]) -> Vec<String> {
    let (count, pool) = (word(table, 6), word(table, 8));
    if table.len() != 10 + 12 * count + pool {
        return Vec::new();
    }
    let sizes = [
        ("table of", count, " entries", 512),
        ("table with a pool of", pool, "", 4096),
        ("table of", most_slots(table, count), " slots", 32),
    ];
    sizes.into_iter().filter_map(at_limit).collect()
}

/// The most slots that the entries hold, taken in order.
fn most_slots(table: &[u8], count: usize) -> usize {
    let (mut now, mut most) = (0, 0);
    for entry in (0..count).map_while(|at| reference::table::entry(table, 10 + 12 * at)) {
        now = usize::saturating_sub(now, reference::table::operands(&entry)) + 1;
        most = most.max(now);
    }
    most
}

/// The table with another `a` in an entry.
fn with_a(table: &[u8], entry: usize, a: u16) -> Vec<u8> {
    let mut table = table.to_vec();
    table[12 + 12 * entry..14 + 12 * entry].copy_from_slice(&a.to_le_bytes());
    table
}

/// The table without one of its entries.
fn without(table: &[u8], entry: usize) -> Vec<u8> {
    let mut table = table.to_vec();
    table.drain(10 + 12 * entry..22 + 12 * entry);
    let length = (table.len() - 4) as u32;
    table[..4].copy_from_slice(&length.to_le_bytes());
    let count = u16::from_le_bytes([table[6], table[7]]) - 1;
    table[6..8].copy_from_slice(&count.to_le_bytes());
    table
}

/// The edges of a table's names and counts of operands: each at its limit in a table that passes, or
/// one over in a table that would pass with one less.
pub fn of_entries(table: &[u8]) -> Vec<String> {
    let entries = (0..word(table, 6)).map_while(|at| reference::table::entry(table, 10 + 12 * at));
    let edge = |(at, entry): (usize, Entry)| {
        let (name, less) = match (entry.op.code(), entry.a) {
            (5, 64) => ("name of 64".to_string(), table.to_vec()),
            (5, 65) => ("name of 65".to_string(), with_a(table, at, 64)),
            (op @ 56..=60, 8) => (format!("op {op} of 8"), table.to_vec()),
            (op @ 56..=60, 9) if at > 0 => (
                format!("op {op} of 9"),
                without(&with_a(table, at, 8), at - 1),
            ),
            _ => return None,
        };
        (reference::check(&less) == 0).then(|| match entry.op {
            Op::Name => format!("table with a {name}"),
            _ => format!("table with {name}"),
        })
    };
    entries.enumerate().filter_map(edge).collect()
}

/// The edges of a notice, which is answered so.
pub fn of_notice(notice: &[u8], number: u8, place: usize) -> BTreeSet<String> {
    let count = notice.get(6).map_or(0, |count| usize::from(*count));
    let sizes = [
        ("notice of", notice.len(), " bytes", 16384),
        ("notice of", count, " fields", 64),
    ];
    let mut found: BTreeSet<String> = sizes.into_iter().filter_map(at_limit).collect();
    let mut within = |edges: Vec<String>| {
        found.extend(edges.iter().map(|edge| format!("notice with {edge}")));
    };
    for field in fields(notice).unwrap_or_default() {
        within(of_sizes(field.kind, field.name.len(), field.value.len()));
    }
    if number == 11 && place >= 8 {
        within(of_faulty(&notice[place..]));
    }
    found
}

/// The limit that a faulty field breaks by one.
fn of_faulty(field: &[u8]) -> Vec<String> {
    let name = field.get(4).map_or(0, |name| usize::from(*name));
    let value = word(field, 0).saturating_sub(3 + name);
    let mut found = of_sizes(word(field, 2) as u16, name, value);
    found.retain(|edge| edge.ends_with(" 65") || edge.ends_with(" 1025"));
    found
}

/// The limits that a field's name and value stand at.
fn of_sizes(kind: u16, name: usize, value: usize) -> Vec<String> {
    let mut found: Vec<String> = at_limit(("a name of", name, "", 64)).into_iter().collect();
    if kind == 4 || kind == 5 {
        let what = if kind == 4 {
            "a string of"
        } else {
            "an opaque of"
        };
        found.extend(at_limit((what, value, "", 1024)));
        found.extend((value == 0).then(|| format!("{what} 0")));
    }
    found
}

/// The edges of a write to the notice at the buffer's start, which is answered with the number: its
/// field goes in, or has its name and value alone against it, or 15.
pub fn of_write(buffer: usize, notice: &[u8], field: &Field, number: u8) -> Vec<String> {
    let names: Vec<&[u8]> = fields(notice).map_or(Vec::new(), |fields| {
        fields
            .into_iter()
            .map(|field| &notice[field.name])
            .collect()
    });
    let length = notice.len() + 5 + field.name.len() + field.value.len();
    let new_length = if buffer < length { 0 } else { length };
    let sizes = [
        ("write to", new_length, " bytes", 16384),
        ("write of field", names.len() + 1, "", 64),
    ];
    let mut found: Vec<String> = sizes.into_iter().filter_map(at_limit).collect();
    let whole = number == 0 && names.len() == 63;
    let places = [
        (
            whole && field.name[..] < *names[0],
            "write before 63 fields",
        ),
        (
            whole && field.name[..] > *names[62],
            "write behind 63 fields",
        ),
        (
            number == 0 && length == buffer,
            "write with room to the byte",
        ),
        (
            number == 15 && length == buffer + 1,
            "write with a byte too few",
        ),
    ];
    found.extend(met(places));
    let told = |edge: &String| match number {
        0 => true,
        13 => edge.ends_with(" 65"),
        16 => edge.ends_with(" 1025"),
        _ => false,
    };
    let sizes = of_sizes(field.kind, field.name.len(), field.value.len());
    found.extend(
        sizes
            .iter()
            .filter(|edge| told(edge))
            .map(|edge| format!("write with {edge}")),
    );
    found
}

/// The length of the record at the place, if its word is whole.
fn record_length(input: &[u8], at: usize) -> Option<usize> {
    let word = input.get(at..at + 4)?.try_into().ok()?;
    Some(u32::from_le_bytes(word) as usize)
}

/// Where the records of an input end: at its end, at one that is cut, or at one of a wrong length.
fn records_end(input: &[u8]) -> usize {
    let mut at = 0;
    while let Some(length @ 2..=16380) = record_length(input, at) {
        if input.len() - at < 4 + length {
            break;
        }
        at += 4 + length;
    }
    at
}

/// The edges of an input of the program, whose buffers for input and output have 65,536 bytes.
pub fn of_input(input: &[u8], printed: &[u8]) -> Vec<String> {
    let end = records_end(input);
    let wrong = record_length(input, end).is_some_and(|length| !(2..=16380).contains(&length));
    let over = end > 65536;
    let edges = [
        (over, "input over 65536 bytes"),
        (
            over && end < input.len() && !wrong,
            "input cut behind 65536 bytes",
        ),
        (over && wrong, "input wrong behind 65536 bytes"),
        (printed.len() > 65536, "output over 65536 bytes"),
    ];
    met(edges)
}

#[cfg(test)]
mod tests {
    use super::*;
    use crate::notices::rendered;

    fn field(name: &[u8], kind: u16, value: usize) -> Field {
        Field {
            name: name.to_vec(),
            kind,
            value: vec![b'v'; value],
        }
    }

    fn notice_edges(field: Field) -> Vec<String> {
        let notice = rendered(&[field]);
        let (number, place) = reference::check_notice(&notice);
        of_notice(&notice, number, place).into_iter().collect()
    }

    #[test]
    fn edges_of_notices() {
        assert_eq!(
            notice_edges(field(b"a", 4, 1024)),
            ["notice with a string of 1024"]
        );
        assert_eq!(
            notice_edges(field(b"a", 5, 1025)),
            ["notice with an opaque of 1025"]
        );
        assert_eq!(
            notice_edges(field(&[b'n'; 64], 1, 4)),
            ["notice with a name of 64"]
        );
        assert_eq!(
            notice_edges(field(&[b'n'; 65], 4, 1024)),
            ["notice with a name of 65"]
        );
        assert!(notice_edges(field(b"a", 1, 1025)).is_empty());
    }

    #[test]
    fn edges_of_writes() {
        let mut fields: Vec<Field> = (10..73)
            .map(|at| field(format!("f{at}").as_bytes(), 4, 1))
            .collect();
        let notice = rendered(&fields);
        let edges = |field: &Field, number| of_write(17000, &notice, field, number);
        assert_eq!(
            edges(&field(b"g", 5, 1), 0),
            ["write of field 64", "write behind 63 fields"]
        );
        assert_eq!(
            edges(&field(b"g", 5, 1025), 16),
            ["write of field 64", "write with an opaque of 1025"]
        );
        assert_eq!(edges(&field(b"g", 5, 1025), 11), ["write of field 64"]);
        fields.truncate(1);
        let length = rendered(&fields).len();
        let exact = of_write(length + 7, &rendered(&fields), &field(b"a", 4, 1), 0);
        assert_eq!(exact, ["write with room to the byte"]);
    }

    #[test]
    fn edges_of_entries() {
        let text = |count: usize| format!("equals(a{})", ",1".repeat(count));
        let table = reference::compile::table_of(1, text(8).as_bytes()).unwrap();
        assert_eq!(of_entries(&table), ["table with op 59 of 8"]);
        let entry = table[22..34].to_vec();
        let mut over = with_a(&table, 9, 9);
        over.splice(22..22, entry);
        over[0] += 12;
        over[6] += 1;
        assert_eq!(of_entries(&over), ["table with op 59 of 9"]);
        assert_eq!(without(&with_a(&over, 10, 8), 1), table);
        over[8] += 1;
        assert!(of_entries(&over).is_empty());
    }

    #[test]
    fn edges_of_inputs() {
        let record = [&16380u32.to_le_bytes()[..], &[9; 16380]].concat();
        let five = record.repeat(5);
        assert_eq!(of_input(&five, b""), ["input over 65536 bytes"]);
        let cut = &five[..five.len() - 1];
        assert_eq!(of_input(cut, b""), Vec::<String>::new());
        let cut = [&five[..], &[1]].concat();
        assert_eq!(of_input(&cut, b"")[1..], ["input cut behind 65536 bytes"]);
        let wrong = [&five[..], &[1, 0, 0, 0]].concat();
        assert_eq!(
            of_input(&wrong, b"")[1..],
            ["input wrong behind 65536 bytes"]
        );
        assert_eq!(of_input(b"", &[0; 65537]), ["output over 65536 bytes"]);
    }
}
