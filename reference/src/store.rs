//! Document 02, request 12: "Subscriptions come and go". Words in quotes are that request's, or those of
//! docs/FORMATS.md, "Store", where it is said.
//!
//! What is answered follows from `Places`, "a plain list of 64 places" beside the buffer's length; the bytes
//! of a lent buffer are read and laid out apart from it.

use crate::many::byte_of;
use crate::notice::check_notice;
use crate::table::check;
use crate::word;
use std::ops::Range;

/// "the lowest free number 0..63"; what a refused add answers as number.
pub const PLACES: usize = 64;
/// "a buffer over 64 KiB or under 8 bytes"
pub const MOST_STORE: usize = 65_536;
pub const HEAD: usize = 8;
/// "plus 4 bytes for each of these"
pub const RECORD: usize = 4;
/// docs/FORMATS.md: the store's kind, and that of the record with number 0.
pub const KIND: u16 = 6;
pub const FIRST: u16 = 256;
/// The byte of a free place in what a match writes.
pub const FREE: u8 = 4;

/// "a plain list of 64 places"
#[derive(Clone, PartialEq, Eq, Debug)]
pub struct Places(Vec<Option<Vec<u8>>>);

impl Places {
    pub fn empty() -> Places {
        Places(vec![None; PLACES])
    }

    /// The tables held.
    pub fn held(&self) -> impl Iterator<Item = &Vec<u8>> {
        self.0.iter().flatten()
    }

    /// "the tables held, plus the new one, plus 4 bytes for each of these, the new one too, and 8 for the
    /// store"
    pub fn room_with(&self, table: &[u8]) -> usize {
        let sizes = self.held().map(|table| table.len() + RECORD);
        sizes.sum::<usize>() + table.len() + RECORD + HEAD
    }

    /// "add a table and get the lowest free number 0..63"; "for add 12, 27 for 64 held, 28 for room".
    pub fn add(&mut self, table: &[u8], buffer: usize) -> Result<usize, u8> {
        if check(table) != 0 {
            return Err(12);
        }
        let free = self.0.iter().position(Option::is_none).ok_or(27)?;
        // "an add is refused for room exactly if .. exceed the buffer"
        if self.room_with(table) > buffer {
            return Err(28);
        }
        self.0[free] = Some(table.to_vec());
        Ok(free)
    }

    /// "remove by number"; "29 for a number not held".
    pub fn remove(&mut self, number: usize) -> Result<(), u8> {
        let place = self.0.get_mut(number).ok_or(29)?;
        place.take().map(|_| ()).ok_or(29)
    }

    /// "fetch by number"; "29 for a number not held".
    pub fn fetch(&self, number: usize) -> Result<&[u8], u8> {
        self.0.get(number).and_then(Option::as_deref).ok_or(29)
    }
}

/// A table that a store holds, and where its bytes lie.
#[derive(Clone, PartialEq, Eq, Debug)]
pub struct Record {
    pub number: usize,
    pub table: Range<usize>,
}

/// The records of a buffer in their order; none for "bytes that break that layout" and for "a buffer over 64
/// KiB or under 8 bytes". docs/FORMATS.md: a u32, the length of all after it, the kind, the count of records;
/// each of these a u16, the length of all after it, a u16, 256 and its number, and the table; no number twice.
pub fn records(buffer: &[u8]) -> Option<Vec<Record>> {
    if !size_right(buffer) {
        return None;
    }
    let whole = buffer.get(..4 + word(buffer, 0, 4)? as usize)?;
    if word(whole, 4, 2)? != u64::from(KIND) {
        return None;
    }
    let mut records: Vec<Record> = Vec::new();
    let mut at = HEAD;
    for _ in 0..word(whole, 6, 2)? {
        let end = at + 2 + word(whole, at, 2)? as usize;
        let number = word(whole, at + 2, 2)?.checked_sub(FIRST.into())? as usize;
        let twice = records.iter().any(|record| record.number == number);
        if end < at + RECORD || end > whole.len() || number >= PLACES || twice {
            return None;
        }
        let table = at + RECORD..end;
        records.push(Record { number, table });
        at = end;
    }
    (at == whole.len()).then_some(records)
}

/// "26 .. for a buffer over 64 KiB or under 8 bytes"
fn size_right(buffer: &[u8]) -> bool {
    (HEAD..=MOST_STORE).contains(&buffer.len())
}

/// The places that records fill.
pub fn places(buffer: &[u8], records: &[Record]) -> Places {
    let mut places = Places::empty();
    for record in records {
        places.0[record.number] = Some(buffer[record.table.clone()].to_vec());
    }
    places
}

/// A store's bytes with these tables, each after its number, one record close behind the other.
pub fn laid(tables: &[(usize, &[u8])]) -> Vec<u8> {
    let mut bytes = vec![0; 4];
    bytes.extend(KIND.to_le_bytes());
    bytes.extend((tables.len() as u16).to_le_bytes());
    for (number, table) in tables {
        bytes.extend((2 + table.len() as u16).to_le_bytes());
        bytes.extend((FIRST + *number as u16).to_le_bytes());
        bytes.extend(*table);
    }
    let length = bytes.len() as u32 - 4;
    bytes[..4].copy_from_slice(&length.to_le_bytes());
    bytes
}

/// Puts a store at the buffer's start; docs/FORMATS.md: what lies after it stays.
fn put(buffer: &mut [u8], tables: &[(usize, &[u8])]) {
    let bytes = laid(tables);
    buffer[..bytes.len()].copy_from_slice(&bytes);
}

/// "make it empty": 26 for the buffer's size, "not when making it empty" for its bytes.
pub fn make(buffer: &mut [u8]) -> u8 {
    if !size_right(buffer) {
        return 26;
    }
    put(buffer, &[]);
    0
}

/// The number, and that of the table: "Refused, add answers 64".
#[derive(Clone, Copy, PartialEq, Eq, Debug)]
pub struct Added {
    pub number: u8,
    pub id: usize,
}

/// "add a table and get the lowest free number 0..63": 26, "then for add 12, 27 for 64 held, 28 for room".
pub fn add(buffer: &mut [u8], table: &[u8]) -> Added {
    let refused = |number| Added { number, id: PLACES };
    let Some(records) = records(buffer) else {
        return refused(26);
    };
    match places(buffer, &records).add(table, buffer.len()) {
        Err(number) => refused(number),
        Ok(id) => {
            let before = buffer.to_vec();
            let mut tables = held(&before, &records);
            tables.push((id, table));
            put(buffer, &tables);
            Added { number: 0, id }
        }
    }
}

/// Each record's number and table.
fn held<'a>(buffer: &'a [u8], records: &[Record]) -> Vec<(usize, &'a [u8])> {
    let one = |record: &Record| (record.number, &buffer[record.table.clone()]);
    records.iter().map(one).collect()
}

/// "remove by number": 26, then "29 for a number not held".
pub fn remove(buffer: &mut [u8], number: usize) -> u8 {
    let Some(records) = records(buffer) else {
        return 26;
    };
    if let Err(refusal) = places(buffer, &records).remove(number) {
        return refusal;
    }
    let before = buffer.to_vec();
    let mut tables = held(&before, &records);
    tables.retain(|(held, _)| *held != number);
    put(buffer, &tables);
    0
}

/// "fetch by number as a part of the buffer": 26, then "29 for a number not held"; "Refused, .. fetch an
/// empty part", from 0 to 0.
pub fn fetch(buffer: &[u8], number: usize) -> (u8, Range<usize>) {
    let Some(records) = records(buffer) else {
        return (26, 0..0);
    };
    match records.into_iter().find(|record| record.number == number) {
        Some(record) => (0, record.table),
        None => (29, 0..0),
    }
}

/// Every held table on a notice, one byte for each number: request 8's "0 false, 1 true, 2 bottom, 3 table
/// refused", and 4 for a free place. 26, then 11 with its place, then 9 for under 64 bytes of verdicts. "the
/// same as calling one by one": fetched, and run. The number and the place.
pub fn match_store(buffer: &[u8], notice: &[u8], verdicts: &mut [u8]) -> (u8, usize) {
    if records(buffer).is_none() {
        return (26, 0);
    }
    let (number, place) = check_notice(notice);
    if number != 0 {
        return (number, place);
    }
    if verdicts.len() < PLACES {
        return (9, 0);
    }
    for (number, byte) in verdicts[..PLACES].iter_mut().enumerate() {
        *byte = match fetch(buffer, number) {
            (0, table) => byte_of(&buffer[table], notice),
            _ => FREE,
        };
    }
    (0, 0)
}

#[cfg(test)]
mod tests {
    use super::*;
    use crate::compile::table_of;
    use crate::notice::examples::{E, OP42};

    /// An empty store in a buffer of that length of sevens.
    fn store(length: usize) -> Vec<u8> {
        let mut buffer = vec![7; length];
        assert_eq!(make(&mut buffer), 0);
        buffer
    }

    fn added(buffer: &mut [u8], table: &[u8]) -> (u8, usize) {
        let added = add(buffer, table);
        (added.number, added.id)
    }

    #[test]
    fn the_bytes_of_a_store() {
        let table = table_of(1, b"Op == 42").unwrap();
        let mut buffer = store(70);
        assert_eq!(buffer[..8], [4, 0, 0, 0, 6, 0, 0, 0]);
        assert_eq!(buffer[8..], [7; 62]);
        assert_eq!(added(&mut buffer, &table), (0, 0));
        assert_eq!(buffer[..12], [56, 0, 0, 0, 6, 0, 1, 0, 50, 0, 0, 1]);
        assert_eq!(buffer[12..60], table);
        assert_eq!(buffer[60..], [7; 10]);
        assert_eq!(fetch(&buffer, 0), (0, 12..60));
        assert_eq!(remove(&mut buffer, 0), 0);
        // what lies after a store stays
        assert_eq!(buffer[..8], [4, 0, 0, 0, 6, 0, 0, 0]);
        assert_eq!(buffer[12..60], table);
    }

    #[test]
    fn the_lowest_free_number() {
        let tables = [&b"Op == 1"[..], b"Op == 22", b"Op < 3 && a > 4"];
        let tables = tables.map(|text| table_of(1, text).unwrap());
        let mut buffer = store(1000);
        for (id, table) in tables.iter().enumerate() {
            assert_eq!(added(&mut buffer, table), (0, id));
        }
        assert_eq!((remove(&mut buffer, 0), remove(&mut buffer, 1)), (0, 0));
        assert_eq!((remove(&mut buffer, 1), fetch(&buffer, 1).0), (29, 29));
        assert_eq!(fetch(&buffer, 2), (0, 12..12 + tables[2].len()));
        assert_eq!(added(&mut buffer, &tables[1]), (0, 0));
        let (number, part) = fetch(&buffer, 0);
        assert_eq!((number, &buffer[part.clone()]), (0, &tables[1][..]));
        assert_eq!(part.start, 12 + tables[2].len() + 4);
        for number in [1, 63, 64, 256, usize::MAX] {
            assert_eq!(fetch(&buffer, number), (29, 0..0));
        }
    }

    #[test]
    fn refusals_of_an_add_in_their_order() {
        let table = table_of(1, b"1 == 1").unwrap();
        let size = 8 + 64 * (4 + table.len());
        let mut buffer = store(size);
        for id in 0..64 {
            assert_eq!(added(&mut buffer[..size], &table), (0, id));
        }
        assert_eq!(added(&mut buffer, &table[1..]), (12, 64));
        assert_eq!(added(&mut buffer, &table), (27, 64));
        buffer[4] = 5;
        assert_eq!(added(&mut buffer, &table[1..]), (26, 64));
        let mut buffer = store(size - 1);
        for id in 0..63 {
            assert_eq!(added(&mut buffer, &table), (0, id));
        }
        let before = buffer.clone();
        assert_eq!(added(&mut buffer, &table), (28, 64));
        assert_eq!(buffer, before);
        assert_eq!(remove(&mut buffer, 17), 0);
        assert_eq!(added(&mut buffer, &table), (0, 17));
    }

    #[test]
    fn sizes_of_buffers() {
        for size in [0, 7, 65_537] {
            let mut buffer = vec![0; size];
            assert_eq!(make(&mut buffer), 26);
            assert_eq!(buffer, vec![0; size]);
        }
        for size in [8, 65_536] {
            assert_eq!(records(&store(size)), Some(Vec::new()));
        }
        let mut long = store(65_536);
        long.push(0);
        assert_eq!(remove(&mut long, 0), 26);
    }

    #[test]
    fn what_breaks_the_layout() {
        let right = laid(&[(3, b"abc"), (0, b""), (63, b"d")]);
        let numbers = |bytes: &[u8]| {
            let of = |records: Vec<Record>| records.iter().map(|one| one.number).collect();
            records(bytes).map(of)
        };
        assert_eq!(numbers(&right), Some(vec![3, 0, 63]));
        assert_eq!(numbers(&[&right[..], &[9]].concat()), Some(vec![3, 0, 63]));
        assert_eq!(numbers(&right[..right.len() - 1]), None);
        // the store's length, kind, count; a record's length under 2, past the end; a number twice, 64, under 0
        let changes = [
            (0, 22),
            (0, 24),
            (4, 5),
            (5, 1),
            (6, 2),
            (6, 4),
            (7, 1),
            (15, 1),
            (15, 0),
            (19, 6),
            (10, 0),
            (21, 64),
            (22, 0),
            (22, 2),
        ];
        for (at, byte) in changes {
            let mut changed = right.clone();
            assert_ne!(changed[at], byte);
            changed[at] = byte;
            assert_eq!(numbers(&changed), None, "{at}");
        }
        let mut moved = right.clone();
        moved[10] = 5;
        assert_eq!(numbers(&moved), Some(vec![5, 0, 63]));
    }

    #[test]
    fn held_tables_on_a_notice() {
        let (yes, no) = (
            table_of(1, b"Op == 42").unwrap(),
            table_of(1, b"Op < 42").unwrap(),
        );
        let bytes = laid(&[(63, &yes), (1, &no), (7, b"abc")]);
        let mut verdicts = vec![9; 66];
        assert_eq!(match_store(&bytes, &OP42, &mut verdicts), (0, 0));
        let mut meant = vec![4; 64];
        (meant[63], meant[1], meant[7]) = (1, 0, 3);
        assert_eq!(verdicts, [&meant[..], &[9, 9]].concat());
        assert_eq!(match_store(&bytes, &E, &mut verdicts), (0, 0));
        assert_eq!((verdicts[63], verdicts[1], verdicts[7]), (2, 2, 3));
        let mut short = [9; 63];
        let mut cut = OP42;
        cut[8] = 8;
        assert_eq!(match_store(&bytes[1..], &cut, &mut short), (26, 0));
        assert_eq!(match_store(&bytes, &cut, &mut short), (11, 8));
        assert_eq!(match_store(&bytes, &OP42, &mut short), (9, 0));
        assert_eq!(short, [9; 63]);
    }
}
