//! Document 02, request 14: "Mend notices from the old consoles". Words in quotes are that request's.

use crate::notice::{field, notice_bytes};
use crate::{word, MOST_FIELDS, MOST_NOTICE};
use std::collections::BTreeMap;
use std::ops::Range;

/// "from offset 8"
pub const HEAD: usize = 8;
/// "3 bytes a field, u16 offset and one byte 0..4"
pub const LISTED: usize = 3;

/// "one of: kept, moved, repeated, bad, cut", "0..4 in the order above"
#[derive(Clone, Copy, PartialEq, Eq, PartialOrd, Ord, Debug)]
pub enum Fate {
    Kept,
    Moved,
    Repeated,
    Bad,
    Cut,
}

/// "It lists per field its offset and one of".
pub type Listed = (usize, Fate);

/// What the tool makes of the bytes: the list, and the fields of the result by their names.
pub struct Mended<'a> {
    pub list: Vec<Listed>,
    pub kept: BTreeMap<&'a [u8], &'a [u8]>,
}

/// "goes field by field by the length words from offset 8": where each field lies, the last perhaps cut.
/// "A field length that passes the end, or a single byte left, is cut and ends the work."
fn walk(bytes: &[u8]) -> Vec<(Range<usize>, bool)> {
    let mut all = Vec::new();
    let mut at = HEAD;
    while at < bytes.len() {
        let length = word(bytes, at, 2).map(|length| at + 2 + length as usize);
        let end = length.filter(|end| *end <= bytes.len());
        all.push((at..end.unwrap_or(bytes.len()), end.is_none()));
        at = end.unwrap_or(bytes.len());
    }
    all
}

/// The whole tool, but for its limits. "The header's words are not believed."
pub fn mended(bytes: &[u8]) -> Mended<'_> {
    let mut mended = Mended {
        list: Vec::new(),
        kept: BTreeMap::new(),
    };
    for (part, cut) in walk(bytes) {
        let fate = match cut {
            true => Fate::Cut,
            false => mended.judged(&bytes[part.clone()]),
        };
        mended.list.push((part.start, fate));
    }
    mended
}

impl<'a> Mended<'a> {
    /// A field that is not cut: "keeps each field that is right by itself and whose name was not kept before".
    fn judged(&mut self, whole: &'a [u8]) -> Fate {
        // "A field not right by itself is bad, whatever its name."
        let Some(field) = field(whole, 0) else {
            return Fate::Bad;
        };
        let name = &whole[field.name];
        if self.kept.contains_key(name) {
            return Fate::Repeated;
        }
        // "Moved means kept, but with a greater name kept before it."
        let greater = self.kept.keys().any(|before| *before > name);
        self.kept.insert(name, whole);
        match greater {
            true => Fate::Moved,
            false => Fate::Kept,
        }
    }

    /// "Kept and moved fields are exactly those of the result, bytes and all.", as "a well-formed notice"
    pub fn notice(&self) -> Vec<u8> {
        let fields: Vec<&[u8]> = self.kept.values().copied().collect();
        notice_bytes(fields.len(), &fields)
    }

    /// "a lent buffer of 3 bytes a field, u16 offset and one byte 0..4 in the order above"
    pub fn list_bytes(&self) -> Vec<u8> {
        let entry = |(offset, fate): &Listed| {
            let [low, high] = (*offset as u16).to_le_bytes();
            [low, high, *fate as u8]
        };
        self.list.iter().flat_map(entry).collect()
    }
}

/// "It answers number, place, the notice's length and the count of fields listed, the last two 0 if refused."
#[derive(Clone, Copy, PartialEq, Eq, Debug)]
pub struct Mending {
    pub number: u8,
    pub place: usize,
    pub length: usize,
    pub fields: usize,
}

/// "bytes past it and past the notice stay"; of a refusal "nothing is written then"
pub fn mend(bytes: &[u8], list: &mut [u8], notice: &mut [u8]) -> Mending {
    match results(bytes, list.len(), notice.len()) {
        Err(number) => Mending {
            number,
            place: 0,
            length: 0,
            fields: 0,
        },
        Ok((listed, mended)) => {
            list[..listed.len()].copy_from_slice(&listed);
            notice[..mended.len()].copy_from_slice(&mended);
            Mending {
                number: 0,
                place: 0,
                length: mended.len(),
                fields: listed.len() / LISTED,
            }
        }
    }
}

/// The list and the notice, or the first refusal: "30 for under 8 bytes, then 10 for over 16,384, then 15 if 65
/// fields would be kept, then 9 if either lent buffer is short".
fn results(bytes: &[u8], list: usize, notice: usize) -> Result<(Vec<u8>, Vec<u8>), u8> {
    if bytes.len() < HEAD {
        return Err(30);
    }
    if bytes.len() > MOST_NOTICE {
        return Err(10);
    }
    let mended = mended(bytes);
    if mended.kept.len() > MOST_FIELDS {
        return Err(15);
    }
    let (listed, result) = (mended.list_bytes(), mended.notice());
    match listed.len() <= list && result.len() <= notice {
        true => Ok((listed, result)),
        false => Err(9),
    }
}

#[cfg(test)]
mod tests {
    use super::*;
    use crate::notice::examples::{E, OP42};
    use crate::notice::{check_notice, field_bytes};

    /// Some header, and the parts behind it.
    fn behind(parts: &[&[u8]]) -> Vec<u8> {
        [&[255, 0, 7, 7, 9, 9, 65, 0][..], &parts.concat()].concat()
    }

    /// The fates in the order of the list, and the result.
    fn fates(bytes: &[u8]) -> (Vec<Fate>, Vec<u8>) {
        let mended = mended(bytes);
        let fates = mended.list.iter().map(|(_, fate)| *fate).collect();
        (fates, mended.notice())
    }

    #[test]
    fn one_field_of_each_fate() {
        let [b, a, c] = [b"b", b"a", b"c"].map(|name| field_bytes(name, 4, b""));
        let again = field_bytes(b"b", 5, b"other");
        let bad = field_bytes(b"b", 9, b"");
        let bytes = behind(&[&bad, &b, &a, &again, &c, &[4]]);
        let mended = mended(&bytes);
        let meant = [
            (8, Fate::Bad),
            (14, Fate::Kept),
            (20, Fate::Moved),
            (26, Fate::Repeated),
            (37, Fate::Kept),
            (43, Fate::Cut),
        ];
        assert_eq!(mended.list, meant);
        assert_eq!(mended.notice(), notice_bytes(3, &[&a, &b, &c]));
        assert_eq!(
            mended.list_bytes(),
            [8, 0, 3, 14, 0, 0, 20, 0, 1, 26, 0, 2, 37, 0, 0, 43, 0, 4]
        );
    }

    #[test]
    fn short_lengths_are_bad_and_the_walk_goes_on() {
        let a = field_bytes(b"a", 4, b"");
        for short in [&[0, 0][..], &[1, 0, 4], &[2, 0, 4, 0], &[3, 0, 4, 0, 0]] {
            let met = fates(&behind(&[short, &a]));
            let meant = (vec![Fate::Bad, Fate::Kept], notice_bytes(1, &[&a]));
            assert_eq!(met, meant);
        }
        // a name length that passes its field, though not the end
        let long = [4, 0, 4, 0, 2, b'a'];
        assert_eq!(fates(&behind(&[&long, &a])).0, [Fate::Bad, Fate::Kept]);
    }

    #[test]
    fn what_passes_the_end_is_cut() {
        let a = field_bytes(b"a", 1, b"four");
        for end in 1..a.len() {
            let met = fates(&behind(&[&a, &a[..end]]));
            assert_eq!(met.0, [Fate::Kept, Fate::Cut]);
        }
        assert_eq!(fates(&behind(&[&[255, 255]])).0, [Fate::Cut]);
        assert_eq!(fates(&behind(&[&[0]])).0, [Fate::Cut]);
    }

    #[test]
    fn a_well_formed_notice_comes_out_the_same() {
        for notice in [&E[..], &OP42] {
            let (fates, result) = fates(notice);
            assert_eq!(result, notice);
            assert!(fates.iter().all(|fate| *fate == Fate::Kept));
        }
    }

    /// The answer, and both buffers afterwards.
    fn called(bytes: &[u8], list: usize, notice: usize) -> (u8, usize, usize, Vec<u8>, Vec<u8>) {
        let (mut list, mut notice) = (vec![0xAA; list], vec![0xBB; notice]);
        let answer = mend(bytes, &mut list, &mut notice);
        assert_eq!(answer.place, 0);
        (answer.number, answer.length, answer.fields, list, notice)
    }

    #[test]
    fn refusals_in_their_order() {
        let refused = |bytes: &[u8], list, notice, number| {
            let meant = (number, 0, 0, vec![0xAA; list], vec![0xBB; notice]);
            assert_eq!(called(bytes, list, notice), meant);
        };
        refused(&OP42[..7], 0, 0, 30);
        refused(&vec![0; 16_385], 0, 0, 10);
        refused(&vec![0; 16_384], 3 * 8188 - 1, 8, 9);
        refused(&OP42, 2, 19, 9);
        refused(&OP42, 3, 18, 9);
        let all: Vec<Vec<u8>> = (10..75)
            .map(|at: u8| field_bytes(&[b'n', at + 30], 4, b""))
            .collect();
        let all: Vec<&[u8]> = all.iter().map(Vec::as_slice).collect();
        refused(&behind(&all), 0, 0, 15);
        let (number, length, fields, ..) = called(&behind(&all[1..]), 192, 456);
        assert_eq!((number, length, fields), (0, 456, 64));
        // the 65th only repeats
        let repeated = behind(&[&all[1..], &all[1..2]].concat());
        assert_eq!(called(&repeated, 195, 456).2, 65);
    }

    #[test]
    fn bytes_past_both_results_stay() {
        let (number, length, fields, list, notice) = called(&OP42, 5, 21);
        assert_eq!((number, length, fields), (0, 19, 1));
        assert_eq!(list, [8, 0, 0, 0xAA, 0xAA]);
        assert_eq!(notice, [&OP42[..], &[0xBB; 2]].concat());
        assert_eq!(check_notice(&notice[..length]), (0, 0));
    }
}
