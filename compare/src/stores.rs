//! Stores of tables: the tables that go into them, buffers of each size, and states laid out by hand, right ones
//! and ones with one fault.

use crate::about::About;
use crate::random::Random;
use crate::tables::{self, Draft};
use crate::texts::damaged;
use reference::op::Op;
use reference::store::{self, FIRST, HEAD, KIND, MOST_STORE, PLACES, RECORD};
use reference::Edition;

/// The least and the most bytes of a table that `sized` makes.
pub const SIZES: std::ops::RangeInclusive<usize> = 46..=10_250;

/// A table of that size which passes the check: `1 == 1`, negated as often as there is room for it, and a pool.
pub fn sized(size: usize) -> Vec<u8> {
    let rest = size - SIZES.start();
    let spare = rest.saturating_sub(4096).div_ceil(12);
    let mut entries = vec![
        (Op::Int32.code(), 0, 1),
        (Op::Int32.code(), 0, 1),
        (Op::Equal.code(), 0, 0),
    ];
    entries.resize(3 + spare, (Op::Not.code(), 0, 0));
    let pool = vec![b'p'; rest - 12 * spare];
    tables::laid_out(Edition::First, &Draft { entries, pool })
}

/// Tables about the notice that pass the check.
pub fn stock(random: &mut Random, notice: &[u8]) -> Vec<Vec<u8>> {
    let about = About::of(notice);
    let count = random.between(1, 6);
    let mut stock: Vec<Vec<u8>> = (0..count)
        .map(|_| tables::translated(random, &about))
        .collect();
    stock.push(sized(46 + random.below(40)));
    stock
}

fn any(random: &mut Random, stock: &[Vec<u8>]) -> Vec<u8> {
    stock[random.below(stock.len())].clone()
}

/// A buffer's length for some of the tables.
pub fn room(random: &mut Random, stock: &[Vec<u8>]) -> usize {
    match random.below(24) {
        0 => random.pick(&[0, 1, 7, MOST_STORE + 1, MOST_STORE + 1, MOST_STORE + 40]),
        1 => HEAD,
        2 | 3 => MOST_STORE,
        4 => random.between(8, 200),
        _ => {
            let count = random.pick(&[1, 1, 2, 3, 5, 8, 12]);
            room_for(random, stock, count)
        }
    }
}

/// A buffer's length for 64 of the tables, or nearly.
pub fn room_for_all(random: &mut Random, stock: &[Vec<u8>]) -> usize {
    let count = random.pick(&[63, 64, 64, 65, 70, 80]);
    room_for(random, stock, count)
}

/// A buffer's length for so many of the tables, now and then a byte less, or some more.
fn room_for(random: &mut Random, stock: &[Vec<u8>], count: usize) -> usize {
    let sizes = (0..count).map(|_| RECORD + any(random, stock).len());
    let sum = HEAD + sizes.sum::<usize>();
    let more = random.between(1, 60);
    let room = random.pick(&[sum, sum, sum + more, sum - 1]);
    room.min(MOST_STORE)
}

/// Where the bytes of a right store end.
fn end_of(store: &[u8]) -> usize {
    4 + u32::from_le_bytes([store[0], store[1], store[2], store[3]]) as usize
}

/// A table for the store: of the stock, or one that fails; `exact` for one that just fills the buffer, or is
/// one byte too long for it.
pub fn table(random: &mut Random, store: &[u8], stock: &[Vec<u8>], exact: bool) -> Vec<u8> {
    let left = match store::records(store) {
        Some(_) => (store.len() - end_of(store)).saturating_sub(RECORD),
        None => 0,
    };
    match random.below(12) {
        0 => tables::table(random, &About::nothing()),
        1 => {
            let table = any(random, stock);
            damaged(random, table)
        }
        2 if exact && SIZES.contains(&left) && left > 46 => sized(left - 1),
        2..=4 if exact && SIZES.contains(&left) => sized(left),
        5..=7 if exact && SIZES.contains(&(left + 1)) => sized(left + 1),
        2..=9 if exact && left > *SIZES.end() => {
            let most = *SIZES.end();
            sized(random.pick(&[most, most, most, most - 1, most / 2]))
        }
        _ => any(random, stock),
    }
}

/// The numbers that a store holds.
fn numbers(store: &[u8]) -> Vec<usize> {
    let records = store::records(store).unwrap_or_default();
    records.iter().map(|record| record.number).collect()
}

/// A number, most often one that is held; now and then one whose low bits alone are.
pub fn number(random: &mut Random, store: &[u8]) -> usize {
    let numbers = numbers(store);
    let held = match numbers.iter().max() {
        None => random.below(PLACES),
        Some(greatest) if random.once_in(6) => *greatest,
        Some(_) => random.pick(&numbers),
    };
    let above = [PLACES, 256, 65_536, 1 << 32, usize::MAX - 63];
    match random.below(10) {
        0 => random.below(PLACES),
        1 => random.pick(&[0, 63, 64, 65, 255, usize::MAX]),
        2 => random.pick(&above) + held,
        _ => held,
    }
}

/// What is wrong in a state, one thing alone.
pub const FAULTS: [&str; 22] = [
    "another kind",
    "a kind right in its low byte",
    "a length one too small",
    "a length one too large",
    "a length past the buffer by one",
    "a length that wraps with 4",
    "a length under 4",
    "a count one too small",
    "a count one too large",
    "a count right in its low byte",
    "a record of 2 bytes",
    "a record of 3 bytes",
    "a record past the store by one",
    "a record past the buffer",
    "1 to 3 bytes of a record",
    "a record's kind 255",
    "a record's kind 320",
    "a record's kind right in its low byte",
    "a number twice",
    "over 65,536 bytes",
    "7 bytes",
    "bytes behind the last record",
];

/// A right store's bytes, and behind them what is spare, before they are made a buffer.
struct Laid {
    store: Vec<u8>,
    spare: Vec<u8>,
    /// Where each record starts.
    starts: Vec<usize>,
}

impl Laid {
    fn of(tables: &[(usize, Vec<u8>)], spare: Vec<u8>) -> Laid {
        let lent: Vec<(usize, &[u8])> = tables.iter().map(|(n, t)| (*n, &t[..])).collect();
        let sizes = tables.iter().map(|(_, table)| RECORD + table.len());
        let starts = sizes.scan(HEAD, |at, size| {
            *at += size;
            Some(*at - size)
        });
        Laid {
            store: store::laid(&lent),
            spare,
            starts: starts.collect(),
        }
    }

    fn length(&mut self, change: i64) {
        let word = self.store.len() as i64 - 4 + change;
        self.store[..4].copy_from_slice(&(word as u32).to_le_bytes());
    }

    fn word(&mut self, at: usize, change: i32) {
        let word = i32::from(u16::from_le_bytes([self.store[at], self.store[at + 1]]));
        self.store[at..at + 2].copy_from_slice(&((word + change) as u16).to_le_bytes());
    }

    /// The last record's start, if there is a record.
    fn last(&self) -> Option<usize> {
        self.starts.last().copied()
    }

    fn buffer(self) -> Vec<u8> {
        [self.store, self.spare].concat()
    }

    /// Makes one thing wrong; false if this store cannot have that fault.
    fn spoil(&mut self, random: &mut Random, fault: &str) -> bool {
        match (fault, self.last()) {
            ("another kind", _) => self.store[4] = random.pick(&[0, 1, 2, 4, 5, 7, 255]),
            ("a kind right in its low byte", _) => self.store[5] = random.pick(&[1, 255]),
            ("a length one too small", _) => self.length(-1),
            ("a length one too large", _) => {
                self.spare.push(0);
                self.length(1);
            }
            ("a length past the buffer by one", Some(_)) => {
                self.store.pop();
                self.spare.clear();
            }
            ("a length that wraps with 4", _) => {
                self.store[..4].copy_from_slice(&random.pick(&[[252, 255, 255, 255], [255; 4]]));
            }
            ("a length under 4", None) => self.store[0] = random.below(4) as u8,
            ("a count one too small", Some(_)) => self.word(6, -1),
            ("a count one too large", _) => self.word(6, 1),
            ("a count right in its low byte", _) => self.store[7] = random.pick(&[1, 255]),
            ("a record past the store by one", Some(at)) => {
                self.spare.push(0);
                self.word(at, 1);
            }
            ("a record past the buffer", Some(at)) => {
                let more = self.spare.len() as i32;
                self.word(at, more + random.pick(&[1, 2, 300]));
            }
            ("1 to 3 bytes of a record", _) => self.begin_record(random),
            ("a record's kind 255", Some(_)) => self.kind(random, 255),
            ("a record's kind 320", Some(_)) => self.kind(random, 320),
            ("a record's kind right in its low byte", Some(_)) => {
                let at = self.starts[random.below(self.starts.len())];
                self.store[at + 3] = random.pick(&[0, 2, 255]);
            }
            ("a number twice", Some(at)) if self.starts.len() > 1 => {
                let other = self.starts[random.below(self.starts.len() - 1)];
                self.store.copy_within(other + 2..other + 4, at + 2);
            }
            ("over 65,536 bytes", _) => {
                let least = MOST_STORE + 1 - self.store.len();
                self.spare = vec![0; least + random.pick(&[0, 0, 1, 1000])];
            }
            ("7 bytes", None) => {
                self.store[0] = 3;
                self.store.truncate(7);
                self.spare.clear();
            }
            ("bytes behind the last record", _) => {
                let more = random.between(2, 40);
                self.length(more as i64);
                self.store.extend(random.bytes(more));
            }
            ("a record of 2 bytes", _) => self.put_short(&[[0, 0].to_vec(), laid_apart(256, 257)]),
            ("a record of 3 bytes", _) => {
                self.put_short(&[[1, 0, 0].to_vec(), laid_apart(257, 257)]);
            }
            _ => return false,
        }
        true
    }

    /// A record more, of which only 1 to 3 bytes are the store's.
    fn begin_record(&mut self, random: &mut Random) {
        let more = random.between(1, 3);
        let record = [2, 0, random.below(PLACES) as u8, 1];
        self.length(more as i64);
        self.word(6, 1);
        self.store.extend(&record[..more]);
        self.spare = [&record[more..], &self.spare].concat();
    }

    fn kind(&mut self, random: &mut Random, kind: u16) {
        let at = self.starts[random.below(self.starts.len())];
        self.store[at + 2..at + 4].copy_from_slice(&kind.to_le_bytes());
    }

    /// A store of two records alone, whose lengths are right but for the first being under 2. Taken for a
    /// record, its kind is the number that stands behind it.
    fn put_short(&mut self, records: &[Vec<u8>; 2]) {
        let records = records.concat();
        let mut store = (4 + records.len() as u32).to_le_bytes().to_vec();
        store.extend(KIND.to_le_bytes());
        store.extend([2, 0]);
        self.store = [store, records].concat();
        self.starts.clear();
    }
}

/// A record with that length word and kind.
fn laid_apart(length: u16, kind: u16) -> Vec<u8> {
    let mut record = [length.to_le_bytes(), kind.to_le_bytes()].concat();
    record.resize(2 + usize::from(length), 0);
    record
}

/// So many bytes are kept free for a fault, so that the buffer's size is none.
const MOST_SPOILED: usize = 400;

/// A buffer that begins with a store, most often one with a fault, and the fault.
pub fn state(random: &mut Random, stock: &[Vec<u8>]) -> (Vec<u8>, Option<&'static str>) {
    if random.once_in(3) {
        return (right(random, stock, MOST_STORE).buffer(), None);
    }
    let fault = random.pick(&FAULTS);
    let mut laid = right(random, stock, MOST_STORE - MOST_SPOILED);
    laid.spare.truncate(MOST_SPOILED / 2);
    if !laid.spoil(random, fault) {
        // it asks for a store without records, or with two
        let pair = [(5, any(random, stock)), (2, any(random, stock))];
        let others = [&pair[..], &[]].map(|tables| Laid::of(tables, laid.spare.clone()));
        let mut spoiled = others.into_iter().filter_map(|mut laid| {
            let spoiled = laid.spoil(random, fault);
            spoiled.then_some(laid)
        });
        laid = spoiled.next().expect("one of them can have the fault");
    }
    (laid.buffer(), Some(fault))
}

/// A right store, its numbers in any order, and spare bytes behind it, at most so many in all.
fn right(random: &mut Random, stock: &[Vec<u8>], most: usize) -> Laid {
    let mut numbers: Vec<usize> = (0..PLACES).collect();
    if !random.once_in(4) {
        random.shuffle(&mut numbers);
    }
    numbers.truncate(random.pick(&[0, 0, 1, 2, 3, 3, 5, 40, 63, 64, 64]));
    let mut left = most - HEAD;
    let mut tables = Vec::new();
    for number in numbers {
        let table = match random.below(10) {
            0 | 1 => Vec::new(),
            2 => {
                let size = random.below(30);
                random.bytes(size)
            }
            3 if random.once_in(8) => vec![0; random.between(10_251, 20_000)],
            _ => any(random, stock),
        };
        if table.len() + RECORD <= left {
            left -= table.len() + RECORD;
            tables.push((number, table));
        }
    }
    let spare = spare(random, stock, left);
    Laid::of(&tables, spare)
}

/// Bytes behind a store, at most so many: none, any, all that may be, or such as look like a record more.
fn spare(random: &mut Random, stock: &[Vec<u8>], most: usize) -> Vec<u8> {
    let size = random.below(80);
    let mut spare = match random.below(8) {
        0..=2 => Vec::new(),
        3 if random.once_in(3) => vec![0; most],
        3 | 4 => {
            let table = any(random, stock);
            let number = random.below(PLACES) as u16;
            let kind = (FIRST + number).to_le_bytes();
            let length = (2 + table.len() as u16).to_le_bytes();
            [&length[..], &kind, &table].concat()
        }
        _ => random.bytes(size),
    };
    spare.truncate(most);
    spare
}

/// Changes bytes of a store that others hold, those of its head and of its records' heads more often.
pub fn damage(random: &mut Random, store: &mut [u8]) {
    let records = store::records(store).unwrap_or_default();
    let heads: Vec<usize> = records.iter().map(|record| record.table.start).collect();
    if store.is_empty() {
        return;
    }
    let most = random.pick(&[8, store.len()]).min(store.len());
    let mut at = random.below(most);
    if let (false, true) = (heads.is_empty(), random.once_in(2)) {
        at = random.pick(&heads) - random.between(1, 4);
    }
    match random.below(3) {
        0 => store[at] = random.byte(),
        1 => store[at] = store[at].wrapping_add(random.pick(&[1, 255])),
        _ => store[at] ^= 1 << random.below(8),
    }
}

#[cfg(test)]
mod tests {
    use super::*;

    #[test]
    fn a_sized_table_passes() {
        for size in [46, 47, 4142, 4143, 4154, 4155, 10_249, 10_250] {
            let table = sized(size);
            assert_eq!((table.len(), reference::check(&table)), (size, 0));
        }
    }

    /// A state with a fault is refused, one without is not, and each fault occurs.
    #[test]
    fn faults_are_faults() {
        let mut random = Random::of_case(1, 1);
        let stock = [sized(46), sized(60)];
        let mut met = std::collections::BTreeSet::new();
        for _ in 0..20_000 {
            let (buffer, fault) = state(&mut random, &stock);
            met.extend(fault);
            let right = store::records(&buffer).is_some();
            assert_eq!(right, fault.is_none(), "{fault:?}");
        }
        assert_eq!(met.len(), FAULTS.len());
    }
}
