//! The kind of case `store` (document 02, request 12): tables added, removed and fetched by number, and notices
//! matched, one call after the other, on stores made empty, on any bytes and on states laid out by hand; each
//! answer, every byte of the buffer and its guards, what a plain list of 64 places answers, and each verdict byte
//! beside the fetch and run of that table alone.

use crate::cases::{patterned, same, Case, Hex, Outcome, GUARD};
use crate::random::Random;
use crate::{find, many, notices, store_edges, stores};
use reference::store::{self, Places, FREE, PLACES};

/// A lent buffer between its guards; the plain list of what was added since it was made empty, as long as nobody
/// else has written to it; and the numbers removed since then.
struct Lent {
    bytes: Vec<u8>,
    plain: Option<Places>,
    freed: Vec<usize>,
}

impl Lent {
    fn of(bytes: Vec<u8>) -> Lent {
        Lent {
            bytes,
            plain: None,
            freed: Vec::new(),
        }
    }

    fn end(&self) -> usize {
        self.bytes.len() - GUARD
    }

    fn store(&self) -> &[u8] {
        &self.bytes[GUARD..self.end()]
    }

    fn store_mut(&mut self) -> &mut [u8] {
        let end = self.end();
        &mut self.bytes[GUARD..end]
    }

    /// "26 .. never for what calls from an empty store left"; "fetch answers as a plain list of 64 places does",
    /// and so do the other calls.
    fn as_plain<T: PartialEq + std::fmt::Debug>(
        &self,
        call: &str,
        library: T,
        plain: Option<T>,
    ) -> Outcome {
        match plain {
            Some(plain) => same(
                &format!("{call}; the reference is a plain list of 64 places"),
                &[("store", self.store())],
                library,
                plain,
            ),
            None => Ok(()),
        }
    }
}

/// How a case goes on: the share of adds, whether tables are made to fill the buffer, and whether others write.
#[derive(Clone, Copy)]
struct Habit {
    adds: usize,
    exact: bool,
    rough: bool,
}

/// Adds until 64 tables are held.
const FILLING: Habit = Habit {
    adds: 80,
    exact: false,
    rough: false,
};

/// What a case has at hand.
struct Hand {
    notice: Vec<u8>,
    stock: Vec<Vec<u8>>,
    habit: Habit,
}

fn hand(random: &mut Random) -> Hand {
    let notice = match random.below(8) {
        0 => virentolex::raw::EMPTY_NOTICE.to_vec(),
        1 => notices::valid(random),
        _ => notices::well_formed(random),
    };
    let habit = Habit {
        adds: random.pick(&[4, 8]),
        exact: random.once_in(2),
        rough: random.once_in(3),
    };
    Hand {
        stock: stores::stock(random, &notice),
        notice,
        habit,
    }
}

/// A buffer of so many bytes is given few calls.
const LARGE: usize = 20_000;

impl Case<'_> {
    /// Calls from an empty store, or on a state laid out by hand.
    pub fn store(&mut self) -> Outcome {
        let mut hand = hand(&mut self.random);
        let mut lent = match self.random.below(6) {
            0 | 1 => self.lent_by_hand(&hand),
            2 => self.filled(&mut hand)?,
            _ => self.made_empty(&hand)?,
        };
        let calls = self.random.pick(match lent.bytes.len() {
            ..LARGE => &[2, 6, 12, 30],
            _ => &[2, 8, 20, 30],
        });
        for _ in 0..calls {
            self.any_call(&mut lent, &hand)?;
        }
        for number in (0..=PLACES).chain([usize::MAX]) {
            self.fetching(&lent, number)?;
        }
        self.matching(&lent, &hand.notice, PLACES)
    }

    /// A store made empty, now and then bytes that nobody has made one.
    fn made_empty(&mut self, hand: &Hand) -> Result<Lent, String> {
        let random = &mut self.random;
        let room = stores::room(random, &hand.stock);
        let mut lent = Lent::of(patterned(room, random.below(256)));
        if !self.random.once_in(20) {
            self.making(&mut lent)?;
        }
        Ok(lent)
    }

    /// A store that is given tables until it holds 64, or nearly.
    fn filled(&mut self, hand: &mut Hand) -> Result<Lent, String> {
        let random = &mut self.random;
        let room = stores::room_for_all(random, &hand.stock);
        let mut lent = Lent::of(patterned(room, random.below(256)));
        let habit = std::mem::replace(&mut hand.habit, FILLING);
        self.making(&mut lent)?;
        for _ in 0..self.random.between(80, 120) {
            self.any_call(&mut lent, hand)?;
        }
        hand.habit = habit;
        Ok(lent)
    }

    /// A state laid out by hand.
    fn lent_by_hand(&mut self, hand: &Hand) -> Lent {
        let random = &mut self.random;
        let (state, fault) = stores::state(random, &hand.stock);
        let mut bytes = patterned(state.len(), random.below(256));
        bytes[GUARD..GUARD + state.len()].copy_from_slice(&state);
        self.count("store", store_edges::of_state(&state, fault));
        Lent::of(bytes)
    }

    /// One call of any sort, or bytes that others write.
    fn any_call(&mut self, lent: &mut Lent, hand: &Hand) -> Outcome {
        let broken = store::records(lent.store()).is_none();
        let random = &mut self.random;
        let number = stores::number(random, lent.store());
        match random.below(hand.habit.adds + 8) {
            0..=2 => self.removing(lent, number),
            3 | 4 => self.fetching(lent, number),
            5 => self.any_match(lent, &hand.notice),
            6 if random.once_in(if broken { 2 } else { 6 }) => self.making(lent),
            7 if hand.habit.rough => {
                lent.plain = None;
                stores::damage(random, lent.store_mut());
                Ok(())
            }
            _ => {
                let table = stores::table(random, lent.store(), &hand.stock, hand.habit.exact);
                self.adding(lent, &table)
            }
        }
    }

    /// A match, now and then of a notice that is broken, with verdict buffers of each size.
    fn any_match(&mut self, lent: &Lent, notice: &[u8]) -> Outcome {
        let random = &mut self.random;
        let more = random.between(1, 80);
        let less = random.below(PLACES);
        let room = random.pick(&[PLACES, PLACES, PLACES + more, PLACES - 1, 0, less]);
        if random.once_in(3) {
            let broken = find::broken(random, notice.to_vec());
            return self.matching(lent, &broken, room);
        }
        self.matching(lent, notice, room)
    }

    /// "make it empty"; the whole buffer and its guards are compared.
    fn making(&mut self, lent: &mut Lent) -> Outcome {
        let end = lent.end();
        let before = lent.store().to_vec();
        let mut meant = lent.bytes.clone();
        let library = virentolex::raw::store_make(lent.store_mut());
        let reference = store::make(&mut meant[GUARD..end]);
        self.tally.count("store make", reference);
        self.count("store", store_edges::of_make(&before));
        if reference == 0 {
            lent.plain = Some(Places::empty());
            lent.freed.clear();
        }
        same(
            "store_make: number, bytes after with guards",
            &[("store", &before)],
            (library, Hex(lent.bytes.clone())),
            (reference, Hex(meant)),
        )
    }

    /// "add a table and get the lowest free number 0..63"; the whole buffer and its guards are compared.
    fn adding(&mut self, lent: &mut Lent, table: &[u8]) -> Outcome {
        let (end, before) = (lent.end(), lent.store().to_vec());
        let mut meant = lent.bytes.clone();
        let library = virentolex::raw::store_add(lent.store_mut(), table);
        let library = (library.number, library.id);
        let reference = store::add(&mut meant[GUARD..end], table);
        self.tally.count("store add", reference.number);
        self.count("store", store_edges::of_add(&before, table));
        same(
            "store_add: number, the table's number, bytes after with guards",
            &[("store", &before), ("table", table)],
            (library, Hex(lent.bytes.clone())),
            ((reference.number, reference.id), Hex(meant)),
        )?;
        let plain = lent.plain.as_mut().map(|plain| {
            let added = plain.add(table, before.len());
            added.map_or_else(|number| (number, PLACES), |id| (0, id))
        });
        lent.as_plain("store_add: number, the table's number", library, plain)
    }

    /// "remove by number"; the whole buffer and its guards are compared.
    fn removing(&mut self, lent: &mut Lent, number: usize) -> Outcome {
        let (end, before) = (lent.end(), lent.store().to_vec());
        let mut meant = lent.bytes.clone();
        let library = virentolex::raw::store_remove(lent.store_mut(), number);
        let reference = store::remove(&mut meant[GUARD..end], number);
        self.tally.count("store remove", reference);
        let freed = lent.freed.contains(&number);
        self.count("store", store_edges::of_remove(&before, number, freed));
        same(
            &format!("store_remove {number}: number, bytes after with guards"),
            &[("store", &before)],
            (library, Hex(lent.bytes.clone())),
            (reference, Hex(meant)),
        )?;
        lent.freed.push(number);
        let plain = lent.plain.as_mut();
        let plain = plain.map(|plain| plain.remove(number).err().unwrap_or(0));
        lent.as_plain(&format!("store_remove {number}"), library, plain)
    }

    /// "fetch by number as a part of the buffer": where the part lies.
    fn fetching(&mut self, lent: &Lent, number: usize) -> Outcome {
        let buffer = lent.store();
        let library = virentolex::raw::store_fetch(buffer, number);
        let start = library.table.as_ptr() as usize - buffer.as_ptr() as usize;
        let reference = store::fetch(buffer, number);
        self.tally.count("store fetch", reference.0);
        let freed = lent.freed.contains(&number);
        self.count("store", store_edges::of_fetch(buffer, number, freed));
        same(
            &format!("store_fetch {number}: number, where the table lies"),
            &[("store", buffer)],
            (library.number, start..start + library.table.len()),
            reference,
        )?;
        let plain = lent.plain.as_ref().map(|plain| match plain.fetch(number) {
            Ok(table) => (0, Hex(table.to_vec())),
            Err(number) => (number, Hex(Vec::new())),
        });
        let library = (library.number, Hex(library.table.to_vec()));
        lent.as_plain(
            &format!("store_fetch {number}: number, table"),
            library,
            plain,
        )
    }

    /// Every held table on a notice; the whole verdict buffer and its guards are compared.
    fn matching(&mut self, lent: &Lent, notice: &[u8], room: usize) -> Outcome {
        let buffer = lent.store();
        let mut verdicts = patterned(room, self.random.below(256));
        let mut meant = verdicts.clone();
        let library =
            virentolex::raw::store_match(buffer, notice, &mut verdicts[GUARD..GUARD + room]);
        let reference = store::match_store(buffer, notice, &mut meant[GUARD..GUARD + room]);
        self.tally.count("store match", reference.0);
        let written = &meant[GUARD..GUARD + room];
        self.count("store", store_edges::of_match(buffer, notice, written));
        let bytes = verdicts[GUARD..GUARD + room].to_vec();
        same(
            &format!("store_match, buffer of {room} bytes within guards of {GUARD}: number, place, bytes after"),
            &[("store", buffer), ("notice", notice)],
            ((library.number, library.place), Hex(verdicts)),
            (reference, Hex(meant)),
        )?;
        match library.number {
            0 => one_by_one(buffer, notice, &bytes[..PLACES]),
            _ => Ok(()),
        }
    }
}

/// A match equals fetching and running one by one, of the library.
fn one_by_one(buffer: &[u8], notice: &[u8], verdicts: &[u8]) -> Outcome {
    let alone = (0..PLACES).map(|number| {
        let fetched = virentolex::raw::store_fetch(buffer, number);
        match fetched.number {
            0 => many::byte_of(virentolex::raw::run(fetched.table, notice)),
            _ => FREE,
        }
    });
    same(
        "store_match: verdict bytes; the reference is the library's own fetch and run, number by number",
        &[("store", buffer), ("notice", notice)],
        Hex(verdicts.to_vec()),
        Hex(alone.collect()),
    )
}

#[cfg(test)]
mod tests {
    use super::*;
    use crate::tally::Tally;
    use reference::compile::table_of;

    /// Each call on each of the buffers.
    fn each(buffers: impl Iterator<Item = Vec<u8>>) {
        let mut case = Case {
            random: Random::of_case(1, 1),
            tally: &mut Tally::default(),
            program: "",
        };
        let table = table_of(1, b"1 == 1").unwrap();
        for buffer in buffers {
            let mut bytes = patterned(buffer.len(), 0);
            bytes[GUARD..GUARD + buffer.len()].copy_from_slice(&buffer);
            let fresh = || Lent::of(bytes.clone());
            for number in [0, 2, 63, 64] {
                assert_eq!(case.fetching(&fresh(), number), Ok(()));
                assert_eq!(case.removing(&mut fresh(), number), Ok(()));
            }
            assert_eq!(case.adding(&mut fresh(), &table), Ok(()));
            let notice = &virentolex::raw::EMPTY_NOTICE;
            assert_eq!(case.matching(&fresh(), notice, PLACES), Ok(()));
        }
    }

    /// Three records and room for another, some bytes of the tables left out.
    fn three() -> Vec<u8> {
        let held = store::laid(&[(2, b"ab"), (63, b""), (0, b"c")]);
        [&held[..], &[1; 52]].concat()
    }

    /// Any byte of a store, and of what lies behind it, changed to any other.
    #[test]
    fn every_byte_of_a_store() {
        let store = three();
        each((0..store.len()).flat_map(|at| {
            let changed = |byte: u8| [&store[..at], &[byte], &store[at + 1..]].concat();
            (0..=255).map(changed).collect::<Vec<_>>()
        }));
    }

    /// The store's start and a record's head with any two words in them.
    #[test]
    fn every_pair_of_near_words() {
        let store = three();
        let words: Vec<u16> = (0..40)
            .chain([255, 256, 257, 318, 319, 320, 65_535])
            .collect();
        let put = |store: &mut Vec<u8>, at: usize, word: u16| {
            store[at..at + 2].copy_from_slice(&word.to_le_bytes());
        };
        for (left, right) in [(0, 6), (6, 8), (8, 10), (8, 14), (14, 16)] {
            each(words.iter().flat_map(|first| {
                let changed = |second: &u16| {
                    let mut store = store.clone();
                    put(&mut store, left, *first);
                    put(&mut store, right, *second);
                    store
                };
                words.iter().map(changed).collect::<Vec<_>>()
            }));
        }
    }

    /// A store in buffers that end anywhere.
    #[test]
    fn every_length_of_a_buffer() {
        let store = three();
        each((0..=store.len()).map(|end| store[..end].to_vec()));
    }
}
