//! Tables: those of texts, made by hand of random entries, and damaged ones.

use crate::about::{self, About};
use crate::pattern_cases::Maker as PatternMaker;
use crate::random::Random;
use crate::{editions, patterns, regexes, texts, words};
use reference::op::{Op, OPS};
use reference::Edition;

/// A table before it is laid out; ops need not be known ones.
#[derive(Default)]
pub struct Draft {
    pub entries: Vec<(u16, u16, u64)>,
    pub pool: Vec<u8>,
}

/// Any table, to be run on the notice.
pub fn table(random: &mut Random, about: &About) -> Vec<u8> {
    let edition = editions::any(random);
    match random.below(10) {
        0 => {
            let length = random.below(60);
            random.bytes(length)
        }
        1 | 2 => {
            let mut table = translated(random, about);
            damage_bytes(random, &mut table);
            table
        }
        3..=5 => {
            let mut draft = made(random, about);
            damage(random, &mut draft);
            laid_out(edition, &draft)
        }
        6 => translated(random, about),
        _ => laid_out(edition, &made(random, about)),
    }
}

/// A table that passes the check: of a text.
pub fn translated(random: &mut Random, about: &About) -> Vec<u8> {
    let (edition, text) = (editions::any(random), texts::valid(random, about));
    reference::compile::table_of(edition.number(), &text)
        .unwrap_or_else(|_| laid_out(edition, &made(random, about)))
}

/// The draft's bytes, as a table of the edition.
pub fn laid_out(edition: Edition, draft: &Draft) -> Vec<u8> {
    let length = 6 + 12 * draft.entries.len() + draft.pool.len();
    let mut table = (length as u32).to_le_bytes().to_vec();
    table.extend(edition.kind().to_le_bytes());
    table.extend((draft.entries.len() as u16).to_le_bytes());
    table.extend((draft.pool.len() as u16).to_le_bytes());
    for (op, a, b) in &draft.entries {
        table.extend(op.to_le_bytes());
        table.extend(a.to_le_bytes());
        table.extend(b.to_le_bytes());
    }
    table.extend(&draft.pool);
    table
}

/// A pool in which names and strings lie over one another.
fn pool(random: &mut Random, names: &[Vec<u8>]) -> Vec<u8> {
    let mut pool = names.concat();
    for _ in 0..random.between(1, 6) {
        pool.extend(words::text(random));
    }
    if random.once_in(30) {
        pool.resize(random.pick(&[4095, 4096, 4097]), b'p');
    }
    pool
}

/// Makes entries that keep the check: on the stack logic slots lie below values, since no op takes
/// values under a logic slot.
struct Maker<'a> {
    random: &'a mut Random,
    draft: Draft,
    /// Names that lie in the pool.
    names: Vec<Vec<u8>>,
    logic: usize,
    values: usize,
    /// Skips that have no landing yet, each with the slots it was met with.
    open: Vec<(usize, usize)>,
}

/// A table by hand, most often one that passes the check.
fn made(random: &mut Random, about: &About) -> Draft {
    let (length, padded) = match random.below(12) {
        0 => (random.between(300, 460), random.between(510, 514)),
        1 | 2 => (random.between(60, 200), 0),
        _ => (random.between(1, 24), 0),
    };
    let names: Vec<Vec<u8>> = (0..8).map(|_| about::name(random, about)).collect();
    let draft = Draft {
        entries: Vec::new(),
        pool: pool(random, &names),
    };
    let mut maker = Maker {
        random,
        draft,
        names,
        logic: 0,
        values: 0,
        open: Vec::new(),
    };
    if maker.random.once_in(10) {
        let deep = maker.random.between(30, 33);
        (0..deep).for_each(|_| maker.push());
    }
    while maker.draft.entries.len() < length {
        maker.any();
    }
    maker.finish();
    while maker.draft.entries.len() < padded {
        maker.put(Op::Not, 0, 0);
    }
    maker.draft
}

impl Maker<'_> {
    fn put(&mut self, op: Op, a: u16, b: u64) {
        self.draft.entries.push((op.code(), a, b));
    }

    /// One more entry, of those that the stack allows.
    fn any(&mut self) {
        let depth = self.logic + self.values;
        match self.random.below(8) {
            0..=2 if self.values == 0 && self.logic > 3 => self.join_logic(),
            0..=2 if depth < 32 => self.push(),
            3 if self.values > 1 => self.binary(),
            4 if self.values > 0 => self.unary(),
            5 if self.values > 0 => self.make_logic(),
            6 if self.values == 0 && self.logic > 0 => self.skip(),
            7 if self.values == 0 && self.logic > 0 => self.on_logic(),
            _ if depth < 32 => self.push(),
            _ => self.lower(),
        }
        self.land();
    }

    /// One slot fewer, or values turned to logic.
    fn lower(&mut self) {
        if self.values > 2 {
            self.binary();
        } else if self.values > 0 {
            self.make_logic();
        } else {
            self.join_logic();
        }
    }

    /// Ops 1..5.
    fn push(&mut self) {
        let (a, b) = self.part();
        match self.random.below(8) {
            0 | 1 => {
                let value = i64::from(words::short_whole(self.random));
                self.put(Op::Int32, 0, value as u64);
            }
            2 => {
                let value = words::whole(self.random);
                self.put(Op::Int64, 0, value as u64);
            }
            3 => {
                let value = words::real(self.random);
                self.put(Op::Real64, 0, value);
            }
            4 => self.put(Op::Text, a, b),
            _ => self.named(),
        }
        self.values += 1;
    }

    /// A part of the pool.
    fn part(&mut self) -> (u16, u64) {
        let start = self.random.below(self.draft.pool.len() + 1);
        let most =
            (self.draft.pool.len() - start).min(if self.random.once_in(20) { 4096 } else { 6 });
        (self.random.between(0, most) as u16, start as u64)
    }

    /// One of the names in the pool; now and then a string or any part as a name.
    fn named(&mut self) {
        let (a, b) = self.part();
        match self.random.below(24) {
            0 => self.put(Op::Name, a, b),
            1..=5 => self.put(Op::Text, a, b),
            _ => {
                let at = self.random.below(self.names.len());
                let start = self.names[..at].concat().len();
                let length = self.names[at].len();
                self.put(Op::Name, length as u16, start as u64);
            }
        }
    }

    /// Ops 16..26.
    fn binary(&mut self) {
        let op = self.random.pick(&OPS[8..19]);
        self.put(op, 0, 0);
        self.values -= 1;
    }

    /// Ops 6..8.
    fn unary(&mut self) {
        let op = self.random.pick(&OPS[5..8]);
        self.put(op, 0, 0);
    }

    /// All values on the stack to one logic slot: ops 32..37, 48..54, 56..61.
    fn make_logic(&mut self) {
        while self.values > 9 {
            self.binary();
        }
        if self.values == 1 && self.logic < 24 && self.random.once_in(6) {
            return self.fit_patterns();
        }
        let last = match self.values {
            1 => self.random.pick(&OPS[31..38]),
            2 if self.random.once_in(2) => self.random.pick(&OPS[19..25]),
            _ => self.random.pick(&OPS[38..42]),
        };
        let a = if self.values > 1 && last.code() >= Op::Begins.code() {
            self.values - 1
        } else {
            0
        };
        self.put(last, a as u16, 0);
        self.values = 0;
        self.logic += 1;
    }

    /// Ops 60 and 61: the one value on the stack and patterns, which stand in the pool for themselves if it has
    /// room.
    fn fit_patterns(&mut self) {
        let (op, well_formed): (Op, PatternMaker) = match self.random.below(2) {
            0 => (Op::Wildcard, patterns::well_formed),
            _ => (Op::Regex, regexes::well_formed),
        };
        let count = self.random.pick(&[1, 1, 2, 8]);
        for _ in 0..count {
            let text = words::text(self.random);
            let mut pattern = well_formed(self.random, &text);
            if self.draft.pool.len() + pattern.len() > reference::MOST_POOL {
                pattern = b"p".to_vec();
            }
            let held = self.draft.pool.windows(pattern.len().max(1));
            let at = held.into_iter().position(|part| part == pattern);
            let start = at.unwrap_or(self.draft.pool.len());
            if at.is_none() {
                self.draft.pool.extend(&pattern);
            }
            self.put(Op::Text, pattern.len() as u16, start as u64);
        }
        self.put(op, count, 0);
        self.values = 0;
        self.logic += 1;
    }

    fn on_logic(&mut self) {
        if self.logic > 1 && !self.random.once_in(3) {
            self.join_logic();
        } else {
            self.put(Op::Not, 0, 0);
        }
    }

    fn join_logic(&mut self) {
        let op = self.random.pick(&[Op::And, Op::Xor, Op::Or]);
        self.put(op, 0, 0);
        self.logic -= 1;
    }

    /// A skip whose landing is found later.
    fn skip(&mut self) {
        let op = self.random.pick(&[Op::SkipFalse, Op::SkipTrue]);
        self.open.push((self.draft.entries.len(), self.logic));
        self.put(op, 0, 0);
    }

    /// Lets an open skip land here, if the slots are those it was met with.
    fn land(&mut self) {
        let (values, logic) = (self.values, self.logic);
        let fits = |(_, met): &(usize, usize)| values == 0 && logic == *met;
        let Some(at) = self.open.iter().rposition(fits) else {
            return;
        };
        let passed = self.draft.entries.len() - self.open[at].0 - 1;
        if passed > 0 && self.random.once_in(2) {
            let (entry, _) = self.open.remove(at);
            self.draft.entries[entry].1 = passed as u16;
        }
    }

    /// Brings the stack to one logic slot. A skip that never landed becomes a `!`.
    fn finish(&mut self) {
        if self.logic + self.values == 0 {
            self.push();
        }
        while self.values > 0 || self.logic > 1 {
            self.lower();
            self.land();
        }
        for (entry, _) in &self.open {
            self.draft.entries[*entry].0 = Op::Not.code();
        }
    }
}

/// Some fields of some entries changed, entries left out or swapped.
fn damage(random: &mut Random, draft: &mut Draft) {
    for _ in 0..random.between(1, 2) {
        let count = draft.entries.len();
        let at = random.below(count);
        match random.below(8) {
            0 => draft.entries[at].0 = random.between(0, 63) as u16,
            1 => draft.entries[at].0 = random.pick(&OPS).code(),
            2 => draft.entries[at].1 = random.pick(&[0, 1, 2, 8, 9, 64, 65, 512, 65535]),
            3 => draft.entries[at].1 = draft.entries[at].1.wrapping_add(random.pick(&[1, 65535])),
            4 => {
                draft.entries[at].2 =
                    random.pick(&[1, 1 << 31, 1 << 32, 1 << 63, u64::MAX, u64::MAX - 1])
            }
            5 if count > 1 => drop(draft.entries.remove(at)),
            6 => {
                let other = random.below(count);
                draft.entries.swap(at, other);
            }
            _ => draft.pool.truncate(draft.pool.len() / 2),
        }
    }
}

/// Bytes of a table changed, cut off or added.
fn damage_bytes(random: &mut Random, table: &mut Vec<u8>) {
    let header = random.once_in(3);
    let at = random.below(if header { 10 } else { table.len() });
    match random.below(6) {
        0 => table.truncate(at),
        1 => table.push(0),
        2 => table[at] = random.byte(),
        3 => table[at] = table[at].wrapping_add(1),
        _ => table[at] ^= 1 << random.below(8),
    }
}
