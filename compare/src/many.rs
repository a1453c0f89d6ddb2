//! The kind of case `many` (document 02, request 8): tables end to end on one notice, with verdict buffers
//! of several sizes; each answer, every byte of the buffer and its guards, and each verdict byte beside the
//! run of that table alone.

use crate::about::About;
use crate::cases::{patterned, same, Case, Hex, Outcome, GUARD};
use crate::random::Random;
use crate::{editions, find, many_edges, notices, tables};
use reference::many::{parts, Many};

/// So many tables are laid end to end, the remainder counted.
const COUNTS: [usize; 16] = [0, 1, 2, 2, 5, 8, 40, 63, 64, 64, 64, 64, 64, 65, 65, 100];

/// Words that pass the end of any bytes here; with 4 more, some do not fit into 32 bits.
const PAST: [u32; 8] = [
    1 << 20,
    1 << 24,
    (1 << 31) - 1,
    1 << 31,
    u32::MAX - 4,
    u32::MAX - 3,
    u32::MAX - 1,
    u32::MAX,
];

/// A well-formed notice, with any number of fields.
fn notice(random: &mut Random) -> Vec<u8> {
    match random.below(8) {
        0 => virentolex::raw::EMPTY_NOTICE.to_vec(),
        1 => notices::valid(random),
        2 => notices::wide(random),
        _ => notices::well_formed(random),
    }
}

/// Tables about the notice that pass the check.
fn stock(random: &mut Random, notice: &[u8]) -> Vec<Vec<u8>> {
    let about = About::of(notice);
    let count = random.between(1, 6);
    (0..count)
        .map(|_| tables::translated(random, &about))
        .collect()
}

fn any(random: &mut Random, stock: &[Vec<u8>]) -> Vec<u8> {
    stock[random.below(stock.len())].clone()
}

/// The bytes with another length word; there are four of them at least.
fn with_word(mut bytes: Vec<u8>, word: u32) -> Vec<u8> {
    bytes[..4].copy_from_slice(&word.to_le_bytes());
    bytes
}

/// One table, whose length word is right: most often one of the stock, else one that is refused, or nearly.
fn piece(random: &mut Random, stock: &[Vec<u8>]) -> Vec<u8> {
    let mut table = any(random, stock);
    match random.below(12) {
        0 => {
            let at = random.between(4, table.len() - 1);
            table[at] ^= 1 << random.below(8);
        }
        1 => table[random.between(4, 9)] ^= 1 << random.below(8),
        2 => return vec![0; 4],
        3 => {
            let size = random.between(1, 8);
            return with_word([vec![0; 4], random.bytes(size)].concat(), size as u32);
        }
        4 if random.once_in(4) => return virentolex::raw::EMPTY_NOTICE.to_vec(),
        _ => (),
    }
    table
}

/// What is left behind the last table whose word is right: nothing, 1 to 3 bytes, or a part whose word
/// passes the end.
fn remainder(random: &mut Random, stock: &[Vec<u8>]) -> Vec<u8> {
    let mut table = any(random, stock);
    let length = table.len();
    match random.below(16) {
        0 | 1 => table.truncate(random.between(1, 3)),
        2 => table = vec![0; random.between(1, 3)],
        3 => table.truncate(length - 1),
        4 => table.truncate(random.between(4, length - 1)),
        5 => return with_word(table, length as u32 - 3),
        6 => return with_word(table, random.pick(&PAST)),
        7 => table = random.pick(&[1, 2, 255, u32::MAX]).to_le_bytes().into(),
        _ => table.clear(),
    }
    table
}

/// Tables end to end; now and then one whose word is by one too small or too large, so that all behind it
/// are read from elsewhere, or one that takes more than 16 bits can count.
fn laid(random: &mut Random, notice: &[u8]) -> Vec<u8> {
    let stock = stock(random, notice);
    let count = random.pick(&COUNTS);
    let last = match count {
        0 => Vec::new(),
        _ => remainder(random, &stock),
    };
    let whole = count - usize::from(!last.is_empty());
    let mut pieces: Vec<Vec<u8>> = (0..whole).map(|_| piece(random, &stock)).collect();
    if let (Some(piece), true) = (pieces.last_mut(), random.once_in(6)) {
        *piece = vec![0; 4];
    }
    if let (Some(at), true) = (whole.checked_sub(2), random.once_in(5)) {
        let at = random.between(0, at);
        let table = any(random, &stock);
        let length = table.len() as u32 - 4;
        let size = random.between(65_530, 65_600);
        pieces[at] = match random.below(4) {
            0 => with_word(table, length + 1),
            1 => with_word(table, length - 1),
            2 => tables::table(random, &About::of(notice)),
            _ => with_word([&table[..], &vec![0; size]].concat(), length + size as u32),
        };
    }
    [pieces.concat(), last].concat()
}

/// The byte for what a run alone answers: "0 false, 1 true, 2 bottom, 3 table refused"; 255 for what no run
/// on a right notice does.
pub fn byte_of(alone: virentolex::raw::Ran) -> u8 {
    match (alone.number, alone.verdict) {
        (0, virentolex::raw::Verdict::False) => 0,
        (0, virentolex::raw::Verdict::True) => 1,
        (0, virentolex::raw::Verdict::Bottom) => 2,
        (12, virentolex::raw::Verdict::Bottom) => 3,
        _ => 255,
    }
}

impl Case<'_> {
    /// Tables on a notice with buffers of each size, each table alone, and the tables on a notice that is
    /// broken.
    pub fn many(&mut self) -> Outcome {
        let notice = notice(&mut self.random);
        let tables = laid(&mut self.random, &notice);
        let count = parts(&tables).len();
        let more = self.random.between(1, 80);
        let verdicts = self.delivering(&tables, &notice, count)?;
        self.one_by_one(&tables, &notice, &verdicts)?;
        for room in [count.saturating_sub(1), 0, count + more] {
            self.delivering(&tables, &notice, room)?;
        }
        let broken = find::broken(&mut self.random, notice);
        for room in [count, count.saturating_sub(1)] {
            self.delivering(&tables, &broken, room)?;
        }
        Ok(())
    }

    /// One call; the whole verdict buffer and its guards are compared. The verdict bytes.
    fn delivering(&mut self, tables: &[u8], notice: &[u8], room: usize) -> Result<Vec<u8>, String> {
        let mut lent = patterned(room, self.random.below(256));
        let mut meant = lent.clone();
        let library = virentolex::raw::run_many(tables, notice, &mut lent[GUARD..GUARD + room]);
        let reference = reference::run_many(tables, notice, &mut meant[GUARD..GUARD + room]);
        self.tally.count("run_many", reference.number);
        self.count("many", many_edges::of_call(tables, notice, room));
        same(
            &format!("run_many, buffer of {room} bytes within guards of {GUARD}: number, place, count, bytes after"),
            &[("tables", tables), ("notice", notice)],
            (
                Many {
                    number: library.number,
                    place: library.place,
                    count: library.count,
                },
                Hex(lent),
            ),
            (reference, Hex(meant.clone())),
        )?;
        Ok(meant[GUARD..GUARD + reference.count].to_vec())
    }

    /// "The result must be the same as calling one by one": of the library, which was not refused if it has
    /// written bytes.
    fn one_by_one(&mut self, tables: &[u8], notice: &[u8], verdicts: &[u8]) -> Outcome {
        if verdicts.is_empty() {
            return Ok(());
        }
        let of_table = many_edges::of_tables(tables, notice, verdicts);
        self.count("many", of_table);
        self.count("edition", editions::of_many(&parts(tables)));
        let alone: Vec<u8> = parts(tables)
            .into_iter()
            .map(|part| byte_of(virentolex::raw::run(part.bytes(), notice)))
            .collect();
        same(
            "run_many: verdict bytes; the reference is the library's own run, table by table",
            &[("tables", tables), ("notice", notice)],
            Hex(verdicts.to_vec()),
            Hex(alone),
        )
    }
}

#[cfg(test)]
mod tests {
    use super::*;
    use crate::notices::{rendered, Field};
    use crate::tally::Tally;
    use reference::compile::table_of;

    /// Each of the tables on a notice with these fields, in a buffer with room for 70 bytes.
    fn each(tables: impl Iterator<Item = Vec<u8>>) {
        let field = |name: &[u8], value: i32| Field {
            name: name.to_vec(),
            kind: 1,
            value: value.to_le_bytes().to_vec(),
        };
        let notice = rendered(&[field(b"Level", 3), field(b"Op", 42)]);
        let mut case = Case {
            random: Random::of_case(1, 1),
            tally: &mut Tally::default(),
            program: "",
        };
        for tables in tables {
            let verdicts = case.delivering(&tables, &notice, 70).unwrap();
            assert_eq!(case.one_by_one(&tables, &notice, &verdicts), Ok(()));
        }
    }

    fn three() -> Vec<u8> {
        let texts = [&b"Op == 42"[..], b"a == 1", b"Level > 3"];
        texts.map(|text| table_of(1, text).unwrap()).concat()
    }

    /// Any byte of three tables changed to any other.
    #[test]
    fn every_byte_of_three_tables() {
        let tables = three();
        each((0..tables.len()).flat_map(|at| {
            let changed = |byte: u8| [&tables[..at], &[byte], &tables[at + 1..]].concat();
            (0..=255).map(changed).collect::<Vec<_>>()
        }));
    }

    /// Every stretch of four tables: those that start within one are read from there.
    #[test]
    fn every_stretch_of_four_tables() {
        let tables = [three(), vec![0; 5]].concat();
        let ends = |start: usize| (start..=tables.len()).map(move |end| (start, end));
        each(
            (0..=tables.len())
                .flat_map(ends)
                .map(|(start, end)| tables[start..end].to_vec()),
        );
    }

    /// Up to four of these, in every order.
    #[test]
    fn every_list_of_short_ones() {
        let of: [&[u8]; 7] = [
            &table_of(1, b"Op > 1").unwrap(),
            &table_of(1, b"1 > a").unwrap(),
            &[0; 4],
            &[2, 0, 0, 0, 9, 9],
            &[0, 0],
            &[1],
            &[255; 4],
        ];
        let mut lists: Vec<Vec<u8>> = vec![Vec::new()];
        for from in [0, 1, 8, 57] {
            for at in from..lists.len() {
                lists.extend(of.map(|one| [&lists[at], one].concat()));
            }
        }
        each(lists.into_iter());
    }
}
