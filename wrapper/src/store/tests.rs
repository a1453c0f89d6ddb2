//! Document 02's request 12 through the library. Every expected number is the paper's; the bytes are those of
//! docs/FORMATS.md.
use crate::raw::*;
use crate::{Refusal, Store};

/// A text's table.
fn table(text: &str) -> Vec<u8> {
    let mut buffer = vec![0; TABLE_MAX];
    let t = translate(Edition::First, text.as_bytes(), &mut buffer);
    assert_eq!((t.number, t.place), (0, 0), "{text}");
    buffer.truncate(t.length);
    buffer
}

/// A notice whose `Op` is this number.
fn op(value: i32) -> Vec<u8> {
    let mut buffer = vec![0; 40];
    buffer[..8].copy_from_slice(&EMPTY_NOTICE);
    let w = write(&mut buffer, 8, b"Op", kind::INT32, &value.to_le_bytes());
    assert_eq!(w.number, 0);
    buffer.truncate(w.length);
    buffer
}

/// The bytes of the table of a number.
fn fetched<B: AsRef<[u8]>>(store: &Store<B>, id: usize) -> Result<&[u8], Refusal> {
    store.fetch(id).map(|subscription| subscription.as_table())
}

fn empty(length: usize) -> Store<Vec<u8>> {
    Store::make(vec![0xAA; length]).unwrap()
}

#[test]
fn a_table_added_is_fetched_until_it_is_removed() {
    let tables = ["Op == 1", "Op == 22 || a == 1", "Op != 'three'"].map(table);
    let mut store = empty(1000);
    for (id, t) in tables.iter().enumerate() {
        assert_eq!(store.fetch(id), Err(Refusal::NotHeld));
        assert_eq!(store.add(t), Ok(id));
    }
    assert_eq!(store.remove(1), Ok(()));
    assert_eq!(
        (store.remove(1), store.fetch(1)),
        (Err(Refusal::NotHeld), Err(Refusal::NotHeld))
    );
    assert_eq!(fetched(&store, 0), Ok(&tables[0][..]));
    assert_eq!(fetched(&store, 2), Ok(&tables[2][..]));
    // "the lowest free number"
    assert_eq!(store.remove(0), Ok(()));
    assert_eq!(store.add(&tables[1]), Ok(0));
    assert_eq!(store.add(&tables[1]), Ok(1));
    assert_eq!(store.add(&tables[0]), Ok(3));
    assert_eq!(fetched(&store, 0), Ok(&tables[1][..]));
    // a number that is no place, one whose low byte is
    for id in [4, 63, 64, 256, 1 << 32, usize::MAX] {
        assert_eq!(
            (store.remove(id), store.fetch(id)),
            (Err(Refusal::NotHeld), Err(Refusal::NotHeld))
        );
    }
    // what was kept is a store, and one that is only lent to be read
    let bytes = store.into_buffer();
    assert_eq!(
        fetched(&Store::kept(&bytes[..]).unwrap(), 3),
        Ok(&tables[0][..])
    );
    let mut again = Store::kept(bytes).unwrap();
    assert_eq!(again.remove(3), Ok(()));
}

#[test]
fn the_subscriptions_held() {
    let tables = ["Op == 1", "Op == 2", "Op == 3"].map(table);
    let mut store = empty(1000);
    for t in &tables {
        store.add(t).unwrap();
    }
    store.remove(1).unwrap();
    let held: Vec<(usize, &[u8])> = store.iter().map(|(id, s)| (id, s.as_table())).collect();
    assert_eq!(held, [(0, &tables[0][..]), (2, &tables[2])]);
    assert!(format!("{store:?}").starts_with("{0: [Entry { k: 0, op: 5, "));
    // what was added and spoiled since is not held as a subscription, and the number is told as refused
    let mut bytes = store.into_buffer();
    bytes[12 + 4] = 7;
    let spoiled = Store::kept(bytes).unwrap();
    assert_eq!(spoiled.fetch(0), Err(Refusal::Table));
    assert_eq!(spoiled.iter().map(|(id, _)| id).collect::<Vec<_>>(), [2]);
    assert_eq!(
        spoiled.run(op(3)).unwrap().get(0),
        Some(Err(Refusal::Table))
    );
    assert_eq!(spoiled.run(op(3)).unwrap().get(2), Some(Ok(Verdict::True)));
}

#[test]
fn the_bytes_of_a_store() {
    let (first, second) = (table("Op == 42"), table("Op < 7 && Op > 3"));
    let size = 8 + 4 + first.len() + 4 + second.len();
    let mut store = empty(size + 3);
    assert_eq!(store.as_bytes()[..8], [4, 0, 0, 0, 6, 0, 0, 0]);
    assert_eq!(store.as_bytes()[8..], vec![0xAA; size - 5]);
    assert_eq!((store.add(&first), store.add(&second)), (Ok(0), Ok(1)));
    let record = |id: u8, table: &[u8]| {
        let length = 2 + table.len() as u8;
        [&[length, 0, id, 1][..], table].concat()
    };
    let records = [record(0, &first), record(1, &second)].concat();
    let head = [4 + records.len() as u8, 0, 0, 0, 6, 0, 2, 0];
    let spare = [0xAA; 3];
    assert_eq!(store.as_bytes(), [&head[..], &records, &spare].concat());
    // what was behind the removed one moves down; the bytes past the store stay
    let before = store.as_bytes().to_vec();
    assert_eq!(store.remove(0), Ok(()));
    let left = record(1, &second);
    let head = [4 + left.len() as u8, 0, 0, 0, 6, 0, 1, 0];
    let end = 8 + left.len();
    assert_eq!(store.as_bytes()[..end], [&head[..], &left].concat());
    assert_eq!(store.as_bytes()[end..], before[end..]);
}

#[test]
fn an_add_is_refused_for_room_exactly_by_the_sum() {
    let t = table("1 == 1");
    // "the tables held, plus the new one, plus 4 bytes for each of these, the new one too, and 8 for the store"
    let sum = |count: usize| 8 + count * (STORE_RECORD + t.len());
    for (length, count) in [(sum(3), 3), (sum(3) - 1, 2), (sum(4) - 1, 3), (8, 0)] {
        let mut store = empty(length);
        for id in 0..count {
            assert_eq!(store.add(&t), Ok(id));
        }
        let before = store.as_bytes().to_vec();
        assert_eq!(store.add(&t), Err(Refusal::StoreRoom));
        assert_eq!(store.as_bytes(), before);
        // "Room freed is used again"
        for id in (0..count).chain(0..count) {
            assert_eq!((store.remove(id), store.add(&t)), (Ok(()), Ok(id)));
            assert_eq!(store.add(&t), Err(Refusal::StoreRoom));
        }
    }
}

#[test]
fn refusals_of_a_store_in_their_order() {
    let t = table("1 == 1");
    let added = |number, id| Added { number, id };
    // "26 .. for a buffer over 64 KiB or under 8 bytes", when making it empty too
    for length in [0, 7, STORE_MAX + 1] {
        let mut bytes = vec![0xAA; length];
        assert_eq!(store_make(&mut bytes), 26);
        assert_eq!(store_add(&mut bytes, &t), added(26, STORE_PLACES));
        assert_eq!(store_remove(&mut bytes, 0), 26);
        assert_eq!(store_fetch(&bytes, 0).number, 26);
        assert_eq!(bytes, vec![0xAA; length]);
    }
    assert_eq!(
        Store::make([0; STORE_MIN]).unwrap().remove(0),
        Err(Refusal::NotHeld)
    );
    assert_eq!(empty(STORE_MAX).add(&t), Ok(0));
    // "then for add 12, 27 for 64 held, 28 for room"
    let mut full = empty(8 + 64 * (4 + t.len()));
    for id in 0..64 {
        assert_eq!(full.add(&t), Ok(id));
    }
    assert_eq!(
        (full.add(&t[1..]), full.add(&t)),
        (Err(Refusal::Table), Err(Refusal::Held))
    );
    let mut bytes = full.into_buffer();
    assert_eq!(store_add(&mut bytes, b""), added(12, STORE_PLACES));
    bytes[4] = 5;
    assert_eq!(store_add(&mut bytes, b""), added(26, STORE_PLACES));
    assert_eq!(store_remove(&mut bytes, 64), 26);
    let fetched = store_fetch(&bytes, 64);
    assert_eq!((fetched.number, fetched.table), (26, &[][..]));
    // 26 "not when making it empty"
    assert_eq!(store_make(&mut bytes), 0);
    assert_eq!(store_add(&mut bytes, &t), added(0, 0));
}

#[test]
fn bytes_that_break_the_layout() {
    let mut store = empty(200);
    let t = table("1 == 1");
    assert_eq!((store.add(&t), store.add(&t)), (Ok(0), Ok(1)));
    let right = store.into_buffer();
    let second = 8 + 4 + t.len();
    // the length, the kind, the count; a record's length, its kind under 256 or over 319, a number twice
    let changes = [
        (0, right[0] - 1),
        (0, right[0] + 1),
        (3, 1),
        (4, 5),
        (5, 1),
        (6, 1),
        (6, 3),
        (7, 1),
        (8, 0),
        (8, 1),
        (9, 1),
        (second, right[second] + 1),
        (second + 2, 0),
        (second + 2, 64),
        (second + 3, 0),
        (second + 3, 2),
    ];
    for (at, byte) in changes {
        let mut bytes = right.clone();
        bytes[at] = byte;
        let before = bytes.clone();
        assert_eq!(store_add(&mut bytes, &t).number, 26, "{at}");
        assert_eq!(store_remove(&mut bytes, 0), 26, "{at}");
        assert_eq!(store_fetch(&bytes, 0).number, 26, "{at}");
        assert_eq!(bytes, before);
    }
    // a byte past the records is none of the store's
    let mut bytes = right.clone();
    bytes[second + 4 + t.len()] ^= 0xFF;
    assert_eq!(store_fetch(&bytes, 1).table, t);
}

#[test]
fn every_held_table_on_a_notice() {
    let texts = ["Op == 42", "Op == 41", "Staff != '417'", "Op > 1"];
    let tables = texts.map(table);
    let mut store = empty(1000);
    tables.iter().enumerate().for_each(|(id, t)| {
        assert_eq!(store.add(t), Ok(id));
    });
    assert_eq!(store.remove(1), Ok(()));
    let notice = op(42);
    let mut verdicts = [0xAA; STORE_PLACES + 2];
    let matched = store_match(store.as_bytes(), &notice, &mut verdicts);
    assert_eq!((matched.number, matched.place), (0, 0));
    assert_eq!(verdicts[..4], [1, FREE, 2, 1]);
    assert_eq!(verdicts[4..64], [FREE; 60]);
    assert_eq!(verdicts[64..], [0xAA; 2]);
    assert_eq!(Verdict::of_byte(FREE), None);
    // "It equals fetching and running one by one."
    for (id, byte) in verdicts[..64].iter().enumerate() {
        let alone = store
            .fetch(id)
            .map(|t| run(t.as_table(), &notice).verdict)
            .ok();
        assert_eq!(Verdict::of_byte(*byte), alone);
    }
    // a table that was spoiled in the buffer is refused alone
    let mut bytes = store.into_buffer();
    bytes[12 + 4] = 7;
    assert_eq!(store_match(&bytes, &notice, &mut verdicts).number, 0);
    assert_eq!(verdicts[..4], [REFUSED, FREE, 2, 1]);
}

#[test]
fn a_match_is_refused_in_its_order() {
    let mut store = empty(100);
    assert_eq!(store.add(table("Op == 42")), Ok(0));
    let (right, mut cut) = (op(42), op(42));
    cut[8] = 8;
    let broken = &store.as_bytes()[1..];
    let mut short = [0xAA; STORE_PLACES - 1];
    let matched = |number, place| Matched { number, place };
    assert_eq!(store_match(broken, &cut, &mut short), matched(26, 0));
    assert_eq!(
        store_match(store.as_bytes(), &cut, &mut short),
        matched(11, 8)
    );
    assert_eq!(
        store_match(store.as_bytes(), &right, &mut short),
        matched(9, 0)
    );
    assert_eq!(
        store_match(store.as_bytes(), &right, &mut []),
        matched(9, 0)
    );
    assert_eq!(short, [0xAA; STORE_PLACES - 1]);
}

#[test]
fn the_length_is_the_number_of_tables_held() {
    let table = table("Op == 1");
    let mut store = empty(65_536);
    assert!(store.is_empty());
    for held in 1..=64 {
        store.add(&table).unwrap();
        assert_eq!((store.len(), store.is_empty()), (held, false));
    }
    for (held, id) in (0..64).rev().zip(
        [63, 0, 31, 1]
            .into_iter()
            .chain((2..63).filter(|id| *id != 31)),
    ) {
        store.remove(id).unwrap();
        assert_eq!((store.len(), store.iter().count()), (held, held));
    }
    assert!(store.is_empty());
}
