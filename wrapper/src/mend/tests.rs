//! Document 02's request 14 through the library. Every expected number and byte is the paper's.
use super::*;
use crate::raw::{
    EMPTY_NOTICE, LIST_MAX, TABLE_MAX, check_notice, kind, mend, read, run, translate,
};
use crate::{Edition, NOTICE_MAX, Verdict};

/// A field's bytes.
fn field(name: &[u8], kind: u16, value: &[u8]) -> Vec<u8> {
    let length = (3 + name.len() + value.len()) as u16;
    let mut bytes = [length.to_le_bytes(), kind.to_le_bytes()].concat();
    bytes.push(name.len() as u8);
    [&bytes, name, value].concat()
}

/// A notice of the fields, in the order given.
fn notice(fields: &[&[u8]]) -> Vec<u8> {
    let fields = (fields.len() as u16, fields.concat());
    let length = (4 + fields.1.len()) as u32;
    let count = fields.0.to_le_bytes();
    [&length.to_le_bytes()[..], &[1, 0], &count, &fields.1].concat()
}

/// A header of which no word is right, and what stands behind it.
fn behind(parts: &[&[u8]]) -> Vec<u8> {
    [&[255, 0, 7, 7, 9, 9, 65, 0][..], &parts.concat()].concat()
}

fn listed(offset: usize, fate: Fate) -> Listed {
    Listed { offset, fate }
}

fn fates(mended: &Mended<Vec<u8>>) -> Vec<Fate> {
    mended.fates().map(|listed| listed.fate).collect()
}

#[test]
fn one_field_of_each_fate() {
    let [b, a, c] = [b"b", b"a", b"c"].map(|name| field(name, kind::STRING, b"v"));
    let again = field(b"b", kind::OPAQUE, b"other");
    let bad = field(b"b", kind::INT32, b"v");
    let bytes = behind(&[&bad, &b, &a, &again, &c, &[4]]);
    let mended = Mended::mend(&bytes).unwrap();
    let meant = [
        listed(8, Fate::Bad),
        listed(15, Fate::Kept),
        listed(22, Fate::Moved),
        listed(29, Fate::Repeated),
        listed(40, Fate::Kept),
        listed(47, Fate::Cut),
    ];
    assert_eq!(mended.fates().collect::<Vec<_>>(), meant);
    assert_eq!(mended.notice().as_bytes(), notice(&[&a, &b, &c]));
    let (list, notice) = mended.into_buffers();
    let bytes = [8, 0, 3, 15, 0, 0, 22, 0, 1, 29, 0, 2, 40, 0, 0, 47, 0, 4];
    assert_eq!(list, bytes);
    // the field that was repeated is the first one's
    assert_eq!(
        (read(&notice, 1).kind, read(&notice, 1).value),
        (4, &b"v"[..])
    );
    assert_eq!(read(&notice, 3).number, 17);
}

#[test]
fn each_way_of_being_bad() {
    let a = field(b"a", kind::STRING, b"");
    let bad = [
        vec![0, 0],
        vec![1, 0, 4],
        vec![2, 0, 4, 0],
        field(b"", kind::STRING, b""),
        field(b"\x1F", kind::STRING, b""),
        field(b"a\x7F", kind::STRING, b""),
        field(&[b'a'; 65], kind::STRING, b""),
        field(b"a", 0, b""),
        field(b"a", 6, b""),
        field(b"a", 256 + kind::STRING, b""),
        field(b"a", kind::INT32, b"12345"),
        field(b"a", kind::INT64, b"1234567"),
        field(b"a", kind::REAL64, b""),
        field(b"a", kind::STRING, &[b'v'; 1025]),
        field(b"a", kind::OPAQUE, &[b'v'; 1025]),
        // a name that passes its field, though not the end
        vec![4, 0, 4, 0, 2, b'a'],
    ];
    for bad in bad {
        let mended = Mended::mend(behind(&[&bad, &a])).unwrap();
        // "whatever its name": it does not keep the next one out
        assert_eq!(fates(&mended), [Fate::Bad, Fate::Kept], "{bad:?}");
        assert_eq!(mended.notice().as_bytes(), notice(&[&a]));
    }
}

#[test]
fn a_cut_field_ends_the_work() {
    let a = field(b"a", kind::INT32, b"four");
    for end in 1..a.len() {
        let mended = Mended::mend(behind(&[&a, &a[..end]])).unwrap();
        let meant = [listed(8, Fate::Kept), listed(18, Fate::Cut)];
        assert_eq!(mended.fates().collect::<Vec<_>>(), meant);
        assert_eq!(mended.notice().as_bytes(), notice(&[&a]));
    }
    for left in [&[0][..], &[255], &[1, 0], &[255, 255]] {
        let mended = Mended::mend(behind(&[left])).unwrap();
        assert_eq!(fates(&mended), [Fate::Cut]);
        assert_eq!(mended.notice().as_bytes(), EMPTY_NOTICE);
    }
    assert_eq!(fates(&Mended::mend(behind(&[])).unwrap()), []);
}

#[test]
fn a_well_formed_notice_comes_out_the_same() {
    let names = [&b"A"[..], b"a", b"aa", b"b"];
    let fields = names.map(|name| field(name, kind::INT32, b"four"));
    for count in 0..=4 {
        let fields: Vec<&[u8]> = fields[..count].iter().map(Vec::as_slice).collect();
        let notice = notice(&fields);
        assert_eq!(check_notice(&notice).number, 0);
        let mended = Mended::mend(&notice).unwrap();
        assert_eq!(mended.notice().as_bytes(), notice);
        assert_eq!(fates(&mended), vec![Fate::Kept; count]);
    }
}

/// The names in order, each moved; "a prefix before the longer".
#[test]
fn fields_that_fall_are_moved() {
    let fields = [&b"b"[..], b"ab", b"a", b"B"].map(|name| field(name, kind::OPAQUE, name));
    let bytes = behind(&[&fields[0], &fields[1], &fields[2], &fields[3]]);
    let mended = Mended::mend(&bytes).unwrap();
    let moved = [Fate::Kept, Fate::Moved, Fate::Moved, Fate::Moved];
    assert_eq!(fates(&mended), moved);
    let meant = notice(&[&fields[3], &fields[2], &fields[1], &fields[0]]);
    assert_eq!(mended.notice().as_bytes(), meant);
}

/// The answer, and both buffers afterwards.
fn called(bytes: &[u8], list: usize, notice: usize) -> (raw::Mended, Vec<u8>, Vec<u8>) {
    let (mut list, mut notice) = (vec![0xAA; list], vec![0xBB; notice]);
    let answer = mend(bytes, &mut list, &mut notice);
    (answer, list, notice)
}

fn answer(number: u8, length: usize, fields: usize) -> raw::Mended {
    raw::Mended {
        number,
        place: 0,
        length,
        fields,
    }
}

#[test]
fn refusals_of_mending_in_their_order() {
    let refused = |bytes: &[u8], list, notice, number| {
        let meant = (answer(number, 0, 0), vec![0xAA; list], vec![0xBB; notice]);
        assert_eq!(called(bytes, list, notice), meant);
    };
    let one = notice(&[&field(b"a", kind::STRING, b"")]);
    (0..8).for_each(|length| refused(&one[..length], 100, 100, 30));
    refused(&one[..7], 0, 0, 30);
    refused(&vec![0; NOTICE_MAX + 1], LIST_MAX, NOTICE_MAX, 10);
    // "then 15 if 65 fields would be kept, then 9 if either lent buffer is short"
    let many: Vec<Vec<u8>> = (40..105)
        .map(|byte| field(&[byte], kind::STRING, b""))
        .collect();
    let mut many: Vec<&[u8]> = many.iter().map(Vec::as_slice).collect();
    refused(&behind(&many), 195, 398, 15);
    refused(&behind(&many), 0, 0, 15);
    many[64] = many[0];
    assert_eq!(called(&behind(&many), 195, 392).0, answer(0, 392, 65));
    refused(&behind(&many), 194, 392, 9);
    refused(&behind(&many), 195, 391, 9);
    assert_eq!(Mended::mend([0; 7]), Err(Refusal::Short));
    assert_eq!(Mended::mend([0; NOTICE_MAX + 1]), Err(Refusal::Length));
}

#[test]
fn bytes_past_both_results_stay() {
    let one = notice(&[&field(b"a", kind::STRING, b"v")]);
    let list = [8, 0, 0, 0xAA, 0xAA].to_vec();
    let mended = [&one[..], &[0xBB]].concat();
    assert_eq!(called(&one, 5, 16), (answer(0, 15, 1), list, mended));
    let (mut list, mut lent) = ([0xAA; 4], [0xBB; 16]);
    let mended = Mended::mend_in(&one, &mut list[..], &mut lent[..]).unwrap();
    assert_eq!(mended.notice().as_bytes(), one);
    assert_eq!(mended.fates().count(), 1);
    assert_eq!((list[3], lent[15]), (0xAA, 0xBB));
    let lent = (&mut list[..2], &mut lent[..]);
    assert_eq!(
        Mended::mend_in(&one, lent.0, lent.1).err(),
        Some(Refusal::Buffer)
    );
}

/// The longest list, whose offsets take both bytes of their words.
#[test]
fn the_longest_list() {
    let bytes = [0; NOTICE_MAX];
    let mended = Mended::mend(bytes).unwrap();
    assert_eq!(mended.notice().as_bytes(), EMPTY_NOTICE);
    let meant = (8..NOTICE_MAX).step_by(2).map(|at| listed(at, Fate::Bad));
    assert!(mended.fates().eq(meant));
    assert_eq!(mended.into_buffers().0.len(), LIST_MAX);
    let odd = Mended::mend(&bytes[1..]).unwrap();
    assert_eq!(odd.fates().count() * LISTED, LIST_MAX);
    assert_eq!(odd.fates().last(), Some(listed(16_382, Fate::Cut)));
}

#[test]
fn a_list_of_any_bytes() {
    let fates = |list: &[u8]| Fates::of(list).count();
    assert_eq!(fates(&[]), 0);
    assert_eq!(fates(&[8, 0, 4, 9]), 1);
    assert_eq!(fates(&[8, 0, 0, 9, 0, 5, 11, 0, 0]), 1);
    let stay = (0..=255).filter_map(Fate::of_byte).map(Fate::stays);
    assert_eq!(stay.collect::<Vec<_>>(), [true, true, false, false, false]);
}

#[test]
fn a_mended_notice_is_shown() {
    let mended = Mended::mend(behind(&[&field(b"a", kind::STRING, b""), &[1]])).unwrap();
    let notice = "[Field { name: [97], value: String([]) }]";
    let fates = "[Listed { offset: 8, fate: Kept }, Listed { offset: 14, fate: Cut }]";
    let shown = format!("Mended {{ notice: {notice}, fates: {fates} }}");
    assert_eq!(format!("{mended:?}"), shown);
    let words = mended.fates().map(|listed| listed.fate.to_string());
    assert_eq!(words.collect::<Vec<_>>(), ["kept", "cut"]);
}

#[test]
fn a_mended_notice_is_matched() {
    let staff = field(b"Staff", kind::STRING, b"417");
    let op = field(b"Op", kind::INT32, &42i32.to_le_bytes());
    let bytes = [&[0; 8][..], &staff, &op, &staff[..4]].concat();
    let mut table = [0; TABLE_MAX];
    let length = translate(Edition::First, b"Op == 42 && Staff == '417'", &mut table).length;
    assert_eq!(run(&table[..length], &bytes).number, 11);
    let mended = Mended::mend(&bytes).unwrap();
    let ran = run(&table[..length], mended.notice().as_bytes());
    assert_eq!((ran.number, ran.verdict), (0, Verdict::True));
}
