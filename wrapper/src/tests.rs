//! Document 01's examples and document 02's cases through the library. Every expected number is the papers'.
use crate::Store;
use crate::raw::*;

pub const OP42: [u8; 19] = [
    0x0F, 0x00, 0x00, 0x00, 0x01, 0x00, 0x01, 0x00, 0x09, 0x00, 0x01, 0x00, 0x02, 0x4F, 0x70, 0x2A,
    0x00, 0x00, 0x00,
];

/// `2C 00 00 00 02 00 03 00 02 00`, entries (5,2,0) (1,0,42) (32,0,0), `4F 70`.
pub const OP_IS_42: [u8; 48] = [
    0x2C, 0, 0, 0, 2, 0, 3, 0, 2, 0, //
    5, 0, 2, 0, 0, 0, 0, 0, 0, 0, 0, 0, //
    1, 0, 0, 0, 42, 0, 0, 0, 0, 0, 0, 0, //
    32, 0, 0, 0, 0, 0, 0, 0, 0, 0, 0, 0, //
    0x4F, 0x70,
];

/// A text's table of the first edition.
fn table(text: &str) -> Vec<u8> {
    table_of(Edition::First, text)
}

/// A text's table.
fn table_of(edition: Edition, text: &str) -> Vec<u8> {
    let mut buffer = vec![0; TABLE_MAX];
    let t = translate(edition, text.as_bytes(), &mut buffer);
    assert_eq!((t.number, t.place), (0, 0), "{text}");
    buffer.truncate(t.length);
    buffer
}

/// A text's verdict and steps on a notice.
fn verdict(text: &str, notice: &[u8]) -> (Verdict, usize) {
    let r = run(&table(text), notice);
    assert_eq!((r.number, r.place), (0, 0), "{text}");
    (r.verdict, r.steps)
}

#[test]
fn a_table_is_written_and_later_bytes_stay() {
    let mut buffer = [0xAA; 50];
    let t = translate(Edition::First, b"Op == 42", &mut buffer);
    assert_eq!(
        t,
        Translated {
            number: 0,
            place: 0,
            length: 48
        }
    );
    assert_eq!(buffer[..48], OP_IS_42);
    assert_eq!(buffer[48..], [0xAA; 2]);
}

#[test]
fn a_refused_text_changes_no_byte() {
    let cases: [(&str, u8, usize); 15] = [
        ("pipe=>20", 5, 0),
        ("Op", 5, 0),
        ("! Op == 42", 5, 0),
        ("a -5", 2, 2),
        ("", 2, 0),
        ("Op == 42 &&", 2, 11),
        ("09 == 9", 1, 0),
        ("int32 ((a))", 4, 0),
        ("wildcard (a, \"[\") == f (a)", 4, 0),
        ("wildcard (a, \"*\", \"[\") == 1", 18, 0),
        ("wildcard (a, \"*\") == 1", 5, 0),
        ("regex (a, \"(\") == f (a)", 4, 0),
        ("regex (a, \"b\", \"*\") == 1", 18, 0),
        ("regex (a, \"b*\") == 1", 5, 0),
        ("0x80000000 == 0", 3, 0),
    ];
    for (text, number, place) in cases {
        for edition in [Edition::First, Edition::Second] {
            let mut buffer = [0xAA; 64];
            let t = translate(edition, text.as_bytes(), &mut buffer);
            assert_eq!((t.number, t.place, t.length), (number, place, 0), "{text}");
            assert_eq!(buffer, [0xAA; 64], "{text}");
        }
    }
}

#[test]
fn a_buffer_one_byte_short_is_9() {
    for edition in [Edition::First, Edition::Second] {
        let mut buffer = [0xAA; 47];
        let t = translate(edition, b"Op == 42", &mut buffer);
        assert_eq!((t.number, t.place, t.length), (9, 0, 0));
        assert_eq!(buffer, [0xAA; 47]);
    }
}

#[test]
fn another_edition_is_25_before_10() {
    let long = [b' '; TEXT_MAX + 1];
    for edition in [0, 3, 4, 255, 256, 257, 1 << 32, (1 << 32) + 1, usize::MAX] {
        for text in [&b"Op == 42"[..], b"", b"Op", &long] {
            let mut buffer = [0xAA; 64];
            let t = translate_numbered(edition, text, &mut buffer);
            assert_eq!((t.number, t.place, t.length), (25, 0, 0), "{edition}");
            assert_eq!(buffer, [0xAA; 64]);
        }
    }
    for edition in [1, 2] {
        assert_eq!(translate_numbered(edition, &long, &mut []).number, 10);
        assert_eq!(translate_numbered(edition, b"Op", &mut []).number, 5);
    }
}

#[test]
fn the_second_edition_is_of_kind_4() {
    let mut second = OP_IS_42;
    second[4] = 4;
    assert_eq!(table_of(Edition::Second, "Op == 42"), second);
    for kind in 0..=65535u16 {
        let mut table = OP_IS_42;
        table[4..6].copy_from_slice(&kind.to_le_bytes());
        let number = if [2, 4].contains(&kind) { 0 } else { 12 };
        assert_eq!(check(&table), number, "kind {kind}");
    }
    assert_eq!(run(&second, &OP42), run(&OP_IS_42, &OP42));
    assert_eq!(run(&second, &EMPTY_NOTICE), run(&OP_IS_42, &EMPTY_NOTICE));
    for k in 0..4 {
        assert_eq!(entry(&second, k), entry(&OP_IS_42, k));
    }
}

/// Document 02, request 9: "Newer door firmware takes the count's remainder by the width, 0 to width less 1,
/// so -1 shifts an int32 by 31."
#[test]
fn shift_counts_by_edition() {
    use Verdict::{Bottom, False, True};
    let cases = [
        ("1 << -1 == -2147483648", Bottom, True),
        ("-1 >>> -1 == 1", Bottom, True),
        ("-1 >> -33 == -1", Bottom, True),
        ("Op >> 33 == 21", Bottom, True),
        ("Op << 32 == 42", Bottom, True),
        ("Op << 2147483647 == 0", Bottom, True),
        ("Op << 4294967297L == 84", Bottom, True),
        ("Op << -9223372036854775808L == 42", Bottom, True),
        ("1L << -1 == -9223372036854775808L", Bottom, True),
        ("1L << 64 == 2", Bottom, False),
        ("1L << 32 == 4294967296L", True, True),
        ("1 << 31 == -2147483648", True, True),
        ("1 << 1.0 == 2", Bottom, Bottom),
        ("1 << Gone == 2", Bottom, Bottom),
        ("Op / 0 == 1", Bottom, Bottom),
    ];
    for (text, first, second) in cases {
        let verdict = |edition| run(&table_of(edition, text), &OP42).verdict;
        assert_eq!(verdict(Edition::First), first, "{text}");
        assert_eq!(verdict(Edition::Second), second, "{text}");
    }
}

#[test]
fn both_editions_are_counted_and_laid_end_to_end() {
    let text = "Op >> 33 == 21";
    let tables = [Edition::Second, Edition::First].map(|edition| table_of(edition, text));
    let mut verdicts = [7; 3];
    let answer = run_many(&tables.concat(), &OP42, &mut verdicts);
    assert_eq!((answer, verdicts), (delivered(0, 0, 2), [1, 2, 7]));
    for (table, number) in tables.iter().zip([19, 0]) {
        let mut decision = [0; DECISION_MAX];
        assert_eq!(quorum_open(&mut decision, table, 1).number, 0);
        // true, and there is no Staff; bottom
        assert_eq!(quorum_show(&mut decision, &OP42).number, number);
    }
}

#[test]
fn the_cases_of_the_meaning() {
    use Verdict::{Bottom, False, True};
    assert_eq!(verdict("Op == 42", &OP42), (True, 3));
    assert_eq!(verdict("Op == 1 && 1 == 2", &EMPTY_NOTICE), (False, 8));
    assert_eq!(verdict("1 == 2 && Op == 42", &EMPTY_NOTICE), (False, 4));
    let cases = [
        ("Op != 42", Bottom),
        ("1 == 1 ^^ 2 == 2", False),
        ("2 + 3 * 4 & 6 == 14", True),
        ("-7 / 2 == -3", True),
        ("2147483647 + 1 == 2147483648L", True),
        // document 02, request 6: "turns from bottom to false"
        ("9223372036854775807L + 1 == 0", False),
        ("-1 >>> 28 == 15", True),
        ("1 / 0 == 0 || 1 == 1", True),
    ];
    for (text, expected) in cases {
        assert_eq!(verdict(text, &EMPTY_NOTICE).0, expected, "{text}");
    }
}

#[test]
fn tables_and_notices_are_checked() {
    assert_eq!(check(&OP_IS_42), 0);
    assert_eq!(check(&OP_IS_42[..47]), 12);
    let mut cut = OP42;
    cut[8] = 8;
    assert_eq!(
        check_notice(&OP42),
        Checked {
            number: 0,
            place: 0
        }
    );
    assert_eq!(
        check_notice(&cut),
        Checked {
            number: 11,
            place: 8
        }
    );
}

#[test]
fn running_is_refused_12_before_11() {
    let mut cut = OP42;
    cut[8] = 8;
    let refused = |number, place| Ran {
        number,
        place,
        verdict: Verdict::Bottom,
        steps: 0,
        undecided: None,
    };
    assert_eq!(run(&OP_IS_42, &cut), refused(11, 8));
    assert_eq!(run(&OP_IS_42[..47], &cut), refused(12, 0));
}

/// The verdict, the steps and the undecided entry of a text on a notice.
fn why(text: &str, notice: &[u8]) -> (Verdict, usize, Option<usize>) {
    let r = run(&table(text), notice);
    assert_eq!((r.number, r.place), (0, 0), "{text}");
    (r.verdict, r.steps, r.undecided)
}

#[test]
fn the_first_undecided_entry() {
    use Verdict::{Bottom, False, True};
    // "document 01's three lines end in 48 (`S`, unchanged), 65535 and 0"
    assert_eq!(why("Op == 42", &OP42), (True, 3, None));
    assert_eq!(why("Op == 42", &EMPTY_NOTICE), (Bottom, 3, Some(0)));
    let cases = [
        ("Op == 41", False, 3, None),
        // the comparison itself: its operands are there, of kinds that it does not take
        ("Op > \"41\"", Bottom, 3, Some(2)),
        ("begins-with (Op, \"4\")", Bottom, 3, Some(2)),
        ("1 == 1 && Op / 0 > 1", Bottom, 10, Some(6)),
        ("Op << 32 == 0", Bottom, 5, Some(2)),
        ("1 == 1 ^^ size (Op) == 1", Bottom, 8, Some(4)),
        // "the first": of two names that are lacking, and of the operators that follow one
        ("1 + a * b > c", Bottom, 7, Some(1)),
        ("! (! (a == 1))", Bottom, 5, Some(0)),
        // "visited": what a skip passes over is not
        ("Op == 41 && a == 1", False, 4, None),
        ("Op == 42 || a == 1", True, 4, None),
        ("Op == 41 && a == 1 ^^ b == 1", Bottom, 8, Some(8)),
        // with true and false too, where bottom is gone in the end
        ("a == 1 || Op == 42", True, 8, Some(0)),
        ("Op == 42 && a == 1 && Op == 41", False, 13, Some(4)),
    ];
    for (text, verdict, steps, undecided) in cases {
        assert_eq!(why(text, &OP42), (verdict, steps, undecided), "{text}");
    }
}

#[test]
fn an_entry_is_told() {
    let entries = [(5, 2, 0, &b"Op"[..]), (1, 0, 42, b""), (32, 0, 0, b"")];
    for (k, (op, a, b, bytes)) in entries.into_iter().enumerate() {
        let told = Entry {
            number: 0,
            op,
            a,
            b,
            bytes,
        };
        assert_eq!(entry(&OP_IS_42, k), told, "{k}");
    }
    assert_eq!(entry(&OP_IS_42, 0).bytes.as_ptr(), OP_IS_42[46..].as_ptr());
    let refused = |number| Entry {
        number,
        op: 0,
        a: 0,
        b: 0,
        bytes: b"",
    };
    // k at the count, and past it
    for k in [3, 4, 256, 65_536, 65_536 * 65_536, usize::MAX] {
        assert_eq!(entry(&OP_IS_42, k), refused(17), "{k}");
    }
    assert_eq!(entry(&OP_IS_42[..47], 0), refused(12));
    assert_eq!(entry(&OP_IS_42[..47], 3), refused(12));
    let table = table("wildcard (Cab, \"T-4?\", \"\") && -1L < 0.5");
    let told: Vec<(u16, u16, u64, &[u8])> = (0..9)
        .map(|k| entry(&table, k))
        .map(|e| (e.op, e.a, e.b, e.bytes))
        .collect();
    let meant: [(u16, u16, u64, &[u8]); 9] = [
        (5, 3, 0, b"Cab"),
        (4, 4, 3, b"T-4?"),
        (4, 0, 7, b""),
        (60, 2, 0, b""),
        (44, 4, 0, b""),
        (2, 0, u64::MAX, b""),
        (3, 0, 0.5f64.to_bits(), b""),
        (34, 0, 0, b""),
        (41, 0, 0, b""),
    ];
    assert_eq!(told, meant);
    assert_eq!(
        entry(&table, 2).bytes.as_ptr_range().end,
        table.as_ptr_range().end
    );
}

#[test]
fn a_field_is_read_as_parts_of_the_notice() {
    let f = read(&OP42, 0);
    assert_eq!((f.number, f.place, f.kind), (0, 0, kind::INT32));
    assert_eq!((f.name, f.value), (&b"Op"[..], &[42, 0, 0, 0][..]));
    assert_eq!(f.name.as_ptr(), OP42[13..].as_ptr());
    let none = Field {
        number: 17,
        place: 0,
        kind: 0,
        name: b"",
        value: b"",
    };
    assert_eq!(read(&OP42, 1), none);
}

#[test]
fn op42_is_written_from_the_empty_notice() {
    let mut buffer = [0xAA; 21];
    buffer[..8].copy_from_slice(&EMPTY_NOTICE);
    let w = write(&mut buffer, 8, b"Op", kind::INT32, &42i32.to_le_bytes());
    assert_eq!((w.number, w.place, w.length), (0, 0, 19));
    assert_eq!(buffer[..19], OP42);
    assert_eq!(buffer[19..], [0xAA; 2]);
}

#[test]
fn a_refused_write_changes_no_byte() {
    let cases: [(usize, &str, u16, &str, u8); 6] = [
        (20, "N", kind::STRING, "v", 11),
        (19, "", kind::STRING, "v", 13),
        (19, "N", 6, "v", 16),
        (19, "N", kind::INT32, "v", 16),
        (19, "Op", kind::STRING, "v", 14),
        (19, "N", kind::STRING, "v", 15),
    ];
    for (length, name, kind, value, number) in cases {
        let mut buffer = OP42;
        let w = write(&mut buffer, length, name.as_bytes(), kind, value.as_bytes());
        assert_eq!((w.number, w.place, w.length), (number, 0, length));
        assert_eq!(buffer, OP42);
    }
}

#[test]
fn empty_slices_are_answered() {
    assert_eq!(translate(Edition::First, b"Op == 42", &mut []).number, 9);
    assert_eq!(check(&[]), 12);
    assert_eq!(check_notice(&[]).number, 11);
    assert_eq!(run(&[], &[]).number, 12);
    assert_eq!(run(&OP_IS_42, &[]).number, 11);
    assert_eq!(read(&[], 0).number, 11);
    assert_eq!(find(&[], b"").number, 11);
    assert_eq!(find(&EMPTY_NOTICE, b"").number, 0);
    assert_eq!(entry(&[], 0).number, 12);
    assert_eq!(write(&mut [], 0, b"", kind::STRING, b"").number, 11);
    assert_eq!(run_many(&[], &[], &mut []).number, 11);
    assert_eq!(run_many(&[], &OP42, &mut []), delivered(0, 0, 0));
    assert_eq!(run_many(&OP_IS_42, &OP42, &mut []), delivered(9, 0, 0));
}

#[test]
fn an_empty_slice_may_have_a_null_pointer() {
    let null = std::ptr::null();
    let (mut place, mut length) = (9, 9);
    let mut buffer = [0xAA; 48];
    // SAFETY: a slice of length 0 may have any pointer; the buffer and the results are borrowed here
    // alone.
    let number = unsafe {
        library::virentolex_translate(
            1,
            null,
            0,
            buffer.as_mut_ptr(),
            buffer.len(),
            &mut place,
            &mut length,
        )
    };
    assert_eq!((number, place, length), (2, 0, 0));
    // SAFETY: a slice of length 0 may have any pointer.
    assert_eq!(unsafe { library::virentolex_check(null, 0) }, 12);
    let (mut index, mut looked) = (9, 9);
    // SAFETY: as above; the results are borrowed here alone.
    let number = unsafe {
        library::virentolex_find(
            OP42.as_ptr(),
            OP42.len(),
            null,
            0,
            &mut place,
            &mut index,
            &mut looked,
        )
    };
    assert_eq!((number, place, index, looked), (0, 0, 64, 1));
    // refused by 12 and by 17: every result is set
    for (table, length, refusal) in [(null, 0, 12), (OP_IS_42.as_ptr(), OP_IS_42.len(), 17)] {
        let (mut op, mut a, mut b) = (9, 9, 9);
        let (mut start, mut end) = (9, 9);
        // SAFETY: as above.
        let number = unsafe {
            library::virentolex_entry(
                table, length, 3, &mut op, &mut a, &mut b, &mut start, &mut end,
            )
        };
        assert_eq!((number, op, a, b, start, end), (refusal, 0, 0, 0, 0, 0));
    }
    let (nothing, mut count) = (std::ptr::null_mut(), 9);
    // SAFETY: as above.
    let number = unsafe {
        library::virentolex_run_many(
            null,
            0,
            OP42.as_ptr(),
            OP42.len(),
            nothing,
            0,
            &mut place,
            &mut count,
        )
    };
    assert_eq!((number, place, count), (0, 0, 0));
}

/// A notice of string fields, their names rising.
fn strings(fields: &[(&str, &str)]) -> Vec<u8> {
    let mut buffer = vec![0; NOTICE_MAX];
    let mut length = EMPTY_NOTICE.len();
    buffer[..length].copy_from_slice(&EMPTY_NOTICE);
    for (name, value) in fields {
        let w = write(
            &mut buffer,
            length,
            name.as_bytes(),
            kind::STRING,
            value.as_bytes(),
        );
        assert_eq!(w.number, 0, "{name}");
        length = w.length;
    }
    buffer.truncate(length);
    buffer
}

fn found(number: u8, place: usize, index: Option<usize>, looked: usize) -> Found {
    Found {
        number,
        place,
        index,
        looked,
    }
}

#[test]
fn the_search_stops_at_the_first_name_not_below() {
    let notice = strings(&[("Cab", "T-41"), ("Cabin", ""), ("Staff", "417"), ("~", "")]);
    let cases: [(&[u8], Option<usize>, usize); 16] = [
        (b"Cab", Some(0), 1),
        (b"Cabin", Some(1), 2),
        (b"Staff", Some(2), 3),
        (b"~", Some(3), 4),
        (b"Ca", None, 1),
        (b"Cabi", None, 2),
        (b"Cabs", None, 3),
        (b"Staf", None, 3),
        (b"Staff ", None, 4),
        (b"~~", None, 4),
        // what no field can have: it is sought like any other
        (b"", None, 1),
        (b"\0", None, 1),
        (b"Cab\0", None, 2),
        (b"Cab\xFF", None, 3),
        (b"\x80", None, 4),
        (&[b'C'; 65], None, 1),
    ];
    for (name, index, looked) in cases {
        let answer = find(&notice, name);
        assert_eq!(
            answer,
            found(0, 0, index, looked),
            "{}",
            name.escape_ascii()
        );
        assert_eq!(find(&EMPTY_NOTICE, name), found(0, 0, None, 0));
        if let Some(k) = index {
            assert_eq!(read(&notice, k).name, name);
        }
    }
}

#[test]
fn no_name_is_looked_at_in_what_is_no_notice() {
    let mut fallen = strings(&[("Cab", "T-41"), ("Staff", "417")]);
    assert_eq!(find(&fallen, b"Cab"), found(0, 0, Some(0), 1));
    // "Staff" becomes "Btaff", so that the names no longer rise; its field starts behind that of "Cab"
    fallen[8 + 12 + 5] = b'B';
    assert_eq!(find(&fallen, b"Cab"), found(11, 8 + 12, None, 0));
    assert_eq!(find(&OP42[..18], b"Op"), found(11, 0, None, 0));
}

/// An answer of the counter with no undecided entry.
fn shown(number: u8, place: usize, count: u8, reached: bool) -> Shown {
    Shown {
        number,
        place,
        count,
        reached,
        undecided: None,
    }
}

#[test]
fn the_whole_cab_number_fits_a_pattern() {
    let table = table("wildcard (Cab, \"T-4?\", \"V*\")");
    assert_eq!(table[..10], [0x3F, 0, 0, 0, 2, 0, 4, 0, 9, 0]);
    assert_eq!(table[46..48], [60, 0]);
    let cases = [
        ("T-41", Verdict::True),
        ("T-412", Verdict::False),
        ("T-4", Verdict::False),
        ("V", Verdict::True),
        ("V-7", Verdict::True),
        ("AV", Verdict::False),
    ];
    for (cab, verdict) in cases {
        let r = run(&table, &strings(&[("Cab", cab)]));
        assert_eq!((r.number, r.verdict, r.steps), (0, verdict, 4), "{cab}");
    }
    assert_eq!(run(&table, &EMPTY_NOTICE).verdict, Verdict::Bottom);
    // the last pattern with a set that is not closed
    let mut ill_formed = table.clone();
    ill_formed[66] = b'[';
    assert_eq!(check(&ill_formed), 12);
    assert_eq!(run(&ill_formed, &EMPTY_NOTICE).number, 12);
}

#[test]
fn some_stretch_of_the_user_fits_a_regular_expression() {
    let table = table("regex (User, \"[Ss]egall?\")");
    assert_eq!(table[..10], [0x38, 0, 0, 0, 2, 0, 3, 0, 14, 0]);
    assert_eq!(table[34..36], [61, 0]);
    let cases = [
        ("Segall", Verdict::True),
        ("Bill segal", Verdict::True),
        ("Segala", Verdict::True),
        ("Sega", Verdict::False),
        ("SEGALL", Verdict::False),
        ("", Verdict::False),
    ];
    for (user, verdict) in cases {
        let r = run(&table, &strings(&[("User", user)]));
        assert_eq!((r.number, r.verdict, r.steps), (0, verdict, 3), "{user}");
    }
    let r = run(&table, &EMPTY_NOTICE);
    assert_eq!((r.verdict, r.undecided), (Verdict::Bottom, Some(0)));
    // the set's bracket, not closed
    let mut ill_formed = table.clone();
    ill_formed[53] = b'x';
    assert_eq!(check(&ill_formed), 12);
    assert_eq!(run(&ill_formed, &EMPTY_NOTICE).number, 12);
}

/// Document 02, request 13: "also for a star over what fits the empty string"; a matcher that goes back would
/// not end.
#[test]
fn a_star_over_what_fits_the_empty_string() {
    let long = "a".repeat(1023);
    for pattern in ["(a*)*b", "(a|aa)*b", "((a?)+)*b", "^(a*)*b"] {
        let table = table(&format!("regex (User, \"{pattern}\")"));
        for (value, verdict) in [
            (long.clone(), Verdict::False),
            (long.clone() + "b", Verdict::True),
        ] {
            let r = run(&table, &strings(&[("User", &value)]));
            assert_eq!((r.number, r.verdict), (0, verdict), "{pattern}");
        }
    }
}

/// A notice of the int64 field `Meter`.
fn meter(value: i64) -> Vec<u8> {
    let mut buffer = EMPTY_NOTICE.to_vec();
    buffer.resize(EMPTY_NOTICE.len() + 18, 0);
    let bytes = value.to_le_bytes();
    let w = write(&mut buffer, 8, b"Meter", kind::INT64, &bytes);
    assert_eq!((w.number, w.length), (0, 26));
    buffer
}

#[test]
fn meters_beyond_2_to_the_53() {
    use Verdict::{Bottom, False, True};
    let over = (1 << 53) + 1;
    let cases = [
        // "`Meter > 1.5` gives bottom"; now "by exact value"
        ("Meter > 1.5", over, True),
        ("Meter <= 1.0e22", i64::MAX, True),
        ("Meter == 9.0e18", 9_000_000_000_000_000_000, True),
        ("equals (Meter, 9.0e18)", 9_000_000_000_000_000_001, False),
        // "In arithmetic with a real the integer is rounded to the nearest f64, ties to even."
        ("Meter - 0.0 == 9007199254740992L", over, True),
        ("Meter - 0.0 == 9007199254740996L", over + 2, True),
        // "An integer result of `+ - * /` outside int64 becomes the nearest f64, ties to even"
        ("Meter + 1 > Meter", i64::MAX, True),
        ("Meter / -1 - 0.0 == Meter * -1", i64::MIN, True),
        ("Meter * Meter == Meter * Meter + 1.0", i64::MAX, True),
        ("Meter % -1 == 0", i64::MIN, True),
        ("Meter / 0 == 0", i64::MAX, Bottom),
    ];
    for (text, value, expected) in cases {
        assert_eq!(verdict(text, &meter(value)).0, expected, "{text}");
    }
}

#[test]
fn the_kiosk_counts_characters() {
    let table = table("size (Name) <= 20");
    let verdict = |kind, name: &[u8]| {
        let mut buffer = [0; 64];
        buffer[..8].copy_from_slice(&EMPTY_NOTICE);
        let w = write(&mut buffer, 8, b"Name", kind, name);
        assert_eq!(w.number, 0);
        run(&table, &buffer[..w.length]).verdict
    };
    // 20 letters in 22 bytes
    let name = "Ren\u{e9} Desch\u{ea}nes-Oliva".as_bytes();
    assert_eq!(verdict(kind::STRING, name), Verdict::True);
    let longer = [name, b"s"].concat();
    assert_eq!(verdict(kind::STRING, &longer), Verdict::False);
    assert_eq!(verdict(kind::OPAQUE, name), Verdict::False);
    // cut within the first accent
    assert_eq!(verdict(kind::STRING, &name[..4]), Verdict::Bottom);
    assert_eq!(verdict(kind::OPAQUE, &name[..4]), Verdict::True);
}

/// A decision in a buffer that is just as long as it is.
fn opened(table: &[u8], needed: usize) -> Vec<u8> {
    let mut decision = vec![0; DECISION_HEAD + table.len()];
    let answer = quorum_open(&mut decision, table, needed);
    assert_eq!(answer, shown(0, 0, 0, false));
    decision
}

#[test]
fn two_people_are_two_staff_numbers() {
    let mut d = opened(&table("Approve == \"payout\""), 2);
    let first = strings(&[("Approve", "payout"), ("Staff", "417")]);
    let nameless = strings(&[("Approve", "payout")]);
    let second = strings(&[("Approve", "payout"), ("Staff", "502")]);
    let other = strings(&[("Approve", "door"), ("Staff", "600")]);
    let undecided = strings(&[("Staff", "601")]);
    // "counted unless those bytes were counted before in this decision"; "19 if Staff is absent"
    assert_eq!(quorum_show(&mut d, &first), shown(0, 0, 1, false));
    assert_eq!(quorum_show(&mut d, &nameless), shown(19, 0, 1, false));
    assert_eq!(quorum_show(&mut d, &first), shown(0, 0, 1, false));
    // "if the verdict is true": false and bottom count nobody
    assert_eq!(quorum_show(&mut d, &other), shown(0, 0, 1, false));
    let bottom = Shown {
        undecided: Some(0),
        ..shown(0, 0, 1, false)
    };
    assert_eq!(quorum_show(&mut d, &undecided), bottom);
    // "whether it has reached the needed number"
    assert_eq!(quorum_show(&mut d, &second), shown(0, 0, 2, true));
    assert_eq!(quorum_show(&mut d, &nameless), shown(19, 0, 2, true));
}

#[test]
fn a_ninth_person_is_20_and_one_of_the_eight_is_not() {
    let table = table("require (Staff)");
    let mut buffer = vec![0xAA; DECISION_HEAD + table.len() + 3];
    let answer = quorum_open(&mut buffer, &table, 8);
    assert_eq!(answer, shown(0, 0, 0, false));
    let mut d = buffer;
    for i in 1..=8u8 {
        let staff = "x".repeat(i as usize * 8);
        assert_eq!(
            quorum_show(&mut d, &strings(&[("Staff", &staff)])),
            shown(0, 0, i, i == 8)
        );
    }
    let full = d.clone();
    for (staff, number) in [("y", 20), ("xxxxxxxx", 0), ("", 19), (&"y".repeat(65), 19)] {
        assert_eq!(
            quorum_show(&mut d, &strings(&[("Staff", staff)])),
            shown(number, 0, 8, true),
            "{staff}"
        );
    }
    // "the run's place and the rest as it stood"; the value is a byte shorter, so the first spare byte is the last
    let mut cut = strings(&[("Staff", "y")]);
    cut[8] -= 1;
    assert_eq!(quorum_show(&mut d, &cut), shown(11, cut.len() - 1, 8, true));
    // "and changes nothing"
    assert_eq!(d, full);
    assert_eq!(full[full.len() - 3..], [0xAA; 3]);
    // the decision may be kept elsewhere
    let mut again = full;
    assert_eq!(
        quorum_show(&mut again, &strings(&[("Staff", "y")])),
        shown(20, 0, 8, true)
    );
}

#[test]
fn the_counter_passes_the_undecided_entry_on() {
    // the left side is bottom on these notices, and the right side makes them true
    let mut d = opened(&table("Level > 3 || require (Console)"), 8);
    let answer = |number, count, reached, undecided| Shown {
        undecided,
        ..shown(number, 0, count, reached)
    };
    let nameless = strings(&[("Console", "yard")]);
    // "with 19 and 20 too": absent, and of a kind that `>` does not take
    assert_eq!(
        quorum_show(&mut d, &nameless),
        answer(19, 0, false, Some(0))
    );
    let level = strings(&[("Console", "yard"), ("Level", "4")]);
    assert_eq!(quorum_show(&mut d, &level), answer(19, 0, false, Some(2)));
    for i in 1..=9u8 {
        let staff = "x".repeat(i.into());
        let notice = strings(&[("Console", "yard"), ("Staff", &staff)]);
        let number = if i == 9 { 20 } else { 0 };
        assert_eq!(
            quorum_show(&mut d, &notice),
            answer(number, i.min(8), i >= 8, Some(0))
        );
    }
    // "A refused run, and a counter's call without a run, give 65535."
    assert_eq!(
        quorum_show(&mut d, &nameless[..9]),
        answer(11, 8, true, None)
    );
    let none = shown(12, 0, 0, false);
    assert_eq!(quorum_show(&mut [0; 600], &nameless), none);
    let opened = quorum_open(&mut [0; DECISION_MAX], &table("a == 1"), 8);
    assert_eq!(opened, shown(0, 0, 0, false));
}

#[test]
fn openings_are_refused_in_their_order() {
    let mut bad = OP_IS_42;
    bad[4] = 3;
    for (room, table, needed, number) in [
        (0, &bad[..], 0, 12),
        (0, &OP_IS_42[..], 0, 21),
        (0, &OP_IS_42[..], 9, 21),
        (576, &OP_IS_42[..], usize::MAX, 21),
        (575, &OP_IS_42[..], 8, 9),
        (0, &OP_IS_42[..], 1, 9),
    ] {
        let mut buffer = vec![0xAA; room];
        assert_eq!(
            quorum_open(&mut buffer, table, needed),
            shown(number, 0, 0, false)
        );
        // "a refused opening makes none"
        assert_eq!(buffer, vec![0xAA; room]);
        assert_eq!(quorum_show(&mut buffer, &OP42), shown(12, 0, 0, false));
    }
}

/// The bytes of an example of docs/FORMATS.md: hex, then two spaces and words; `00 x 8` is eight times 00.
fn example(label: &str) -> Vec<u8> {
    let page = include_str!("../../docs/FORMATS.md");
    let start = format!("```{label}\n");
    let block = page.split(&start).nth(1).unwrap().split("```").next();
    let mut bytes = Vec::new();
    for line in block.unwrap().lines() {
        let hex: Vec<&str> = line.split("  ").next().unwrap().split(' ').collect();
        let mut i = 0;
        while i < hex.len() {
            let byte = u8::from_str_radix(hex[i], 16).unwrap();
            let times = match hex.get(i + 1) {
                Some(&"x") => hex[i + 2].parse().unwrap(),
                _ => 1,
            };
            bytes.extend(vec![byte; times]);
            i += if times == 1 { 1 } else { 3 };
        }
    }
    bytes
}

#[test]
fn the_examples_of_the_formats() {
    assert_eq!(example("notice"), OP42);
    assert_eq!(example("table"), OP_IS_42);
    let notice = example("staff");
    assert_eq!(check_notice(&notice).number, 0);
    assert_eq!(read(&notice, 0).value, 42i32.to_le_bytes());
    assert_eq!(
        (read(&notice, 1).name, read(&notice, 1).value),
        (&b"Staff"[..], &b"417"[..])
    );
    let mut d = opened(&OP_IS_42, 2);
    assert_eq!(d, example("opened"));
    assert_eq!(quorum_show(&mut d, &notice), shown(0, 0, 1, false));
    assert_eq!(d, example("counted"));
    let mut store = Store::make(vec![0; 64]).unwrap();
    assert_eq!(store.as_bytes(), example("empty"));
    assert_eq!(store.add(OP_IS_42), Ok(0));
    assert_eq!(store.as_bytes(), example("held"));
    assert_eq!(store.remove(0), Ok(()));
    assert_eq!(store.as_bytes()[..8], example("empty")[..8]);
    assert_eq!(store.as_bytes()[8..], example("held")[8..]);
    let (mut list, mut mended) = ([0; LIST_MAX], [0; NOTICE_MAX]);
    let m = mend(&example("damaged"), &mut list, &mut mended);
    assert_eq!(mended[..m.length], notice);
    assert_eq!(list[..LISTED * m.fields], example("list"));
}

fn converted(number: u8, place: usize, length: usize) -> Converted {
    Converted {
        number,
        place,
        length,
    }
}

#[test]
fn a_door_text_is_a_notice_and_back() {
    let mut buffer = [0xAA; 21];
    assert_eq!(
        ubf_read(b" { \"Op\" %a door% 042 }$", &mut buffer),
        converted(0, 0, 19)
    );
    assert_eq!(buffer[..19], OP42);
    assert_eq!(buffer[19..], [0xAA; 2]);
    let mut text = [0xAA; 12];
    assert_eq!(ubf_write(&OP42, &mut text), converted(0, 0, 9));
    assert_eq!(text, *b"{\"Op\"42}$\xAA\xAA\xAA");
}

/// A field of each kind that a text has, names not in order; the notice has them in order.
#[test]
fn each_kind_of_a_door_text() {
    let text = b"{\"s\"\"a\\\"\\\\$\"\"o\"3~~$\"~\"i\"-2147483648\"I\"-9`int64`}$";
    let mut buffer = [0; 100];
    let r = ubf_read(text, &mut buffer);
    let notice = &buffer[..r.length];
    let fields: Vec<(&[u8], u16, &[u8])> = (0..4)
        .map(|k| read(notice, k))
        .map(|f| (f.name, f.kind, f.value))
        .collect();
    assert_eq!(
        fields,
        [
            (&b"I"[..], kind::INT64, &(-9i64).to_le_bytes()[..]),
            (b"i", kind::INT32, &i32::MIN.to_le_bytes()),
            (b"o", kind::OPAQUE, b"~$\""),
            (b"s", kind::STRING, b"a\"\\$"),
        ]
    );
    let mut written = [0; 100];
    let w = ubf_write(notice, &mut written);
    assert_eq!(
        written[..w.length],
        *b"{\"I\"-9`int64`\"i\"-2147483648\"o\"3~~$\"~\"s\"\"a\\\"\\\\$\"}$"
    );
}

#[test]
fn refused_door_texts_change_no_byte() {
    let cases: [(&[u8], u8); 14] = [
        (b"", 22),
        (b"{\"Op\"42}", 22),
        (b"{\"Op\"42}$ ", 22),
        (b"{\"Op\",42}$", 22),
        (b"{\"Op\"2~abc~}$", 22),
        (b"$", 23),
        (b"{\"Op\"2147483648}$", 23),
        (b"{\"Op\"42`int32`}$", 23),
        (b"{\"Op\"}$", 23),
        (b"{\"\"42\"Op\"1\"Op\"1}$", 13),
        (b"{\"Op\"1\"Op\"1}$", 14),
        (b"{\"Op\"42\"Oq\"42}$", 15),
        (b"{\"Op\"\"a\"}$", 0),
        (b"{\"Op\"42}$", 0),
    ];
    for (text, number) in cases {
        let mut buffer = [0xAA; 19];
        let r = ubf_read(text, &mut buffer);
        let refused = r == converted(number, 0, 0) && buffer == [0xAA; 19];
        assert_eq!(r.number, number, "{}", text.escape_ascii());
        assert_eq!(refused, number != 0, "{}", text.escape_ascii());
    }
    let mut long = b"{\"\\\"Op\"42\"Op\"\"".to_vec();
    long.extend([b'v'; 1025]);
    long.extend(b"\"}$");
    assert_eq!(ubf_read(&long, &mut [0; 19]), converted(16, 0, 0));
}

#[test]
fn refused_notices_of_doors_change_no_byte() {
    let mut real = [0; 100];
    real[..19].copy_from_slice(&OP42);
    let length = write(&mut real, 19, b"r", kind::REAL64, &[0; 8]).length;
    let mut cut = OP42;
    cut[8] = 8;
    let cases: [(&[u8], usize, u8, usize); 5] = [
        (&cut, 0, 11, 8),
        (&OP42[..18], 100, 11, 0),
        (&real[..length], 0, 23, 0),
        (&OP42, 8, 15, 0),
        (&EMPTY_NOTICE, 2, 15, 0),
    ];
    for (notice, room, number, place) in cases {
        let mut text = vec![0xAA; room];
        assert_eq!(ubf_write(notice, &mut text), converted(number, place, 0));
        assert_eq!(text, vec![0xAA; room]);
    }
    assert_eq!(ubf_write(&EMPTY_NOTICE, &mut [0; 3]), converted(0, 0, 3));
}

fn delivered(number: u8, place: usize, count: usize) -> Delivered {
    Delivered {
        number,
        place,
        count,
    }
}

/// The verdict bytes of tables laid end to end; each is what `run` answers for the table.
fn many(tables: &[&[u8]], notice: &[u8]) -> Vec<u8> {
    let mut verdicts = vec![0xAA; tables.len() + 2];
    let d = run_many(&tables.concat(), notice, &mut verdicts);
    assert_eq!(d, delivered(0, 0, tables.len()));
    // "Bytes past the last verdict stay."
    assert_eq!(verdicts.split_off(tables.len()), [0xAA; 2]);
    for (table, byte) in tables.iter().zip(&verdicts) {
        let r = run(table, notice);
        assert_eq!(r.number, if *byte == REFUSED { 12 } else { 0 });
        assert_eq!(
            r.verdict,
            Verdict::of_byte(*byte).unwrap_or(Verdict::Bottom)
        );
    }
    verdicts
}

#[test]
fn one_notice_and_many_subscriptions() {
    let (no, undecided) = (table("Op == 41"), table("Staff != \"417\""));
    let mut refused = OP_IS_42;
    refused[4] = 3;
    // "0 false, 1 true, 2 bottom, 3 table refused", in any order
    let all: [&[u8]; 4] = [&no, &OP_IS_42, &undecided, &refused];
    assert_eq!(many(&all, &OP42), [0, 1, 2, 3]);
    assert_eq!(many(&all, &EMPTY_NOTICE), [2, 2, 2, 3]);
    let again: [&[u8]; 5] = [&refused, &undecided, &OP_IS_42, &no, &OP_IS_42];
    assert_eq!(many(&again, &OP42), [3, 2, 1, 0, 1]);
    assert_eq!(many(&[], &OP42), [0; 0]);
    let read: Vec<Option<Verdict>> = (0..=4).map(Verdict::of_byte).collect();
    let (f, t, b) = (Verdict::False, Verdict::True, Verdict::Bottom);
    assert_eq!(read, [Some(f), Some(t), Some(b), None, None]);
}

#[test]
fn where_a_table_ends() {
    let right = &OP_IS_42[..];
    let word = |length: u32| length.to_le_bytes();
    // a length word of 0, and others under that of any table: each is refused, and the walk goes on
    let short = [&word(1)[..], &[7]].concat();
    let header = [&word(6)[..], &[2, 0, 0, 0, 0, 0]].concat();
    let tables: [&[u8]; 6] = [&word(0), right, &short, &word(0), &header, right];
    assert_eq!(many(&tables, &OP42), [3, 1, 3, 3, 3, 1]);
    // "or 1 to 3 bytes are left": zeros, and a right table's start
    for left in 1..=3 {
        assert_eq!(many(&[right, &[0; 3][..left]], &OP42), [1, 3]);
        assert_eq!(many(&[right, &right[..left]], &OP42), [1, 3]);
        assert_eq!(many(&[&right[..left]], &OP42), [3]);
    }
    // "if that passes the end .. the remainder counts as one refused table", whatever stands in it
    for left in [4, 5, 10, 22, 47] {
        assert_eq!(many(&[right, &right[..left]], &OP42), [1, 3]);
    }
    let mut both = [right, right].concat();
    for (length, size) in [
        (45, 48),
        (93, 96),
        (1 << 31, 96),
        (u32::MAX - 3, 96),
        (u32::MAX, 96),
    ] {
        both[..4].copy_from_slice(&word(length));
        assert_eq!(many(&[right, &both[..size]], &OP42), [1, 3], "{length}");
    }
    // one that goes just to the end is one table, not two
    both[..4].copy_from_slice(&word(92));
    assert_eq!(many(&[&both], &OP42), [3]);
    assert_eq!(many(&[right, &both, right], &OP42), [1, 3, 1]);
}

#[test]
fn many_tables_are_refused_in_their_order() {
    let mut cut = OP42;
    cut[8] = 8;
    let tables = |count: usize, rest: &[u8]| [&OP_IS_42.repeat(count), rest].concat();
    // "11, then 24 for over 64 tables, then 9 if the verdict buffer is short"; "The remainder counts"
    let cases: [(Vec<u8>, &[u8], usize, Delivered); 12] = [
        (tables(65, &[]), &cut, 0, delivered(11, 8, 0)),
        (tables(2, &[]), &cut, 1, delivered(11, 8, 0)),
        (tables(0, &[]), &OP42[..18], 64, delivered(11, 0, 0)),
        (tables(65, &[]), &OP42, 64, delivered(24, 0, 0)),
        (tables(65, &[]), &OP42, 65, delivered(24, 0, 0)),
        (tables(64, &[0]), &OP42, 65, delivered(24, 0, 0)),
        (tables(64, &OP_IS_42[..47]), &OP42, 9, delivered(24, 0, 0)),
        (vec![0; 4 * 70], &OP42, 100, delivered(24, 0, 0)),
        (tables(64, &[]), &OP42, 63, delivered(9, 0, 0)),
        (tables(63, &[0, 0, 0]), &OP42, 63, delivered(9, 0, 0)),
        (tables(1, &[]), &OP42, 0, delivered(9, 0, 0)),
        (tables(0, &[0]), &OP42, 0, delivered(9, 0, 0)),
    ];
    for (tables, notice, room, answer) in cases {
        let mut verdicts = vec![0xAA; room];
        assert_eq!(run_many(&tables, notice, &mut verdicts), answer);
        assert_eq!(verdicts, vec![0xAA; room]);
    }
    for (rest, last) in [(&OP_IS_42[..], 1), (&[0; 4], 3), (&[0; 3], 3)] {
        let mut verdicts = [0xAA; TABLES_MAX];
        let answer = run_many(&tables(63, rest), &OP42, &mut verdicts);
        assert_eq!(answer, delivered(0, 0, TABLES_MAX));
        assert_eq!(verdicts[..63], [1; 63]);
        assert_eq!(verdicts[63], last);
    }
}
