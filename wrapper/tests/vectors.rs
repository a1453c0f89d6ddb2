//! The static library on vectors of tests/vectors, whose answers are from elsewhere: one case a line, byte
//! strings in hex, `-` for none, numbers in decimal.

use std::fs::read_to_string;

/// The cases of the file, of which there are so many, each in words.
fn cases(file: &str, count: usize, mut case: impl FnMut(&[&str])) {
    let path = format!("{}/../tests/vectors/{file}", env!("CARGO_MANIFEST_DIR"));
    let lines = read_to_string(path).expect(file);
    assert_eq!(lines.lines().count(), count, "{file}");
    lines
        .lines()
        .for_each(|line| case(&line.split(' ').collect::<Vec<_>>()));
}

fn bytes(word: &str) -> Vec<u8> {
    let digits = if word == "-" { "" } else { word };
    (0..digits.len())
        .step_by(2)
        .map(|at| u8::from_str_radix(&digits[at..at + 2], 16).expect("hex"))
        .collect()
}

fn number<T: std::str::FromStr>(word: &str) -> T {
    word.parse().ok().expect("a number")
}

/// Edition, text, buffer length, number, place, table.
fn translations(file: &str, count: usize) {
    cases(file, count, |words| {
        let [edition, text, room, refusal, place, table] = words else {
            panic!("{words:?}");
        };
        let table = bytes(table);
        let mut buffer = vec![0xAA; number(room)];
        let t = virentolex::raw::translate_numbered(number(edition), &bytes(text), &mut buffer);
        let meant = (number(refusal), number(place), table.len());
        assert_eq!((t.number, t.place, t.length), meant, "{words:?}");
        assert_eq!(buffer[..t.length], table, "{words:?}");
        assert!(buffer[t.length..].iter().all(|byte| *byte == 0xAA));
    });
}

/// Table, number.
fn checks(file: &str, count: usize) {
    cases(file, count, |words| {
        let [table, refusal] = words else {
            panic!("{words:?}");
        };
        assert_eq!(
            virentolex::raw::check(&bytes(table)),
            number(refusal),
            "{table}"
        );
    });
}

/// Table, notice, number, place, verdict, steps, undecided entry.
fn runs(file: &str, count: usize) {
    cases(file, count, |words| {
        let [table, notice, answer @ ..] = words else {
            panic!("{words:?}");
        };
        let r = virentolex::raw::run(&bytes(table), &bytes(notice));
        let told = format!(
            "{} {} {} {} {}",
            r.number,
            r.place,
            r.verdict,
            r.steps,
            r.undecided.unwrap_or(65535)
        );
        assert_eq!(told, answer.join(" "), "{words:?}");
    });
}

/// Document 02, request 9.
#[test]
fn both_editions() {
    translations("09-translate.txt", 500);
    checks("09-check.txt", 299);
    runs("09-run.txt", 600);
}

/// Document 02, request 13.
#[test]
fn regular_expressions() {
    translations("13-translate.txt", 500);
    checks("13-check.txt", 300);
    runs("13-run.txt", 600);
}

/// The table of the op on a value and a pattern, both of which stand in the pool.
fn pattern_table(op: u8, value: &[u8], pattern: &[u8]) -> Vec<u8> {
    let pool = [value, pattern].concat();
    let mut table = vec![2, 0, 3, 0];
    table.extend((pool.len() as u16).to_le_bytes());
    let entries = [
        (4, value.len(), 0),
        (4, pattern.len(), value.len()),
        (op, 1, 0),
    ];
    for (op, a, b) in entries {
        table.extend([op, 0]);
        table.extend((a as u16).to_le_bytes());
        table.extend((b as u64).to_le_bytes());
    }
    table.extend(pool);
    let length = table.len() as u32;
    [&length.to_le_bytes()[..], &table].concat()
}

/// Pattern, value, whether the pattern is well-formed, whether the value fits.
#[test]
fn patterns() {
    for (file, count, op) in [("01-patterns.txt", 900, 60), ("13-patterns.txt", 1200, 61)] {
        cases(file, count, |words| {
            let [pattern, value, right, fits] = words else {
                panic!("{words:?}");
            };
            let table = pattern_table(op, &bytes(value), &bytes(pattern));
            let r = virentolex::raw::run(&table, &virentolex::raw::EMPTY_NOTICE);
            let meant = match (*right, *fits) {
                ("1", "1") => (0, virentolex::raw::Verdict::True),
                ("1", "0") => (0, virentolex::raw::Verdict::False),
                _ => (12, virentolex::raw::Verdict::Bottom),
            };
            assert_eq!((r.number, r.verdict), meant, "{words:?}");
            assert_eq!(virentolex::raw::check(&table), r.number, "{words:?}");
        });
    }
}

/// The fields of a notice: kind, name and value.
fn fields(notice: &[u8]) -> Vec<(u16, &[u8], &[u8])> {
    let read = |k| virentolex::raw::read(notice, k);
    let all = (0..).map(read).take_while(|field| field.number == 0);
    all.map(|field| (field.kind, field.name, field.value))
        .collect()
}

/// Document 02, request 10: edition, text, notice, larger notice, both verdicts. "If the first gives true, so
/// does the second; if false, likewise."
#[test]
fn more_fields_never_turn_a_verdict_round() {
    cases("10-more.txt", 300, |words| {
        let [edition, text, notice, larger, first, second] = words else {
            panic!("{words:?}");
        };
        let (notice, larger) = (bytes(notice), bytes(larger));
        let held = fields(&larger);
        assert!(fields(&notice).iter().all(|field| held.contains(field)));
        let mut table = vec![0; virentolex::raw::TABLE_MAX];
        let t = virentolex::raw::translate_numbered(number(edition), &bytes(text), &mut table);
        assert_eq!(t.number, 0, "{words:?}");
        let run = |notice: &[u8]| {
            let r = virentolex::raw::run(&table[..t.length], notice);
            assert_eq!(r.number, 0, "{words:?}");
            r.verdict.to_string()
        };
        let verdicts = (run(&notice), run(&larger));
        assert_eq!(
            (&verdicts.0[..], &verdicts.1[..]),
            (*first, *second),
            "{words:?}"
        );
        assert!(verdicts.0 == "bottom" || verdicts.0 == verdicts.1);
    });
}

/// Document 02, request 14: bytes, list buffer's length, notice buffer's length, number, place, notice, fields listed,
/// the list's bytes.
#[test]
fn mending() {
    cases("14-mend.txt", 450, |words| {
        let [
            damaged,
            list,
            notice,
            refusal,
            place,
            mended,
            fields,
            listed,
        ] = words
        else {
            panic!("{words:?}");
        };
        let (mended, listed) = (bytes(mended), bytes(listed));
        let (mut list, mut notice) = (vec![0xAA; number(list)], vec![0xAA; number(notice)]);
        let m = virentolex::raw::mend(&bytes(damaged), &mut list, &mut notice);
        let meant = (number(refusal), number(place), mended.len(), number(fields));
        assert_eq!((m.number, m.place, m.length, m.fields), meant, "{words:?}");
        assert_eq!(notice[..mended.len()], mended, "{words:?}");
        assert_eq!(list[..listed.len()], listed, "{words:?}");
        let past = [&list[listed.len()..], &notice[mended.len()..]].concat();
        assert!(past.iter().all(|byte| *byte == 0xAA), "{words:?}");
    });
}
