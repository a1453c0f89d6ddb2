use super::*;
use crate::random::Random;
use virentolex::{Notice, Value};

fn source(bytes: &[u8], form: Option<Form>) -> Source {
    Source::new(Box::new(Cursor::new(bytes.to_vec())), form).unwrap()
}

fn records(bytes: &[u8], form: Option<Form>) -> Vec<(usize, Vec<u8>)> {
    let mut source = source(bytes, form);
    let mut record = Vec::new();
    let mut records = Vec::new();
    while source.next(&mut record).unwrap() {
        records.push((source.start, record.clone()));
    }
    records
}

const OP42: &[u8] = b"\x0f\0\0\0\x01\0\x01\0\x09\0\x01\0\x02Op\x2a\0\0\0";
const EMPTY: &[u8] = b"\x04\0\0\0\x01\0\0\0";

#[test]
fn the_form_shows_in_the_first_bytes() {
    for (bytes, form) in [
        (OP42, Form::Binary),
        (EMPTY, Form::Binary),
        (b" \0\0\0", Form::Binary),
        (b"{\"Op\" 42}$", Form::Ubf),
        (b"\n\n          \n\t {}$", Form::Ubf),
        (b"% yard % {}$", Form::Ubf),
        (b"Op: 42", Form::Text),
        (b"# a comment", Form::Text),
        (b"", Form::Text),
    ] {
        assert_eq!(source(bytes, None).form, form, "{bytes:?}");
    }
    assert_eq!(source(OP42, Some(Form::Text)).form, Form::Text);
}

#[test]
fn binary_notices_follow_one_another() {
    let both = [OP42, EMPTY, OP42].concat();
    assert_eq!(
        records(&both, None),
        [
            (0, OP42.to_vec()),
            (19, EMPTY.to_vec()),
            (27, OP42.to_vec())
        ]
    );
}

#[test]
fn a_cut_notice_is_the_last() {
    let cut = [EMPTY, &OP42[..12]].concat();
    assert_eq!(records(&cut, None)[1], (8, OP42[..12].to_vec()));
    let cut = [EMPTY, &OP42[..2]].concat();
    assert_eq!(records(&cut, None)[1], (8, OP42[..2].to_vec()));
}

#[test]
fn a_length_that_no_notice_has_ends_the_records() {
    let mut long = vec![0xff; 40_000];
    long[3] = 0;
    let records = records(&long, Some(Form::Binary));
    assert_eq!(records.len(), 1);
    assert_eq!(records[0].1.len(), virentolex::NOTICE_MAX + 1);
}

#[test]
fn ubf_texts_end_at_their_dollar() {
    let texts: [&[u8]; 4] = [
        b"{\"a$\\\"$\" 1}$",
        b"{\"b\" 3 %$% ~$$$~}$",
        b"{'$' `$` 10~$~ 0123456~}$",
        b"{\"c\" 1}",
    ];
    let all = texts.join(&b"\n \n"[..]);
    let found: Vec<Vec<u8>> = records(&all, Some(Form::Ubf))
        .into_iter()
        .map(|(_, r)| r)
        .collect();
    assert_eq!(found, texts.map(<[u8]>::to_vec));
    assert_eq!(records(b" \n", Some(Form::Ubf)), []);
}

#[test]
fn a_binary_without_a_count_hides_nothing() {
    let found = records(b"{\"a\" ~$", Some(Form::Ubf));
    assert_eq!(found, [(0, b"{\"a\" ~$".to_vec())]);
}

#[test]
fn texts_are_parted_by_blank_lines() {
    let found = records(b"\n\na: 1\nb: 2\n \t\n\n# c\n\nd: 3", None);
    let wanted = [
        (3, b"a: 1\nb: 2\n".to_vec()),
        (7, b"# c\n".to_vec()),
        (9, b"d: 3".to_vec()),
    ];
    assert_eq!(found, wanted);
}

#[test]
fn a_text_without_end_is_an_error() {
    for form in [Form::Ubf, Form::Text] {
        let mut source = Source::new(Box::new(io::repeat(b'a')), Some(form)).unwrap();
        let e = source.next(&mut Vec::new()).unwrap_err();
        assert!(e.to_string().contains("1,048,576"));
    }
}

/// Texts that the library writes end where it would end them, whatever their values hold.
#[test]
fn written_ubf_texts_are_parted() {
    let mut random = Random::new(1);
    let mut texts = Vec::new();
    for _ in 0..300 {
        let mut notice = Notice::new();
        for name in ["a$", "b", "c"] {
            let count = random.below(9);
            let bytes: Vec<u8> = (0..count)
                .map(|_| *random.of(b"$\"'`%~\\{}0 9a\n\0"))
                .collect();
            let value = match random.below(4) {
                0 => Value::String(&bytes),
                1 => Value::Int64(random.below(100) as i64),
                _ => Value::Opaque(&bytes),
            };
            notice.insert(name, value).unwrap();
        }
        texts.push(notice.to_ubf().unwrap());
    }
    let all = texts.join(&b"\n"[..]);
    let found: Vec<Vec<u8>> = records(&all, Some(Form::Ubf))
        .into_iter()
        .map(|(_, r)| r)
        .collect();
    assert_eq!(found, texts);
}
