//! UBF(A) both ways; the cases are document 02's request 5.
use super::*;
use crate::Value;
use crate::tests::OP42;

#[test]
fn a_door_text_is_a_notice_and_back() {
    let text = b"{\"s\"\"a\\\"\\\\$\"\"o\"3~~$\"~\"i\"-2147483648\"I\"-9`int64`}$";
    let mut room = [0xAA; 100];
    let notice = NoticeRef::from_ubf_in(text, &mut room).unwrap();
    let values: Vec<Value> = notice.fields().map(|field| field.value).collect();
    let meant = [
        Value::Int64(-9),
        Value::Int32(i32::MIN),
        Value::Opaque(b"~$\""),
        Value::String(b"a\"\\$"),
    ];
    assert_eq!(values, meant);
    let mut written = [0xAA; 100];
    let fixed = b"{\"I\"-9`int64`\"i\"-2147483648\"o\"3~~$\"~\"s\"\"a\\\"\\\\$\"}$";
    assert_eq!(notice.to_ubf_in(&mut written), Ok(&fixed[..]));
    let mut again = [0; 100];
    assert_eq!(NoticeRef::from_ubf_in(fixed, &mut again), Ok(notice));
    assert_eq!(written[fixed.len()..], vec![0xAA; 100 - fixed.len()]);
    // the bytes after the notice stay
    assert_eq!(room[99], 0xAA);
}

#[test]
fn refused_texts_change_no_byte() {
    let long = [b"{\"a\"\"", &[b'v'; 1025][..], b"\"}$"].concat();
    let cases: [(&[u8], Refusal); 8] = [
        (b"{\"Op\"42}", Refusal::UbfSyntax),
        (b"$", Refusal::UbfFields),
        (b"{\"Op\"42`int32`}$", Refusal::UbfFields),
        (b"{\"\"42}$", Refusal::Name),
        (&long, Refusal::Size),
        (b"{\"Op\"1\"Op\"1}$", Refusal::Present),
        (b"{\"Op\"42\"Oq\"42}$", Refusal::Room),
        (b"", Refusal::UbfSyntax),
    ];
    for (text, refusal) in cases {
        let mut room = [0xAA; 19];
        let read = NoticeRef::from_ubf_in(text, &mut room);
        assert_eq!(read, Err(refusal), "{}", text.escape_ascii());
        assert_eq!(room, [0xAA; 19]);
    }
}

#[test]
fn refused_notices_change_no_byte() {
    let mut room = [0; 50];
    let real = NoticeRef::builder_in(&mut room)
        .field("Fare", 12.5)
        .build()
        .unwrap();
    let op42 = NoticeRef::from_bytes(&OP42).unwrap();
    for (notice, length, refusal) in [
        (real, 0, Refusal::UbfFields),
        (op42, 8, Refusal::Room),
        (NoticeRef::EMPTY, 2, Refusal::Room),
    ] {
        let mut text = vec![0xAA; length];
        assert_eq!(notice.to_ubf_in(&mut text), Err(refusal));
        assert_eq!(text, vec![0xAA; length]);
    }
}

/// A text as long as any: 64 fields whose values are quotes, each of which takes an escape.
#[cfg(feature = "alloc")]
#[test]
fn the_longest_texts() {
    let mut notice = Notice::new();
    let quotes = [b'"'; 1024];
    for k in 0..64 {
        let name = format!("{k:02}");
        let room = NOTICE_MAX - notice.as_bytes().len();
        let length = (room / (64 - k)).saturating_sub(7).min(1024);
        notice
            .insert(&name, Value::String(&quotes[..length]))
            .unwrap();
    }
    let text = notice.to_ubf().unwrap();
    assert!(text.len() > 2 * (NOTICE_MAX - 64 * 8) && text.len() <= UBF_TEXT_MAX);
    assert_eq!(Notice::from_ubf(&text), Ok(notice));
    // one that is read may be longer still
    let spaced = [b"{".to_vec(), vec![b' '; 100_000], b"\"Op\"42}$".to_vec()].concat();
    assert_eq!(
        Notice::from_ubf(spaced).map(Notice::into_bytes),
        Ok(OP42.to_vec())
    );
}
