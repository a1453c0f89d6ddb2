//! Notices built field by field.
use super::*;
use crate::tests::OP42;

#[test]
fn fields_in_any_order_are_one_notice() {
    let orders = [["a", "b", "c"], ["c", "b", "a"], ["b", "c", "a"]];
    let notices = orders.map(|names| {
        let mut room = [0; 60];
        let begun = NoticeRef::builder_in(&mut room);
        let built = names
            .iter()
            .fold(begun, |notice, name| notice.field(name, *name))
            .build();
        built.unwrap().as_bytes().to_vec()
    });
    assert!(notices.iter().all(|notice| *notice == notices[0]));
}

#[test]
fn the_bytes_after_the_notice_stay() {
    let mut room = [0xAA; 24];
    let notice = NoticeRef::builder_in(&mut room).field("Op", 42).build();
    assert_eq!(notice.map(NoticeRef::as_bytes), Ok(&OP42[..]));
    assert_eq!(room[19..], [0xAA; 5]);
}

/// The first refusal is told, whatever is added after it.
#[test]
fn the_first_refusal_is_kept() {
    let long = [b'v'; 1025];
    let cases = [
        ("Op", Value::from(43), Refusal::Present),
        ("Note", Value::String(&long), Refusal::Size),
        ("Note", Value::from("far too long for it"), Refusal::Room),
        ("", Value::from(1), Refusal::Name),
        ("Oq", Value::from(1), Refusal::Name),
    ];
    for (name, value, refusal) in cases {
        let mut room = [0; 40];
        let begun = NoticeRef::builder_in(&mut room).field("Op", 42);
        let built = begun.field(name, value).field("", 1).field("Op", 1).build();
        assert_eq!(built, Err(refusal));
    }
}

#[test]
fn a_buffer_too_short_for_any_notice() {
    for length in 0..8 {
        let mut room = [0xAA; 8];
        let built = NoticeRef::builder_in(&mut room[..length])
            .field("Op", 42)
            .build();
        assert_eq!(built, Err(Refusal::Room));
        assert_eq!(room, [0xAA; 8]);
    }
    assert_eq!(
        NoticeRef::builder_in(&mut [0; 8])
            .build()
            .map(NoticeRef::len),
        Ok(0)
    );
}

#[cfg(feature = "alloc")]
#[test]
fn owned_notices_are_built_alike() {
    let notice = Notice::builder().field("Op", 42).build().unwrap();
    assert_eq!(notice.as_bytes(), OP42);
    assert_eq!(Notice::builder().build(), Ok(Notice::new()));
    let many = (0..65).fold(Notice::builder(), |notice, k| {
        notice.field(format!("{k}"), k)
    });
    assert_eq!(many.build(), Err(Refusal::Room));
}
