//! Notices by their type, against the raw functions.
use super::*;
use crate::tests::OP42;
use crate::{Kind, Value};

/// A notice of a field of each kind.
fn each_kind(buffer: &mut [u8]) -> NoticeRef<'_> {
    NoticeRef::builder_in(buffer)
        .field("s", "417")
        .field("o", Value::Opaque(b"\0"))
        .field("i", 42)
        .field("r", 1.5)
        .field("I", 42i64)
        .build()
        .unwrap()
}

/// What a byte changed or cut makes of a notice is refused as the library refuses it, or is a notice.
#[test]
fn no_type_without_the_check() {
    let mut buffer = [0; 100];
    let right = each_kind(&mut buffer).as_bytes().to_vec();
    let agrees = |bytes: &[u8]| {
        let checked = raw::check_notice(bytes);
        match NoticeRef::from_bytes(bytes) {
            Ok(notice) => assert_eq!((checked.number, notice.as_bytes()), (0, bytes)),
            Err(refusal) => assert_eq!(
                refusal,
                Refusal::Notice {
                    place: checked.place
                }
            ),
        }
        checked.number == 0
    };
    (0..right.len()).for_each(|end| assert!(!agrees(&right[..end])));
    let mut notices = 0;
    for (at, byte) in (0..right.len()).flat_map(|at| (0..=255).map(move |byte| (at, byte))) {
        let mut changed = right.clone();
        changed[at] = byte;
        notices += usize::from(agrees(&changed));
    }
    assert!(notices > right.len() && notices < 256 * right.len());
    assert_eq!(NoticeRef::try_from(&right[..]).map(NoticeRef::len), Ok(5));
}

#[test]
fn fields_are_those_that_reading_finds() {
    let mut buffer = [0; 100];
    let notice = each_kind(&mut buffer);
    assert_eq!((notice.len(), notice.fields().len()), (5, 5));
    for (k, field) in notice.fields().enumerate() {
        let read = raw::read(notice.as_bytes(), k);
        assert_eq!(
            (field.name, field.value.kind().number()),
            (read.name, read.kind)
        );
        field
            .value
            .with_bytes(|bytes| assert_eq!(bytes, read.value));
        assert_eq!(notice.find(field.name), Some(field));
        assert_eq!(notice.field(k), Ok(field));
        // a part of the notice, not a copy
        assert!(
            notice
                .as_bytes()
                .as_ptr_range()
                .contains(&field.name.as_ptr())
        );
    }
    let names: String = notice.into_iter().map(|field| field.name_str()).collect();
    assert_eq!(names, "Iiors");
    let mut fields = notice.fields();
    assert_eq!(fields.next().map(|f| f.value.kind()), Some(Kind::Int64));
    assert_eq!((fields.len(), fields.by_ref().count()), (4, 4));
    assert_eq!((fields.len(), fields.next()), (0, None));
    for k in [5, 6, 64, usize::MAX] {
        assert_eq!(notice.field(k), Err(Refusal::Index));
    }
}

#[test]
fn names_that_no_field_has() {
    let mut buffer = [0; 100];
    let notice = each_kind(&mut buffer);
    for name in [&b""[..], b"S", b"ss", b"\xFF", &[b'i'; 65]] {
        assert_eq!(notice.find(name), None);
        assert_eq!(NoticeRef::EMPTY.find(name), None);
    }
}

#[test]
fn notices_are_told() {
    let mut buffer = [0; 100];
    let notice = each_kind(&mut buffer);
    let lines = "I: 42L\ni: 42\no: [00]\nr: 1.5\ns: \"417\"\n";
    assert_eq!(notice.to_string(), lines);
    let op42 = NoticeRef::from_bytes(&OP42).unwrap();
    assert_eq!(
        format!("{op42:?}"),
        "[Field { name: [79, 112], value: Int32(42) }]"
    );
    assert_eq!(NoticeRef::EMPTY.to_string(), "(no fields)\n");
}

/// 64 fields, of which the last ones are as long as the room of 16,384 bytes lets them be.
#[cfg(feature = "alloc")]
#[test]
fn a_notice_grows_to_its_limits() {
    use crate::NOTICE_MAX;
    let mut notice = Notice::new();
    let long = [b'v'; 1024];
    for k in 0..15 {
        notice
            .insert(format!("{k:02}"), Value::String(&long))
            .unwrap();
    }
    let left = NOTICE_MAX - notice.as_bytes().len() - 5 - 2;
    let before = notice.clone();
    assert_eq!(
        notice.insert("15", Value::Opaque(&long[..left + 1])),
        Err(Refusal::Room)
    );
    assert_eq!(notice, before);
    assert_eq!(notice.insert("15", Value::Opaque(&long[..left])), Ok(()));
    assert_eq!((notice.as_bytes().len(), notice.len()), (NOTICE_MAX, 16));
    assert_eq!(notice.insert("16", ""), Err(Refusal::Room));
    let mut many = Notice::new();
    for k in 0..64 {
        many.insert(format!("{k}"), k).unwrap();
    }
    assert_eq!((many.insert("64", 0), many.len()), (Err(Refusal::Room), 64));
}

#[cfg(feature = "alloc")]
#[test]
fn a_refused_field_changes_nothing() {
    let mut notice = Notice::from_bytes(OP42).unwrap();
    let long = [b'v'; 1025];
    let name = [b'n'; 65];
    let cases: [(&[u8], Value, Refusal); 7] = [
        (b"", Value::String(&long), Refusal::Name),
        (&name, Value::from(1), Refusal::Name),
        (b"Op\n", Value::from(1), Refusal::Name),
        (b"Op", Value::String(&long), Refusal::Size),
        (b"N", Value::Opaque(&long), Refusal::Size),
        (b"Op", Value::from("v"), Refusal::Present),
        (b"Op", Value::from(42), Refusal::Present),
    ];
    for (name, value, refusal) in cases {
        assert_eq!(notice.insert(name, value), Err(refusal));
        assert_eq!(notice.as_bytes(), OP42);
    }
}

#[cfg(feature = "alloc")]
#[test]
fn owned_and_borrowed_notices_are_the_same() {
    let mut buffer = [0; 100];
    let lent = each_kind(&mut buffer);
    let owned = Notice::from(lent);
    assert_eq!((owned.as_notice(), NoticeRef::from(&owned)), (lent, lent));
    assert_eq!(
        (owned.len(), owned.is_empty(), Notice::default().is_empty()),
        (5, false, true)
    );
    assert!(owned.fields().eq(lent.fields()) && (&owned).into_iter().eq(lent));
    assert_eq!(
        (owned.field(0), owned.find("s")),
        (lent.field(0), lent.find("s"))
    );
    assert_eq!(
        (owned.to_string(), format!("{owned:?}")),
        (lent.to_string(), format!("{lent:?}"))
    );
    let bytes = owned.clone().into_bytes();
    assert_eq!(Notice::try_from(bytes), Ok(owned));
    let refused = Notice::try_from(OP42[1..].to_vec());
    assert_eq!(refused, Err(Refusal::Notice { place: 0 }));
}

/// Removing a field leaves the notice that is built without it, each of 64 and in any order.
#[cfg(feature = "alloc")]
#[test]
fn a_notice_without_a_field_is_the_one_built_without_it() {
    let names: Vec<String> = (0..64)
        .map(|k| format!("{}{k}", ["b", "A", "~", "m"][k % 4]))
        .collect();
    let bits = f64::from_bits(0x7FF0_0000_0000_0001);
    let built = |without: &[&String]| {
        let kept = names.iter().filter(|name| !without.contains(name));
        let built = kept.fold(Notice::builder(), |built, name| match name.len() {
            2 => built.field(name, bits),
            _ => built.field(name, name.as_str()),
        });
        built.build().unwrap()
    };
    for name in &names {
        let mut notice = built(&[]);
        assert!(notice.remove(name) && !notice.remove(name));
        assert_eq!(notice, built(&[name]));
        assert_eq!(raw::check_notice(notice.as_bytes()).number, 0);
        assert!(notice.insert(name, 1).is_ok());
    }
    let mut notice = built(&[]);
    assert!(names.iter().rev().all(|name| notice.remove(name)));
    assert_eq!(notice, Notice::new());
    assert!(!notice.remove("") && !notice.remove([b'x'; 200]));
}
