//! Typed values and their bytes.
use super::*;

fn values() -> [Value<'static>; 8] {
    [
        Value::Int32(i32::MIN),
        Value::Int64(i64::MAX),
        Value::Real64(-0.5),
        Value::Real64(f64::INFINITY),
        Value::String(b""),
        Value::String(b"417"),
        Value::Opaque(b"\0\xFF"),
        Value::Opaque(b""),
    ]
}

#[test]
fn a_value_is_that_of_its_bytes() {
    for value in values() {
        let kind = value.kind().number();
        value.with_bytes(|bytes| assert_eq!(Value::of_parts(kind, bytes), Some(value)));
    }
    Value::Int32(-2).with_bytes(|bytes| assert_eq!(bytes, [0xFE, 0xFF, 0xFF, 0xFF]));
    // a NaN keeps its bits
    let bits = 0xFFF0_0000_0000_0001u64;
    Value::Real64(f64::from_bits(bits)).with_bytes(|bytes| assert_eq!(bytes, bits.to_le_bytes()));
}

#[test]
fn bytes_that_are_no_value_of_the_kind() {
    for length in 0..10 {
        let bytes = &[0; 10][..length];
        assert_eq!(Value::of_parts(kind::INT32, bytes).is_some(), length == 4);
        assert_eq!(Value::of_parts(kind::INT64, bytes).is_some(), length == 8);
        assert_eq!(Value::of_parts(kind::REAL64, bytes).is_some(), length == 8);
    }
    for kind in [0, 6, 257, u16::MAX] {
        assert_eq!(Value::of_parts(kind, &[0; 4]), None);
    }
}

#[test]
fn kinds_have_their_numbers_and_words() {
    let kinds = [
        Kind::Int32,
        Kind::Int64,
        Kind::Real64,
        Kind::String,
        Kind::Opaque,
    ];
    assert_eq!(kinds.map(Kind::number), [1, 2, 3, 4, 5]);
    let words = kinds.map(|kind| kind.to_string());
    assert_eq!(words, ["int32", "int64", "real64", "string", "opaque"]);
    let told = values().map(|value| value.kind().number());
    assert_eq!(told, [1, 2, 3, 3, 4, 4, 5, 5]);
}

#[test]
fn values_are_asked_for_their_bytes_and_text() {
    assert_eq!(Value::from("é").as_str(), Some("é"));
    assert_eq!(Value::from("é").as_bytes(), Some(&b"\xC3\xA9"[..]));
    assert_eq!(Value::String(b"\xC3").as_str(), None);
    assert_eq!(
        (Value::Opaque(b"a").as_str(), Value::from(1.5).as_bytes()),
        (None, None)
    );
}

#[test]
fn fields_are_told() {
    let field = |value| Field { name: b"N", value }.to_string();
    let told = values().map(field);
    let meant = [
        "N: -2147483648",
        "N: 9223372036854775807L",
        "N: -0.5",
        "N: inf",
        "N: \"\"",
        "N: \"417\"",
        "N: [00 FF]",
        "N: []",
    ];
    assert_eq!(told, meant);
    // what is no name of a notice is no text either
    let wrong = Field {
        name: b"\xFF",
        value: Value::from(1),
    };
    assert_eq!(wrong.name_str(), "");
}

#[test]
fn numbers_become_the_least_kind_that_holds_their_type() {
    let narrow = [
        Value::from(i8::MIN),
        i16::MIN.into(),
        i32::MIN.into(),
        u8::MAX.into(),
        u16::MAX.into(),
    ];
    let held = [-128, -32768, i32::MIN, 255, 65535].map(Value::Int32);
    assert_eq!(narrow, held);
    assert_eq!(Value::from(u32::MAX), Value::Int64(4_294_967_295));
    assert_eq!(Value::from(i64::MIN), Value::Int64(i64::MIN));
    assert_eq!(Value::from(0.1f32), Value::Real64(f64::from(0.1f32)));
    // a literal is an int32, or a real64
    assert_eq!(
        (Value::from(1).kind(), Value::from(1.0).kind()),
        (Kind::Int32, Kind::Real64)
    );
}

#[test]
fn wide_numbers_become_int64_if_it_holds_them() {
    let limit = i64::MAX as u64;
    assert_eq!(Value::try_from(limit), Ok(Value::Int64(i64::MAX)));
    assert!(Value::try_from(limit + 1).is_err());
    assert_eq!(Value::try_from(0u64), Ok(Value::Int64(0)));
    assert_eq!(Value::try_from(7usize), Ok(Value::Int64(7)));
    assert_eq!(Value::try_from(-7isize), Ok(Value::Int64(-7)));
    assert_eq!(
        Value::try_from(i128::from(i64::MIN)),
        Ok(Value::Int64(i64::MIN))
    );
    assert!(Value::try_from(i128::from(i64::MIN) - 1).is_err());
    assert!(Value::try_from(u128::MAX).is_err());
}

#[test]
fn values_become_numbers_that_hold_them() {
    for (value, fits) in [(127, true), (128, false), (-128, true), (-129, false)] {
        assert_eq!(i8::try_from(Value::Int32(value)).is_ok(), fits, "{value}");
        assert_eq!(
            i8::try_from(Value::Int64(value.into())).is_ok(),
            fits,
            "{value}"
        );
    }
    let negative = u64::try_from(Value::Int64(-1)).map_err(|other| other.kind);
    assert_eq!(negative, Err(Kind::Int64));
    assert_eq!(i64::try_from(Value::Int32(-1)), Ok(-1));
    assert_eq!(usize::try_from(Value::Int32(3)), Ok(3));
    assert_eq!(
        i32::try_from(Value::Int64(1 << 31)).map_err(|e| e.kind),
        Err(Kind::Int64)
    );
    assert_eq!(
        i32::try_from(Value::Real64(1.0)).map_err(|e| e.kind),
        Err(Kind::Real64)
    );
    assert_eq!(f64::try_from(Value::Int32(i32::MIN)), Ok(-2147483648.0));
    assert!(f64::try_from(Value::from("1.5")).is_err());
}

/// What asking for a `u64` in vain answers.
fn other() -> OtherKind {
    u64::try_from(Value::Opaque(b"")).unwrap_err()
}

#[test]
fn what_is_of_another_kind_is_told() {
    assert_eq!(other().to_string(), "opaque, where a u64 is asked");
    let told = <&str>::try_from(Value::Int64(1)).map_err(|other| other.to_string());
    assert_eq!(told, Err("an int64, where UTF-8 text is asked".to_string()));
    let told = f64::try_from(Value::Int64(1)).map_err(|other| other.to_string());
    assert_eq!(told, Err("an int64, where an f64 is asked".to_string()));
    for number in 0..=300 {
        let kind = Kind::try_from(number);
        assert_eq!(
            kind.map_or(0, Kind::number),
            if number <= 5 { number } else { 0 }
        );
    }
}

#[cfg(feature = "alloc")]
#[test]
fn strings_that_own_their_text() {
    use std::borrow::Cow;
    let (owned, boxed): (String, Box<str>) = ("yard".into(), "yard".into());
    let cows: [Cow<str>; 2] = ["yard".into(), owned.clone().into()];
    let values: [Value; 4] = [
        (&owned).into(),
        (&boxed).into(),
        (&cows[0]).into(),
        (&cows[1]).into(),
    ];
    assert_eq!(values, [Value::String(b"yard"); 4]);
}
