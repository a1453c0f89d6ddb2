//! The text form of names and values.
use super::*;

#[test]
fn names_take_a_backslash_where_a_subscription_asks_it() {
    let spelled = |name: &[u8]| Name(name).to_string();
    assert_eq!(spelled(b"Staff"), "Staff");
    assert_eq!(spelled(b"Message-Id"), "Message-Id");
    assert_eq!(spelled(b"1.0 Contents"), "\\1.0\\ Contents");
    assert_eq!(spelled(b"-a"), "\\-a");
    assert_eq!(
        spelled(b"a:b,(c)[d]'\"\\~"),
        "a\\:b\\,\\(c\\)\\[d\\]\\'\\\"\\\\~"
    );
}

/// A name so spelled is that name in a subscription, whatever bytes it has.
#[cfg(feature = "alloc")]
#[test]
fn a_spelled_name_is_that_name_in_a_subscription() {
    use crate::{Edition, Operand, Subscription};
    for byte in 32..=126 {
        for name in [&[byte][..], &[b'a', byte], &[byte, b'b', byte]] {
            let text = format!("require ({})", Name(name));
            let subscription = Subscription::translate(&text, Edition::First).expect(&text);
            assert_eq!(
                subscription.entry(0).unwrap().operand(),
                Operand::Name(name)
            );
        }
    }
}

#[test]
fn strings_hide_what_does_not_print() {
    let spelled = |bytes: &[u8]| Quoted(bytes).to_string();
    assert_eq!(spelled(b""), "\"\"");
    assert_eq!(spelled(b"say \"a\\b\""), r#""say \"a\\b\"""#);
    assert_eq!(spelled(b"a\n\t\r\0\x7f\xff"), r#""a\n\t\r\x00\x7F\xFF""#);
    assert_eq!(spelled("é\u{202e}".as_bytes()), r#""é\xE2\x80\xAE""#);
    assert_eq!(
        spelled("\u{85}\u{2028}".as_bytes()),
        r#""\xC2\x85\xE2\x80\xA8""#
    );
    // a character that is cut
    assert_eq!(spelled(b"Ren\xC3"), r#""Ren\xC3""#);
}

#[test]
fn bytes_in_hex() {
    assert_eq!(Hex(b"").to_string(), "[]");
    assert_eq!(Hex(b"he\x0F").to_string(), "[68 65 0F]");
}

#[test]
fn reals_have_a_point_and_read_back() {
    let cases = [
        (1.5, "1.5"),
        (3.0, "3.0"),
        (-0.0, "-0.0"),
        (1e15, "1000000000000000.0"),
        (1e16, "1.0e16"),
        (-1e300, "-1.0e300"),
        (5e-324, "5.0e-324"),
        (1.25e-7, "1.25e-7"),
        (0.1 + 0.2, "0.30000000000000004"),
        (9007199254740993.0, "9007199254740992.0"),
        (f64::INFINITY, "inf"),
        (f64::NEG_INFINITY, "-inf"),
    ];
    for (number, spelled) in cases {
        assert_eq!(Real(number).to_string(), spelled);
        assert_eq!(spelled.parse::<f64>().unwrap().to_bits(), number.to_bits());
    }
    assert_eq!(Real(f64::from_bits(NAN)).to_string(), "nan");
    assert_eq!(
        Real(f64::from_bits(NAN + 1)).to_string(),
        "nan 7FF8000000000001"
    );
    assert_eq!(
        Real(f64::from_bits(NAN | 1 << 63)).to_string(),
        "nan FFF8000000000000"
    );
}
