//! Values from the numbers and strings of Rust, and back.

use super::{Kind, Value};
use crate::Refusal;
use core::error::Error;
use core::fmt;
use core::num::TryFromIntError;

#[cfg(feature = "alloc")]
use alloc::{borrow::Cow, boxed::Box, string::String};

/// The types whose every number has a kind: `From`, with the case and the type that it holds.
macro_rules! from_numbers {
    ($($number:ty => $case:ident($held:ty);)*) => {$(
        impl From<$number> for Value<'_> {
            fn from(number: $number) -> Self {
                Value::$case(<$held>::from(number))
            }
        }
    )*};
}

from_numbers! {
    i8 => Int32(i32);
    i16 => Int32(i32);
    i32 => Int32(i32);
    u8 => Int32(i32);
    u16 => Int32(i32);
    i64 => Int64(i64);
    u32 => Int64(i64);
    f32 => Real64(f64);
    f64 => Real64(f64);
}

/// The types of which some numbers pass int64: `TryFrom`, always to int64.
macro_rules! try_from_numbers {
    ($($number:ty)*) => {$(
        impl TryFrom<$number> for Value<'_> {
            type Error = TryFromIntError;

            fn try_from(number: $number) -> Result<Self, TryFromIntError> {
                i64::try_from(number).map(Value::Int64)
            }
        }
    )*};
}

try_from_numbers! { u64 usize isize u128 i128 }

impl<'a> From<&'a str> for Value<'a> {
    fn from(text: &'a str) -> Self {
        Value::String(text.as_bytes())
    }
}

/// The strings that own their text.
macro_rules! from_strings {
    ($($text:ty)*) => {$(
        #[cfg(feature = "alloc")]
        impl<'a> From<&'a $text> for Value<'a> {
            fn from(text: &'a $text) -> Self {
                Value::String(text.as_bytes())
            }
        }
    )*};
}

from_strings! { String Box<str> Cow<'_, str> }

/// The kind of a number in a notice.
///
/// ```
/// use virentolex::{Kind, Refusal};
///
/// assert_eq!(Kind::try_from(4), Ok(Kind::String));
/// assert_eq!(Kind::try_from(6), Err(Refusal::Size));
/// ```
impl TryFrom<u16> for Kind {
    type Error = Refusal;

    fn try_from(number: u16) -> Result<Self, Refusal> {
        let kinds = [
            Kind::Int32,
            Kind::Int64,
            Kind::Real64,
            Kind::String,
            Kind::Opaque,
        ];
        let found = kinds.into_iter().find(|kind| kind.number() == number);
        found.ok_or(Refusal::Size)
    }
}

/// A value that is not of the type asked for, or does not fit it.
///
/// ```
/// use virentolex::{OtherKind, Value};
///
/// let asked = i32::try_from(Value::from("417"));
/// assert_eq!(asked.map_err(|other| other.to_string()), Err("a string, where an i32 is asked".into()));
/// ```
#[derive(Debug, Clone, Copy, PartialEq, Eq, Hash)]
pub struct OtherKind {
    /// The value's kind.
    pub kind: Kind,
    asked: &'static str,
}

impl fmt::Display for OtherKind {
    fn fmt(&self, f: &mut fmt::Formatter<'_>) -> fmt::Result {
        write!(
            f,
            "{}, where {} is asked",
            self.kind.with_article(),
            self.asked
        )
    }
}

impl Error for OtherKind {}

/// An integer of either kind, if the type holds it.
macro_rules! integers {
    ($($number:ident $asked:literal)*) => {$(
        impl TryFrom<Value<'_>> for $number {
            type Error = OtherKind;

            fn try_from(value: Value<'_>) -> Result<Self, OtherKind> {
                let number = match value {
                    Value::Int32(number) => $number::try_from(number).ok(),
                    Value::Int64(number) => $number::try_from(number).ok(),
                    _ => None,
                };
                let (kind, asked) = (value.kind(), $asked);
                number.ok_or(OtherKind { kind, asked })
            }
        }
    )*};
}

integers! {
    i8 "an i8" i16 "an i16" i32 "an i32" i64 "an i64" i128 "an i128" isize "an isize"
    u8 "a u8" u16 "a u16" u32 "a u32" u64 "a u64" u128 "a u128" usize "a usize"
}

/// A real, or an int32, which every `f64` holds exactly.
///
/// ```
/// use virentolex::Value;
///
/// assert_eq!(f64::try_from(Value::Real64(1.5)), Ok(1.5));
/// assert_eq!(f64::try_from(Value::Int32(-7)), Ok(-7.0));
/// assert!(f64::try_from(Value::Int64(1)).is_err());
/// ```
impl TryFrom<Value<'_>> for f64 {
    type Error = OtherKind;

    fn try_from(value: Value<'_>) -> Result<Self, OtherKind> {
        match value {
            Value::Real64(number) => Ok(number),
            Value::Int32(number) => Ok(number.into()),
            _ => Err(OtherKind {
                kind: value.kind(),
                asked: "an f64",
            }),
        }
    }
}

/// The text of a string that is UTF-8, as `as_str` has it.
///
/// ```
/// use virentolex::Value;
///
/// assert_eq!(<&str>::try_from(Value::from("yard")), Ok("yard"));
/// assert!(<&str>::try_from(Value::String(b"\xFF")).is_err());
/// ```
impl<'a> TryFrom<Value<'a>> for &'a str {
    type Error = OtherKind;

    fn try_from(value: Value<'a>) -> Result<Self, OtherKind> {
        value.as_str().ok_or(OtherKind {
            kind: value.kind(),
            asked: "UTF-8 text",
        })
    }
}
