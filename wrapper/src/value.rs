//! Fields of notices and their typed values.

use crate::raw::kind;
use crate::spell;
use core::fmt;

/// The kinds of values.
///
/// ```
/// use virentolex::{Kind, Value};
///
/// assert_eq!(Value::from("yard").kind(), Kind::String);
/// assert_eq!((Kind::Real64.number(), Kind::Real64.to_string()), (3, "real64".to_string()));
/// ```
#[derive(Debug, Clone, Copy, PartialEq, Eq, PartialOrd, Ord, Hash)]
pub enum Kind {
    /// A whole number of 32 bits.
    Int32,
    /// A whole number of 64 bits.
    Int64,
    /// A real number, an IEEE 754 double.
    Real64,
    /// 0 to 1,024 bytes of text.
    String,
    /// 0 to 1,024 bytes.
    Opaque,
}

impl Kind {
    /// The kind's number in a notice, 1 to 5.
    ///
    /// ```
    /// assert_eq!(virentolex::Kind::Int32.number(), 1);
    /// ```
    pub fn number(self) -> u16 {
        match self {
            Kind::Int32 => kind::INT32,
            Kind::Int64 => kind::INT64,
            Kind::Real64 => kind::REAL64,
            Kind::String => kind::STRING,
            Kind::Opaque => kind::OPAQUE,
        }
    }

    /// What a value of the kind is, in a sentence.
    ///
    /// ```
    /// use virentolex::Kind;
    ///
    /// let told = [Kind::Int32, Kind::String, Kind::Opaque].map(Kind::with_article);
    /// assert_eq!(told, ["an int32", "a string", "opaque"]);
    /// ```
    pub fn with_article(self) -> &'static str {
        match self {
            Kind::Int32 => "an int32",
            Kind::Int64 => "an int64",
            Kind::Real64 => "a real64",
            Kind::String => "a string",
            Kind::Opaque => "opaque",
        }
    }
}

/// The word of the subscription language for it.
impl fmt::Display for Kind {
    fn fmt(&self, f: &mut fmt::Formatter<'_>) -> fmt::Result {
        f.pad(match self {
            Kind::Int32 => "int32",
            Kind::Int64 => "int64",
            Kind::Real64 => "real64",
            Kind::String => "string",
            Kind::Opaque => "opaque",
        })
    }
}

/// The value of a field. A string is text by its kind alone: any bytes may stand in it.
///
/// ```
/// use virentolex::Value;
///
/// assert_eq!(Value::from(42), Value::Int32(42));
/// assert_eq!(Value::from(42i64), Value::Int64(42));
/// assert_eq!(Value::from("417"), Value::String(b"417"));
/// ```
///
/// A number becomes the least kind that holds every number of its type: up to `i32` an int32, `u32` and `i64` an int64.
/// Of `u64`, `usize` and wider ones some pass int64, so that they ask for `try_from`. Bytes have no `From`: they may be a
/// string or opaque. The way back is `try_from` too.
///
/// ```
/// use virentolex::Value;
///
/// let cab = String::from("T-41");
/// # #[cfg(feature = "alloc")]
/// assert_eq!(Value::from(&cab), Value::String(b"T-41"));
/// assert_eq!((Value::from(7u16), Value::from(7u32)), (Value::Int32(7), Value::Int64(7)));
/// assert_eq!(Value::try_from(cab.len()), Ok(Value::Int64(4)));
/// assert!(Value::try_from(u64::MAX).is_err());
/// assert_eq!(u8::try_from(Value::Int64(255)), Ok(255));
/// assert!(u8::try_from(Value::Int64(256)).is_err());
/// ```
#[derive(Debug, Clone, Copy, PartialEq)]
pub enum Value<'a> {
    /// A whole number of 32 bits.
    Int32(i32),
    /// A whole number of 64 bits.
    Int64(i64),
    /// A real number.
    Real64(f64),
    /// Text, usually UTF-8.
    String(&'a [u8]),
    /// Bytes without a meaning of their own.
    Opaque(&'a [u8]),
}

impl<'a> Value<'a> {
    /// The value's kind.
    ///
    /// ```
    /// use virentolex::{Kind, Value};
    ///
    /// assert_eq!(Value::Opaque(b"").kind(), Kind::Opaque);
    /// ```
    pub fn kind(&self) -> Kind {
        match self {
            Value::Int32(_) => Kind::Int32,
            Value::Int64(_) => Kind::Int64,
            Value::Real64(_) => Kind::Real64,
            Value::String(_) => Kind::String,
            Value::Opaque(_) => Kind::Opaque,
        }
    }

    /// The text of a string that is UTF-8; none for others.
    ///
    /// ```
    /// use virentolex::Value;
    ///
    /// assert_eq!(Value::from("yard").as_str(), Some("yard"));
    /// assert_eq!(Value::String(b"\xFF").as_str(), None);
    /// assert_eq!(Value::Opaque(b"yard").as_str(), None);
    /// ```
    pub fn as_str(&self) -> Option<&'a str> {
        match self {
            Value::String(bytes) => core::str::from_utf8(bytes).ok(),
            _ => None,
        }
    }

    /// The bytes of a string or an opaque value; none for numbers.
    ///
    /// ```
    /// use virentolex::Value;
    ///
    /// assert_eq!(Value::Opaque(b"\0\x01").as_bytes(), Some(&b"\0\x01"[..]));
    /// assert_eq!(Value::Int32(1).as_bytes(), None);
    /// ```
    pub fn as_bytes(&self) -> Option<&'a [u8]> {
        match self {
            Value::String(bytes) | Value::Opaque(bytes) => Some(bytes),
            _ => None,
        }
    }

    /// The value of a kind's number and its bytes in a notice, if they go together.
    pub(crate) fn of_parts(kind: u16, bytes: &'a [u8]) -> Option<Value<'a>> {
        Some(match kind {
            kind::INT32 => Value::Int32(i32::from_le_bytes(bytes.try_into().ok()?)),
            kind::INT64 => Value::Int64(i64::from_le_bytes(bytes.try_into().ok()?)),
            kind::REAL64 => Value::Real64(f64::from_le_bytes(bytes.try_into().ok()?)),
            kind::STRING => Value::String(bytes),
            kind::OPAQUE => Value::Opaque(bytes),
            _ => return None,
        })
    }

    /// Calls with the value's bytes as they stand in a notice.
    pub(crate) fn with_bytes<T>(&self, call: impl FnOnce(&[u8]) -> T) -> T {
        match self {
            Value::Int32(number) => call(&number.to_le_bytes()),
            Value::Int64(number) => call(&number.to_le_bytes()),
            Value::Real64(number) => call(&number.to_le_bytes()),
            Value::String(bytes) | Value::Opaque(bytes) => call(bytes),
        }
    }
}

/// The text form of notices: an int64 with an `L`, a real with a point, a string in quotes, an opaque value in hex.
///
/// ```
/// use virentolex::Value;
///
/// assert_eq!(Value::Int64(-7).to_string(), "-7L");
/// assert_eq!(Value::Real64(2.0).to_string(), "2.0");
/// assert_eq!(Value::from("T-41").to_string(), "\"T-41\"");
/// assert_eq!(Value::Opaque(b"\0A").to_string(), "[00 41]");
/// ```
impl fmt::Display for Value<'_> {
    fn fmt(&self, f: &mut fmt::Formatter<'_>) -> fmt::Result {
        match self {
            Value::Int32(number) => write!(f, "{number}"),
            Value::Int64(number) => write!(f, "{number}L"),
            Value::Real64(number) => spell::Real(*number).fmt(f),
            Value::String(bytes) => spell::Quoted(bytes).fmt(f),
            Value::Opaque(bytes) => spell::Hex(bytes).fmt(f),
        }
    }
}

/// A field of a notice, whose parts lie in the notice.
///
/// ```
/// use virentolex::{Field, NoticeRef, Value};
///
/// let bytes = *b"\x0F\0\0\0\x01\0\x01\0\x09\0\x01\0\x02Op\x2A\0\0\0";
/// let field = NoticeRef::from_bytes(&bytes)?.field(0)?;
/// assert_eq!(field, Field { name: b"Op", value: Value::Int32(42) });
/// assert_eq!(field.to_string(), "Op: 42");
/// # Ok::<(), virentolex::Refusal>(())
/// ```
#[derive(Debug, Clone, Copy, PartialEq)]
pub struct Field<'a> {
    /// The name: 1 to 64 bytes from space to `~`.
    pub name: &'a [u8],
    /// The value.
    pub value: Value<'a>,
}

impl<'a> Field<'a> {
    /// The name as text, which it always is.
    ///
    /// ```
    /// use virentolex::{Field, Value};
    ///
    /// let field = Field { name: b"Staff", value: Value::from("417") };
    /// assert_eq!(field.name_str(), "Staff");
    /// ```
    pub fn name_str(&self) -> &'a str {
        core::str::from_utf8(self.name).unwrap_or_default()
    }
}

/// The name, a colon and the value, in the text form of notices: a backslash stands before each byte of the name
/// that would end it.
///
/// ```
/// use virentolex::{Field, Value};
///
/// let field = Field { name: b"Due (UTC)", value: Value::from(3) };
/// assert_eq!(field.to_string(), "Due\\ \\(UTC\\): 3");
/// ```
impl fmt::Display for Field<'_> {
    fn fmt(&self, f: &mut fmt::Formatter<'_>) -> fmt::Result {
        write!(f, "{}: {}", spell::Name(self.name), self.value)
    }
}

mod convert;
pub use convert::OtherKind;

#[cfg(test)]
mod tests;
