//! The text form of notices: `Group: "Chat"`, one field a line (docs/MANUAL.md, "Notices as text").

mod number;

use crate::spell;
use crate::{NoticeRef, Refusal, Value};
use core::error::Error;
use core::fmt;
use number::number;

#[cfg(feature = "alloc")]
use {crate::Notice, core::str::FromStr};

/// What is wrong with the text of a notice, and where.
///
/// ```
/// use virentolex::{NoticeRef, Refusal};
///
/// let mut room = [0; 100];
/// let fault = NoticeRef::from_text_in("Staff = 417", &mut room).unwrap_err();
/// assert_eq!(fault.place, 5);
/// let told = "a name ends in a colon; a blank in it takes a backslash, at byte 5";
/// assert_eq!(fault.to_string(), told);
/// let fault = NoticeRef::from_text_in("Op: 1; Op: 2", &mut room).unwrap_err();
/// assert_eq!((fault.place, fault.refusal()), (7, Some(Refusal::Present)));
/// ```
#[derive(Debug, Clone, Copy, PartialEq, Eq, Hash)]
pub struct TextFault {
    /// Where in the text, counted in bytes; of a field that is refused, its start.
    pub place: usize,
    cause: Cause,
}

/// A spelling that the form does not have, or a field that the library refuses.
#[derive(Debug, Clone, Copy, PartialEq, Eq, Hash)]
enum Cause {
    Spelling(&'static str),
    Refused(Refusal),
}

impl TextFault {
    /// The reason in plain words, without the place.
    ///
    /// ```
    /// let fault = virentolex::NoticeRef::from_text_in("Op: ", &mut [0; 100]).unwrap_err();
    /// assert_eq!(fault.reason(), "a value is expected: 42, 42L, 1.5, \"text\" or [68 65]");
    /// ```
    pub fn reason(self) -> &'static str {
        match self.cause {
            Cause::Spelling(why) => why,
            Cause::Refused(refusal) => refusal.reason(),
        }
    }

    /// The refusal of a field that is spelled right.
    ///
    /// ```
    /// use virentolex::{NoticeRef, Refusal};
    ///
    /// let refusal = |text| NoticeRef::from_text_in(text, &mut [0; 12]).unwrap_err().refusal();
    /// assert_eq!(refusal("Op: 42"), Some(Refusal::Room));
    /// assert_eq!(refusal("Op 42"), None);
    /// ```
    pub fn refusal(self) -> Option<Refusal> {
        match self.cause {
            Cause::Spelling(_) => None,
            Cause::Refused(refusal) => Some(refusal),
        }
    }

    fn refused(place: usize, refusal: Refusal) -> Self {
        let cause = Cause::Refused(refusal);
        TextFault { place, cause }
    }
}

/// The reason, the place, and the refusal's number if it has one.
impl fmt::Display for TextFault {
    fn fmt(&self, f: &mut fmt::Formatter<'_>) -> fmt::Result {
        write!(f, "{}, at byte {}", self.reason(), self.place)?;
        match self.refusal() {
            Some(refusal) => write!(f, " (refusal {})", refusal.number()),
            None => Ok(()),
        }
    }
}

impl Error for TextFault {}

/// For programs that read and write files: a fault is data that is not valid.
///
/// ```
/// use std::io::{Error, ErrorKind};
///
/// let fault = virentolex::NoticeRef::from_text_in("?", &mut [0; 100]).unwrap_err();
/// assert_eq!(Error::from(fault).kind(), ErrorKind::InvalidData);
/// ```
#[cfg(feature = "std")]
impl From<TextFault> for std::io::Error {
    fn from(fault: TextFault) -> Self {
        std::io::Error::new(std::io::ErrorKind::InvalidData, fault)
    }
}

impl<'a> NoticeRef<'a> {
    /// Reads the text form of one notice, which `Display` writes, into a lent buffer; the bytes after the notice stay.
    /// Fields stand on lines of their own, or are parted by `;`, in any order; `#` begins a comment's line. A text
    /// without fields is the notice without fields. `NOTICE_MAX` bytes always suffice.
    ///
    /// # Errors
    ///
    /// The first spelling that the form does not have, a second notice behind a blank line too; else the first field
    /// that is refused, by [`Refusal::Name`], [`Refusal::Size`], [`Refusal::Present`] or [`Refusal::Room`].
    ///
    /// ```
    /// use virentolex::{NoticeRef, Value};
    ///
    /// let mut room = [0; 100];
    /// let notice = NoticeRef::from_text_in("# from the yard\nStaff: \"502\"\nFare: 12.5; Op: 42L\n", &mut room)?;
    /// assert_eq!(notice.find("Fare").map(|field| field.value), Some(Value::Real64(12.5)));
    /// assert_eq!(notice.to_string(), "Fare: 12.5\nOp: 42L\nStaff: \"502\"\n");
    /// # Ok::<(), virentolex::TextFault>(())
    /// ```
    pub fn from_text_in(text: impl AsRef<[u8]>, buffer: &'a mut [u8]) -> Result<Self, TextFault> {
        let mut builder = NoticeRef::builder_in(buffer);
        read(text.as_ref(), |name, value| builder.add(name, value))?;
        // what is left is a buffer under 8 bytes
        let notice = builder.build();
        notice.map_err(|refusal| TextFault::refused(0, refusal))
    }
}

#[cfg(feature = "alloc")]
impl Notice {
    /// Reads the text form of one notice, which `Display` writes; `parse` does the same with a `str`.
    ///
    /// # Errors
    ///
    /// As [`NoticeRef::from_text_in`] has them.
    ///
    /// ```
    /// use virentolex::{Notice, Value};
    ///
    /// let notice = Notice::from_text(b"User: \"Zo\\xC3\\xAB\"")?;
    /// assert_eq!(notice.find("User").map(|field| field.value), Some(Value::from("Zoë")));
    /// # Ok::<(), virentolex::TextFault>(())
    /// ```
    pub fn from_text(text: impl AsRef<[u8]>) -> Result<Self, TextFault> {
        let mut notice = Notice::new();
        read(text.as_ref(), |name, value| notice.insert(name, value))?;
        Ok(notice)
    }
}

/// The text form, as `from_text` has it. What `to_string` writes is read as the same notice.
///
/// ```
/// use virentolex::Notice;
///
/// let notice: Notice = "Console: \"yard\"; Staff: \"502\"".parse()?;
/// assert_eq!(notice.to_string().parse(), Ok(notice));
/// assert_eq!("(no fields)".parse(), Ok(Notice::new()));
/// # Ok::<(), virentolex::TextFault>(())
/// ```
#[cfg(feature = "alloc")]
impl FromStr for Notice {
    type Err = TextFault;

    fn from_str(text: &str) -> Result<Self, TextFault> {
        Notice::from_text(text)
    }
}

/// The text form, as `from_str` has it.
///
/// ```
/// use virentolex::Notice;
///
/// assert_eq!(Notice::try_from("Op: 42")?, "Op: 42".parse()?);
/// # Ok::<(), virentolex::TextFault>(())
/// ```
#[cfg(feature = "alloc")]
impl TryFrom<&str> for Notice {
    type Error = TextFault;

    fn try_from(text: &str) -> Result<Self, TextFault> {
        text.parse()
    }
}

/// Reads the text of one notice and gives its fields to `add`, up to the first that is refused.
fn read<F>(text: &[u8], add: F) -> Result<(), TextFault>
where
    F: FnMut(&[u8], Value<'_>) -> Result<(), Refusal>,
{
    let mut reader = Reader {
        add,
        refused: None,
        fields: false,
        without: None,
        ended: false,
    };
    let mut start = 0;
    for line in text.split_inclusive(|b| *b == b'\n') {
        reader.line(line.trim_ascii_end(), start)?;
        start += line.len();
    }
    reader.finished()
}

/// What was read before a line.
struct Reader<F> {
    add: F,
    /// The first field that was refused; the spelling of the others is still looked at.
    refused: Option<TextFault>,
    fields: bool,
    /// Where the line for a notice without fields stands.
    without: Option<usize>,
    /// Whether a blank line has ended the notice.
    ended: bool,
}

impl<F: FnMut(&[u8], Value<'_>) -> Result<(), Refusal>> Reader<F> {
    fn line(&mut self, line: &[u8], start: usize) -> Result<(), TextFault> {
        let mut scan = Scan { line, start, at: 0 };
        match line.trim_ascii_start() {
            [] => self.ended = self.fields || self.without.is_some(),
            [b'#', ..] => (),
            _ if self.ended => {
                return scan.fault(0, "a blank line ends a notice, and another begins here");
            }
            rest if rest == spell::NO_FIELDS.as_bytes() => self.without = Some(start),
            _ => self.fields(&mut scan)?,
        }
        Ok(())
    }

    /// The fields of a line, parted by `;`.
    fn fields(&mut self, scan: &mut Scan<'_>) -> Result<(), TextFault> {
        // a byte more than a name and a value have, so that the library refuses what is too long
        let (mut name, mut value) = (Room([0; 65], 0), Room([0; 1025], 0));
        loop {
            scan.blanks();
            let place = scan.start + scan.at;
            let name = scan.name(&mut name)?;
            scan.blanks();
            let value = scan.value(&mut value)?;
            self.fields = true;
            if self.refused.is_none() {
                let added = (self.add)(name, value);
                self.refused = added
                    .err()
                    .map(|refusal| TextFault::refused(place, refusal));
            }
            scan.blanks();
            match scan.next() {
                None => return Ok(()),
                Some(b';') => (),
                Some(_) => {
                    return scan.fault(
                        scan.at - 1,
                        "the value ends here; a line has one field, or more parted by `;`",
                    );
                }
            }
        }
    }

    fn finished(self) -> Result<(), TextFault> {
        let beside = self.without.filter(|_| self.fields).map(|place| TextFault {
            place,
            cause: Cause::Spelling("(no fields) stands beside a field"),
        });
        beside.or(self.refused).map_or(Ok(()), Err)
    }
}

/// Room for so many bytes, and how many are in it; what is over is dropped.
struct Room<const N: usize>([u8; N], usize);

impl<const N: usize> Room<N> {
    fn push(&mut self, byte: u8) {
        if let Some(place) = self.0.get_mut(self.1) {
            *place = byte;
            self.1 += 1;
        }
    }

    fn bytes(&self) -> &[u8] {
        self.0.get(..self.1).unwrap_or_default()
    }
}

/// The three bytes that some editors write at the start of a UTF-8 file.
const BYTE_ORDER_MARK: &[u8] = b"\xEF\xBB\xBF";

/// A line that is read from the left; `start` is its place in the text.
struct Scan<'a> {
    line: &'a [u8],
    start: usize,
    at: usize,
}

impl Scan<'_> {
    fn peek(&self) -> Option<u8> {
        self.line.get(self.at).copied()
    }

    fn next(&mut self) -> Option<u8> {
        let byte = self.peek()?;
        self.at += 1;
        Some(byte)
    }

    /// The bytes from a place up to here.
    fn since(&self, at: usize) -> &[u8] {
        self.line.get(at..self.at).unwrap_or_default()
    }

    fn fault<T>(&self, at: usize, why: &'static str) -> Result<T, TextFault> {
        Err(TextFault {
            place: self.start + at,
            cause: Cause::Spelling(why),
        })
    }

    fn blanks(&mut self) {
        while matches!(self.peek(), Some(b' ' | b'\t' | b'\r')) {
            self.at += 1;
        }
    }

    /// A name, up to its colon.
    fn name<'r>(&mut self, name: &'r mut Room<65>) -> Result<&'r [u8], TextFault> {
        name.1 = 0;
        if self.start + self.at == 0 && self.line.starts_with(BYTE_ORDER_MARK) {
            let why = "the file starts with a byte order mark; save it as UTF-8 without one";
            return self.fault(0, why);
        }
        if !matches!(self.peek(), Some(b'a'..=b'z' | b'A'..=b'Z' | b'_' | b'\\')) {
            return self.fault(
                self.at,
                "a field is expected, NAME: VALUE; a name starts with a letter, `_` or a backslash",
            );
        }
        loop {
            let at = self.at;
            let byte = match self.next() {
                Some(b':') => return Ok(name.bytes()),
                Some(b'\\') => self.next(),
                Some(b' ' | b'\t') => {
                    return self.fault(
                        at,
                        "a name ends in a colon; a blank in it takes a backslash",
                    );
                }
                other => other,
            };
            match byte {
                Some(byte @ 32..=126) => name.push(byte),
                Some(_) => return self.fault(at, "a name has printing ASCII characters only"),
                None => return self.fault(at, "the name has no colon after it"),
            }
        }
    }

    fn value<'r>(&mut self, room: &'r mut Room<1025>) -> Result<Value<'r>, TextFault> {
        room.1 = 0;
        match self.peek() {
            Some(quote @ (b'"' | b'\'')) => self.string(quote, room),
            Some(b'[') => self.opaque(room),
            Some(b'-' | b'0'..=b'9' | b'a'..=b'z' | b'A'..=b'Z') => self.word(),
            _ => self.fault(
                self.at,
                "a value is expected: 42, 42L, 1.5, \"text\" or [68 65]",
            ),
        }
    }

    /// A number, or one of the words for reals that no digits spell.
    fn word(&mut self) -> Result<Value<'static>, TextFault> {
        let at = self.at;
        while self
            .peek()
            .is_some_and(|b| !matches!(b, b' ' | b'\t' | b'\r' | b';'))
        {
            self.at += 1;
        }
        match self.since(at) {
            b"nan" => self.nan(),
            b"inf" => Ok(Value::Real64(f64::INFINITY)),
            b"-inf" => Ok(Value::Real64(f64::NEG_INFINITY)),
            word => number(word).or_else(|why| self.fault(at, why)),
        }
    }

    /// What follows `nan`: nothing, or the 16 hex digits of its bits.
    fn nan(&mut self) -> Result<Value<'static>, TextFault> {
        self.blanks();
        let at = self.at;
        while self.peek().is_some_and(|b| b.is_ascii_hexdigit()) {
            self.at += 1;
        }
        let digits = core::str::from_utf8(self.since(at)).unwrap_or_default();
        let bits = match digits.len() {
            0 => Some(spell::NAN),
            16 => u64::from_str_radix(digits, 16).ok(),
            _ => None,
        };
        match bits.map(f64::from_bits) {
            Some(x) if x.is_nan() => Ok(Value::Real64(x)),
            _ => self.fault(
                at,
                "`nan` takes nothing, or 16 hex digits that are the bits of a NaN",
            ),
        }
    }

    fn string<'r>(&mut self, quote: u8, bytes: &'r mut Room<1025>) -> Result<Value<'r>, TextFault> {
        let open = self.at;
        self.at += 1;
        loop {
            match self.next() {
                None => return self.fault(open, "the string has no closing quote on its line"),
                Some(b'\\') => bytes.push(self.escape()?),
                Some(byte) if byte == quote => return Ok(Value::String(bytes.bytes())),
                Some(byte) => bytes.push(byte),
            }
        }
    }

    /// What follows a backslash in a string.
    fn escape(&mut self) -> Result<u8, TextFault> {
        let at = self.at - 1;
        match self.next() {
            Some(byte @ (b'"' | b'\'' | b'\\')) => Ok(byte),
            Some(b'n') => Ok(b'\n'),
            Some(b'r') => Ok(b'\r'),
            Some(b't') => Ok(b'\t'),
            Some(b'x') => match self.hex_byte() {
                Some(byte) => Ok(byte),
                None => self.fault(at, "`\\x` takes two hex digits"),
            },
            _ => self.fault(
                at,
                "in a string a backslash takes one of \" ' \\ n r t, or x and two hex digits",
            ),
        }
    }

    fn hex_byte(&mut self) -> Option<u8> {
        let digit = |b: u8| char::from(b).to_digit(16);
        let high = digit(self.peek()?)?;
        self.at += 1;
        let low = digit(self.peek()?)?;
        self.at += 1;
        u8::try_from(16 * high + low).ok()
    }

    fn opaque<'r>(&mut self, bytes: &'r mut Room<1025>) -> Result<Value<'r>, TextFault> {
        self.at += 1;
        loop {
            self.blanks();
            let at = self.at;
            if self.peek() == Some(b']') {
                self.at += 1;
                return Ok(Value::Opaque(bytes.bytes()));
            }
            match self.hex_byte() {
                Some(byte) => bytes.push(byte),
                None => {
                    return self.fault(at, "an opaque value is bytes of two hex digits up to `]`");
                }
            }
        }
    }
}

#[cfg(test)]
mod tests;
