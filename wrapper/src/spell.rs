//! Names and values as people read them: the text form of notices, `Group: "Chat"`.

use core::fmt::{self, Display, Formatter, Write};

/// The line for a notice without fields.
pub const NO_FIELDS: &str = "(no fields)";

/// A name, with a backslash before each byte that would end it in a subscription, and before a colon.
pub struct Name<'a>(pub &'a [u8]);

impl Display for Name<'_> {
    fn fmt(&self, f: &mut Formatter<'_>) -> fmt::Result {
        for (k, byte) in self.0.iter().enumerate() {
            let plain = match byte {
                b'a'..=b'z' | b'A'..=b'Z' | b'_' => true,
                b' ' | b'(' | b')' | b'[' | b']' | b'\'' | b'"' | b'\\' | b',' | b':' => false,
                _ => k > 0,
            };
            if !plain {
                f.write_char('\\')?;
            }
            f.write_char(char::from(*byte))?;
        }
        Ok(())
    }
}

/// A string in double quotes: UTF-8 as it is, with `\xHH` for a byte that does not print.
pub struct Quoted<'a>(pub &'a [u8]);

impl Display for Quoted<'_> {
    fn fmt(&self, f: &mut Formatter<'_>) -> fmt::Result {
        f.write_char('"')?;
        for chunk in self.0.utf8_chunks() {
            chunk.valid().chars().try_for_each(|c| character(f, c))?;
            escaped(f, chunk.invalid())?;
        }
        f.write_char('"')
    }
}

/// Whether a character may go to a terminal as it is: no control, and none that turns the writing round.
fn prints(c: char) -> bool {
    let turns = matches!(
        c,
        '\u{200e}' | '\u{200f}' | '\u{2028}'..='\u{202e}' | '\u{2066}'..='\u{2069}' | '\u{feff}'
    );
    !(c.is_control() || turns)
}

fn character(f: &mut Formatter<'_>, c: char) -> fmt::Result {
    match c {
        '"' | '\\' => write!(f, "\\{c}"),
        '\n' => f.write_str("\\n"),
        '\r' => f.write_str("\\r"),
        '\t' => f.write_str("\\t"),
        c if prints(c) => f.write_char(c),
        c => escaped(f, c.encode_utf8(&mut [0; 4]).as_bytes()),
    }
}

fn escaped(f: &mut Formatter<'_>, bytes: &[u8]) -> fmt::Result {
    bytes.iter().try_for_each(|byte| write!(f, "\\x{byte:02X}"))
}

/// Bytes in hex, in brackets.
pub struct Hex<'a>(pub &'a [u8]);

impl Display for Hex<'_> {
    fn fmt(&self, f: &mut Formatter<'_>) -> fmt::Result {
        f.write_char('[')?;
        for (k, byte) in self.0.iter().enumerate() {
            let blank = if k == 0 { "" } else { " " };
            write!(f, "{blank}{byte:02X}")?;
        }
        f.write_char(']')
    }
}

/// A real, with a point always: the fewest digits that read back as the same number. A NaN other than the plain one
/// stands with its bits.
pub struct Real(pub f64);

/// The bits of the plain NaN.
pub const NAN: u64 = 0x7FF8_0000_0000_0000;

impl Display for Real {
    fn fmt(&self, f: &mut Formatter<'_>) -> fmt::Result {
        let Real(number) = *self;
        if number.is_nan() {
            return match number.to_bits() {
                NAN => f.write_str("nan"),
                bits => write!(f, "nan {bits:016X}"),
            };
        }
        let point = false;
        write!(Pointed { f, point }, "{number:?}")
    }
}

/// Passes digits on, with `.0` before an exponent if there was no point: `1e300` is `1.0e300`.
struct Pointed<'a, 'b> {
    f: &'a mut Formatter<'b>,
    point: bool,
}

impl Write for Pointed<'_, '_> {
    fn write_str(&mut self, part: &str) -> fmt::Result {
        for c in part.chars() {
            if c == 'e' && !self.point {
                self.f.write_str(".0")?;
            }
            self.point |= c == '.';
            self.f.write_char(c)?;
        }
        Ok(())
    }
}

#[cfg(test)]
mod tests;
