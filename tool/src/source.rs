//! Where notices come from: a file, standard input or a word, as records one after the other.
use crate::args::Form;
use crate::report::{file_error, Failure};
use std::ffi::OsStr;
use std::fs::File;
use std::io::{self, BufRead, BufReader, Cursor, Read};

/// The most bytes of one notice's text, in UBF(A) or in the text form.
const TEXT_MAX: usize = 1 << 20;
/// The bytes that are read at once.
const BLOCK: usize = 1 << 16;
/// A binary notice has a byte 0 among its first eight, since its length is at most 16,380; no text has.
const HEAD: usize = 8;

/// A run of notices in one form.
pub struct Source {
    input: BufReader<Box<dyn Read>>,
    pub form: Form,
    /// Lines read so far, in the text form.
    lines: usize,
    /// Where the record that was read last starts: its byte, or its line from 1 in the text form.
    pub start: usize,
    taken: usize,
    /// Whether where the next record starts is not known.
    lost: bool,
}

/// Opens a file by name, `-` being standard input.
pub fn open(name: &OsStr) -> io::Result<Box<dyn Read>> {
    match name.as_encoded_bytes() {
        b"-" => Ok(Box::new(io::stdin())),
        _ => Ok(Box::new(File::open(name)?)),
    }
}

/// Reads a file of at most so many bytes; of one that is longer, one byte more.
pub fn read(name: &OsStr, most: usize) -> Result<Vec<u8>, Failure> {
    let mut bytes = Vec::new();
    let taken = open(name).and_then(|input| input.take(most as u64 + 1).read_to_end(&mut bytes));
    match taken {
        Ok(_) => Ok(bytes),
        Err(error) => Err(file_error(name, &error)),
    }
}

impl Source {
    /// A source of notices in a form, or in the one that its first bytes show.
    pub fn new(mut input: Box<dyn Read>, form: Option<Form>) -> io::Result<Source> {
        let mut head = Vec::new();
        let form = match form {
            Some(form) => form,
            None => form_of(&mut input, &mut head)?,
        };
        Ok(Source {
            input: BufReader::with_capacity(BLOCK, Box::new(Cursor::new(head).chain(input))),
            form,
            lines: 0,
            start: 0,
            taken: 0,
            lost: false,
        })
    }

    /// Whether the next record may make the reader wait.
    pub fn may_wait(&self) -> bool {
        self.input.buffer().is_empty()
    }

    /// Reads the next record; false if there is none.
    pub fn next(&mut self, record: &mut Vec<u8>) -> io::Result<bool> {
        record.clear();
        match self.form {
            Form::Binary => self.binary(record),
            Form::Ubf => self.ubf(record),
            Form::Text => self.text(record),
        }
    }

    /// A notice by its length word. One that no notice has takes what is left, up to one byte too many, and is
    /// the last.
    fn binary(&mut self, record: &mut Vec<u8>) -> io::Result<bool> {
        if self.lost {
            return Ok(false);
        }
        self.start = self.taken;
        let length = match self.take(record, 4)? {
            4 => u32::from_le_bytes([record[0], record[1], record[2], record[3]]),
            n => return Ok(n > 0),
        };
        let rest = usize::try_from(length).unwrap_or(usize::MAX);
        self.take(record, rest.min(virentolex::NOTICE_MAX - 3))?;
        self.lost = rest > virentolex::NOTICE_MAX - 4;
        Ok(true)
    }

    /// Appends up to so many bytes, and tells how many there were.
    fn take(&mut self, record: &mut Vec<u8>, count: usize) -> io::Result<usize> {
        let mut left = count;
        while left > 0 {
            let block = filled(&mut self.input)?;
            let n = block.len().min(left);
            if n == 0 {
                break;
            }
            record.extend_from_slice(&block[..n]);
            self.input.consume(n);
            left -= n;
        }
        self.taken += count - left;
        Ok(count - left)
    }

    /// A UBF(A) text up to its `$`.
    fn ubf(&mut self, record: &mut Vec<u8>) -> io::Result<bool> {
        let mut end = UbfEnd::new();
        let mut ended = false;
        while !ended {
            let block = filled(&mut self.input)?;
            if block.is_empty() {
                break;
            }
            let mut n = 0;
            while n < block.len() && !ended {
                let byte = block[n];
                n += 1;
                if record.is_empty() && byte.is_ascii_whitespace() {
                    continue;
                }
                if record.is_empty() {
                    self.start = self.taken + n - 1;
                }
                record.push(byte);
                ended = end.ends(byte);
            }
            self.input.consume(n);
            self.taken += n;
            within(record)?;
        }
        Ok(!record.is_empty())
    }

    /// A notice in the text form, up to a blank line.
    fn text(&mut self, record: &mut Vec<u8>) -> io::Result<bool> {
        loop {
            let before = record.len();
            let mut line = (&mut self.input).take(TEXT_MAX as u64 + 1);
            let n = line.read_until(b'\n', record)?;
            within(record)?;
            self.lines += usize::from(n > 0);
            let blank = record[before..].trim_ascii().is_empty();
            if blank {
                record.truncate(before);
            }
            if n == 0 || (blank && before > 0) {
                return Ok(!record.is_empty());
            }
            if before == 0 {
                self.start = self.lines;
            }
        }
    }
}

fn within(record: &[u8]) -> io::Result<()> {
    match record.len() > TEXT_MAX {
        true => Err(io::Error::other(
            "one notice's text is over 1,048,576 bytes",
        )),
        false => Ok(()),
    }
}

/// What is in the buffer, filled if it was empty; a read that a signal broke off is done again.
fn filled(input: &mut BufReader<Box<dyn Read>>) -> io::Result<&[u8]> {
    while input.buffer().is_empty() {
        match input.fill_buf() {
            Ok(_) => break,
            Err(e) if e.kind() == io::ErrorKind::Interrupted => (),
            Err(e) => return Err(e),
        }
    }
    Ok(input.buffer())
}

/// The form that the first bytes show: a byte 0 among the first eight is binary; `{` or `%` before all but
/// blanks is UBF(A); else it is text.
fn form_of(input: &mut dyn Read, head: &mut Vec<u8>) -> io::Result<Form> {
    more(input, head, HEAD)?;
    if head.contains(&0) {
        return Ok(Form::Binary);
    }
    while head.trim_ascii_start().is_empty() && head.len() < TEXT_MAX && more(input, head, HEAD)? {}
    match head.trim_ascii_start() {
        [b'{' | b'%', ..] => Ok(Form::Ubf),
        _ => Ok(Form::Text),
    }
}

/// Appends so many bytes, fewer at the end; false if there are none.
fn more(input: &mut dyn Read, head: &mut Vec<u8>, count: usize) -> io::Result<bool> {
    Ok(input.take(count as u64).read_to_end(head)? > 0)
}

/// Where a UBF(A) text ends: at the first `$` outside strings, atoms, binaries, tags and comments.
struct UbfEnd {
    quote: Option<u8>,
    escaped: bool,
    /// The bytes of a binary that are still to come.
    binary: usize,
    /// The integer just before, if there is one.
    count: Option<usize>,
    digits: bool,
}

impl UbfEnd {
    fn new() -> UbfEnd {
        UbfEnd {
            quote: None,
            escaped: false,
            binary: 0,
            count: None,
            digits: false,
        }
    }

    fn ends(&mut self, byte: u8) -> bool {
        if self.binary > 0 {
            self.binary -= 1;
        } else if let Some(quote) = self.quote {
            self.quoted(quote, byte);
        } else {
            return self.outside(byte);
        }
        false
    }

    fn quoted(&mut self, quote: u8, byte: u8) {
        if self.escaped {
            self.escaped = false;
        } else if byte == b'\\' {
            self.escaped = true;
        } else if byte == quote {
            self.quote = None;
        }
    }

    fn outside(&mut self, byte: u8) -> bool {
        let digits = std::mem::replace(&mut self.digits, byte.is_ascii_digit());
        match byte {
            b'$' => return true,
            b'0'..=b'9' => {
                let before = if digits { self.count.unwrap_or(0) } else { 0 };
                self.count = Some(
                    before
                        .saturating_mul(10)
                        .saturating_add(usize::from(byte - b'0')),
                );
            }
            b'~' => self.binary = self.count.take().map_or(0, |n| n.saturating_add(1)),
            b'"' | b'\'' | b'`' => (self.quote, self.count) = (Some(byte), None),
            b'%' => self.quote = Some(byte),
            b' ' | b'\t' | b'\n' | b'\r' => (),
            _ => self.count = None,
        }
        false
    }
}

#[cfg(test)]
mod tests;
