//! Where one damaged notice ends and the next begins.
use super::alone;
use std::io::{self, Read};
use virentolex::{NoticeRef, NOTICE_MAX};

/// The bytes of a header.
const HEAD: usize = 8;
/// What is looked at: the longest notice, and the header behind it.
const WINDOW: usize = NOTICE_MAX + HEAD;

/// The notices of an input, one after the other, each with where it starts. There is one at least, if of no bytes.
pub struct Pieces {
    input: Box<dyn Read>,
    window: Vec<u8>,
    /// Where the window starts in the input.
    start: usize,
    ended: bool,
}

impl Pieces {
    pub fn new(input: Box<dyn Read>) -> Pieces {
        Pieces {
            input,
            window: Vec::new(),
            start: 0,
            ended: false,
        }
    }

    /// The next notice's bytes. What has no end in sight, and is longer than a notice, is the last.
    pub fn next(&mut self) -> io::Result<Option<(usize, Vec<u8>)>> {
        if self.ended {
            return Ok(None);
        }
        let lacking = WINDOW - self.window.len();
        let mut input = (&mut self.input).take(lacking as u64);
        let last = input.read_to_end(&mut self.window)? < lacking;
        let end = end(&self.window, last).unwrap_or(self.window.len());
        let rest = self.window.split_off(end);
        let (start, bytes) = (self.start, std::mem::replace(&mut self.window, rest));
        self.start += end;
        // a notice ends before a header, or where all does
        self.ended = self.window.is_empty();
        Ok(Some((start, bytes)))
    }
}

/// Where the notice at the start of the bytes ends: where its length says, if that is borne out by the bytes; else
/// where its fields lead to a header; else at the end, unless more bytes follow.
fn end(bytes: &[u8], last: bool) -> Option<usize> {
    let said = length(bytes).saturating_add(4);
    let rest = bytes.get(said..).unwrap_or_default();
    let whole = || may_start(rest) && NoticeRef::from_bytes(&bytes[..said]).is_ok();
    let ends = last && said == bytes.len();
    if said >= HEAD && (ends || is_header(rest) || whole()) {
        return Some(said);
    }
    by_fields(bytes, last).or(last.then_some(bytes.len()))
}

/// The first header that a walk over the fields comes to; if it comes to none, the first one behind a field that is
/// wrong whose own length is borne out.
fn by_fields(bytes: &[u8], last: bool) -> Option<usize> {
    let mut at = HEAD;
    let mut wrong = None;
    while let Some([low, high]) = bytes.get(at..at + 2) {
        let rest = &bytes[at..];
        if is_header(rest) {
            return Some(at);
        }
        if wrong.is_none() && alone(rest).is_none() {
            wrong = Some(at);
        }
        at += 2 + usize::from(u16::from_le_bytes([*low, *high]));
    }
    let leads = |at: &usize| {
        let rest = &bytes[*at..];
        let end = at + 4 + length(rest);
        let ends = last && end == bytes.len();
        is_header(rest) && (ends || is_header(bytes.get(end..).unwrap_or_default()))
    };
    (wrong?..bytes.len()).find(leads)
}

/// Whether what follows a whole notice may be another one, if of a wrong header, and is no field or padding: a field's
/// kind is not 0, and behind zeros there is a field.
fn may_start(bytes: &[u8]) -> bool {
    match (length(bytes), bytes.get(HEAD..)) {
        (_, None) | (0x10000.., _) => false,
        (0, Some(fields)) => alone(fields).is_some(),
        (_, Some(_)) => true,
    }
}

/// What the length word at the start of the bytes says.
fn length(bytes: &[u8]) -> usize {
    let word = bytes.first_chunk().map(|word| u32::from_le_bytes(*word));
    word.map_or(0, |n| n as usize)
}

/// Whether a notice's header is there. No field looks like one: the upper half of the length is a field's kind, 1 to 5.
fn is_header(bytes: &[u8]) -> bool {
    let lengths = HEAD - 4..=NOTICE_MAX - 4;
    matches!(bytes, [_, _, 0, 0, 1, 0, 0..=64, 0, ..]) && lengths.contains(&length(bytes))
}

#[cfg(test)]
mod tests;
