//! Checking, reading and writing notices, UBF(A) too.

use super::{NO_FIELD, library};

/// What the check of a notice answers: 0, or 11 with the place of the first fault.
///
/// ```
/// use virentolex::raw::{check_notice, Checked, EMPTY_NOTICE};
///
/// assert_eq!(check_notice(&EMPTY_NOTICE), Checked { number: 0, place: 0 });
/// ```
#[derive(Debug, Clone, Copy, PartialEq, Eq)]
pub struct Checked {
    /// The refusal, 0 if there is none.
    pub number: u8,
    /// The place in the notice of 11; else 0.
    pub place: usize,
}

/// What reading answers: the field's kind, and its name and value as parts of the notice; if refused,
/// kind 0 and empty parts.
///
/// ```
/// use virentolex::raw::{read, Field, EMPTY_NOTICE};
///
/// let refused = read(&EMPTY_NOTICE, 0);
/// assert_eq!(refused, Field { number: 17, place: 0, kind: 0, name: b"", value: b"" });
/// ```
#[derive(Debug, Clone, Copy, PartialEq, Eq)]
pub struct Field<'a> {
    /// The refusal, 0 if there is none.
    pub number: u8,
    /// The place in the notice of 11; else 0.
    pub place: usize,
    /// The kind, 1 to 5.
    pub kind: u16,
    /// The name.
    pub name: &'a [u8],
    /// The value.
    pub value: &'a [u8],
}

/// What finding a name answers: the index of the field that has it, if one has, and how many names were
/// looked at; if refused, none and 0.
///
/// ```
/// use virentolex::raw::{find, Found, EMPTY_NOTICE};
///
/// let found = find(&EMPTY_NOTICE, b"Op");
/// assert_eq!(found, Found { number: 0, place: 0, index: None, looked: 0 });
/// ```
#[derive(Debug, Clone, Copy, PartialEq, Eq)]
pub struct Found {
    /// The refusal, 0 if there is none.
    pub number: u8,
    /// The place in the notice of 11; else 0.
    pub place: usize,
    /// The field's number.
    pub index: Option<usize>,
    /// How many names were looked at.
    pub looked: usize,
}

/// What writing answers: the notice's new length, or the length that was named if refused.
///
/// ```
/// use virentolex::raw::{kind, write, Written, EMPTY_NOTICE};
///
/// let refused = write(&mut { EMPTY_NOTICE }, 8, b"", kind::STRING, b"");
/// assert_eq!(refused, Written { number: 13, place: 0, length: 8 });
/// ```
#[derive(Debug, Clone, Copy, PartialEq, Eq)]
pub struct Written {
    /// The refusal, 0 if there is none.
    pub number: u8,
    /// The place in the notice of 11; else 0.
    pub place: usize,
    /// The notice's length.
    pub length: usize,
}

/// What reading and writing UBF(A) answer: the place is that of 11, and else 0; the length is that of
/// the notice or the text, 0 if refused.
///
/// ```
/// use virentolex::raw::{ubf_read, Converted};
///
/// let answer = ubf_read(b"{}$", &mut [0; 8]);
/// assert_eq!(answer, Converted { number: 0, place: 0, length: 8 });
/// ```
#[derive(Debug, Clone, Copy, PartialEq, Eq)]
pub struct Converted {
    /// The refusal, 0 if there is none.
    pub number: u8,
    /// The place in the notice of 11; else 0.
    pub place: usize,
    /// The result's length.
    pub length: usize,
}

/// Checks a notice: 0, or 11 and the place of the first fault.
///
/// ```
/// use virentolex::raw::check_notice;
///
/// let mut notice = *b"\x0F\0\0\0\x01\0\x01\0\x09\0\x01\0\x02Op\x2A\0\0\0";
/// assert_eq!(check_notice(&notice).number, 0);
/// notice[8] = 8;
/// assert_eq!((check_notice(&notice).number, check_notice(&notice).place), (11, 8));
/// ```
pub fn check_notice(notice: &[u8]) -> Checked {
    let mut place = 0;
    // SAFETY: the pointer and the length come from one slice, which is only read; the result is
    // borrowed here alone.
    let number =
        unsafe { library::virentolex_check_notice(notice.as_ptr(), notice.len(), &mut place) };
    Checked { number, place }
}

/// Reads field k of a notice: 11, then 17 if it has no field k.
///
/// ```
/// use virentolex::raw::{kind, read};
///
/// let notice = *b"\x0F\0\0\0\x01\0\x01\0\x09\0\x01\0\x02Op\x2A\0\0\0";
/// let field = read(&notice, 0);
/// assert_eq!((field.kind, field.name, field.value), (kind::INT32, &b"Op"[..], &[42, 0, 0, 0][..]));
/// assert_eq!(read(&notice, 1).number, 17);
/// ```
pub fn read(notice: &[u8], k: usize) -> Field<'_> {
    let mut place = 0;
    let mut kind = 0;
    let (mut name, mut value, mut end) = (0, 0, 0);
    // SAFETY: the pointer and the length come from one slice, which is only read; the five results
    // are borrowed here alone.
    let number = unsafe {
        library::virentolex_read(
            notice.as_ptr(),
            notice.len(),
            k,
            &mut place,
            &mut kind,
            &mut name,
            &mut value,
            &mut end,
        )
    };
    Field {
        number,
        place,
        kind,
        name: notice.get(name..value).unwrap_or_default(),
        value: notice.get(value..end).unwrap_or_default(),
    }
}

/// Finds the field of a name, which may be any bytes: 11. The search stops at the first name that is not
/// below the one sought; looked at are the names below it, and one more if any is left.
///
/// ```
/// use virentolex::raw::find;
///
/// let notice = *b"\x0F\0\0\0\x01\0\x01\0\x09\0\x01\0\x02Op\x2A\0\0\0";
/// assert_eq!(find(&notice, b"Op").index, Some(0));
/// assert_eq!((find(&notice, b"Staff").index, find(&notice, b"Staff").looked), (None, 1));
/// ```
pub fn find(notice: &[u8], name: &[u8]) -> Found {
    let (mut place, mut index, mut looked) = (0, 0, 0);
    // SAFETY: each pointer and length come from one slice, which is only read; the three results are
    // borrowed here alone.
    let number = unsafe {
        library::virentolex_find(
            notice.as_ptr(),
            notice.len(),
            name.as_ptr(),
            name.len(),
            &mut place,
            &mut index,
            &mut looked,
        )
    };
    Found {
        number,
        place,
        index: (index != NO_FIELD).then_some(index),
        looked,
    }
}

/// Adds a field, at its name's place, to the notice in the first `length` bytes of the buffer. The
/// bytes after the new notice stay, and a refusal changes no byte.
///
/// ```
/// use virentolex::raw::{kind, write, EMPTY_NOTICE};
///
/// let mut notice = [0; 19];
/// notice[..8].copy_from_slice(&EMPTY_NOTICE);
/// let written = write(&mut notice, 8, b"Op", kind::INT32, &42i32.to_le_bytes());
/// assert_eq!((written.number, written.length), (0, 19));
/// assert_eq!(notice, *b"\x0F\0\0\0\x01\0\x01\0\x09\0\x01\0\x02Op\x2A\0\0\0");
/// ```
pub fn write(buffer: &mut [u8], length: usize, name: &[u8], kind: u16, value: &[u8]) -> Written {
    let mut place = 0;
    let mut new_length = 0;
    // SAFETY: each pointer and length come from one slice, an empty one's pointer is not null; the
    // buffer and the two results are borrowed here alone, so that they overlap nothing.
    let number = unsafe {
        library::virentolex_write(
            buffer.as_mut_ptr(),
            buffer.len(),
            length,
            name.as_ptr(),
            name.len(),
            kind,
            value.as_ptr(),
            value.len(),
            &mut place,
            &mut new_length,
        )
    };
    Written {
        number,
        place,
        length: new_length,
    }
}

/// Reads a UBF(A) text into a notice at the buffer's start, fields in name order: 22 outside the syntax,
/// 23 for anything but one tuple of fields, 13, 16, 14, then 15. The bytes after the notice stay, and a
/// refusal changes no byte.
///
/// ```
/// use virentolex::raw::ubf_read;
///
/// let mut notice = [0; 19];
/// assert_eq!(ubf_read(b"{ \"Op\" 42 }$", &mut notice).length, 19);
/// assert_eq!(notice, *b"\x0F\0\0\0\x01\0\x01\0\x09\0\x01\0\x02Op\x2A\0\0\0");
/// ```
pub fn ubf_read(text: &[u8], notice: &mut [u8]) -> Converted {
    let (mut place, mut length) = (0, 0);
    // SAFETY: each pointer and length come from one slice, an empty one's pointer is not null; the
    // notice's buffer and the two results are borrowed here alone, so that they overlap nothing.
    let number = unsafe {
        library::virentolex_ubf_read(
            text.as_ptr(),
            text.len(),
            notice.as_mut_ptr(),
            notice.len(),
            &mut place,
            &mut length,
        )
    };
    Converted {
        number,
        place,
        length,
    }
}

/// Writes a notice as a UBF(A) text at the buffer's start, in the one fixed form: 11, 23 for a real64
/// field, then 15 for a buffer too short. The bytes after the text stay, and a refusal changes no byte.
///
/// ```
/// use virentolex::raw::ubf_write;
///
/// let notice = *b"\x0F\0\0\0\x01\0\x01\0\x09\0\x01\0\x02Op\x2A\0\0\0";
/// let mut text = [0; 9];
/// assert_eq!(ubf_write(&notice, &mut text).length, 9);
/// assert_eq!(text, *b"{\"Op\"42}$");
/// ```
pub fn ubf_write(notice: &[u8], text: &mut [u8]) -> Converted {
    let (mut place, mut length) = (0, 0);
    // SAFETY: as above, the text's buffer being the one that is written.
    let number = unsafe {
        library::virentolex_ubf_write(
            notice.as_ptr(),
            notice.len(),
            text.as_mut_ptr(),
            text.len(),
            &mut place,
            &mut length,
        )
    };
    Converted {
        number,
        place,
        length,
    }
}
