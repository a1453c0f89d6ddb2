//! Notices built field by field.

use crate::raw::{self, EMPTY_NOTICE};
use crate::{NoticeRef, Refusal, Value};

#[cfg(feature = "alloc")]
use crate::{NOTICE_MAX, Notice};
#[cfg(feature = "alloc")]
use alloc::{vec, vec::Vec};

/// Builds a notice field by field, in any order, in a buffer that it owns (`Notice::builder`) or borrows
/// (`NoticeRef::builder_in`). The first refusal is kept, and `build` gives it.
///
/// ```
/// use virentolex::{NoticeRef, Refusal, Value};
///
/// let mut room = [0; 100];
/// let notice = NoticeRef::builder_in(&mut room)
///     .field("Staff", "417")
///     .field("Fare", 12.5)
///     .field("Seal", Value::Opaque(b"\0\x01"))
///     .build()?;
/// assert_eq!(notice.len(), 3);
///
/// let unnamed = NoticeRef::builder_in(&mut room).field("", 1).field("Op", 2).build();
/// assert_eq!(unnamed, Err(Refusal::Name));
/// # Ok::<(), Refusal>(())
/// ```
#[derive(Debug, Clone)]
#[must_use = "`build` gives the notice"]
pub struct NoticeBuilder<B> {
    buffer: B,
    length: usize,
    refusal: Option<Refusal>,
}

impl<B: AsMut<[u8]>> NoticeBuilder<B> {
    fn begun(mut buffer: B) -> Self {
        let mut refusal = Some(Refusal::Room);
        if let Some(start) = buffer.as_mut().first_chunk_mut() {
            *start = EMPTY_NOTICE;
            refusal = None;
        }
        NoticeBuilder {
            buffer,
            length: EMPTY_NOTICE.len(),
            refusal,
        }
    }

    /// Adds a field at its name's place. What is refused is kept for `build`: the first of [`Refusal::Name`] for a
    /// name that breaks the rules, [`Refusal::Size`] for a value over 1,024 bytes, [`Refusal::Present`] for a name
    /// that is already there, [`Refusal::Room`] for a 65th field, over 16,384 bytes, or a buffer too short.
    ///
    /// ```
    /// use virentolex::{NoticeRef, Refusal, Value};
    ///
    /// let mut room = [0; 2000];
    /// let long = [b'x'; 1025];
    /// let notice = NoticeRef::builder_in(&mut room).field("Note", Value::String(&long)).build();
    /// assert_eq!(notice, Err(Refusal::Size));
    /// ```
    pub fn field<'v>(mut self, name: impl AsRef<[u8]>, value: impl Into<Value<'v>>) -> Self {
        // a refusal is kept
        let _ = self.add(name.as_ref(), value.into());
        self
    }

    /// Adds a field, and gives the first refusal.
    pub(crate) fn add(&mut self, name: &[u8], value: Value<'_>) -> Result<(), Refusal> {
        if self.refusal.is_none() {
            let (buffer, kind) = (self.buffer.as_mut(), value.kind().number());
            let written =
                value.with_bytes(|bytes| raw::write(buffer, self.length, name, kind, bytes));
            self.length = written.length;
            self.refusal = Refusal::from_number(written.number, written.place);
        }
        self.refusal.map_or(Ok(()), Err)
    }

    /// The buffer, if nothing was refused.
    fn finished(self) -> Result<(B, usize), Refusal> {
        match self.refusal {
            None => Ok((self.buffer, self.length)),
            Some(refusal) => Err(refusal),
        }
    }
}

impl<'a> NoticeRef<'a> {
    /// Begins a notice at the start of a lent buffer; the bytes after it stay.
    ///
    /// ```
    /// use virentolex::{NoticeRef, Refusal};
    ///
    /// let mut room = [0; 19];
    /// let notice = NoticeRef::builder_in(&mut room).field("Op", 42).build()?;
    /// assert_eq!(notice.as_bytes().len(), 19);
    /// let more = NoticeRef::builder_in(&mut room).field("Op", 42).field("Oq", 42).build();
    /// assert_eq!(more, Err(Refusal::Room));
    /// # Ok::<(), Refusal>(())
    /// ```
    pub fn builder_in(buffer: &'a mut [u8]) -> NoticeBuilder<&'a mut [u8]> {
        NoticeBuilder::begun(buffer)
    }
}

impl<'a> NoticeBuilder<&'a mut [u8]> {
    /// The notice.
    ///
    /// # Errors
    ///
    /// The first refusal of a field; [`Refusal::Room`] for a buffer under 8 bytes.
    ///
    /// ```
    /// use virentolex::{NoticeRef, EMPTY_NOTICE};
    ///
    /// let notice = NoticeRef::builder_in(&mut [0; 8]).build().map(|notice| notice.len());
    /// assert_eq!(notice, Ok(0));
    /// ```
    pub fn build(self) -> Result<NoticeRef<'a>, Refusal> {
        let (buffer, length) = self.finished()?;
        let (notice, _) = buffer.split_at_checked(length).ok_or(Refusal::Room)?;
        Ok(NoticeRef::trusted(notice))
    }
}

#[cfg(feature = "alloc")]
impl NoticeBuilder<Vec<u8>> {
    pub(crate) fn new() -> Self {
        NoticeBuilder::begun(vec![0; NOTICE_MAX])
    }

    /// The notice.
    ///
    /// # Errors
    ///
    /// The first refusal of a field; [`Refusal::Room`] for a buffer under 8 bytes.
    ///
    /// ```
    /// use virentolex::{Notice, Refusal};
    ///
    /// let notice = Notice::builder().field("Op", 42).build()?;
    /// assert_eq!(notice.as_bytes().len(), 19);
    /// # Ok::<(), Refusal>(())
    /// ```
    pub fn build(self) -> Result<Notice, Refusal> {
        let (mut buffer, length) = self.finished()?;
        buffer.truncate(length);
        buffer.shrink_to_fit();
        Ok(Notice::trusted(buffer))
    }
}

#[cfg(test)]
mod tests;
