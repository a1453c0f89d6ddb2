//! Notices as UBF(A) texts, which yard doors speak (document 02, request 5).

use crate::raw;
use crate::{NoticeRef, Refusal};

#[cfg(feature = "alloc")]
use crate::{NOTICE_MAX, Notice, UBF_TEXT_MAX};
#[cfg(feature = "alloc")]
use alloc::{vec, vec::Vec};

impl<'a> NoticeRef<'a> {
    /// Reads a UBF(A) text into a notice at the start of a lent buffer, whose later bytes stay. `NOTICE_MAX` bytes
    /// always suffice.
    ///
    /// # Errors
    ///
    /// [`Refusal::UbfSyntax`] for a text outside the syntax, then [`Refusal::UbfFields`] for anything but one tuple of
    /// fields, then [`Refusal::Name`], [`Refusal::Size`], [`Refusal::Present`], [`Refusal::Room`] over all fields.
    /// The buffer stays as it was.
    ///
    /// ```
    /// use virentolex::{NoticeRef, Refusal, Value};
    ///
    /// let mut room = [0; 100];
    /// let notice = NoticeRef::from_ubf_in("{ \"Op\" %a door% 42 }$", &mut room)?;
    /// assert_eq!(notice.field(0)?.value, Value::Int32(42));
    /// assert_eq!(NoticeRef::from_ubf_in("{\"Op\"", &mut room), Err(Refusal::UbfSyntax));
    /// # Ok::<(), Refusal>(())
    /// ```
    pub fn from_ubf_in(text: impl AsRef<[u8]>, buffer: &'a mut [u8]) -> Result<Self, Refusal> {
        let read = raw::ubf_read(text.as_ref(), buffer);
        Refusal::or(read.number, read.place, ())?;
        let (notice, _) = buffer.split_at_checked(read.length).ok_or(Refusal::Room)?;
        Ok(NoticeRef::trusted(notice))
    }

    /// Writes the notice as a UBF(A) text, in the one fixed form, at the start of a lent buffer, whose later bytes
    /// stay. `UBF_TEXT_MAX` bytes always suffice.
    ///
    /// # Errors
    ///
    /// [`Refusal::UbfFields`] for a real64 field, then [`Refusal::Room`] for a buffer too short.
    ///
    /// ```
    /// use virentolex::{NoticeRef, Refusal};
    ///
    /// let mut room = [0; 100];
    /// let notice = NoticeRef::builder_in(&mut room).field("Op", 42).build()?;
    /// let mut text = [0; 100];
    /// assert_eq!(notice.to_ubf_in(&mut text)?, b"{\"Op\"42}$");
    /// assert_eq!(notice.to_ubf_in(&mut text[..8]), Err(Refusal::Room));
    /// # Ok::<(), Refusal>(())
    /// ```
    pub fn to_ubf_in(self, buffer: &mut [u8]) -> Result<&[u8], Refusal> {
        let written = raw::ubf_write(self.as_bytes(), buffer);
        Refusal::or(written.number, written.place, ())?;
        let (text, _) = buffer
            .split_at_checked(written.length)
            .ok_or(Refusal::Room)?;
        Ok(text)
    }
}

#[cfg(feature = "alloc")]
impl Notice {
    /// Reads a UBF(A) text.
    ///
    /// # Errors
    ///
    /// [`Refusal::UbfSyntax`] for a text outside the syntax, then [`Refusal::UbfFields`] for anything but one tuple of
    /// fields, then [`Refusal::Name`], [`Refusal::Size`], [`Refusal::Present`], [`Refusal::Room`] over all fields.
    ///
    /// ```
    /// use virentolex::{Notice, Refusal};
    ///
    /// let notice = Notice::from_ubf("{\"Staff\"\"417\"\"Op\"42}$")?;
    /// assert_eq!(notice.to_string(), "Op: 42\nStaff: \"417\"\n");
    /// assert_eq!(Notice::from_ubf("{\"Op\"}$"), Err(Refusal::UbfFields));
    /// # Ok::<(), Refusal>(())
    /// ```
    pub fn from_ubf(text: impl AsRef<[u8]>) -> Result<Self, Refusal> {
        let mut buffer = vec![0; NOTICE_MAX];
        let length = NoticeRef::from_ubf_in(text, &mut buffer)?.as_bytes().len();
        buffer.truncate(length);
        buffer.shrink_to_fit();
        Ok(Notice::trusted(buffer))
    }

    /// The notice as a UBF(A) text, in the one fixed form. Read again, it gives the same notice.
    ///
    /// # Errors
    ///
    /// [`Refusal::UbfFields`] for a real64 field.
    ///
    /// ```
    /// use virentolex::{Notice, Refusal};
    ///
    /// let notice = Notice::builder().field("Staff", "417").field("Op", 42).build()?;
    /// assert_eq!(notice.to_ubf()?, b"{\"Op\"42\"Staff\"\"417\"}$");
    /// let fare = Notice::builder().field("Fare", 12.5).build()?;
    /// assert_eq!(fare.to_ubf(), Err(Refusal::UbfFields));
    /// # Ok::<(), Refusal>(())
    /// ```
    pub fn to_ubf(&self) -> Result<Vec<u8>, Refusal> {
        let mut buffer = vec![0; UBF_TEXT_MAX];
        let length = self.as_notice().to_ubf_in(&mut buffer)?.len();
        buffer.truncate(length);
        buffer.shrink_to_fit();
        Ok(buffer)
    }
}

#[cfg(test)]
mod tests;
