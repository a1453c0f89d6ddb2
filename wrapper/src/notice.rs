//! Notices, checked once and then trusted by their type.

use crate::raw;
use crate::spell;
use crate::{EMPTY_NOTICE, Field, Refusal, Value};
use core::fmt;
use core::iter::FusedIterator;

/// A well-formed notice in bytes that it borrows. It needs no allocator.
///
/// ```
/// use virentolex::{NoticeRef, Value};
///
/// let bytes = *b"\x0F\0\0\0\x01\0\x01\0\x09\0\x01\0\x02Op\x2A\0\0\0";
/// let notice = NoticeRef::from_bytes(&bytes)?;
/// assert_eq!(notice.find("Op").map(|field| field.value), Some(Value::Int32(42)));
/// assert_eq!(notice.find("Staff"), None);
/// # Ok::<(), virentolex::Refusal>(())
/// ```
#[derive(Clone, Copy, PartialEq, Eq, Hash)]
pub struct NoticeRef<'a> {
    bytes: &'a [u8],
}

impl<'a> NoticeRef<'a> {
    /// The notice without fields.
    ///
    /// ```
    /// assert!(virentolex::NoticeRef::EMPTY.is_empty());
    /// ```
    pub const EMPTY: NoticeRef<'static> = NoticeRef {
        bytes: &EMPTY_NOTICE,
    };

    /// The notice that the bytes are.
    ///
    /// # Errors
    ///
    /// [`Refusal::Notice`] if they do not keep its layout, with the place of the fault.
    ///
    /// ```
    /// use virentolex::{NoticeRef, Refusal, EMPTY_NOTICE};
    ///
    /// assert!(NoticeRef::from_bytes(&EMPTY_NOTICE).is_ok());
    /// let cut = NoticeRef::from_bytes(&EMPTY_NOTICE[..7]);
    /// assert_eq!(cut, Err(Refusal::Notice { place: 0 }));
    /// ```
    pub fn from_bytes(bytes: &'a [u8]) -> Result<Self, Refusal> {
        let checked = raw::check_notice(bytes);
        Refusal::or(checked.number, checked.place, NoticeRef { bytes })
    }

    /// Bytes that the library wrote as a notice, or checked.
    pub(crate) fn trusted(bytes: &'a [u8]) -> Self {
        NoticeRef { bytes }
    }

    /// The notice's bytes.
    ///
    /// ```
    /// use virentolex::{NoticeRef, EMPTY_NOTICE};
    ///
    /// assert_eq!(NoticeRef::EMPTY.as_bytes(), EMPTY_NOTICE);
    /// ```
    pub fn as_bytes(self) -> &'a [u8] {
        self.bytes
    }

    /// How many fields there are, 0 to 64.
    ///
    /// ```
    /// assert_eq!(virentolex::NoticeRef::EMPTY.len(), 0);
    /// ```
    pub fn len(self) -> usize {
        match self.bytes {
            [_, _, _, _, _, _, low, high, ..] => u16::from_le_bytes([*low, *high]).into(),
            _ => 0,
        }
    }

    /// Whether there is no field.
    ///
    /// ```
    /// assert!(virentolex::NoticeRef::EMPTY.is_empty());
    /// ```
    pub fn is_empty(self) -> bool {
        self.len() == 0
    }

    /// Field k, the first being 0, in the order of their names.
    ///
    /// # Errors
    ///
    /// [`Refusal::Index`] if there is none.
    ///
    /// ```
    /// use virentolex::{NoticeRef, Refusal};
    ///
    /// assert_eq!(NoticeRef::EMPTY.field(0), Err(Refusal::Index));
    /// ```
    pub fn field(self, k: usize) -> Result<Field<'a>, Refusal> {
        self.fields().nth(k).ok_or(Refusal::Index)
    }

    /// The field of a name, if there is one. Any bytes may be sought.
    ///
    /// ```
    /// use virentolex::{NoticeRef, NOTICE_MAX};
    ///
    /// let mut room = [0; NOTICE_MAX];
    /// let notice = NoticeRef::builder_in(&mut room).field("Staff", "417").build()?;
    /// let staff = notice.find("Staff").and_then(|field| field.value.as_str());
    /// assert_eq!(staff, Some("417"));
    /// # Ok::<(), virentolex::Refusal>(())
    /// ```
    pub fn find(self, name: impl AsRef<[u8]>) -> Option<Field<'a>> {
        let found = raw::find(self.bytes, name.as_ref());
        self.field(found.index?).ok()
    }

    /// The fields, in the order of their names.
    ///
    /// ```
    /// use virentolex::{NoticeRef, NOTICE_MAX};
    ///
    /// let mut room = [0; NOTICE_MAX];
    /// let notice = NoticeRef::builder_in(&mut room).field("Staff", "417").field("Op", 42).build()?;
    /// let mut names = notice.fields().map(|field| field.name);
    /// assert_eq!(names.next(), Some(&b"Op"[..]));
    /// assert_eq!(names.next(), Some(&b"Staff"[..]));
    /// assert_eq!(names.next(), None);
    /// # Ok::<(), virentolex::Refusal>(())
    /// ```
    pub fn fields(self) -> Fields<'a> {
        Fields {
            rest: self.bytes.get(EMPTY_NOTICE.len()..).unwrap_or_default(),
            left: self.len(),
        }
    }
}

impl AsRef<[u8]> for NoticeRef<'_> {
    fn as_ref(&self) -> &[u8] {
        self.bytes
    }
}

impl<'a> TryFrom<&'a [u8]> for NoticeRef<'a> {
    type Error = Refusal;

    fn try_from(bytes: &'a [u8]) -> Result<Self, Refusal> {
        NoticeRef::from_bytes(bytes)
    }
}

impl<'a> IntoIterator for NoticeRef<'a> {
    type Item = Field<'a>;
    type IntoIter = Fields<'a>;

    fn into_iter(self) -> Fields<'a> {
        self.fields()
    }
}

impl fmt::Debug for NoticeRef<'_> {
    fn fmt(&self, f: &mut fmt::Formatter<'_>) -> fmt::Result {
        f.debug_list().entries(self.fields()).finish()
    }
}

/// The text form of notices, as the language page writes them: one field a line, `(no fields)` if there is none.
///
/// ```
/// use virentolex::{NoticeRef, NOTICE_MAX};
///
/// let mut room = [0; NOTICE_MAX];
/// let notice = NoticeRef::builder_in(&mut room).field("Group", "Chat").field("Count", 3).build()?;
/// assert_eq!(notice.to_string(), "Count: 3\nGroup: \"Chat\"\n");
/// assert_eq!(NoticeRef::EMPTY.to_string(), "(no fields)\n");
/// # Ok::<(), virentolex::Refusal>(())
/// ```
impl fmt::Display for NoticeRef<'_> {
    fn fmt(&self, f: &mut fmt::Formatter<'_>) -> fmt::Result {
        if self.is_empty() {
            return writeln!(f, "{}", spell::NO_FIELDS);
        }
        self.fields().try_for_each(|field| writeln!(f, "{field}"))
    }
}

/// The fields of a notice, in the order of their names.
///
/// ```
/// let mut fields = virentolex::NoticeRef::EMPTY.fields();
/// assert_eq!((fields.len(), fields.next()), (0, None));
/// ```
#[derive(Clone)]
pub struct Fields<'a> {
    /// The bytes of the fields that are left, and their number.
    rest: &'a [u8],
    left: usize,
}

impl fmt::Debug for Fields<'_> {
    fn fmt(&self, f: &mut fmt::Formatter<'_>) -> fmt::Result {
        f.debug_list().entries(self.clone()).finish()
    }
}

impl<'a> Iterator for Fields<'a> {
    type Item = Field<'a>;

    fn next(&mut self) -> Option<Field<'a>> {
        let (length, rest) = self.rest.split_first_chunk()?;
        let (field, rest) = rest.split_at_checked(u16::from_le_bytes(*length).into())?;
        let ([kind, high, length], parts) = field.split_first_chunk()?;
        let (name, value) = parts.split_at_checked((*length).into())?;
        let value = Value::of_parts(u16::from_le_bytes([*kind, *high]), value)?;
        (self.rest, self.left) = (rest, self.left.saturating_sub(1));
        Some(Field { name, value })
    }

    fn size_hint(&self) -> (usize, Option<usize>) {
        (self.left, Some(self.left))
    }
}

impl ExactSizeIterator for Fields<'_> {}
impl FusedIterator for Fields<'_> {}

#[cfg(feature = "alloc")]
mod owned;
#[cfg(feature = "alloc")]
pub use owned::Notice;

#[cfg(test)]
mod tests;
