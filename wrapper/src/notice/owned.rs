//! Notices that own their bytes.

use super::{Fields, NoticeRef};
use crate::raw;
use crate::{EMPTY_NOTICE, Field, NoticeBuilder, Refusal, Value};
use alloc::vec::Vec;
use core::fmt;

/// A well-formed notice that owns its bytes.
///
/// ```
/// use virentolex::{Notice, Value};
///
/// let notice = Notice::builder().field("Op", 42).field("Staff", "417").build()?;
/// for field in &notice {
///     println!("{field}");
/// }
/// assert_eq!(notice.find("Staff").map(|field| field.value), Some(Value::String(b"417")));
/// # Ok::<(), virentolex::Refusal>(())
/// ```
#[derive(Clone, PartialEq, Eq, Hash)]
pub struct Notice {
    bytes: Vec<u8>,
}

impl Notice {
    /// The notice without fields.
    ///
    /// ```
    /// assert!(virentolex::Notice::new().is_empty());
    /// ```
    pub fn new() -> Self {
        Notice::trusted(EMPTY_NOTICE.to_vec())
    }

    /// Begins a notice, to which fields are added.
    ///
    /// ```
    /// use virentolex::{Notice, Refusal};
    ///
    /// let twice = Notice::builder().field("Op", 42).field("Op", 43).build();
    /// assert_eq!(twice, Err(Refusal::Present));
    /// ```
    pub fn builder() -> NoticeBuilder<Vec<u8>> {
        NoticeBuilder::new()
    }

    /// The notice that the bytes are.
    ///
    /// # Errors
    ///
    /// [`Refusal::Notice`] if they do not keep its layout, with the place of the fault.
    ///
    /// ```
    /// use virentolex::{Notice, Refusal};
    ///
    /// assert!(Notice::from_bytes(*b"\x04\0\0\0\x01\0\0\0").is_ok());
    /// assert_eq!(Notice::from_bytes("no notice"), Err(Refusal::Notice { place: 0 }));
    /// ```
    pub fn from_bytes(bytes: impl Into<Vec<u8>>) -> Result<Self, Refusal> {
        let bytes = bytes.into();
        NoticeRef::from_bytes(&bytes)?;
        Ok(Notice { bytes })
    }

    /// Bytes that the library wrote as a notice.
    pub(crate) fn trusted(bytes: Vec<u8>) -> Self {
        Notice { bytes }
    }

    /// Adds a field at its name's place.
    ///
    /// # Errors
    ///
    /// The first of [`Refusal::Name`] for a name that breaks the rules, [`Refusal::Size`] for a value over 1,024
    /// bytes, [`Refusal::Present`] for a name that is already there, [`Refusal::Room`] for a 65th field or over
    /// 16,384 bytes. The notice stays as it was.
    ///
    /// ```
    /// use virentolex::{Notice, Refusal};
    ///
    /// let mut notice = Notice::new();
    /// notice.insert("Staff", "417")?;
    /// assert_eq!(notice.insert("Staff", "502"), Err(Refusal::Present));
    /// assert_eq!(notice.len(), 1);
    /// # Ok::<(), Refusal>(())
    /// ```
    pub fn insert<'v>(
        &mut self,
        name: impl AsRef<[u8]>,
        value: impl Into<Value<'v>>,
    ) -> Result<(), Refusal> {
        let (name, value) = (name.as_ref(), value.into());
        let (length, kind) = (self.bytes.len(), value.kind().number());
        let written = value.with_bytes(|bytes| {
            let room = raw::FIELD_HEAD + name.len() + bytes.len();
            self.bytes
                .resize(length.saturating_add(room).min(raw::NOTICE_MAX), 0);
            raw::write(&mut self.bytes, length, name, kind, bytes)
        });
        self.bytes.truncate(written.length);
        Refusal::or(written.number, written.place, ())
    }

    /// Removes the field of a name, and says whether there was one. The library writes the fields that are left.
    ///
    /// ```
    /// use virentolex::Notice;
    ///
    /// let mut notice = Notice::builder().field("Op", 42).field("Staff", "417").build()?;
    /// assert!(notice.remove("Staff"));
    /// assert!(!notice.remove("Staff"));
    /// assert_eq!(notice, Notice::builder().field("Op", 42).build()?);
    /// # Ok::<(), virentolex::Refusal>(())
    /// ```
    pub fn remove(&mut self, name: impl AsRef<[u8]>) -> bool {
        let name = name.as_ref();
        if self.find(name).is_none() {
            return false;
        }
        let others = self.fields().filter(|field| field.name != name);
        let left = others.fold(Notice::builder(), |built, field| {
            built.field(field.name, field.value)
        });
        left.build().map(|left| *self = left).is_ok()
    }

    /// The notice, borrowed.
    ///
    /// ```
    /// use virentolex::{Notice, NoticeRef};
    ///
    /// assert_eq!(Notice::new().as_notice(), NoticeRef::EMPTY);
    /// ```
    pub fn as_notice(&self) -> NoticeRef<'_> {
        NoticeRef::trusted(&self.bytes)
    }

    /// The notice's bytes.
    ///
    /// ```
    /// use virentolex::{Notice, EMPTY_NOTICE};
    ///
    /// assert_eq!(Notice::new().as_bytes(), EMPTY_NOTICE);
    /// ```
    pub fn as_bytes(&self) -> &[u8] {
        &self.bytes
    }

    /// The notice's bytes, to be kept or sent.
    ///
    /// ```
    /// assert_eq!(virentolex::Notice::new().into_bytes().len(), 8);
    /// ```
    pub fn into_bytes(self) -> Vec<u8> {
        self.bytes
    }

    /// How many fields there are, 0 to 64.
    ///
    /// ```
    /// assert_eq!(virentolex::Notice::new().len(), 0);
    /// ```
    pub fn len(&self) -> usize {
        self.as_notice().len()
    }

    /// Whether there is no field.
    ///
    /// ```
    /// assert!(virentolex::Notice::new().is_empty());
    /// ```
    pub fn is_empty(&self) -> bool {
        self.as_notice().is_empty()
    }

    /// Field k, the first being 0, in the order of their names.
    ///
    /// # Errors
    ///
    /// [`Refusal::Index`] if there is none.
    ///
    /// ```
    /// use virentolex::{Notice, Refusal, Value};
    ///
    /// let notice = Notice::builder().field("Op", 42).build()?;
    /// assert_eq!(notice.field(0)?.value, Value::Int32(42));
    /// assert_eq!(notice.field(1), Err(Refusal::Index));
    /// # Ok::<(), Refusal>(())
    /// ```
    pub fn field(&self, k: usize) -> Result<Field<'_>, Refusal> {
        self.as_notice().field(k)
    }

    /// The field of a name, if there is one.
    ///
    /// ```
    /// let notice = virentolex::Notice::builder().field("Op", 42).build()?;
    /// assert!(notice.find("Op").is_some() && notice.find("op").is_none());
    /// # Ok::<(), virentolex::Refusal>(())
    /// ```
    pub fn find(&self, name: impl AsRef<[u8]>) -> Option<Field<'_>> {
        self.as_notice().find(name)
    }

    /// The fields, in the order of their names.
    ///
    /// ```
    /// let notice = virentolex::Notice::builder().field("b", 1).field("a", 2).build()?;
    /// let names: Vec<&str> = notice.fields().map(|field| field.name_str()).collect();
    /// assert_eq!(names, ["a", "b"]);
    /// # Ok::<(), virentolex::Refusal>(())
    /// ```
    pub fn fields(&self) -> Fields<'_> {
        self.as_notice().fields()
    }
}

impl Default for Notice {
    fn default() -> Self {
        Notice::new()
    }
}

impl AsRef<[u8]> for Notice {
    fn as_ref(&self) -> &[u8] {
        &self.bytes
    }
}

impl<'a> From<&'a Notice> for NoticeRef<'a> {
    fn from(notice: &'a Notice) -> NoticeRef<'a> {
        notice.as_notice()
    }
}

impl From<NoticeRef<'_>> for Notice {
    fn from(notice: NoticeRef<'_>) -> Notice {
        Notice::trusted(notice.as_bytes().to_vec())
    }
}

impl TryFrom<Vec<u8>> for Notice {
    type Error = Refusal;

    fn try_from(bytes: Vec<u8>) -> Result<Self, Refusal> {
        Notice::from_bytes(bytes)
    }
}

impl<'a> IntoIterator for &'a Notice {
    type Item = Field<'a>;
    type IntoIter = Fields<'a>;

    fn into_iter(self) -> Fields<'a> {
        self.fields()
    }
}

impl fmt::Debug for Notice {
    fn fmt(&self, f: &mut fmt::Formatter<'_>) -> fmt::Result {
        self.as_notice().fmt(f)
    }
}

/// The text form of notices, as the language page writes them: one field a line, `(no fields)` if there is none.
impl fmt::Display for Notice {
    fn fmt(&self, f: &mut fmt::Formatter<'_>) -> fmt::Result {
        fmt::Display::fmt(&self.as_notice(), f)
    }
}
