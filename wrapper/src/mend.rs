//! Mending the notices of the first consoles (document 02, request 14).

use crate::raw::{self, LISTED};
use crate::{NoticeRef, Refusal};
use core::fmt;

#[cfg(feature = "alloc")]
use crate::{NOTICE_MAX, Notice};
#[cfg(feature = "alloc")]
use alloc::{vec, vec::Vec};

/// What became of a field.
///
/// ```
/// use virentolex::Fate;
///
/// assert_eq!(Fate::Repeated.to_string(), "repeated");
/// assert!(Fate::Moved.stays() && !Fate::Repeated.stays());
/// ```
#[derive(Debug, Clone, Copy, PartialEq, Eq, Hash)]
pub enum Fate {
    /// It is in the notice, in its order.
    Kept,
    /// It is in the notice, but a greater name was kept before it.
    Moved,
    /// Its name was kept before.
    Repeated,
    /// It is not right by itself.
    Bad,
    /// Its length passes the end, or a single byte is left. It is the last one listed.
    Cut,
}

impl Fate {
    /// The fate that a byte of the list is; none for what is no such byte.
    ///
    /// ```
    /// use virentolex::Fate;
    ///
    /// assert_eq!((Fate::of_byte(4), Fate::of_byte(5)), (Some(Fate::Cut), None));
    /// ```
    pub fn of_byte(byte: u8) -> Option<Fate> {
        match byte {
            0 => Some(Fate::Kept),
            1 => Some(Fate::Moved),
            2 => Some(Fate::Repeated),
            3 => Some(Fate::Bad),
            4 => Some(Fate::Cut),
            _ => None,
        }
    }

    /// Whether the field is one of the mended notice.
    ///
    /// ```
    /// use virentolex::Fate;
    ///
    /// assert!(Fate::Kept.stays() && !Fate::Cut.stays());
    /// ```
    pub fn stays(self) -> bool {
        matches!(self, Fate::Kept | Fate::Moved)
    }
}

/// Document 02's word for it.
impl fmt::Display for Fate {
    fn fmt(&self, f: &mut fmt::Formatter<'_>) -> fmt::Result {
        f.pad(match self {
            Fate::Kept => "kept",
            Fate::Moved => "moved",
            Fate::Repeated => "repeated",
            Fate::Bad => "bad",
            Fate::Cut => "cut",
        })
    }
}

/// A field listed: where it starts in the bytes that were mended, and what became of it.
///
/// ```
/// use virentolex::{Fate, Fates, Listed};
///
/// let mut fates = Fates::of(&[8, 0, 3]);
/// assert_eq!(fates.next(), Some(Listed { offset: 8, fate: Fate::Bad }));
/// ```
#[derive(Debug, Clone, Copy, PartialEq, Eq, Hash)]
pub struct Listed {
    /// The field's start.
    pub offset: usize,
    /// What became of it.
    pub fate: Fate,
}

/// The fields of a list, in the order in which they lie in the bytes that were mended.
///
/// ```
/// use virentolex::{Fate, Fates};
///
/// let fates = Fates::of(&[8, 0, 0, 22, 0, 4]).map(|listed| listed.fate);
/// assert!(fates.eq([Fate::Kept, Fate::Cut]));
/// ```
#[derive(Clone)]
pub struct Fates<'a> {
    list: &'a [u8],
}

impl<'a> Fates<'a> {
    /// The fields that the bytes of a list tell of. Nothing is asked of the bytes: the fields end where there is no
    /// whole one, or one whose byte is no fate.
    ///
    /// ```
    /// assert_eq!(virentolex::Fates::of(&[8, 0]).count(), 0);
    /// ```
    pub fn of(list: &'a [u8]) -> Self {
        Fates { list }
    }
}

impl fmt::Debug for Fates<'_> {
    fn fmt(&self, f: &mut fmt::Formatter<'_>) -> fmt::Result {
        f.debug_list().entries(self.clone()).finish()
    }
}

impl Iterator for Fates<'_> {
    type Item = Listed;

    fn next(&mut self) -> Option<Listed> {
        let ([low, high, byte], rest) = self.list.split_first_chunk::<LISTED>()?;
        let fate = Fate::of_byte(*byte)?;
        self.list = rest;
        Some(Listed {
            offset: u16::from_le_bytes([*low, *high]).into(),
            fate,
        })
    }
}

/// A mended notice and the list of what became of each field, in buffers that it owns (`Vec<u8>`) or borrows
/// (`&mut [u8]`).
///
/// ```
/// use virentolex::{Fate, Mended, LIST_MAX};
///
/// // a header that is not believed; b, then a, which is out of order; and a byte that is left
/// let bytes = b"\xFF\xFF\0\0\0\0\0\0\x06\0\x04\0\x01bxx\x05\0\x04\0\x01ay\x05";
/// let (mut list, mut room) = ([0; LIST_MAX], [0; 100]);
/// let mended = Mended::mend_in(bytes, &mut list[..], &mut room[..])?;
/// assert_eq!(mended.notice().to_string(), "a: \"y\"\nb: \"xx\"\n");
/// assert!(mended.fates().map(|listed| listed.fate).eq([Fate::Kept, Fate::Moved, Fate::Cut]));
/// # Ok::<(), virentolex::Refusal>(())
/// ```
#[derive(Clone, PartialEq, Eq, Hash)]
pub struct Mended<B> {
    list: B,
    notice: B,
    listed: usize,
    length: usize,
}

#[cfg(feature = "alloc")]
impl Mended<Vec<u8>> {
    /// Mends bytes into buffers of its own, just as long as the results are.
    ///
    /// # Errors
    ///
    /// [`Refusal::Short`] for under 8 bytes, [`Refusal::Length`] for over 16,384, then [`Refusal::Room`] if over 64
    /// fields would be kept.
    ///
    /// ```
    /// use virentolex::{Mended, Notice, Refusal};
    ///
    /// let notice = Notice::builder().field("Op", 42).field("Staff", "417").build()?;
    /// // the last byte is lost, and with it the field Staff
    /// let bytes = notice.as_bytes();
    /// let mended = Mended::mend(&bytes[..bytes.len() - 1])?;
    /// assert_eq!(mended.notice().to_string(), "Op: 42\n");
    /// assert_eq!(Mended::mend("short"), Err(Refusal::Short));
    /// # Ok::<(), Refusal>(())
    /// ```
    pub fn mend(bytes: impl AsRef<[u8]>) -> Result<Self, Refusal> {
        // over this length nothing is written; a field takes 2 bytes at least, but for a last one of a single byte
        let length = bytes.as_ref().len().min(NOTICE_MAX);
        let list = LISTED * length.saturating_sub(8).div_ceil(2);
        let mut mended = Mended::mend_in(bytes, vec![0; list], vec![0; length])?;
        mended.list.truncate(mended.listed);
        mended.notice.truncate(mended.length);
        Ok(mended)
    }

    /// The mended notice, by itself.
    ///
    /// ```
    /// use virentolex::{Mended, Notice};
    ///
    /// let notice = Notice::builder().field("Op", 42).build()?;
    /// assert_eq!(Mended::mend(&notice)?.into_notice(), notice);
    /// # Ok::<(), virentolex::Refusal>(())
    /// ```
    pub fn into_notice(self) -> Notice {
        Notice::trusted(self.notice)
    }
}

impl<B: AsRef<[u8]> + AsMut<[u8]>> Mended<B> {
    /// Mends bytes into the starts of two buffers, the list's and the notice's, whose later bytes stay. `LIST_MAX`
    /// bytes and as many as are mended always suffice.
    ///
    /// # Errors
    ///
    /// [`Refusal::Short`] for under 8 bytes, [`Refusal::Length`] for over 16,384, [`Refusal::Room`] if over 64 fields
    /// would be kept, then [`Refusal::Buffer`] for a buffer too short. Both stay as they were.
    ///
    /// ```
    /// use virentolex::{Mended, Refusal, EMPTY_NOTICE};
    ///
    /// assert!(Mended::mend_in(EMPTY_NOTICE, [0; 8], [0; 8]).is_ok());
    /// assert_eq!(Mended::mend_in(EMPTY_NOTICE, [0; 7], [0; 7]), Err(Refusal::Buffer));
    /// ```
    pub fn mend_in(bytes: impl AsRef<[u8]>, mut list: B, mut notice: B) -> Result<Self, Refusal> {
        let mended = raw::mend(bytes.as_ref(), list.as_mut(), notice.as_mut());
        Refusal::or(mended.number, mended.place, ())?;
        Ok(Mended {
            list,
            notice,
            listed: LISTED * mended.fields,
            length: mended.length,
        })
    }

    /// The mended notice.
    ///
    /// ```
    /// use virentolex::{Mended, EMPTY_NOTICE};
    ///
    /// assert!(Mended::mend_in([0; 8], [0; 8], [0; 8])?.notice().is_empty());
    /// # Ok::<(), virentolex::Refusal>(())
    /// ```
    pub fn notice(&self) -> NoticeRef<'_> {
        let notice = self.notice.as_ref().get(..self.length);
        notice.map_or(NoticeRef::EMPTY, NoticeRef::trusted)
    }

    /// What became of each field.
    ///
    /// ```
    /// use virentolex::{Fate, Mended};
    ///
    /// // the fields of length 0 are bad
    /// let mended = Mended::mend_in([0; 12], [0; 12], [0; 12])?;
    /// assert!(mended.fates().map(|listed| listed.fate).eq([Fate::Bad, Fate::Bad]));
    /// # Ok::<(), virentolex::Refusal>(())
    /// ```
    pub fn fates(&self) -> Fates<'_> {
        Fates::of(self.list.as_ref().get(..self.listed).unwrap_or_default())
    }
}

impl<B> Mended<B> {
    /// Both buffers, the list's first, with their results at the start.
    ///
    /// ```
    /// use virentolex::{Mended, EMPTY_NOTICE};
    ///
    /// let (_, notice) = Mended::mend_in([7; 8], [0; 8], [0; 8])?.into_buffers();
    /// assert_eq!(notice, EMPTY_NOTICE);
    /// # Ok::<(), virentolex::Refusal>(())
    /// ```
    pub fn into_buffers(self) -> (B, B) {
        (self.list, self.notice)
    }
}

/// The notice, and what became of each field.
impl<B: AsRef<[u8]> + AsMut<[u8]>> fmt::Debug for Mended<B> {
    fn fmt(&self, f: &mut fmt::Formatter<'_>) -> fmt::Result {
        let mut mended = f.debug_struct("Mended");
        mended.field("notice", &self.notice());
        mended.field("fates", &self.fates()).finish()
    }
}

#[cfg(all(test, feature = "alloc"))]
mod tests;
