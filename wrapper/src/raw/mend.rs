//! Mending notices.

use super::library;

/// The bytes of the list for each field.
///
/// ```
/// use virentolex::raw::{mend, LISTED};
///
/// // a byte that is left behind the header is listed as cut
/// let (mut list, mut notice) = ([0; LISTED], [0; 8]);
/// assert_eq!(mend(&[0; 9], &mut list, &mut notice).fields, 1);
/// ```
pub const LISTED: usize = 3;
/// The most bytes of a list: 8,188 fields of length 0.
///
/// ```
/// use virentolex::{Mended, LIST_MAX, NOTICE_MAX};
///
/// let (mut list, mut notice) = ([0; LIST_MAX], [0; NOTICE_MAX]);
/// let mended = Mended::mend_in([0; NOTICE_MAX], &mut list[..], &mut notice[..])?;
/// assert_eq!(mended.fates().count() * 3, LIST_MAX);
/// # Ok::<(), virentolex::Refusal>(())
/// ```
pub const LIST_MAX: usize = 24_564;

/// What mending answers: the notice's length and the count of fields listed, both 0 if refused; the place is 0.
///
/// ```
/// use virentolex::raw::{mend, Mended};
///
/// let refused = mend(b"short", &mut [], &mut []);
/// assert_eq!(refused, Mended { number: 30, place: 0, length: 0, fields: 0 });
/// ```
#[derive(Debug, Clone, Copy, PartialEq, Eq)]
pub struct Mended {
    /// The refusal, 0 if there is none.
    pub number: u8,
    /// 0.
    pub place: usize,
    /// The notice's length.
    pub length: usize,
    /// How many fields are listed.
    pub fields: usize,
}

/// Mends a notice from the first consoles into the starts of two buffers: goes field by field by the length words
/// from offset 8, whatever the header says, keeps each field that is right by itself and whose name was not kept
/// before, and lists what became of each: 30 for under 8 bytes, 10 for over 16,384, 15 if over 64 fields would be
/// kept, then 9 for a buffer too short. A well-formed notice comes out the same, with every field kept. The bytes
/// after both results stay, and a refusal changes no byte.
///
/// ```
/// use virentolex::raw::{mend, EMPTY_NOTICE};
///
/// // a header that is not believed, and a byte that is left
/// let (mut list, mut notice) = ([0; 3], [0; 8]);
/// let mended = mend(&[7; 9], &mut list, &mut notice);
/// assert_eq!((mended.length, mended.fields), (8, 1));
/// assert_eq!((list, notice), ([8, 0, 4], EMPTY_NOTICE));
/// ```
pub fn mend(bytes: &[u8], list: &mut [u8], notice: &mut [u8]) -> Mended {
    let (mut place, mut length, mut fields) = (0, 0, 0);
    // SAFETY: each pointer and length come from one slice, an empty one's pointer is not null; the two buffers
    // and the three results are borrowed here alone, so that they overlap nothing.
    let number = unsafe {
        library::virentolex_mend(
            bytes.as_ptr(),
            bytes.len(),
            list.as_mut_ptr(),
            list.len(),
            notice.as_mut_ptr(),
            notice.len(),
            &mut place,
            &mut length,
            &mut fields,
        )
    };
    Mended {
        number,
        place,
        length,
        fields,
    }
}
