//! The store of tables (document 02, request 12): ours, and Rust written for speed with the same duty. Both check a store's layout at
//! every call, any bytes being lent, and answer and write the same.

/// The verified functions.
pub mod ours {
    mod c {
        extern "C" {
            pub fn virentolex_store_make(store: *mut u8, store_len: usize) -> u8;
            pub fn virentolex_store_add(
                store: *mut u8,
                store_len: usize,
                table: *const u8,
                table_len: usize,
                number: *mut usize,
            ) -> u8;
            pub fn virentolex_store_remove(store: *mut u8, store_len: usize, number: usize) -> u8;
            pub fn virentolex_store_fetch(
                store: *const u8,
                store_len: usize,
                number: usize,
                start: *mut usize,
                end: *mut usize,
            ) -> u8;
            pub fn virentolex_store_match(
                store: *const u8,
                store_len: usize,
                notice: *const u8,
                notice_len: usize,
                verdicts: *mut u8,
                verdicts_len: usize,
                place: *mut usize,
            ) -> u8;
        }
    }

    pub fn make(store: &mut [u8]) -> u8 {
        // SAFETY: the pointer is lent with its length for the call
        unsafe { c::virentolex_store_make(store.as_mut_ptr(), store.len()) }
    }

    /// The refusal's number, and the table's.
    pub fn add(store: &mut [u8], table: &[u8]) -> (u8, usize) {
        let mut id = 0;
        // SAFETY: as above
        let number = unsafe {
            c::virentolex_store_add(
                store.as_mut_ptr(),
                store.len(),
                table.as_ptr(),
                table.len(),
                &mut id,
            )
        };
        (number, id)
    }

    pub fn remove(store: &mut [u8], id: usize) -> u8 {
        // SAFETY: as above
        unsafe { c::virentolex_store_remove(store.as_mut_ptr(), store.len(), id) }
    }

    /// The refusal's number, and where the table starts and ends.
    pub fn fetch(store: &[u8], id: usize) -> (u8, usize, usize) {
        let (mut start, mut end) = (0, 0);
        // SAFETY: as above
        let number = unsafe {
            c::virentolex_store_fetch(store.as_ptr(), store.len(), id, &mut start, &mut end)
        };
        (number, start, end)
    }

    /// The refusal's number and place.
    pub fn matching(store: &[u8], notice: &[u8], verdicts: &mut [u8]) -> (u8, usize) {
        let mut place = 0;
        // SAFETY: as above
        let number = unsafe {
            c::virentolex_store_match(
                store.as_ptr(),
                store.len(),
                notice.as_ptr(),
                notice.len(),
                verdicts.as_mut_ptr(),
                verdicts.len(),
                &mut place,
            )
        };
        (number, place)
    }
}

/// The expert's. A walk keeps the numbers met as bits, so that the lowest free one is a count of bits; moves and copies are those of the
/// C library.
pub mod expert {
    use crate::expert::{check, no_code, verdict_byte, Index};

    const EMPTY: [u8; 8] = [4, 0, 0, 0, 6, 0, 0, 0];

    #[inline(always)]
    unsafe fn u16_at(s: &[u8], at: usize) -> u16 {
        u16::from_le((s.as_ptr().add(at) as *const u16).read_unaligned())
    }

    #[inline(always)]
    unsafe fn u32_at(s: &[u8], at: usize) -> u32 {
        u32::from_le((s.as_ptr().add(at) as *const u32).read_unaligned())
    }

    /// What a walk finds: the numbers held, as bits, and where the records end.
    struct Walk {
        held: u64,
        end: usize,
    }

    /// Tells the number and the start of each record; none if the bytes break the layout.
    #[inline(always)]
    fn walk(store: &[u8], mut tell: impl FnMut(usize, usize)) -> Option<Walk> {
        if !(8..=65_536).contains(&store.len()) {
            return None;
        }
        // SAFETY: there are eight bytes
        let (length, rest) = unsafe { (u32_at(store, 0), u32_at(store, 4)) };
        let end = 4 + length as usize;
        if end > store.len() || end < 8 || rest as u16 != 6 {
            return None;
        }
        let (mut held, mut at) = (0u64, 8);
        for _ in 0..rest >> 16 {
            if at + 4 > end {
                return None;
            }
            // SAFETY: there are four bytes before the end
            let (length, kind) = unsafe { (u16_at(store, at), u16_at(store, at + 2)) };
            let id = kind.wrapping_sub(256);
            if length < 2 || id >= 64 || held >> id & 1 == 1 {
                return None;
            }
            held |= 1 << id;
            tell(id as usize, at);
            at += 2 + length as usize;
        }
        (at == end).then_some(Walk { held, end })
    }

    pub fn make(store: &mut [u8]) -> u8 {
        if !(8..=65_536).contains(&store.len()) {
            return 26;
        }
        store[..8].copy_from_slice(&EMPTY);
        0
    }

    /// Writes the length and the count by which the store has changed.
    #[inline(always)]
    fn set_head(store: &mut [u8], end: usize, count: u16) {
        store[..4].copy_from_slice(&(end as u32 - 4).to_le_bytes());
        store[6..8].copy_from_slice(&count.to_le_bytes());
    }

    /// The refusal's number, and the table's.
    pub fn add(store: &mut [u8], table: &[u8]) -> (u8, usize) {
        let Some(Walk { held, end }) = walk(store, |_, _| ()) else {
            return (26, 64);
        };
        if !check(table) {
            return (12, 64);
        }
        let id = (!held).trailing_zeros() as usize;
        if id == 64 {
            return (27, 64);
        }
        let new_end = end + 4 + table.len();
        if new_end > store.len() {
            return (28, 64);
        }
        let head = (2 + table.len() as u32) | (256 + id as u32) << 16;
        store[end..end + 4].copy_from_slice(&head.to_le_bytes());
        store[end + 4..new_end].copy_from_slice(table);
        set_head(store, new_end, held.count_ones() as u16 + 1);
        (0, id)
    }

    /// The start and the end of a number's record, and the walk.
    #[inline(always)]
    fn find(store: &[u8], id: usize) -> Result<(usize, usize, Walk), u8> {
        let mut start = 0;
        let walk = walk(store, |number, at| {
            start = if number == id { at } else { start };
        })
        .ok_or(26)?;
        if start == 0 {
            return Err(29);
        }
        // SAFETY: the record lies in the store
        let length = unsafe { u16_at(store, start) };
        Ok((start, start + 2 + length as usize, walk))
    }

    pub fn remove(store: &mut [u8], id: usize) -> u8 {
        let (start, end, walk) = match find(store, id) {
            Ok(found) => found,
            Err(number) => return number,
        };
        store.copy_within(end..walk.end, start);
        let count = walk.held.count_ones() as u16 - 1;
        set_head(store, walk.end - (end - start), count);
        0
    }

    /// The refusal's number, and where the table starts and ends.
    pub fn fetch(store: &[u8], id: usize) -> (u8, usize, usize) {
        match find(store, id) {
            Ok((start, end, _)) => (0, start + 4, end),
            Err(number) => (number, 0, 0),
        }
    }

    /// The refusal's number and place. The notice is checked and its index made once.
    pub fn matching(store: &[u8], notice: &[u8], verdicts: &mut [u8]) -> (u8, usize) {
        let mut starts = [0u16; 64];
        if walk(store, |id, at| starts[id] = at as u16).is_none() {
            return (26, 0);
        }
        let index = match Index::of(notice) {
            Ok(index) => index,
            Err(place) => return (11, place),
        };
        if verdicts.len() < 64 {
            return (9, 0);
        }
        let mut code = no_code();
        for (&start, verdict) in starts.iter().zip(verdicts) {
            if start == 0 {
                *verdict = 4;
                continue;
            }
            let start = start as usize;
            // SAFETY: the record lies in the store
            let end = start + 2 + unsafe { u16_at(store, start) } as usize;
            // SAFETY: the notice has been checked, and the index is of it
            *verdict = unsafe { verdict_byte(&store[start + 4..end], notice, &index, &mut code) };
        }
        (0, 0)
    }
}
