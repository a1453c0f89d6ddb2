//! Mending (document 02, request 14): ours, and Rust written for speed with the same duty. Both judge every field before anything is written,
//! allocate nothing, and answer and write the same.

/// The verified function.
pub mod ours {
    mod c {
        extern "C" {
            pub fn virentolex_mend(
                bytes: *const u8,
                bytes_len: usize,
                list: *mut u8,
                list_len: usize,
                notice: *mut u8,
                notice_len: usize,
                place: *mut usize,
                length: *mut usize,
                fields: *mut usize,
            ) -> u8;
        }
    }

    /// The refusal's number and place, the notice's length, and the count of fields listed.
    pub fn mend(bytes: &[u8], list: &mut [u8], notice: &mut [u8]) -> (u8, usize, usize, usize) {
        let (mut place, mut length, mut fields) = (0, 0, 0);
        // SAFETY: each pointer is lent with its length for the call
        let number = unsafe {
            c::virentolex_mend(
                bytes.as_ptr(),
                bytes.len(),
                list.as_mut_ptr(),
                list.len(),
                notice.as_mut_ptr(),
                notice.len(),
                &mut place,
                &mut length,
                &mut fields,
            )
        };
        (number, place, length, fields)
    }
}

/// The expert's. One pass judges: it keeps the first eight bytes of the kept names as words, in order, looks at the greatest first and else for
/// the place without a branch, and notes each field's code in an array that is not initialised. Then the list is written by the length words, and
/// fields that lie side by side in both are copied at once.
pub mod expert {
    use crate::expert::{name_right, u16_at};
    use std::mem::MaybeUninit;

    const MOST: usize = 64;
    /// So many fields of 2 bytes have room behind the header.
    const MOST_LISTED: usize = 8188;
    const BAD: u8 = 3;
    const CUT: u8 = 4;

    /// The kept fields in the order of their names: the first eight bytes of each name, where each starts and ends.
    struct Kept {
        keys: [MaybeUninit<u64>; MOST],
        parts: [MaybeUninit<(u16, u16)>; MOST],
        count: usize,
    }

    /// What the pass finds: the codes in an array of its caller, the fields listed, and the notice's length.
    struct Judged {
        fields: usize,
        length: usize,
    }

    /// The name of a field that is right by itself.
    #[inline(always)]
    unsafe fn name_at(bytes: &[u8], at: usize) -> &[u8] {
        bytes.get_unchecked(at + 5..at + 5 + *bytes.get_unchecked(at + 4) as usize)
    }

    /// The name's first eight bytes as a number that orders as they do, zeros behind a shorter one.
    #[inline(always)]
    unsafe fn key_of(bytes: &[u8], at: usize, name: &[u8]) -> u64 {
        if at + 13 <= bytes.len() {
            let word = u64::from_be((bytes.as_ptr().add(at + 5) as *const u64).read_unaligned());
            return match name.len() {
                n if n < 8 => word & !(u64::MAX >> (8 * n)),
                _ => word,
            };
        }
        let mut word = [0; 8];
        let n = name.len().min(8);
        word[..n].copy_from_slice(name.get_unchecked(..n));
        u64::from_be_bytes(word)
    }

    /// Whether the whole field is right by itself.
    #[inline(always)]
    unsafe fn right(bytes: &[u8], at: usize, length: usize) -> bool {
        if length < 4 {
            return false;
        }
        let name_len = *bytes.get_unchecked(at + 4) as usize;
        if length < 3 + name_len {
            return false;
        }
        let value_len = length - 3 - name_len;
        let sized = match u16_at(bytes, at + 2) {
            1 => value_len == 4,
            2 | 3 => value_len == 8,
            4 | 5 => value_len <= 1024,
            _ => false,
        };
        sized && name_right(name_at(bytes, at))
    }

    impl Kept {
        #[inline(always)]
        unsafe fn key(&self, i: usize) -> u64 {
            self.keys.get_unchecked(i).assume_init()
        }

        #[inline(always)]
        unsafe fn part(&self, i: usize) -> (usize, usize) {
            let (start, end) = self.parts.get_unchecked(i).assume_init();
            (start as usize, end as usize)
        }

        /// How many keys are below, without a branch on them.
        #[inline(always)]
        unsafe fn below(&self, key: u64) -> usize {
            let (mut base, mut left) = (0, self.count);
            while left > 1 {
                let half = left / 2;
                base += half * usize::from(self.key(base + half - 1) < key);
                left -= half;
            }
            base + usize::from(left == 1 && self.key(base) < key)
        }

        /// The place of a name, and whether it is there.
        #[inline(always)]
        unsafe fn find(&self, bytes: &[u8], key: u64, name: &[u8]) -> (usize, bool) {
            if self.count == 0 || self.key(self.count - 1) < key {
                return (self.count, false);
            }
            let (mut low, mut high) = (self.below(key), self.count);
            while low < high && self.key(low) == key {
                // names that begin alike: by halves of those with the same key
                let middle = low + (high - low) / 2;
                if self.key(middle) != key {
                    high = middle;
                    continue;
                }
                match name_at(bytes, self.part(middle).0).cmp(name) {
                    std::cmp::Ordering::Less => low = middle + 1,
                    std::cmp::Ordering::Equal => return (middle, true),
                    std::cmp::Ordering::Greater => high = middle,
                }
            }
            (low, false)
        }

        #[inline(always)]
        unsafe fn insert(&mut self, place: usize, key: u64, part: (usize, usize)) {
            let behind = self.count - place;
            let (keys, parts) = (self.keys.as_mut_ptr(), self.parts.as_mut_ptr());
            if behind > 0 {
                std::ptr::copy(keys.add(place), keys.add(place + 1), behind);
                std::ptr::copy(parts.add(place), parts.add(place + 1), behind);
            }
            *keys.add(place) = MaybeUninit::new(key);
            *parts.add(place) = MaybeUninit::new((part.0 as u16, part.1 as u16));
            self.count += 1;
        }
    }

    /// Judges every field; none if 65 would be kept.
    #[inline(always)]
    unsafe fn judge(bytes: &[u8], kept: &mut Kept, codes: *mut u8) -> Option<Judged> {
        let (mut at, mut fields, mut length) = (8, 0, 8);
        while at < bytes.len() {
            let left = bytes.len() - at;
            let size = if left == 1 {
                left
            } else {
                u16_at(bytes, at) as usize
            };
            let end = at + 2 + size;
            let code = if end > bytes.len() {
                CUT
            } else if !right(bytes, at, size) {
                BAD
            } else {
                let name = name_at(bytes, at);
                let key = key_of(bytes, at, name);
                match kept.find(bytes, key, name) {
                    (_, true) => 2,
                    _ if kept.count == MOST => return None,
                    (place, false) => {
                        let code = u8::from(place < kept.count);
                        kept.insert(place, key, (at, end));
                        length += end - at;
                        code
                    }
                }
            };
            *codes.add(fields) = code;
            fields += 1;
            at = end;
        }
        Some(Judged { fields, length })
    }

    /// Writes the list: offsets by the length words, codes as noted. Each write but the last may reach into the next entry.
    #[inline(always)]
    unsafe fn write_list(bytes: &[u8], list: *mut u8, codes: *const u8, fields: usize) {
        let mut at = 8;
        for k in 0..fields {
            let entry = at as u32 | (*codes.add(k) as u32) << 16;
            let to = list.add(3 * k);
            if k + 1 < fields {
                (to as *mut u32).write_unaligned(entry.to_le());
                at += 2 + u16_at(bytes, at) as usize;
            } else {
                std::ptr::copy_nonoverlapping(entry.to_le_bytes().as_ptr(), to, 3);
            }
        }
    }

    /// Writes the notice, fields that lie side by side at once.
    #[inline(always)]
    unsafe fn write_notice(bytes: &[u8], notice: *mut u8, kept: &Kept, length: usize) {
        let head = (length as u64 - 4) | 1 << 32 | (kept.count as u64) << 48;
        (notice as *mut u64).write_unaligned(head.to_le());
        let (mut to, mut i) = (8, 0);
        while i < kept.count {
            let (start, mut end) = kept.part(i);
            i += 1;
            while i < kept.count && kept.part(i).0 == end {
                end = kept.part(i).1;
                i += 1;
            }
            std::ptr::copy_nonoverlapping(bytes.as_ptr().add(start), notice.add(to), end - start);
            to += end - start;
        }
    }

    /// The refusal's number and place, the notice's length, and the count of fields listed.
    pub fn mend(bytes: &[u8], list: &mut [u8], notice: &mut [u8]) -> (u8, usize, usize, usize) {
        if bytes.len() < 8 {
            return (30, 0, 0, 0);
        }
        if bytes.len() > 16_384 {
            return (10, 0, 0, 0);
        }
        let mut kept = Kept {
            keys: [MaybeUninit::uninit(); MOST],
            parts: [MaybeUninit::uninit(); MOST],
            count: 0,
        };
        let mut codes = [MaybeUninit::<u8>::uninit(); MOST_LISTED];
        let codes = codes.as_mut_ptr() as *mut u8;
        // SAFETY: fields are whole where they are read, at most 64 are kept and 8,188 listed, and both buffers are as long as what is written
        unsafe {
            let Some(Judged { fields, length }) = judge(bytes, &mut kept, codes) else {
                return (15, 0, 0, 0);
            };
            if list.len() < 3 * fields || notice.len() < length {
                return (9, 0, 0, 0);
            }
            write_list(bytes, list.as_mut_ptr(), codes, fields);
            write_notice(bytes, notice.as_mut_ptr(), &kept, length);
            (0, 0, length, fields)
        }
    }
}
