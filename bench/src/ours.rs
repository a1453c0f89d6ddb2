//! The verified functions, as the static libraries export them.

mod c {
    extern "C" {
        pub fn virentolex_translate(
            edition: usize,
            text: *const u8,
            text_len: usize,
            buffer: *mut u8,
            buffer_len: usize,
            place: *mut usize,
            length: *mut usize,
        ) -> u8;
        pub fn virentolex_check(table: *const u8, table_len: usize) -> u8;
        pub fn virentolex_check_notice(
            notice: *const u8,
            notice_len: usize,
            place: *mut usize,
        ) -> u8;
        pub fn virentolex_run(
            table: *const u8,
            table_len: usize,
            notice: *const u8,
            notice_len: usize,
            place: *mut usize,
            verdict: *mut u8,
            steps: *mut usize,
            undecided: *mut u16,
        ) -> u8;
        pub fn virentolex_read(
            notice: *const u8,
            notice_len: usize,
            k: usize,
            place: *mut usize,
            kind: *mut u16,
            name: *mut usize,
            value: *mut usize,
            end: *mut usize,
        ) -> u8;
        pub fn virentolex_find(
            notice: *const u8,
            notice_len: usize,
            name: *const u8,
            name_len: usize,
            place: *mut usize,
            index: *mut usize,
            looked: *mut usize,
        ) -> u8;
        pub fn virentolex_entry(
            table: *const u8,
            table_len: usize,
            k: usize,
            op: *mut u16,
            a: *mut u16,
            b: *mut u64,
            start: *mut usize,
            end: *mut usize,
        ) -> u8;
        pub fn virentolex_write(
            buffer: *mut u8,
            buffer_len: usize,
            length: usize,
            name: *const u8,
            name_len: usize,
            kind: u16,
            value: *const u8,
            value_len: usize,
            place: *mut usize,
            new_length: *mut usize,
        ) -> u8;
        pub fn virentolex_quorum_open(
            decision: *mut u8,
            decision_len: usize,
            table: *const u8,
            table_len: usize,
            needed: usize,
            place: *mut usize,
            count: *mut u8,
            reached: *mut u8,
            undecided: *mut u16,
        ) -> u8;
        pub fn virentolex_quorum_show(
            decision: *mut u8,
            decision_len: usize,
            notice: *const u8,
            notice_len: usize,
            place: *mut usize,
            count: *mut u8,
            reached: *mut u8,
            undecided: *mut u16,
        ) -> u8;
        pub fn virentolex_ubf_read(
            text: *const u8,
            text_len: usize,
            notice: *mut u8,
            notice_len: usize,
            place: *mut usize,
            length: *mut usize,
        ) -> u8;
        pub fn virentolex_ubf_write(
            notice: *const u8,
            notice_len: usize,
            text: *mut u8,
            text_len: usize,
            place: *mut usize,
            length: *mut usize,
        ) -> u8;
        pub fn virentolex_run_many(
            tables: *const u8,
            tables_len: usize,
            notice: *const u8,
            notice_len: usize,
            verdicts: *mut u8,
            verdicts_len: usize,
            place: *mut usize,
            count: *mut usize,
        ) -> u8;
        pub fn repeat_run(
            table: *const u8,
            table_len: usize,
            notice: *const u8,
            notice_len: usize,
            times: u32,
        ) -> u64;
    }
}

/// Number, place and table length.
pub fn translate(edition: usize, text: &[u8], buffer: &mut [u8]) -> (u8, usize, usize) {
    let (mut place, mut length) = (0, 0);
    // SAFETY: each pointer is lent with its length for the call
    let number = unsafe {
        c::virentolex_translate(
            edition,
            text.as_ptr(),
            text.len(),
            buffer.as_mut_ptr(),
            buffer.len(),
            &mut place,
            &mut length,
        )
    };
    (number, place, length)
}

pub fn check(table: &[u8]) -> bool {
    // SAFETY: as above
    unsafe { c::virentolex_check(table.as_ptr(), table.len()) == 0 }
}

/// None if the notice is well formed, else the place of its first fault.
pub fn check_notice(notice: &[u8]) -> Option<usize> {
    let mut place = 0;
    // SAFETY: as above
    match unsafe { c::virentolex_check_notice(notice.as_ptr(), notice.len(), &mut place) } {
        0 => None,
        _ => Some(place),
    }
}

/// The guarded run over bytes: number, place, the verdict's number, steps, the undecided entry.
pub fn guarded(table: &[u8], notice: &[u8]) -> (u8, usize, u8, usize, u16) {
    let (mut place, mut verdict, mut steps, mut undecided) = (0, 0, 0, 0);
    // SAFETY: as above
    let number = unsafe {
        c::virentolex_run(
            table.as_ptr(),
            table.len(),
            notice.as_ptr(),
            notice.len(),
            &mut place,
            &mut verdict,
            &mut steps,
            &mut undecided,
        )
    };
    (number, place, verdict, steps, undecided)
}

/// Number, and where the value of field k begins and ends.
pub fn read(notice: &[u8], k: usize) -> (u8, usize, usize) {
    let (mut place, mut kind, mut name, mut value, mut end) = (0, 0, 0, 0, 0);
    // SAFETY: as above
    let number = unsafe {
        c::virentolex_read(
            notice.as_ptr(),
            notice.len(),
            k,
            &mut place,
            &mut kind,
            &mut name,
            &mut value,
            &mut end,
        )
    };
    (number, value, end)
}

/// Number, the field's index, how many names were looked at.
pub fn find(notice: &[u8], name: &[u8]) -> (u8, usize, usize) {
    let (mut place, mut index, mut looked) = (0, 0, 0);
    // SAFETY: as above
    let number = unsafe {
        c::virentolex_find(
            notice.as_ptr(),
            notice.len(),
            name.as_ptr(),
            name.len(),
            &mut place,
            &mut index,
            &mut looked,
        )
    };
    (number, index, looked)
}

/// Number, and the start and the end of the entry's bytes.
pub fn entry(table: &[u8], k: usize) -> (u8, usize, usize) {
    let (mut op, mut a, mut b, mut start, mut end) = (0, 0, 0, 0, 0);
    // SAFETY: as above
    let number = unsafe {
        c::virentolex_entry(
            table.as_ptr(),
            table.len(),
            k,
            &mut op,
            &mut a,
            &mut b,
            &mut start,
            &mut end,
        )
    };
    (number, start, end)
}

/// Number, place and the notice's new length.
pub fn write(
    buffer: &mut [u8],
    length: usize,
    name: &[u8],
    kind: u16,
    value: &[u8],
) -> (u8, usize, usize) {
    let (mut place, mut new_length) = (0, 0);
    // SAFETY: as above
    let number = unsafe {
        c::virentolex_write(
            buffer.as_mut_ptr(),
            buffer.len(),
            length,
            name.as_ptr(),
            name.len(),
            kind,
            value.as_ptr(),
            value.len(),
            &mut place,
            &mut new_length,
        )
    };
    (number, place, new_length)
}

/// Number, place, count, whether it has reached the needed number, the undecided entry.
pub fn quorum_open(decision: &mut [u8], table: &[u8], needed: usize) -> (u8, usize, u8, bool, u16) {
    let (mut place, mut count, mut reached, mut undecided) = (0, 0, 0, 0);
    // SAFETY: as above
    let number = unsafe {
        c::virentolex_quorum_open(
            decision.as_mut_ptr(),
            decision.len(),
            table.as_ptr(),
            table.len(),
            needed,
            &mut place,
            &mut count,
            &mut reached,
            &mut undecided,
        )
    };
    (number, place, count, reached == 1, undecided)
}

/// The same, of a notice.
pub fn quorum_show(decision: &mut [u8], notice: &[u8]) -> (u8, usize, u8, bool, u16) {
    let (mut place, mut count, mut reached, mut undecided) = (0, 0, 0, 0);
    // SAFETY: as above
    let number = unsafe {
        c::virentolex_quorum_show(
            decision.as_mut_ptr(),
            decision.len(),
            notice.as_ptr(),
            notice.len(),
            &mut place,
            &mut count,
            &mut reached,
            &mut undecided,
        )
    };
    (number, place, count, reached == 1, undecided)
}

/// Number, place and the notice's length.
pub fn ubf_read(text: &[u8], notice: &mut [u8]) -> (u8, usize, usize) {
    let (mut place, mut length) = (0, 0);
    // SAFETY: as above
    let number = unsafe {
        c::virentolex_ubf_read(
            text.as_ptr(),
            text.len(),
            notice.as_mut_ptr(),
            notice.len(),
            &mut place,
            &mut length,
        )
    };
    (number, place, length)
}

/// Number, place and the text's length.
pub fn ubf_write(notice: &[u8], text: &mut [u8]) -> (u8, usize, usize) {
    let (mut place, mut length) = (0, 0);
    // SAFETY: as above
    let number = unsafe {
        c::virentolex_ubf_write(
            notice.as_ptr(),
            notice.len(),
            text.as_mut_ptr(),
            text.len(),
            &mut place,
            &mut length,
        )
    };
    (number, place, length)
}

/// Many tables end to end on one notice: number, place and how many verdict bytes.
pub fn many(tables: &[u8], notice: &[u8], verdicts: &mut [u8]) -> (u8, usize, usize) {
    let (mut place, mut count) = (0, 0);
    // SAFETY: as above
    let number = unsafe {
        c::virentolex_run_many(
            tables.as_ptr(),
            tables.len(),
            notice.as_ptr(),
            notice.len(),
            verdicts.as_mut_ptr(),
            verdicts.len(),
            &mut place,
            &mut count,
        )
    };
    (number, place, count)
}

/// The inner run so many times: the sum of the runs' steps, each four times, and of their verdicts; 0 if the table fails the check or the notice is not well-formed.
pub fn repeat(table: &[u8], notice: &[u8], times: u32) -> u64 {
    // SAFETY: as above
    unsafe {
        c::repeat_run(
            table.as_ptr(),
            table.len(),
            notice.as_ptr(),
            notice.len(),
            times,
        )
    }
}
