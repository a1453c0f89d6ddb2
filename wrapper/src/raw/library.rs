//! The functions of librouter.a, as `include/virentolex.h` declares them.

unsafe extern "C" {
    pub fn virentolex_translate(
        edition: usize,
        text: *const u8,
        text_len: usize,
        buffer: *mut u8,
        buffer_len: usize,
        place: *mut usize,
        length: *mut usize,
    ) -> u8;
    pub fn virentolex_check(table: *const u8, table_len: usize) -> u8;
    pub fn virentolex_check_notice(notice: *const u8, notice_len: usize, place: *mut usize) -> u8;
    pub fn virentolex_run(
        table: *const u8,
        table_len: usize,
        notice: *const u8,
        notice_len: usize,
        place: *mut usize,
        verdict: *mut u8,
        steps: *mut usize,
        undecided: *mut u16,
    ) -> u8;
    pub fn virentolex_entry(
        table: *const u8,
        table_len: usize,
        k: usize,
        op: *mut u16,
        a: *mut u16,
        b: *mut u64,
        start: *mut usize,
        end: *mut usize,
    ) -> u8;
    pub fn virentolex_read(
        notice: *const u8,
        notice_len: usize,
        k: usize,
        place: *mut usize,
        kind: *mut u16,
        name: *mut usize,
        value: *mut usize,
        end: *mut usize,
    ) -> u8;
    pub fn virentolex_find(
        notice: *const u8,
        notice_len: usize,
        name: *const u8,
        name_len: usize,
        place: *mut usize,
        index: *mut usize,
        looked: *mut usize,
    ) -> u8;
    pub fn virentolex_write(
        buffer: *mut u8,
        buffer_len: usize,
        length: usize,
        name: *const u8,
        name_len: usize,
        kind: u16,
        value: *const u8,
        value_len: usize,
        place: *mut usize,
        new_length: *mut usize,
    ) -> u8;
    pub fn virentolex_quorum_open(
        decision: *mut u8,
        decision_len: usize,
        table: *const u8,
        table_len: usize,
        needed: usize,
        place: *mut usize,
        count: *mut u8,
        reached: *mut u8,
        undecided: *mut u16,
    ) -> u8;
    pub fn virentolex_quorum_show(
        decision: *mut u8,
        decision_len: usize,
        notice: *const u8,
        notice_len: usize,
        place: *mut usize,
        count: *mut u8,
        reached: *mut u8,
        undecided: *mut u16,
    ) -> u8;
    pub fn virentolex_ubf_read(
        text: *const u8,
        text_len: usize,
        notice: *mut u8,
        notice_len: usize,
        place: *mut usize,
        length: *mut usize,
    ) -> u8;
    pub fn virentolex_ubf_write(
        notice: *const u8,
        notice_len: usize,
        text: *mut u8,
        text_len: usize,
        place: *mut usize,
        length: *mut usize,
    ) -> u8;
    pub fn virentolex_run_many(
        tables: *const u8,
        tables_len: usize,
        notice: *const u8,
        notice_len: usize,
        verdicts: *mut u8,
        verdicts_len: usize,
        place: *mut usize,
        count: *mut usize,
    ) -> u8;
    pub fn virentolex_store_make(store: *mut u8, store_len: usize) -> u8;
    pub fn virentolex_store_add(
        store: *mut u8,
        store_len: usize,
        table: *const u8,
        table_len: usize,
        number: *mut usize,
    ) -> u8;
    pub fn virentolex_store_remove(store: *mut u8, store_len: usize, number: usize) -> u8;
    pub fn virentolex_store_fetch(
        store: *const u8,
        store_len: usize,
        number: usize,
        start: *mut usize,
        end: *mut usize,
    ) -> u8;
    pub fn virentolex_store_match(
        store: *const u8,
        store_len: usize,
        notice: *const u8,
        notice_len: usize,
        verdicts: *mut u8,
        verdicts_len: usize,
        place: *mut usize,
    ) -> u8;
    pub fn virentolex_mend(
        bytes: *const u8,
        bytes_len: usize,
        list: *mut u8,
        list_len: usize,
        notice: *mut u8,
        notice_len: usize,
        place: *mut usize,
        length: *mut usize,
        fields: *mut usize,
    ) -> u8;
}
