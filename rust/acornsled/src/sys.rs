//! The functions of `libacornsled.a` as `include/acornsled.h` declares them. Nothing compares these declarations with the
//! library's source, so they are kept to those that are called, and judged, from `calls`.

extern "C" {
    pub fn acornsled_read(
        text: *const u8,
        text_length: usize,
        table: *mut i64,
        table_length: usize,
        quantities: *mut usize,
        hidden: *mut u32,
        value: *mut usize,
    ) -> u32;

    pub fn acornsled_bank_read(
        text: *const u8,
        text_length: usize,
        table: *mut i64,
        table_length: usize,
        quantities: *mut usize,
        hidden: *mut u32,
        value: *mut usize,
    ) -> u32;

    pub fn acornsled_write(
        n: usize,
        hidden: u32,
        table: *const i64,
        table_length: usize,
        out: *mut u8,
        out_length: usize,
        value: *mut usize,
    ) -> u32;

    pub fn acornsled_key(
        n: usize,
        hidden: u32,
        table: *mut i64,
        table_length: usize,
        workspace: *mut i64,
        workspace_length: usize,
        value: *mut usize,
    ) -> u32;

    pub fn acornsled_tight_key(
        n: usize,
        hidden: u32,
        table: *mut i64,
        table_length: usize,
        workspace: *mut i64,
        workspace_length: usize,
        value: *mut usize,
    ) -> u32;

    pub fn acornsled_step(
        n: usize,
        before: u32,
        quantity: usize,
        blocks: usize,
        table: *mut i64,
        table_length: usize,
        workspace: *mut i64,
        workspace_length: usize,
        value: *mut usize,
    ) -> u32;

    pub fn acornsled_assignment(
        n: usize,
        table: *const i64,
        table_length: usize,
        workspace: *mut i64,
        workspace_length: usize,
        values: *mut i64,
        values_length: usize,
        value: *mut usize,
    ) -> u32;

    pub fn acornsled_ask(
        n: usize,
        table: *const i64,
        table_length: usize,
        questions: *const i64,
        questions_length: usize,
        workspace: *mut i64,
        workspace_length: usize,
        answers: *mut u64,
        value: *mut usize,
    ) -> u32;

    pub fn acornsled_mark(sheet: *const u8, sheet_length: usize, script: *const u8, script_length: usize) -> u32;

    pub fn acornsled_mark_texts(
        sheet: *const u8,
        sheet_length: usize,
        script: *const u8,
        script_length: usize,
        values: *mut i64,
        values_length: usize,
        quantities: *mut usize,
        rule: *mut [i64; 3],
        paper: *mut u32,
        value: *mut usize,
    ) -> u32;

    pub fn acornsled_mark_tables(
        n: usize,
        hidden: u32,
        sheet: *const i64,
        sheet_length: usize,
        script: *const i64,
        script_length: usize,
        workspace: *mut i64,
        workspace_length: usize,
        values: *mut i64,
        values_length: usize,
        rule: *mut [i64; 3],
        value: *mut usize,
    ) -> u32;
}
