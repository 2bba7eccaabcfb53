//! The C interface as include/roskudla.h declares it.

/// A value of a part: a tag, 255 for a constant, else the level of a column; and the constant, or the column's number.
#[repr(C)]
#[derive(Clone, Copy, Debug, Default, PartialEq, Eq)]
pub struct Value {
    pub tag: u8,
    pub number: i32,
}

/// A part of a rule. Its kind is 1 to 17, as include/roskudla.h names them.
#[repr(C)]
#[derive(Clone, Copy, Debug, Default, PartialEq, Eq)]
pub struct Part {
    pub kind: u8,
    pub comparison: u8,
    pub table: u8,
    pub end: u8,
    pub left: Value,
    pub right: Value,
}

extern "C" {
    pub fn roskudla_read(
        text: *const u8,
        text_len: usize,
        tables: *const u8,
        tables_len: usize,
        parts: *mut Part,
        parts_len: usize,
        count: *mut usize,
    ) -> u32;
    pub fn roskudla_judge(text: *const u8, text_len: usize, tables: *const u8, tables_len: usize, row: usize, value: *mut u8) -> u32;
    pub fn roskudla_card(
        text: *const u8,
        text_len: usize,
        tables: *const u8,
        tables_len: usize,
        card: *mut u8,
        card_len: usize,
        length: *mut usize,
    ) -> u32;
    pub fn roskudla_check(card: *const u8, card_len: usize) -> u32;
    pub fn roskudla_run(card: *const u8, card_len: usize, tables: *const u8, tables_len: usize, row: usize, answer: *mut u8) -> u32;
    pub fn roskudla_list(
        card: *const u8,
        card_len: usize,
        tables: *const u8,
        tables_len: usize,
        rows: *mut u32,
        rows_len: usize,
        count: *mut usize,
    ) -> u32;
    pub fn roskudla_import(
        lines: *const u8,
        lines_len: usize,
        columns: usize,
        tables: *mut u8,
        tables_len: usize,
        length: *mut usize,
    ) -> u32;
    pub fn roskudla_export(tables: *const u8, tables_len: usize, lines: *mut u8, lines_len: usize, length: *mut usize) -> u32;
}
