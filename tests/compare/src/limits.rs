//! The limits of document 01 that inputs are drawn around. Document 02 has one of them for the sum of a rule's entries too, and those of
//! a table for comma lines.

/// Bytes of a text.
pub const MOST_TEXT_BYTES: usize = 4096;

/// Brackets open at a time.
pub const MOST_OPEN: usize = 32;

/// Parts of a rule.
pub const MOST_PARTS: usize = 64;

/// Tables of a file.
pub const MOST_TABLES: usize = 8;

/// Columns of a table.
pub const MOST_COLUMNS: usize = 16;

/// Rows of a table.
pub const MOST_ROWS: usize = 1000;

/// Cells of a file.
pub const MOST_CELLS: usize = 8192;

/// Digits of a number.
pub const MOST_DIGITS: usize = 10;

/// Bytes of a tables file with one table.
pub const MOST_TABLE_BYTES: usize = 4 + 5 * MOST_CELLS;

/// Bytes of the comma lines of a table: in each cell the lowest number, and a comma or LF behind it.
pub const MOST_LINES_BYTES: usize = 12 * MOST_CELLS;

/// Entries of a card.
pub const MOST_ENTRIES: usize = 192;

/// Bytes of an entry's record.
pub const RECORD_BYTES: usize = 14;

/// Bytes of an entry: its kind and its record.
pub const ENTRY_BYTES: usize = 1 + RECORD_BYTES;

/// The bytes of a card for so many tables and entries.
pub const fn card_bytes(tables: usize, entries: usize) -> usize {
    3 + tables + ENTRY_BYTES * entries
}
