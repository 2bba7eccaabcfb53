//! The eight calls of Roskudla: entry rules with blanks and declined answers, turned into cards that answer yes or no; and tables from comma lines, and back.
//!
//! A rule's text, a tables file, a card and comma lines are bytes. The mark byte of a cell in a tables file is [`MARK_PRESENT`], [`MARK_BLANK`] or
//! [`MARK_DECLINED`]. What [`read`], [`card`] and [`list`] write goes to a slice that the caller lends; a refusal leaves it as it was, and a success leaves
//! what lies past the answer. With room for [`MOST_PARTS`], [`MOST_CARD_BYTES`] or [`MOST_ROWS`] elements, no call is refused with 12. [`import_lines`] and
//! [`export_lines`] answer with a vector, which has room for any answer.
//!
//! Links `libroskudla.a`, which `bindings/build` writes. Every call may be used from several threads at a time; what it takes of a thread's stack, and
//! how its time grows, is in `include/roskudla.h`.

pub mod ffi;

pub use ffi::{Part, Value};
use std::fmt;

/// The mark of a cell that has a number.
pub const MARK_PRESENT: u8 = 0;

/// The mark of a blank cell.
pub const MARK_BLANK: u8 = 1;

/// The mark of a cell whose answer was declined: it is blank in every respect, and IS DECLINED and comma lines alone tell it apart.
pub const MARK_DECLINED: u8 = 2;

/// The most parts that a rule has.
pub const MOST_PARTS: usize = 64;

/// The most bytes that any sound card has.
pub const MOST_CARD_BYTES: usize = 2891;

/// The most rows that a table has.
pub const MOST_ROWS: usize = 1000;

/// The most bytes that a tables file with one table has.
pub const MOST_TABLE_BYTES: usize = 40964;

/// The most bytes that the comma lines of a table have.
pub const MOST_LINES_BYTES: usize = 98304;

/// Why a call was refused: the number of the first refusal that applies, in the order that the call states.
#[derive(Clone, Copy, Debug, PartialEq, Eq)]
pub struct Refusal(pub u32);

impl fmt::Display for Refusal {
    fn fmt(&self, f: &mut fmt::Formatter<'_>) -> fmt::Result {
        let reason = match self.0 {
            1 => "tables: sizes or length wrong",
            2 => "tables: a mark above 2",
            3 => "text over 4,096 bytes",
            4 => "no such token, or a number beyond the range",
            5 => "over 32 more ( than ) up to some token",
            6 => "the text does not follow the grammar",
            7 => "over 64 parts, or over three FROMs around one another",
            8 => "a letter that is not bound, a table or a column that is absent",
            9 => "the card is not sound",
            10 => "the card was made for another number of tables or columns",
            11 => "the row is not in table 1",
            12 => "what was lent is shorter than the whole answer",
            13 => "the card would have over 192 entries",
            14 => "comma lines: a bad field, a wrong field count, or columns not 1 to 16",
            15 => "comma lines: over 1,000 rows or 8,192 cells",
            _ => "no published reason",
        };
        write!(f, "refused {}: {}", self.0, reason)
    }
}

impl std::error::Error for Refusal {}

/// The value of a rule on a row.
#[derive(Clone, Copy, Debug, PartialEq, Eq)]
pub enum Truth {
    False,
    Unknown,
    True,
}

/// The answer of a call that returned a status.
fn answer_of<T>(status: u32, answer: T) -> Result<T, Refusal> {
    match status {
        0 => Ok(answer),
        number => Err(Refusal(number)),
    }
}

// Each pointer below comes from a slice, a vector or a local, with its length, and `&mut` keeps what is written from being reachable otherwise: that is all
// that the C functions ask.

/// READ: writes the parts of a rule from the start of `parts` on, and answers how many they are. Refusals, in this order: 1 to 8, 13, 12.
pub fn read(text: &[u8], tables: &[u8], parts: &mut [Part]) -> Result<usize, Refusal> {
    let mut count = 0;
    let status = unsafe {
        ffi::roskudla_read(text.as_ptr(), text.len(), tables.as_ptr(), tables.len(), parts.as_mut_ptr(), parts.len(), &mut count)
    };
    answer_of(status, count)
}

/// JUDGE: the value of a rule on a row of table 1. Refusals, in this order: 1 to 8, 13, 11.
pub fn judge(text: &[u8], tables: &[u8], row: usize) -> Result<Truth, Refusal> {
    let mut value = 0;
    let status = unsafe { ffi::roskudla_judge(text.as_ptr(), text.len(), tables.as_ptr(), tables.len(), row, &mut value) };
    answer_of(status, value).map(|value| match value {
        0 => Truth::False,
        1 => Truth::Unknown,
        2 => Truth::True,
        other => unreachable!("JUDGE's contract gives 0, 1 or 2, not {other}"),
    })
}

/// CARD: writes the card of a rule from the start of `card` on, and answers how many bytes it has. Refusals, in this order: 1 to 8, 13, 12.
pub fn card(text: &[u8], tables: &[u8], card: &mut [u8]) -> Result<usize, Refusal> {
    let mut length = 0;
    let status =
        unsafe { ffi::roskudla_card(text.as_ptr(), text.len(), tables.as_ptr(), tables.len(), card.as_mut_ptr(), card.len(), &mut length) };
    answer_of(status, length)
}

/// CHECK: whether a card is sound. Refusal 9.
pub fn check(card: &[u8]) -> Result<(), Refusal> {
    answer_of(unsafe { ffi::roskudla_check(card.as_ptr(), card.len()) }, ())
}

/// RUN: whether a card says yes to a row of table 1. Refusals, in this order: 1, 2, 9 to 11.
pub fn run(card: &[u8], tables: &[u8], row: usize) -> Result<bool, Refusal> {
    let mut answer = 0;
    let status = unsafe { ffi::roskudla_run(card.as_ptr(), card.len(), tables.as_ptr(), tables.len(), row, &mut answer) };
    answer_of(status, answer == 1)
}

/// LIST: writes the numbers of the rows of table 1 that a card says yes to, rising, from the start of `rows` on, and answers how many they are.
/// Refusals, in this order: 1, 2, 9, 10, 12.
pub fn list(card: &[u8], tables: &[u8], rows: &mut [u32]) -> Result<usize, Refusal> {
    let mut count = 0;
    let status =
        unsafe { ffi::roskudla_list(card.as_ptr(), card.len(), tables.as_ptr(), tables.len(), rows.as_mut_ptr(), rows.len(), &mut count) };
    answer_of(status, count)
}

/// IMPORT: comma lines as a tables file with one table, of so many columns; an empty field is blank, and a lone `!` is declined. Refusals, in this
/// order: 14, 15.
pub fn import_lines(lines: &[u8], columns: usize) -> Result<Vec<u8>, Refusal> {
    let (mut tables, mut length) = (vec![0; MOST_TABLE_BYTES], 0);
    let status = unsafe { ffi::roskudla_import(lines.as_ptr(), lines.len(), columns, tables.as_mut_ptr(), tables.len(), &mut length) };
    tables.truncate(length);
    answer_of(status, tables)
}

/// EXPORT: table 1 of a tables file as comma lines; a blank cell is an empty field, and a declined one is a lone `!`. Refusals, in this order: 1, 2.
pub fn export_lines(tables: &[u8]) -> Result<Vec<u8>, Refusal> {
    let (mut lines, mut length) = (vec![0; MOST_LINES_BYTES], 0);
    let status = unsafe { ffi::roskudla_export(tables.as_ptr(), tables.len(), lines.as_mut_ptr(), lines.len(), &mut length) };
    lines.truncate(length);
    answer_of(status, lines)
}
