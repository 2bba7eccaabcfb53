//! Comma lines from the till (document 02, Point 2, and Point 4 for declined cells; RFC 4180 without quotes): one table, a line for each
//! row, a field for each cell.

use crate::number;
use crate::refusal::{self, Refusal};
use crate::tables::{Cell, Tables, Window, MOST_CELLS, MOST_COLUMNS, MOST_ROWS};

/// Between two fields of a line.
const COMMA: u8 = b',';
/// Ends a line, by itself or after a `RETURN`.
const FEED: u8 = b'\n';
/// Ends a line together with the `FEED` after it, and stands nowhere else.
const RETURN: u8 = b'\r';
/// The whole field of a declined cell.
const DECLINED: u8 = b'!';

/// The cells of comma lines with this many columns, by row and column. Refusal 14 for the number of columns, a field or a field count
/// anywhere, and only then refusal 15 for the rows or the cells. No more cells are kept than a table can have.
pub fn cells(lines: &[u8], columns: usize) -> Result<Vec<Cell>, Refusal> {
    if !(1..=MOST_COLUMNS).contains(&columns) {
        return Err(refusal::FIELDS);
    }
    // each field but the last has a comma or a line end after it
    let mut cells = Vec::with_capacity(lines.len().min(MOST_CELLS - 1) + 1);
    let mut rows = 0;
    let mut rest = lines;
    while !rest.is_empty() {
        rest = line(rest, columns, &mut cells).ok_or(refusal::FIELDS)?;
        rows += 1;
    }
    // the product is taken of 1,000 rows at most
    if rows > MOST_ROWS || rows * columns > MOST_CELLS {
        return Err(refusal::SIZES);
    }
    Ok(cells)
}

/// Reads one line with its end and puts its cells after the others, while there is room for them. Gives what follows the line; none
/// if a field is bad or the line does not end after this many fields.
#[inline]
fn line<'a>(mut rest: &'a [u8], columns: usize, cells: &mut Vec<Cell>) -> Option<&'a [u8]> {
    for column in 0..columns {
        if column > 0 {
            rest = rest.strip_prefix(&[COMMA])?;
        }
        let (cell, length) = field(rest)?;
        if cells.len() < MOST_CELLS {
            cells.push(cell);
        }
        rest = &rest[length..];
    }
    match rest {
        [] => Some(rest),
        [FEED, after @ ..] | [RETURN, FEED, after @ ..] => Some(after),
        _ => None,
    }
}

/// The field at the start of the bytes, with its length: a number, a lone `!` for a declined cell, or empty for a blank. What may follow
/// it is for the line to say, and a `!` with more after it is no field there.
#[inline]
fn field(bytes: &[u8]) -> Option<(Cell, usize)> {
    match bytes {
        [] | [COMMA | FEED | RETURN, ..] => Some((Cell::Blank, 0)),
        [DECLINED, ..] => Some((Cell::Declined, 1)),
        _ => number::read(bytes).map(|(number, length)| (Cell::Present(number), length)),
    }
}

/// The comma lines of the table in a window: a blank as an empty field, a declined cell as a lone `!`, a number without spare zeros,
/// LF after each line.
pub fn bytes(tables: &Tables, window: Window) -> Vec<u8> {
    let mut lines = Vec::with_capacity(window.rows() * window.columns() * 4);
    for first in window.each_row() {
        for cell in first..first + window.columns() {
            if cell > first {
                lines.push(COMMA);
            }
            match tables.cell(cell) {
                Cell::Blank => {}
                Cell::Declined => lines.push(DECLINED),
                Cell::Present(number) => number::write(number, &mut lines),
            }
        }
        lines.push(FEED);
    }
    lines
}
