//! The tables file (section "Tables"; document 02, Point 4, for declined cells): sizes first, then the values and the marks of all
//! cells.

use crate::refusal::{self, Refusal};
use crate::value::{Value, CONSTANT, MOST_LEVELS};

/// The table whose rows are judged, at level 0.
pub const JUDGED_TABLE: u8 = 1;
/// At most this many tables.
pub const MOST_TABLES: usize = 8;
/// At most this many columns in a table.
pub const MOST_COLUMNS: usize = 16;
/// At most this many rows in a table.
pub const MOST_ROWS: usize = 1_000;
/// At most this many cells over all tables.
pub const MOST_CELLS: usize = 8_192;
/// Bytes of the sizes of one table: columns, then rows in two bytes.
const SIZE_BYTES: usize = 3;
/// Bytes of the value of one cell.
const VALUE_BYTES: usize = 4;
/// The mark of a cell that has a number.
const PRESENT: u8 = 0;
/// The mark of a blank cell.
const BLANK: u8 = 1;
/// The mark of a declined cell, the highest.
const DECLINED: u8 = 2;

/// For each level the number of the first cell of the row that it stands at.
pub type Levels = [usize; MOST_LEVELS];

/// What a cell has in it, by its mark; the value bytes under a blank or declined cell affect no answer.
#[derive(Clone, Copy, Debug)]
pub enum Cell {
    /// Nothing was answered.
    Blank,
    /// The answer was declined: blank in every respect, and told apart only by the tests for it and in comma lines.
    Declined,
    /// A number.
    Present(i32),
}

impl Cell {
    /// Whether it is blank, which a declined cell is too.
    #[inline]
    pub fn is_blank(self) -> bool {
        matches!(self, Cell::Blank | Cell::Declined)
    }

    /// Whether it is declined, which a blank cell is not.
    #[inline]
    pub fn is_declined(self) -> bool {
        matches!(self, Cell::Declined)
    }
}

/// The window on one table: where its cells begin, and its sizes.
#[derive(Clone, Copy, Debug)]
pub struct Window {
    first: usize,
    columns: usize,
    rows: usize,
}

impl Window {
    /// How many columns the table has.
    pub fn columns(&self) -> usize {
        self.columns
    }

    /// How many rows the table has.
    pub fn rows(&self) -> usize {
        self.rows
    }

    /// The number of the first cell of a row.
    #[inline]
    pub fn row(&self, row: usize) -> usize {
        self.first + row * self.columns
    }

    /// The numbers of the first cells of all rows, in order.
    #[inline]
    pub fn each_row(self) -> impl Iterator<Item = usize> {
        (0..self.rows).map(move |row| self.row(row))
    }
}

/// A tables file without refusal 1 or 2: the sizes decoded, the cells left where they stand.
#[derive(Debug)]
pub struct Tables<'a> {
    windows: Vec<Window>,
    values: &'a [[u8; VALUE_BYTES]],
    marks: &'a [u8],
}

impl<'a> Tables<'a> {
    /// Reads a tables file: refusal 1 for sizes or length, refusal 2 for a mark.
    pub fn read(bytes: &'a [u8]) -> Result<Tables<'a>, Refusal> {
        let (windows, cells) = sizes(bytes).ok_or(refusal::TABLES)?;
        let (values, marks) = cells.split_at(cells.len() / (VALUE_BYTES + 1) * VALUE_BYTES);
        if marks.iter().copied().fold(0, u8::max) > DECLINED {
            return Err(refusal::MARK);
        }
        let (values, _) = values.as_chunks();
        Ok(Tables { windows, values, marks })
    }

    /// The windows on all tables, table 1 first.
    pub fn windows(&self) -> &[Window] {
        &self.windows
    }

    /// The window on a table that exists, counted from 1.
    #[inline]
    pub fn window(&self, table: u8) -> Window {
        self.windows[usize::from(table) - 1]
    }

    /// The window on table 1, whose rows are judged.
    pub fn judged(&self) -> Window {
        self.window(JUDGED_TABLE)
    }

    /// What the cell of this number has in it.
    #[inline]
    pub fn cell(&self, cell: usize) -> Cell {
        match self.marks[cell] {
            PRESENT => Cell::Present(i32::from_le_bytes(self.values[cell])),
            BLANK => Cell::Blank,
            DECLINED => Cell::Declined,
            _ => unreachable!("a mark above 2 is refused"),
        }
    }

    /// What a value stands for with the levels at these rows. A constant is never blank and never declined.
    #[inline]
    pub fn value(&self, value: Value, levels: &Levels) -> Cell {
        if value.tag == CONSTANT {
            Cell::Present(value.number)
        } else {
            self.cell(levels[usize::from(value.tag)] + value.number as usize - 1)
        }
    }
}

/// The bytes of a tables file with a single table of this many columns, 1 to 16, and these cells, which are whole rows within the
/// limits. The value under a blank or declined cell is 0.
pub fn single(columns: usize, cells: &[Cell]) -> Vec<u8> {
    let mut bytes = vec![0; 1 + SIZE_BYTES + cells.len() * (VALUE_BYTES + 1)];
    let (sizes, cell_bytes) = bytes.split_at_mut(1 + SIZE_BYTES);
    let [low, high] = ((cells.len() / columns) as u16).to_le_bytes();
    sizes.copy_from_slice(&[1, columns as u8, low, high]);
    let (values, marks) = cell_bytes.split_at_mut(cells.len() * VALUE_BYTES);
    for ((value, mark), cell) in values.as_chunks_mut().0.iter_mut().zip(marks).zip(cells) {
        let (number, its_mark) = match *cell {
            Cell::Blank => (0, BLANK),
            Cell::Declined => (0, DECLINED),
            Cell::Present(number) => (number, PRESENT),
        };
        *value = number.to_le_bytes();
        *mark = its_mark;
    }
    bytes
}

/// Decodes the sizes and parts them from the bytes of the cells; none if a size or the length is wrong.
fn sizes(bytes: &[u8]) -> Option<(Vec<Window>, &[u8])> {
    let (&count, rest) = bytes.split_first()?;
    let count = usize::from(count);
    if !(1..=MOST_TABLES).contains(&count) {
        return None;
    }
    let (sizes, cell_bytes) = rest.split_at_checked(SIZE_BYTES * count)?;
    let mut windows = Vec::with_capacity(count);
    let mut cells = 0;
    for &[columns, low, high] in sizes.as_chunks::<SIZE_BYTES>().0 {
        let columns = usize::from(columns);
        let rows = usize::from(u16::from_le_bytes([low, high]));
        if !(1..=MOST_COLUMNS).contains(&columns) || rows > MOST_ROWS {
            return None;
        }
        windows.push(Window { first: cells, columns, rows });
        cells += columns * rows;
    }
    let fits = cells <= MOST_CELLS && cell_bytes.len() == cells * (VALUE_BYTES + 1);
    fits.then_some((windows, cell_bytes))
}
