//! Drawing of tables: right ones of every size, and damaged ones.

use crate::draw::Draw;
use crate::limits::{MOST_CELLS, MOST_COLUMNS, MOST_ROWS, MOST_TABLES};

/// The marks of a cell.
const PRESENT: u8 = 0;
const BLANK: u8 = 1;
pub const DECLINED: u8 = 2;

/// Values at the ends of a range: of 32 bits, of a byte, of two bytes.
const EDGES: [i32; 10] = [i32::MIN, i32::MIN + 1, i32::MAX, i32::MAX - 1, 127, 255, 256, -256, 65536, -65536];

/// The size of one table.
#[derive(Clone, Copy)]
pub struct Size {
    pub columns: usize,
    pub rows: usize,
}

/// A value as cells and rules have it: mostly one of a few small ones, so that comparisons of two of them come out in every way.
pub fn value(draw: &mut Draw) -> i32 {
    let word = draw.word();
    match word % 32 {
        0..=26 => (word >> 8) as i32 % 3,
        27..=29 => EDGES[(word >> 8) as usize % EDGES.len()],
        _ => (word >> 16) as i32,
    }
}

/// How many rows small tables have.
fn few_rows(draw: &mut Draw) -> usize {
    draw.pick(&[0, 1, 1, 2, 2, 3, 3, 4, 5])
}

/// A number of columns, mostly small.
fn columns(draw: &mut Draw) -> usize {
    match draw.weighted(&[85, 10, 5]) {
        0 => draw.between(1, 3),
        1 => draw.between(4, 14),
        _ => draw.between(MOST_COLUMNS - 1, MOST_COLUMNS),
    }
}

/// A number of tables, from 1 to 8.
fn table_count(draw: &mut Draw) -> usize {
    draw.pick(&[1, 1, 2, 2, 2, 3, 3, 3, 4, 5, 6, 7, 8, 8])
}

/// Sizes of a few rows each, so that any rule or card over them is cheap to evaluate. Table 1 mostly has rows, to be judged.
pub fn small_sizes(draw: &mut Draw) -> Vec<Size> {
    let count = table_count(draw);
    let mut sizes: Vec<Size> = (0..count).map(|_| Size { columns: columns(draw), rows: few_rows(draw) }).collect();
    if sizes[0].rows == 0 && draw.percent(80) {
        sizes[0].rows = draw.between(1, 4);
    }
    sizes
}

/// Sizes that a right file can have: mostly small, and some at each of the limits.
pub fn sizes(draw: &mut Draw) -> Vec<Size> {
    match draw.weighted(&[845, 100, 40, 12, 3]) {
        0 => small_sizes(draw),
        1 => longer_sizes(draw),
        2 => tall_sizes(draw),
        3 => widest_sizes(draw),
        _ => fullest_sizes(draw),
    }
}

/// Up to 40 rows in each table.
fn longer_sizes(draw: &mut Draw) -> Vec<Size> {
    let count = table_count(draw);
    (0..count).map(|_| Size { columns: draw.between(1, 4), rows: draw.between(0, 40) }).collect()
}

/// One table with many rows, up to the most, and few others.
fn tall_sizes(draw: &mut Draw) -> Vec<Size> {
    let mut sizes = small_sizes(draw);
    sizes.truncate(draw.between(1, 2));
    let place = draw.below(sizes.len());
    let rows = draw.pick(&[254, 255, 256, 257, 500, MOST_ROWS - 1, MOST_ROWS, MOST_ROWS]);
    sizes[place] = Size { columns: draw.between(1, 3), rows };
    sizes
}

/// Eight tables of sixteen columns, or nearly.
fn widest_sizes(draw: &mut Draw) -> Vec<Size> {
    let count = draw.between(7, 8);
    (0..count).map(|_| Size { columns: draw.between(MOST_COLUMNS - 1, MOST_COLUMNS), rows: few_rows(draw) }).collect()
}

/// As many cells as there may be, or one fewer.
fn fullest_sizes(draw: &mut Draw) -> Vec<Size> {
    let fewer = draw.below(2);
    match draw.below(3) {
        0 => vec![Size { columns: 16, rows: 511 }, Size { columns: 1, rows: 16 - fewer }],
        1 => vec![Size { columns: 8, rows: 1000 }, Size { columns: 1, rows: 192 - fewer }],
        _ => {
            let mut sizes = vec![Size { columns: 16, rows: 64 }; 8];
            sizes[7] = Size { columns: 1, rows: 1000 };
            sizes[0].rows = 65;
            sizes[1] = Size { columns: 8, rows: 129 - fewer };
            sizes
        }
    }
}

/// How many cells there are over all.
pub fn cells(sizes: &[Size]) -> usize {
    sizes.iter().map(|size| size.columns * size.rows).sum()
}

/// The sizes of a file, as bytes.
pub fn head(sizes: &[Size]) -> Vec<u8> {
    let mut bytes = vec![sizes.len() as u8];
    for size in sizes {
        bytes.push(size.columns as u8);
        bytes.extend_from_slice(&(size.rows as u16).to_le_bytes());
    }
    bytes
}

/// How the cells of one file are drawn.
struct Filling {
    /// Cells without a number in a hundred.
    blanks: usize,
    /// Declined ones among these in a hundred.
    declined: usize,
    /// What nearly all cells hold, if so: then an answer may hang on a single row, and often on the last.
    even: Option<(i32, u8)>,
    /// One in so many cells holds something else all the same.
    others: usize,
}

/// How many in a hundred of the cells without a number are declined ones, in one file: over all files about half.
pub fn declined_share(draw: &mut Draw) -> usize {
    draw.pick(&[0, 20, 50, 50, 80, 100])
}

/// A mark, where so many cells in a hundred have no number, and so many in a hundred of these are declined.
fn mark(draw: &mut Draw, blanks: usize, declined: usize) -> u8 {
    if !draw.percent(blanks) {
        PRESENT
    } else if draw.percent(declined) {
        DECLINED
    } else {
        BLANK
    }
}

/// A cell's value and mark. What lies beneath a blank or declined cell is either as likely a value as any, or anything.
fn cell(draw: &mut Draw, filling: &Filling, last_row: bool) -> (i32, u8) {
    if let Some(same) = filling.even {
        if !(last_row && draw.percent(50)) && draw.below(filling.others) > 0 {
            return same;
        }
    }
    let mark = mark(draw, filling.blanks, filling.declined);
    let any = mark != PRESENT && draw.percent(30);
    (if any { draw.word() as i32 } else { value(draw) }, mark)
}

/// A file of these sizes, which need not be allowed ones.
pub fn file(draw: &mut Draw, sizes: &[Size]) -> Vec<u8> {
    let blanks = draw.pick(&[0, 25, 40, 50, 50, 60, 75, 100]);
    let declined = declined_share(draw);
    let even = draw.percent(if is_tall(sizes) { 70 } else { 10 }).then(|| (value(draw), mark(draw, blanks, declined)));
    let filling = Filling { blanks, declined, even, others: draw.pick(&[256, 4096]) };
    let count = cells(sizes);
    let mut bytes = head(sizes);
    let mut value_at = bytes.len();
    let mut mark_at = value_at + 4 * count;
    bytes.resize(mark_at + count, 0);
    for size in sizes {
        for place in 0..size.columns * size.rows {
            let (held, mark) = cell(draw, &filling, place + size.columns >= size.columns * size.rows);
            bytes[value_at..value_at + 4].copy_from_slice(&held.to_le_bytes());
            bytes[mark_at] = mark;
            value_at += 4;
            mark_at += 1;
        }
    }
    bytes
}

/// Whether some table has many rows.
pub fn is_tall(sizes: &[Size]) -> bool {
    sizes.iter().any(|size| size.rows > 200)
}

/// The tables of the paper's proved cases.
pub fn proved() -> (Vec<Size>, Vec<u8>) {
    let sizes = vec![Size { columns: 2, rows: 3 }, Size { columns: 1, rows: 2 }, Size { columns: 1, rows: 0 }];
    let mut bytes = head(&sizes);
    for held in [1, 5, 2, 77, 3, 0, 1, 77] {
        bytes.extend_from_slice(&i32::to_le_bytes(held));
    }
    bytes.extend_from_slice(&[0, 0, 0, 1, 0, 0, 0, 1]);
    (sizes, bytes)
}

/// A file that is mostly refused. The sizes are those that the rule or card beside it was drawn for.
pub fn damaged(draw: &mut Draw, sizes: &[Size]) -> Vec<u8> {
    match draw.weighted(&[10, 34, 10, 20, 10, 6, 4, 6]) {
        0 => byte_changed(draw, sizes),
        1 => mark_too_high(draw, sizes),
        2 => length_wrong(draw, sizes),
        3 => beyond_a_limit(draw, sizes),
        4 => size_changed(draw, sizes),
        5 => random_file(draw),
        6 => Vec::new(),
        _ => {
            // two faults at once: 1 comes before 2
            let mut bytes = mark_too_high(draw, sizes);
            bytes.push(draw.pick(&[0, 1, 2, 3]));
            bytes
        }
    }
}

/// One byte anywhere is another one.
fn byte_changed(draw: &mut Draw, sizes: &[Size]) -> Vec<u8> {
    let mut bytes = file(draw, sizes);
    let place = draw.below(bytes.len());
    bytes[place] = draw.word() as u8;
    bytes
}

/// One mark, often the first or the last, is above 2: mostly just above.
fn mark_too_high(draw: &mut Draw, sizes: &[Size]) -> Vec<u8> {
    let mut sizes = sizes.to_vec();
    if cells(&sizes) == 0 {
        sizes[0].rows = 1;
    }
    let count = cells(&sizes);
    let mut bytes = file(draw, &sizes);
    let cell = match draw.below(4) {
        0 => 0,
        1 => count - 1,
        _ => draw.below(count),
    };
    let marks_at = bytes.len() - count;
    bytes[marks_at + cell] = match draw.weighted(&[50, 25, 25]) {
        0 => DECLINED + 1,
        1 => draw.pick(&[4, 127, 128, 130, 254, 255]),
        _ => draw.between(usize::from(DECLINED) + 1, 255) as u8,
    };
    bytes
}

/// A byte more, a byte less, or cut anywhere.
fn length_wrong(draw: &mut Draw, sizes: &[Size]) -> Vec<u8> {
    let mut bytes = file(draw, sizes);
    match draw.below(4) {
        0 => bytes.push(draw.pick(&[0, 1, 2, 3])),
        1 => bytes.truncate(bytes.len() - 1),
        2 => bytes.truncate(draw.below(bytes.len())),
        _ => bytes.truncate(draw.below(1 + 3 * sizes.len())),
    }
    bytes
}

/// A size just beyond its limit, or none at all, and everything else as it should be, the length too.
fn beyond_a_limit(draw: &mut Draw, sizes: &[Size]) -> Vec<u8> {
    let mut sizes = sizes.to_vec();
    let place = draw.below(sizes.len());
    match draw.weighted(&[30, 30, 15, 15, 5, 5]) {
        0 => {
            sizes[place] =
                Size { columns: draw.pick(&[MOST_COLUMNS + 1, MOST_COLUMNS + 1, MOST_COLUMNS + 2, 255]), rows: draw.between(0, 3) }
        }
        1 => sizes[place].columns = 0,
        2 => sizes[place] = Size { columns: 1, rows: draw.pick(&[MOST_ROWS + 1, MOST_ROWS + 1, MOST_ROWS + 2, 1024]) },
        3 => sizes.resize(draw.pick(&[MOST_TABLES + 1, MOST_TABLES + 1, MOST_TABLES + 2, 16]), Size { columns: 1, rows: 1 }),
        4 => sizes = vec![Size { columns: MOST_COLUMNS, rows: MOST_CELLS / MOST_COLUMNS }, Size { columns: 1, rows: draw.between(1, 2) }],
        _ => sizes.clear(),
    }
    file(draw, &sizes)
}

/// One of the sizes in front is another one, and what follows is not.
fn size_changed(draw: &mut Draw, sizes: &[Size]) -> Vec<u8> {
    let mut bytes = file(draw, sizes);
    let place = draw.below(1 + 3 * sizes.len());
    bytes[place] = match draw.below(4) {
        0 => bytes[place].wrapping_add(1),
        1 => bytes[place].wrapping_sub(1),
        _ => draw.pick(&[0, 1, 2, 8, 9, 16, 17, 255]),
    };
    bytes
}

/// Anything, often with a first byte that is allowed.
fn random_file(draw: &mut Draw) -> Vec<u8> {
    let length = if draw.percent(80) { draw.below(24) } else { draw.below(400) };
    let mut bytes = draw.bytes(length);
    if !bytes.is_empty() && draw.percent(60) {
        bytes[0] = draw.between(0, 9) as u8;
    }
    bytes
}

/// Other columns than these, or another number of tables. The rows stay, as what is drawn for them must not become too long to run
/// where the columns turn out to be the same.
pub fn differing(draw: &mut Draw, sizes: &[Size]) -> Vec<Size> {
    let mut sizes = sizes.to_vec();
    let place = draw.below(sizes.len());
    let other = sizes[place].columns;
    match draw.below(5) {
        0 if sizes.len() > 1 => sizes.truncate(sizes.len() - 1),
        1 if sizes.len() < 8 => sizes.push(Size { columns: 1, rows: 1 }),
        2 => {
            let columns: Vec<usize> = sizes.iter().rev().map(|size| size.columns).collect();
            sizes.iter_mut().zip(columns).for_each(|(size, columns)| size.columns = columns);
        }
        3 if other > 1 => sizes[place].columns = other - 1,
        _ => sizes[place].columns = if other < MOST_COLUMNS { other + 1 } else { 1 },
    }
    sizes
}
