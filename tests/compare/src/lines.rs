//! Drawing of comma lines and the columns that IMPORT is told: right ones of every shape, damaged ones, and any bytes. And of tables files
//! for EXPORT.

use crate::draw::Draw;
use crate::limits::{MOST_CELLS, MOST_COLUMNS, MOST_DIGITS, MOST_ROWS};
use crate::tables::{self, Size};
use crate::tokens::Token;

/// Numbers as they may be written, with spare zeros and at the ends of the range.
const WRITTEN: [&str; 10] = ["0", "-0", "00", "-00", "0000000000", "-0000000000", "2147483647", "-2147483648", "0000000001", "-0000000009"];

/// The field of a declined cell.
const DECLINED: &str = "!";

/// Fields that are none, though near to the one of a declined cell.
const NEAR_DECLINED: [&str; 16] =
    ["!1", "1!", "!!", "! ", " !", "-!", "!-", "!0", "0!", "-1!", "\"!\"", "!\0", "!\t", "\u{a1}", "\u{ff01}", "!DECLINED"];

/// Fields that are none. What some of them are for other readers of comma lines is a number, or a blank.
#[rustfmt::skip]
const BAD_FIELDS: [&str; 40] = [
    "+1", "+", "-", "--1", "-+1", "1-", "1-2", " ", " 1", "1 ", "\t1", "1\t", "- 1", "1 2", "\"1\"", "\"\"", "\"", "'1'", "1.0", "1e3", "0x1",
    "1_0", "1;2", "x", "?", "NULL", "\0", "1\0", "\u{a0}1", "\u{feff}1", "\u{2212}1", "\u{663}", "00000000000", "-00000000001", "12345678901",
    "2147483648", "-2147483649", "4294967297", "-4294967295", "9999999999",
];

/// What ends no line, or more than one.
const BAD_ENDS: [&str; 10] = ["\r", "\r\r\n", "\n\r", "", " \n", "\n\n", "\r\n\n", "\u{b}", ",", ",\n"];

/// Lines by themselves and the columns for them: the shortest of each sort, right or wrong.
#[rustfmt::skip]
const EXAMPLES: [(&str, usize); 40] = [
    ("", 1), ("", 16), ("", 0), ("", 17), ("\n", 1), ("\r\n", 1), ("\n", 2), ("\n", 0), ("1", 1), ("1\n", 1), ("1\r\n", 1), ("1\n\n", 1), ("1,", 1),
    ("1,", 2), (",", 2), ("1\r", 1), ("\r", 1), ("1\r\r\n", 1), ("1\r2\n", 1), ("1\r,2\n", 2), ("-0,007\r\n,", 2), ("1,2\n1", 2), ("1,2\n1,2,3", 2),
    ("2147483647,-2147483648\n", 2), ("!", 1), ("!\n", 1), ("!\r\n", 1), ("!\n!", 1), ("!,!", 2), ("!,", 2), (",!\n", 2), ("1,!\n!,1", 2), ("!", 2),
    ("!!", 1), ("!1", 1), ("1!", 1), ("!\r", 1), ("! ", 1), (" !", 1), ("-!", 1),
];

/// The bytes that matter in lines, and few others.
const USEFUL_BYTES: &[u8] = b"0123456789-,\n\r0019-,,,,\n\n\n\r\r +\".;x\0!!!";

/// The bytes that right lines are made of, some more often than others: of few of them many lines are right.
const LINE_BYTES: &[u8] = b"0012789--,,,\n\n\n\n\r\r!!!";

/// One line: its fields, and its end.
struct Line {
    fields: Vec<Token>,
    end: &'static str,
}

/// Comma lines and the columns that IMPORT is told.
pub fn lines(draw: &mut Draw) -> (Vec<u8>, usize) {
    match draw.weighted(&[480, 260, 80, 80, 60, 30, 10]) {
        0 => {
            let size = size(draw);
            (written(&right(draw, size)), size.columns)
        }
        1 => damaged(draw),
        2 => byte_damaged(draw),
        3 => random_bytes(draw),
        4 => wrong_columns(draw),
        5 => {
            let (lines, columns) = draw.pick(&EXAMPLES);
            (lines.into(), columns)
        }
        _ => vast(draw),
    }
}

/// Columns and rows: mostly few, and some about each of the limits, on either side of it.
fn size(draw: &mut Draw) -> Size {
    match draw.weighted(&[770, 120, 20, 30, 30, 30]) {
        0 => Size { columns: columns(draw), rows: draw.pick(&[0, 1, 1, 2, 2, 3, 4, 5]) },
        1 => Size { columns: columns(draw), rows: draw.between(6, 40) },
        2 => Size { columns: draw.between(1, 3), rows: draw.between(254, 258) },
        3 => Size { columns: draw.pick(&[1, 1, 2, 3, 8]), rows: draw.between(MOST_ROWS - 1, MOST_ROWS + 2) },
        4 => {
            // of sixteen columns there are just as many cells as there may be, of no other number
            let columns = draw.pick(&[9, 10, 11, 11, 12, 13, 14, 15, 16, 16, 16]);
            Size { columns, rows: MOST_CELLS / columns + draw.below(2) }
        }
        _ => {
            // about 1,024 cells: blank ones are as many bytes, or one less, and what is short may be kept in less room
            let columns = draw.pick(&[2, 4, 8, 16, 16]);
            Size { columns, rows: 1024 / columns + draw.below(2) }
        }
    }
}

fn columns(draw: &mut Draw) -> usize {
    match draw.weighted(&[35, 25, 25, 10, 5]) {
        0 => 1,
        1 => 2,
        2 => draw.between(3, 5),
        3 => draw.between(6, 14),
        _ => draw.between(MOST_COLUMNS - 1, MOST_COLUMNS),
    }
}

/// A number: small as in rules, of any length, about a power of ten, or any.
fn number(draw: &mut Draw) -> i32 {
    let digits = draw.between(1, MOST_DIGITS - 1) as u32;
    let size = match draw.below(4) {
        0 => return tables::value(draw),
        1 => return draw.word() as i32,
        2 => draw.word() as i32 % 10_i32.pow(digits),
        _ => 10_i32.pow(digits) - draw.below(2) as i32,
    };
    if draw.percent(50) {
        -size
    } else {
        size
    }
}

/// How the fields of one file are drawn.
struct Filling {
    /// Blank and declined fields in a hundred.
    blanks: usize,
    /// Declined ones among these in a hundred.
    declined: usize,
    /// Numbers with spare zeros in a hundred.
    spare: usize,
}

fn field(draw: &mut Draw, filling: &Filling) -> Token {
    if draw.percent(filling.blanks) {
        return Token::new(if draw.percent(filling.declined) { DECLINED } else { "" });
    }
    if !draw.percent(filling.spare) {
        return Token::number(number(draw).into(), 1);
    }
    if draw.percent(20) {
        return Token::new(draw.pick(&WRITTEN));
    }
    Token::number(number(draw).into(), draw.between(2, MOST_DIGITS))
}

/// Lines of this size, which need not be allowed: with LF, CRLF or both, and an end of the last or none.
fn right(draw: &mut Draw, size: Size) -> Vec<Line> {
    let (blanks, declined) = (draw.pick(&[0, 10, 40, 40, 70, 100]), tables::declined_share(draw));
    let filling = Filling { blanks, declined, spare: draw.pick(&[0, 10, 10, 50, 100]) };
    let returns = draw.pick(&[0, 0, 50, 100]);
    let mut lines: Vec<Line> = (0..size.rows)
        .map(|_| Line {
            fields: (0..size.columns).map(|_| field(draw, &filling)).collect(),
            end: if draw.percent(returns) { "\r\n" } else { "\n" },
        })
        .collect();
    if let Some(last) = lines.last_mut() {
        if draw.percent(40) {
            last.end = "";
        }
    }
    lines
}

fn written(lines: &[Line]) -> Vec<u8> {
    let mut bytes = Vec::new();
    for line in lines {
        for (place, field) in line.fields.iter().enumerate() {
            if place > 0 {
                bytes.push(b',');
            }
            bytes.extend_from_slice(field.bytes());
        }
        bytes.extend_from_slice(line.end.as_bytes());
    }
    bytes
}

/// Lines with one or two faults, often in the last line: behind too many rows a fault decides all the same.
fn damaged(draw: &mut Draw) -> (Vec<u8>, usize) {
    let mut size = size(draw);
    size.rows = size.rows.max(1);
    let mut lines = right(draw, size);
    for _ in 0..draw.pick(&[1, 1, 1, 2]) {
        let place = if draw.percent(40) { lines.len() - 1 } else { draw.below(lines.len()) };
        damage_once(draw, &mut lines, place);
    }
    (written(&lines), size.columns)
}

/// A bad field, one field less or more, no comma between two, another line end, or an empty line.
fn damage_once(draw: &mut Draw, lines: &mut Vec<Line>, place: usize) {
    let fields = &mut lines[place].fields;
    let at = draw.below(fields.len().max(1));
    match draw.weighted(&[40, 12, 12, 6, 26, 4, 6]) {
        0 if !fields.is_empty() => fields[at] = bad_field(draw),
        1 if !fields.is_empty() => drop(fields.remove(at)),
        2 => fields.insert(at, field(draw, &Filling { blanks: 50, declined: 50, spare: 10 })),
        3 if at > 0 => {
            let between = draw.pick(&[";", ";", "\t", " ", ".", "|", ", ", "\r", "-", "!"]);
            fields[at - 1] = Token::new(&format!("{}{between}{}", draw.below(100), draw.below(100)));
            fields.remove(at);
        }
        4 => lines[place].end = draw.pick(&BAD_ENDS),
        5 => lines[place].fields.clear(),
        _ => lines.insert(place, Line { fields: Vec::new(), end: draw.pick(&["\n", "\r\n", "\r"]) }),
    }
}

/// A field that is none: one of the lists, a number that is too long or beyond the range, or one with something about it.
fn bad_field(draw: &mut Draw) -> Token {
    let size = number(draw).unsigned_abs().min(i32::MAX as u32);
    match draw.weighted(&[32, 13, 13, 16, 26]) {
        0 => Token::new(draw.pick(&BAD_FIELDS)),
        1 => Token::number(if draw.percent(50) { -i64::from(size) } else { size.into() }, draw.between(MOST_DIGITS + 1, MOST_DIGITS + 2)),
        2 => {
            let beyond = draw.pick(&[1 << 31, 1 << 31, 1 << 32, 3 << 31, 9_999_999_990]) + draw.below(9) as i64;
            Token::number(if draw.percent(50) { -1 - beyond } else { beyond }, 1)
        }
        3 => Token::new(draw.pick(&NEAR_DECLINED)),
        _ => {
            let (before, behind) = draw.pick(&[
                ("+", ""),
                (" ", ""),
                ("", " "),
                ("\"", "\""),
                ("-", "-"),
                ("", "\r"),
                ("\r", ""),
                ("", "."),
                ("\t", ""),
                ("--", ""),
                ("!", ""),
                ("", "!"),
            ]);
            Token::new(&format!("{before}{size}{behind}"))
        }
    }
}

/// Lines with one byte changed, left out or put in, or cut anywhere.
fn byte_damaged(draw: &mut Draw) -> (Vec<u8>, usize) {
    let size = size(draw);
    let mut bytes = written(&right(draw, size));
    let place = draw.below(bytes.len() + 1);
    let other = if draw.percent(80) { draw.pick(USEFUL_BYTES) } else { draw.word() as u8 };
    match draw.weighted(&[30, 30, 35, 5]) {
        0 if place < bytes.len() => bytes[place] = other,
        1 if place < bytes.len() => drop(bytes.remove(place)),
        3 => bytes.truncate(place),
        _ => bytes.insert(place, other),
    }
    (bytes, size.columns)
}

/// Any of the bytes that lines are made of, so few that they often are right lines; or any bytes.
fn random_bytes(draw: &mut Draw) -> (Vec<u8>, usize) {
    let length = if draw.percent(90) { draw.below(9) } else { draw.below(80) };
    let bytes = match draw.weighted(&[75, 20, 5]) {
        0 => (0..length).map(|_| draw.pick(LINE_BYTES)).collect(),
        1 => (0..length).map(|_| draw.pick(USEFUL_BYTES)).collect(),
        _ => draw.bytes(length),
    };
    (bytes, draw.pick(&[1, 1, 1, 1, 2, 2, 3]))
}

/// Columns that are not allowed, or not those of the lines. Lines of none or of seventeen fields are right but for that, and so are none.
fn wrong_columns(draw: &mut Draw) -> (Vec<u8>, usize) {
    let mut size = size(draw);
    if draw.percent(50) && size.rows < MOST_ROWS {
        size.columns = draw.pick(&[0, MOST_COLUMNS + 1]);
    }
    let told = match draw.weighted(&[30, 20, 25, 15, 10]) {
        0 => size.columns,
        1 => draw.pick(&[0, MOST_COLUMNS + 1]),
        2 => size.columns + draw.pick(&[1 << 8, 1 << 16, 1 << 31, 1 << 32, 1 << 63]),
        3 => size.columns.wrapping_add(draw.pick(&[1, usize::MAX])),
        _ => draw.pick(&[32, 255, 256, usize::MAX, usize::MAX - 15]),
    };
    (written(&right(draw, size)), told)
}

/// One thing over and over: far more lines, fields or digits than there may be, and more lines than two bytes count.
fn vast(draw: &mut Draw) -> (Vec<u8>, usize) {
    let (again, columns) = draw.pick(&[
        ("\n", 1),
        ("\n", 1),
        ("1\n", 1),
        ("!\n", 1),
        ("\r\n", 1),
        (",\n", 2),
        (",", 1),
        (",", 16),
        ("0", 1),
        ("-", 1),
        ("\r", 1),
        ("!", 1),
    ]);
    let times = if draw.percent(50) { (1 << 16) + draw.below(1003) } else { draw.below(3000) };
    let last = draw.pick(&["", "", "1", "x", ","]);
    ([again.repeat(times).as_bytes(), last.as_bytes()].concat(), columns)
}

/// A tables file for EXPORT, with numbers of every length in it, or a damaged one.
pub fn tables(draw: &mut Draw) -> Vec<u8> {
    let sizes = tables::sizes(draw);
    if draw.percent(12) {
        return tables::damaged(draw, &sizes);
    }
    let mut file = tables::file(draw, &sizes);
    let replaced = draw.pick(&[0, 50, 100, 100]);
    let values = 1 + 3 * sizes.len();
    for cell in 0..tables::cells(&sizes) {
        if draw.percent(replaced) {
            file[values + 4 * cell..][..4].copy_from_slice(&number(draw).to_le_bytes());
        }
    }
    file
}
