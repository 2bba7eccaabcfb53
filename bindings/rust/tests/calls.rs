//! The wrapper on document 01's own examples: its cases, its worked card and parts, each refusal, and what is lent before and after; and on document 02's truth
//! tests, comma lines and declined cells.
use roskudla::{card, check, export_lines, import_lines, judge, list, read, run, Part, Refusal, Truth, Value};
use roskudla::{MARK_BLANK, MARK_DECLINED, MARK_PRESENT};
use roskudla::{MOST_CARD_BYTES, MOST_LINES_BYTES, MOST_PARTS, MOST_ROWS, MOST_TABLE_BYTES};

/// (1, 5), (2, blank), (3, 0); 1, blank; no rows. Under the blanks stand 7 and 1, which no answer may show.
#[rustfmt::skip]
const CASE_TABLES: &[u8] = &[
    3, 2, 3, 0, 1, 2, 0, 1, 0, 0,
    1, 0, 0, 0, 5, 0, 0, 0, 2, 0, 0, 0, 7, 0, 0, 0, 3, 0, 0, 0, 0, 0, 0, 0, 1, 0, 0, 0, 1, 0, 0, 0,
    0, 0, 0, 1, 0, 0, 0, 1,
];
/// (1, 5), (2, blank), (3, declined), (declined, 0); 1, declined; no rows. Under the blank and declined cells stand 5, 5, 1 and 2, which no answer may show.
#[rustfmt::skip]
const DECLINED_TABLES: &[u8] = &[
    3, 2, 4, 0, 1, 2, 0, 1, 0, 0,
    1, 0, 0, 0, 5, 0, 0, 0, 2, 0, 0, 0, 5, 0, 0, 0, 3, 0, 0, 0, 5, 0, 0, 0, 1, 0, 0, 0, 0, 0, 0, 0, 1, 0, 0, 0, 2, 0, 0, 0,
    MARK_PRESENT, MARK_PRESENT, MARK_PRESENT, MARK_BLANK, MARK_PRESENT, MARK_DECLINED, MARK_DECLINED, MARK_PRESENT, MARK_PRESENT, MARK_DECLINED,
];
const WORKED_TABLES: &[u8] = &[1, 3, 0, 0];
const WORKED_TEXT: &[u8] = b"NOT m.2 < 5";
const WORKED_CARD: &[u8] = &[1, 0, 1, 3, 5, 1, 0, 0, 6, 0, 2, 0, 0, 0, 0xFF, 5, 0, 0, 0];
const DECLINED_TEXT: &[u8] = b"NOT m.2 IS DECLINED";
const DECLINED_CARD: &[u8] = &[1, 0, 1, 3, 10, 1, 0, 0, 0, 0, 2, 0, 0, 0, 0, 0, 0, 0, 0];
const UNKNOWN_TEXT: &[u8] = b"(m.3 > 0) IS UNKNOWN";
#[rustfmt::skip]
const UNKNOWN_CARD: &[u8] = &[
    3, 0, 1, 3, 1, 6, 6,
    3, 0, 0, 0, 0, 0, 0, 0, 0, 0, 0, 0, 0, 0,
    2, 0, 0, 4, 0, 3, 0, 0, 0, 0xFF, 0, 0, 0, 0,
    3, 0, 0, 5, 0, 3, 0, 0, 0, 0xFF, 0, 0, 0, 0,
];
const ALL2: &str = "(SELECT v.1 FROM 2 v WHERE 1 = 1)";
const ALL3: &str = "(SELECT v.1 FROM 3 v WHERE 1 = 1)";

fn cases() -> Vec<(String, &'static str)> {
    let plain = [
        ("m.2 > 0", "TUF"),
        ("NOT m.2 > 0", "FUT"),
        ("m.2 > 0 OR NOT m.2 > 0", "TUT"),
        ("m.2 IS NULL", "FTF"),
        ("m.1 IN ALL2", "TUU"),
        ("m.1 NOT IN ALL2", "FUU"),
        ("m.1 <> ALL (SELECT v.1 FROM 2 v WHERE v.1 = 1)", "FTT"),
        ("m.2 = ALL ALL3", "TTT"),
        ("m.2 = SOME ALL3", "FFF"),
        ("EXISTS (FROM 2 v WHERE v.1 > 1)", "FFF"),
        ("NOT EXISTS (FROM 2 v WHERE v.1 > 1)", "TTT"),
        ("m.1 = SOME (SELECT m.1 FROM 2 m WHERE m.1 = 1)", "TFF"),
    ];
    plain.iter().map(|(text, values)| (text.replace("ALL2", ALL2).replace("ALL3", ALL3), *values)).collect()
}

/// The truth tests, in the order of their kinds from 10 on, with their values on true, unknown and false, which `m.2 > 0` is on rows 0, 1 and 2; and the
/// opposites of these.
const TRUTH_TESTS: [(&str, &str, &str); 6] = [
    ("IS TRUE", "TFF", "FTT"),
    ("IS NOT TRUE", "FTT", "TFF"),
    ("IS FALSE", "FFT", "TTF"),
    ("IS NOT FALSE", "TTF", "FFT"),
    ("IS UNKNOWN", "FTF", "TFT"),
    ("IS NOT UNKNOWN", "TFT", "FTF"),
];

/// Rules, with their values on rows 0 to 3 of the tables with declined cells: column 2 is 5, blank, declined and 0 there.
const DECLINED_CASES: [(&str, &str); 16] = [
    ("m.2 IS DECLINED", "FFTF"),
    ("m.2 IS NOT DECLINED", "TTFT"),
    ("NOT m.2 IS DECLINED", "TTFT"),
    ("NOT m.2 IS NOT DECLINED", "FFTF"),
    ("5 IS DECLINED", "FFFF"),
    ("2 IS NOT DECLINED", "TTTT"),
    ("m.2 IS NULL", "FTTF"),
    ("m.2 IS NOT NULL", "TFFT"),
    ("m.2 = m.2", "TUUT"),
    ("NOT m.2 > 0", "FUUT"),
    ("m.1 < m.2", "TUUU"),
    ("(m.2 > 0) IS UNKNOWN", "FTTF"),
    ("(m.2 IS DECLINED) IS UNKNOWN", "FFFF"),
    ("(NOT m.2 IS DECLINED) IS NOT FALSE", "TTFT"),
    ("m.1 NOT IN (SELECT v.1 FROM 2 v WHERE v.1 IS NOT DECLINED)", "FTTU"),
    ("NOT EXISTS (FROM 2 v WHERE v.1 IS DECLINED AND m.2 IS DECLINED)", "TTFT"),
];

/// A condition within so many IS UNKNOWN around one another: each makes 1 plus twice the sum of entries in it.
fn within_unknowns(count: usize, condition: &str) -> String {
    "(".repeat(count) + condition + &") IS UNKNOWN".repeat(count)
}

/// The values of a rule on rows 0, 1 and 2 of the proved cases' tables, and what its card says of them.
fn has_values(text: &str, values: &str) {
    has_values_with(text, values, CASE_TABLES);
}

/// The values of a rule on the rows of table 1, and what its card says of them.
fn has_values_with(text: &str, values: &str, tables: &[u8]) {
    let mut bytes = [0; MOST_CARD_BYTES];
    let length = card(text.as_bytes(), tables, &mut bytes).unwrap();
    let made = &bytes[..length];
    assert_eq!(check(made), Ok(()));
    let mut admitted = Vec::new();
    for (row, value) in values.chars().enumerate() {
        let truth = match value {
            'T' => Truth::True,
            'U' => Truth::Unknown,
            _ => Truth::False,
        };
        assert_eq!(judge(text.as_bytes(), tables, row), Ok(truth), "{text} on row {row}");
        assert_eq!(run(made, tables, row), Ok(truth == Truth::True), "{text} on row {row}");
        if truth == Truth::True {
            admitted.push(row as u32);
        }
    }
    let mut rows = [0; MOST_ROWS];
    let count = list(made, tables, &mut rows).unwrap();
    assert_eq!(rows[..count], admitted[..], "{text}");
}

#[test]
fn cases_are_judged_run_and_listed() {
    for (text, values) in cases() {
        has_values(&text, values);
    }
}

#[test]
fn each_truth_test_on_each_value() {
    for (number, (ending, values, opposites)) in TRUTH_TESTS.iter().enumerate() {
        let test = format!("(m.2 > 0) {ending}");
        has_values(&test, values);
        has_values(&format!("NOT {test}"), opposites);
        has_values(&format!("({test}) IS FALSE"), opposites);
        has_values(&format!("m.1 <> ALL (SELECT k.1 FROM 1 k WHERE {test})"), opposites);
        let mut parts = [Part::default(); 3];
        assert_eq!(read(format!("NOT {test}").as_bytes(), CASE_TABLES, &mut parts), Ok(3));
        assert_eq!(parts.map(|part| part.kind), [3, 10 + number as u8, 4]);
    }
}

#[test]
fn declined_cells_are_judged_run_and_listed() {
    for (text, values) in DECLINED_CASES {
        has_values_with(text, values, DECLINED_TABLES);
    }
    let mut parts = [Part::default(); 4];
    assert_eq!(read(b"NOT m.2 IS DECLINED AND -7 IS NOT DECLINED", DECLINED_TABLES, &mut parts), Ok(4));
    let wanted = [
        Part { kind: 1, end: 4, ..Part::default() },
        Part { kind: 3, end: 3, ..Part::default() },
        Part { kind: 16, end: 3, left: Value { tag: 0, number: 2 }, ..Part::default() },
        Part { kind: 17, end: 4, left: Value { tag: 255, number: -7 }, ..Part::default() },
    ];
    assert_eq!(parts, wanted);
}

/// A card of one entry for the tables with declined cells: its kind, table, comparison, left and right value.
fn one_entry(kind: u8, table: u8, comparison: u8, left: [u8; 5], right: [u8; 5]) -> Vec<u8> {
    [&[1, 0, 3, 2, 1, 1, kind, 1, 0, table, comparison] as &[u8], &left, &right].concat()
}

#[test]
fn cards_of_kinds_9_and_10() {
    let (none, column, number) = ([0; 5], [0, 2, 0, 0, 0], [255, 2, 0, 0, 0]);
    let admitted: [(u8, [u8; 5], &[u32]); 6] = [
        (9, column, &[2]),
        (10, column, &[0, 1, 3]),
        (9, number, &[]),
        (10, number, &[0, 1, 2, 3]),
        (7, column, &[1, 2]),
        (8, column, &[0, 3]),
    ];
    for (kind, left, wanted) in admitted {
        let made = one_entry(kind, 0, 0, left, none);
        let mut rows = [0; 4];
        let count = list(&made, DECLINED_TABLES, &mut rows).unwrap();
        assert_eq!(rows[..count], *wanted, "kind {kind} of {left:?}");
        for row in 0..4 {
            assert_eq!(run(&made, DECLINED_TABLES, row), Ok(wanted.contains(&(row as u32))), "kind {kind} of {left:?} on row {row}");
        }
    }
    for kind in [9, 10] {
        for (table, comparison, right) in [(1, 0, none), (0, 1, none), (0, 0, number), (0, 0, column)] {
            let made = one_entry(kind, table, comparison, column, right);
            assert_eq!(check(&made), Err(Refusal(9)));
            assert_eq!(run(&made, DECLINED_TABLES, 0), Err(Refusal(9)));
        }
    }
    for kind in [0, 11, 12, 16, 17] {
        assert_eq!(check(&one_entry(kind, 0, 0, column, none)), Err(Refusal(9)), "kind {kind}");
    }
}

#[test]
fn marks_up_to_2() {
    let cell = |mark: u8| [1, 1, 1, 0, 7, 0, 0, 0, mark];
    for (mark, values) in [(MARK_PRESENT, ["F", "F", "T"]), (MARK_BLANK, ["T", "F", "U"]), (MARK_DECLINED, ["T", "T", "U"])] {
        for (text, value) in ["m.1 IS NULL", "m.1 IS DECLINED", "m.1 = m.1"].iter().zip(values) {
            has_values_with(text, value, &cell(mark));
        }
    }
    assert_eq!(judge(b"1 = 1", &cell(3), 0), Err(Refusal(2)));
    assert_eq!(run(&[1, 0, 1, 1, 9, 1, 0, 0, 0, 0, 1, 0, 0, 0, 0, 0, 0, 0, 0], &cell(3), 0), Err(Refusal(2)));
    assert_eq!(export_lines(&cell(3)), Err(Refusal(2)));
}

#[test]
fn worked_cards_in_buffers_of_every_length() {
    for (text, wanted) in [(WORKED_TEXT, WORKED_CARD), (DECLINED_TEXT, DECLINED_CARD), (UNKNOWN_TEXT, UNKNOWN_CARD)] {
        for room in 0..wanted.len() + 3 {
            let mut bytes = vec![0xA5; room];
            let answer = card(text, WORKED_TABLES, &mut bytes);
            if room < wanted.len() {
                assert_eq!(answer, Err(Refusal(12)));
                assert!(bytes.iter().all(|byte| *byte == 0xA5));
            } else {
                assert_eq!(answer, Ok(wanted.len()));
                assert_eq!(bytes[..wanted.len()], *wanted);
                assert!(bytes[wanted.len()..].iter().all(|byte| *byte == 0xA5));
            }
        }
    }
}

#[test]
fn parts_field_by_field() {
    let filler =
        Part { kind: 99, comparison: 98, table: 97, end: 96, left: Value { tag: 95, number: -94 }, right: Value { tag: 93, number: -92 } };
    let text = b"EXISTS (FROM 2 a WHERE a.1 >= SOME (SELECT -7 FROM 3 b WHERE m.2 < 9))";
    let wanted = [
        Part { kind: 7, table: 2, end: 3, ..Part::default() },
        Part { kind: 8, comparison: 6, table: 3, end: 3, left: Value { tag: 1, number: 1 }, right: Value { tag: 255, number: -7 } },
        Part { kind: 4, comparison: 3, table: 0, end: 3, left: Value { tag: 0, number: 2 }, right: Value { tag: 255, number: 9 } },
    ];
    let mut parts = [filler; MOST_PARTS];
    assert_eq!(read(text, CASE_TABLES, &mut parts), Ok(3));
    assert_eq!(parts[..3], wanted);
    assert!(parts[3..].iter().all(|part| *part == filler));
    let mut few = [filler; 2];
    assert_eq!(read(text, CASE_TABLES, &mut few), Err(Refusal(12)));
    assert_eq!(few, [filler; 2]);
    let wanted = [
        Part { kind: 3, end: 3, ..Part::default() },
        Part { kind: 13, end: 3, ..Part::default() },
        Part { kind: 4, comparison: 1, table: 0, end: 3, left: Value { tag: 0, number: 2 }, right: Value { tag: 255, number: 9 } },
    ];
    let mut parts = [filler; 4];
    assert_eq!(read(b"NOT (m.2 = 9) IS NOT FALSE", CASE_TABLES, &mut parts), Ok(3));
    assert_eq!(parts[..3], wanted);
    assert_eq!(parts[3], filler);
}

#[test]
fn every_refusal() {
    let spaces = vec![b' '; 4097];
    let brackets = vec![b'('; 33];
    let tests = ["1 = 1"; 33].join(" OR ");
    let (seven, unbound) = (within_unknowns(7, "1 = 1"), within_unknowns(7, "k.1 = 1"));
    let texts: [(u32, &[u8]); 17] = [
        (3, &spaces),
        (4, b"m.1 = 2147483648"),
        (5, &brackets),
        (6, b""),
        (6, b"m.1 ="),
        (6, b"(1 = 1) IS TRUE IS TRUE"),
        (6, b"1 = 1 IS TRUE"),
        (6, b"TRUE"),
        (7, tests.as_bytes()),
        (8, b"k.1 = 1"),
        (8, unbound.as_bytes()),
        (13, seven.as_bytes()),
        (4, b"m.1 IS DECLINE"),
        (4, b"m.1 = !"),
        (6, b"DECLINED"),
        (6, b"(m.1) IS DECLINED"),
        (8, b"m.3 IS DECLINED"),
    ];
    for (number, text) in texts {
        assert_eq!(judge(text, CASE_TABLES, 0), Err(Refusal(number)));
        assert_eq!(read(text, CASE_TABLES, &mut []), Err(Refusal(number)));
        assert_eq!(card(text, CASE_TABLES, &mut []), Err(Refusal(number)));
    }
    assert_eq!(judge(b"1 = 1", &[], 0), Err(Refusal(1)));
    assert_eq!(judge(b"1 = 1", &[1, 1, 1, 0, 0, 0, 0, 0, 3], 0), Err(Refusal(2)));
    assert_eq!(judge(b"1 = 1", CASE_TABLES, 3), Err(Refusal(11)));
    assert_eq!(judge(b"1 = 1", CASE_TABLES, usize::MAX), Err(Refusal(11)));
    assert_eq!(check(&[0, 0]), Err(Refusal(9)));
    assert_eq!(run(WORKED_CARD, CASE_TABLES, 0), Err(Refusal(10)));
    assert_eq!(run(WORKED_CARD, WORKED_TABLES, 0), Err(Refusal(11)));
    assert_eq!(list(WORKED_CARD, WORKED_TABLES, &mut []), Ok(0));
}

/// An EXISTS has 2 entries, which six IS UNKNOWN make 191, and the EXISTS around them 192. Over eight tables no card is longer; one entry more is refused.
#[test]
fn sums_up_to_192_are_accepted() {
    let exists = |condition: &str| format!("EXISTS (FROM 1 v WHERE {condition})");
    let most = exists(&within_unknowns(6, &exists("1 = 1")));
    let mut eight_tables = vec![8];
    eight_tables.extend([1, 0, 0].repeat(8));
    let mut bytes = [0; MOST_CARD_BYTES];
    assert_eq!(card(most.as_bytes(), &eight_tables, &mut bytes), Ok(MOST_CARD_BYTES));
    assert_eq!(check(&bytes), Ok(()));
    assert_eq!(card(most.as_bytes(), &eight_tables, &mut bytes[1..]), Err(Refusal(12)));
    assert_eq!(card(exists(&most).as_bytes(), &eight_tables, &mut bytes), Err(Refusal(13)));
    assert_eq!(read(exists(&most).as_bytes(), &eight_tables, &mut []), Err(Refusal(13)));
}

/// 13 comes before 11 and 12: seven IS UNKNOWN within one another make a sum of 255, and six of them 127.
#[test]
fn entries_before_rows_and_room() {
    let (seven, six) = (within_unknowns(7, "1 = 1"), within_unknowns(6, "1 = 1"));
    assert_eq!(judge(seven.as_bytes(), CASE_TABLES, 99), Err(Refusal(13)));
    assert_eq!(judge(six.as_bytes(), CASE_TABLES, 99), Err(Refusal(11)));
    assert_eq!(card(seven.as_bytes(), CASE_TABLES, &mut []), Err(Refusal(13)));
    assert_eq!(card(six.as_bytes(), CASE_TABLES, &mut []), Err(Refusal(12)));
    assert_eq!(read(seven.as_bytes(), CASE_TABLES, &mut []), Err(Refusal(13)));
    assert_eq!(read(six.as_bytes(), CASE_TABLES, &mut []), Err(Refusal(12)));
}

/// A cell: with a number, blank or declined.
#[derive(Clone, Copy)]
enum Cell {
    Number(i32),
    Blank,
    Declined,
}
use Cell::{Blank, Declined, Number};

impl Cell {
    fn value(self) -> i32 {
        match self {
            Number(number) => number,
            Blank | Declined => 0,
        }
    }

    fn mark(self) -> u8 {
        match self {
            Number(_) => MARK_PRESENT,
            Blank => MARK_BLANK,
            Declined => MARK_DECLINED,
        }
    }
}

/// The bytes of a tables file with one table, from its cells row by row; a blank or declined one has 0 as its value.
fn table(columns: u8, cells: &[Cell]) -> Vec<u8> {
    let rows = (cells.len() / columns as usize) as u16;
    let mut bytes = vec![1, columns];
    bytes.extend(rows.to_le_bytes());
    bytes.extend(cells.iter().flat_map(|cell| cell.value().to_le_bytes()));
    bytes.extend(cells.iter().map(|cell| cell.mark()));
    bytes
}

#[test]
fn comma_lines_become_tables() {
    let given: [(&[u8], u8, &[Cell]); 19] = [
        (b"", 1, &[]),
        (b"", 16, &[]),
        (b"\n", 1, &[Blank]),
        (b"\r\n", 1, &[Blank]),
        (b"1", 1, &[Number(1)]),
        (b"1\n", 1, &[Number(1)]),
        (b"1\r\n", 1, &[Number(1)]),
        (b"1\n\n", 1, &[Number(1), Blank]),
        (b",", 2, &[Blank, Blank]),
        (b"-0,007\r\n,", 2, &[Number(0), Number(7), Blank, Blank]),
        (b"1,2\n3,4\r\n5,6", 2, &[Number(1), Number(2), Number(3), Number(4), Number(5), Number(6)]),
        (b"2147483647,-2147483648\n", 2, &[Number(i32::MAX), Number(i32::MIN)]),
        (b"0000000001,-1\n,256", 2, &[Number(1), Number(-1), Blank, Number(256)]),
        (b",,,,,,,,,,,,,,,\n", 16, &[Blank; 16]),
        (b"!", 1, &[Declined]),
        (b"!\r\n", 1, &[Declined]),
        (b"!\n\n7", 1, &[Declined, Blank, Number(7)]),
        (b"!,\n-5,!", 2, &[Declined, Blank, Number(-5), Declined]),
        (b"!,!,!,!,!,!,!,!,!,!,!,!,!,!,!,!\n", 16, &[Declined; 16]),
    ];
    for (lines, columns, cells) in given {
        assert_eq!(import_lines(lines, columns as usize), Ok(table(columns, cells)), "{}", lines.escape_ascii());
    }
    assert_eq!(import_lines(b"", 1), Ok(vec![1, 1, 0, 0]));
}

/// In one column; a CR that ends no line, what is no number and no lone !, and a field too many.
#[rustfmt::skip]
const BAD_LINES: [&[u8]; 30] = [
    b"1\r", b"\r", b"1\r\r\n", b"1\r2\n", b"+1", b"1 ", b" 1", b" ", b"1.0", b"\"1\"", b"-", b"1-2", b"00000000001", b"12345678901", b"2147483648",
    b"-2147483649", b"\xEF\xBB\xBF1", b"1\0", b"1,", b"1,2", b"!1", b"1!", b"! ", b" !", b"!!", b"-!", b"!-", b"!\r", b"\"!\"", b"!,",
];

#[test]
fn comma_lines_are_refused_with_14() {
    for lines in BAD_LINES {
        assert_eq!(import_lines(lines, 1), Err(Refusal(14)), "{}", lines.escape_ascii());
    }
    for lines in [b"\n" as &[u8], b"1", b"1,2\n1", b"1,2\n1,2,3", b"1,2\n\n", b"1;2", b"!", b"1,!2"] {
        assert_eq!(import_lines(lines, 2), Err(Refusal(14)), "{}", lines.escape_ascii());
    }
    for columns in [0, 17, 257, (1 << 32) + 1, usize::MAX] {
        assert_eq!(import_lines(b"", columns), Err(Refusal(14)), "{columns} columns");
        assert_eq!(import_lines(b"1", columns), Err(Refusal(14)), "{columns} columns");
    }
}

/// 1,000 rows and 8,192 cells pass; one row more is refused with 15, and with 14 where something is wrong behind it.
#[test]
fn sizes_of_comma_lines() {
    for (columns, most) in [(1, 1000), (8, 1000), (9, 910), (16, 512)] {
        let line = [b",".repeat(columns - 1), b"\n".to_vec()].concat();
        assert_eq!(import_lines(&line.repeat(most), columns), Ok(table(columns as u8, &vec![Blank; columns * most])));
        assert_eq!(import_lines(&line.repeat(most + 1), columns), Err(Refusal(15)));
        assert_eq!(import_lines(&[line.repeat(most + 1), b"x".to_vec()].concat(), columns), Err(Refusal(14)));
        assert_eq!(import_lines(&line.repeat(most + 1), columns + 16), Err(Refusal(14)));
    }
}

#[test]
fn tables_become_comma_lines() {
    let written: [(Vec<u8>, &[u8]); 12] = [
        (table(1, &[Number(i32::MIN)]), b"-2147483648\n"),
        (table(1, &[Number(0)]), b"0\n"),
        (table(1, &[Blank]), b"\n"),
        (table(1, &[]), b""),
        (table(3, &[Number(i32::MAX), Number(-1), Blank, Blank, Number(10), Number(-100)]), b"2147483647,-1,\n,10,-100\n"),
        (CASE_TABLES.to_vec(), b"1,5\n2,\n3,0\n"),
        (WORKED_TABLES.to_vec(), b""),
        (vec![1, 1, 1, 0, 9, 9, 9, 9, 1], b"\n"),
        (table(1, &[Declined]), b"!\n"),
        (table(3, &[Declined, Number(-1), Blank, Blank, Declined, Declined]), b"!,-1,\n,!,!\n"),
        (DECLINED_TABLES.to_vec(), b"1,5\n2,\n3,!\n!,0\n"),
        (vec![1, 1, 1, 0, 9, 9, 9, 9, 2], b"!\n"),
    ];
    for (tables, lines) in written {
        assert_eq!(export_lines(&tables), Ok(lines.to_vec()), "{tables:?}");
    }
    for tables in [&[] as &[u8], &[0], &[1, 1, 1, 0, 0, 0, 0, 0], &[1, 1, 0, 0, 0], &[1, 17, 0, 0]] {
        assert_eq!(export_lines(tables), Err(Refusal(1)), "{tables:?}");
    }
    assert_eq!(export_lines(&[1, 1, 1, 0, 0, 0, 0, 0, 3]), Err(Refusal(2)));
}

/// Writing and importing again gives table 1, with 0 under each blank and declined cell; the rooms are exactly enough for the longest answers.
#[test]
fn there_and_back() {
    let cells = [Number(1), Number(5), Number(2), Blank, Number(3), Number(0)];
    assert_eq!(import_lines(&export_lines(CASE_TABLES).unwrap(), 2), Ok(table(2, &cells)));
    assert_eq!(import_lines(&export_lines(&[1, 1, 1, 0, 9, 9, 9, 9, 1]).unwrap(), 1), Ok(table(1, &[Blank])));
    let cells = [Number(1), Number(5), Number(2), Blank, Number(3), Declined, Declined, Number(0)];
    assert_eq!(import_lines(&export_lines(DECLINED_TABLES).unwrap(), 2), Ok(table(2, &cells)));
    assert_eq!(import_lines(&export_lines(&[1, 1, 1, 0, 9, 9, 9, 9, 2]).unwrap(), 1), Ok(table(1, &[Declined])));
    let most = table(16, &[Number(i32::MIN); 8192]);
    let lines = export_lines(&most).unwrap();
    assert_eq!((most.len(), lines.len()), (MOST_TABLE_BYTES, MOST_LINES_BYTES));
    assert_eq!(import_lines(&lines, 16), Ok(most));
}

#[test]
fn refusals_say_why() {
    assert_eq!(Refusal(6).to_string(), "refused 6: the text does not follow the grammar");
    assert_eq!(Refusal(13).to_string(), "refused 13: the card would have over 192 entries");
    assert_eq!(Refusal(15).to_string(), "refused 15: comma lines: over 1,000 rows or 8,192 cells");
}
