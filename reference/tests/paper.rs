//! The paper's cases, its worked card, its refusals, and places where a reading goes wrong easily.

use reference::{card, check, export, import, judge, list, read, run, Part, Refusal, Truth, Value};
use Cell::{Blank, Declined, Number};

const T: Truth = Truth::True;
const U: Truth = Truth::Unknown;
const F: Truth = Truth::False;

/// What a cell of a tables file has in it.
#[derive(Clone, Copy, Debug, PartialEq, Eq)]
enum Cell {
    Blank,
    Declined,
    Number(i32),
}

/// One table: its columns, then its rows.
type Table = (u8, Vec<Vec<Cell>>);

/// A tables file. Blank and declined cells get value bytes that would be seen if they were read.
fn tables_file(tables: &[Table]) -> Vec<u8> {
    tables_file_with(tables, 1)
}

/// A tables file with this value under each blank or declined cell.
fn tables_file_with(tables: &[Table], under: i32) -> Vec<u8> {
    let mut bytes = vec![tables.len() as u8];
    for (columns, rows) in tables {
        bytes.push(*columns);
        bytes.extend((rows.len() as u16).to_le_bytes());
    }
    let cells = || tables.iter().flat_map(|(_, rows)| rows.iter().flatten());
    let value = |cell: &Cell| if let Number(number) = cell { *number } else { under };
    let mark = |cell: &Cell| match cell {
        Number(_) => 0,
        Blank => 1,
        Declined => 2,
    };
    bytes.extend(cells().flat_map(|cell| value(cell).to_le_bytes()));
    bytes.extend(cells().map(mark));
    bytes
}

/// The tables of the proved cases.
fn paper_tables() -> Vec<u8> {
    let first = vec![vec![Number(1), Number(5)], vec![Number(2), Blank], vec![Number(3), Number(0)]];
    let second = vec![vec![Number(1)], vec![Blank]];
    tables_file(&[(2, first), (1, second), (1, vec![])])
}

/// One table of 3 columns and two rows, for the worked card.
fn three_columns() -> Vec<u8> {
    let rows = vec![vec![Number(0), Number(4), Number(0)], vec![Number(0), Number(5), Number(0)]];
    tables_file(&[(3, rows)])
}

fn parts_of(text: &str, tables: &[u8]) -> Result<Vec<Part>, Refusal> {
    let mut parts = [Part::default(); 64];
    read(text.as_bytes(), tables, &mut parts).map(|count| parts[..count].to_vec())
}

fn card_of(text: &str, tables: &[u8]) -> Result<Vec<u8>, Refusal> {
    let mut bytes = [0; 3_000];
    card(text.as_bytes(), tables, &mut bytes).map(|length| bytes[..length].to_vec())
}

/// The refusal of READ, JUDGE and CARD, which must agree, for a text on the paper's tables; 0 if none.
fn refused(text: &[u8]) -> Refusal {
    let tables = paper_tables();
    let number = read(text, &tables, &mut [Part::default(); 64]).err();
    assert_eq!(judge(text, &tables, 0).err(), number);
    assert_eq!(card(text, &tables, &mut [0; 3_000]).err(), number);
    number.unwrap_or(0)
}

fn constant(number: i32) -> Value {
    Value { tag: 255, number }
}

fn column(tag: u8, number: i32) -> Value {
    Value { tag, number }
}

/// The six truth tests, in the order of their kinds 10 to 15.
const TRUTH_TESTS: [&str; 6] = ["IS TRUE", "IS NOT TRUE", "IS FALSE", "IS NOT FALSE", "IS UNKNOWN", "IS NOT UNKNOWN"];

/// The kinds of the parts of an accepted text on the paper's tables.
fn part_kinds(text: &str) -> Vec<u8> {
    parts_of(text, &paper_tables()).unwrap().iter().map(|part| part.kind).collect()
}

/// The kind and the comparison of each entry of the card of a text on the paper's three tables.
fn entry_kinds(text: &str) -> Vec<(u8, u8)> {
    let bytes = card_of(text, &paper_tables()).unwrap();
    let count = usize::from(bytes[0]);
    let comparison = |entry: usize| bytes[6 + count + 14 * entry + 3];
    (0..count).map(|entry| (bytes[6 + entry], comparison(entry))).collect()
}

/// A condition in `count` truth tests UNKNOWN, nested in one another.
fn unknowns(count: usize, condition: &str) -> String {
    format!("{}{condition}{}", "(".repeat(count), ") IS UNKNOWN".repeat(count))
}

/// What a text is on each row of table 1, by JUDGE, and by RUN and LIST with its card; what lies past the list stays.
fn assert_truths(text: &str, tables: &[u8], truths: &[Truth]) {
    let bytes = card_of(text, tables).unwrap();
    assert_eq!(check(&bytes), Ok(()), "{text}");
    let mut admitted = vec![];
    for (row, &truth) in truths.iter().enumerate() {
        assert_eq!(judge(text.as_bytes(), tables, row), Ok(truth), "{text}, row {row}");
        assert_eq!(run(&bytes, tables, row), Ok(truth == T), "{text}, row {row}");
        admitted.extend((truth == T).then_some(row as u32));
    }
    let mut rows = vec![99; truths.len() + 1];
    assert_eq!(list(&bytes, tables, &mut rows), Ok(admitted.len()), "{text}");
    assert!(rows.starts_with(&admitted), "{text}");
    assert!(rows[admitted.len()..].iter().all(|&row| row == 99), "{text}");
}

const WORKED: [u8; 19] = [1, 0, 1, 3, 5, 1, 0, 0, 6, 0, 2, 0, 0, 0, 0xFF, 5, 0, 0, 0];

#[test]
fn the_twelve_proved_cases() {
    let all2 = "(SELECT v.1 FROM 2 v WHERE 1 = 1)";
    let all3 = "(SELECT v.1 FROM 3 v WHERE 1 = 1)";
    let cases = [
        ("m.2 > 0".to_string(), [T, U, F]),
        ("NOT m.2 > 0".to_string(), [F, U, T]),
        ("m.2 > 0 OR NOT m.2 > 0".to_string(), [T, U, T]),
        ("m.2 IS NULL".to_string(), [F, T, F]),
        (format!("m.1 IN {all2}"), [T, U, U]),
        (format!("m.1 NOT IN {all2}"), [F, U, U]),
        ("m.1 <> ALL (SELECT v.1 FROM 2 v WHERE v.1 = 1)".to_string(), [F, T, T]),
        (format!("m.2 = ALL {all3}"), [T, T, T]),
        (format!("m.2 = SOME {all3}"), [F, F, F]),
        ("EXISTS (FROM 2 v WHERE v.1 > 1)".to_string(), [F, F, F]),
        ("NOT EXISTS (FROM 2 v WHERE v.1 > 1)".to_string(), [T, T, T]),
        ("m.1 = SOME (SELECT m.1 FROM 2 m WHERE m.1 = 1)".to_string(), [T, F, F]),
    ];
    let tables = paper_tables();
    cases.iter().for_each(|(text, truths)| assert_truths(text, &tables, truths));
}

#[test]
fn the_worked_card() {
    let tables = three_columns();
    assert_eq!(card_of("NOT m.2 < 5", &tables), Ok(WORKED.to_vec()));
    assert_eq!(check(&WORKED), Ok(()));
    assert_eq!(run(&WORKED, &tables, 0), Ok(false));
    assert_eq!(run(&WORKED, &tables, 1), Ok(true));
    let mut buffer = [7; 20];
    assert_eq!(card(b"NOT m.2 < 5", &tables, &mut buffer), Ok(19));
    assert_eq!((&buffer[..19], buffer[19]), (&WORKED[..], 7));
}

#[test]
fn the_examples_of_the_refusal_table() {
    let tables = paper_tables();
    assert_eq!(judge(b"1 = 1", &[0], 0), Err(1));
    assert_eq!(judge(b"1 = 1", &[1, 1, 1, 0, 0, 0, 0, 0, 3], 0), Err(2));
    assert_eq!(refused(&[b' '; 4_097]), 3);
    assert_eq!(refused(b"m.1 = 2147483648"), 4);
    assert_eq!(refused(&[b'('; 33]), 5);
    assert_eq!(refused(b""), 6);
    assert_eq!(refused(b"m.1 ="), 6);
    assert_eq!(refused(["1 = 1"; 33].join(" OR ").as_bytes()), 7);
    assert_eq!(refused(b"k.1 = 1"), 8);
    assert_eq!(check(&[0, 0]), Err(9));
    let two_columns = tables_file(&[(2, vec![])]);
    assert_eq!(run(&WORKED, &two_columns, 0), Err(10));
    assert_eq!(list(&WORKED, &two_columns, &mut []), Err(10));
    assert_eq!(judge(b"1 = 1", &tables, 3), Err(11));
    assert_eq!(run(&WORKED, &three_columns(), usize::MAX), Err(11));
    let mut buffer = [7; 18];
    assert_eq!(card(b"NOT m.2 < 5", &three_columns(), &mut buffer), Err(12));
    assert_eq!(buffer, [7; 18]);
    assert_eq!(refused(unknowns(7, "1 = 1").as_bytes()), 13);
}

#[test]
fn the_first_refusal_over_the_whole_input() {
    let tables = paper_tables();
    let mut spoilt = tables.clone();
    *spoilt.last_mut().unwrap() = 3;
    assert_eq!(judge(&[b'?'; 5_000], &spoilt, 9), Err(2));
    assert_eq!(run(&[], &spoilt, 9), Err(2));
    spoilt.push(0);
    assert_eq!(list(&[], &spoilt, &mut []), Err(1));
    assert_eq!(run(&[], &tables, 9), Err(9));
    assert_eq!(run(&WORKED, &tables, 9), Err(10));
    assert_eq!(refused(&[b'?'; 4_097]), 3);
    assert_eq!(refused(format!("{} ?", "(".repeat(33)).as_bytes()), 4);
    assert_eq!(refused(b") = k.1 ?"), 4);
    assert_eq!(refused(format!(") = {}", "(".repeat(34)).as_bytes()), 5);
    assert_eq!(refused(format!("){}", "(".repeat(33)).as_bytes()), 6);
    assert_eq!(refused(format!("{} OR", ["k.1 = 1"; 40].join(" OR ")).as_bytes()), 6);
    assert_eq!(refused(["k.1 = 1"; 40].join(" OR ").as_bytes()), 7);
    assert_eq!(judge(b"k.1 = 1", &tables, 9), Err(8));
    assert_eq!(read(b"k.1 = 1", &tables, &mut []), Err(8));
    assert_eq!(read(b"1 = 1", &tables, &mut []), Err(12));
}

#[test]
fn the_sum_is_refused_after_names_and_before_row_and_buffer() {
    let tables = paper_tables();
    // a name within the seven, and one after them
    let within = unknowns(7, "k.1 = 1");
    let after = format!("{} OR m.3 = 1", unknowns(7, "1 = 1"));
    let limit = format!("{}{}", "NOT ".repeat(57), unknowns(7, "1 = 1"));
    for (text, number) in [(&within, 8), (&after, 8), (&limit, 7), (&unknowns(7, "1 = 1"), 13)] {
        assert_eq!(read(text.as_bytes(), &tables, &mut []), Err(number), "{text}");
        assert_eq!(judge(text.as_bytes(), &tables, 99), Err(number), "{text}");
        assert_eq!(card(text.as_bytes(), &tables, &mut []), Err(number), "{text}");
    }
    let six = unknowns(6, "1 = 1");
    assert_eq!(read(six.as_bytes(), &tables, &mut []), Err(12));
    assert_eq!(judge(six.as_bytes(), &tables, 99), Err(11));
    assert_eq!(card(six.as_bytes(), &tables, &mut []), Err(12));
    // n = 127: 3 + T + 15n bytes
    assert_eq!(card(six.as_bytes(), &tables, &mut [0; 1_910]), Err(12));
    assert_eq!(card(six.as_bytes(), &tables, &mut [0; 1_911]), Ok(1_911));
    let mut spoilt = tables.clone();
    *spoilt.last_mut().unwrap() = 3;
    assert_eq!(read(unknowns(7, "1 = 1").as_bytes(), &spoilt, &mut []), Err(2));
}

#[test]
fn the_sum_at_its_limit() {
    let tables = paper_tables();
    let length = |text: &str| card_of(text, &tables).map(|bytes| (bytes.len() - 6) / 15);
    // 127 + 63 + 1, then one more for EXISTS
    let odd = format!("{} AND {}", unknowns(6, "m.2 > 0"), unknowns(5, "m.1 = 1"));
    let even = format!("EXISTS (FROM 2 v WHERE {odd})");
    assert_eq!((length(&odd), length(&even)), (Ok(191), Ok(192)));
    assert_eq!((refused(even.as_bytes()), refused(format!("{odd} AND 1 = 1").as_bytes())), (0, 13));
    assert_eq!(refused(format!("EXISTS (FROM 2 v WHERE {even})").as_bytes()), 13);
    // kind 15 counts as 14 does; kinds 3 and 10 to 13 add nothing to 192
    assert_eq!(length(&even.replace("IS UNKNOWN", "IS NOT UNKNOWN")), Ok(192));
    TRUTH_TESTS[..4].iter().for_each(|test| assert_eq!(length(&format!("NOT ({even}) {test}")), Ok(192), "{test}"));
    TRUTH_TESTS[4..].iter().for_each(|test| assert_eq!(length(&format!("({even}) {test}")), Err(13), "{test}"));
    // a list adds its own 3 within the doubling: 1 + 2 × (3 + 1)
    assert_eq!(length("(m.1 IN (SELECT v.1 FROM 2 v WHERE v.1 = 1)) IS UNKNOWN"), Ok(9));
    // 9 × 4 + 2 + 1 for the tests, 9 OR and an AND; then 1 + 2 × 49, then 1 + 2 × 99
    let list = "m.1 IN (SELECT v.1 FROM 2 v WHERE 1 = 1)";
    let joined = [list; 9].join(" OR ") + " OR EXISTS (FROM 3 v WHERE 1 = 1) AND NOT 1 = 1";
    assert_eq!((length(&joined), length(&unknowns(1, &joined)), length(&unknowns(2, &joined))), (Ok(49), Ok(99), Err(13)));
}

#[test]
fn the_sum_may_double_at_every_bracket() {
    let deep = unknowns(32, "1 = 1");
    assert_eq!(refused(deep.as_bytes()), 13);
    assert_eq!(refused(format!("({deep})").as_bytes()), 5);
    assert_eq!(refused(deep.replace("IS UNKNOWN", "IS NOT UNKNOWN").as_bytes()), 13);
    // 64 parts: the innermost condition has 32
    let wide = unknowns(32, &format!("NOT {}", vec!["1 = 1"; 16].join(" OR ")));
    assert_eq!((refused(wide.as_bytes()), refused(wide.replacen("NOT", "NOT NOT", 1).as_bytes())), (13, 7));
    let sides = format!("{} AND {}", unknowns(30, "1 = 1"), unknowns(31, "m.1 = 1"));
    assert_eq!((refused(sides.as_bytes()), refused(format!("NOT {sides}").as_bytes())), (13, 7));
}

#[test]
fn tokens() {
    let accepted = ["m.1=1", "\n m . 1 = 1 \n", "1<-1", "1=0000000001", "m.0000000001=-0", "1=-2147483648", "1IS NOT NULL"];
    let no_tokens = ["1 = 00000000001", "1 = -2147483649", "1 = -", "1 = - 1", "1 = --1", "1\t= 1", "1 = 1\r", "NOTNOT 1 = 1"];
    let ungrammatical = ["1 =< 1", "1 > = 1", "1 <>= 1", "1-2", "ab.1 = 1", "2v", "m.1 1", "1 = 1 = 1", "m.1.1 = 1"];
    accepted.iter().for_each(|text| assert_eq!(refused(text.as_bytes()), 0, "{text}"));
    no_tokens.iter().for_each(|text| assert_eq!(refused(text.as_bytes()), 4, "{text}"));
    ungrammatical.iter().for_each(|text| assert_eq!(refused(text.as_bytes()), 6, "{text}"));
    assert_eq!(refused(b"1 = 1 ANDOR 1 = 1"), 4);
    assert_eq!(refused(b"1 = 1 and 1 = 1"), 6);
    assert_eq!(refused(b"1 != 1"), 4);
    assert_eq!(refused(b"1-2=1"), 6);
    assert_eq!(judge(b"-0=0", &paper_tables(), 0), Ok(T));
    assert_eq!(refused(b"1 = \0"), 4);
    assert_eq!(refused("1 = 1 \u{2212}1".as_bytes()), 4);
    assert_eq!(refused(&[b' '; 4_096]), 6);
}

#[test]
fn where_truth_tests_may_stand() {
    let accepted = ["(1=1)IS TRUE", "(1 = 1)\nIS NOT\nUNKNOWN", "((1 = 1) IS TRUE) IS TRUE", "((1 = 1)) IS NOT FALSE"];
    let exists = "EXISTS (FROM 2 v WHERE 1 = 1) IS TRUE";
    let list = "m.1 IN (SELECT v.1 FROM 2 v WHERE 1 = 1) IS TRUE";
    let after_others = ["1 = 1 IS TRUE", "(1 = 1) IS TRUE IS TRUE", "m.1 IS TRUE", "1 IS NULL IS TRUE", "(m.1) IS TRUE", exists, list];
    let unfinished = ["(1 = 1) IS", "(1 = 1) IS NOT", "(1 = 1) NOT", "(1 = 1) TRUE", "(1 = 1) NOT TRUE", "(1 = 1 IS TRUE)"];
    let other_words = ["(1 = 1) IS NULL", "(1 = 1) IS NOT NULL", "(1 = 1) IS NOT NOT TRUE", "(1 = 1) IS 1", "(1 = 1) IS (1 = 1)"];
    let alone = ["TRUE", "FALSE", "UNKNOWN", "NOT TRUE", "(TRUE)", "(TRUE) IS TRUE", "m.1 = TRUE", "m.1 = UNKNOWN", "IS TRUE"];
    let no_tokens = ["(1 = 1) IS TRU", "(1 = 1) IS TRUEFALSE", "(1 = 1) ISTRUE", "(1 = 1) IS UNKNOWNS", "(1 = 1) IS NOTTRUE"];
    accepted.iter().for_each(|text| assert_eq!(refused(text.as_bytes()), 0, "{text}"));
    let ungrammatical = [&after_others[..], &unfinished, &other_words, &alone].concat();
    ungrammatical.iter().for_each(|text| assert_eq!(refused(text.as_bytes()), 6, "{text}"));
    no_tokens.iter().for_each(|text| assert_eq!(refused(text.as_bytes()), 4, "{text}"));
    assert_eq!(refused(b"(1 = 1) IS true"), 6);
}

#[test]
fn truth_tests_are_parts() {
    for (number, test) in TRUTH_TESTS.iter().enumerate() {
        let kind = 10 + number as u8;
        assert_eq!(part_kinds(&format!("(1 = 1) {test}")), [kind, 4], "{test}");
        assert_eq!(part_kinds(&format!("((1 = 1) {test} AND 1 IS NULL) {test}")), [kind, 1, kind, 4, 5], "{test}");
    }
    assert_eq!(part_kinds("NOT (1 = 1) IS FALSE"), [3, 12, 4]);
    assert_eq!(part_kinds("(NOT 1 = 1) IS FALSE"), [12, 3, 4]);
    assert_eq!(part_kinds("((1 = 1)) IS TRUE"), [10, 4]);
    assert_eq!(part_kinds("((1 = 1) IS TRUE)"), [10, 4]);
    assert_eq!(part_kinds("(1 = 1) AND (1 = 1) IS UNKNOWN"), [1, 4, 14, 4]);
    assert_eq!(part_kinds("(1 = 1 OR 1 = 1) IS NOT TRUE OR 1 = 1"), [2, 11, 2, 4, 4, 4]);
    assert_eq!(part_kinds("m.1 IN (SELECT v.1 FROM 2 v WHERE (v.1 = 1) IS NOT FALSE)"), [8, 13, 4]);
    // kind and end alone
    let comparison = |end: u8| Part { kind: 4, comparison: 1, end, left: constant(1), right: constant(1), ..Part::default() };
    let unused = |kind: u8, end: u8| Part { kind, end, ..Part::default() };
    let parts = vec![unused(1, 6), unused(15, 5), unused(2, 5), comparison(4), comparison(5), comparison(6)];
    assert_eq!(parts_of("(1 = 1 OR 1 = 1) IS NOT UNKNOWN AND 1 = 1", &paper_tables()), Ok(parts));
    // each is counted in the 64
    let tests = |count: usize| format!("{}({}1 = 1{})", "NOT ".repeat(32), "(".repeat(count), ") IS TRUE".repeat(count));
    assert_eq!((refused(tests(31).as_bytes()), refused(format!("NOT {}", tests(31)).as_bytes())), (0, 7));
}

#[test]
fn truth_tests_on_each_of_the_three_values() {
    let tables = paper_tables();
    // on true, unknown and false, which `m.2 > 0` is on rows 0, 1 and 2
    let values = [[T, F, F], [F, T, T], [F, F, T], [T, T, F], [F, T, F], [T, F, T]];
    let reverse = |truth: Truth| if truth == T { F } else { T };
    for (test, truths) in TRUTH_TESTS.iter().zip(values) {
        let same = [
            format!("(m.2 > 0) {test}"),
            format!("NOT NOT (m.2 > 0) {test}"),
            format!("((m.2 > 0) {test}) IS TRUE"),
            format!("((m.2 > 0) {test}) IS NOT FALSE"),
            format!("EXISTS (FROM 2 v WHERE (m.2 > 0) {test})"),
            format!("1 = SOME (SELECT 1 FROM 2 v WHERE (m.2 > 0) {test})"),
        ];
        let reversed = [
            format!("NOT (m.2 > 0) {test}"),
            format!("((m.2 > 0) {test}) IS FALSE"),
            format!("((m.2 > 0) {test}) IS NOT TRUE"),
            format!("0 = ALL (SELECT 1 FROM 2 v WHERE (m.2 > 0) {test})"),
        ];
        let never = format!("((m.2 > 0) {test}) IS UNKNOWN");
        let texts = same.iter().map(|text| (text, truths));
        let texts = texts.chain(reversed.iter().map(|text| (text, truths.map(reverse)))).chain([(&never, [F; 3])]);
        texts.for_each(|(text, truths)| assert_truths(text, &tables, &truths));
    }
}

#[test]
fn cards_of_truth_tests() {
    // kind 5 or 6, with `>` (5) or `<=` (4); and (1) and or (2) use no comparison
    let cards: [&[(u8, u8)]; 6] = [&[(5, 5)], &[(6, 4)], &[(5, 4)], &[(6, 5)], &[(1, 0), (6, 4), (6, 5)], &[(2, 0), (5, 5), (5, 4)]];
    for (number, test) in TRUTH_TESTS.iter().enumerate() {
        assert_eq!(entry_kinds(&format!("(m.2 > 0) {test}")), cards[number], "{test}");
        assert_eq!(entry_kinds(&format!("NOT (m.2 > 0) {test}")), cards[number ^ 1], "{test}");
        // true-interpreted around it, negated or not
        assert_eq!(entry_kinds(&format!("((m.2 > 0) {test}) IS NOT FALSE")), cards[number], "{test}");
        assert_eq!(entry_kinds(&format!("((m.2 > 0) {test}) IS FALSE")), cards[number ^ 1], "{test}");
        let inner = format!("EXISTS (FROM 2 v WHERE (v.1 > 0) {test})");
        assert_eq!(entry_kinds(&inner), [&[(3, 0)], cards[number]].concat(), "{test}");
        assert_eq!(entry_kinds(&format!("NOT {inner}")), [&[(4, 0)], cards[number ^ 1]].concat(), "{test}");
    }
    let blank_third = tables_file(&[(3, vec![vec![Blank; 3], vec![Number(1); 3], vec![Number(0); 3]])]);
    let bytes = card_of("(m.3 > 0) IS UNKNOWN", &blank_third).unwrap();
    let and = [3, 0, 0, 0, 0, 0, 0, 0, 0, 0, 0, 0, 0, 0];
    let at_most = [2, 0, 0, 4, 0, 3, 0, 0, 0, 255, 0, 0, 0, 0];
    let more = [3, 0, 0, 5, 0, 3, 0, 0, 0, 255, 0, 0, 0, 0];
    assert_eq!(bytes, card_with(&[(1, and), (6, at_most), (6, more)]));
    let mut rows = [9; 2];
    assert_eq!((list(&bytes, &blank_third, &mut rows), rows), (Ok(1), [0, 9]));
    // the negated false-interpretation of EXISTS is every row over its negated WHERE
    let exists = "(EXISTS (FROM 2 v WHERE v.1 > 0)) IS UNKNOWN";
    assert_eq!(entry_kinds(exists), [(1, 0), (4, 0), (6, 4), (3, 0), (5, 5)]);
    let list = "(m.1 = SOME (SELECT v.1 FROM 2 v WHERE v.1 > 0)) IS NOT UNKNOWN";
    let some = [(3, 0), (1, 0), (5, 5), (5, 1)];
    let every = [(4, 0), (2, 0), (6, 4), (5, 2)];
    assert_eq!(entry_kinds(list), [&[(2, 0)], &some[..], &every].concat());
}

#[test]
fn names() {
    let absent = ["m.-1 = 1", "m.0 = 1", "m.3 = 1", "m.17 = 1", "m.257 = 1", "v.1 IN (SELECT 1 FROM 2 v WHERE 1 = 1)"];
    absent.iter().for_each(|text| assert_eq!(refused(text.as_bytes()), 8, "{text}"));
    ["0", "4", "-1", "258", "2147483647"].iter().for_each(|table| {
        let text = format!("EXISTS (FROM {table} v WHERE 1 = 1)");
        assert_eq!(refused(text.as_bytes()), 8, "{text}");
    });
    // the FROM's letter hides m, and is gone after the list
    assert_eq!(refused(b"EXISTS (FROM 2 m WHERE m.2 = 1)"), 8);
    assert_eq!(refused(b"m.2 IN (SELECT m.1 FROM 2 m WHERE m.1 = 1)"), 0);
    assert_eq!(refused(b"m.1 IN (SELECT m.2 FROM 2 m WHERE m.1 = 1)"), 8);
    assert_eq!(refused(b"EXISTS (FROM 2 v WHERE 1 = 1) AND v.1 = 1"), 8);
}

#[test]
fn limits() {
    let from = |depth: usize| format!("{}1 = 1{}", "EXISTS (FROM 2 v WHERE ".repeat(depth), ")".repeat(depth));
    assert_eq!((refused(from(3).as_bytes()), refused(from(4).as_bytes())), (0, 7));
    let nots = |count: usize| format!("{}1 = 1", "NOT ".repeat(count));
    assert_eq!((refused(nots(63).as_bytes()), refused(nots(64).as_bytes())), (0, 7));
    assert_eq!(refused(nots(1_022).as_bytes()), 7);
    assert_eq!(refused("NOT\n".repeat(1_024).as_bytes()), 6);
    let brackets = |count: usize| format!("{}1 = 1{}", "(".repeat(count), ")".repeat(count));
    assert_eq!((refused(brackets(32).as_bytes()), refused(brackets(33).as_bytes())), (0, 5));
    let joined = |count: usize| vec!["1=1"; count].join("OR");
    assert_eq!((refused(joined(32).as_bytes()), refused(joined(33).as_bytes())), (0, 7));
    assert_eq!(refused(joined(819).as_bytes()), 7);
}

#[test]
fn parts_stand_before_their_inner_parts() {
    let tables = paper_tables();
    let kinds_and_ends = |text: &str| {
        let parts = parts_of(text, &tables).unwrap();
        parts.iter().map(|part| (part.kind, part.end)).collect::<Vec<_>>()
    };
    let three = "1 = 1 OR 2 = 2 OR 3 = 3";
    assert_eq!(kinds_and_ends(three), [(2, 5), (2, 4), (4, 3), (4, 4), (4, 5)]);
    let mixed = "1 = 1 OR NOT (2 IS NULL AND 3 IS NOT NULL)";
    assert_eq!(kinds_and_ends(mixed), [(2, 6), (4, 2), (3, 6), (1, 6), (5, 5), (6, 6)]);
    let nested = "m.2 NOT IN (SELECT m.1 FROM 2 m WHERE EXISTS (FROM 1 v WHERE v.2 >= m.1))";
    let all = Part { kind: 9, comparison: 2, table: 2, end: 3, left: column(0, 2), right: column(1, 1) };
    let exists = Part { kind: 7, table: 1, end: 3, ..Part::default() };
    let inner = Part { kind: 4, comparison: 6, end: 3, left: column(2, 2), right: column(1, 1), ..Part::default() };
    assert_eq!(parts_of(nested, &tables), Ok(vec![all, exists, inner]));
    let mut lent = [inner; 4];
    assert_eq!(read(b"NOT 5 = -5", &tables, &mut lent), Ok(2));
    let not = Part { kind: 3, end: 2, ..Part::default() };
    let test = Part { kind: 4, comparison: 1, end: 2, left: constant(5), right: constant(-5), ..Part::default() };
    assert_eq!(lent, [not, test, inner, inner]);
    assert_eq!(read(b"NOT 5 = -5", &tables, &mut lent[..1]), Err(12));
    assert_eq!(lent, [not, test, inner, inner]);
}

#[test]
fn negating_goes_all_the_way_in() {
    let text = "NOT m.1 = ALL (SELECT v.1 FROM 2 v WHERE NOT v.1 < 3 AND v.1 IS NULL)";
    let bytes = card_of(text, &paper_tables()).unwrap();
    let kinds = &bytes[6..12];
    assert_eq!((bytes[0], kinds), (6, &[3, 1, 1, 5, 7, 5][..]));
    let text = "m.1 = ALL (SELECT v.1 FROM 2 v WHERE NOT v.1 < 3 AND v.1 IS NULL)";
    let bytes = card_of(text, &paper_tables()).unwrap();
    assert_eq!(&bytes[6..12], &[4, 2, 2, 6, 8, 5]);
    // or's inner comparison is negated `NOT v.1 < 3`: `<`, where unknown counts as yes
    let record = &bytes[12 + 3 * 14..12 + 4 * 14];
    assert_eq!(record, [4, 0, 0, 3, 1, 1, 0, 0, 0, 255, 3, 0, 0, 0]);
}

/// A card for one table of 3 columns.
fn card_with(entries: &[(u8, [u8; 14])]) -> Vec<u8> {
    let mut bytes = vec![entries.len() as u8, 0, 1, 3];
    bytes.extend(entries.iter().map(|entry| entry.0));
    bytes.extend(entries.iter().flat_map(|entry| entry.1));
    bytes
}

#[test]
fn soundness_byte_by_byte() {
    // which other values each byte of the worked card may have
    let free = |at: usize, byte: u8| match at {
        3 => (2..=16).contains(&byte),
        4 => byte == 6,
        8 => (1..=6).contains(&byte),
        9 => byte == 255,
        10 => (1..=3).contains(&byte),
        15..=18 => true,
        _ => false,
    };
    for at in 0..WORKED.len() {
        for byte in 0..=255 {
            let mut bytes = WORKED;
            bytes[at] = byte;
            let sound = byte == WORKED[at] || free(at, byte);
            assert_eq!(check(&bytes).is_ok(), sound, "byte {at} as {byte}");
        }
        assert_eq!(check(&WORKED[..at]), Err(9));
    }
    assert_eq!(check(&[&WORKED[..], &[0]].concat()), Err(9));
    assert_eq!(check(&[]), Err(9));
}

#[test]
fn soundness_of_ends_and_levels() {
    let blank = |end: u8, level: u8| (7, [end, 0, 0, 0, level, 3, 0, 0, 0, 0, 0, 0, 0, 0]);
    let row = |end: u8| (4, [end, 0, 1, 0, 0, 0, 0, 0, 0, 0, 0, 0, 0, 0]);
    let and = |end: u8| (1, [end, 0, 0, 0, 0, 0, 0, 0, 0, 0, 0, 0, 0, 0]);
    assert_eq!(check(&card_with(&[row(4), row(4), row(4), blank(4, 3)])), Ok(()));
    assert_eq!(check(&card_with(&[row(4), row(4), row(4), blank(4, 4)])), Err(9));
    assert_eq!(check(&card_with(&[row(5), row(5), row(5), row(5), blank(5, 0)])), Err(9));
    assert_eq!(check(&card_with(&[and(4), row(3), blank(3, 1), blank(4, 0)])), Ok(()));
    assert_eq!(check(&card_with(&[and(4), row(3), blank(3, 1), blank(4, 1)])), Err(9));
    assert_eq!(check(&card_with(&[and(4), row(4), blank(3, 1), blank(4, 0)])), Err(9));
    assert_eq!(check(&card_with(&[and(2), blank(2, 0)])), Err(9));
    assert_eq!(check(&card_with(&[blank(1, 0), blank(2, 0)])), Err(9));
    assert_eq!(check(&card_with(&[and(3), blank(2, 0), blank(3, 0), blank(4, 0)])), Err(9));
    let mut deep = vec![];
    (0..95).for_each(|_| deep.push(and(191)));
    (0..96).for_each(|number| deep.push(blank(96 + number, 0)));
    (0..95).for_each(|number| deep[number].1[0] = 191 - number as u8);
    assert_eq!(check(&card_with(&deep)), Ok(()));
}

#[test]
fn a_card_that_no_rule_makes_runs_by_its_kinds() {
    // m.1 = m.1 where unknown counts as yes, outside any row entry
    let bytes = card_with(&[(6, [1, 0, 0, 1, 0, 1, 0, 0, 0, 0, 1, 0, 0, 0])]);
    let tables = tables_file(&[(3, vec![vec![Blank; 3], vec![Number(2); 3]])]);
    let mut rows = [9; 3];
    assert_eq!(list(&bytes, &tables, &mut rows), Ok(2));
    assert_eq!(rows, [0, 1, 9]);
    assert_eq!(list(&bytes, &tables, &mut rows[..1]), Err(12));
    assert_eq!(list(&bytes, &tables_file(&[(3, vec![])]), &mut []), Ok(0));
}

#[test]
fn sizes_of_tables() {
    let sized = |sizes: &[(u8, u16)], cells: usize| {
        let mut bytes = vec![sizes.len() as u8];
        sizes.iter().for_each(|(columns, rows)| bytes.extend([*columns, rows.to_le_bytes()[0], rows.to_le_bytes()[1]]));
        bytes.extend(vec![0; 5 * cells]);
        read(b"1 = 1", &bytes, &mut [Part::default()]).err()
    };
    assert_eq!(sized(&[(8, 1_000), (16, 12)], 8_192), None);
    assert_eq!(sized(&[(8, 1_000), (16, 12), (1, 1)], 8_193), Some(1));
    assert_eq!(sized(&[(1, 1_000)], 1_000), None);
    assert_eq!(sized(&[(1, 1_001)], 1_001), Some(1));
    assert_eq!(sized(&[(16, 0); 8], 0), None);
    assert_eq!(sized(&[(16, 0); 9], 0), Some(1));
    assert_eq!(sized(&[(17, 0)], 0), Some(1));
    assert_eq!(sized(&[(0, 0)], 0), Some(1));
    assert_eq!(sized(&[], 0), Some(1));
    assert_eq!(sized(&[(2, 2)], 3), Some(1));
    assert_eq!(sized(&[(2, 2)], 5), Some(1));
}

/// Numbers in a fixed order that looks random.
struct Dice(u64);

impl Dice {
    fn below(&mut self, bound: u64) -> u64 {
        self.0 ^= self.0 << 13;
        self.0 ^= self.0 >> 7;
        self.0 ^= self.0 << 17;
        (self.0 >> 11) % bound
    }

    fn pick<'a>(&mut self, choices: &[&'a str]) -> &'a str {
        choices[self.below(choices.len() as u64) as usize]
    }

    fn value(&mut self, letters: &[&str]) -> String {
        match self.below(4) {
            0 => self.pick(&["0", "1", "-1", "2"]).to_string(),
            _ => format!("{}.{}", self.pick(letters), self.pick(&["1", "2"])),
        }
    }

    /// A FROM with its WHERE; the letters in scope get one more.
    fn subquery(&mut self, size: u64, letters: &[&str], select: bool) -> String {
        let letter = self.pick(&["m", "v", "w"]);
        let inner = [letters, &[letter]].concat();
        let selected = if select { format!("SELECT {} ", self.value(&inner)) } else { String::new() };
        let table = self.pick(&["1", "2", "3"]);
        format!("({selected}FROM {table} {letter} WHERE {})", self.condition(size, &inner))
    }

    fn condition(&mut self, size: u64, letters: &[&str]) -> String {
        let left = self.value(letters);
        let comparison = self.pick(&["=", "<>", "<", "<=", ">", ">="]);
        match self.below(if size == 0 { 5 } else { 17 }) {
            0 => format!("{left} IS NULL"),
            1 => format!("{left} IS NOT NULL"),
            2 => format!("{left} {comparison} {}", self.value(letters)),
            3 => format!("{left} IS DECLINED"),
            4 => format!("{left} IS NOT DECLINED"),
            5 | 6 => format!("NOT {}", self.condition(size - 1, letters)),
            7 => format!("({}) AND {}", self.condition(size / 2, letters), self.condition(size / 2, letters)),
            8 => format!("({} OR {})", self.condition(size / 2, letters), self.condition(size / 2, letters)),
            9 => format!("EXISTS {}", self.subquery(size - 1, letters, false)),
            10 => format!("{left} {comparison} SOME {}", self.subquery(size - 1, letters, true)),
            11 => format!("{left} {comparison} ALL {}", self.subquery(size - 1, letters, true)),
            12 => format!("{left} IN {}", self.subquery(size - 1, letters, true)),
            13..=15 => format!("({}) {}", self.condition(size - 1, letters), self.pick(&TRUTH_TESTS)),
            _ => format!("{left} NOT IN {}", self.subquery(size - 1, letters, true)),
        }
    }

    /// A test with its number of parts and its sum, as its form gives them.
    fn summed(&mut self, size: u64) -> (String, usize, usize) {
        if size == 0 {
            return match self.below(4) {
                0 => ("m.2 IN (SELECT v.1 FROM 2 v WHERE v.1 = 1)".to_string(), 2, 4),
                1 => ("EXISTS (FROM 2 v WHERE v.1 > m.2)".to_string(), 2, 2),
                2 => ("m.2 IS NOT DECLINED".to_string(), 1, 1),
                _ => ("m.2 > 0".to_string(), 1, 1),
            };
        }
        let (inner, parts, sum) = self.summed(size - 1);
        match self.below(6) {
            0 => (format!("NOT {inner}"), parts + 1, sum),
            1 => (format!("({inner}) {}", self.pick(&TRUTH_TESTS[..4])), parts + 1, sum),
            2 | 3 => (format!("({inner}) {}", self.pick(&TRUTH_TESTS[4..])), parts + 1, 1 + 2 * sum),
            _ => {
                let smaller = self.below(size);
                let (other, more_parts, more) = self.summed(smaller);
                (format!("({inner} {} {other})", self.pick(&["AND", "OR"])), parts + more_parts + 1, sum + more + 1)
            }
        }
    }

    fn table(&mut self) -> Table {
        let rows = self.below(5);
        let cell = |dice: &mut Dice| match dice.below(6) {
            0 => Blank,
            1 => Declined,
            _ => Number(dice.below(4) as i32 - 1),
        };
        (2, (0..rows).map(|_| vec![cell(self), cell(self)]).collect())
    }
}

/// The sum n: the entries of each part by itself, doubled for each part of kind 14 or 15 around it.
fn sum_of(parts: &[Part]) -> usize {
    let own = |kind: u8| match kind {
        3 | 10..=13 => 0,
        8 | 9 => 3,
        1 | 2 | 4..=7 | 14..=17 => 1,
        _ => panic!("no part has kind {kind}"),
    };
    let doubles = |part: &Part| matches!(part.kind, 14 | 15);
    let doublings = |at: usize| parts[..at].iter().filter(|part| doubles(part) && usize::from(part.end) > at).count();
    (0..parts.len()).map(|at| own(parts[at].kind) << doublings(at)).sum()
}

#[test]
fn the_card_says_yes_exactly_where_the_rule_is_true() {
    let mut dice = Dice(0x9E37_79B9_7F4A_7C15);
    let mut accepted = 0;
    for _ in 0..40_000 {
        let tables = [dice.table(), dice.table(), dice.table()];
        let text = dice.condition(8, &["m"]);
        let file = tables_file(&tables);
        let parts = match parts_of(&text, &file) {
            Ok(parts) => parts,
            Err(number) => {
                assert!(matches!(number, 7 | 13), "{number}: {text}");
                continue;
            }
        };
        accepted += 1;
        let bytes = card_of(&text, &file).unwrap();
        let of_kind = |kinds: &[u8]| parts.iter().filter(|part| kinds.contains(&part.kind)).count();
        if of_kind(&[10, 11, 12, 13, 14, 15]) == 0 {
            assert_eq!(sum_of(&parts), parts.len() - of_kind(&[3]) + 2 * of_kind(&[8, 9]), "{text}");
        }
        assert_eq!(bytes.len(), 6 + 15 * sum_of(&parts), "{text}");
        assert_eq!(check(&bytes), Ok(()), "{text}");
        // later tables: the same columns, other rows
        let later = [dice.table(), dice.table(), dice.table()];
        let file = tables_file(&later);
        let rows = later[0].1.len();
        let is_true = |row: &usize| judge(text.as_bytes(), &file, *row) == Ok(T);
        let expected: Vec<u32> = (0..rows).filter(is_true).map(|row| row as u32).collect();
        let mut listed = vec![77; expected.len()];
        assert_eq!(list(&bytes, &file, &mut listed), Ok(expected.len()), "{text}");
        assert_eq!(listed, expected, "{text}");
        assert!((0..rows).all(|row| run(&bytes, &file, row) == Ok(expected.contains(&(row as u32)))), "{text}");
    }
    assert!(accepted > 30_000, "only {accepted} rules were accepted");
}

#[test]
fn the_sum_of_any_form_decides() {
    let mut dice = Dice(0xD1B5_4A32_D192_ED03);
    let tables = paper_tables();
    let (mut within, mut over) = (0, 0);
    for _ in 0..4_000 {
        let (text, parts, sum) = dice.summed(10);
        let expected = match (parts, sum) {
            (65.., _) => Err(7),
            (_, 193..) => Err(13),
            _ => Ok(6 + 15 * sum),
        };
        within += u32::from(expected.is_ok_and(|length| length > 1_500));
        over += u32::from(expected == Err(13));
        assert_eq!(card_of(&text, &tables).map(|bytes| bytes.len()), expected, "{text}");
        assert_eq!(parts_of(&text, &tables).map(|list| list.len()), expected.map(|_| parts), "{text}");
        assert_eq!(judge(text.as_bytes(), &tables, 3), Err(expected.err().unwrap_or(11)), "{text}");
    }
    assert!(within > 200 && over > 200, "{within} long cards, {over} sums over 192");
}

#[test]
fn any_bytes_give_an_answer() {
    let mut dice = Dice(0x2545_F491_4F6C_DD1D);
    let words = ["(", ")", "NOT ", "m", ".", "1", "=", "IN", " AND ", " OR ", "SELECT ", " FROM ", "EXISTS", " WHERE ", "v", "\t", " "];
    let words = [&words[..], &[" IS ", "TRUE", "FALSE ", "UNKNOWN", "(1 = 1) IS ", "DECLINED ", "m.1 IS ", "!"]].concat();
    for _ in 0..20_000 {
        let text: String = (0..dice.below(30)).map(|_| dice.pick(&words)).collect();
        refused(text.as_bytes());
        let mut bytes = card_of("m.1 NOT IN (SELECT v.1 FROM 2 v WHERE v.1 = 1 AND m.2 IS DECLINED)", &paper_tables()).unwrap();
        for _ in 0..1 + dice.below(3) {
            let at = dice.below(bytes.len() as u64) as usize;
            bytes[at] = dice.below(12) as u8;
        }
        let sound = check(&bytes);
        let ran = run(&bytes, &paper_tables(), 0);
        assert_eq!(sound.is_err(), ran == Err(9));
        let mut file = paper_tables();
        let at = dice.below(file.len() as u64) as usize;
        file[at] = dice.below(256) as u8;
        let _ = (run(&WORKED, &file, 0), judge(b"m.1 = 1", &file, 0), list(&bytes, &file, &mut [0; 2]));
    }
}

/// What IMPORT gives for these lines, with what holds of its buffer: as it was on a refusal and past the answer, just long enough with
/// the answer's length, too short with one byte less.
fn imported(lines: &[u8], columns: usize) -> Result<Vec<u8>, Refusal> {
    let most = 4 + 5 * lines.len().saturating_add(1).min(8_192);
    let mut buffer = vec![7; most + 3];
    let answer = import(lines, columns, &mut buffer);
    let length = answer.unwrap_or(0);
    assert!(buffer[length..].iter().all(|&byte| byte == 7), "{lines:?}");
    if answer.is_ok() {
        let mut exact = vec![7; length];
        assert_eq!(import(lines, columns, &mut exact), Ok(length), "{lines:?}");
        assert_eq!(exact, buffer[..length], "{lines:?}");
        let mut short = vec![7; length - 1];
        assert_eq!(import(lines, columns, &mut short), Err(12), "{lines:?}");
        assert!(short.iter().all(|&byte| byte == 7), "{lines:?}");
    } else {
        assert_eq!(import(lines, columns, &mut []), answer, "{lines:?}");
    }
    answer.map(|length| buffer[..length].to_vec())
}

/// What EXPORT gives for this file, with the same of its buffer.
fn exported(file: &[u8]) -> Result<Vec<u8>, Refusal> {
    let mut buffer = vec![7; 8_192 * 12 + 3];
    let answer = export(file, &mut buffer);
    let length = answer.unwrap_or(0);
    assert!(buffer[length..].iter().all(|&byte| byte == 7));
    if answer.is_ok() {
        let mut exact = vec![7; length];
        assert_eq!((export(file, &mut exact), &exact[..]), (Ok(length), &buffer[..length]));
        if length > 0 {
            let mut short = vec![7; length - 1];
            assert_eq!(export(file, &mut short), Err(12));
            assert!(short.iter().all(|&byte| byte == 7));
        }
    } else {
        assert_eq!(export(file, &mut []), answer);
    }
    answer.map(|length| buffer[..length].to_vec())
}

/// The file that IMPORT gives for a table: that single table, 0 under each blank or declined cell.
fn single(columns: usize, rows: &[&[Cell]]) -> Result<Vec<u8>, Refusal> {
    Ok(tables_file_with(&[(columns as u8, rows.iter().map(|row| row.to_vec()).collect())], 0))
}

/// IMPORT's answer by splitting the text, without a limit on the rows.
fn split_import(lines: &str, columns: usize) -> Result<Vec<u8>, Refusal> {
    let number = |field: &str| {
        let digits = field.strip_prefix('-').unwrap_or(field);
        let written = (1..=10).contains(&digits.len()) && digits.bytes().all(|byte| byte.is_ascii_digit());
        written.then(|| field.parse::<i64>().unwrap()).and_then(|number| i32::try_from(number).ok())
    };
    let mut rows = vec![];
    for line in lines.split_inclusive('\n') {
        let line = line.strip_suffix("\r\n").or(line.strip_suffix('\n')).unwrap_or(line);
        let cell = |field: &str| match field {
            "" => Ok(Blank),
            "!" => Ok(Declined),
            _ => number(field).map(Number).ok_or(14),
        };
        let row = line.split(',').map(cell).collect::<Result<Vec<_>, Refusal>>()?;
        if row.len() != columns {
            return Err(14);
        }
        rows.push(row);
    }
    Ok(tables_file_with(&[(columns as u8, rows)], 0))
}

#[test]
fn comma_lines_and_their_bytes() {
    let bytes = [1, 2, 2, 0, 1, 0, 0, 0, 0, 0, 0, 0, 0xFE, 0xFF, 0xFF, 0xFF, 0x2C, 1, 0, 0, 0, 1, 0, 0];
    assert_eq!(imported(b"1,\n-2,300\n", 2), Ok(bytes.to_vec()));
    // values of all cells first, then the marks, by row and column
    let bytes = [1, 3, 1, 0, 0, 0, 0, 0, 5, 0, 0, 0, 0, 0, 0, 0, 1, 0, 1];
    assert_eq!(imported(b",5,", 3), Ok(bytes.to_vec()));
    assert_eq!(imported(b"7", 1), Ok(vec![1, 1, 1, 0, 7, 0, 0, 0, 0]));
    assert_eq!(imported(b"\n", 1), Ok(vec![1, 1, 1, 0, 0, 0, 0, 0, 1]));
    // rows in two bytes, the lower first
    let many = imported("9\n".repeat(259).as_bytes(), 1).unwrap();
    assert_eq!((&many[..8], many.len()), (&[1, 1, 3, 1, 9, 0, 0, 0][..], 4 + 5 * 259));
}

#[test]
fn an_empty_file_has_no_rows() {
    for columns in 1..=16 {
        assert_eq!(imported(b"", columns), Ok(vec![1, columns as u8, 0, 0]));
        assert_eq!(exported(&[1, columns as u8, 0, 0]), Ok(vec![]));
    }
}

#[test]
fn lines_end_in_lf_or_crlf() {
    let two = single(2, &[&[Number(1), Number(2)], &[Number(3), Blank]]);
    let accepted = ["1,2\n3,\n", "1,2\n3,", "1,2\r\n3,\r\n", "1,2\r\n3,", "1,2\n3,\r\n", "1,2\r\n3,\n"];
    accepted.iter().for_each(|lines| assert_eq!(imported(lines.as_bytes(), 2), two, "{lines:?}"));
    // a CR by itself, twice, before or within a line, or at the end of the file
    let returns =
        ["1,2\r3,\n", "1,2\r\r\n", "\r1,2\n", "1\r,2\n", "1,\r2\n", "1,2\r", "1,2\n\r", "1,\r", "1,2\n\r3,4", "1,2\n\r\n", "\r", "\r\r"];
    returns.iter().for_each(|lines| assert_eq!(imported(lines.as_bytes(), 2), Err(14), "{lines:?}"));
    ["\r", "1\r", "\r\r\n", "1\n\r", "\n\r", "\r\n\r", "1\r1"].iter().for_each(|lines| {
        assert_eq!(imported(lines.as_bytes(), 1), Err(14), "{lines:?}");
    });
    // LF and then CR is an LF with a line after it
    assert_eq!(imported(b"1\n\r\n", 1), single(1, &[&[Number(1)], &[Blank]]));
}

#[test]
fn no_line_begins_after_the_last_line_end() {
    assert_eq!(imported(b"1\n", 1), single(1, &[&[Number(1)]]));
    assert_eq!(imported(b"1\r\n", 1), single(1, &[&[Number(1)]]));
    assert_eq!(imported(b"1\n\n", 1), single(1, &[&[Number(1)], &[Blank]]));
    // an empty line is one empty field
    ["\n", "\r\n"].iter().for_each(|lines| {
        assert_eq!(imported(lines.as_bytes(), 1), single(1, &[&[Blank]]), "{lines:?}");
        assert_eq!(imported(lines.repeat(2).as_bytes(), 1), single(1, &[&[Blank], &[Blank]]), "{lines:?}");
        (2..=16).for_each(|columns| assert_eq!(imported(lines.as_bytes(), columns), Err(14), "{lines:?}"));
    });
    assert_eq!(imported(b"\n1\n", 1), single(1, &[&[Blank], &[Number(1)]]));
    assert_eq!(imported(b"\r\n\n1", 1), single(1, &[&[Blank], &[Blank], &[Number(1)]]));
    assert_eq!(imported(b"1,2\n\n", 2), Err(14));
    assert_eq!(imported(b"1,2\n\r\n", 2), Err(14));
    assert_eq!(imported(b"\n1,2\n", 2), Err(14));
}

#[test]
fn an_empty_field_is_blank() {
    assert_eq!(imported(b",", 2), single(2, &[&[Blank, Blank]]));
    assert_eq!(imported(b",\n,", 2), single(2, &[&[Blank, Blank], &[Blank, Blank]]));
    assert_eq!(imported(b",1\r\n2,\r\n", 2), single(2, &[&[Blank, Number(1)], &[Number(2), Blank]]));
    assert_eq!(imported(",".repeat(15).as_bytes(), 16), single(16, &[&[Blank; 16]]));
    // a blank and a 0 differ in the mark alone
    let (blank, zero) = (imported(b",1\n", 2).unwrap(), imported(b"0,1\n", 2).unwrap());
    assert_eq!((&blank[..12], &blank[12..], &zero[12..]), (&zero[..12], &[1, 0][..], &[0, 0][..]));
}

#[test]
fn a_field_is_a_number_as_in_a_rule() {
    let numbers = [
        ("0", 0),
        ("-0", 0),
        ("00", 0),
        ("-0000000000", 0),
        ("0000000001", 1),
        ("-0000000001", -1),
        ("0000000100", 100),
        ("2147483647", 2_147_483_647),
        ("-2147483648", -2_147_483_648),
        ("-2147483647", -2_147_483_647),
        ("999999999", 999_999_999),
        ("1999999999", 1_999_999_999),
    ];
    for (text, number) in numbers {
        assert_eq!(imported(text.as_bytes(), 1), single(1, &[&[Number(number)]]), "{text}");
        assert_eq!(imported(format!(",{text},{text}\r\n").as_bytes(), 3), single(3, &[&[Blank, Number(number), Number(number)]]), "{text}");
        assert_eq!(judge(format!("{text} = {number}").as_bytes(), &paper_tables(), 0), Ok(T), "{text}");
    }
}

#[test]
fn bad_fields() {
    let range = ["2147483648", "-2147483649", "4294967296", "4294967297", "-4294967296", "9999999999", "-9999999999"];
    let digits = ["00000000000", "00000000001", "-00000000001", "02147483647", "10000000000", "99999999999", "18446744073709551617"];
    let signs = ["-", "--1", "1-", "1-1", "-,", "+1", "+", "\u{2212}1", "- 1"];
    let others =
        [" ", " 1", "1 ", "1\t", "\t", "1.0", "1e3", "0x1", "a", "NULL", "\"1\"", "\"\"", "\"", "1;1", "'1'", "1_0", "\0", "\u{FEFF}1"];
    for text in [&range[..], &digits, &signs, &others].concat() {
        for lines in [text.to_string(), format!("{text}\n"), format!("1\n{text}\r\n1\n"), format!("\n{text}")] {
            assert_eq!(imported(lines.as_bytes(), 1), Err(14), "{lines:?}");
        }
        for lines in [format!("{text},1"), format!("1,{text}"), format!("1,1\n1,{text}\n")] {
            assert_eq!(imported(lines.as_bytes(), 2), Err(14), "{lines:?}");
        }
    }
    assert_eq!(imported("1".repeat(100_000).as_bytes(), 1), Err(14));
    assert_eq!(imported("0".repeat(100_000).as_bytes(), 1), Err(14));
}

#[test]
fn each_byte_as_a_field_and_between_fields() {
    for byte in 0..=255_u8 {
        let alone = match byte {
            b'0'..=b'9' => single(1, &[&[Number(i32::from(byte - b'0'))]]),
            b'\n' => single(1, &[&[Blank]]),
            b'!' => single(1, &[&[Declined]]),
            _ => Err(14),
        };
        assert_eq!(imported(&[byte], 1), alone, "{byte}");
        let between = match byte {
            b'0'..=b'9' => single(1, &[&[Number(104 + 10 * i32::from(byte - b'0'))]]),
            b'\n' => single(1, &[&[Number(1)], &[Number(4)]]),
            _ => Err(14),
        };
        assert_eq!(imported(&[b'1', byte, b'4'], 1), between, "{byte}");
        let two = if byte == b',' { single(2, &[&[Number(1), Number(4)]]) } else { Err(14) };
        assert_eq!(imported(&[b'1', byte, b'4'], 2), two, "{byte}");
    }
}

#[test]
fn every_line_has_a_field_for_each_column() {
    for columns in 1..=16 {
        let line = |fields: usize| vec!["1"; fields].join(",");
        let row = vec![Number(1); columns];
        assert_eq!(imported(line(columns).as_bytes(), columns), single(columns, &[&row]));
        for wrong in (1..=20).filter(|&fields| fields != columns) {
            for end in ["", "\n", "\r\n"] {
                assert_eq!(imported(format!("{}{end}", line(wrong)).as_bytes(), columns), Err(14));
                assert_eq!(imported(format!("{}\n{}{end}", line(columns), line(wrong)).as_bytes(), columns), Err(14));
                assert_eq!(imported(format!("{}{end}\n{}", line(wrong), line(columns)).as_bytes(), columns), Err(14));
            }
        }
        // a comma after the last field begins one more
        assert_eq!(imported(format!("{},", line(columns)).as_bytes(), columns), Err(14));
        assert_eq!(imported(",".repeat(columns).as_bytes(), columns), Err(14));
    }
    // two lines that have the right number of fields together
    assert_eq!(imported(b"1\n2,3,4\n", 2), Err(14));
    assert_eq!(imported(b"1,2,3\n4\n", 2), Err(14));
}

#[test]
fn columns_are_1_to_16() {
    let line = |columns: usize| vec!["5"; columns].join(",");
    assert!((1..=16).all(|columns| imported(line(columns).as_bytes(), columns).is_ok()));
    let high = [17, 18, 255, 256, 257, 258, 272, 65_537, 1 << 31, (1 << 31) + 1, usize::MAX / 2, usize::MAX - 1, usize::MAX];
    for columns in high {
        ["", "\n", "5", "5,5", &line(16), &line(17), &"5\n".repeat(1_001)].iter().for_each(|lines| {
            assert_eq!(imported(lines.as_bytes(), columns), Err(14), "{columns}");
        });
    }
    ["", "\n", "5", ",", "?"].iter().for_each(|lines| assert_eq!(imported(lines.as_bytes(), 0), Err(14), "{lines:?}"));
}

#[test]
fn rows_and_cells_at_their_limits() {
    let file = |columns: usize, rows: usize, end: &str| (vec!["-2147483648"; columns].join(",") + end).repeat(rows);
    let most_rows = |columns: usize| (8_192 / columns).min(1_000);
    for columns in 1..=16 {
        let most = most_rows(columns);
        for end in ["\n", "\r\n"] {
            let row = vec![Number(i32::MIN); columns];
            let answer = imported(file(columns, most, end).as_bytes(), columns);
            assert_eq!(answer, single(columns, &vec![&row[..]; most]), "{columns}");
            assert_eq!(answer, imported(file(columns, most, end).trim_end().as_bytes(), columns), "{columns}");
            [most + 1, 2 * most, 9_000].iter().for_each(|&rows| {
                assert_eq!(imported(file(columns, rows, end).as_bytes(), columns), Err(15), "{columns}");
                assert_eq!(imported(file(columns, rows, end).trim_end().as_bytes(), columns), Err(15), "{columns}");
            });
        }
    }
    assert_eq!([1, 8, 9, 15, 16].map(most_rows), [1_000, 1_000, 910, 546, 512]);
    // empty lines are rows
    assert_eq!(imported("\n".repeat(1_000).as_bytes(), 1).map(|bytes| bytes.len()), Ok(5_004));
    assert_eq!(imported("\n".repeat(1_001).as_bytes(), 1), Err(15));
    // counts in 16 bits would be small again here
    [65_536, 65_537, 131_072, 1_000_000].iter().for_each(|&rows| {
        assert_eq!(imported("\n".repeat(rows).as_bytes(), 1), Err(15), "{rows}");
        assert_eq!(imported(format!("{}\n", ",".repeat(15)).repeat(rows / 16).as_bytes(), 16), Err(15), "{rows}");
    });
}

#[test]
fn fields_then_rows_then_the_buffer() {
    let long = "1,2\n".repeat(5_000);
    // a bad field or count behind too many rows and cells
    ["?", "1", "1,2,3", "1,2\r\r", "1,2147483648\n", "\n", "1,00000000001", "-,1"].iter().for_each(|bad| {
        assert_eq!(import(format!("{long}{bad}").as_bytes(), 2, &mut []), Err(14), "{bad:?}");
        assert_eq!(import(format!("{bad}\n{long}").as_bytes(), 2, &mut []), Err(14), "{bad:?}");
    });
    assert_eq!(import(long.as_bytes(), 17, &mut []), Err(14));
    assert_eq!(import(long.as_bytes(), 0, &mut []), Err(14));
    assert_eq!(import(long.as_bytes(), 2, &mut []), Err(15));
    assert_eq!(import(long.as_bytes(), 2, &mut vec![7; 100_000]), Err(15));
    // then 12, by the length of the whole answer
    assert_eq!(import(b"1,2\n", 2, &mut []), Err(12));
    assert_eq!(import(b"1,2\n", 2, &mut [0; 13]), Err(12));
    assert_eq!(import(b"1,2\n", 2, &mut [0; 14]), Ok(14));
    assert_eq!((import(b"", 16, &mut [0; 3]), import(b"", 16, &mut [0; 4])), (Err(12), Ok(4)));
    let full = (",".repeat(15) + "\n").repeat(512);
    assert_eq!(import(full.as_bytes(), 16, &mut vec![0; 40_963]), Err(12));
    assert_eq!(import(full.as_bytes(), 16, &mut vec![0; 40_964]), Ok(40_964));
}

#[test]
fn the_lent_buffers_of_comma_files() {
    let mut buffer = [9; 16];
    [(&b"1,2\n1"[..], 2, 14), (b"1,2\n1,", 2, 12), (b"1\n2\n3", 1, 12), (b"", 17, 14)].iter().for_each(|&(lines, columns, number)| {
        assert_eq!((import(lines, columns, &mut buffer), buffer), (Err(number), [9; 16]));
    });
    assert_eq!((import("\n".repeat(1_001).as_bytes(), 1, &mut buffer), buffer), (Err(15), [9; 16]));
    assert_eq!(import(b"1,", 2, &mut buffer), Ok(14));
    assert_eq!(buffer, [1, 2, 1, 0, 1, 0, 0, 0, 0, 0, 0, 0, 0, 1, 9, 9]);
    let mut lines = [9; 10];
    assert_eq!((export(&[0], &mut lines), lines), (Err(1), [9; 10]));
    assert_eq!((export(&[1, 1, 1, 0, 0, 0, 0, 0, 3], &mut lines), lines), (Err(2), [9; 10]));
    assert_eq!((export(&paper_tables(), &mut lines), lines), (Err(12), [9; 10]));
    assert_eq!((export(&buffer[..14], &mut lines), &lines), (Ok(3), b"1,\n\x09\x09\x09\x09\x09\x09\x09"));
}

#[test]
fn table_1_as_comma_lines() {
    assert_eq!(exported(&paper_tables()), Ok(b"1,5\n2,\n3,0\n".to_vec()));
    let ends = vec![
        vec![Number(i32::MIN), Number(i32::MAX), Number(0)],
        vec![Number(-1), Blank, Number(10)],
        vec![Blank, Number(-1_000), Number(100)],
    ];
    assert_eq!(exported(&tables_file(&[(3, ends)])), Ok(b"-2147483648,2147483647,0\n-1,,10\n,-1000,100\n".to_vec()));
    assert_eq!(exported(&tables_file(&[(1, vec![vec![Blank], vec![Number(7)], vec![Blank]])])), Ok(b"\n7\n\n".to_vec()));
    assert_eq!(exported(&tables_file(&[(4, vec![vec![Blank; 4]])])), Ok(b",,,\n".to_vec()));
    // what lies under a blank or declined cell is not seen
    let hidden = [(2, vec![vec![Blank, Declined]])];
    [0, 1, -1, i32::MIN, i32::MAX].iter().for_each(|&under| {
        assert_eq!(exported(&tables_file_with(&hidden, under)), Ok(b",!\n".to_vec()), "{under}");
    });
    // the cells of table 1 among those of others
    let tables = [(2, vec![vec![Number(1), Blank]]), (1, vec![vec![Number(8)], vec![Blank]]), (3, vec![vec![Blank, Number(9), Number(9)]])];
    assert_eq!(exported(&tables_file(&tables)), Ok(b"1,\n".to_vec()));
    let empty_first = [(2, vec![]), (1, vec![vec![Number(8)]])];
    assert_eq!(exported(&tables_file(&empty_first)), Ok(vec![]));
    // the longest there is
    let longest = tables_file(&[(16, vec![vec![Number(i32::MIN); 16]; 512])]);
    assert_eq!(exported(&longest).map(|lines| lines.len()), Ok(8_192 * 12));
}

#[test]
fn numbers_without_spare_zeros() {
    let powers = (0..31).map(|power| 1 << power).chain((0..10).map(|power| 10_i32.pow(power)));
    let near = powers.flat_map(|number| [number - 1, number, number + 1]);
    let numbers: Vec<i32> = near.flat_map(|number| [number, -number]).chain([i32::MIN, i32::MIN + 1, i32::MAX - 1, i32::MAX]).collect();
    let rows = numbers.iter().map(|&number| vec![Number(number)]).collect();
    let lines: String = numbers.iter().map(|number| format!("{number}\n")).collect();
    let file = tables_file(&[(1, rows)]);
    assert_eq!(exported(&file), Ok(lines.clone().into_bytes()));
    assert_eq!(imported(lines.as_bytes(), 1), Ok(file));
    // zeros and minuses that lines may have, and that none gets
    let spare = imported(b"-0,007\r\n0000000000,-0070", 2).unwrap();
    assert_eq!(exported(&spare), Ok(b"0,7\n0,-70\n".to_vec()));
}

#[test]
fn refusals_of_writing_lines() {
    let file = paper_tables();
    assert_eq!(exported(&[]), Err(1));
    assert_eq!(exported(&[0]), Err(1));
    assert_eq!(exported(&[1, 17, 0, 0]), Err(1));
    assert_eq!(exported(&[1, 1, 1, 0, 0, 0, 0, 0, 3]), Err(2));
    (0..file.len()).for_each(|length| assert_eq!(exported(&file[..length]), Err(1), "{length}"));
    // the last mark is that of table 2, and a byte too many comes before it
    let mut spoilt = file.clone();
    *spoilt.last_mut().unwrap() = 3;
    assert_eq!(exported(&spoilt), Err(2));
    spoilt.push(0);
    assert_eq!(exported(&spoilt), Err(1));
    assert_eq!((export(&file, &mut [0; 10]), export(&file, &mut [0; 11])), (Err(12), Ok(11)));
    assert_eq!(export(&[1, 1, 0, 0], &mut []), Ok(0));
    assert_eq!(export(&[1, 1, 1, 0, 0, 0, 0, 0, 1], &mut []), Err(12));
}

#[test]
fn every_short_text_as_comma_lines() {
    let letters = *b"10-,\n\r !";
    for length in 0..=6 {
        for number in 0..letters.len().pow(length) {
            let text: Vec<u8> = (0..length).map(|place| letters[number / letters.len().pow(place) % letters.len()]).collect();
            let text = String::from_utf8(text).unwrap();
            (1..=3).for_each(|columns| assert_eq!(imported(text.as_bytes(), columns), split_import(&text, columns), "{text:?}, {columns}"));
        }
    }
}

#[test]
fn any_comma_lines_give_an_answer() {
    let mut dice = Dice(0x94D0_49BB_1331_11EB);
    let fields = ["", "!", "0", "-0", "1", "-1", "0012", "2147483647", "-2147483648", "999999999"];
    let bad = ["2147483648", "-2147483649", "00000000001", "-", "1 ", "\r", "\"1\"", "1,2", "!!", "!1", "1!", "! "];
    let (mut accepted, mut refused) = (0, 0);
    for _ in 0..20_000 {
        let columns = 1 + dice.below(4) as usize;
        let spoilt = dice.below(2) == 0;
        let mut text = String::new();
        let rows = dice.below(6);
        for row in 0..rows {
            let mut line: Vec<&str> = (0..columns).map(|_| dice.pick(&fields)).collect();
            if spoilt && dice.below(4) == 0 {
                let at = dice.below(columns as u64) as usize;
                line[at] = dice.pick(&bad);
            }
            let last = row + 1 == rows && dice.below(2) == 0;
            text += &line.join(",");
            text += if last { "" } else { dice.pick(&["\n", "\r\n"]) };
        }
        let answer = imported(text.as_bytes(), columns);
        assert_eq!(answer, split_import(&text, columns), "{text:?}");
        *(if answer.is_ok() { &mut accepted } else { &mut refused }) += 1;
        assert_eq!(imported(text.as_bytes(), 17 + dice.below(1 << 50) as usize), Err(14));
        let mut bytes = text.into_bytes();
        (0..bytes.len().min(3)).for_each(|at| bytes[at] = dice.below(256) as u8);
        let _ = imported(&bytes, columns);
    }
    assert!(accepted > 8_000 && refused > 2_000, "{accepted} accepted, {refused} refused");
}

#[test]
fn writing_and_importing_again() {
    let mut dice = Dice(0xBF58_476D_1CE4_E5B9);
    let cell = |dice: &mut Dice| match dice.below(5) {
        0 => Blank,
        1 => Declined,
        2 => Number(dice.below(20) as i32 - 10),
        3 => Number(dice.below(1 << 32) as u32 as i32),
        _ => Number((dice.below(1 << 32) as u32 as i32) >> dice.below(32)),
    };
    for turn in 0..600 {
        let columns = 1 + dice.below(16) as usize;
        let most = (8_192 / columns).min(1_000);
        let rows = if turn % 40 == 0 { most } else { dice.below(30) as usize };
        let first: Vec<Vec<_>> = (0..rows).map(|_| (0..columns).map(|_| cell(&mut dice)).collect()).collect();
        let mut tables = vec![(columns as u8, first)];
        if rows < most {
            (0..dice.below(3)).for_each(|_| tables.push(dice.table()));
        }
        let file = tables_file_with(&tables, dice.below(1 << 32) as u32 as i32);
        let lines = exported(&file).unwrap();
        let field = |cell: &Cell| match cell {
            Blank => String::new(),
            Declined => "!".to_string(),
            Number(number) => number.to_string(),
        };
        let written = |row: &Vec<Cell>| row.iter().map(field).collect::<Vec<_>>().join(",") + "\n";
        let expected: String = tables[0].1.iter().map(written).collect();
        assert_eq!(lines, expected.as_bytes());
        // the same cells and marks, with 0 under each blank or declined cell; then nothing changes any more
        let again = imported(&lines, columns);
        assert_eq!(again, Ok(tables_file_with(&tables[..1], 0)));
        let again = again.unwrap();
        assert_eq!(exported(&again), Ok(lines.clone()));
        // CRLF instead, and no end of the last line unless it is empty
        let others = expected.replace('\n', "\r\n");
        assert_eq!(imported(others.as_bytes(), columns), Ok(again.clone()));
        let open = if expected.ends_with("\n\n") || expected == "\n" { &expected[..] } else { expected.trim_end_matches('\n') };
        assert_eq!(imported(open.as_bytes(), columns), Ok(again));
    }
}

#[test]
fn rules_on_an_imported_table() {
    // the tables of the proved cases, table 1 alone
    let file = imported(b"1,5\r\n2,\r\n3,0", 2).unwrap();
    let truths = [("m.2 > 0", [T, U, F]), ("NOT m.2 > 0", [F, U, T]), ("m.2 IS NULL", [F, T, F]), ("(m.2 = 0) IS UNKNOWN", [F, T, F])];
    for (text, truths) in truths {
        (0..3).for_each(|row| assert_eq!(judge(text.as_bytes(), &file, row), Ok(truths[row]), "{text}, row {row}"));
        assert_eq!(judge(text.as_bytes(), &file, 3), Err(11));
    }
}

/// Table 1, two columns: (1, 5), (2, blank), (3, declined). Table 2, one column: 1, declined. Table 3, one column, no rows.
fn declined_tables() -> Vec<u8> {
    declined_tables_with(1)
}

/// The same with this value under the blank and the declined cells.
fn declined_tables_with(under: i32) -> Vec<u8> {
    let first = vec![vec![Number(1), Number(5)], vec![Number(2), Blank], vec![Number(3), Declined]];
    let second = vec![vec![Number(1)], vec![Declined]];
    tables_file_with(&[(2, first), (1, second), (1, vec![])], under)
}

/// The refusals of the six calls that read tables, none where a call answers, for a file with one cell.
fn refusals_of_one_cell(file: &[u8]) -> [Option<Refusal>; 6] {
    let bytes = card_of("1 = 1", &[1, 1, 1, 0, 0, 0, 0, 0, 0]).unwrap();
    [
        parts_of("1 = 1", file).err(),
        judge(b"1 = 1", file, 0).err(),
        card_of("1 = 1", file).err(),
        run(&bytes, file, 0).err(),
        list(&bytes, file, &mut [0]).err(),
        exported(file).err(),
    ]
}

#[test]
fn refusal_2_means_a_mark_above_2() {
    for mark in 0..=255 {
        let expected = (mark > 2).then_some(2);
        assert_eq!(refusals_of_one_cell(&[1, 1, 1, 0, 0, 0, 0, 0, mark]), [expected; 6], "{mark}");
        // the value bytes are no marks
        assert_eq!(refusals_of_one_cell(&[1, 1, 1, 0, mark, mark, mark, mark, 2]), [None; 6], "{mark}");
        assert_eq!(refusals_of_one_cell(&[1, 1, 1, 0, 0, 0, 0, 0, mark, 0]), [Some(1); 6], "{mark}");
    }
    // the marks of all tables, which are the last 8 bytes
    let file = declined_tables();
    for at in file.len() - 8..file.len() {
        for (mark, expected) in [(0, Ok(1)), (1, Ok(1)), (2, Ok(1)), (3, Err(2)), (255, Err(2))] {
            let mut marked = file.clone();
            marked[at] = mark;
            assert_eq!(parts_of("1 = 1", &marked).map(|parts| parts.len()), expected, "byte {at} as {mark}");
            assert_eq!(exported(&marked).map(|_| 1), expected, "byte {at} as {mark}");
        }
    }
    // after 1 and before all others
    let spoilt = [1, 1, 1, 0, 0, 0, 0, 0, 3];
    assert_eq!(read(&[b'?'; 5_000], &spoilt, &mut []), Err(2));
    assert_eq!((run(&[], &spoilt, 9), list(&[], &spoilt, &mut []), export(&spoilt, &mut [])), (Err(2), Err(2), Err(2)));
}

#[test]
fn declined_tests_go_by_the_mark() {
    let tables = declined_tables();
    let cases = [
        ("m.2 IS DECLINED", [F, F, T]),
        ("m.2 IS NOT DECLINED", [T, T, F]),
        ("NOT m.2 IS DECLINED", [T, T, F]),
        ("NOT m.2 IS NOT DECLINED", [F, F, T]),
        ("NOT NOT m.2 IS DECLINED", [F, F, T]),
        ("NOT NOT NOT m.2 IS NOT DECLINED", [F, F, T]),
        ("m.1 IS DECLINED", [F, F, F]),
        ("m.1 IS NOT DECLINED", [T, T, T]),
        // blank alone, and declined or a number
        ("m.2 IS NULL AND NOT m.2 IS DECLINED", [F, T, F]),
        ("m.2 IS NULL AND m.2 IS NOT DECLINED", [F, T, F]),
        ("m.2 IS DECLINED OR m.2 IS NOT NULL", [T, F, T]),
        ("NOT (m.2 IS DECLINED OR m.2 IS NOT NULL)", [F, T, F]),
        // beside an unknown
        ("m.2 > 0 OR m.2 IS DECLINED", [T, U, T]),
        ("m.2 > 0 AND m.2 IS DECLINED", [F, F, U]),
        ("NOT (m.2 > 0 AND m.2 IS DECLINED)", [T, T, U]),
        ("m.2 = 0 OR m.2 IS NOT DECLINED", [T, T, U]),
    ];
    cases.iter().for_each(|(text, truths)| assert_truths(text, &tables, truths));
}

#[test]
fn a_number_is_never_declined() {
    let tables = declined_tables();
    for number in ["0", "-0", "1", "2", "-1", "2147483647", "-2147483648"] {
        assert_truths(&format!("{number} IS DECLINED"), &tables, &[F; 3]);
        assert_truths(&format!("{number} IS NOT DECLINED"), &tables, &[T; 3]);
        assert_truths(&format!("NOT {number} IS DECLINED"), &tables, &[T; 3]);
        assert_truths(&format!("NOT {number} IS NOT DECLINED"), &tables, &[F; 3]);
    }
    // nor is a present cell, whatever its number
    let present = tables_file(&[(1, [0, 1, 2, -1, i32::MIN, i32::MAX].map(|number| vec![Number(number)]).to_vec())]);
    assert_truths("m.1 IS DECLINED", &present, &[F; 6]);
    assert_truths("m.1 IS NOT DECLINED", &present, &[T; 6]);
}

#[test]
fn a_declined_cell_is_blank_for_is_null() {
    let tables = declined_tables();
    let cases = [
        ("m.2 IS NULL", [F, T, T]),
        ("m.2 IS NOT NULL", [T, F, F]),
        ("NOT m.2 IS NULL", [T, F, F]),
        ("NOT m.2 IS NOT NULL", [F, T, T]),
        ("(m.2 IS NULL) IS UNKNOWN", [F, F, F]),
        ("m.2 IS NULL AND m.2 IS DECLINED", [F, F, T]),
        ("m.2 IS NOT NULL AND m.2 IS DECLINED", [F, F, F]),
        ("EXISTS (FROM 2 v WHERE v.1 IS NULL)", [T, T, T]),
    ];
    cases.iter().for_each(|(text, truths)| assert_truths(text, &tables, truths));
}

#[test]
fn a_comparison_with_a_declined_cell_is_unknown() {
    // 5 compared with 5
    let comparisons = [("=", T, F), ("<>", F, T), ("<", F, T), ("<=", T, F), (">", F, T), (">=", T, F)];
    // the number compares with itself; all other pairs have a blank or a declined cell, with the same number under it
    let cells = [Number(5), Blank, Declined];
    let pairs = cells.iter().flat_map(|&left| cells.map(|right| vec![left, right])).collect();
    let pairs = tables_file_with(&[(2, pairs)], 5);
    for (comparison, equal, reverse) in comparisons {
        for text in [format!("m.2 {comparison} 5"), format!("5 {comparison} m.2"), format!("m.2 {comparison} m.2")] {
            assert_truths(&text, &declined_tables_with(5), &[equal, U, U]);
            assert_truths(&format!("NOT {text}"), &declined_tables_with(5), &[reverse, U, U]);
            assert_truths(&format!("({text}) IS UNKNOWN"), &declined_tables_with(5), &[F, T, T]);
            assert_truths(&format!("({text}) IS NOT UNKNOWN"), &declined_tables_with(5), &[T, F, F]);
        }
        let text = format!("m.1 {comparison} m.2");
        assert_truths(&text, &pairs, &[equal, U, U, U, U, U, U, U, U]);
        assert_truths(&format!("NOT {text}"), &pairs, &[reverse, U, U, U, U, U, U, U, U]);
    }
    // what counts as yes in a card made by hand
    let yes = card_with(&[(6, [1, 0, 0, 2, 0, 1, 0, 0, 0, 255, 5, 0, 0, 0])]);
    let no = card_with(&[(5, [1, 0, 0, 1, 0, 1, 0, 0, 0, 255, 5, 0, 0, 0])]);
    let rows = tables_file_with(&[(3, vec![vec![Number(5); 3], vec![Blank; 3], vec![Declined; 3]])], 5);
    assert_eq!([0, 1, 2].map(|row| run(&yes, &rows, row)), [Ok(false), Ok(true), Ok(true)]);
    assert_eq!([0, 1, 2].map(|row| run(&no, &rows, row)), [Ok(true), Ok(false), Ok(false)]);
}

#[test]
fn declined_cells_in_subqueries() {
    let all2 = "(SELECT v.1 FROM 2 v WHERE 1 = 1)";
    let all3 = "(SELECT v.1 FROM 3 v WHERE 1 = 1)";
    let declined2 = "(SELECT v.1 FROM 2 v WHERE v.1 IS DECLINED)";
    let cases = [
        (format!("m.1 IN {all2}"), [T, U, U]),
        (format!("m.1 NOT IN {all2}"), [F, U, U]),
        (format!("m.1 = ALL {all2}"), [U, F, F]),
        (format!("m.2 = SOME {all2}"), [U, U, U]),
        (format!("m.2 = ALL {all2}"), [F, U, U]),
        (format!("m.2 = SOME {all3}"), [F, F, F]),
        (format!("m.2 = ALL {all3}"), [T, T, T]),
        (format!("m.1 IN {declined2}"), [U, U, U]),
        (format!("m.1 <> ALL {declined2}"), [U, U, U]),
        ("m.1 IN (SELECT v.1 FROM 2 v WHERE v.1 IS NOT DECLINED)".to_string(), [T, F, F]),
        ("m.1 <> ALL (SELECT v.1 FROM 2 v WHERE NOT v.1 IS DECLINED)".to_string(), [F, T, T]),
        // no row is retained where the WHERE is unknown
        ("m.1 <> ALL (SELECT v.1 FROM 2 v WHERE v.1 = 1)".to_string(), [F, T, T]),
        ("EXISTS (FROM 2 v WHERE v.1 > 1)".to_string(), [F, F, F]),
        ("EXISTS (FROM 2 v WHERE NOT v.1 = 1)".to_string(), [F, F, F]),
        ("EXISTS (FROM 2 v WHERE v.1 IS DECLINED)".to_string(), [T, T, T]),
        ("NOT EXISTS (FROM 2 v WHERE v.1 IS DECLINED)".to_string(), [F, F, F]),
        ("EXISTS (FROM 3 v WHERE v.1 IS NOT DECLINED)".to_string(), [F, F, F]),
        ("NOT EXISTS (FROM 3 v WHERE v.1 IS DECLINED)".to_string(), [T, T, T]),
        ("EXISTS (FROM 2 v WHERE v.1 IS NULL AND m.2 IS DECLINED)".to_string(), [F, F, T]),
        // a letter means its nearest binding
        ("EXISTS (FROM 2 m WHERE m.1 IS DECLINED)".to_string(), [T, T, T]),
        ("m.2 IS DECLINED AND EXISTS (FROM 2 m WHERE m.1 IS NOT DECLINED)".to_string(), [F, F, T]),
        // the judged row decides what is retained, and is selected
        ("1 = SOME (SELECT m.2 FROM 2 v WHERE m.2 IS DECLINED)".to_string(), [F, F, U]),
        ("1 = ALL (SELECT m.2 FROM 2 v WHERE m.2 IS DECLINED)".to_string(), [T, T, U]),
    ];
    cases.iter().for_each(|(text, truths)| assert_truths(text, &declined_tables(), truths));
}

#[test]
fn truth_tests_on_declined_tests() {
    let tables = declined_tables();
    // on false, false and true, which `m.2 IS DECLINED` is on rows 0, 1 and 2
    let values = [[F, F, T], [T, T, F], [T, T, F], [F, F, T], [F, F, F], [T, T, T]];
    let reversed = [[T, T, F], [F, F, T], [F, F, T], [T, T, F], [F, F, F], [T, T, T]];
    for (number, test) in TRUTH_TESTS.iter().enumerate() {
        assert_truths(&format!("(m.2 IS DECLINED) {test}"), &tables, &values[number]);
        assert_truths(&format!("(m.2 IS NOT DECLINED) {test}"), &tables, &reversed[number]);
        assert_truths(&format!("(NOT m.2 IS DECLINED) {test}"), &tables, &reversed[number]);
    }
    // who left the field empty and did not decline goes to the help screen
    assert_truths("(m.2 > 0) IS UNKNOWN AND m.2 IS NOT DECLINED", &tables, &[F, T, F]);
    assert_truths("(m.2 > 0 OR m.2 IS DECLINED) IS UNKNOWN", &tables, &[F, T, F]);
}

#[test]
fn what_lies_under_a_declined_cell_is_not_seen() {
    let all2 = "(SELECT v.1 FROM 2 v WHERE v.1 = 1 OR v.1 IS DECLINED)";
    let tests = ["m.2 = 1", "m.2 IS NULL", "m.2 IS DECLINED", "m.2 IS NOT DECLINED", "(m.2 > 0) IS UNKNOWN"];
    let lists = [format!("m.1 IN {all2}"), format!("m.2 <> ALL {all2}"), format!("NOT m.1 >= SOME {all2}")];
    let answers = |under: i32| {
        let file = declined_tables_with(under);
        let answer = |text: &str| {
            let bytes = card_of(text, &file).unwrap();
            let mut rows = [99; 3];
            let count = list(&bytes, &file, &mut rows);
            let truths = [0, 1, 2].map(|row| judge(text.as_bytes(), &file, row));
            let ran = [0, 1, 2].map(|row| run(&bytes, &file, row));
            (parts_of(text, &file), truths, bytes, ran, count, rows)
        };
        let texts = tests.into_iter().chain(lists.iter().map(|text| text.as_str()));
        (texts.map(answer).collect::<Vec<_>>(), exported(&file))
    };
    let expected = answers(0);
    assert_eq!(expected.1, Ok(b"1,5\n2,\n3,!\n".to_vec()));
    [1, 2, 3, 5, -1, 256, i32::MIN, i32::MAX].iter().for_each(|&under| assert_eq!(answers(under), expected, "{under}"));
}

#[test]
fn a_declined_cell_is_blank_where_no_rule_asks_for_it() {
    let mut dice = Dice(0x8CB9_2BA7_2F3D_8DD7);
    let mut compared = 0;
    for _ in 0..20_000 {
        let text = dice.condition(5, &["m"]);
        let tables = [dice.table(), dice.table(), dice.table()];
        let blank = |cell: &Cell| if *cell == Declined { Blank } else { *cell };
        let blanked = |(columns, rows): &Table| (*columns, rows.iter().map(|row| row.iter().map(blank).collect()).collect());
        let files = (tables_file(&tables), tables_file(&tables.iter().map(blanked).collect::<Vec<_>>()));
        if text.contains("DECLINED") || files.0 == files.1 {
            continue;
        }
        let Ok(bytes) = card_of(&text, &files.0) else {
            continue;
        };
        compared += 1;
        assert_eq!(card_of(&text, &files.1), Ok(bytes.clone()), "{text}");
        assert_eq!(parts_of(&text, &files.0), parts_of(&text, &files.1), "{text}");
        for row in 0..tables[0].1.len() {
            assert_eq!(judge(text.as_bytes(), &files.0, row), judge(text.as_bytes(), &files.1, row), "{text}");
            assert_eq!(run(&bytes, &files.0, row), run(&bytes, &files.1, row), "{text}");
        }
    }
    assert!(compared > 3_000, "only {compared} rules were compared");
}

#[test]
fn where_declined_may_stand() {
    let accepted = [
        "m.1 IS DECLINED",
        "m.1 IS NOT DECLINED",
        "1IS DECLINED",
        "-1 IS NOT\nDECLINED",
        " m . 1\nIS\nNOT DECLINED\n",
        "NOT m.1 IS NOT DECLINED",
        "(m.1 IS DECLINED)",
        "((m.1 IS DECLINED)) IS NOT UNKNOWN",
        "m.1 IS DECLINED AND m.1 IS NULL OR 1 IS NOT DECLINED",
        "m.1 IN (SELECT v.1 FROM 2 v WHERE v.1 IS DECLINED)",
    ];
    let alone = ["DECLINED", "NOT DECLINED", "(DECLINED)", "(DECLINED) IS TRUE", "IS DECLINED", "DECLINED IS DECLINED", "DECLINED.1 = 1"];
    let unfinished = ["m.1 IS", "m.1 IS NOT", "m.1 DECLINED", "m.1 NOT DECLINED", "m IS DECLINED", "m. IS DECLINED", "m.1 IS (DECLINED)"];
    let doubled = ["m.1 IS NOT NOT DECLINED", "m.1 IS IS DECLINED", "m.1 IS DECLINED DECLINED", "m.1 IS DECLINED NOT"];
    let joined = ["m.1 IS DECLINED NULL", "m.1 IS NULL DECLINED", "m.1 IS NOT NULL DECLINED", "m.1 IS DECLINED IS DECLINED"];
    let exists = "EXISTS (FROM 2 v WHERE 1 = 1) IS DECLINED";
    let after_others = ["(1 = 1) IS DECLINED", "(1 = 1) IS NOT DECLINED", "1 = 1 IS DECLINED", "(m.1) IS DECLINED", exists];
    let brackets = ["(m.1 IS DECLINED) IS DECLINED", "(m.1 IS DECLINED) IS NULL", "m.1 IS DECLINED IS TRUE", "m.1 IS DECLINED)"];
    let values =
        ["m.1 = DECLINED", "DECLINED = m.1", "m.DECLINED = 1", "m.1 IN DECLINED", "m.1 = SOME DECLINED", "m.1 IS TRUE", "m.1 IS 1"];
    let selected = "m.1 IN (SELECT DECLINED FROM 2 v WHERE 1 = 1)";
    let subqueries = ["EXISTS (FROM 2 v WHERE DECLINED)", "EXISTS (FROM 2 DECLINED WHERE 1 = 1)", "EXISTS DECLINED", selected];
    let letters = ["m.1 IS declined", "m.1 IS DECLINED1", "m.1 IS DECLINEDd"];
    let no_tokens =
        ["m.1 IS DECLINE", "m.1 IS DECLINEDS", "m.1 ISDECLINED", "m.1 IS NOTDECLINED", "m.1 IS DECLINEDNULL", "m.1 IS Declined"];
    let signs = ["!", "m.1 IS !", "m.1 = !", "! IS DECLINED", "!= 1"];
    accepted.iter().for_each(|text| assert_eq!(refused(text.as_bytes()), 0, "{text}"));
    let ungrammatical = [&alone[..], &unfinished, &doubled, &joined, &after_others, &brackets, &values, &subqueries, &letters].concat();
    ungrammatical.iter().for_each(|text| assert_eq!(refused(text.as_bytes()), 6, "{text}"));
    [&no_tokens[..], &signs].concat().iter().for_each(|text| assert_eq!(refused(text.as_bytes()), 4, "{text}"));
    // the value's letter and column are names as elsewhere
    let names = ["k.1 IS DECLINED", "m.3 IS DECLINED", "m.0 IS NOT DECLINED", "EXISTS (FROM 2 v WHERE v.2 IS DECLINED)"];
    names.iter().for_each(|text| assert_eq!(refused(text.as_bytes()), 8, "{text}"));
    // each test is counted in the 64 parts
    let tests = |count: usize| vec!["m.1 IS DECLINED"; count].join(" OR ");
    assert_eq!((refused(format!("NOT {}", tests(32)).as_bytes()), refused(tests(33).as_bytes())), (0, 7));
    assert_eq!(refused(format!("NOT NOT {}", tests(32)).as_bytes()), 7);
}

#[test]
fn declined_tests_are_parts() {
    let tables = paper_tables();
    let test = |kind: u8, end: u8, left: Value| Part { kind, end, left, ..Part::default() };
    let unused = |kind: u8, end: u8| Part { kind, end, ..Part::default() };
    assert_eq!(parts_of("m.2 IS DECLINED", &tables), Ok(vec![test(16, 1, column(0, 2))]));
    assert_eq!(parts_of("m.2 IS NOT DECLINED", &tables), Ok(vec![test(17, 1, column(0, 2))]));
    assert_eq!(parts_of("-7 IS DECLINED", &tables), Ok(vec![test(16, 1, constant(-7))]));
    assert_eq!(parts_of("0 IS NOT DECLINED", &tables), Ok(vec![test(17, 1, constant(0))]));
    // NOT stays a part of its own
    assert_eq!(parts_of("NOT m.1 IS DECLINED", &tables), Ok(vec![unused(3, 2), test(16, 2, column(0, 1))]));
    assert_eq!(parts_of("NOT m.1 IS NOT DECLINED", &tables), Ok(vec![unused(3, 2), test(17, 2, column(0, 1))]));
    let exists = Part { kind: 7, table: 2, end: 4, ..Part::default() };
    let inner = vec![exists, unused(2, 4), test(16, 3, column(1, 1)), test(17, 4, column(0, 2))];
    assert_eq!(parts_of("EXISTS (FROM 2 v WHERE v.1 IS DECLINED OR m.2 IS NOT DECLINED)", &tables), Ok(inner));
    assert_eq!(part_kinds("(m.1 IS DECLINED) IS NOT UNKNOWN AND (m.1 IS NOT DECLINED)"), [1, 15, 16, 17]);
    assert_eq!(part_kinds("m.1 IS NULL OR m.1 IS NOT NULL OR m.1 IS DECLINED"), [2, 2, 5, 6, 16]);
    // what is past the answer stays
    let mut lent = [exists; 2];
    assert_eq!((read(b"1 IS DECLINED", &tables, &mut lent), lent), (Ok(1), [test(16, 1, constant(1)), exists]));
    assert_eq!((read(b"1 IS DECLINED", &tables, &mut []), judge(b"1 IS DECLINED", &tables, 3)), (Err(12), Err(11)));
}

/// The card of `m.2 IS DECLINED` for one table of 3 columns.
const DECLINED_CARD: [u8; 19] = [1, 0, 1, 3, 9, 1, 0, 0, 0, 0, 2, 0, 0, 0, 0, 0, 0, 0, 0];

#[test]
fn cards_of_declined_tests() {
    let tables = three_columns();
    let mut not_declined = DECLINED_CARD;
    not_declined[4] = 10;
    assert_eq!(card_of("m.2 IS DECLINED", &tables), Ok(DECLINED_CARD.to_vec()));
    assert_eq!(card_of("m.2 IS NOT DECLINED", &tables), Ok(not_declined.to_vec()));
    assert_eq!(card_of("NOT m.2 IS DECLINED", &tables), Ok(not_declined.to_vec()));
    assert_eq!(card_of("NOT m.2 IS NOT DECLINED", &tables), Ok(DECLINED_CARD.to_vec()));
    assert_eq!(card_of("NOT NOT m.2 IS DECLINED", &tables), Ok(DECLINED_CARD.to_vec()));
    let constant = card_with(&[(10, [1, 0, 0, 0, 255, 0xFE, 0xFF, 0xFF, 0xFF, 0, 0, 0, 0, 0])]);
    assert_eq!(card_of("NOT -2 IS DECLINED", &tables), Ok(constant));
    let row = [2, 0, 1, 0, 0, 0, 0, 0, 0, 0, 0, 0, 0, 0];
    let inner = [2, 0, 0, 0, 1, 3, 0, 0, 0, 0, 0, 0, 0, 0];
    assert_eq!(card_of("EXISTS (FROM 1 v WHERE v.3 IS DECLINED)", &tables), Ok(card_with(&[(3, row), (9, inner)])));
    assert_eq!(card_of("NOT EXISTS (FROM 1 v WHERE v.3 IS DECLINED)", &tables), Ok(card_with(&[(4, row), (10, inner)])));
    let mut buffer = [7; 20];
    assert_eq!(card(b"m.2 IS DECLINED", &tables, &mut buffer[..18]), Err(12));
    assert_eq!(buffer, [7; 20]);
    assert_eq!(card(b"m.2 IS DECLINED", &tables, &mut buffer), Ok(19));
    assert_eq!((&buffer[..19], buffer[19]), (&DECLINED_CARD[..], 7));
}

#[test]
fn negating_swaps_declined_and_not_declined() {
    let joined = "m.1 IS DECLINED AND m.2 IS NOT DECLINED OR m.1 IS NULL";
    assert_eq!(entry_kinds(joined), [(2, 0), (1, 0), (9, 0), (10, 0), (7, 0)]);
    assert_eq!(entry_kinds(&format!("NOT ({joined})")), [(1, 0), (2, 0), (10, 0), (9, 0), (8, 0)]);
    let some = "m.1 = SOME (SELECT v.1 FROM 2 v WHERE v.1 IS DECLINED)";
    assert_eq!(entry_kinds(some), [(3, 0), (1, 0), (9, 0), (5, 1)]);
    assert_eq!(entry_kinds(&format!("NOT {some}")), [(4, 0), (2, 0), (10, 0), (5, 2)]);
    let all = "m.1 = ALL (SELECT v.1 FROM 2 v WHERE v.1 IS NOT DECLINED)";
    assert_eq!(entry_kinds(all), [(4, 0), (2, 0), (9, 0), (5, 1)]);
    assert_eq!(entry_kinds(&format!("NOT {all}")), [(3, 0), (1, 0), (10, 0), (5, 2)]);
    // in either interpretation the same
    let cards: [&[(u8, u8)]; 6] = [&[(9, 0)], &[(10, 0)], &[(10, 0)], &[(9, 0)], &[(1, 0), (10, 0), (9, 0)], &[(2, 0), (9, 0), (10, 0)]];
    for (number, test) in TRUTH_TESTS.iter().enumerate() {
        assert_eq!(entry_kinds(&format!("(m.2 IS DECLINED) {test}")), cards[number], "{test}");
        assert_eq!(entry_kinds(&format!("NOT (m.2 IS DECLINED) {test}")), cards[number ^ 1], "{test}");
    }
}

#[test]
fn declined_tests_add_one_to_the_sum() {
    let length = |text: &str| card_of(text, &paper_tables()).map(|bytes| (bytes.len() - 6) / 15);
    for test in ["m.1 IS DECLINED", "m.1 IS NOT DECLINED"] {
        assert_eq!((length(test), length(&format!("NOT {test}"))), (Ok(1), Ok(1)));
        assert_eq!(length(&format!("{test} OR {test}")), Ok(3));
        assert_eq!(length(&format!("EXISTS (FROM 2 v WHERE {test})")), Ok(2));
        assert_eq!(length(&format!("m.1 IN (SELECT v.1 FROM 2 v WHERE {test})")), Ok(4));
        // 1 + 2 × 1, and so on
        assert_eq!((length(&unknowns(1, test)), length(&unknowns(2, test))), (Ok(3), Ok(7)));
        assert_eq!((length(&unknowns(6, test)), length(&unknowns(7, test))), (Ok(127), Err(13)));
        // 127 + 63 + 1, then one more, then two
        let odd = format!("{} AND {}", unknowns(6, test), unknowns(5, test));
        assert_eq!((length(&odd), length(&format!("EXISTS (FROM 2 v WHERE {odd})"))), (Ok(191), Ok(192)));
        assert_eq!(length(&format!("{odd} AND {test}")), Err(13));
    }
    // 64 parts: 32 tests, 31 ORs, and a NOT, which adds nothing
    assert_eq!(length(&format!("NOT ({})", vec!["m.1 IS DECLINED"; 32].join(" OR "))), Ok(63));
}

#[test]
fn soundness_of_declined_entries_byte_by_byte() {
    // which values each byte may have: the kinds 7 to 10, which use the left value alone
    let free = |at: usize, byte: u8| match at {
        3 => (2..=16).contains(&byte),
        4 => (7..=10).contains(&byte),
        9 => byte == 255,
        10 => (1..=3).contains(&byte),
        _ => false,
    };
    for kind in [9, 10] {
        let mut sound_card = DECLINED_CARD;
        sound_card[4] = kind;
        for at in 0..sound_card.len() {
            for byte in 0..=255 {
                let mut bytes = sound_card;
                bytes[at] = byte;
                let expected = if byte == sound_card[at] || free(at, byte) { Ok(()) } else { Err(9) };
                assert_eq!(check(&bytes), expected, "kind {kind}, byte {at} as {byte}");
            }
            assert_eq!(check(&sound_card[..at]), Err(9));
        }
        assert_eq!(check(&[&sound_card[..], &[0]].concat()), Err(9));
        // a constant may be any number
        [[0, 0, 0, 0], [255, 255, 255, 255], [0, 0, 0, 128], [1, 2, 3, 4]].iter().for_each(|number| {
            let mut bytes = sound_card;
            bytes[9] = 255;
            bytes[10..14].copy_from_slice(number);
            assert_eq!(check(&bytes), Ok(()), "kind {kind}, constant {number:?}");
        });
    }
}

#[test]
fn unused_fields_of_declined_entries_are_0() {
    let sound_record = [1, 0, 0, 0, 0, 1, 0, 0, 0, 0, 0, 0, 0, 0];
    let with = |at: usize, bytes: &[u8]| {
        let mut record = sound_record;
        record[at..at + bytes.len()].copy_from_slice(bytes);
        record
    };
    let table = with(2, &[1]);
    let comparison = with(3, &[1]);
    let right_column = with(9, &[0, 1, 0, 0, 0]);
    let right_constant = with(9, &[255, 0, 0, 0, 0]);
    let right_number = with(12, &[1]);
    for kind in [9, 10] {
        assert_eq!(check(&card_with(&[(kind, sound_record)])), Ok(()));
        for record in [table, comparison, right_column, right_constant, right_number] {
            let bytes = card_with(&[(kind, record)]);
            assert_eq!(check(&bytes), Err(9), "kind {kind}, {record:?}");
            assert_eq!(run(&bytes, &three_columns(), 0), Err(9), "kind {kind}, {record:?}");
            assert_eq!(list(&bytes, &three_columns(), &mut [0; 2]), Err(9), "kind {kind}, {record:?}");
        }
    }
    // kinds 5 and 6 have a comparison, which 9 and 10 have not; the others have no left value
    let comparing = with(3, &[1, 0, 1, 0, 0, 0, 255]);
    assert_eq!([5, 6, 7, 8, 9, 10].map(|kind| check(&card_with(&[(kind, comparing)])).is_ok()), [true, true, false, false, false, false]);
    let kinds = (0..=255).filter(|&kind| check(&card_with(&[(kind, sound_record)])).is_ok());
    assert_eq!(kinds.collect::<Vec<u8>>(), [7, 8, 9, 10]);
}

#[test]
fn ends_levels_and_kinds_of_declined_entries() {
    let test = |kind: u8, end: u8, level: u8| (kind, [end, 0, 0, 0, level, 3, 0, 0, 0, 0, 0, 0, 0, 0]);
    let row = |end: u8| (3, [end, 0, 1, 0, 0, 0, 0, 0, 0, 0, 0, 0, 0, 0]);
    let and = |end: u8| (1, [end, 0, 0, 0, 0, 0, 0, 0, 0, 0, 0, 0, 0, 0]);
    for kind in [9, 10] {
        assert_eq!(check(&card_with(&[row(4), row(4), row(4), test(kind, 4, 3)])), Ok(()));
        assert_eq!(check(&card_with(&[row(4), row(4), row(4), test(kind, 4, 4)])), Err(9));
        assert_eq!(check(&card_with(&[and(4), row(3), test(kind, 3, 1), test(kind, 4, 0)])), Ok(()));
        assert_eq!(check(&card_with(&[and(4), row(3), test(kind, 3, 1), test(kind, 4, 1)])), Err(9));
        // they have no inner entries
        assert_eq!(check(&card_with(&[test(kind, 2, 0), test(kind, 2, 0)])), Err(9));
        assert_eq!(check(&card_with(&[test(kind, 1, 0), test(kind, 2, 0)])), Err(9));
        assert_eq!(check(&card_with(&[and(3), test(kind, 2, 0), test(kind, 3, 0)])), Ok(()));
        // there is no kind 11, nor 0, also as an inner entry
        [0, 11, 12, 16, 17, 255].iter().for_each(|&other| {
            assert_eq!(check(&card_with(&[test(other, 1, 0)])), Err(9), "{other}");
            assert_eq!(check(&card_with(&[and(3), test(kind, 2, 0), test(other, 3, 0)])), Err(9), "{other}");
            assert_eq!(check(&card_with(&[and(3), test(other, 2, 0), test(kind, 3, 0)])), Err(9), "{other}");
            assert_eq!(check(&card_with(&[row(2), test(other, 2, 1)])), Err(9), "{other}");
        });
    }
}

#[test]
fn declined_entries_run_by_their_kinds() {
    let rows = [Number(1), Blank, Declined].map(|cell| vec![Number(2), cell, Number(3)]).to_vec();
    let tables = tables_file(&[(3, rows)]);
    let left = |tag: u8, number: u8| [1, 0, 0, 0, tag, number, 0, 0, 0, 0, 0, 0, 0, 0];
    let ran = |kind: u8, tag: u8, number: u8| [0, 1, 2].map(|row| run(&card_with(&[(kind, left(tag, number))]), &tables, row).unwrap());
    assert_eq!(ran(7, 0, 2), [false, true, true]);
    assert_eq!(ran(8, 0, 2), [true, false, false]);
    assert_eq!(ran(9, 0, 2), [false, false, true]);
    assert_eq!(ran(10, 0, 2), [true, true, false]);
    assert_eq!((ran(9, 0, 3), ran(10, 0, 3)), ([false; 3], [true; 3]));
    assert_eq!((ran(9, 255, 2), ran(10, 255, 2)), ([false; 3], [true; 3]));
    // over the rows of table 1: some are declined and some are not
    let over_rows = |row_kind: u8, kind: u8| {
        let row = [2, 0, 1, 0, 0, 0, 0, 0, 0, 0, 0, 0, 0, 0];
        let inner = [2, 0, 0, 0, 1, 2, 0, 0, 0, 0, 0, 0, 0, 0];
        let mut rows = [9; 3];
        list(&card_with(&[(row_kind, row), (kind, inner)]), &tables, &mut rows).unwrap()
    };
    assert_eq!((over_rows(3, 9), over_rows(3, 10), over_rows(4, 9), over_rows(4, 10)), (3, 3, 0, 0));
    let mut listed = [9; 3];
    assert_eq!((list(&DECLINED_CARD, &tables, &mut listed), listed), (Ok(1), [2, 9, 9]));
    assert_eq!(list(&DECLINED_CARD, &tables, &mut []), Err(12));
    assert_eq!(list(&DECLINED_CARD, &tables_file(&[(2, vec![])]), &mut []), Err(10));
}

#[test]
fn a_declined_field_is_a_lone_sign() {
    assert_eq!(imported(b"!", 1), Ok(vec![1, 1, 1, 0, 0, 0, 0, 0, 2]));
    let bytes = [1, 2, 2, 0, 1, 0, 0, 0, 0, 0, 0, 0, 0, 0, 0, 0, 0xFE, 0xFF, 0xFF, 0xFF, 0, 2, 1, 0];
    assert_eq!(imported(b"1,!\n,-2\n", 2), Ok(bytes.to_vec()));
    // before a comma, either line end, and the end of the file
    ["!", "!\n", "!\r\n"].iter().for_each(|lines| assert_eq!(imported(lines.as_bytes(), 1), single(1, &[&[Declined]]), "{lines:?}"));
    ["!\n!", "!\r\n!\n", "!\n!\r\n"].iter().for_each(|lines| {
        assert_eq!(imported(lines.as_bytes(), 1), single(1, &[&[Declined], &[Declined]]), "{lines:?}");
    });
    assert_eq!(imported(b"!,,7\r\n,!,!", 3), single(3, &[&[Declined, Blank, Number(7)], &[Blank, Declined, Declined]]));
    assert_eq!(imported(b"\n!\n\n", 1), single(1, &[&[Blank], &[Declined], &[Blank]]));
    assert_eq!(imported(["!"; 16].join(",").as_bytes(), 16), single(16, &[&[Declined; 16]]));
    // it is one field
    [(&b"!,"[..], 1), (b",!", 1), (b"!", 2), (b"!,!", 1), (b"!,!", 3), (b"!\n!", 2), (b"!,!\n\n", 2)].iter().for_each(
        |&(lines, columns)| {
            assert_eq!(imported(lines, columns), Err(14), "{lines:?}");
        },
    );
    // blank, 0 and declined differ in the mark alone
    let files = [imported(b",1\n", 2).unwrap(), imported(b"0,1\n", 2).unwrap(), imported(b"!,1\n", 2).unwrap()];
    files.iter().for_each(|file| assert_eq!(file[..12], files[0][..12]));
    assert_eq!(files.map(|file| file[12..].to_vec()), [[1, 0], [0, 0], [2, 0]]);
}

#[test]
fn a_sign_with_anything_beside_it_is_a_bad_field() {
    let beside = ["!1", "1!", "!0", "! ", " !", "!!", "!!!", "-!", "!-", "!-1", "-1!", "1!1", "!\t", "!.", "!\0", "!\r\r", "!;!", "\r!"];
    let others = ["\"!\"", "'!'", "DECLINED", "!DECLINED", "\u{A1}", "\u{FF01}", "!\u{301}", "\u{FEFF}!"];
    for text in [&beside[..], &others].concat() {
        for lines in [text.to_string(), format!("{text}\n"), format!("!\n{text}\r\n!\n"), format!("\n{text}")] {
            assert_eq!(imported(lines.as_bytes(), 1), Err(14), "{lines:?}");
        }
        for lines in [format!("{text},!"), format!("!,{text}"), format!("!,!\n!,{text}\n")] {
            assert_eq!(imported(lines.as_bytes(), 2), Err(14), "{lines:?}");
        }
    }
    // a CR without its LF
    assert_eq!((imported(b"!\r", 1), imported(b"!\r!", 1), imported(b"!\n!\r", 1)), (Err(14), Err(14), Err(14)));
    for byte in 0..=255_u8 {
        let after = if byte == b'\n' { single(1, &[&[Declined]]) } else { Err(14) };
        assert_eq!(imported(&[b'!', byte], 1), after, "{byte}");
        let before = if byte == b'\n' { single(1, &[&[Blank], &[Declined]]) } else { Err(14) };
        assert_eq!(imported(&[byte, b'!'], 1), before, "{byte}");
    }
}

#[test]
fn declined_fields_at_the_limits() {
    let lines = |columns: usize, rows: usize| (vec!["!"; columns].join(",") + "\n").repeat(rows);
    for (columns, most) in [(1, 1_000), (8, 1_000), (9, 910), (16, 512)] {
        let row = vec![Declined; columns];
        assert_eq!(imported(lines(columns, most).as_bytes(), columns), single(columns, &vec![&row[..]; most]), "{columns}");
        assert_eq!(imported(lines(columns, most + 1).as_bytes(), columns), Err(15), "{columns}");
        assert_eq!(imported((lines(columns, most + 1) + "!!").as_bytes(), columns), Err(14), "{columns}");
        assert_eq!(exported(&tables_file(&[(columns as u8, vec![row; most])])), Ok(lines(columns, most).into_bytes()), "{columns}");
    }
    assert_eq!((import(b"!", 1, &mut [0; 8]), import(b"!", 1, &mut [0; 9])), (Err(12), Ok(9)));
    assert_eq!((imported(b"!", 0), imported(b"!", 17)), (Err(14), Err(14)));
}

#[test]
fn declined_cells_are_written_as_signs() {
    assert_eq!(exported(&[1, 1, 1, 0, 9, 9, 9, 9, 2]), Ok(b"!\n".to_vec()));
    assert_eq!(exported(&declined_tables()), Ok(b"1,5\n2,\n3,!\n".to_vec()));
    assert_eq!(exported(&tables_file(&[(1, vec![vec![Blank], vec![Declined], vec![Blank]])])), Ok(b"\n!\n\n".to_vec()));
    let mixed = [(3, vec![vec![Declined, Blank, Number(-1)], vec![Number(0), Declined, Declined]]), (1, vec![vec![Declined]])];
    for under in [0, 1, 33, i32::MIN, i32::MAX] {
        let lines = exported(&tables_file_with(&mixed, under));
        assert_eq!(lines, Ok(b"!,,-1\n0,!,!\n".to_vec()), "{under}");
        // the same cells and marks again, with 0 as value
        let again = imported(&lines.unwrap(), 3);
        assert_eq!(again, Ok(tables_file_with(&mixed[..1], 0)), "{under}");
        assert_eq!(exported(&again.unwrap()), Ok(b"!,,-1\n0,!,!\n".to_vec()), "{under}");
    }
    let mut lines = [9; 3];
    assert_eq!((export(&[1, 1, 1, 0, 9, 9, 9, 9, 2], &mut lines[..1]), lines), (Err(12), [9; 3]));
    assert_eq!((export(&[1, 1, 1, 0, 9, 9, 9, 9, 2], &mut lines), lines), (Ok(2), [b'!', b'\n', 9]));
}

#[test]
fn rules_on_imported_declined_cells() {
    let file = imported(b"1,5\r\n2,\r\n3,!", 2).unwrap();
    assert_truths("m.2 > 0", &file, &[T, U, U]);
    assert_truths("m.2 = 0", &file, &[F, U, U]);
    assert_truths("m.2 IS NULL", &file, &[F, T, T]);
    assert_truths("m.2 IS DECLINED", &file, &[F, F, T]);
    assert_truths("m.2 IS NOT DECLINED", &file, &[T, T, F]);
    assert_truths("(m.2 = 0) IS UNKNOWN AND NOT m.2 IS DECLINED", &file, &[F, T, F]);
}
