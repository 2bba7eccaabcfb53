//! Drawing of texts about IS DECLINED and IS NOT DECLINED: right ones in every place where a test may stand, and ones with a fault in or
//! about them.

use crate::draw::Draw;
use crate::faults;
use crate::rules::{self, Bounds};
use crate::tables::Size;
use crate::tokens::{self, Token, SIGNS};

/// Words that are near to DECLINED and are none, or two.
const NEAR: [&str; 14] = [
    "DECLINE",
    "DECLINEDX",
    "DECLIN ED",
    "DECLIN\nED",
    "XDECLINED",
    "DECLINES",
    "DECLINEED",
    "DECLINEDD",
    "DECLINEDNULL",
    "NULLDECLINED",
    "ISDECLINED",
    "NOTDECLINED",
    "declined",
    "Declined",
];

/// What may stand before a test's IS and is no value, or one thing too much.
const NO_VALUES: [&[&str]; 8] =
    [&[], &["m"], &["m", "."], &["m", ".", "1", ".", "1"], &["(", "m", ".", "1", ")"], &["m", ".", "1", "1"], &["DECLINED"], &["-"]];

fn all(written: &[&str]) -> Vec<Token> {
    written.iter().map(|token| Token::new(token)).collect()
}

/// A text about these tests. Some of the right ones have an absent name.
pub fn text(draw: &mut Draw, sizes: &[Size], bounds: Bounds) -> Vec<u8> {
    let right = draw.percent(50);
    let test = if right { test(draw, sizes) } else { faulty(draw, sizes, bounds) };
    let mut tokens = surrounded(draw, test);
    if right && draw.percent(15) {
        faults::absent_name(draw, &mut tokens, sizes);
    }
    if draw.percent(90) {
        tokens::spaced(draw, &tokens)
    } else {
        tokens::loosely_spaced(draw, &tokens)
    }
}

/// A column of table 1, or a number.
fn value(draw: &mut Draw, sizes: &[Size]) -> Vec<Token> {
    if draw.percent(20) {
        return vec![tokens::number(draw)];
    }
    let column = draw.between(1, sizes[0].columns);
    vec![Token::letter(b'm'), Token::new("."), Token::number(column as i64, 1)]
}

/// One of the two tests.
fn test(draw: &mut Draw, sizes: &[Size]) -> Vec<Token> {
    let words = draw.pick(&[&["IS", "DECLINED"][..], &["IS", "NOT", "DECLINED"]]);
    [value(draw, sizes), all(words)].concat()
}

/// A test whose words are not right, or one behind what takes none, or its word elsewhere.
fn faulty(draw: &mut Draw, sizes: &[Size], bounds: Bounds) -> Vec<Token> {
    let (value, test) = (value(draw, sizes), test(draw, sizes));
    let words = draw.pick(&[&["IS", "DECLINED"][..], &["IS", "NOT", "DECLINED"]]);
    let parts = draw.pick(&[1, 1, 2]);
    let inner = rules::rule(draw, sizes, parts, bounds);
    match draw.below(16) {
        0..=2 => [value, all(&words[..words.len() - 1]), all(&[draw.pick(&NEAR)])].concat(),
        3 | 4 => [all(&["("]), inner, all(&[")"]), all(words)].concat(),
        5 => [all(&["EXISTS", "(", "FROM", "1", "m", "WHERE"]), inner, all(&[")"]), all(words)].concat(),
        6 => {
            let list = ["IN", "(", "SELECT", "m", ".", "1", "FROM", "1", "m", "WHERE"];
            [value, all(&list), inner, all(&[")"]), all(words)].concat()
        }
        7 => [value, all(draw.pick(&[&["DECLINED"][..], &["NOT", "DECLINED"], &["IS", "NOT", "NOT", "DECLINED"]]))].concat(),
        8 => [value, all(draw.pick(&[&["IS", "DECLINED", "NULL"][..], &["IS", "NULL", "DECLINED"], &["IS", "DECLINED", "NOT"]]))].concat(),
        9 => [value, all(draw.pick(&[&["IS", "TRUE"][..], &["IS", "NOT", "UNKNOWN"], &["IS", "FALSE"], &["IS"], &["IS", "NOT"]]))].concat(),
        10 => [test, all(words)].concat(),
        11 => [value, all(&[draw.pick(&SIGNS), "DECLINED"])].concat(),
        12 => [value, all(&["IN", "(", "SELECT", "DECLINED", "FROM", "1", "v", "WHERE"]), inner, all(&[")"])].concat(),
        13 => [test, all(draw.pick(&[&["OR"][..], &["DECLINED"], &[")"], &["!"]]))].concat(),
        _ => [all(draw.pick(&NO_VALUES)), all(words)].concat(),
    }
}

/// The test alone, or in one or two other things: under NOT, in a WHERE, in a list's WHERE, under a truth test, beside another test.
fn surrounded(draw: &mut Draw, mut tokens: Vec<Token>) -> Vec<Token> {
    for _ in 0..draw.pick(&[0, 0, 1, 1, 1, 2, 2, 3]) {
        let (before, behind): (&[&str], &[&str]) = draw.pick(&[
            (&["NOT"][..], &[][..]),
            (&["NOT", "("], &[")"]),
            (&["("], &[")"]),
            (&["("], &[")", "IS", "TRUE"]),
            (&["("], &[")", "IS", "NOT", "FALSE"]),
            (&["("], &[")", "IS", "UNKNOWN"]),
            (&["("], &[")", "IS", "NOT", "UNKNOWN"]),
            (&["EXISTS", "(", "FROM", "1", "m", "WHERE"], &[")"]),
            (&["EXISTS", "(", "FROM", "1", "v", "WHERE"], &[")"]),
            (&["m", ".", "1", "IN", "(", "SELECT", "m", ".", "1", "FROM", "1", "m", "WHERE"], &[")"]),
            (&["m", ".", "1", "<", "ALL", "(", "SELECT", "v", ".", "1", "FROM", "1", "v", "WHERE"], &[")"]),
            (&["(", "m", ".", "1", "IS", "NULL", "AND"], &[")"]),
            (&["("], &["OR", "m", ".", "1", "=", "1", ")"]),
        ]);
        tokens = [all(before), tokens, all(behind)].concat();
    }
    tokens
}
