//! Drawing of texts about truth tests: around one another, with sums of entries about the limit and far above it, and damaged ones.

use crate::draw::Draw;
use crate::faults;
use crate::limits::MOST_ENTRIES;
use crate::rules::{self, Bounds};
use crate::tables::Size;
use crate::tokens::{self, Token, SIGNS};

const WORDS: [&str; 3] = ["TRUE", "FALSE", "UNKNOWN"];

/// Words that have run together, or are none.
const NO_WORDS: [&str; 8] = ["TRUEFALSE", "TRUETRUE", "NOTTRUE", "NOTUNKNOWN", "UNKNOWNS", "UNKNOW", "FALS", "TRUEAND"];

/// Sums about the limit, and some that a byte does not hold.
#[rustfmt::skip]
const SUMS: [usize; 20] = [
    63, 127, MOST_ENTRIES - 3, MOST_ENTRIES - 2, MOST_ENTRIES - 1, MOST_ENTRIES - 1, MOST_ENTRIES, MOST_ENTRIES, MOST_ENTRIES, MOST_ENTRIES,
    MOST_ENTRIES + 1, MOST_ENTRIES + 1, MOST_ENTRIES + 1, MOST_ENTRIES + 1, MOST_ENTRIES + 2, MOST_ENTRIES + 3, 255, 257, 300, 511,
];

/// How many brackets stand open in truth tests around one another: what is left of the sum of 7, 8, 15, 16, 31 or 32 IS UNKNOWN, with
/// something beside them, is small where it is kept in one, two or four bytes.
const DEPTHS: [usize; 18] = [2, 3, 5, 6, 6, 7, 7, 7, 8, 15, 16, 30, 31, 31, 32, 32, 32, 33];

/// A text about truth tests, of which some have an absent name too.
pub fn text(draw: &mut Draw, sizes: &[Size], bounds: Bounds) -> Vec<u8> {
    let mut tokens = match draw.weighted(&[35, 40, 25]) {
        0 => nested(draw, sizes, bounds),
        1 => near_sum(draw, sizes, bounds),
        _ => {
            let faulty = faulty(draw, sizes, bounds);
            surrounded(draw, faulty, sizes, bounds)
        }
    };
    if draw.percent(20) {
        faults::absent_name(draw, &mut tokens, sizes);
    }
    if draw.percent(90) {
        tokens::spaced(draw, &tokens)
    } else {
        tokens::loosely_spaced(draw, &tokens)
    }
}

/// A rule with a sum of entries about the limit.
fn near_sum(draw: &mut Draw, sizes: &[Size], bounds: Bounds) -> Vec<Token> {
    let sum = draw.pick(&SUMS);
    rules::rule_of_sum(draw, sizes, sum, bounds)
}

/// IS or IS NOT, and one of the words.
fn ending(draw: &mut Draw, words: &[&str]) -> Vec<Token> {
    let mut ending = vec![Token::new("IS")];
    if draw.percent(50) {
        ending.push(Token::new("NOT"));
    }
    ending.push(Token::new(draw.pick(words)));
    ending
}

fn bracketed(mut tokens: Vec<Token>) -> Vec<Token> {
    tokens.insert(0, Token::new("("));
    tokens.push(Token::new(")"));
    tokens
}

/// The tokens within so many truth tests around one another, with NOTs between a few of them.
fn within(draw: &mut Draw, tokens: Vec<Token>, count: usize, words: &[&str]) -> Vec<Token> {
    let mut opening = Vec::with_capacity(2 * count);
    let mut behind = tokens;
    for _ in 0..count {
        if draw.percent(3) {
            opening.push(Token::new("NOT"));
        }
        opening.push(Token::new("("));
        behind.push(Token::new(")"));
        behind.extend(ending(draw, words));
    }
    opening.extend(behind);
    opening
}

/// Truth tests around one another, up to one more than brackets may stand open; alone, or with something beside them.
fn nested(draw: &mut Draw, sizes: &[Size], bounds: Bounds) -> Vec<Token> {
    let parts = draw.pick(&[1, 1, 1, 2, 3]);
    let core = rules::rule(draw, sizes, parts, bounds);
    let depth = draw.pick(&DEPTHS).saturating_sub(faults::most_open(&core));
    let words = draw.pick(&[&["UNKNOWN"][..], &["UNKNOWN"], &["TRUE", "FALSE"], &WORDS]);
    let tested = within(draw, core, depth, words);
    match draw.weighted(&[55, 35, 10]) {
        0 => tested,
        1 => joined(draw, tested, sizes, bounds),
        _ => {
            let other = near_sum(draw, sizes, bounds);
            [tested, vec![Token::new("OR")], other].concat()
        }
    }
}

/// The tokens, and a small rule before or behind them.
fn joined(draw: &mut Draw, tokens: Vec<Token>, sizes: &[Size], bounds: Bounds) -> Vec<Token> {
    let word = vec![Token::new(draw.pick(&["AND", "OR"]))];
    let parts = draw.pick(&[1, 1, 2, 3]);
    let small = rules::rule(draw, sizes, parts, bounds);
    if draw.percent(50) {
        [small, word, tokens].concat()
    } else {
        [tokens, word, small].concat()
    }
}

/// Makes the sum of a rule larger than it may be, by truth tests around all of it.
pub fn too_heavy(draw: &mut Draw, tokens: &mut Vec<Token>) {
    let count = draw.between(7, 9);
    *tokens = within(draw, std::mem::take(tokens), count, &["UNKNOWN"]);
}

/// A truth test behind what takes none, one whose words are not right, or one of its words elsewhere.
fn faulty(draw: &mut Draw, sizes: &[Size], bounds: Bounds) -> Vec<Token> {
    let all = |written: &[&str]| written.iter().map(|token| Token::new(token)).collect::<Vec<_>>();
    let parts = draw.pick(&[1, 1, 2, 3]);
    let inner = rules::rule(draw, sizes, parts, bounds);
    let (word, sign, ending) = (draw.pick(&WORDS), draw.pick(&SIGNS), ending(draw, &WORDS));
    match draw.below(16) {
        0 => [bracketed(inner), all(&["IS"])].concat(),
        1 => [bracketed(inner), all(&["IS", "NOT"])].concat(),
        2 => [bracketed(inner), all(&["IS", "NOT", "NOT", word])].concat(),
        3 => [bracketed(inner), all(&["NOT", "IS", word])].concat(),
        4 => [bracketed(inner), all(&["IS", word, draw.pick(&WORDS)])].concat(),
        5 => [bracketed(inner), all(&["IS", draw.pick(&NO_WORDS)])].concat(),
        6 => [bracketed(inner), all(&["IS", draw.pick(&["NULL", "DECLINED", "1", "m", "(", "SOME"])])].concat(),
        7 => [bracketed(inner), all(&[word])].concat(),
        8 | 9 => [bracketed(inner), ending, self::ending(draw, &WORDS)].concat(),
        10 => [all(&["m", ".", "1", sign, "1"]), ending].concat(),
        11 => [all(&["m", ".", "1", "IS", draw.pick(&["NULL", "DECLINED"])]), ending].concat(),
        12 | 13 => [all(&["EXISTS", "(", "FROM", "1", "v", "WHERE"]), inner, all(&[")"]), ending].concat(),
        14 => {
            let list = ["m", ".", "1", sign, "SOME", "(", "SELECT", "v", ".", "1", "FROM", "1", "v", "WHERE"];
            [all(&list), inner, all(&[")"]), ending].concat()
        }
        _ => {
            let before = draw.pick(&[&["m", ".", "1"][..], &["(", "m", ".", "1", ")"], &["(", ")"], &["1", "=", "TRUE"], &["FALSE"], &[]]);
            [all(before), ending].concat()
        }
    }
}

/// Tokens alone, or within a rule that is right.
fn surrounded(draw: &mut Draw, tokens: Vec<Token>, sizes: &[Size], bounds: Bounds) -> Vec<Token> {
    match draw.below(6) {
        0 => [vec![Token::new("NOT")], tokens].concat(),
        1 => bracketed(tokens),
        2 => within(draw, tokens, 1, &WORDS),
        3 => joined(draw, tokens, sizes, bounds),
        4 => {
            let source = ["EXISTS", "(", "FROM", "1", "m", "WHERE"].map(Token::new);
            [source.to_vec(), tokens, vec![Token::new(")")]].concat()
        }
        _ => tokens,
    }
}
