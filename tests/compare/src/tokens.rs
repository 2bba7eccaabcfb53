//! Tokens as they are written, and the gaps between them.

use crate::draw::Draw;
use crate::tables;
use std::io::Write;

pub const SIGNS: [&str; 6] = ["=", "<>", "<", "<=", ">", ">="];

/// One token as it is written. It holds its own bytes, so that lists of tokens are cheap to make and to change.
#[derive(Clone, Copy)]
pub struct Token {
    bytes: [u8; 15],
    length: u8,
}

impl Token {
    /// A token of at most 15 bytes.
    pub fn new(written: &str) -> Token {
        let mut bytes = [0; 15];
        bytes[..written.len()].copy_from_slice(written.as_bytes());
        Token { bytes, length: written.len() as u8 }
    }

    /// A number, its digits filled up with zeros in front to a width.
    pub fn number(value: i64, width: usize) -> Token {
        let mut bytes = [0; 15];
        let sign = if value < 0 { "-" } else { "" };
        let mut rest = &mut bytes[..];
        write!(rest, "{}{:0width$}", sign, value.unsigned_abs(), width = width).expect("a number of at most 15 bytes");
        let length = 15 - rest.len() as u8;
        Token { bytes, length }
    }

    pub fn letter(letter: u8) -> Token {
        let mut bytes = [0; 15];
        bytes[0] = letter;
        Token { bytes, length: 1 }
    }

    pub fn bytes(&self) -> &[u8] {
        &self.bytes[..self.length as usize]
    }

    pub fn is(&self, written: &str) -> bool {
        self.bytes() == written.as_bytes()
    }

    pub fn is_number(&self) -> bool {
        self.bytes()[self.length as usize - 1].is_ascii_digit()
    }

    pub fn is_letter(&self) -> bool {
        self.bytes[0].is_ascii_lowercase()
    }
}

/// A number as it may be written: with zeros in front, and `-0` for 0.
pub fn number(draw: &mut Draw) -> Token {
    let value = tables::value(draw);
    match draw.below(32) {
        0 => Token::number(i64::from(value), draw.between(2, 10)),
        1 => Token::new(draw.pick(&["-0", "-00", "0000000000", "-0000000000", "-2147483648", "2147483647", "-0000000002"])),
        _ => Token::number(i64::from(value), 1),
    }
}

/// Whether two tokens would read as others with no gap between them.
fn needs_gap(before: &Token, after: &Token) -> bool {
    let (last, first) = (before.bytes()[before.length as usize - 1], after.bytes[0]);
    (last.is_ascii_uppercase() && first.is_ascii_uppercase())
        || (last.is_ascii_digit() && first.is_ascii_digit())
        || (matches!(before.bytes(), b"<" | b">") && matches!(first, b'=' | b'>'))
}

/// How many bytes of gap the tokens need at least: one entry before each token and one behind the last.
fn least_gaps(tokens: &[Token]) -> Vec<usize> {
    let mut gaps = vec![0; tokens.len() + 1];
    for place in 1..tokens.len() {
        gaps[place] = usize::from(needs_gap(&tokens[place - 1], &tokens[place]));
    }
    gaps
}

/// The text of tokens with gaps of these lengths.
fn written(draw: &mut Draw, tokens: &[Token], gaps: &[usize]) -> Vec<u8> {
    let feeds = draw.pick(&[0, 0, 10, 50, 100]);
    let mut text = Vec::with_capacity(8 * tokens.len());
    for (place, gap) in gaps.iter().enumerate() {
        for _ in 0..*gap {
            text.push(if feeds > 0 && draw.percent(feeds) { b'\n' } else { b' ' });
        }
        if let Some(token) = tokens.get(place) {
            text.extend_from_slice(token.bytes());
        }
    }
    text
}

/// The text of tokens: with no gap but where one is needed, with one everywhere, or with gaps here and there.
pub fn spaced(draw: &mut Draw, tokens: &[Token]) -> Vec<u8> {
    let mut gaps = least_gaps(tokens);
    let (share, widest) = draw.pick(&[(0, 1), (0, 1), (20, 2), (100, 1), (100, 1), (100, 3), (60, 40)]);
    for gap in gaps.iter_mut() {
        if share == 100 || (share > 0 && draw.percent(share)) {
            *gap = if widest == 1 { 1 } else { draw.between(1, widest) };
        }
    }
    written(draw, tokens, &gaps)
}

/// The text of tokens with every gap of one space, needed or not; or with none at all, so that tokens may run together.
pub fn loosely_spaced(draw: &mut Draw, tokens: &[Token]) -> Vec<u8> {
    let gap = usize::from(draw.percent(85));
    written(draw, tokens, &vec![gap; tokens.len() + 1])
}

/// The text of tokens stretched by gaps to so many bytes, if it is not longer without them.
pub fn stretched(draw: &mut Draw, tokens: &[Token], length: usize) -> Vec<u8> {
    let mut gaps = least_gaps(tokens);
    let least = gaps.iter().sum::<usize>() + tokens.iter().map(|token| token.bytes().len()).sum::<usize>();
    let rest = length.saturating_sub(least);
    match draw.below(4) {
        0 => gaps[0] += rest,
        1 => gaps[tokens.len()] += rest,
        2 => gaps[draw.below(tokens.len() + 1)] += rest,
        _ => {
            let each = rest / gaps.len();
            let over = rest % gaps.len();
            gaps.iter_mut().enumerate().for_each(|(place, gap)| *gap += each + usize::from(place < over));
        }
    }
    written(draw, tokens, &gaps)
}
