//! Tokens of the rule text (section "Rule text", the first paragraph; document 02, Points 1 and 4, for four of the words).

use crate::comparison::{AT_LEAST, AT_MOST, EQUAL, LESS, MORE, NOT_EQUAL};
use crate::number;
use crate::refusal::{self, Refusal};

/// A text has at most this many bytes.
const MOST_TEXT_BYTES: usize = 4_096;
/// At most this many more `(` than `)` up to any token.
const MOST_OPEN: i32 = 32;

/// The words of the grammar.
#[derive(Clone, Copy, Debug, PartialEq, Eq)]
pub enum Word {
    And,
    Or,
    Not,
    Exists,
    In,
    Some,
    All,
    Is,
    Null,
    Select,
    From,
    Where,
    True,
    False,
    Unknown,
    Declined,
}

/// One token of a rule text.
#[derive(Clone, Copy, Debug, PartialEq, Eq)]
pub enum Token {
    /// A run of capitals.
    Word(Word),
    /// A single small letter.
    Letter(u8),
    /// A number in range.
    Number(i32),
    /// One of the six comparisons, by its number.
    Comparison(u8),
    /// `(`
    Open,
    /// `)`
    Close,
    /// `.`
    Dot,
}

/// Scans the whole text: refusal 3 for its length, refusal 4 for a token anywhere, and only then refusal 5 for the brackets.
pub fn tokens(text: &[u8]) -> Result<Vec<Token>, Refusal> {
    if text.len() > MOST_TEXT_BYTES {
        return Err(refusal::TEXT_LENGTH);
    }
    let mut tokens = Vec::with_capacity(text.len() / 2);
    let mut open = 0;
    let mut most_open = 0;
    let mut rest = text;
    while let [first, after @ ..] = rest {
        if matches!(first, b' ' | b'\n') {
            rest = after;
            continue;
        }
        let (token, length) = token(rest).ok_or(refusal::TOKEN)?;
        match token {
            Token::Open => open += 1,
            Token::Close => open -= 1,
            _ => {}
        }
        most_open = most_open.max(open);
        tokens.push(token);
        rest = &rest[length..];
    }
    if most_open > MOST_OPEN {
        return Err(refusal::BRACKETS);
    }
    Ok(tokens)
}

/// The longest token at the start of the bytes, with its length; none if no token begins there.
fn token(bytes: &[u8]) -> Option<(Token, usize)> {
    let found = match bytes {
        [b'A'..=b'Z', ..] => return word(bytes),
        [b'-' | b'0'..=b'9', ..] => return number::read(bytes).map(|(number, length)| (Token::Number(number), length)),
        [letter @ b'a'..=b'z', ..] => (Token::Letter(*letter), 1),
        [b'(', ..] => (Token::Open, 1),
        [b')', ..] => (Token::Close, 1),
        [b'.', ..] => (Token::Dot, 1),
        [b'=', ..] => (Token::Comparison(EQUAL), 1),
        [b'<', b'>', ..] => (Token::Comparison(NOT_EQUAL), 2),
        [b'<', b'=', ..] => (Token::Comparison(AT_MOST), 2),
        [b'<', ..] => (Token::Comparison(LESS), 1),
        [b'>', b'=', ..] => (Token::Comparison(AT_LEAST), 2),
        [b'>', ..] => (Token::Comparison(MORE), 1),
        _ => return None,
    };
    Some(found)
}

/// The whole run of capitals, which must be one of the words.
fn word(bytes: &[u8]) -> Option<(Token, usize)> {
    let length = bytes.iter().take_while(|byte| byte.is_ascii_uppercase()).count();
    let word = match &bytes[..length] {
        b"AND" => Word::And,
        b"OR" => Word::Or,
        b"NOT" => Word::Not,
        b"EXISTS" => Word::Exists,
        b"IN" => Word::In,
        b"SOME" => Word::Some,
        b"ALL" => Word::All,
        b"IS" => Word::Is,
        b"NULL" => Word::Null,
        b"SELECT" => Word::Select,
        b"FROM" => Word::From,
        b"WHERE" => Word::Where,
        b"TRUE" => Word::True,
        b"FALSE" => Word::False,
        b"UNKNOWN" => Word::Unknown,
        b"DECLINED" => Word::Declined,
        _ => return None,
    };
    Some((Token::Word(word), length))
}
