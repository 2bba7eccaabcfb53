//! Drawing of texts that are no rules, or nearly none: damaged ones, ones near a limit, ones with two faults, tokens and bytes at random.

use crate::draw::Draw;
use crate::limits::{MOST_OPEN, MOST_PARTS, MOST_TEXT_BYTES};
use crate::rules::{self, Bounds};
use crate::tables::Size;
use crate::tokens::{self, Token, SIGNS};
use crate::truths;

#[rustfmt::skip]
const WORDS: [&str; 16] = [
    "AND", "OR", "NOT", "EXISTS", "IN", "SOME", "ALL", "IS", "NULL", "SELECT", "FROM", "WHERE", "TRUE", "FALSE", "UNKNOWN", "DECLINED",
];
const LOOSE: [&str; 16] = ["(", ")", ".", "(", ")", ".", "m", "m", "v", "k", "1", "1", "2", "0", "-1", "3"];

/// What is no token, or reads as more than one.
#[rustfmt::skip]
const NO_TOKENS: [&str; 41] = [
    "AN", "NOTNOT", "ANDOR", "ISNULL", "ISTRUE", "TRUEFALSE", "NOTUNKNOWN", "UNKNOW", "A", "Z", "@", "\t", "\r", "\0", "\u{b}", "-",
    "--1", "- 1", "==", "!=", ",", "+1", "[", "`", "{", "/", ":", ";", "'", "<=>", "=<",
    "00000000001", "-00000000001", "2147483648", "-2147483649", "9999999999", "DECLINE", "DECLINEDX", "DECLIN ED", "ISDECLINED", "!",
];

/// Numbers about the ends of the range and about ten digits.
#[rustfmt::skip]
const EDGE_NUMBERS: [&str; 14] = [
    "2147483647", "2147483648", "-2147483648", "-2147483649", "0000000000", "00000000000", "-0000000001", "-00000000001", "9999999999",
    "02147483647", "4294967296", "4294967297", "-4294967295", "99999999999",
];

/// Bytes that rules are made of, and a few beside them.
const USEFUL_BYTES: &[u8] = b"ANDORTISEXULFMWHCK mvk.12-0()<>=\n 19A(:/`{@[\t";

/// The small examples of the table of refusals, and rules of the proved cases.
const EXAMPLES: [&str; 33] = [
    "",
    "m.1 =",
    "m.1 = 2147483648",
    "k.1 = 1",
    "NOT m.2 < 5",
    "m.2 > 0",
    "NOT m.2 > 0",
    "m.2 > 0 OR NOT m.2 > 0",
    "m.2 IS NULL",
    "m.1 IN (SELECT v.1 FROM 2 v WHERE 1 = 1)",
    "m.1 NOT IN (SELECT v.1 FROM 2 v WHERE 1 = 1)",
    "m.1 <> ALL (SELECT v.1 FROM 2 v WHERE v.1 = 1)",
    "m.2 = ALL (SELECT v.1 FROM 3 v WHERE 1 = 1)",
    "m.2 = SOME (SELECT v.1 FROM 3 v WHERE 1 = 1)",
    "EXISTS (FROM 2 v WHERE v.1 > 1)",
    "NOT EXISTS (FROM 2 v WHERE v.1 > 1)",
    "m.1 = SOME (SELECT m.1 FROM 2 m WHERE m.1 = 1)",
    "m.2=ALL(SELECT v.1 FROM 2 v WHERE v.1 IS NULL)",
    "(m.2 > 0) IS UNKNOWN",
    "(m.2 > 0) IS NOT TRUE",
    "(m.1 IN (SELECT v.1 FROM 2 v WHERE 1 = 1)) IS NOT UNKNOWN",
    "EXISTS (FROM 2 v WHERE (v.1 = m.1) IS NOT FALSE)",
    "((1 = 1) IS TRUE) IS TRUE",
    "(1 = 1) IS TRUE IS TRUE",
    "EXISTS (FROM 2 v WHERE 1 = 1) IS TRUE",
    "m.2 IS DECLINED",
    "m.2 IS NOT DECLINED",
    "NOT m.2 IS DECLINED",
    "m.2 IS NULL AND NOT m.2 IS DECLINED",
    "1 IS DECLINED",
    "EXISTS (FROM 2 v WHERE v.1 IS DECLINED)",
    "(m.2 IS DECLINED) IS UNKNOWN",
    "(m.2 > 0) IS DECLINED",
];

/// A text of the paper's own, or its nearest neighbour.
pub fn example(draw: &mut Draw) -> Vec<u8> {
    match draw.below(EXAMPLES.len() + 4) {
        0 => vec![b' '; MOST_TEXT_BYTES + 1],
        1 => vec![b'('; MOST_OPEN + 1],
        2 => ["1 = 1"; MOST_PARTS / 2 + 1].join(" OR ").into_bytes(),
        3 => [&"(".repeat(7), "m.2 > 0", &") IS UNKNOWN".repeat(7)].concat().into_bytes(),
        place => EXAMPLES[place - 4].into(),
    }
}

/// Any token.
fn loose(draw: &mut Draw) -> Token {
    match draw.weighted(&[35, 15, 45, 5]) {
        0 => Token::new(draw.pick(&WORDS)),
        1 => Token::new(draw.pick(&SIGNS)),
        2 => Token::new(draw.pick(&LOOSE)),
        _ => tokens::number(draw),
    }
}

/// Any tokens in any order.
pub fn soup(draw: &mut Draw) -> Vec<u8> {
    let count = if draw.percent(95) { draw.below(14) } else { draw.below(900) };
    let tokens: Vec<Token> = (0..count).map(|_| loose(draw)).collect();
    tokens::loosely_spaced(draw, &tokens)
}

/// Any bytes, or any of those that rules are made of.
pub fn random_bytes(draw: &mut Draw) -> Vec<u8> {
    let length = match draw.weighted(&[80, 15, 5]) {
        0 => draw.below(14),
        1 => draw.below(100),
        _ => draw.between(MOST_TEXT_BYTES - 4, MOST_TEXT_BYTES + 4),
    };
    if draw.percent(40) {
        return draw.bytes(length);
    }
    (0..length).map(|_| draw.pick(USEFUL_BYTES)).collect()
}

/// Tokens with one to three changes.
pub fn damaged_tokens(draw: &mut Draw, tokens: &mut Vec<Token>) {
    for _ in 0..draw.pick(&[1, 1, 1, 1, 2, 3]) {
        if !tokens.is_empty() {
            damage_once(draw, tokens);
        }
    }
}

/// One token less, doubled, replaced, more, or swapped with another.
fn damage_once(draw: &mut Draw, tokens: &mut Vec<Token>) {
    let place = draw.below(tokens.len());
    match draw.weighted(&[20, 15, 20, 20, 10, 10, 5]) {
        0 => drop(tokens.remove(place)),
        1 => tokens.insert(place, tokens[place]),
        2 => tokens[place] = loose(draw),
        3 => tokens.insert(place, loose(draw)),
        4 => {
            let other = draw.below(tokens.len());
            tokens.swap(place, other);
        }
        5 => tokens.push(loose(draw)),
        _ => tokens.truncate(place),
    }
}

/// A text with one byte changed, removed or added, or cut. Often it is a gap, so that two tokens run together or one falls apart.
pub fn damaged_bytes(draw: &mut Draw, mut text: Vec<u8>) -> Vec<u8> {
    if text.is_empty() {
        return text;
    }
    let place = draw.below(text.len());
    match draw.weighted(&[20, 20, 20, 20, 5, 5, 10]) {
        0 => drop(text.remove(place)),
        1 => text[place] = draw.word() as u8,
        2 => text[place] = draw.pick(USEFUL_BYTES),
        3 => text.insert(place, draw.pick(USEFUL_BYTES)),
        4 => text.insert(place, draw.pick(b" \n\t\r")),
        5 => text.truncate(place),
        _ => {
            let gaps: Vec<usize> = (0..text.len()).filter(|place| text[*place] == b' ').collect();
            if !gaps.is_empty() {
                text.remove(draw.pick(&gaps));
            }
        }
    }
    text
}

/// A rule with one byte more between two tokens, any of all 256: few of them are gaps or tokens.
pub fn stray_byte(draw: &mut Draw, tokens: &[Token]) -> Vec<u8> {
    let (before, behind) = tokens.split_at(draw.below(tokens.len() + 1));
    let mut text = tokens::spaced(draw, before);
    text.push(draw.word() as u8);
    text.extend(tokens::spaced(draw, behind));
    text
}

/// A text near a limit, on either side of it.
pub fn near_limit(draw: &mut Draw, sizes: &[Size], bounds: Bounds) -> Vec<u8> {
    let parts = draw.between(1, 6);
    match draw.weighted(&[16, 8, 16, 20, 12, 8, 14, 6]) {
        0 => {
            let parts = draw.between(MOST_PARTS - 1, MOST_PARTS + 2);
            let tokens = rules::rule(draw, sizes, parts, bounds);
            tokens::spaced(draw, &tokens)
        }
        1 => many_nots(draw, sizes, bounds),
        2 => deep_froms(draw, sizes),
        3 => many_brackets(draw, sizes, bounds),
        4 => {
            let tokens = rules::rule(draw, sizes, parts, bounds);
            let length = draw.between(MOST_TEXT_BYTES - 1, MOST_TEXT_BYTES + 2);
            tokens::stretched(draw, &tokens, length)
        }
        5 => {
            let mut tokens = rules::rule(draw, sizes, parts, bounds);
            edge_number(draw, &mut tokens);
            tokens::spaced(draw, &tokens)
        }
        6 => {
            let mut tokens = rules::rule(draw, sizes, parts, bounds);
            absent_name(draw, &mut tokens, sizes);
            tokens::spaced(draw, &tokens)
        }
        _ => vast(draw),
    }
}

/// Tokens over and over, up to the longest text: far more of them than an accepted rule has.
fn vast(draw: &mut Draw) -> Vec<u8> {
    let (first, again, last) = draw.pick(&[
        ("", "NOT ", "1=1"),
        ("", "NOT\n", "m.1 IS"),
        ("1=1", " OR 1=1", ""),
        ("m.1=1", "AND m.1=1", " OR k.1=1"),
        ("1=1", " OR(1=1)", ""),
        ("1=1", " OR EXISTS(FROM 1 m WHERE 1=1)", ""),
        ("", "EXISTS(FROM 1 m WHERE ", "1=1"),
        ("", "(", "1=1"),
        ("", ")", "1=1"),
        ("(", ")(", ")"),
        ("", "m.", "1=1"),
        ("1", "=1", ""),
        ("1=", "0 ", ""),
        ("(1=1)", " IS TRUE", ""),
        ("(1=1)IS", " NOT", " FALSE"),
        ("(m.1=1)IS UNKNOWN", " OR(1=1)IS UNKNOWN", ""),
        ("m.1 IS DECLINED", " OR 1 IS DECLINED", ""),
        ("m.1 IS", " NOT", " DECLINED"),
        ("", "DECLINED ", ""),
    ]);
    let most = (MOST_TEXT_BYTES - first.len() - last.len()) / again.len();
    let times = if draw.percent(50) { most + draw.below(2) } else { draw.between(0, most) };
    format!("{first}{}{last}", again.repeat(times)).into_bytes()
}

/// A rule under NOTs, with about 64 parts.
fn many_nots(draw: &mut Draw, sizes: &[Size], bounds: Bounds) -> Vec<u8> {
    let inner = draw.between(1, 3);
    let nots = draw.between(MOST_PARTS - 1, MOST_PARTS + 2) - inner;
    let mut tokens = vec![Token::new("NOT"); nots];
    // without brackets the NOTs belong to the first test alone, and the number of parts is the same
    let inner = rules::rule(draw, sizes, inner, bounds);
    let bracketed = draw.percent(50);
    if bracketed {
        tokens.push(Token::new("("));
    }
    tokens.extend(inner);
    if bracketed {
        tokens.push(Token::new(")"));
    }
    tokens::spaced(draw, &tokens)
}

/// FROMs around one another, two to five of them, beside other tests.
fn deep_froms(draw: &mut Draw, sizes: &[Size]) -> Vec<u8> {
    let mut text = String::from(draw.pick(&["1=1", "m.1=1", "m.1 IS NULL", "m.1 IS DECLINED", "v.1<m.1", "1=", "q.1=1", "0>m.1"]));
    for _ in 0..draw.pick(&[2, 3, 3, 3, 4, 4, 5]) {
        let letter = draw.pick(&['m', 'm', 'v', 'w']);
        let table = if draw.percent(95) { draw.between(1, sizes.len()) } else { draw.pick(&[0, 9]) };
        text = if draw.percent(50) {
            format!("EXISTS(FROM {table} {letter} WHERE {text})")
        } else {
            let form = draw.pick(&["=SOME", "<ALL", ">=SOME", "<>ALL", " IN", " NOT IN"]);
            let selected = draw.pick(&["m.1", "1", "0"]);
            format!("m.1{form}(SELECT {selected} FROM {table} {letter} WHERE {text})")
        };
        match draw.below(8) {
            0 => text = format!("NOT {text}"),
            1 => text = format!("1=1 AND {text}"),
            2 => text = format!("{text} OR EXISTS(FROM 1 m WHERE 1=1)"),
            _ => {}
        }
    }
    text.into_bytes()
}

/// The most brackets that stand open at some token. Closing ones count even where none is open.
pub fn most_open(tokens: &[Token]) -> usize {
    let (mut open, mut most) = (0i64, 0);
    for token in tokens {
        open += i64::from(token.is("(")) - i64::from(token.is(")"));
        most = most.max(open);
    }
    most as usize
}

/// Brackets around a rule, so that about 32 are open in it, and sometimes closing ones before them.
fn many_brackets(draw: &mut Draw, sizes: &[Size], bounds: Bounds) -> Vec<u8> {
    let parts = draw.between(1, 4);
    let mut tokens = rules::rule(draw, sizes, parts, bounds);
    let wanted = draw.between(MOST_OPEN - 1, MOST_OPEN + 2);
    let mut count = wanted.saturating_sub(most_open(&tokens));
    let before = draw.weighted(&[70, 10, 10, 10]);
    if before > 0 {
        // so many closing brackets in front, and up to as many opening ones more: what counts is the difference
        count += draw.below(before + 1);
    }
    let mut wrapped = vec![Token::new(")"); before];
    wrapped.extend(vec![Token::new("("); count]);
    wrapped.append(&mut tokens);
    let closing = if draw.percent(85) { count } else { draw.pick(&[0, count.saturating_sub(1), count + 1]) };
    wrapped.extend(vec![Token::new(")"); closing]);
    tokens::spaced(draw, &wrapped)
}

/// The place of a token that fits, if there is one.
fn place_of(draw: &mut Draw, tokens: &[Token], fits: impl Fn(usize) -> bool) -> Option<usize> {
    let places: Vec<usize> = (0..tokens.len()).filter(|place| fits(*place)).collect();
    (!places.is_empty()).then(|| draw.pick(&places))
}

/// One number of the rule becomes one about the ends of the range.
fn edge_number(draw: &mut Draw, tokens: &mut [Token]) {
    if let Some(place) = place_of(draw, tokens, |place| tokens[place].is_number()) {
        tokens[place] = Token::new(draw.pick(&EDGE_NUMBERS));
    }
}

/// A letter, a column or a table becomes one that may be absent.
pub fn absent_name(draw: &mut Draw, tokens: &mut [Token], sizes: &[Size]) {
    let named = |place: usize| tokens[place].is_letter() || (place > 0 && (tokens[place - 1].is(".") || tokens[place - 1].is("FROM")));
    let Some(place) = place_of(draw, tokens, named) else { return };
    tokens[place] = if tokens[place].is_letter() {
        Token::letter(draw.pick(b"mvwxazkbcdn"))
    } else if tokens[place - 1].is(".") {
        let beyond = sizes[draw.below(sizes.len())].columns as i64 + 1;
        Token::number(draw.pick(&[0, -1, beyond, beyond, beyond, 16, 17, 255, 256, 257, 65537, 0x7FFF_FFFF]), 1)
    } else {
        let beyond = sizes.len() as i64 + 1;
        Token::number(draw.pick(&[0, -1, beyond, beyond, beyond, 8, 9, 255, 256, 257, 65537, 0x7FFF_FFFF]), 1)
    };
}

/// A rule with two or three faults of different refusals, so that the order of refusals shows.
pub fn several_faults(draw: &mut Draw, sizes: &[Size], bounds: Bounds) -> Vec<u8> {
    let parts = draw.between(1, 8);
    let mut tokens = rules::rule(draw, sizes, parts, bounds);
    let mut long = false;
    let mut faults = [3, 4, 5, 6, 7, 8, 13];
    for place in 0..draw.between(2, 3) {
        let other = draw.between(place, faults.len() - 1);
        faults.swap(place, other);
        match faults[place] {
            3 => long = true,
            4 => {
                let at = draw.below(tokens.len() + 1);
                tokens.insert(at, Token::new(draw.pick(&NO_TOKENS)));
            }
            5 => too_many_brackets(draw, &mut tokens),
            6 => damage_once(draw, &mut tokens),
            7 => too_large(draw, &mut tokens),
            13 => truths::too_heavy(draw, &mut tokens),
            _ => absent_name(draw, &mut tokens, sizes),
        }
    }
    if long {
        let length = draw.between(MOST_TEXT_BYTES, MOST_TEXT_BYTES + 2);
        return tokens::stretched(draw, &tokens, length);
    }
    tokens::spaced(draw, &tokens)
}

/// More brackets than may stand open, around everything, or opening ones alone somewhere.
fn too_many_brackets(draw: &mut Draw, tokens: &mut Vec<Token>) {
    let count = MOST_OPEN + draw.below(2);
    let closed = draw.percent(60);
    let at = if closed { 0 } else { draw.below(tokens.len() + 1) };
    tokens.splice(at..at, vec![Token::new("("); count]);
    if closed {
        tokens.extend(vec![Token::new(")"); count]);
    }
}

/// More parts or more FROMs around one another than there may be.
fn too_large(draw: &mut Draw, tokens: &mut Vec<Token>) {
    match draw.below(3) {
        0 => {
            let added = ["OR", "1", "=", "1"].map(Token::new);
            (0..MOST_PARTS / 2 + draw.below(2)).for_each(|_| tokens.extend(added));
        }
        1 => {
            let nots = MOST_PARTS - 1 + draw.below(3);
            tokens.splice(0..0, vec![Token::new("NOT"); nots]);
        }
        _ => {
            let source = ["EXISTS", "(", "FROM", "1", "m", "WHERE"].map(Token::new);
            for _ in 0..draw.between(3, 4) {
                tokens.splice(0..0, source);
                tokens.push(Token::new(")"));
            }
        }
    }
}
