//! One input: a call with its bytes, its row or columns and the length of its lent buffer; and the mixture that inputs are drawn from.

use crate::draw::Draw;
use crate::limits::{card_bytes, MOST_ENTRIES, MOST_LINES_BYTES, MOST_PARTS, MOST_ROWS, MOST_TABLES, MOST_TABLE_BYTES, MOST_TEXT_BYTES};
use crate::rules::{self, Bounds};
use crate::tables::{self, Size};
use crate::{cards, declined, faults, lines, tokens, truths};

#[derive(Clone, Copy, PartialEq, Eq, Debug)]
pub enum Call {
    Read,
    Judge,
    Card,
    Check,
    Run,
    List,
    Import,
    Export,
}

/// The bytes of the longest sound card.
const MOST_CARD_BYTES: usize = card_bytes(MOST_TABLES, MOST_ENTRIES);

pub const CALLS: [Call; 8] = [Call::Read, Call::Judge, Call::Card, Call::Check, Call::Run, Call::List, Call::Import, Call::Export];

/// How many turns are taken until all calls had theirs: two each, but one for EXPORT, which is given a tables file alone.
const TURNS: usize = 2 * CALLS.len() - 1;

/// Everything that one call is given. What its call does not take stays empty.
pub struct Input {
    pub call: Call,
    /// A rule's text, or comma lines.
    pub text: Vec<u8>,
    pub tables: Vec<u8>,
    pub card: Vec<u8>,
    pub row: usize,
    /// What IMPORT is told.
    pub columns: usize,
    /// Elements of the lent buffer: parts, bytes or row numbers.
    pub lent: usize,
    /// Where buffers of bytes start, past a multiple of eight.
    pub shift: usize,
    /// What the pattern in the buffers starts from.
    pub salt: u8,
}

/// Input number `number` of a seed. The calls take turns.
pub fn input(seed: u64, number: u64) -> Input {
    let mut draw = Draw::new(seed, number);
    let call = CALLS[number as usize % TURNS % CALLS.len()];
    let (shift, salt) = (draw.below(8), draw.word() as u8);
    let mut input = Input { call, text: Vec::new(), tables: Vec::new(), card: Vec::new(), row: 0, columns: 0, lent: 0, shift, salt };
    match call {
        Call::Read | Call::Judge | Call::Card => text_and_tables(&mut draw, &mut input),
        Call::Check | Call::Run | Call::List => card_and_tables(&mut draw, &mut input),
        Call::Import => (input.text, input.columns) = lines::lines(&mut draw),
        Call::Export => input.tables = lines::tables(&mut draw),
    }
    if matches!(call, Call::Judge | Call::Run) {
        input.row = row(&mut draw, &input.tables);
    }
    if !matches!(call, Call::Judge | Call::Check | Call::Run) {
        input.lent = lent(&mut draw, &input);
    }
    input
}

/// How many steps one answer may take: mostly few, so that many inputs can be compared, and rarely many.
fn step_limit(draw: &mut Draw) -> usize {
    match draw.below(4096) {
        0 => 4_000_000,
        1..=4 => 1_000_000,
        5..=40 => 200_000,
        41..=1023 => 20_000,
        _ => 4_000,
    }
}

/// The bounds of a rule or card over these sizes: a call that evaluates nothing needs none on its steps. Enough are left to go
/// through the longest table once.
fn bounds(draw: &mut Draw, call: Call, sizes: &[Size]) -> Bounds {
    let judged = if call == Call::List { sizes[0].rows } else { 1 };
    let steps = match call {
        Call::Read | Call::Card | Call::Check => usize::MAX >> 16,
        _ if tables::is_tall(sizes) => step_limit(draw).max(5_000),
        _ => step_limit(draw),
    };
    Bounds { steps, judged, froms: 3 }
}

/// A number of parts for a rule over these sizes: few where a table has many rows, so that the rule can go through them.
fn part_count(draw: &mut Draw, sizes: &[Size]) -> usize {
    if tables::is_tall(sizes) && draw.percent(80) {
        draw.between(2, 5)
    } else {
        rules::part_count(draw)
    }
}

/// A text and tables. Damaged texts may go through any table, so where they are evaluated the tables are small.
fn text_and_tables(draw: &mut Draw, input: &mut Input) {
    if draw.percent(3) {
        let (sizes, file) = tables::proved();
        input.text = faults::example(draw);
        input.tables = if draw.percent(50) { file } else { tables::file(draw, &sizes) };
        return;
    }
    let right = draw.percent(60);
    let sizes = if right || input.call != Call::Judge { tables::sizes(draw) } else { tables::small_sizes(draw) };
    let bounds = bounds(draw, input.call, &sizes);
    input.text = if right { right_text(draw, &sizes, bounds) } else { other_text(draw, &sizes, bounds) };
    input.tables = if draw.percent(91) { tables::file(draw, &sizes) } else { tables::damaged(draw, &sizes) };
}

/// A rule, as the grammar and the names allow it.
fn right_text(draw: &mut Draw, sizes: &[Size], bounds: Bounds) -> Vec<u8> {
    let parts = part_count(draw, sizes);
    let tokens = rules::rule(draw, sizes, parts, bounds);
    if draw.below(200) == 0 {
        let length = draw.between(3000, MOST_TEXT_BYTES);
        return tokens::stretched(draw, &tokens, length);
    }
    tokens::spaced(draw, &tokens)
}

/// A text that is mostly refused, or near to be.
fn other_text(draw: &mut Draw, sizes: &[Size], bounds: Bounds) -> Vec<u8> {
    match draw.weighted(&[16, 13, 40, 20, 5, 4, 7, 40, 15]) {
        0 => {
            let parts = draw.between(1, 8);
            let mut tokens = rules::rule(draw, sizes, parts, bounds);
            faults::damaged_tokens(draw, &mut tokens);
            if draw.percent(70) {
                tokens::spaced(draw, &tokens)
            } else {
                tokens::loosely_spaced(draw, &tokens)
            }
        }
        1 => {
            let parts = draw.between(1, 8);
            let tokens = rules::rule(draw, sizes, parts, bounds);
            let text = tokens::spaced(draw, &tokens);
            faults::damaged_bytes(draw, text)
        }
        2 => faults::near_limit(draw, sizes, bounds),
        3 => faults::several_faults(draw, sizes, bounds),
        4 => faults::soup(draw),
        5 => faults::random_bytes(draw),
        6 => {
            let parts = draw.between(1, 4);
            let tokens = rules::rule(draw, sizes, parts, bounds);
            faults::stray_byte(draw, &tokens)
        }
        7 => truths::text(draw, sizes, bounds),
        _ => declined::text(draw, sizes, bounds),
    }
}

/// A card, and tables for it. Damaged cards may go through any table, so theirs are small. LIST wants more than a row or two in
/// table 1, so that it admits some and not others.
fn card_and_tables(draw: &mut Draw, input: &mut Input) {
    let alone = input.call == Call::Check;
    let right = draw.percent(if alone { 45 } else { 75 });
    let mut sizes = if right { tables::sizes(draw) } else { tables::small_sizes(draw) };
    if input.call == Call::List && sizes[0].rows < 3 && draw.percent(70) {
        sizes[0].rows = draw.between(3, 12);
    }
    let bounds = bounds(draw, input.call, &sizes);
    let mut file_sizes = sizes.clone();
    if right {
        input.card = sound_card(draw, &sizes, bounds);
    } else if draw.percent(4) {
        input.card = cards::example(draw);
        file_sizes = vec![Size { columns: 3, rows: 3 }];
    } else {
        input.card = other_card(draw, &sizes, bounds);
    }
    if alone {
        return;
    }
    if draw.percent(8) {
        file_sizes = tables::differing(draw, &file_sizes);
    }
    input.tables = if draw.percent(93) { tables::file(draw, &file_sizes) } else { tables::damaged(draw, &file_sizes) };
}

/// A sound card: a rule's, or a tree that no rule need have.
fn sound_card(draw: &mut Draw, sizes: &[Size], bounds: Bounds) -> Vec<u8> {
    if draw.percent(50) {
        if let Some(card) = rule_card(draw, sizes, bounds) {
            return card;
        }
    }
    let count = if tables::is_tall(sizes) && draw.percent(80) { draw.between(2, 5) } else { cards::entry_count(draw) };
    cards::tree(draw, sizes, count, bounds)
}

/// The card of a drawn rule. Only the columns of the tables count for it, so tables without rows are enough to make it.
fn rule_card(draw: &mut Draw, sizes: &[Size], bounds: Bounds) -> Option<Vec<u8>> {
    let tokens = if draw.percent(4) {
        let sum = draw.between(MOST_ENTRIES / 2, MOST_ENTRIES);
        rules::rule_of_sum(draw, sizes, sum, bounds)
    } else {
        let parts = part_count(draw, sizes);
        rules::rule(draw, sizes, parts, bounds)
    };
    let text = tokens::spaced(draw, &tokens);
    let empty: Vec<Size> = sizes.iter().map(|size| Size { rows: 0, ..*size }).collect();
    let mut card = [0; MOST_CARD_BYTES];
    let length = reference::card(&text, &tables::head(&empty), &mut card).ok()?;
    Some(card[..length].to_vec())
}

/// A card that is mostly not sound.
fn other_card(draw: &mut Draw, sizes: &[Size], bounds: Bounds) -> Vec<u8> {
    match draw.weighted(&[75, 17, 8]) {
        0 => {
            let card = sound_card(draw, sizes, bounds);
            cards::damaged(draw, card)
        }
        1 => cards::unsound(draw, sizes, bounds),
        _ => cards::random_card(draw),
    }
}

/// The rows of table 1 as the tables' bytes say it, or none.
pub fn rows_of_first(tables: &[u8]) -> usize {
    if tables.len() < 4 {
        0
    } else {
        usize::from(tables[2]) + 256 * usize::from(tables[3])
    }
}

/// A row: mostly one that there is, or the first that there is not, or one whose low bits alone would be one.
fn row(draw: &mut Draw, tables: &[u8]) -> usize {
    let rows = rows_of_first(tables);
    let some = if rows > 0 { draw.below(rows) } else { 0 };
    match draw.weighted(&[76, 10, 6, 2, 2, 4]) {
        0 => some,
        1 => rows.saturating_sub(1),
        2 => rows,
        3 => rows + 1,
        4 => usize::MAX - draw.below(2),
        _ => some + draw.pick(&[1 << 8, 1 << 16, 1 << 31, 1 << 32, 1 << 63]),
    }
}

/// Elements to lend: about as many as the answer takes, or none, or more than any answer takes, or more than a byte or two can count.
fn lent(draw: &mut Draw, input: &Input) -> usize {
    let (most, huge) = match input.call {
        Call::Read => (MOST_PARTS, 256),
        Call::Card => (MOST_CARD_BYTES, 65536),
        // a cell is five bytes of a tables file; lines have a byte behind each cell but the last
        Call::Import => ((9 + 5 * input.text.len()).min(MOST_TABLE_BYTES), 65536),
        // and at most twelve bytes of lines
        Call::Export => ((12 * input.tables.len() / 5).min(MOST_LINES_BYTES), MOST_LINES_BYTES),
        _ => (rows_of_first(&input.tables), 65536),
    };
    match draw.weighted(&[180, 12, 148, 59, 1]) {
        0 => {
            let needed = needed(input).unwrap_or(draw.pick(&[0, 1, 5, 20]));
            (needed + draw.pick(&[0, 1, 2, 2, 2, 2, 3, 4])).saturating_sub(2)
        }
        1 => 0,
        2 => most + draw.below(4),
        3 => draw.below(most.min(100) + 1),
        _ => huge + draw.below(4),
    }
}

/// How many elements the answer takes, if there is one: found by lending enough.
fn needed(input: &Input) -> Option<usize> {
    let answer = match input.call {
        Call::Read => reference::read(&input.text, &input.tables, &mut [reference::Part::default(); MOST_PARTS]),
        Call::Card => reference::card(&input.text, &input.tables, &mut [0; MOST_CARD_BYTES]),
        Call::Import => reference::import(&input.text, input.columns, &mut [0; MOST_TABLE_BYTES]),
        Call::Export => reference::export(&input.tables, &mut [0; MOST_LINES_BYTES]),
        _ => reference::list(&input.card, &input.tables, &mut [0; MOST_ROWS]),
    };
    answer.ok()
}
