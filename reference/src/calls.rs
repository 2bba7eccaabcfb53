//! The eight calls (section "What the product holds"; document 02, Point 2, for IMPORT and EXPORT). Each gives the first refusal of its
//! order that applies to its whole input, because its steps stand in that order; the numbers rise in it, so this is the lowest that
//! applies. Only those of document 02 stand elsewhere: 13 (Point 1) belongs to reading and comes after 8, and 14 and 15 (Point 2) come
//! before 12. A lent buffer is written last, and no further than the answer goes.

use crate::card::{self, Card};
use crate::grammar;
use crate::lines;
use crate::meaning::{self, Truth};
use crate::part::Part;
use crate::refusal::{self, Refusal};
use crate::rule;
use crate::runner::Runner;
use crate::tables::{self, Tables};
use crate::text;
use crate::translate;

/// READ: text and tables to the list of parts, whose number is given. Refusals, in this order: 1 to 8, 13, 12.
pub fn read(text: &[u8], tables: &[u8], parts: &mut [Part]) -> Result<usize, Refusal> {
    let tables = Tables::read(tables)?;
    let rule = accepted(text, &tables)?;
    lend(&rule, parts)
}

/// JUDGE: text, tables and row number to true, false or unknown. Refusals, in this order: 1 to 8, 13, 11.
pub fn judge(text: &[u8], tables: &[u8], row: usize) -> Result<Truth, Refusal> {
    let tables = Tables::read(tables)?;
    let rule = accepted(text, &tables)?;
    has_row(&tables, row)?;
    Ok(meaning::judge(&rule, &tables, row))
}

/// CARD: text and tables to card bytes, whose number is given. Refusals, in this order: 1 to 8, 13, 12.
pub fn card(text: &[u8], tables: &[u8], card: &mut [u8]) -> Result<usize, Refusal> {
    let tables = Tables::read(tables)?;
    let rule = accepted(text, &tables)?;
    let entries = translate::entries(&rule);
    lend(&card::bytes(&tables, &entries), card)
}

/// CHECK: a card alone, sound or refused. Refusal 9.
pub fn check(card: &[u8]) -> Result<(), Refusal> {
    Card::read(card).map(|_| ())
}

/// RUN: card, tables and row number to yes or no. Refusals, in this order: 1, 2, 9, 10, 11.
pub fn run(card: &[u8], tables: &[u8], row: usize) -> Result<bool, Refusal> {
    let tables = Tables::read(tables)?;
    let card = fitting(card, &tables)?;
    has_row(&tables, row)?;
    Ok(Runner::new(&card, &tables).admits(row))
}

/// LIST: card and tables to the admitted row numbers, rising, whose count is given. Refusals, in this order: 1, 2, 9, 10, 12.
pub fn list(card: &[u8], tables: &[u8], rows: &mut [u32]) -> Result<usize, Refusal> {
    let tables = Tables::read(tables)?;
    let card = fitting(card, &tables)?;
    let runner = Runner::new(&card, &tables);
    let mut admitted = Vec::with_capacity(tables.judged().rows());
    admitted.extend((0..tables.judged().rows()).filter(|&row| runner.admits(row)).map(|row| row as u32));
    lend(&admitted, rows)
}

/// IMPORT: comma lines with this many columns to a tables file with that single table, whose number of bytes is given. Refusals, in
/// this order: 14, 15, 12.
pub fn import(lines: &[u8], columns: usize, tables: &mut [u8]) -> Result<usize, Refusal> {
    let cells = lines::cells(lines, columns)?;
    lend(&tables::single(columns, &cells), tables)
}

/// EXPORT: table 1 of a tables file to comma lines, whose number of bytes is given. Refusals, in this order: 1, 2, 12.
pub fn export(tables: &[u8], lines: &mut [u8]) -> Result<usize, Refusal> {
    let tables = Tables::read(tables)?;
    lend(&lines::bytes(&tables, tables.judged()), lines)
}

/// Reading: the parts of a rule that is accepted with these tables, else a refusal from 3 to 8, or 13 for the sum. Where no inner
/// condition is used twice, 64 parts come to at most 3 entries each, which is 192.
fn accepted(text: &[u8], tables: &Tables) -> Result<Vec<Part>, Refusal> {
    let tokens = text::tokens(text)?;
    let tree = grammar::tree(&tokens)?;
    let rule = rule::parts(&tree, tables)?;
    if tree.uses_twice && translate::sum(&rule) > card::MOST_ENTRIES {
        return Err(refusal::SUM);
    }
    Ok(rule)
}

/// A sound card, else refusal 9, that has the T and columns of the tables, else refusal 10.
fn fitting<'a>(card: &'a [u8], tables: &Tables) -> Result<Card<'a>, Refusal> {
    let card = Card::read(card)?;
    if card.is_for(tables) {
        Ok(card)
    } else {
        Err(refusal::OTHER_TABLES)
    }
}

/// Refusal 11 unless the row is in table 1.
fn has_row(tables: &Tables, row: usize) -> Result<(), Refusal> {
    if row < tables.judged().rows() {
        Ok(())
    } else {
        Err(refusal::ROW)
    }
}

/// Puts an answer at the start of a lent buffer and gives its length, or refusal 12 with the buffer as it was.
fn lend<T: Copy>(answer: &[T], buffer: &mut [T]) -> Result<usize, Refusal> {
    let room = buffer.get_mut(..answer.len()).ok_or(refusal::BUFFER)?;
    room.copy_from_slice(answer);
    Ok(answer.len())
}
