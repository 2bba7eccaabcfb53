//! The card's layout and what makes a card sound (section "Card"; document 02, Point 4, for declined values).

use crate::comparison::{AT_LEAST, EQUAL};
use crate::refusal::{self, Refusal};
use crate::tables::{Tables, JUDGED_TABLE, MOST_COLUMNS, MOST_TABLES};
use crate::value::{Value, CONSTANT, MOST_LEVELS};

/// Both inner entries.
pub const AND: u8 = 1;
/// One of the two inner entries.
pub const OR: u8 = 2;
/// The inner entry for some row of the table.
pub const SOME_ROW: u8 = 3;
/// The inner entry for every row of the table.
pub const EVERY_ROW: u8 = 4;
/// A comparison where unknown counts as no.
pub const COMPARISON_OR_NO: u8 = 5;
/// A comparison where unknown counts as yes.
pub const COMPARISON_OR_YES: u8 = 6;
/// The left value is blank or declined.
pub const BLANK: u8 = 7;
/// The left value is neither blank nor declined.
pub const NOT_BLANK: u8 = 8;
/// The left value is declined.
pub const DECLINED: u8 = 9;
/// The left value is not declined.
pub const NOT_DECLINED: u8 = 10;

/// A card has at most this many entries.
pub const MOST_ENTRIES: usize = 192;
/// Bytes before the columns: the number of entries in two, the number of tables in one.
const HEAD_BYTES: usize = 3;
/// Bytes of one record.
const RECORD_BYTES: usize = 14;

/// One entry: its kind byte and its record. Unused fields are 0.
#[derive(Clone, Copy, Debug, Default)]
pub struct Entry {
    pub kind: u8,
    pub table: u8,
    pub comparison: u8,
    /// The number of the first entry after this one and its inner entries.
    pub end: u16,
    pub left: Value,
    pub right: Value,
}

impl Entry {
    /// Record: end, table, comparison, left value, right value.
    fn decode(kind: u8, record: &[u8; RECORD_BYTES]) -> Entry {
        Entry {
            kind,
            table: record[2],
            comparison: record[3],
            end: u16::from_le_bytes([record[0], record[1]]),
            left: decode_value(&record[4..9]),
            right: decode_value(&record[9..14]),
        }
    }

    /// The record of this entry, as `decode` reads it.
    fn record(&self) -> [u8; RECORD_BYTES] {
        let mut record = [0; RECORD_BYTES];
        record[..2].copy_from_slice(&self.end.to_le_bytes());
        record[2] = self.table;
        record[3] = self.comparison;
        encode_value(self.left, &mut record[4..9]);
        encode_value(self.right, &mut record[9..14]);
        record
    }
}

/// A value in a record: tag byte, then a 4-byte number.
fn decode_value(bytes: &[u8]) -> Value {
    let number = i32::from_le_bytes([bytes[1], bytes[2], bytes[3], bytes[4]]);
    Value { tag: bytes[0], number }
}

/// Puts a value into its place in a record, as `decode_value` reads it.
fn encode_value(value: Value, bytes: &mut [u8]) {
    bytes[0] = value.tag;
    bytes[1..].copy_from_slice(&value.number.to_le_bytes());
}

/// The bytes of the card for these tables with these entries.
pub fn bytes(tables: &Tables, entries: &[Entry]) -> Vec<u8> {
    let windows = tables.windows();
    let mut bytes = Vec::with_capacity(length(windows.len(), entries.len()));
    bytes.extend((entries.len() as u16).to_le_bytes());
    bytes.push(windows.len() as u8);
    bytes.extend(windows.iter().map(|window| window.columns() as u8));
    bytes.extend(entries.iter().map(|entry| entry.kind));
    bytes.extend(entries.iter().flat_map(Entry::record));
    bytes
}

/// The card takes 3 + T + 15n bytes.
fn length(tables: usize, entries: usize) -> usize {
    HEAD_BYTES + tables + (1 + RECORD_BYTES) * entries
}

/// A sound card, its entries decoded.
pub struct Card<'a> {
    columns: &'a [u8],
    entries: Vec<Entry>,
}

impl<'a> Card<'a> {
    /// Decodes a card and checks that it is sound, else refusal 9.
    pub fn read(bytes: &'a [u8]) -> Result<Card<'a>, Refusal> {
        let card = Card::decode(bytes).ok_or(refusal::CARD)?;
        let scope = Scope { tables: [JUDGED_TABLE; MOST_LEVELS], deepest: 0 };
        if card.end_of(0, scope) == Some(card.entries.len()) {
            Ok(card)
        } else {
            Err(refusal::CARD)
        }
    }

    /// The entries, entry 0 covering all.
    pub fn entries(&self) -> &[Entry] {
        &self.entries
    }

    /// Whether the tables have the card's T and columns.
    pub fn is_for(&self, tables: &Tables) -> bool {
        self.columns.iter().map(|&columns| usize::from(columns)).eq(tables.windows().iter().map(|window| window.columns()))
    }

    /// The layout: n, T and the columns in their bounds, then n kinds and n records with no spare bytes.
    fn decode(bytes: &'a [u8]) -> Option<Card<'a>> {
        let (&[low, high, tables], rest) = bytes.split_first_chunk::<HEAD_BYTES>()?;
        let count = usize::from(u16::from_le_bytes([low, high]));
        let tables = usize::from(tables);
        if !(1..=MOST_ENTRIES).contains(&count) || !(1..=MOST_TABLES).contains(&tables) || bytes.len() != length(tables, count) {
            return None;
        }
        let (columns, rest) = rest.split_at(tables);
        let fits = |columns: &u8| (1..=MOST_COLUMNS).contains(&usize::from(*columns));
        if !columns.iter().all(fits) {
            return None;
        }
        let (kinds, records) = rest.split_at(count);
        let (records, _) = records.as_chunks();
        let entries = kinds.iter().zip(records).map(|(&kind, record)| Entry::decode(kind, record)).collect();
        Some(Card { columns, entries })
    }

    /// The end of entry `at` as its inner entries give it; none if it, or an inner one, is not sound there. Kinds 1 and 2 have
    /// two inner entries, 3 and 4 one, 5 to 10 none, and there are no others. Calls nest at most once for each of the 192 entries.
    fn end_of(&self, at: usize, scope: Scope) -> Option<usize> {
        let entry = self.entries.get(at)?;
        let end = match entry.kind {
            AND | OR => {
                let second = self.end_of(at + 1, scope)?;
                self.end_of(second, scope)?
            }
            SOME_ROW | EVERY_ROW => self.end_of(at + 1, self.inside(entry.table, scope)?)?,
            COMPARISON_OR_NO | COMPARISON_OR_YES | BLANK | NOT_BLANK | DECLINED | NOT_DECLINED => at + 1,
            _ => return None,
        };
        (usize::from(entry.end) == end && self.has_sound_fields(entry, scope)).then_some(end)
    }

    /// The levels inside a row entry on this table, which must exist; at most three row entries stand around one another.
    fn inside(&self, table: u8, mut scope: Scope) -> Option<Scope> {
        scope.deepest += 1;
        *scope.tables.get_mut(scope.deepest)? = table;
        (1..=self.columns.len()).contains(&usize::from(table)).then_some(scope)
    }

    /// Kinds 3 and 4 use the table, 5 and 6 the comparison and both values, 7 to 10 the left value. Unused bytes are 0.
    fn has_sound_fields(&self, entry: &Entry, scope: Scope) -> bool {
        let unused = Value::default();
        let without_table = entry.table == 0;
        let without_comparison = entry.comparison == 0 && entry.right == unused;
        match entry.kind {
            AND | OR => without_table && without_comparison && entry.left == unused,
            SOME_ROW | EVERY_ROW => without_comparison && entry.left == unused,
            COMPARISON_OR_NO | COMPARISON_OR_YES => {
                let known = (EQUAL..=AT_LEAST).contains(&entry.comparison);
                without_table && known && self.exists(entry.left, scope) && self.exists(entry.right, scope)
            }
            BLANK | NOT_BLANK | DECLINED | NOT_DECLINED => without_table && without_comparison && self.exists(entry.left, scope),
            _ => false,
        }
    }

    /// A value is a constant, or a column that exists in the table of a level that exists at this place.
    fn exists(&self, value: Value, scope: Scope) -> bool {
        if value.tag == CONSTANT {
            return true;
        }
        let level = usize::from(value.tag);
        if level > scope.deepest {
            return false;
        }
        let columns = self.columns[usize::from(scope.tables[level]) - 1];
        (1..=i32::from(columns)).contains(&value.number)
    }
}

/// The levels at an entry, 0 to `deepest`, and the table of each.
#[derive(Clone, Copy)]
struct Scope {
    tables: [u8; MOST_LEVELS],
    deepest: usize,
}
