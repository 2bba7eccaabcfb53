//! Drawing of cards: sound ones as trees of entries, and damaged ones of each sort.

use crate::draw::Draw;
use crate::limits::{card_bytes, ENTRY_BYTES, MOST_COLUMNS, MOST_ENTRIES, RECORD_BYTES};
use crate::rules::Bounds;
use crate::tables::{self, Size};

/// The tag of a constant.
const CONSTANT: u8 = 255;

/// The kinds of document 02, Point 4.
pub const DECLINED: u8 = 9;
pub const NOT_DECLINED: u8 = 10;

/// The places of fields in a record.
const TABLE: usize = 2;
const COMPARISON: usize = 3;
const LEFT: usize = 4;
const RIGHT: usize = 9;

#[derive(Clone, Copy, Default)]
struct Value {
    tag: u8,
    number: i32,
}

#[derive(Clone, Copy, Default)]
struct Entry {
    kind: u8,
    end: usize,
    table: u8,
    comparison: u8,
    left: Value,
    right: Value,
}

/// Draws the entries of one card.
struct Tree<'a> {
    draw: &'a mut Draw,
    sizes: &'a [Size],
    bounds: Bounds,
    entries: Vec<Entry>,
    /// The places of the tables whose rows stand around, by level.
    levels: Vec<usize>,
    /// Evaluations of an entry that stands here.
    steps: usize,
    /// How often, in a hundred, a row entry is drawn where a pair could stand.
    rows: usize,
}

/// A number of entries, mostly small, at most 192.
pub fn entry_count(draw: &mut Draw) -> usize {
    match draw.weighted(&[12, 45, 28, 10, 5]) {
        0 => 1,
        1 => draw.between(2, 6),
        2 => draw.between(7, 20),
        3 => draw.between(21, 100),
        _ => draw.pick(&[MOST_ENTRIES - 12, MOST_ENTRIES - 2, MOST_ENTRIES - 1, MOST_ENTRIES, MOST_ENTRIES]),
    }
}

/// The bytes of a card that is a tree of so many entries, or of a few fewer where a row entry would take too long to run.
pub fn tree(draw: &mut Draw, sizes: &[Size], count: usize, bounds: Bounds) -> Vec<u8> {
    let entries = entries(draw, sizes, count, bounds);
    written(sizes, &entries)
}

fn entries(draw: &mut Draw, sizes: &[Size], count: usize, bounds: Bounds) -> Vec<Entry> {
    let rows = draw.pick(&[0, 10, 30, 60]);
    let steps = bounds.judged.max(1);
    let mut tree = Tree { draw, sizes, bounds, entries: Vec::with_capacity(count), levels: vec![0], steps, rows };
    tree.entry(count);
    tree.entries
}

impl Tree<'_> {
    /// An entry and what is in it, so many together. An even number of them takes a row entry.
    fn entry(&mut self, count: usize) {
        let place = self.entries.len();
        let wanted = count == 2 || (count > 2 && self.draw.percent(self.rows));
        if let Some(table) = self.source(count).filter(|_| wanted) {
            self.row_entry(table, count - 1);
        } else if count > 2 {
            self.pair(count - 1);
        } else {
            self.plain();
        }
        self.entries[place].end = self.entries.len();
    }

    /// The place of a table whose rows may be gone through here.
    fn source(&mut self, count: usize) -> Option<usize> {
        let table = self.draw.below(self.sizes.len());
        let steps = self.steps * self.sizes[table].rows.max(1);
        (self.levels.len() <= self.bounds.froms && steps * count <= self.bounds.steps).then_some(table)
    }

    fn row_entry(&mut self, table: usize, inner: usize) {
        let kind = self.draw.pick(&[3, 4]);
        self.entries.push(Entry { kind, table: table as u8 + 1, ..Entry::default() });
        let steps = self.steps;
        self.steps *= self.sizes[table].rows.max(1);
        self.levels.push(table);
        self.entry(inner);
        self.levels.pop();
        self.steps = steps;
    }

    /// Two inner entries: often a single one and a large one, so that trees become deep on either side.
    fn pair(&mut self, inner: usize) {
        let kind = self.draw.pick(&[1, 2]);
        self.entries.push(Entry { kind, ..Entry::default() });
        let first = match self.draw.below(4) {
            0 => 1,
            1 => inner - 1,
            _ => self.draw.between(1, inner - 1),
        };
        self.entry(first);
        self.entry(inner - first);
    }

    fn plain(&mut self) {
        let left = self.value();
        let entry = if self.draw.percent(65) {
            let (kind, comparison) = (self.draw.pick(&[5, 6]), self.draw.between(1, 6) as u8);
            Entry { kind, comparison, left, right: self.value(), ..Entry::default() }
        } else {
            Entry { kind: self.draw.pick(&[7, 8, DECLINED, NOT_DECLINED]), left, ..Entry::default() }
        };
        self.entries.push(entry);
    }

    fn value(&mut self) -> Value {
        if self.draw.percent(25) {
            return Value { tag: CONSTANT, number: tables::value(self.draw) };
        }
        let innermost = self.levels.len() - 1;
        let level = if self.draw.percent(50) { innermost } else { self.draw.below(innermost + 1) };
        let columns = self.sizes[self.levels[level]].columns;
        Value { tag: level as u8, number: self.draw.between(1, columns) as i32 }
    }
}

/// The bytes of a card with these entries.
fn written(sizes: &[Size], entries: &[Entry]) -> Vec<u8> {
    let mut bytes = Vec::with_capacity(card_bytes(sizes.len(), entries.len()));
    bytes.extend_from_slice(&(entries.len() as u16).to_le_bytes());
    bytes.push(sizes.len() as u8);
    bytes.extend(sizes.iter().map(|size| size.columns as u8));
    bytes.extend(entries.iter().map(|entry| entry.kind));
    for entry in entries {
        bytes.extend_from_slice(&(entry.end as u16).to_le_bytes());
        bytes.extend_from_slice(&[entry.table, entry.comparison]);
        for value in [entry.left, entry.right] {
            bytes.push(value.tag);
            bytes.extend_from_slice(&value.number.to_le_bytes());
        }
    }
    bytes
}

/// A sound card's bytes, with the places of its entries' fields, to be damaged.
struct Sheet {
    bytes: Vec<u8>,
    count: usize,
    tables: usize,
}

impl Sheet {
    fn kind_at(&self, entry: usize) -> usize {
        3 + self.tables + entry
    }

    fn record_at(&self, entry: usize) -> usize {
        3 + self.tables + self.count + RECORD_BYTES * entry
    }

    fn kind(&self, entry: usize) -> u8 {
        self.bytes[self.kind_at(entry)]
    }

    fn end(&self, entry: usize) -> usize {
        let at = self.record_at(entry);
        usize::from(self.bytes[at]) + 256 * usize::from(self.bytes[at + 1])
    }

    /// An entry of one of these kinds, or any entry where there is none of them.
    fn entry_of(&self, draw: &mut Draw, kinds: &[u8]) -> usize {
        let found: Vec<usize> = (0..self.count).filter(|entry| kinds.contains(&self.kind(*entry))).collect();
        if found.is_empty() {
            draw.below(self.count)
        } else {
            draw.pick(&found)
        }
    }

    /// The columns of the tables whose rows stand around an entry, by level.
    fn columns_around(&self, entry: usize) -> Vec<u8> {
        let around = (0..entry).filter(|outer| matches!(self.kind(*outer), 3 | 4) && self.end(*outer) > entry);
        let tables = around.map(|outer| self.bytes[self.record_at(outer) + TABLE]);
        std::iter::once(1).chain(tables).map(|table| self.bytes[2 + usize::from(table)]).collect()
    }

    fn set_count(&mut self, count: usize) {
        self.bytes[..2].copy_from_slice(&(count as u16).to_le_bytes());
    }
}

/// The card with one damage. It must be sound.
pub fn damaged(draw: &mut Draw, bytes: Vec<u8>) -> Vec<u8> {
    let count = usize::from(bytes[0]) + 256 * usize::from(bytes[1]);
    let tables = usize::from(bytes[2]);
    let mut sheet = Sheet { bytes, count, tables };
    match draw.weighted(&[12, 8, 8, 6, 12, 12, 16, 5, 4, 6, 8, 8]) {
        0 => bad_end(draw, &mut sheet),
        1 => bad_kind(draw, &mut sheet),
        2 => bad_table(draw, &mut sheet),
        3 => bad_comparison(draw, &mut sheet),
        4 => bad_level(draw, &mut sheet),
        5 => bad_column(draw, &mut sheet),
        6 => unused_byte(draw, &mut sheet),
        7 => bad_count(draw, &mut sheet),
        8 => sheet.bytes[2] = draw.pick(&[0, 9, 255, tables as u8 + 1, tables as u8 - 1]),
        9 => sheet.bytes[3 + draw.below(tables)] = draw.pick(&[0, 0, MOST_COLUMNS as u8 + 1, MOST_COLUMNS as u8 + 1, 255, 1]),
        10 => bad_length(draw, &mut sheet),
        _ => {
            let place = draw.below(sheet.bytes.len());
            let held = sheet.bytes[place];
            sheet.bytes[place] = draw.pick(&[held.wrapping_add(1), held.wrapping_sub(1), held ^ 128, 0]);
        }
    }
    sheet.bytes
}

/// An end one off, or far off, or 256 too large.
fn bad_end(draw: &mut Draw, sheet: &mut Sheet) {
    let entry = if draw.percent(50) { draw.below(sheet.count) } else { sheet.entry_of(draw, &[1, 2, 3, 4]) };
    let end = sheet.end(entry);
    let other = draw.pick(&[end + 1, end + 1, end.saturating_sub(1), end.saturating_sub(1), 0, entry, sheet.count, 65535, end + 256]);
    let at = sheet.record_at(entry);
    sheet.bytes[at..at + 2].copy_from_slice(&(other as u16).to_le_bytes());
}

/// A kind that there is not, though parts have some of these, or another one with fields of the first.
fn bad_kind(draw: &mut Draw, sheet: &mut Sheet) {
    let at = sheet.kind_at(draw.below(sheet.count));
    sheet.bytes[at] = draw.pick(&[0, 11, 11, 12, 14, 16, 17, 255, 1, 2, 3, 4, 5, 6, 7, 8, DECLINED, NOT_DECLINED]);
}

fn bad_table(draw: &mut Draw, sheet: &mut Sheet) {
    let at = sheet.record_at(sheet.entry_of(draw, &[3, 4])) + TABLE;
    sheet.bytes[at] = draw.pick(&[0, sheet.tables as u8 + 1, 9, 255]);
}

fn bad_comparison(draw: &mut Draw, sheet: &mut Sheet) {
    let at = sheet.record_at(sheet.entry_of(draw, &[5, 6])) + COMPARISON;
    sheet.bytes[at] = draw.pick(&[0, 7, 8, 255]);
}

/// An entry with values, and the place of one that its kind uses.
fn value_at(draw: &mut Draw, sheet: &Sheet) -> (usize, usize) {
    let entry = if draw.percent(75) { sheet.entry_of(draw, &[5, 6, 7, 8]) } else { sheet.entry_of(draw, &[DECLINED, NOT_DECLINED]) };
    let right = matches!(sheet.kind(entry), 5 | 6) && draw.percent(50);
    (entry, sheet.record_at(entry) + if right { RIGHT } else { LEFT })
}

/// A level that has no row around the entry, mostly the first such, with a column that every table has.
fn bad_level(draw: &mut Draw, sheet: &mut Sheet) {
    let (entry, at) = value_at(draw, sheet);
    let absent = sheet.columns_around(entry).len() as u8;
    sheet.bytes[at] = draw.pick(&[absent, absent, absent, 4, 5, 128, 254]);
    sheet.bytes[at + 1..at + 5].copy_from_slice(&[1, 0, 0, 0]);
}

/// A column that the table of a level lacks.
fn bad_column(draw: &mut Draw, sheet: &mut Sheet) {
    let (entry, at) = value_at(draw, sheet);
    let around = sheet.columns_around(entry);
    let level = draw.below(around.len());
    let columns = i32::from(around[level]);
    let bad =
        draw.pick(&[0, 0, columns + 1, columns + 1, columns + 1, MOST_COLUMNS as i32 + 1, -1, 256, 257, 65537, 0x0100_0001, i32::MIN + 1]);
    sheet.bytes[at] = level as u8;
    sheet.bytes[at + 1..at + 5].copy_from_slice(&bad.to_le_bytes());
}

/// A byte that the entry's kind leaves unused is not 0.
fn unused_byte(draw: &mut Draw, sheet: &mut Sheet) {
    let entry = if draw.percent(75) { draw.below(sheet.count) } else { sheet.entry_of(draw, &[DECLINED, NOT_DECLINED]) };
    let fields: &[usize] = match sheet.kind(entry) {
        1 | 2 => &[TABLE, COMPARISON, LEFT, RIGHT],
        3 | 4 => &[COMPARISON, LEFT, RIGHT],
        5 | 6 => &[TABLE],
        // kinds 7 to 10
        _ => &[TABLE, COMPARISON, RIGHT],
    };
    let field = draw.pick(fields);
    let within = if field >= LEFT { draw.below(5) } else { 0 };
    let at = sheet.record_at(entry) + field + within;
    sheet.bytes[at] = draw.pick(&[1, 1, 2, 128, 255]);
}

/// A number of entries that the bytes do not have.
fn bad_count(draw: &mut Draw, sheet: &mut Sheet) {
    let count = sheet.count;
    sheet.set_count(draw.pick(&[0, count + 1, count - 1, MOST_ENTRIES, MOST_ENTRIES + 1, count + 256]));
}

/// Spare bytes, or cut off.
fn bad_length(draw: &mut Draw, sheet: &mut Sheet) {
    let length = sheet.bytes.len();
    match draw.below(5) {
        0 => sheet.bytes.push(draw.pick(&[0, 0, 1])),
        1 => sheet.bytes.extend(vec![0; draw.pick(&[RECORD_BYTES, ENTRY_BYTES])]),
        2 => sheet.bytes.truncate(length - 1),
        3 => sheet.bytes.truncate(length - draw.pick(&[RECORD_BYTES, ENTRY_BYTES])),
        _ => sheet.bytes.truncate(draw.below(length)),
    }
}

/// A card whose layout is right and whose tree is not: it has one fault that only shows over several entries.
pub fn unsound(draw: &mut Draw, sizes: &[Size], bounds: Bounds) -> Vec<u8> {
    let count = draw.between(1, 9);
    let mut drawn = entries(draw, sizes, count, bounds);
    match draw.below(4) {
        0 => {
            // a second tree beside the first, so that entry 0 does not cover all
            let shift = drawn.len();
            let more = entries(draw, sizes, count, bounds);
            drawn.extend(more.iter().map(|entry| Entry { end: entry.end + shift, ..*entry }));
        }
        1 => {
            // one entry left out, or one more
            let place = draw.below(drawn.len());
            if draw.percent(50) && drawn.len() > 1 {
                drawn.remove(place);
            } else {
                drawn.insert(place, drawn[place]);
            }
        }
        2 => drawn = beneath_rows(draw, sizes, &drawn),
        _ => {
            let beyond = MOST_ENTRIES + draw.between(1, 2);
            drawn = entries(draw, sizes, beyond, bounds);
        }
    }
    written(sizes, &drawn)
}

/// The entries beneath three or four row entries, whose rows their values do not name.
fn beneath_rows(draw: &mut Draw, sizes: &[Size], inner: &[Entry]) -> Vec<Entry> {
    let rows = draw.between(3, 4);
    let end = rows + inner.len();
    let table = draw.between(1, sizes.len()) as u8;
    let mut all = vec![Entry { kind: draw.pick(&[3, 4]), end, table, ..Entry::default() }; rows];
    all.extend(inner.iter().map(|entry| Entry { end: entry.end + rows, ..*entry }));
    all
}

/// Any bytes, often with a first byte that fits their number.
pub fn random_card(draw: &mut Draw) -> Vec<u8> {
    let length = draw.below(80);
    let mut bytes = draw.bytes(length);
    if bytes.len() > 3 && draw.percent(60) {
        bytes[..3].copy_from_slice(&[draw.below(4) as u8, 0, draw.below(4) as u8]);
        let small = draw.pick(&[2, 10, 256]);
        bytes[3..].iter_mut().for_each(|byte| *byte = (usize::from(*byte) % small) as u8);
    }
    bytes
}

/// The paper's card for `NOT m.2 < 5` on one table of three columns, its example of an unsound one, and none at all; and the card with
/// one entry of kind 7 to 11 for column 2 or for the number 2.
pub fn example(draw: &mut Draw) -> Vec<u8> {
    match draw.below(8) {
        0 => vec![0, 0],
        1 => Vec::new(),
        2 | 3 => vec![1, 0, 1, 3, 5, 1, 0, 0, 6, 0, 2, 0, 0, 0, 0xFF, 5, 0, 0, 0],
        _ => {
            let (kind, tag) = (draw.pick(&[7, 8, DECLINED, DECLINED, NOT_DECLINED, NOT_DECLINED, 11]), draw.pick(&[0, 0, CONSTANT]));
            vec![1, 0, 1, 3, kind, 1, 0, 0, 0, tag, 2, 0, 0, 0, 0, 0, 0, 0, 0]
        }
    }
}
