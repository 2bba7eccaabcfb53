//! Running a sound card on the rows of table 1 (section "Card"; document 02, Point 4, for declined cells): by its kinds alone,
//! and with no text.

use crate::card::{self, Card, Entry};
use crate::comparison;
use crate::tables::{Cell, Levels, Tables};
use crate::value::MOST_LEVELS;

/// The entries of a sound card, and tables with the card's T and columns.
pub struct Runner<'a> {
    entries: &'a [Entry],
    tables: &'a Tables<'a>,
}

impl<'a> Runner<'a> {
    /// A runner for a card and tables that belong together.
    pub fn new(card: &'a Card, tables: &'a Tables) -> Runner<'a> {
        Runner { entries: card.entries(), tables }
    }

    /// Whether the card admits a row of table 1, which must be there.
    pub fn admits(&self, row: usize) -> bool {
        let mut levels = [0; MOST_LEVELS];
        levels[0] = self.tables.judged().row(row);
        self.entry(0, 0, &mut levels)
    }

    /// A compound entry's answer comes from its smaller inner entries; `at` stands at level `level`.
    fn entry(&self, at: usize, level: usize, levels: &mut Levels) -> bool {
        let entry = &self.entries[at];
        match entry.kind {
            card::AND => self.entry(at + 1, level, levels) && self.entry(self.second(at), level, levels),
            card::OR => self.entry(at + 1, level, levels) || self.entry(self.second(at), level, levels),
            card::SOME_ROW => self.some_row(true, at, level, levels),
            card::EVERY_ROW => !self.some_row(false, at, level, levels),
            card::COMPARISON_OR_NO => self.compares(false, entry, levels),
            card::COMPARISON_OR_YES => self.compares(true, entry, levels),
            card::BLANK => self.tables.value(entry.left, levels).is_blank(),
            card::NOT_BLANK => !self.tables.value(entry.left, levels).is_blank(),
            card::DECLINED => self.tables.value(entry.left, levels).is_declined(),
            card::NOT_DECLINED => !self.tables.value(entry.left, levels).is_declined(),
            _ => unreachable!("a sound card has entries of kinds 1 to 10"),
        }
    }

    /// The number of the second inner entry of an and or an or: it begins where the first one ends.
    fn second(&self, at: usize) -> usize {
        usize::from(self.entries[at + 1].end)
    }

    /// Whether the inner entry of a row entry has this answer for some row of its table, the next level at that row.
    fn some_row(&self, answer: bool, at: usize, level: usize, levels: &mut Levels) -> bool {
        self.tables.window(self.entries[at].table).each_row().any(|row| {
            levels[level + 1] = row;
            self.entry(at + 1, level + 1, levels) == answer
        })
    }

    /// Kinds 5 and 6: a comparison with a blank or declined cell is unknown, which counts as no for the one and as yes for the other.
    fn compares(&self, unknown: bool, entry: &Entry, levels: &Levels) -> bool {
        match (self.tables.value(entry.left, levels), self.tables.value(entry.right, levels)) {
            (Cell::Present(left), Cell::Present(right)) => comparison::holds(entry.comparison, left, right),
            (Cell::Blank | Cell::Declined, _) | (_, Cell::Blank | Cell::Declined) => unknown,
        }
    }
}
