//! The translation of parts to card entries, which have no negation (section "Card", the second paragraph; document 02,
//! Point 1, for truth tests, and Point 4, for declined values).

use crate::card::{Entry, AND, COMPARISON_OR_NO, COMPARISON_OR_YES, EVERY_ROW, OR, SOME_ROW};
use crate::card::{BLANK, DECLINED, NOT_BLANK, NOT_DECLINED};
use crate::comparison;
use crate::part::{self, Part};

/// How a part is to be translated: its true- or false-interpretation, as it is or negated.
#[derive(Clone, Copy)]
struct Sense {
    /// Whether unknown counts as yes.
    true_interpreted: bool,
    /// Whether the interpretation is then negated, all the way in.
    negated: bool,
}

impl Sense {
    /// NOT P false-interpreted is the negation of P true-interpreted, and the reverse.
    fn of_not(self) -> Sense {
        Sense { true_interpreted: !self.true_interpreted, negated: !self.negated }
    }

    /// Every WHERE starts false-interpreted, before any negating. So does a rule, which is not negated.
    fn of_where(negated: bool) -> Sense {
        Sense { true_interpreted: false, negated }
    }

    /// The false-interpretation, in either interpretation around it, and negated just where that is.
    fn false_interpretation(self) -> Sense {
        Sense { true_interpreted: false, ..self }
    }

    /// The true-interpretation, in either interpretation around it, and negated just where that is.
    fn true_interpretation(self) -> Sense {
        Sense { true_interpreted: true, ..self }
    }

    /// The negation of the same interpretation.
    fn negation(self) -> Sense {
        Sense { negated: !self.negated, ..self }
    }

    /// One kind as it is, the other where the sense is negated.
    fn choose(self, kind: u8, negated: u8) -> u8 {
        if self.negated {
            negated
        } else {
            kind
        }
    }
}

/// The entries of an accepted rule, whose sum is at most 192, each before its inner ones, left first.
pub fn entries(parts: &[Part]) -> Vec<Entry> {
    let mut translator = Translator { parts, entries: Vec::with_capacity(sum(parts)) };
    translator.part(0, Sense::of_where(false));
    translator.entries
}

/// n = parts − (parts of kind 3) + 2 × (parts of kinds 8 and 9), where kinds 10 to 13 add nothing either, and the sum becomes 1 plus
/// twice the inner sum at kinds 14 and 15.
pub fn sum(parts: &[Part]) -> usize {
    sum_between(parts, 0, parts.len())
}

/// The sum over the parts from `at` up to `end`. Each is looked at once; since the sum can double with each of 32 brackets, it
/// stays at the highest number that a `usize` has, once there.
fn sum_between(parts: &[Part], mut at: usize, end: usize) -> usize {
    let mut sum = 0_usize;
    while at < end {
        let part = &parts[at];
        at += 1;
        let entries = match part.kind {
            part::NOT | part::IS_TRUE | part::IS_NOT_TRUE | part::IS_FALSE | part::IS_NOT_FALSE => 0,
            part::AND | part::OR | part::COMPARISON | part::EXISTS => 1,
            part::IS_NULL | part::IS_NOT_NULL | part::IS_DECLINED | part::IS_NOT_DECLINED => 1,
            part::SOME | part::ALL => 3,
            part::IS_UNKNOWN | part::IS_NOT_UNKNOWN => {
                let inner = sum_between(parts, at, usize::from(part.end));
                at = usize::from(part.end);
                inner.saturating_mul(2).saturating_add(1)
            }
            _ => unreachable!("a rule has parts of kinds 1 to 17"),
        };
        sum = sum.saturating_add(entries);
    }
    sum
}

/// The parts of an accepted rule and the entries so far. Calls nest at most once for each of the 64 parts.
struct Translator<'a> {
    parts: &'a [Part],
    entries: Vec<Entry>,
}

impl Translator<'_> {
    /// Writes the entries of part `at` in this sense.
    fn part(&mut self, at: usize, sense: Sense) {
        let part = self.parts[at];
        match part.kind {
            part::AND => self.joined(sense.choose(AND, OR), at, sense),
            part::OR => self.joined(sense.choose(OR, AND), at, sense),
            part::NOT => self.part(at + 1, sense.of_not()),
            part::COMPARISON => self.comparison(part, sense),
            part::IS_NULL => self.mark(sense.choose(BLANK, NOT_BLANK), part),
            part::IS_NOT_NULL => self.mark(sense.choose(NOT_BLANK, BLANK), part),
            part::IS_DECLINED => self.mark(sense.choose(DECLINED, NOT_DECLINED), part),
            part::IS_NOT_DECLINED => self.mark(sense.choose(NOT_DECLINED, DECLINED), part),
            part::EXISTS | part::SOME | part::ALL => self.rows(at, sense),
            part::IS_TRUE => self.part(at + 1, sense.false_interpretation()),
            part::IS_NOT_TRUE => self.part(at + 1, sense.false_interpretation().negation()),
            part::IS_FALSE => self.part(at + 1, sense.true_interpretation().negation()),
            part::IS_NOT_FALSE => self.part(at + 1, sense.true_interpretation()),
            part::IS_UNKNOWN => self.unknown(at, sense),
            part::IS_NOT_UNKNOWN => self.unknown(at, sense.negation()),
            _ => unreachable!("a rule has parts of kinds 1 to 17"),
        }
    }

    /// An AND or an OR: two inner entries.
    fn joined(&mut self, kind: u8, at: usize, sense: Sense) {
        let entry = self.open(kind, 0);
        self.part(at + 1, sense);
        self.part(usize::from(self.parts[at + 1].end), sense);
        self.close(entry);
    }

    /// IS UNKNOWN gives and, then the negated false-interpretation, then the true-interpretation; IS NOT UNKNOWN is the negation
    /// of that.
    fn unknown(&mut self, at: usize, sense: Sense) {
        let entry = self.open(sense.choose(AND, OR), 0);
        self.part(at + 1, sense.false_interpretation().negation());
        self.part(at + 1, sense.true_interpretation());
        self.close(entry);
    }

    /// EXISTS gives some row over its WHERE. SOME gives some row, and, WHERE, comparison; ALL gives every row, or, negated WHERE,
    /// comparison. Negating swaps the two shapes.
    fn rows(&mut self, at: usize, sense: Sense) {
        let part = self.parts[at];
        let some = matches!(part.kind, part::EXISTS | part::SOME) != sense.negated;
        let (row_kind, join_kind) = if some { (SOME_ROW, AND) } else { (EVERY_ROW, OR) };
        let row = self.open(row_kind, part.table);
        if part.kind == part::EXISTS {
            self.part(at + 1, Sense::of_where(!some));
        } else {
            let join = self.open(join_kind, 0);
            self.part(at + 1, Sense::of_where(!some));
            self.comparison(part, sense);
            self.close(join);
        }
        self.close(row);
    }

    /// The comparison of a part: kind 5 false-interpreted, 6 true-interpreted; negating swaps the kinds and the comparisons.
    fn comparison(&mut self, part: Part, sense: Sense) {
        let kind = if sense.true_interpreted == sense.negated { COMPARISON_OR_NO } else { COMPARISON_OR_YES };
        self.simple(Entry {
            kind,
            comparison: sense.choose(part.comparison, comparison::negated(part.comparison)),
            left: part.left,
            right: part.right,
            ..Entry::default()
        });
    }

    /// A test by the mark, for a blank or a declined value, which is true or false in either interpretation.
    fn mark(&mut self, kind: u8, part: Part) {
        self.simple(Entry { kind, left: part.left, ..Entry::default() });
    }

    /// Writes an entry that has no inner ones.
    fn simple(&mut self, entry: Entry) {
        self.entries.push(entry);
        self.close(self.entries.len() - 1);
    }

    /// Writes an entry whose inner ones follow, and gives its number.
    fn open(&mut self, kind: u8, table: u8) -> usize {
        self.entries.push(Entry { kind, table, ..Entry::default() });
        self.entries.len() - 1
    }

    /// The end of each entry is written once its last inner entry is in place.
    fn close(&mut self, entry: usize) {
        self.entries[entry].end = self.entries.len() as u16;
    }
}
