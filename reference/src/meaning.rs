//! The three-valued meaning of parts (section "Meaning"; document 02, Point 1, for truth tests, and Point 4, for declined values).

use crate::comparison;
use crate::part::{self, Part};
use crate::tables::{Cell, Levels, Tables};
use crate::value::{Value, MOST_LEVELS};

/// What a rule is on a row.
#[derive(Clone, Copy, Debug, PartialEq, Eq)]
pub enum Truth {
    /// The rule does not hold.
    False,
    /// A blank or declined cell leaves it open.
    Unknown,
    /// The rule holds.
    True,
}

impl Truth {
    /// True or false, never unknown.
    fn known(holds: bool) -> Truth {
        if holds {
            Truth::True
        } else {
            Truth::False
        }
    }

    /// NOT keeps unknown.
    fn not(self) -> Truth {
        match self {
            Truth::False => Truth::True,
            Truth::Unknown => Truth::Unknown,
            Truth::True => Truth::False,
        }
    }
}

/// The meaning of a rule on a row of table 1, which must be there.
pub fn judge(parts: &[Part], tables: &Tables, row: usize) -> Truth {
    let mut levels = [0; MOST_LEVELS];
    levels[0] = tables.judged().row(row);
    Judge { parts, tables }.part(0, 0, &mut levels)
}

/// The parts of an accepted rule and the tables to judge it with.
struct Judge<'a> {
    parts: &'a [Part],
    tables: &'a Tables<'a>,
}

impl Judge<'_> {
    /// The meaning of part `at`, which stands at level `level`.
    fn part(&self, at: usize, level: usize, levels: &mut Levels) -> Truth {
        let part = &self.parts[at];
        match part.kind {
            part::AND => self.joined(Truth::False, at, level, levels),
            part::OR => self.joined(Truth::True, at, level, levels),
            part::NOT => self.part(at + 1, level, levels).not(),
            part::COMPARISON => {
                let left = self.tables.value(part.left, levels);
                self.compared(part.comparison, left, part.right, levels)
            }
            part::IS_NULL => Truth::known(self.tables.value(part.left, levels).is_blank()),
            part::IS_NOT_NULL => Truth::known(!self.tables.value(part.left, levels).is_blank()),
            part::EXISTS => self.exists(at, level, levels),
            part::SOME => self.listed(Truth::True, at, level, levels),
            part::ALL => self.listed(Truth::False, at, level, levels),
            part::IS_TRUE => self.is(Truth::True, at, level, levels),
            part::IS_NOT_TRUE => self.is(Truth::True, at, level, levels).not(),
            part::IS_FALSE => self.is(Truth::False, at, level, levels),
            part::IS_NOT_FALSE => self.is(Truth::False, at, level, levels).not(),
            part::IS_UNKNOWN => self.is(Truth::Unknown, at, level, levels),
            part::IS_NOT_UNKNOWN => self.is(Truth::Unknown, at, level, levels).not(),
            part::IS_DECLINED => Truth::known(self.tables.value(part.left, levels).is_declined()),
            part::IS_NOT_DECLINED => Truth::known(!self.tables.value(part.left, levels).is_declined()),
            _ => unreachable!("a rule has parts of kinds 1 to 17"),
        }
    }

    /// A truth test: whether the inner condition is this one of the three. The outcome is never unknown, as in SQL-92.
    fn is(&self, truth: Truth, at: usize, level: usize, levels: &mut Levels) -> Truth {
        Truth::known(self.part(at + 1, level, levels) == truth)
    }

    /// AND is false if one side is false, else unknown if one is unknown; OR is its mirror, decided by a true side.
    fn joined(&self, decisive: Truth, at: usize, level: usize, levels: &mut Levels) -> Truth {
        let left = self.part(at + 1, level, levels);
        if left == decisive {
            return decisive;
        }
        let second = usize::from(self.parts[at + 1].end);
        let right = self.part(second, level, levels);
        if right == decisive || left != Truth::Unknown {
            right
        } else {
            Truth::Unknown
        }
    }

    /// A comparison with a blank is unknown, blank with blank too, and so with a declined cell.
    fn compared(&self, comparison: u8, left: Cell, right: Value, levels: &Levels) -> Truth {
        match (left, self.tables.value(right, levels)) {
            (Cell::Present(left), Cell::Present(right)) => Truth::known(comparison::holds(comparison, left, right)),
            (Cell::Blank | Cell::Declined, _) | (_, Cell::Blank | Cell::Declined) => Truth::Unknown,
        }
    }

    /// EXISTS: some row retained.
    fn exists(&self, at: usize, level: usize, levels: &mut Levels) -> Truth {
        let mut rows = self.tables.window(self.parts[at].table).each_row();
        Truth::known(rows.any(|row| self.retains(at, level, row, levels)))
    }

    /// SOME: true if a retained row compares true, else unknown if one is unknown, else false. ALL is decided by a false one
    /// and true otherwise.
    fn listed(&self, decisive: Truth, at: usize, level: usize, levels: &mut Levels) -> Truth {
        let part = &self.parts[at];
        let left = self.tables.value(part.left, levels);
        let mut answer = decisive.not();
        for row in self.tables.window(part.table).each_row() {
            if self.retains(at, level, row, levels) {
                let compared = self.compared(part.comparison, left, part.right, levels);
                if compared == decisive {
                    return decisive;
                }
                if compared == Truth::Unknown {
                    answer = Truth::Unknown;
                }
            }
        }
        answer
    }

    /// A subquery retains the rows whose WHERE is true. The next level is left at the row.
    fn retains(&self, at: usize, level: usize, row: usize, levels: &mut Levels) -> bool {
        levels[level + 1] = row;
        self.part(at + 1, level + 1, levels) == Truth::True
    }
}
