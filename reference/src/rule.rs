//! Limits, names and parts (section "Rule text", the last two paragraphs): a tree to the parts of an accepted rule.

use crate::grammar::{List, Node, Place, Subquery, Tree, Written};
use crate::part::{self, Part};
use crate::refusal::{self, Refusal};
use crate::tables::{Tables, JUDGED_TABLE};
use crate::value::Value;

/// A rule has at most this many parts.
const MOST_PARTS: usize = 64;
/// At most this many FROMs around one another.
const MOST_FROMS: usize = 3;
/// The letter of the judged row.
const JUDGED_LETTER: u8 = b'm';

/// The parts of a rule, a part before its inner parts, left first: refusal 7 for a limit, and only then 8 for a name.
pub fn parts(tree: &Tree, tables: &Tables) -> Result<Vec<Part>, Refusal> {
    if tree.nodes.len() > MOST_PARTS || tree.most_froms > MOST_FROMS {
        return Err(refusal::LIMITS);
    }
    let judged = Binding { letter: JUDGED_LETTER, table: JUDGED_TABLE };
    let mut writer = Writer { nodes: &tree.nodes, tables, levels: vec![judged], parts: Vec::with_capacity(tree.nodes.len()) };
    writer.part(tree.root)?;
    Ok(writer.parts)
}

/// A letter and the table whose row it stands for.
struct Binding {
    letter: u8,
    table: u8,
}

/// The parts so far, and the binding of each level at this place. Calls nest at most once for each of the 64 parts.
struct Writer<'a> {
    nodes: &'a [Node],
    tables: &'a Tables<'a>,
    levels: Vec<Binding>,
    parts: Vec<Part>,
}

impl Writer<'_> {
    /// Writes the part of a node and its inner parts; the end is known once the last inner part is in place.
    fn part(&mut self, place: Place) -> Result<(), Refusal> {
        let number = self.parts.len();
        self.parts.push(Part::default());
        let part = match self.nodes[place] {
            Node::Joined(kind, left, right) => {
                self.part(left)?;
                self.part(right)?;
                Part::of(kind)
            }
            Node::Not(inner) => {
                self.part(inner)?;
                Part::of(part::NOT)
            }
            Node::Comparison(comparison, left, right) => {
                Part { comparison, left: self.value(left)?, right: self.value(right)?, ..Part::of(part::COMPARISON) }
            }
            Node::Mark(kind, value) => Part { left: self.value(value)?, ..Part::of(kind) },
            Node::Exists(subquery) => self.exists(subquery)?,
            Node::List(list) => self.list(list)?,
            Node::Truth(kind, inner) => {
                self.part(inner)?;
                Part::of(kind)
            }
        };
        let end = self.parts.len() as u8;
        self.parts[number] = Part { end, ..part };
        Ok(())
    }

    /// EXISTS: the condition of its WHERE is the inner part.
    fn exists(&mut self, subquery: Subquery) -> Result<Part, Refusal> {
        let table = self.bind(subquery)?;
        self.part(subquery.condition)?;
        self.levels.pop();
        Ok(Part { table, ..Part::of(part::EXISTS) })
    }

    /// A list: the value left of it belongs outside, the selected one inside.
    fn list(&mut self, list: List) -> Result<Part, Refusal> {
        let left = self.value(list.left)?;
        let table = self.bind(list.subquery)?;
        let right = self.value(list.selected)?;
        self.part(list.subquery.condition)?;
        self.levels.pop();
        Ok(Part { comparison: list.comparison, table, left, right, ..Part::of(list.kind) })
    }

    /// A FROM binds its letter for its own WHERE and SELECT, one level deeper. Its table must exist.
    fn bind(&mut self, subquery: Subquery) -> Result<u8, Refusal> {
        let table = existing(subquery.table, self.tables.windows().len())?;
        let letter = subquery.letter;
        self.levels.push(Binding { letter, table });
        Ok(table)
    }

    /// A letter means its nearest binding, whose table must have the column.
    fn value(&self, written: Written) -> Result<Value, Refusal> {
        let (letter, column) = match written {
            Written::Number(number) => return Ok(Value::constant(number)),
            Written::Column { letter, column } => (letter, column),
        };
        let nearest = self.levels.iter().rposition(|level| level.letter == letter);
        let level = nearest.ok_or(refusal::NAMES)?;
        let window = self.tables.window(self.levels[level].table);
        existing(column, window.columns())?;
        Ok(Value { tag: level as u8, number: column })
    }
}

/// The number of a table or column that must exist: 1 to `most`, which is 16 at the highest.
fn existing(number: i32, most: usize) -> Result<u8, Refusal> {
    match u8::try_from(number) {
        Ok(number) if number >= 1 && usize::from(number) <= most => Ok(number),
        _ => Err(refusal::NAMES),
    }
}
