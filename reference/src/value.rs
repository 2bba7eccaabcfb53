//! Values of parts and of card entries (section "Rule text", the paragraph on parts).

/// The tag of a constant. Every other tag is a level.
pub const CONSTANT: u8 = 255;

/// Levels 0 to 3: the judged row and one more for each of three FROMs around one another.
pub const MOST_LEVELS: usize = 4;

/// One side of a test: a constant, or a column of the row at a level.
#[derive(Clone, Copy, Debug, Default, PartialEq, Eq)]
pub struct Value {
    /// 255 for a constant, else the level, 0 to 3.
    pub tag: u8,
    /// The constant itself, or the number of the column, counted from 1.
    pub number: i32,
}

impl Value {
    /// A number written in the rule.
    pub(crate) fn constant(number: i32) -> Value {
        Value { tag: CONSTANT, number }
    }
}
