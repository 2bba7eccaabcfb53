//! The record of one part and the numbers of its kinds (section "Rule text", the paragraph on parts; document 02, Points 1 and 4).

use crate::value::Value;

/// Both inner parts.
pub const AND: u8 = 1;
/// One of the two inner parts.
pub const OR: u8 = 2;
/// The reverse of the inner part.
pub const NOT: u8 = 3;
/// Left value compared with right value.
pub const COMPARISON: u8 = 4;
/// Left value is blank or declined.
pub const IS_NULL: u8 = 5;
/// Left value is neither blank nor declined.
pub const IS_NOT_NULL: u8 = 6;
/// Some row of the table is retained by the inner part.
pub const EXISTS: u8 = 7;
/// Left value compared with the selected value of some retained row.
pub const SOME: u8 = 8;
/// Left value compared with the selected value of every retained row.
pub const ALL: u8 = 9;
/// The inner part is true.
pub const IS_TRUE: u8 = 10;
/// The inner part is false or unknown.
pub const IS_NOT_TRUE: u8 = 11;
/// The inner part is false.
pub const IS_FALSE: u8 = 12;
/// The inner part is true or unknown.
pub const IS_NOT_FALSE: u8 = 13;
/// The inner part is unknown.
pub const IS_UNKNOWN: u8 = 14;
/// The inner part is true or false.
pub const IS_NOT_UNKNOWN: u8 = 15;
/// Left value is declined.
pub const IS_DECLINED: u8 = 16;
/// Left value is not declined.
pub const IS_NOT_DECLINED: u8 = 17;

/// One part of an accepted rule: an OR, an AND, a NOT or a test. Unused fields are 0.
#[derive(Clone, Copy, Debug, Default, PartialEq, Eq)]
pub struct Part {
    /// 1 and, 2 or, 3 not, 4 comparison, 5 IS NULL, 6 IS NOT NULL, 7 exists, 8 some, 9 all, 10 IS TRUE, 11 IS NOT TRUE,
    /// 12 IS FALSE, 13 IS NOT FALSE, 14 IS UNKNOWN, 15 IS NOT UNKNOWN, 16 IS DECLINED, 17 IS NOT DECLINED.
    pub kind: u8,
    /// 1 `=`, 2 `<>`, 3 `<`, 4 `<=`, 5 `>`, 6 `>=`; used by kinds 4, 8 and 9.
    pub comparison: u8,
    /// The table of the FROM, counted from 1; used by kinds 7, 8 and 9.
    pub table: u8,
    /// The number of the first part after this one and its inner parts.
    pub end: u8,
    /// Used by kinds 4, 5, 6, 8, 9, 16 and 17.
    pub left: Value,
    /// Used by kind 4, and by kinds 8 and 9 for the selected value.
    pub right: Value,
}

impl Part {
    /// A part of this kind with all other fields still 0.
    pub(crate) fn of(kind: u8) -> Part {
        Part { kind, ..Part::default() }
    }
}
