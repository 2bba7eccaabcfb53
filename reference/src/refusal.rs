//! The refusals: 1 to 12 (section "Gate says why not"), 13 (document 02, Point 1), 14 and 15 (document 02, Point 2).

/// The number of a refusal, 1 to 15. Of those that apply to the whole input the first in the call's order is given.
pub type Refusal = u32;

/// Tables: sizes or length wrong.
pub const TABLES: Refusal = 1;
/// Tables: a mark above 2 (document 02, Point 4).
pub const MARK: Refusal = 2;
/// Text over 4,096 bytes.
pub const TEXT_LENGTH: Refusal = 3;
/// No such token, or a number beyond range.
pub const TOKEN: Refusal = 4;
/// Over 32 more `(` than `)` up to some token.
pub const BRACKETS: Refusal = 5;
/// The tokens are no condition.
pub const GRAMMAR: Refusal = 6;
/// Over 64 parts, or over three FROMs around one another.
pub const LIMITS: Refusal = 7;
/// A letter unbound, a table or a column absent.
pub const NAMES: Refusal = 8;
/// The card is not sound.
pub const CARD: Refusal = 9;
/// The card's number of tables or its columns differ from the tables'.
pub const OTHER_TABLES: Refusal = 10;
/// The row is not in table 1.
pub const ROW: Refusal = 11;
/// The lent buffer is shorter than the whole answer.
pub const BUFFER: Refusal = 12;
/// The sum of entries is over 192. It belongs to reading and comes after 8, so before 11 and 12.
pub const SUM: Refusal = 13;
/// Comma lines: a bad field, a wrong field count, or columns not 1 to 16. It comes first in IMPORT.
pub const FIELDS: Refusal = 14;
/// Comma lines: over 1,000 rows or 8,192 cells. It comes after 14 and before 12.
pub const SIZES: Refusal = 15;
