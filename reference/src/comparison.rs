//! The six comparisons, under the numbers that parts and cards give them (section "Rule text").

/// `=`
pub const EQUAL: u8 = 1;
/// `<>`
pub const NOT_EQUAL: u8 = 2;
/// `<`
pub const LESS: u8 = 3;
/// `<=`
pub const AT_MOST: u8 = 4;
/// `>`
pub const MORE: u8 = 5;
/// `>=`
pub const AT_LEAST: u8 = 6;

/// Whether two present values compare so. The reader and CHECK let through the numbers 1 to 6 only.
#[inline]
pub fn holds(comparison: u8, left: i32, right: i32) -> bool {
    match comparison {
        EQUAL => left == right,
        NOT_EQUAL => left != right,
        LESS => left < right,
        AT_MOST => left <= right,
        MORE => left > right,
        _ => left >= right,
    }
}

/// Section "Card": negating swaps comparisons 1/2, 3/6 and 4/5.
pub fn negated(comparison: u8) -> u8 {
    match comparison {
        EQUAL => NOT_EQUAL,
        NOT_EQUAL => EQUAL,
        LESS => AT_LEAST,
        AT_MOST => MORE,
        MORE => AT_MOST,
        _ => LESS,
    }
}
