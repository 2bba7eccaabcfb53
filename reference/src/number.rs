//! Numbers as they are written, in a rule (section "Rule text") and in comma lines (document 02, Point 2).

/// A number has at most this many digits, leading zeros counted.
const MOST_DIGITS: usize = 10;

/// The number at the start of the bytes, with its length: a minus or none, then the whole run of one to ten digits, in the range of
/// 32 bits. None if no such number begins there.
#[inline]
pub fn read(bytes: &[u8]) -> Option<(i32, usize)> {
    let (sign, unsigned) = match bytes {
        [b'-', unsigned @ ..] => (-1, unsigned),
        _ => (1, bytes),
    };
    let mut size = 0_i64;
    let mut digits = 0;
    while let Some(digit @ b'0'..=b'9') = unsigned.get(digits) {
        if digits == MOST_DIGITS {
            return None;
        }
        size = 10 * size + i64::from(digit - b'0');
        digits += 1;
    }
    if digits == 0 {
        return None;
    }
    let number = i32::try_from(sign * size).ok()?;
    Some((number, bytes.len() - unsigned.len() + digits))
}

/// Writes a number after the bytes: a minus where it is below 0, then its digits without spare zeros.
#[inline]
pub fn write(number: i32, bytes: &mut Vec<u8>) {
    let mut digits = [b'0'; MOST_DIGITS];
    let mut first = MOST_DIGITS - 1;
    let mut size = number.unsigned_abs();
    digits[first] += (size % 10) as u8;
    while size > 9 {
        size /= 10;
        first -= 1;
        digits[first] += (size % 10) as u8;
    }
    if number < 0 {
        bytes.push(b'-');
    }
    bytes.extend_from_slice(&digits[first..]);
}
