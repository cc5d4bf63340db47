//! Daily rates in sixtieths, from N8's words, by no code of the port.
//!
//! `differ` holds the port against it and `bench` times the port beside it, so it is to be quick
//! too: each call is inlined, since an answer that is copied on its way takes nearly as long again.
//! All is worked out in whole thirds, of 64 bits, and `None` is N8's check: a place, sum or
//! difference out of range, or minus zero.

use std::cmp::Ordering;

/// Sign, hours, minutes, seconds, thirds. The sign is 0 for plus; every other number is minus.
pub type Numbers = [u32; 5];

/// The number of N8's check.
pub const REFUSED: u32 = 19;
/// Thirds of 24 hours: a rate has fewer, either way.
pub const END: i64 = 24 * HOUR as i64;

/// Thirds of each place but the last.
const SECOND: u32 = 60;
const MINUTE: u32 = 60 * SECOND;
const HOUR: u32 = 60 * MINUTE;

/// Below 0 for minus.
#[inline]
pub fn to_thirds(&[sign, hours, minutes, seconds, thirds]: &Numbers) -> Option<i64> {
    if hours > 23 || minutes > 59 || seconds > 59 || thirds > 59 {
        return None;
    }
    let length = i64::from(hours * HOUR + minutes * MINUTE + seconds * SECOND + thirds);
    match (sign, length) {
        (0, _) => Some(length),
        (_, 0) => None,
        _ => Some(-length),
    }
}

/// With sign 0 or 1.
#[inline]
pub fn from_thirds(thirds: i64) -> Option<Numbers> {
    if thirds <= -END || thirds >= END {
        return None;
    }
    // 32 bits hold it, and are divided sooner.
    let (sign, length) = (u32::from(thirds < 0), thirds.unsigned_abs() as u32);
    Some([sign, length / HOUR, length / MINUTE % 60, length / SECOND % 60, length % 60])
}

/// The sum.
#[inline]
pub fn add(a: &Numbers, b: &Numbers) -> Option<Numbers> {
    from_thirds(to_thirds(a)? + to_thirds(b)?)
}

/// The first less the second.
#[inline]
pub fn subtract(a: &Numbers, b: &Numbers) -> Option<Numbers> {
    from_thirds(to_thirds(a)? - to_thirds(b)?)
}

/// How the first is to the second.
#[inline]
pub fn compare(a: &Numbers, b: &Numbers) -> Option<Ordering> {
    Some(to_thirds(a)?.cmp(&to_thirds(b)?))
}

#[cfg(test)]
mod tests;
