//! The calls on daily rates in sixtieths, with the numbers of a rate: sign, hours, minutes,
//! seconds, thirds. Every sign but 0 is taken as minus; an answered one is 0 or 1.
//!
//! [`Rate`](crate::Rate) is what a program uses. Each call here answers 0; or 19, and zeros, where
//! a rate that it is lent has a place out of range or is minus zero, or its answer has no rate.

extern "C" {
    fn feqyondil_rate_add(a: *const [u32; 5], b: *const [u32; 5], sum: *mut [u32; 5]) -> u32;
    fn feqyondil_rate_subtract(
        a: *const [u32; 5],
        b: *const [u32; 5],
        difference: *mut [u32; 5],
    ) -> u32;
    fn feqyondil_rate_compare(a: *const [u32; 5], b: *const [u32; 5], order: *mut [u64; 1]) -> u32;
    fn feqyondil_rate_to_thirds(rate: *const [u32; 5], thirds: *mut [i64; 1]) -> u32;
    fn feqyondil_rate_from_thirds(thirds: i64, rate: *mut [u32; 5]) -> u32;
}

// SAFETY: of each call below, every array is live and of the length that the library reads or
// writes; what the library writes is lent for writing, so it is apart from everything else that
// is lent, which it only reads.
//
// They are inlined: a call takes a few nanoseconds, and one function more on the way can be seen.

/// Adds: `sum` becomes the two rates' sum.
#[inline]
pub fn add(a: &[u32; 5], b: &[u32; 5], sum: &mut [u32; 5]) -> u32 {
    // SAFETY: as above.
    unsafe { feqyondil_rate_add(a, b, sum) }
}

/// Subtracts: `difference` becomes the first rate less the second.
#[inline]
pub fn subtract(a: &[u32; 5], b: &[u32; 5], difference: &mut [u32; 5]) -> u32 {
    // SAFETY: as above.
    unsafe { feqyondil_rate_subtract(a, b, difference) }
}

/// Compares: `order` becomes 1 where the first rate is less than the second, 2 where it is equal
/// to it, 3 where it is greater.
#[inline]
pub fn compare(a: &[u32; 5], b: &[u32; 5], order: &mut [u64; 1]) -> u32 {
    // SAFETY: as above.
    unsafe { feqyondil_rate_compare(a, b, order) }
}

/// Converts a rate: `thirds` becomes its whole thirds, below 0 where its sign is minus.
#[inline]
pub fn to_thirds(rate: &[u32; 5], thirds: &mut [i64; 1]) -> u32 {
    // SAFETY: as above.
    unsafe { feqyondil_rate_to_thirds(rate, thirds) }
}

/// Converts thirds: `rate` becomes the one that has so many.
#[inline]
pub fn from_thirds(thirds: i64, rate: &mut [u32; 5]) -> u32 {
    // SAFETY: as above.
    unsafe { feqyondil_rate_from_thirds(thirds, rate) }
}
