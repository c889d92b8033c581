//! From user units to counts, by two ways to the same count: one in 32 bits, and one in 64 for what is too wide for it.

use crate::sheet::Sheet;

/// "clamp the target to the stops"
fn clamped(sheet: &Sheet, target: i32) -> i32 {
    target.clamp(sheet.lower_stop(), sheet.upper_stop())
}

/// The narrow gear, "with no wider number in it": nothing is "too wide", said exactly where "the clamped target less offset"
/// or "the product" does not fit 32 bits signed; else the count without home.
///
/// The denominator is positive, so `div_euclid` rounds towards minus infinity.
pub fn narrow(sheet: &Sheet, target: i32) -> Option<i32> {
    let difference = clamped(sheet, target).checked_sub(sheet.offset())?;
    let product = difference.checked_mul(sheet.numerator())?;
    Some(product.div_euclid(sheet.denominator()))
}

/// "subtract offset, times numerator, over denominator, rounded towards minus infinity", without home.
///
/// Below 2^32 times 2^20, so 64 bits hold it.
pub fn counts(sheet: &Sheet, place: i32) -> i64 {
    let difference = i64::from(place) - i64::from(sheet.offset());
    (difference * i64::from(sheet.numerator())).div_euclid(i64::from(sheet.denominator()))
}

/// A target that is followed.
pub struct Followed {
    pub position: i32,
    pub clamped: bool,
}

/// "clamp the target to the stops, [gear it], added to home modulo 2^32 (signed)"
pub fn follow(sheet: &Sheet, home: i32, target: i32) -> Followed {
    let place = clamped(sheet, target);
    // A wide count is within ±2^30 all the same: the stops are in reach.
    let count = narrow(sheet, target).unwrap_or_else(|| counts(sheet, place) as i32);
    Followed { position: home.wrapping_add(count), clamped: place != target }
}
