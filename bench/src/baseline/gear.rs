//! From positions to counts, in 32 bits where they suffice, else in 64.

use std::hint::assert_unchecked;

/// What a position is geared by.
#[derive(Clone, Copy)]
pub struct Gear {
    pub offset: i32,
    pub numerator: u32,
    pub denominator: u32,
    pub lower: i32,
    pub upper: i32,
}

impl Gear {
    /// The target, or the limit that it is beyond.
    pub fn clamp(&self, target: i32) -> i32 {
        if target < self.lower {
            self.lower
        } else if target > self.upper {
            self.upper
        } else {
            target
        }
    }

    /// In range it is not 0. As in C, no division tests that.
    fn divisor(&self) -> u32 {
        unsafe { assert_unchecked(self.denominator != 0) };
        self.denominator
    }

    /// Whether a position is not below the offset, and how far it is from it.
    fn difference(&self, position: i32) -> (bool, u32) {
        if position >= self.offset {
            (true, position.wrapping_sub(self.offset) as u32)
        } else {
            (false, self.offset.wrapping_sub(position) as u32)
        }
    }

    /// A position as a count from home, rounded towards minus infinity; nothing where the difference or the product does not fit 32 bits.
    ///
    /// The numerator is from 1 to 2^20, so no product is less than its difference: it alone is tested. The product of some upper bits of both
    /// fits, and tells where the whole one is above 2^31; where it is not the whole one is below 2^32.
    pub fn narrow(&self, position: i32) -> Option<i32> {
        let (above, size) = self.difference(position);
        if size < 1 << 28 {
            if (size >> 12) * (self.numerator >> 4) > 1 << 15 {
                return None;
            }
        } else if self.numerator > 8 || (size >> 4) * self.numerator > 1 << 27 {
            return None;
        }
        let product = size * self.numerator;
        if above {
            if product >= 1 << 31 {
                return None;
            }
            Some((product / self.divisor()) as i32)
        } else {
            if product > 1 << 31 {
                return None;
            }
            Some(-(((product + self.divisor() - 1) / self.divisor()) as i32))
        }
    }

    /// The same for every position.
    pub fn wide(&self, position: i32) -> i64 {
        let (above, size) = self.difference(position);
        let product = size as u64 * self.numerator as u64;
        let divisor = self.divisor() as u64;
        if above {
            (product / divisor) as i64
        } else {
            -(((product + divisor - 1) / divisor) as i64)
        }
    }

    /// By the narrow gear, or where that is too wide by the wide one. On the module (`module/run`) it stays out of the tick, where it would
    /// take registers from all else.
    #[cfg_attr(module, inline(never))]
    pub fn geared(&self, position: i32) -> i32 {
        match self.narrow(position) {
            Some(count) => count,
            None => self.wide(position) as i32,
        }
    }
}
