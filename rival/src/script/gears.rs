//! Scenes about the two gears: products on the edges of 32 bits and near them, where the narrow gear gives way to the wide one.

use std::io::Write;
use std::ops::RangeInclusive;

use super::sheets::{is_acceptable, sheet_s, LONG_PLACE, PLACE};
use super::Script;
use crate::writer::Settings;

/// The products nearest to the edges of 32 bits, on either side of each, and their prime factors. 2^31 − 1 is a prime and
/// 2^31 + 1 three times a prime: only a difference on a long rail makes either.
const NEAREST: [(i64, &[i64]); 4] = [
    ((1 << 31) - 2, &[2, 3, 3, 7, 11, 31, 151, 331]),
    (1 << 31, &[2; 31]),
    (-(1 << 31), &[2; 31]),
    (-(1 << 31) - 2, &[2, 5, 5, 13, 41, 61, 1321]),
];

/// The least numerator with which a product of a difference below 2^28 can be too wide.
const WIDENING: i64 = 9;

/// The last difference above zero that is narrow with this numerator, and the last below zero.
fn last_narrow(numerator: i64) -> (i64, i64) {
    (((1 << 31) - 1) / numerator, -(1 << 31) / numerator)
}

impl<W: Write> Script<W> {
    /// The nearest products with small and great numerators, their counts exact and rounded; then the last narrow and the
    /// first wide difference with any numerator, and with 16 digits in both and the offset outside the stops; then extremes.
    pub(super) fn gears(&mut self) {
        for (product, factors) in NEAREST {
            let swapped = self.random.once_in(2);
            for (numerators, exact) in [(WIDENING..=(1 << 16) - 1, swapped), (1 << 16..=1 << 20, !swapped)] {
                let numerator = self.divisor(factors, numerators);
                self.follow_to(numerator, product / numerator, false, |script| {
                    let denominator = if exact { script.divisor(factors, 2..=1 << 20) } else { script.any_denominator() };
                    (exact == (product % denominator == 0)).then_some(denominator)
                });
            }
        }
        for (edge, away) in [(0, false), (1, false), (2, false), (3, false), (1, true), (3, true)] {
            let digits = if away { 16 } else { self.random.between(4, 20) };
            let least = WIDENING.max(1 << (digits - 1));
            let numerator = self.random.between(least, (1 << digits) - 1) | 1; // no power of two
            let (above, below) = last_narrow(numerator);
            let difference = [above, above + 1, below, below - 1][edge];
            self.follow_to(numerator, difference, away, |script| Some(script.any_denominator()));
        }
        self.greatest_counts();
        self.greatest_differences(1..=WIDENING - 1);
        self.greatest_differences(WIDENING..=1 << 20);
        self.least_counts();
    }

    /// A product of some of the factors, within the range.
    fn divisor(&mut self, factors: &[i64], range: RangeInclusive<i64>) -> i64 {
        let mut factors = factors.to_vec();
        loop {
            self.random.shuffle(&mut factors);
            let taken = self.random.between(1, factors.len() as i64) as usize;
            let divisor = factors[..taken].iter().product();
            if range.contains(&divisor) {
                return divisor;
            }
        }
    }

    fn any_denominator(&mut self) -> i64 {
        let any = self.random.between(1, 1 << 20);
        self.random.pick(&[1, 2, 3, 7, 1000, any, any, (1 << 20) - 1, 1 << 20])
    }

    /// One stop at this difference from the offset, the other anywhere before it, or anywhere after it: then the clamp leads
    /// away from the offset, and can make wide what was narrow.
    fn follow_to(
        &mut self,
        numerator: i64,
        difference: i64,
        away: bool,
        mut denominator: impl FnMut(&mut Self) -> Option<i64>,
    ) {
        let towards = if away { difference.signum() } else { -difference.signum() };
        loop {
            let place = self.random.pick(&[PLACE, LONG_PLACE]);
            let offset = self.random.between((-place).max(-place - difference), (place - 1).min(place - 1 - difference));
            let stop = offset + difference;
            let any = self.random.between(1, 2 * difference.abs());
            let width = self.random.pick(&[4, any, any]);
            let other = (stop + width * towards).clamp(-place, place - 1);
            let Some(denominator) = denominator(self) else {
                continue;
            };
            let (lower_stop, upper_stop) = (stop.min(other), stop.max(other));
            let settings = Settings { offset, numerator, denominator, lower_stop, upper_stop, ..sheet_s() };
            if is_acceptable(&settings) {
                return self.follow_under(&settings, &[]);
            }
        }
    }

    /// Counts of 2^30 and −2^30 on the stops: both narrow, the upper one wide, both wide.
    fn greatest_counts(&mut self) {
        let narrow = 1 << self.random.between(5, 20);
        let wide = self.random.between(3, 1 << 16);
        for (numerator, denominator) in [(narrow, 1), (1 << 20, 2), (1 << 20, wide)] {
            let width = denominator * ((1 << 30) / numerator);
            let offset = self.random.between(width - PLACE, PLACE - 1 - width);
            let (lower_stop, upper_stop) = (offset - width, offset + width);
            let settings = Settings { offset, numerator, denominator, lower_stop, upper_stop, ..sheet_s() };
            self.follow_under(&settings, &[]);
        }
    }

    /// Stops and offset as far apart as they can be.
    fn greatest_differences(&mut self, numerators: RangeInclusive<i64>) {
        for offset in [-PLACE, PLACE - 1] {
            let (lower_stop, upper_stop) = (-PLACE, PLACE - 1);
            let settings = loop {
                let numerator = self.random.between(*numerators.start(), *numerators.end());
                let denominator = self.any_denominator();
                let settings = Settings { offset, numerator, denominator, lower_stop, upper_stop, ..sheet_s() };
                if is_acceptable(&settings) {
                    break settings;
                }
            };
            self.follow_under(&settings, &[]);
        }
    }

    /// Products that are too wide, with counts as small as can be; their low halves are now 0, now look like narrow ones. A
    /// program that forgets the offset takes the wrong gear.
    fn least_counts(&mut self) {
        let offset = self.random.pick(&[-5000, 5000]);
        let ratio = 1 << 20;
        let (lower_stop, upper_stop) = (-PLACE, PLACE - 1);
        let settings = Settings { offset, numerator: ratio, denominator: ratio, lower_stop, upper_stop, ..sheet_s() };
        self.follow_under(&settings, &[-offset, 4096, -4096, 4097, -4097, 6144, -6145, 1 << 26]);
    }

    /// Targets at these differences from the offset, on, beside and beyond the stops, around the last narrow ones, on
    /// the offset, and anywhere.
    pub(super) fn follow_under(&mut self, settings: &Settings, differences: &[i64]) {
        let home = self.any_home();
        self.home_under(settings, home);
        let (lower, upper) = (settings.lower_stop, settings.upper_stop);
        let (above, below) = last_narrow(settings.numerator);
        let around = [above - 1, above, above + 1, above + 2, below + 1, below, below - 1, below - 2];
        let mut targets: Vec<i64> = around.iter().chain(differences).map(|difference| settings.offset + difference).collect();
        targets.retain(|target| (lower..=upper).contains(target));
        let inside = self.random.between(lower, upper);
        targets.extend([lower - 1, lower, lower + 1, inside, upper - 1, upper, upper + 1, settings.offset]);
        targets.retain(|target| (-LONG_PLACE..LONG_PLACE).contains(target));
        targets.extend([i32::MIN, i32::MAX].map(i64::from));
        targets.sort_unstable();
        targets.dedup();
        for target in targets {
            self.tick_with(0x000F, &format!("position {target} 0"), true);
        }
    }
}
