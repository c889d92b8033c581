//! A paper rail, in cells.

use std::ops::RangeInclusive;

use crate::tick::Switches;

/// "L, u, w, f and s are 1 to 2^20, the number of ticks 1 to 2^24."
const MEASURES: RangeInclusive<i64> = 1..=1 << 20;
pub const TICKS: RangeInclusive<i64> = 1..=1 << 24;

/// L, u, w, f and s, each wide enough for any number that a `rail` line may hold.
#[derive(Clone, Copy, Debug, Default, PartialEq, Eq)]
pub struct Rail {
    pub length: i64,
    pub cam: i64,
    pub width: i64,
    pub fast: i64,
    pub slow: i64,
}

impl Rail {
    /// In the order of a `rail` line.
    pub fn measures(&self) -> [i64; 5] {
        [self.length, self.cam, self.width, self.fast, self.slow]
    }

    /// "NOT on below cell 0, POT from cell L on, a cam from u to u + w − 1, and no Z"
    pub fn switches(&self, cell: i64) -> Switches {
        let cam = self.cam..self.cam + self.width;
        Switches { pot: cell >= self.length, not: cell < 0, hom: cam.contains(&cell), z: false }
    }

    /// Refusal 12's question, but for its start and its number of ticks: "one of these is outside its range, u + w exceeds L".
    pub fn is_fit(&self) -> bool {
        self.measures().iter().all(|measure| MEASURES.contains(measure)) && self.cam + self.width <= self.length
    }

    /// "s is at most f, f at most w and at most u, and u + w at most L − f": what the promise about methods 23 to 30 asks for.
    pub fn is_roomy(&self) -> bool {
        let Rail { length, cam, width, fast, slow } = *self;
        slow <= fast && fast <= width && fast <= cam && cam + width <= length - fast
    }

    /// "4 × (ceiling of (L + f) ÷ s, plus 1) + 1": the ticks within which the promise is kept.
    pub fn promised_ticks(&self) -> i64 {
        let crossing = (self.length + self.fast + self.slow - 1) / self.slow;
        4 * (crossing + 1) + 1
    }
}
