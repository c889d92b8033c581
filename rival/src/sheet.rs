//! A whole sheet: the words of its layout, and what they carry. Its fields are read from the words each time they are asked
//! for; which layout carried them is read from the first.

use crate::gear;
use crate::refusal::Refusal;

/// "The top 4 bits are the kind, the low 28 the data."
pub const DATA: u32 = (1 << 28) - 1;

/// "Fifteen 32-bit words"; "the writer needs 16 words for layout 2", and "layout 3 is layout 2".
pub const LONGEST: usize = 16;

/// The layouts that somebody defined.
pub const LAYOUTS: [u32; 3] = [1, 2, 3];

/// "Kinds come once each in rising order": in layout 1 there is no kind 14, layout 2 has "a kind 14 word after kind 13", and
/// so has layout 3. Nothing for "a layout nobody defined".
pub fn kinds(layout: u32) -> Option<&'static [u32]> {
    match layout {
        1 => Some(&[0, 1, 2, 3, 4, 5, 6, 7, 8, 9, 10, 11, 12, 13, 15]),
        2 | 3 => Some(&[0, 1, 2, 3, 4, 5, 6, 7, 8, 9, 10, 11, 12, 13, 14, 15]),
        _ => None,
    }
}

pub const START: u32 = 0;
pub const METHOD: u32 = 1;
pub const FAST: u32 = 2;
pub const SLOW: u32 = 3;
pub const OFFSET: u32 = 4;
pub const NUMERATOR: u32 = 5;
pub const DENOMINATOR: u32 = 6;
pub const LOWER_STOP: u32 = 7;
pub const UPPER_STOP: u32 = 8;
pub const MAXIMUM_TORQUE: u32 = 9;
pub const LIMIT_SET_1: u32 = 10;
pub const LIMIT_SET_2: u32 = 11;
pub const QUICK_STOP_OPTION: u32 = 12;
pub const RATED_TORQUE: u32 = 13;
pub const TOP_BITS: u32 = 14;
pub const END: u32 = 15;

/// Torques are thousandths of rated; none may be above three times rated.
pub const TORQUE_TOP: u32 = 3000;

/// "beyond ±2^30 counts"
const REACH: i64 = 1 << 30;

pub fn kind(word: u32) -> u32 {
    word >> 28
}

pub fn data(word: u32) -> u32 {
    word & DATA
}

pub fn word(kind: u32, data: u32) -> u32 {
    kind << 28 | data
}

/// "two's complement over 28 bits"
pub fn signed(data: u32) -> i32 {
    (data << 4) as i32 >> 4
}

/// Whether a place "needs more than 28 bits".
pub fn is_long(place: i64) -> bool {
    !(-(1 << 27)..1 << 27).contains(&place)
}

/// Where kind 14's data has the top four bits of this kind's place.
pub fn top_bits_at(kind: u32) -> u32 {
    match kind {
        OFFSET => 0,
        LOWER_STOP => 4,
        _ => 8,
    }
}

/// Refusal 3's question for the kinds 1 to 14 of a layout. Start and end words have tests of their own.
pub fn data_is_in_range(layout: u32, kind: u32, data: u32) -> bool {
    match kind {
        METHOD => matches!(data, 1 | 2 | 17 | 18 | 23..=30 | 33 | 34 | 35),
        FAST | SLOW => data >= 1,
        OFFSET | LOWER_STOP | UPPER_STOP => true, // every pattern of 28 bits is a place, or the end of one
        NUMERATOR | DENOMINATOR => (1..=1 << 20).contains(&data),
        MAXIMUM_TORQUE => data <= TORQUE_TOP,
        LIMIT_SET_1 | LIMIT_SET_2 => positive(data) <= TORQUE_TOP && negative(data) <= TORQUE_TOP,
        QUICK_STOP_OPTION if layout == 3 => {
            // "bits 20 to 27 are zero"
            is_option(option(data)) && homing_torque(data) <= TORQUE_TOP && data >> 20 == 0
        }
        QUICK_STOP_OPTION => is_option(data),
        RATED_TORQUE => (1..=1 << 24).contains(&data),
        TOP_BITS => data < 1 << 12, // "bits 12 to 27 are zero"
        _ => false,
    }
}

/// "positive limit in the low 14 bits"
fn positive(data: u32) -> u32 {
    data & 0x3FFF
}

/// "negative (as a magnitude) in the high 14"
fn negative(data: u32) -> u32 {
    data >> 14
}

fn is_option(option: u32) -> bool {
    option == 2 || option == 6
}

/// "bits 0 to 7 keep the option"
fn option(data: u32) -> u32 {
    data & 0xFF
}

/// "in the kind 12 word bits 8 to 19 hold the homing torque"
fn homing_torque(data: u32) -> u32 {
    data >> 8 & 0xFFF
}

/// "The end's data is the sum of the fourteen earlier data fields, modulo 2^28"; "the sum includes kind 14".
pub fn sum(earlier: &[u32]) -> u32 {
    earlier.iter().fold(0, |sum: u32, &word| sum.wrapping_add(data(word))) & DATA
}

#[derive(Clone, Copy, Debug, PartialEq, Eq)]
pub enum LimitSet {
    Set1,
    Set2,
}

#[derive(Clone, Copy, Debug, PartialEq, Eq)]
pub struct Sheet {
    /// Those past the sheet's end are 0.
    words: [u32; LONGEST],
}

impl Sheet {
    /// The words are an unbroken run of due words, each in its range.
    pub fn of(run: &[u32]) -> Sheet {
        let mut words = [0; LONGEST];
        words[..run.len()].copy_from_slice(run);
        Sheet { words }
    }

    pub fn layout(&self) -> u32 {
        self.carried(START)
    }

    /// The data of all words before the end word.
    pub fn summed(&self) -> impl Iterator<Item = u32> + '_ {
        self.words.iter().take_while(|&&word| kind(word) != END).map(|&word| data(word))
    }

    /// Up to the end a word's place is its kind.
    fn carried(&self, kind: u32) -> u32 {
        data(self.words[kind as usize])
    }

    /// Offset or stop: in layout 1 of 28 bits, in the others "32-bit signed", its top four bits from kind 14.
    fn place(&self, kind: u32) -> i32 {
        let low = self.carried(kind);
        match self.layout() {
            1 => signed(low),
            _ => (self.carried(TOP_BITS) >> top_bits_at(kind) << 28 | low) as i32,
        }
    }

    pub fn method(&self) -> u32 {
        self.carried(METHOD)
    }

    pub fn fast(&self) -> i32 {
        self.carried(FAST) as i32
    }

    pub fn slow(&self) -> i32 {
        self.carried(SLOW) as i32
    }

    pub fn offset(&self) -> i32 {
        self.place(OFFSET)
    }

    pub fn numerator(&self) -> i32 {
        self.carried(NUMERATOR) as i32
    }

    pub fn denominator(&self) -> i32 {
        self.carried(DENOMINATOR) as i32
    }

    pub fn lower_stop(&self) -> i32 {
        self.place(LOWER_STOP)
    }

    pub fn upper_stop(&self) -> i32 {
        self.place(UPPER_STOP)
    }

    pub fn maximum_torque(&self) -> i64 {
        i64::from(self.carried(MAXIMUM_TORQUE))
    }

    fn limits(&self, set: LimitSet) -> u32 {
        match set {
            LimitSet::Set1 => self.carried(LIMIT_SET_1),
            LimitSet::Set2 => self.carried(LIMIT_SET_2),
        }
    }

    pub fn positive_limit(&self, set: LimitSet) -> i64 {
        i64::from(positive(self.limits(set)))
    }

    pub fn negative_limit(&self, set: LimitSet) -> i64 {
        i64::from(negative(self.limits(set)))
    }

    /// In the older layouts there is nothing above it.
    pub fn quick_stop_option(&self) -> u32 {
        option(self.carried(QUICK_STOP_OPTION))
    }

    /// "Layouts 1 and 2 read as homing torque equal to the maximum."
    pub fn homing_torque(&self) -> i64 {
        match self.layout() {
            3 => i64::from(homing_torque(self.carried(QUICK_STOP_OPTION))),
            _ => self.maximum_torque(),
        }
    }

    pub fn rated_torque(&self) -> u32 {
        self.carried(RATED_TORQUE)
    }

    /// Refusals 5 and 6, in that order, for reader and writer alike.
    pub fn stops_are_sound(&self) -> Result<(), Refusal> {
        if self.lower_stop() >= self.upper_stop() {
            return Err(Refusal::StopsCrossed);
        }
        let beyond = |stop: i32| gear::counts(self, stop).abs() > REACH;
        if beyond(self.lower_stop()) || beyond(self.upper_stop()) {
            return Err(Refusal::OutOfReach);
        }
        Ok(())
    }
}
