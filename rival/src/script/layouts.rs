//! Scenes about layouts: which words each has and where it ends, the writer that is told one, and long rails, which layout 1
//! does not hold.

use std::io::Write;

use super::sheets::{is_acceptable, old, sheet_s, words_in, LONG_PLACE, PLACE};
use super::Script;
use crate::drive_state::DriveState::*;
use crate::refusal::Refusal::{self, *};
use crate::sheet::{self, LAYOUTS};
use crate::writer::{faults, two_faults, Settings};

/// Start data and layouts that nobody defined.
const STRANGE_STARTS: [u32; 4] = [0, 4, sheet::DATA, 1 << 27 | 2];
const STRANGE_LAYOUTS: [u32; 4] = [0, 4, u32::MAX, 1 << 31 | 1];

/// Buffers around the lengths that layouts need, and at their ends.
const LENGTHS: [i64; 6] = [0, 14, 15, 16, 17, 32];

/// The last places of 28 bits and the first beyond, then the last of 32.
const PLACE_EDGES: [i64; 6] = [-PLACE - 1, -PLACE, PLACE - 1, PLACE, LOWEST, HIGHEST];

/// The last places there are.
const LOWEST: i64 = -LONG_PLACE;
const HIGHEST: i64 = LONG_PLACE - 1;

/// Offset, numerator, denominator and stops: rails as long as places go, in reach by the last count or not far from it.
const RAILS: [(i64, i64, i64, i64, i64); 9] = [
    (0, 1, 4, LOWEST, HIGHEST),
    (LOWEST, 1, 4, LOWEST, HIGHEST),
    (HIGHEST, 1, 4, LOWEST, HIGHEST),
    (0, 1, 2, LOWEST, HIGHEST),
    (-1, 2, 4, LOWEST, HIGHEST),
    (-2, 1, 2, LOWEST, HIGHEST),
    (LOWEST, 1 << 18, 1 << 20, LOWEST, HIGHEST),
    (-PLACE - 1, 3, 7, LOWEST, -PLACE - 1),
    (PLACE, 1, 3, PLACE, HIGHEST),
];

/// Out of reach by one count or little more; then by so much that a difference of 32 bits would be in reach.
const OUT_OF_REACH: [(i64, i64, i64, i64, i64); 5] = [
    (1, 1, 2, LOWEST, HIGHEST),
    (-3, 1, 2, LOWEST, HIGHEST),
    (LOWEST, 1, 1, HIGHEST - 5, HIGHEST),
    (HIGHEST, 2, 3, LOWEST, LOWEST + 5),
    (LOWEST, 1, 2, LOWEST, HIGHEST),
];

fn rail((offset, numerator, denominator, lower_stop, upper_stop): (i64, i64, i64, i64, i64)) -> Settings {
    Settings { offset, numerator, denominator, lower_stop, upper_stop, ..sheet_s() }
}

impl<W: Write> Script<W> {
    fn any_place(&mut self) -> i64 {
        self.random.between(LOWEST, HIGHEST)
    }

    /// A layout with one bit more, which makes it none.
    fn any_nearly_layout(&mut self) -> u32 {
        self.random.pick(&LAYOUTS) | 1 << self.random.between(2, 27)
    }

    /// Acceptable settings that layout 2 holds and layout 1 does not, the three places in different parts of the rail.
    pub(super) fn any_long_settings(&mut self) -> Settings {
        loop {
            let settings = Settings {
                offset: self.any_place(),
                lower_stop: self.any_place(),
                upper_stop: self.any_place(),
                ..old(self.any_settings())
            };
            let four_to_one = self.random.between(1, 1 << 18);
            let settings = if self.random.once_in(2) {
                Settings { numerator: four_to_one, denominator: 4 * four_to_one, ..settings }
            } else {
                settings
            };
            let top_bits = [settings.offset, settings.lower_stop, settings.upper_stop].map(|place| place >> 28);
            if is_acceptable(&settings) && top_bits[0] != top_bits[1] && top_bits[0] != top_bits[2] {
                return settings;
            }
        }
    }

    /// The writer, told a layout: every length that matters, each place at its edges alone, and faults two by two.
    pub(super) fn layout_lines(&mut self) {
        let long = self.any_long_settings();
        for length in LENGTHS {
            for layout in LAYOUTS {
                self.writer(layout, length, &sheet_s());
                self.layout_line(layout, length, &long);
            }
        }
        for layout in LAYOUTS {
            for value in PLACE_EDGES {
                let wide = Settings { numerator: 1, denominator: 4, ..sheet_s() };
                self.layout_line(layout, 16, &Settings { offset: value, ..wide.clone() });
                self.layout_line(layout, 16, &Settings { lower_stop: value, ..wide.clone() });
                self.layout_line(layout, 16, &Settings { upper_stop: value, ..wide });
            }
        }
        for settings in RAILS.into_iter().chain(OUT_OF_REACH).map(rail) {
            self.layout_line(2, 16, &settings);
        }
        self.writer(1, 15, &long);
        self.orders();
    }

    /// Faults two by two, in the order in which they are looked for. Then all at once, and layouts nobody defined with none.
    fn orders(&mut self) {
        let strange = self.random.pick(&STRANGE_LAYOUTS);
        for layout in LAYOUTS.into_iter().chain([strange]) {
            for (said, unsaid) in two_faults(layout) {
                self.faulty_line(layout, &[said, unsaid]);
            }
            self.faulty_line(layout, faults(layout));
        }
        let (long, nearly) = (self.any_long_settings(), self.any_nearly_layout());
        for layout in STRANGE_LAYOUTS.into_iter().chain([nearly]) {
            for settings in [&sheet_s(), &long] {
                let length = self.random.pick(&LENGTHS);
                self.layout_line(layout, length, settings);
            }
        }
    }

    /// Sheet S with these faults.
    fn faulty_line(&mut self, layout: u32, faults: &[Refusal]) {
        let room = if layout == 1 { 15 } else { 16 };
        let (mut length, mut s) = (room, sheet_s());
        for fault in faults {
            match fault {
                ShortBuffer => length = self.random.pick(&[0, 14, room - 1]),
                LongValue => s.offset = self.random.pick(&[LOWEST, -PLACE - 1, PLACE, HIGHEST]),
                HomingTorqueLost => s.homing_torque = self.random.pick(&[0, 999, 1001, 3000]),
                OutOfRange => self.leave_range(&mut s),
                StopsCrossed => (s.lower_stop, s.upper_stop) = (s.upper_stop, s.lower_stop),
                OutOfReach => {
                    (s.numerator, s.denominator) = (1 << 20, 1);
                    (s.lower_stop, s.upper_stop) = (2 * s.lower_stop, 2 * s.upper_stop);
                }
                _ => {}
            }
        }
        self.layout_line(layout, length, &s);
    }

    /// One field outside its range.
    pub(super) fn leave_range(&mut self, s: &mut Settings) {
        match self.random.between(0, 5) {
            0 => s.method = 36,
            1 => s.fast = 1 << 28,
            2 => s.slow = 0,
            3 => s.negative_2 = 1 << 14,
            4 => s.quick_stop_option = 4,
            _ => s.rated_torque = (1 << 24) + 1,
        }
    }

    /// Kind 14 outside its range, out of turn and twice; ends too early and with wrong sums; strange starts; and starts of
    /// layout 1 in layout 2, or the other way round, at each place halfway.
    pub(super) fn layout_words(&mut self) {
        self.reach(SwitchOnDisabled);
        let long = words_in(2, &self.any_long_settings());
        let short = words_in(1, &sheet_s());
        let (top_bits, end) = (long[14], long[15]);
        let any = [self.random.between(13, 26), self.random.between(13, 26)];
        for bit in [12, any[0], any[1], 27] {
            self.one_wrong(&long, sheet::TOP_BITS, sheet::data(top_bits) | 1 << bit);
            self.word(end);
        }
        let early = self.random.between(1, 13) as usize;
        for (layout, heard) in [(1, 14), (1, early), (2, early)] {
            self.words(if layout == 1 { &short[..heard] } else { &long[..heard] });
            self.word(sheet::word(sheet::TOP_BITS, 0));
            self.word(if layout == 1 { short[heard] } else { long[heard] });
        }
        self.words(&long[..14]);
        self.word(sheet::word(sheet::END, sheet::sum(&long[..14])));
        self.word(top_bits);
        self.words(&long[..15]);
        self.words(&[top_bits, end]);
        self.words(&long[..15]);
        self.word(sheet::word(sheet::END, sheet::sum(&long[..14]))); // kind 14 left out
        self.words(&long[..15]);
        self.word(sheet::word(sheet::END, sheet::sum(&long[..15]).wrapping_sub(1) & sheet::DATA));
        self.words(&short[..14]);
        self.word(sheet::word(sheet::END, sheet::sum(&short[..14]) + 1));
        let nearly = self.any_nearly_layout();
        for data in STRANGE_STARTS.into_iter().chain([nearly]) {
            self.words(&[sheet::word(sheet::START, data), short[1]]);
            let halfway = self.random.between(1, 14) as usize;
            let words = if self.random.once_in(2) { &short } else { &long };
            self.words(&words[..halfway]);
            self.words(&[sheet::word(sheet::START, data), short[1], words[halfway]]);
        }
        self.change_halfway(&short, &long);
    }

    /// At each place a start of the other layout, the words after it as far as the place; then from any place a whole sheet,
    /// which begins in the same layout or in the other.
    fn change_halfway(&mut self, short: &[u32], long: &[u32]) {
        for heard in 1..=15 {
            self.words(&long[..heard]);
            self.words(&short[..heard.min(14)]);
        }
        self.words(long);
        for (left, whole) in [(short, long), (long, short), (short, short), (long, long)] {
            let heard = self.random.between(1, left.len() as i64 - 1) as usize;
            self.words(&left[..heard]);
            self.words(whole);
        }
        self.tick();
    }

    /// Sheets that end while the axis is live, in every layout.
    pub(super) fn live_layouts(&mut self) {
        let long = self.any_long_settings();
        for state in [OperationEnabled, QuickStopActive] {
            self.now.command = "torque 5".to_string();
            self.reach(state);
            for (layout, settings) in [(1, &sheet_s()), (2, &long), (3, &long)] {
                self.words(&words_in(layout, settings));
            }
        }
        self.words(&words_in(2, &Settings { lower_stop: HIGHEST, upper_stop: HIGHEST, ..long }));
        self.tick_with(0x0000, "rest", false);
    }

    /// Homed on rails of every length, and moved along them; some are refused, and the one before stays in force.
    pub(super) fn long_rails(&mut self) {
        for settings in RAILS.map(rail) {
            // A quarter of either is exact.
            self.follow_under(&settings, &[4 - (1 << 32), (1 << 32) - 4]);
            // Beyond a stop, but with the same low 28 bits.
            let beyond = [settings.lower_stop - (1 << 28), settings.upper_stop + (1 << 28)];
            for target in beyond.into_iter().filter(|&target| i32::try_from(target).is_ok()) {
                self.tick_with(0x000F, &format!("position {target} 0"), true);
            }
        }
        self.edges_of_reach();
        self.edge_products();
        let places = [self.any_long_settings(), self.any_long_settings()];
        for settings in &places {
            self.follow_under(settings, &[]);
        }
        self.only_one_long();
        self.take_over(&sheet_s());
        self.reach(SwitchOnDisabled);
        for settings in OUT_OF_REACH.map(rail) {
            self.words(&words_in(2, &settings));
        }
        self.same_in_all();
    }

    /// Gear 1 to 1, by small numbers and by great ones: the stops at ±2^30 from the offset, and one beyond.
    fn edges_of_reach(&mut self) {
        const REACH: i64 = 1 << 30;
        let offset = self.random.between(-REACH, REACH - 1);
        for ratio in [1, 1 << 20] {
            self.follow_under(&rail((offset, ratio, ratio, offset - REACH, offset + REACH)), &[]);
        }
        self.reach(SwitchOnDisabled);
        for (lower, upper) in [(-REACH - 1, REACH), (-REACH, REACH + 1)] {
            let offset = self.random.between(1 - REACH, REACH - 2);
            self.words(&words_in(2, &rail((offset, 1, 1, offset + lower, offset + upper))));
        }
    }

    /// Products of 2^31 − 1 and −2^31 − 1, which places of 28 bits do not make: with numerator 1, and with 3, for that
    /// divides the second.
    fn edge_products(&mut self) {
        const BELOW: i64 = -(1 << 31) - 1;
        for (numerator, difference) in [(1, HIGHEST), (1, BELOW), (3, BELOW / 3)] {
            let denominator = self.random.between(3, 1 << 20);
            let offset = self.random.between(LOWEST.max(LOWEST - difference), HIGHEST.min(HIGHEST - difference));
            let stop = offset + difference;
            let settings = rail((offset, numerator, denominator, stop.min(offset), stop.max(offset)));
            self.follow_under(&settings, &[]);
        }
    }

    /// Each place long, the other two not, just beyond 28 bits or as far as can be.
    fn only_one_long(&mut self) {
        let four = Settings { numerator: 1, denominator: 4, ..sheet_s() };
        let any = [PLACE, -PLACE - 1, LOWEST, HIGHEST];
        for settings in [
            Settings { offset: self.random.pick(&any), ..four.clone() },
            Settings { lower_stop: self.random.pick(&[-PLACE - 1, LOWEST]), ..four.clone() },
            Settings { upper_stop: self.random.pick(&[PLACE, HIGHEST]), ..four.clone() },
        ] {
            self.take_over(&settings);
        }
        // Edges of 28 bits, all three of them at once.
        for (offset, lower_stop, upper_stop) in [
            (PLACE - 1, -PLACE, PLACE - 1),
            (-PLACE, -PLACE - 1, PLACE),
            (-PLACE - 1, PLACE - 1, PLACE),
            (PLACE, -PLACE - 1, -PLACE),
        ] {
            self.take_over_words(&words_in(2, &Settings { offset, lower_stop, upper_stop, ..four.clone() }));
        }
    }

    /// A layout 1 sheet written in each later layout: what is homed and followed under one is under the others.
    fn same_in_all(&mut self) {
        let below = Settings { offset: -7, lower_stop: -PLACE, upper_stop: -3, denominator: 3, numerator: 1, ..sheet_s() };
        for layout in [2, 1, 3, 2] {
            let settings = Settings { method: 35, ..below.clone() };
            self.take_over_words(&words_in(layout, &settings));
            self.home_at(0);
            for target in [LOWEST, -PLACE, -8, 0] {
                self.tick_with(0x000F, &format!("position {target} 0"), true);
            }
        }
    }
}
