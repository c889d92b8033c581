//! Scenes about homing torque: the cap in mode 6 and in no other, the words that carry it in layout 3 and in no other, and the
//! writer, which would lose it elsewhere.

use std::io::Write;

use super::sheets::{sheet_s, words_in};
use super::Script;
use crate::command::{HOMING_MODE, HYBRID_MODE, POSITION_MODE, TORQUE_MODE};
use crate::drive_state::DriveState::*;
use crate::sheet::{self, LAYOUTS};
use crate::writer::Settings;

/// Beyond every cap.
const MUCH: i64 = 3100;

/// Sheet S, but for these two torques. Homing awaits Z; quick stop is left by enable; and a newton metre is 1000 thousandths.
fn capped(maximum_torque: i64, homing_torque: i64) -> Settings {
    Settings { method: 34, quick_stop_option: 6, rated_torque: 1000, maximum_torque, homing_torque, ..sheet_s() }
}

/// The same with limits that hold nothing.
fn unlimited(maximum_torque: i64, homing_torque: i64) -> Settings {
    let [positive_1, negative_1, positive_2, negative_2] = [3000; 4];
    Settings { positive_1, negative_1, positive_2, negative_2, ..capped(maximum_torque, homing_torque) }
}

/// A command of this mode that asks for so much. Hybrid's torque is in newton metres.
fn command(mode: i8, request: i64) -> String {
    match mode {
        HYBRID_MODE => format!("hybrid 0 0 0 0 {}.{:03} 0 0", request / 1000, request.abs() % 1000),
        HOMING_MODE => format!("homing {request}"),
        POSITION_MODE => format!("position 0 {request}"),
        _ => format!("torque {request}"),
    }
}

/// Kind 12's data in layout 3.
fn option_and_torque(option: u32, homing_torque: u32) -> u32 {
    homing_torque << 8 | option
}

impl<W: Write> Script<W> {
    /// Takes these words over and is enabled in mode 6.
    fn enable_in_mode_6(&mut self, words: &[u32]) {
        self.take_over_words(words);
        self.now.command = "homing 0".to_string();
        self.now.switches = Default::default();
        self.reach(OperationEnabled);
    }

    /// Much, both ways.
    fn push(&mut self, control: u16, mode: i8, still: bool) {
        for request in [MUCH, -MUCH] {
            self.tick_with(control, &command(mode, request), still);
        }
    }

    /// By homing commands, with either set.
    fn push_homing(&mut self, control: u16, still: bool) {
        for set in [1, 2] {
            self.now.set = set;
            self.push(control, HOMING_MODE, still);
        }
    }

    /// Each of the three as the least; in between older layouts, in which a lower homing torque was in force before.
    pub(super) fn homing_caps(&mut self) {
        self.enable_in_mode_6(&words_in(3, &capped(1000, 250)));
        self.homing_holds(250);
        self.other_modes(0x000F, true);
        self.mismatched();
        self.quick_stop_in_mode_6();
        let [first, second] = [1, 2].map(|layout| words_in(layout, &unlimited(700, 700)));
        for words in [first, words_in(3, &capped(1000, 0)), second] {
            self.enable_in_mode_6(&words);
            self.push_homing(0x000F, true);
        }
        // Between the limits and the maximum; then beyond the maximum.
        for settings in [Settings { quick_stop_option: 2, ..capped(1000, 900) }, capped(250, 2000)] {
            self.enable_in_mode_6(&words_in(3, &settings));
            self.push_homing(0x000F, true);
            self.tick_with(0x0002, "homing 100", false);
            self.tick_with(0x0002, "homing 100", true); // option 2 leaves quick stop
        }
        let long = self.any_long_settings();
        let other = (long.maximum_torque + self.random.between(1, 3000)) % 3001;
        self.follow_under(&Settings { homing_torque: other, ..long }, &[]);
    }

    /// Homing runs, and asks for the homing torque, one more and much more.
    fn homing_holds(&mut self, homing_torque: i64) {
        self.now.set = 1;
        self.tick_with(0x000F, &command(HOMING_MODE, MUCH), true);
        for request in [homing_torque, homing_torque + 1] {
            self.tick_with(0x001F, &command(HOMING_MODE, request), false);
            self.tick_with(0x001F, &command(HOMING_MODE, -request), false);
        }
        self.push_homing(0x001F, false);
    }

    /// Each other mode, and back to mode 6.
    fn other_modes(&mut self, control: u16, still: bool) {
        for mode in [POSITION_MODE, TORQUE_MODE, HYBRID_MODE] {
            self.now.set = 1;
            self.push(control, mode, still);
            self.tick_with(control, &command(HOMING_MODE, MUCH), still);
        }
    }

    /// Mode 6 is shown, and another command comes moving; then the other way round.
    fn mismatched(&mut self) {
        self.tick_with(0x000F, "torque 500", false);
        self.tick_with(0x000F, "torque 500", true);
        self.tick_with(0x000F, "homing 500", false);
        self.tick_with(0x000F, "homing 500", true);
    }

    /// Quick stop begins in mode 6, the modes change in it, and option 6 leaves it.
    fn quick_stop_in_mode_6(&mut self) {
        self.push_homing(0x0002, false);
        self.other_modes(0x0002, false);
        self.tick_with(0x000F, &command(HOMING_MODE, -MUCH), true);
    }

    /// Kind 12 outside its range in every layout, also where the layout left before would take it; wrong ends; and sheets left
    /// halfway.
    pub(super) fn homing_torque_words(&mut self) {
        self.reach(SwitchOnDisabled);
        let [first, second, third] = &LAYOUTS.map(|layout| words_in(layout, &sheet_s()));
        for bit in 20..28 {
            self.refused_12(third, option_and_torque(2, 250) | 1 << bit);
        }
        for option in [0, 3, 0x82] {
            self.refused_12(third, option_and_torque(option, 250));
        }
        for (words, too_high) in [(first, 3001), (second, 4095)] {
            self.refused_12(words, option_and_torque(6, 1 << 11));
            self.words(&third[..12]);
            self.refused_12(words, option_and_torque(2, 1));
            self.words(&words[..12]);
            self.refused_12(third, option_and_torque(2, too_high));
        }
        for words in [third, first, third, second, third] {
            self.word(words[0]);
        }
        self.wrong_ends();
        self.leave_homing_torque();
    }

    /// Words up to kind 12, whose word is refused.
    fn refused_12(&mut self, words: &[u32], data: u32) {
        self.words(&words[..12]);
        self.word(sheet::word(sheet::QUICK_STOP_OPTION, data));
    }

    /// The end where kind 14 is due; then homing torque left out of the sum, and the start counted as layout 2's.
    fn wrong_ends(&mut self) {
        let words = words_in(3, &sheet_s());
        self.words(&words[..14]);
        self.word(sheet::word(sheet::END, sheet::sum(&words[..14])));
        let sum = sheet::sum(&words[..15]);
        for wrong in [sum.wrapping_sub(1000 << 8), sum - 1] {
            self.words(&words[..15]);
            self.word(sheet::word(sheet::END, wrong & sheet::DATA));
        }
    }

    /// A sheet left after kind 12, in layout 3 with a low homing torque; then a whole one, in which it leaves no trace.
    fn leave_homing_torque(&mut self) {
        let low = words_in(3, &capped(1000, 100));
        for (left, layout, settings) in [
            (&low, 1, unlimited(700, 700)),
            (&low, 2, unlimited(700, 700)),
            (&words_in(1, &sheet_s()), 3, unlimited(3000, 1365)),
            (&words_in(2, &sheet_s()), 3, unlimited(3000, 2730)),
            (&low, 3, unlimited(3000, 3000)),
        ] {
            self.reach(SwitchOnDisabled);
            self.words(&left[..13]);
            self.enable_in_mode_6(&words_in(layout, &settings));
            self.push(0x000F, HOMING_MODE, true);
        }
    }

    /// The writer, with a homing torque at its edges, beyond them and lost.
    pub(super) fn homing_torque_lines(&mut self) {
        for homing_torque in [0, 1, 3000, 3001, 4095, 4096, 1 << 16 | 5, i64::from(u32::MAX)] {
            self.layout_line(3, 16, &Settings { homing_torque, ..sheet_s() });
        }
        let large = self.random.between(3001, i64::from(u32::MAX));
        for layout in LAYOUTS {
            for (maximum_torque, homing_torque) in [
                (1000, 999),
                (1000, 1001),
                (3000, 2999), // neither is felt
                (1000, 1000 + 4096),
                (1000, 1000 + (1 << 16)),
                (0, 3001),
                (3001, 0),
                (3001, 3002),
                (u32::MAX.into(), large),
                (3001, 3001),
                (large, large),
                (3000, 3000),
                (0, 0),
            ] {
                self.layout_line(layout, 16, &Settings { maximum_torque, homing_torque, ..sheet_s() });
            }
        }
    }
}
