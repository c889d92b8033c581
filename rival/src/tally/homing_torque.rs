//! Homing torque: the cap in mode 6 and in no other, the words that carry it, what an older layout must not be read with, and the
//! writer's field.

use std::cmp::Ordering::*;

use super::{words, Tally};
use crate::command::{Command, HOMING_MODE};
use crate::homing::Homing;
use crate::refusal::Refusal;
use crate::sheet::{self, LimitSet, Sheet, LAYOUTS};
use crate::tick::Tick;
use crate::writer::Settings;

const OLD_LAYOUTS: [u32; 2] = [1, 2];
const OTHER_MODES: [i8; 3] = [-1, 8, 10];
const SIGNS: [&str; 2] = ["above", "below"];
const SETS: [&str; 2] = ["set 1", "set 2"];
const LIVE: [&str; 2] = ["OperationEnabled", "QuickStopActive"];

/// Homing torques that are to be felt: none, and every other bit.
const FELT: [i64; 3] = [0, 0x555, 0xAAA];

/// Data of kind 12 that layout 3 refuses, with all else about it right: the homing torque, and the option.
const WRONG_TORQUES: [u32; 2] = [3001, 4095];
const WRONG_OPTIONS: [u32; 3] = [0, 3, 0x82];

/// Of the bits that hold the homing torque, the first and the last: no older layout takes them.
const TORQUE_BITS: [u32; 2] = [8, 19];

/// Those that must be zero in layout 3.
const SPARE_BITS: [u32; 8] = [20, 21, 22, 23, 24, 25, 26, 27];

/// Homing torques that the writer is given in layout 3.
const WRITTEN: [i64; 8] = [0, 1, 3000, 3001, 4095, 4096, 1 << 16 | 5, (1 << 32) - 1];

/// How a homing torque may differ from the maximum.
const LOST: [&str; 7] = [
    "below the maximum",
    "above the maximum",
    "neither is felt",
    "its low 12 bits are the maximum's",
    "its low 16 bits are the maximum's",
    "only it out of range",
    "both out of range",
];

const SINGLE: [&str; 17] = [
    "mode 6 shown, another command: no torque",
    "another mode shown, homing command: no torque",
    "homing runs: homing torque holds",
    "mode 6: maximum holds above, homing torque beyond it",
    "mode 6: maximum holds below, homing torque beyond it",
    "layout 3: option 2 leaves quick stop",
    "layout 3: option 6 leaves quick stop",
    "layout 3: bad sum, homing torque left out",
    "layout 3: bad sum, the start counted as layout 2's",
    "layout 3 taken over: homing torque below the maximum",
    "layout 3 taken over: homing torque equal to the maximum",
    "layout 3 taken over: homing torque above the maximum",
    "layout 3 taken over: homing torque 0",
    "layout 3 taken over: homing torque 3000",
    "layout 3 taken over: a place long",
    "layout 3 taken over: three different top bits",
    "sheet line unreadable: a homing torque",
];

pub(super) fn names() -> Vec<String> {
    let mut names: Vec<String> = SINGLE.map(String::from).into();
    for sign in SIGNS {
        for state in LIVE {
            names.extend(SETS.map(|set| format!("mode 6 in {state}, {set}: homing torque holds {sign}")));
            names.extend(OTHER_MODES.map(|mode| format!("mode {mode} in {state}: torque {sign} beyond the homing torque")));
        }
        names.extend(SETS.map(|set| format!("mode 6, {set}: limit holds {sign}, homing torque between it and the maximum")));
        names.extend(FELT.map(|torque| format!("mode 6: homing torque {torque} holds {sign}")));
        names.push(format!("mode 6: demand {sign} is the homing torque"));
        names.push(format!("mode 6: demand {sign} is one beyond the homing torque"));
        for layout in OLD_LAYOUTS {
            let stale = ["taken over", "left halfway"];
            names.extend(stale.map(|stale| format!("layout {layout}: torque {sign} beyond a homing torque {stale} before")));
        }
    }
    for state in LIVE {
        names.push(format!("mode 6 entered in {state}: homing torque holds"));
        names.push(format!("mode 6 left in {state}: torque beyond the homing torque"));
    }
    names.extend(SPARE_BITS.map(|bit| format!("layout 3, kind 12: bit {bit} alone")));
    names.extend(WRONG_TORQUES.map(|torque| format!("layout 3, kind 12: homing torque {torque}")));
    names.extend(WRONG_OPTIONS.map(|option| format!("layout 3, kind 12: option {option}")));
    names.extend(WRITTEN.map(|torque| format!("layout line, layout 3: homing torque {torque}")));
    for layout in OLD_LAYOUTS {
        names.extend(TORQUE_BITS.map(|bit| format!("layout {layout}, kind 12: bit {bit} alone")));
        names.extend(LOST.map(|how| format!("layout line, layout {layout}: homing torque lost, {how}")));
    }
    for layout in LAYOUTS {
        names.push(format!("layout line, layout {layout}: homing torque and maximum out of range alike"));
        let how = ["left out", "given, the maximum", "given, another"];
        names.extend(how.map(|how| format!("layout line, layout {layout}: HOMING {how}")));
    }
    names
}

fn is_torque(value: i64) -> bool {
    (0..=3000).contains(&value)
}

/// Each of `LOST`, where it is so.
fn lost(s: &Settings) -> [bool; LOST.len()] {
    let (homing, maximum) = (s.homing_torque, s.maximum_torque);
    let limits = [s.positive_1, s.negative_1, s.positive_2, s.negative_2];
    [
        homing < maximum && is_torque(maximum),
        homing > maximum && is_torque(homing),
        is_torque(homing) && is_torque(maximum) && limits.iter().all(|&limit| limit < homing.min(maximum)),
        homing & 0xFFF == maximum,
        homing & 0xFFFF == maximum,
        !is_torque(homing) && is_torque(maximum),
        !is_torque(homing) && !is_torque(maximum),
    ]
}

impl Tally {
    /// A word of a run, by kind 12 and what it leaves behind; and an end word's sum.
    pub(super) fn saw_option_word(&mut self, layout: u32, run: &[u32], word: u32, heard: Result<(), Refusal>) {
        let (kind, data) = (sheet::kind(word), sheet::data(word));
        let carried = run.get(sheet::QUICK_STOP_OPTION as usize).map(|&word| sheet::data(word) >> 8);
        let ended = heard.is_err() || kind == sheet::START;
        if let (3, Some(torque), true) = (layout, carried, ended) {
            self.stale.left = Some(torque.into());
        }
        if let (3, Some(torque), Err(Refusal::BadSum)) = (layout, carried, heard) {
            let short_of = |by: u32| data == sheet::sum(run).wrapping_sub(by) & sheet::DATA;
            self.saw_if(torque > 0 && short_of(torque << 8), "layout 3: bad sum, homing torque left out");
            self.saw_if(short_of(1), "layout 3: bad sum, the start counted as layout 2's");
        }
        if kind == sheet::QUICK_STOP_OPTION && run.len() == kind as usize {
            self.saw_wrong_option(layout, data);
        }
    }

    /// Kind 12's data, where it is due; what is right about it is not looked at.
    fn saw_wrong_option(&mut self, layout: u32, data: u32) {
        let (option, torque) = (data & 0xFF, data >> 8 & 0xFFF);
        let option_fits = [2, 6].contains(&option);
        let (zero_from, bits): (u32, &[u32]) = if layout == 3 { (20, &SPARE_BITS) } else { (8, &TORQUE_BITS) };
        let spare = data >> zero_from << zero_from;
        let alone = bits.iter().find(|&&bit| spare == 1 << bit);
        if let (Some(bit), true) = (alone, option_fits && torque <= 3000) {
            self.saw(&format!("layout {layout}, kind 12: bit {bit} alone"));
        }
        if layout == 3 && spare == 0 {
            let torque_wrong = option_fits && WRONG_TORQUES.contains(&torque);
            self.saw_if(torque_wrong, &format!("layout 3, kind 12: homing torque {torque}"));
            let option_wrong = torque > 0 && torque <= 3000 && WRONG_OPTIONS.contains(&option);
            self.saw_if(option_wrong, &format!("layout 3, kind 12: option {option}"));
        }
    }

    /// A sheet of layout 3 that is taken over.
    pub(super) fn saw_homing_torque(&mut self, sheet: &Sheet) {
        let homing = sheet.homing_torque();
        self.stale.taken_over = Some(homing);
        self.stale.left = None;
        let than = match homing.cmp(&sheet.maximum_torque()) {
            Less => "below",
            Equal => "equal to",
            Greater => "above",
        };
        self.saw(&format!("layout 3 taken over: homing torque {than} the maximum"));
        self.saw_if([0, 3000].contains(&homing), &format!("layout 3 taken over: homing torque {homing}"));
        let places = [sheet.offset(), sheet.lower_stop(), sheet.upper_stop()];
        self.saw_if(places.iter().any(|&place| sheet::is_long(place.into())), "layout 3 taken over: a place long");
        let [a, b, c] = places.map(|place| place >> 28);
        self.saw_if(a != b && b != c && c != a, "layout 3 taken over: three different top bits");
    }

    /// A matched command in a live state, by the mode that is shown.
    pub(super) fn saw_cap(&mut self, tick: &Tick, sheet: &Sheet, mode_before: i8, demand: i64, torque: i64) {
        let (mode, state) = (self.axis.shown_mode(), self.axis.state());
        let (maximum, homing, layout) = (sheet.maximum_torque(), sheet.homing_torque(), sheet.layout());
        let set = if tick.limit_set == LimitSet::Set1 { SETS[0] } else { SETS[1] };
        let (sign, limit) = match demand {
            1.. => (SIGNS[0], sheet.positive_limit(tick.limit_set)),
            _ => (SIGNS[1], sheet.negative_limit(tick.limit_set)),
        };
        let held = demand.abs() > torque.abs();
        if mode != HOMING_MODE {
            if torque.abs() > homing && layout == 3 {
                self.saw(&format!("mode {mode} in {state:?}: torque {sign} beyond the homing torque"));
                let left = mode_before == HOMING_MODE;
                self.saw_if(left, &format!("mode 6 left in {state:?}: torque beyond the homing torque"));
            }
        } else if homing < maximum && homing < limit {
            self.saw_if(demand.abs() == homing && homing > 0, &format!("mode 6: demand {sign} is the homing torque"));
            self.saw_if(demand.abs() == homing + 1, &format!("mode 6: demand {sign} is one beyond the homing torque"));
            if held {
                self.saw(&format!("mode 6 in {state:?}, {set}: homing torque holds {sign}"));
                self.saw_if(FELT.contains(&homing), &format!("mode 6: homing torque {homing} holds {sign}"));
                let entered = mode_before != HOMING_MODE;
                self.saw_if(entered, &format!("mode 6 entered in {state:?}: homing torque holds"));
                let runs = matches!(self.axis.homing(), Homing::Runs { .. });
                self.saw_if(runs, "homing runs: homing torque holds");
            }
        } else if held {
            let between = limit < homing && homing < maximum;
            self.saw_if(between, &format!("mode 6, {set}: limit holds {sign}, homing torque between it and the maximum"));
            let beyond = maximum < homing && maximum < limit;
            self.saw_if(beyond, &format!("mode 6: maximum holds {sign}, homing torque beyond it"));
            let lower = |stale: Option<i64>| layout < 3 && stale.is_some_and(|stale| stale < torque.abs());
            for (how, stale) in [("taken over", self.stale.taken_over), ("left halfway", self.stale.left)] {
                self.saw_if(lower(stale), &format!("layout {layout}: torque {sign} beyond a homing torque {how} before"));
            }
        }
    }

    /// A command that is not matched, in a live state.
    pub(super) fn saw_unmatched(&mut self, tick: &Tick, demand: i64) {
        let shown = self.axis.shown_mode() == HOMING_MODE;
        let homing = matches!(tick.command, Command::Homing { .. });
        self.saw_if(shown && demand != 0, "mode 6 shown, another command: no torque");
        self.saw_if(homing && demand != 0, "another mode shown, homing command: no torque");
    }

    /// The sixteenth field of a `layout` line, in its text too: it may be left out.
    pub(super) fn saw_homing_field(&mut self, layout: u32, settings: &Settings, before_comment: &[u8]) {
        if !LAYOUTS.contains(&layout) {
            return;
        }
        let (homing, maximum) = (settings.homing_torque, settings.maximum_torque);
        let how = match words(before_comment).count() {
            18 => "left out",
            _ if homing == maximum => "given, the maximum",
            _ => "given, another",
        };
        self.saw(&format!("layout line, layout {layout}: HOMING {how}"));
        let alike = homing == maximum && !is_torque(maximum);
        self.saw_if(alike, &format!("layout line, layout {layout}: homing torque and maximum out of range alike"));
        if layout == 3 {
            let alone = Settings { homing_torque: 0, ..settings.clone() }.words(3).is_some();
            self.saw_if(alone && WRITTEN.contains(&homing), &format!("layout line, layout 3: homing torque {homing}"));
        } else if homing != maximum && !(layout == 1 && settings.is_long()) {
            for (how, _) in LOST.into_iter().zip(lost(settings)).filter(|&(_, so)| so) {
                self.saw(&format!("layout line, layout {layout}: homing torque lost, {how}"));
            }
        }
    }

    /// A `sheet` line with one word too many, which in a `layout` line could be homing torque.
    pub(super) fn saw_unreadable_sheet(&mut self, before_comment: &[u8], column: usize) {
        let (read, rest) = before_comment.split_at(column - 1);
        let number = words(rest).next().is_some_and(|word| word.iter().all(u8::is_ascii_digit));
        let whole = words(read).next() == Some(b"sheet") && words(read).count() == 17;
        self.saw_if(whole && number, "sheet line unreadable: a homing torque");
    }
}
