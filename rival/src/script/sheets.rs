//! Scenes about settings: sheets whole, torn and at the edges, and the writer.

use std::io::Write;

use super::Script;
use crate::drive_state::DriveState::*;
use crate::homing::{Way, METHODS};
use crate::random::Random;
use crate::sheet::{self, LAYOUTS, LONGEST};
use crate::writer::{self, Settings};

/// Sheet S of the paper.
pub fn sheet_s() -> Settings {
    Settings {
        method: 23,
        fast: 20000,
        slow: 1000,
        offset: 0,
        numerator: 3,
        denominator: 2,
        lower_stop: -1000,
        upper_stop: 1000,
        maximum_torque: 1000,
        positive_1: 800,
        negative_1: 600,
        positive_2: 300,
        negative_2: 300,
        quick_stop_option: 2,
        rated_torque: 2000,
        homing_torque: 1000,
    }
}

/// The same as an older layout reads it: homing torque is the maximum.
pub(super) fn old(settings: Settings) -> Settings {
    Settings { homing_torque: settings.maximum_torque, ..settings }
}

/// A field of the settings, and what it may hold at least and at most.
struct Edge {
    field: fn(&mut Settings) -> &mut i64,
    least: i64,
    most: i64,
}

/// In layout 1 offset and stops lie from minus this to one below this.
pub(super) const PLACE: i64 = 1 << 27;

/// In the others they do so with this.
pub(super) const LONG_PLACE: i64 = 1 << 31;

/// Homing torque has scenes of its own.
const EDGES: [Edge; 15] = [
    Edge { field: |s| &mut s.method, least: 1, most: 35 },
    Edge { field: |s| &mut s.fast, least: 1, most: (1 << 28) - 1 },
    Edge { field: |s| &mut s.slow, least: 1, most: (1 << 28) - 1 },
    Edge { field: |s| &mut s.offset, least: -PLACE, most: PLACE - 1 },
    Edge { field: |s| &mut s.numerator, least: 1, most: 1 << 20 },
    Edge { field: |s| &mut s.denominator, least: 1, most: 1 << 20 },
    Edge { field: |s| &mut s.lower_stop, least: -PLACE, most: PLACE - 1 },
    Edge { field: |s| &mut s.upper_stop, least: -PLACE, most: PLACE - 1 },
    Edge { field: |s| &mut s.maximum_torque, least: 0, most: 3000 },
    Edge { field: |s| &mut s.positive_1, least: 0, most: 3000 },
    Edge { field: |s| &mut s.negative_1, least: 0, most: 3000 },
    Edge { field: |s| &mut s.positive_2, least: 0, most: 3000 },
    Edge { field: |s| &mut s.negative_2, least: 0, most: 3000 },
    Edge { field: |s| &mut s.quick_stop_option, least: 2, most: 6 },
    Edge { field: |s| &mut s.rated_torque, least: 1, most: 1 << 24 },
];

/// Where the methods that a sheet may hold have gaps, the numbers on either side of the gap's edges.
const INNER_EDGES: [u32; 12] = [2, 3, 16, 17, 18, 19, 22, 23, 30, 31, 32, 33];

/// The words of settings in a layout that holds them.
pub(super) fn words_in(layout: u32, settings: &Settings) -> Vec<u32> {
    settings.words(layout).expect("the scene's settings are in range")
}

/// As a `sheet` line has them: all but homing torque.
fn values_of(settings: &Settings) -> String {
    settings.values()[..15].iter().map(i64::to_string).collect::<Vec<_>>().join(" ")
}

/// In range, the stops sound.
pub fn is_acceptable(settings: &Settings) -> bool {
    writer::write(3, settings, &mut [0; LONGEST]).is_ok()
}

/// Every field at its least or its most, but for the stops: they lie at either end, so as not to cross.
fn at_edge(least: bool) -> Settings {
    let mut settings = sheet_s();
    for edge in &EDGES {
        *(edge.field)(&mut settings) = if least { edge.least } else { edge.most };
    }
    settings.lower_stop = -PLACE;
    settings.upper_stop = PLACE - 1;
    old(settings)
}

impl<W: Write> Script<W> {
    /// Settings that any sheet may hold.
    pub(super) fn any_settings(&mut self) -> Settings {
        loop {
            let random = &mut self.random;
            let torque = |random: &mut Random| {
                let any = random.between(0, 3000);
                random.pick(&[0, 1, 1000, 3000, 3000, any, any])
            };
            let any = random.between(1, 1 << 20);
            let (numerator, denominator) = random.pick(&[
                (1, 4),
                (3, 2),
                (1, 1),
                (1, 3),
                (7, 1000),
                (1000, 7),
                (1 << 20, 1 << 20),
                (1, 1 << 20),
                (any, 1000),
                (1 << 20, 3),
            ]);
            let width = random.pick(&[50, 1000, 1000, 100_000, PLACE - 1, 1 << 29, LONG_PLACE - 1]);
            let fast = random.between(1, (1 << 28) - 1);
            let maximum_torque = torque(random);
            let settings = Settings {
                method: i64::from(random.pick(&METHODS)),
                fast: random.pick(&[20000, 1, (1 << 28) - 1, fast]),
                slow: random.pick(&[1000, 1, (1 << 28) - 1, 7]),
                offset: random.between(-width, width),
                numerator,
                denominator,
                lower_stop: random.between(-width, width),
                upper_stop: random.between(-width, width),
                maximum_torque,
                positive_1: torque(random),
                negative_1: torque(random),
                positive_2: torque(random),
                negative_2: torque(random),
                quick_stop_option: random.pick(&[2, 6]),
                rated_torque: random.pick(&[1, 2000, 3000, 1000, 12345, 1 << 24]),
                homing_torque: if random.once_in(2) { maximum_torque } else { torque(random) },
            };
            if is_acceptable(&settings) {
                return settings;
            }
        }
    }

    pub(super) fn words(&mut self, words: &[u32]) {
        for &word in words {
            self.word(word);
        }
    }

    /// The words of settings, in any layout that holds them; long ones in the oldest.
    pub(super) fn words_of(&mut self, settings: &Settings) -> Vec<u32> {
        let holding: Vec<u32> = LAYOUTS.into_iter().filter(|&layout| settings.lost_in(layout).is_none()).collect();
        let layout = if settings.is_long() { holding[0] } else { self.random.pick(&holding) };
        words_in(layout, settings)
    }

    /// Leaves the live states, then says the sheet's words, now and then with a tick between two.
    pub(super) fn take_over(&mut self, settings: &Settings) {
        let words = self.words_of(settings);
        self.take_over_words(&words);
    }

    pub(super) fn take_over_words(&mut self, words: &[u32]) {
        for _ in 0..5 {
            if !self.state().is_live() {
                break;
            }
            self.tick_with(0x0000, "rest", false);
        }
        let between = self.random.once_in(4).then(|| self.random.between(0, words.len() as i64 - 1) as usize);
        for (place, &word) in words.iter().enumerate() {
            if Some(place) == between {
                self.tick_with(0x0000, "rest", false);
            }
            self.word(word);
        }
    }

    pub(super) fn take_over_any(&mut self) {
        let settings = self.any_settings();
        self.take_over(&settings);
    }

    fn sheet_line(&mut self, length: i64, settings: &Settings) {
        self.line(&format!("sheet {length} {}", values_of(settings)));
    }

    pub(super) fn layout_line(&mut self, layout: u32, length: i64, settings: &Settings) {
        let fields = self.fields_of(settings);
        self.line(&format!("layout {layout} {length} {fields}"));
    }

    /// A homing torque that is the maximum may be left out.
    pub(super) fn fields_of(&mut self, settings: &Settings) -> String {
        let mut fields = values_of(settings);
        if settings.homing_torque != settings.maximum_torque || self.random.once_in(2) {
            fields += &format!(" {}", settings.homing_torque);
        }
        fields
    }

    /// By either line where layout 1 is asked.
    pub(super) fn writer(&mut self, layout: u32, length: i64, settings: &Settings) {
        if layout == 1 && settings.homing_torque == settings.maximum_torque && self.random.once_in(2) {
            self.sheet_line(length, settings);
        } else {
            self.layout_line(layout, length, settings);
        }
    }

    /// The writer in any layout, with so many words more than it needs.
    fn write_any(&mut self, more: i64, settings: &Settings) {
        let layout = self.random.pick(&LAYOUTS);
        self.writer(layout, words_in(layout, &sheet_s()).len() as i64 + more, settings);
    }

    /// Each field at its edges, one past them, and far out; then stops crossed and out of reach.
    pub(super) fn writer_edges(&mut self) {
        for edge in &EDGES {
            let signed = edge.least == -PLACE;
            let far = if signed {
                [i64::from(i32::MIN), i64::from(i32::MAX), -(1 << 28), 1 << 28]
            } else {
                [i64::from(u32::MAX), 1 << 28, 1 << 16 | edge.most, edge.most + 1]
            };
            let mut values = vec![edge.least - 1, edge.least, edge.most, edge.most + 1];
            values.push(self.random.pick(&far));
            for value in values.into_iter().filter(|&value| signed || value >= 0) {
                let mut settings = sheet_s();
                settings.denominator = 1000;
                *(edge.field)(&mut settings) = value;
                let more = self.random.pick(&[0, 0, 0, 1, -1]);
                self.write_any(more, &old(settings));
            }
        }
        for least in [true, false] {
            self.write_any(0, &at_edge(least));
        }
        for (lower, upper) in [(5, 5), (6, 5), (-5, -5), (5, 6)] {
            let mut settings = sheet_s();
            (settings.lower_stop, settings.upper_stop) = (lower, upper);
            self.write_any(0, &settings);
        }
        for (offset, numerator, denominator, lower, upper) in REACHES {
            self.write_any(2, &Settings { offset, numerator, denominator, lower_stop: lower, upper_stop: upper, ..sheet_s() });
        }
        for method in INNER_EDGES {
            self.write_any(0, &Settings { method: i64::from(method), ..sheet_s() });
        }
        for quick_stop_option in [3, 5, 0] {
            self.write_any(0, &Settings { quick_stop_option, ..sheet_s() });
        }
    }

    pub(super) fn buffer_lengths(&mut self) {
        for length in 0..=32 {
            let settings = match self.random.between(0, 3) {
                0 => Settings { slow: 0, ..sheet_s() },
                1 => self.any_settings(),
                _ => sheet_s(),
            };
            self.sheet_line(length, &settings);
        }
    }

    /// Sheets whose fields all lie on an edge, then for each field words just outside; the stops have no outside, only edges.
    pub(super) fn word_edges(&mut self) {
        self.reach(SwitchOnDisabled);
        for least in [true, false] {
            self.words(&words_in(1, &at_edge(least)));
        }
        let methods = [&[0, 36], &INNER_EDGES[..]].concat().into_iter().map(|method| (sheet::METHOD, method));
        for (kind, data) in methods.chain([
            (sheet::FAST, 0),
            (sheet::SLOW, 0),
            (sheet::NUMERATOR, 0),
            (sheet::NUMERATOR, (1 << 20) + 1),
            (sheet::DENOMINATOR, 0),
            (sheet::DENOMINATOR, (1 << 20) + 1),
            (sheet::MAXIMUM_TORQUE, 3001),
            (sheet::LIMIT_SET_1, 3001),
            (sheet::LIMIT_SET_1, 3001 << 14),
            (sheet::LIMIT_SET_2, 3001),
            (sheet::LIMIT_SET_2, 3001 << 14 | 3000),
            (sheet::QUICK_STOP_OPTION, 1),
            (sheet::QUICK_STOP_OPTION, 3),
            (sheet::QUICK_STOP_OPTION, 5),
            (sheet::QUICK_STOP_OPTION, 7),
            (sheet::RATED_TORQUE, 0),
            (sheet::RATED_TORQUE, (1 << 24) + 1),
        ]) {
            let right = self.words_of(&sheet_s());
            self.one_wrong(&right, kind, data);
        }
        for (kind, data) in [(sheet::LOWER_STOP, (1 << 27) - 1), (sheet::UPPER_STOP, 1 << 27)] {
            self.one_wrong(&words_in(1, &sheet_s()), kind, data);
        }
    }

    /// Words up to this kind, whose word has other data; then the right one.
    pub(super) fn one_wrong(&mut self, right: &[u32], kind: u32, data: u32) {
        let place = kind as usize;
        self.words(&right[..place]);
        self.word(sheet::word(kind, data));
        self.word(right[place]); // too late: the unfinished sheet is emptied
    }

    /// Words lost, doubled, flipped and begun afresh.
    pub(super) fn torn_sheets(&mut self) {
        self.take_over_any();
        let settings = self.any_settings();
        let words = self.words_of(&settings);
        let end = words.len() - 1;
        let inner = (1, end as i64 - 1);
        let lost = self.random.between(inner.0, inner.1) as usize;
        self.words(&words[..lost]);
        self.words(&words[lost + 1..]);
        self.words(&words[..lost]);
        self.word(words[lost + 1]);
        self.words(&words[lost..]); // the one that was due, too late
        let doubled = self.random.between(inner.0, inner.1) as usize;
        self.words(&words[..=doubled]);
        self.word(words[doubled]);
        let flipped = self.random.between(0, end as i64) as usize;
        let bit = self.random.between(0, 31);
        for (place, &word) in words.iter().enumerate() {
            self.word(if place == flipped { word ^ 1 << bit } else { word });
        }
        self.words(&words[..end]);
        let bit = self.random.between(0, 27);
        self.word(words[end] ^ 1 << bit); // bad sum
        self.word(words[end]); // the right one, too late
        let halfway = self.random.between(inner.0, inner.1) as usize;
        self.words(&words[..halfway]);
        self.tick();
        self.words(&words); // a start word halfway
        self.words(&words[..3]);
        self.word(sheet::word(sheet::START, 4));
        self.words(&words[3..5]);
        self.words(&words[..5]);
        self.word(words[end]); // the end too early
        for kind in 0..=15 {
            let rubbish = self.random.bits() as u32 & sheet::DATA;
            self.word(sheet::word(kind, rubbish));
        }
        self.tick();
    }

    /// Stops just in reach, just out of it, and crossed; the layouts take turns, so that each is refused in all.
    pub(super) fn reaches(&mut self) {
        self.reach(SwitchOnDisabled);
        let mut layouts = LAYOUTS;
        self.random.shuffle(&mut layouts);
        let far = REACHES.map(|(offset, numerator, denominator, lower_stop, upper_stop)| Settings {
            offset,
            numerator,
            denominator,
            lower_stop,
            upper_stop,
            ..sheet_s()
        });
        let crossed = [7, 6, -7].map(|upper_stop| Settings { lower_stop: 7, upper_stop, ..sheet_s() });
        for (settings, layout) in far.iter().chain(&crossed).zip(layouts.into_iter().cycle()) {
            let words = words_in(layout, settings);
            self.words(&words);
            self.word(words[words.len() - 1]); // once more: out of turn, refused before or not
        }
        self.tick();
    }

    /// A sheet that ends while the axis is live is refused; what is wrong with its sum or stops is said first.
    pub(super) fn live_sheets(&mut self) {
        let sound = self.any_settings();
        let sound = self.words_of(&sound);
        let end = sound.len() - 1;
        let crossed = self.words_of(&Settings { lower_stop: 1, upper_stop: 0, ..sheet_s() });
        self.now.command = "torque 400".to_string();
        self.reach(OperationEnabled);
        self.words(&sound);
        self.tick_with(0x000F, "torque 3000", false);
        self.words(&crossed);
        self.words(&sound[..end]);
        self.word(sheet::word(sheet::END, 0));
        self.reach(QuickStopActive);
        self.words(&sound);
        self.tick_with(0x0002, "torque -3000", false);
        self.tick_with(0x0000, "rest", false);
        self.word(sound[end]); // no longer live, but emptied

        // Live when the words begin, no longer when they end.
        self.reach(OperationEnabled);
        self.words(&sound[..9]);
        self.reach(SwitchedOn);
        self.words(&sound[9..]);
        self.tick_with(0x000F, "torque 3000", true);
    }

    /// A takeover in every state that is not live, homed or after an error: the state stays, homed and error go.
    pub(super) fn take_over_anywhere(&mut self) {
        for state in [NotReady, SwitchOnDisabled, Ready, SwitchedOn, FaultReaction, Fault] {
            match state {
                NotReady => {
                    self.fresh();
                    self.tick_with(0x000F, "torque 5", true); // no sheet yet
                    self.take_over_any(); // Not ready until the first tick after it
                }
                SwitchOnDisabled | Fault => self.home(35, Way::Sole),
                Ready => self.fail(23, Way::C),
                _ => {}
            }
            self.reach(state);
            let settings = self.any_settings();
            let words = self.words_of(&settings);
            self.words(&words);
            self.tick_with(0x0000, "homing 0", true);
        }
        self.remember_across();
    }

    /// The control word before a takeover is remembered after it: bits 4 and 7, held, do not rise.
    fn remember_across(&mut self) {
        self.reach(SwitchedOn);
        self.tick_with(0x0017, "homing 0", true);
        let words = self.words_of(&Settings { method: 35, ..sheet_s() });
        self.words(&words);
        self.tick_with(0x001F, "homing 0", true);
        self.reach(Fault);
        self.now.alarm = 4;
        self.tick_with(0x0080, "rest", true);
        self.now.alarm = 0;
        self.words(&words);
        for control in [0x0080, 0x0000, 0x0080] {
            self.tick_with(control, "rest", true);
        }
    }
}

/// Offset, gear and stops: out of reach by a count, below and above, three in a row; then in reach by one.
const REACHES: [(i64, i64, i64, i64, i64); 6] = [
    (0, 1 << 20, 1, -1025, 1024),
    (0, 1 << 20, 1, -1024, 1025),
    (-PLACE, 8, 1, -PLACE, 1),
    (0, 1 << 20, 1, -1024, 1024),
    (-PLACE, 8, 1, -PLACE, 0),
    (PLACE - 1, 9, 1, -PLACE, PLACE - 1),
];
