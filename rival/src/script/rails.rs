//! Scenes about sheets tried on paper rails: runs and pictures, and what else may stand between them.

use std::io::{self, Write};

use super::sheets::sheet_s;
use super::Script;
use crate::drive_state::DriveState::*;
use crate::homing::METHODS;
use crate::rail::Rail;
use crate::refusal::Refusal::{self, *};
use crate::simulator;
use crate::tick::Switches;
use crate::writer::Settings;

const MOST: i64 = 1 << 20;
const MOST_TICKS: i64 = 1 << 24;
const BEYOND: i64 = u32::MAX as i64;

/// A rail on which each of the others can be at its edges.
const LONG: Rail = Rail { length: MOST, cam: 300_000, width: 500_000, fast: 90_000, slow: 70_000 };

/// What a measure of a rail may be: below its range, its ends, above it.
const EDGES: [i64; 7] = [0, 1, 2, MOST - 1, MOST, MOST + 1, BEYOND];

type Measure = fn(&mut Rail) -> &mut i64;

const MEASURES: [Measure; 5] = [|r| &mut r.length, |r| &mut r.cam, |r| &mut r.width, |r| &mut r.fast, |r| &mut r.slow];

/// Methods that do not exist: beside those that do, and far from them.
const NO_METHODS: [i64; 9] = [0, 3, 16, 19, 22, 31, 32, 36, BEYOND];

/// Lengths of rails around the one that a picture draws cell by cell at most, and multiples of it.
const DRAWN: [i64; 10] = [2, 3, 20, 57, 58, 59, 60, 116, 117, 5800];

const SETTINGS: &str = "settings 23 20000 1000 0 3 2 -1000 1000 1000 800 600 300 300 2 2000";
const SETTINGS_HOMING: &str = "settings 23 20000 1000 0 3 2 -1000 1000 1000 800 600 300 300 2 2000 250";
const RAIL: &str = "rail 20 5 3 2 1";
const RUN: &str = "run 19 100";
const PICTURE: &str = "picture 19 100";

const LINES: [&str; 5] = [SETTINGS, SETTINGS_HOMING, RAIL, RUN, PICTURE];

const NO_COUNTS: [&str; 8] = ["-1", "-0", "4294967296", "00000000001", "+1", "1.0", "x", "0x1"];
const NO_PLACES: [&str; 8] = ["2147483648", "-2147483649", "99999999999", "00000000001", "--1", "+1", "-", "1.0"];

/// A line, the place of one of its words, and words that are not accepted there.
const WRONG: [(&str, usize, &[&str]); 18] = [
    (SETTINGS, 0, &["Settings", "setting", "settingss", "SETTINGS"]),
    (RAIL, 0, &["Rail", "rails", "rai", "RAIL"]),
    (RUN, 0, &["Run", "runs", "ru", "RUN"]),
    (PICTURE, 0, &["Picture", "pictures", "pictur", "PICTURE"]),
    (SETTINGS, 1, &NO_COUNTS),
    (SETTINGS, 4, &NO_PLACES),
    (SETTINGS, 7, &NO_PLACES),
    (SETTINGS, 15, &NO_COUNTS),
    (SETTINGS_HOMING, 16, &NO_COUNTS),
    (RAIL, 1, &NO_COUNTS),
    (RAIL, 2, &NO_COUNTS),
    (RAIL, 3, &NO_COUNTS),
    (RAIL, 4, &NO_COUNTS),
    (RAIL, 5, &NO_COUNTS),
    (RUN, 1, &NO_PLACES),
    (RUN, 2, &NO_COUNTS),
    (PICTURE, 1, &NO_PLACES),
    (PICTURE, 2, &NO_COUNTS),
];

/// Lines that look odd and are read all the same.
const ODD: [&[u8]; 6] = [
    b"\trun\t-0   0000000001 # cell 0",
    b" picture 0000000000 0000000050#",
    b"run -2147483648 4294967295",
    b"run 2147483647 4294967295",
    b"rail 4294967295 4294967295 4294967295 4294967295 4294967295",
    b"settings 4294967295 4294967295 4294967295 -0 4294967295 0 -2147483648 2147483647 4294967295 1 2 3 4 5 6 4294967295#x",
];

#[derive(Clone, Copy)]
enum Scene {
    Method(u32),
    Promised,
    NearlyPromised,
    Measures,
    Starts,
    TickNumbers,
    Sheets,
    TwoFaults,
    Pictures,
    BesideTheAxis,
    Unreadables,
    Far,
}

fn scenes() -> Vec<Scene> {
    let mut scenes = vec![
        Scene::Promised,
        Scene::NearlyPromised,
        Scene::Measures,
        Scene::Starts,
        Scene::TickNumbers,
        Scene::Sheets,
        Scene::TwoFaults,
        Scene::Pictures,
        Scene::BesideTheAxis,
        Scene::Unreadables,
        Scene::Far,
    ];
    for _ in 0..3 {
        scenes.extend(METHODS.map(Scene::Method));
    }
    scenes
}

impl<W: Write> Script<W> {
    /// As `write` does, of scenes about rails.
    pub fn write_rails(mut self, lines: u64) -> io::Result<()> {
        self.before_the_first();
        'rounds: loop {
            let mut round = scenes();
            self.random.shuffle(&mut round);
            for scene in round {
                if self.written + 1 >= lines {
                    break 'rounds;
                }
                self.play_rail_scene(scene);
            }
        }
        self.end()
    }

    fn play_rail_scene(&mut self, scene: Scene) {
        match scene {
            Scene::Method(method) => self.try_method(method),
            Scene::Promised => self.promised(),
            Scene::NearlyPromised => self.nearly_promised(),
            Scene::Measures => self.measures(),
            Scene::Starts => self.starts(),
            Scene::TickNumbers => self.tick_numbers(),
            Scene::Sheets => self.sheets(),
            Scene::TwoFaults => self.two_faults_of_a_run(),
            Scene::Pictures => self.pictures(),
            Scene::BesideTheAxis => self.beside_the_axis(),
            Scene::Unreadables => self.unreadable_rails(),
            Scene::Far => self.far(),
        }
    }

    fn settings_line(&mut self, settings: &Settings) {
        let fields = self.fields_of(settings);
        self.line(&format!("settings {fields}"));
    }

    fn rail_line(&mut self, rail: &Rail) {
        self.line(&format!("rail {}", rail.measures().map(|measure| measure.to_string()).join(" ")));
    }

    fn trial(&mut self, start: i64, ticks: i64) {
        let keyword = self.random.pick(&["run", "run", "run", "picture"]);
        self.line(&format!("{keyword} {start} {ticks}"));
    }

    /// "before the first all their numbers are 0"
    fn before_the_first(&mut self) {
        self.line("run 0 1");
        self.line("picture 0 1");
        self.rail_line(&LONG);
        self.line("run 0 1");
        self.line("picture 0 1");
        self.settings_line(&sheet_s());
        self.trial(0, MOST_TICKS);
        self.rail_line(&Rail { length: MOST, cam: 1, width: 1, fast: 1, slow: 1 });
        self.line(&format!("picture 2 {MOST_TICKS}")); // there and back, cell by cell
    }

    /// Acceptable settings of this method.
    fn settings_for(&mut self, method: u32) -> Settings {
        Settings { method: i64::from(method), ..self.any_settings() }
    }

    /// Nothing, mostly little.
    fn spare(&mut self) -> i64 {
        let some = self.random.between(0, 9);
        self.random.pick(&[0, 0, 1, some])
    }

    /// One for which (02) promises that 23 to 30 home; its inequalities are often met just so.
    fn any_roomy_rail(&mut self) -> Rail {
        let slow = 1 + self.spare();
        let fast = slow + self.spare();
        let (width, cam) = (fast + self.spare(), fast + self.spare());
        let far = if self.random.once_in(9) { self.random.between(0, 300) } else { 0 };
        Rail { length: cam + width + fast + self.spare() + far, cam, width, fast, slow }
    }

    /// One that no run is refused for.
    fn any_fit_rail(&mut self) -> Rail {
        let length = match self.random.between(0, 9) {
            0 => self.random.pick(&DRAWN),
            1 => self.random.between(2, 900),
            2 => self.random.between(2, 4),
            _ => self.random.between(2, 40),
        };
        let cam = self.random.between(1, length - 1);
        let narrow = self.random.between(1, (length - cam).min(4));
        let width = if self.random.once_in(2) { narrow } else { self.random.between(1, length - cam) };
        let mut step = || {
            let any = self.random.between(1, length + 2);
            let short = self.random.between(1, 5.min(length));
            let middle = self.random.between(1, width + 1);
            self.random.pick(&[short, short, middle, any])
        };
        let (fast, slow) = (step(), step());
        Rail { length, cam, width, fast, slow }
    }

    /// Often at one of the edges.
    fn any_start(&mut self, rail: &Rail) -> i64 {
        let any = self.random.between(0, rail.length - 1);
        let Rail { length, cam, width, .. } = *rail;
        self.random.pick(&[0, length - 1, cam - 1, cam, cam + width - 1, cam + width, any, any]).min(length - 1)
    }

    /// What a run needs to come to its own end.
    fn needed(&self, rail: &Rail, settings: &Settings, start: i64) -> i64 {
        simulator::run(rail, settings, start, MOST_TICKS).map_or(1, |run| run.ticks)
    }

    /// Given just enough ticks, one less and one more, and few.
    fn try_from(&mut self, rail: &Rail, settings: &Settings, start: i64) {
        let needed = self.needed(rail, settings, start);
        let few = self.random.between(1, needed);
        for ticks in [needed, needed - 1, needed + 1, few] {
            if ticks > 0 && !self.random.once_in(4) {
                self.trial(start, ticks);
            }
        }
        if self.random.once_in(4) {
            let many = self.random.pick(&[MOST_TICKS, rail.promised_ticks(), 1000, 2, 1]);
            self.trial(start, many);
        }
    }

    fn try_method(&mut self, method: u32) {
        let settings = self.settings_for(method);
        self.settings_line(&settings);
        for roomy in [true, false, false] {
            let rail = if roomy { self.any_roomy_rail() } else { self.any_fit_rail() };
            self.rail_line(&rail);
            for _ in 0..2 {
                let start = self.any_start(&rail);
                self.try_from(&rail, &settings, start);
            }
        }
    }

    /// Exactly as many ticks as the promise asks for, under each of its methods.
    fn promised(&mut self) {
        for method in 23..=30 {
            let settings = self.settings_for(method);
            self.settings_line(&settings);
            let rail = self.any_roomy_rail();
            self.rail_line(&rail);
            let start = self.any_start(&rail);
            self.trial(start, rail.promised_ticks());
        }
    }

    /// Rails that miss the promise by one cell, in one of its inequalities.
    fn nearly_promised(&mut self) {
        for missed in 0..4 {
            let method = self.random.between(23, 30) as u32;
            let settings = self.settings_for(method);
            self.settings_line(&settings);
            let mut rail = self.any_roomy_rail();
            match missed {
                0 => rail = Rail { slow: rail.fast + 1, ..rail },
                1 => rail = Rail { width: rail.fast, cam: rail.cam + 1, fast: rail.fast + 1, length: rail.length + 3, ..rail },
                2 => {
                    rail = Rail { cam: rail.fast, width: rail.width + 1, fast: rail.fast + 1, length: rail.length + 3, ..rail }
                }
                _ => rail = Rail { length: rail.cam + rail.width + rail.fast - 1, ..rail },
            }
            self.rail_line(&rail);
            for start in [0, rail.length - 1, rail.cam] {
                self.try_from(&rail, &settings, start);
            }
        }
    }

    /// Each measure at its edges; and the cam up to the rail's end and beyond it.
    fn measures(&mut self) {
        let settings = self.any_settings();
        self.settings_line(&settings);
        for measure in MEASURES {
            for edge in EDGES {
                let mut rail = LONG;
                *measure(&mut rail) = edge;
                if rail.length < LONG.length {
                    (rail.cam, rail.width) = (1, 1); // so that nothing else is wrong from two cells on
                }
                if rail.cam > LONG.cam {
                    rail.width = 1;
                }
                if rail.width > LONG.width {
                    rail.cam = 1;
                }
                // A short step is tried with few ticks: with many it would take long.
                let ticks = if rail.fast.min(rail.slow) < 3 { 50 } else { 1000 };
                self.rail_line(&rail);
                self.trial(0, ticks);
            }
        }
        for over in [0, 1, BEYOND] {
            let rail = self.any_fit_rail();
            self.rail_line(&Rail { width: (rail.length - rail.cam + over).min(BEYOND), ..rail });
            self.trial(0, 1000);
            self.rail_line(&Rail { cam: (rail.length - rail.width + over).min(BEYOND), ..rail });
            self.trial(0, 1000);
        }
        self.rail_line(&Rail { length: 1, cam: 1, width: 1, fast: 1, slow: 1 }); // in range, but no room for a cam
        self.trial(0, 1);
        self.rail_line(&Rail { length: 2, cam: 1, width: 1, fast: MOST, slow: MOST });
        self.trial(1, 100);
    }

    fn starts(&mut self) {
        let settings = self.any_settings();
        self.settings_line(&settings);
        let rail = self.any_fit_rail();
        for rail in [rail, Rail { length: MOST, cam: MOST - 1, width: 1, fast: MOST, slow: MOST }] {
            self.rail_line(&rail);
            let length = rail.length;
            for start in [-1, 0, length - 1, length, i64::from(i32::MIN), i64::from(i32::MAX), -length] {
                let needed = self.needed(&rail, &settings, start);
                self.trial(start, needed);
            }
        }
    }

    fn tick_numbers(&mut self) {
        let settings = self.any_settings();
        self.settings_line(&settings);
        let rail = self.any_fit_rail();
        self.rail_line(&rail);
        for ticks in [0, 1, 2, MOST_TICKS - 1, MOST_TICKS, MOST_TICKS + 1, 1 << 30, BEYOND] {
            let start = self.any_start(&rail);
            self.trial(start, ticks);
        }
    }

    /// Settings that the writer refuses with this number.
    fn refused_settings(&mut self, refusal: Refusal) -> Settings {
        let mut settings = self.any_settings();
        match refusal {
            OutOfRange if self.random.once_in(3) => settings.homing_torque = self.random.pick(&[3001, 4096, BEYOND]),
            OutOfRange if self.random.once_in(2) => settings.method = self.random.pick(&NO_METHODS),
            OutOfRange => self.leave_range(&mut settings),
            StopsCrossed if self.random.once_in(2) => settings.lower_stop = settings.upper_stop,
            StopsCrossed => (settings.lower_stop, settings.upper_stop) = (settings.upper_stop, settings.lower_stop),
            _ => {
                (settings.offset, settings.numerator, settings.denominator) = (0, 1 << 20, 1);
                (settings.lower_stop, settings.upper_stop) = self.random.pick(&[(-1025, 1024), (-1024, 1025), (-5000, 5000)]);
            }
        }
        settings
    }

    /// Refused as by the writer, on a rail that is fit: among others, every method that does not exist. What only layout 3
    /// holds is no fault.
    fn sheets(&mut self) {
        let rail = self.any_roomy_rail();
        self.rail_line(&rail);
        let mut all: Vec<Settings> =
            [OutOfRange, OutOfRange, StopsCrossed, OutOfReach].map(|refusal| self.refused_settings(refusal)).into();
        all.extend(NO_METHODS.map(|method| Settings { method, ..sheet_s() }));
        all.push(Settings { homing_torque: 3001, ..sheet_s() });
        all.push(Settings { homing_torque: 5, ..sheet_s() });
        all.push(self.any_long_settings());
        all.push(self.any_settings());
        for settings in all {
            self.settings_line(&settings);
            let start = self.any_start(&rail);
            self.trial(start, rail.promised_ticks());
        }
    }

    /// A sheet that is refused, on a rail that is not fit, from a start off the rail, or with no ticks; then on a fit one.
    fn two_faults_of_a_run(&mut self) {
        for refusal in [OutOfRange, StopsCrossed, OutOfReach] {
            let settings = self.refused_settings(refusal);
            self.settings_line(&settings);
            let rail = self.any_fit_rail();
            self.rail_line(&Rail { slow: 0, ..rail });
            self.trial(0, 1);
            self.rail_line(&rail);
            self.trial(rail.length, 1);
            self.trial(-1, 1);
            self.trial(0, 0);
            self.trial(0, MOST_TICKS + 1);
            self.trial(0, 1);
        }
    }

    /// Rails of all scales, their cams at either end and in the middle.
    fn pictures(&mut self) {
        let method = self.random.pick(&METHODS);
        let settings = self.settings_for(method);
        self.settings_line(&settings);
        let any = self.random.between(2, 2000);
        for length in DRAWN.into_iter().chain([any]) {
            let cam = self.random.pick(&[1, (length / 3).max(1), length - 1]);
            let narrow = (length / 9).clamp(1, length - cam);
            let width = self.random.pick(&[1, narrow, length - cam]);
            let fast = self.random.pick(&[1, width, width.min(cam), length / 9 + 1]);
            let slow = self.random.between(1, fast).max(length / 99);
            let rail = Rail { length, cam, width, fast, slow };
            self.rail_line(&rail);
            for start in [0, length - 1, cam, cam + width - 1, cam - 1] {
                if self.random.once_in(2) {
                    let needed = self.needed(&rail, &settings, start);
                    let ticks = self.random.pick(&[needed, needed, 1000, (needed / 2).max(1)]);
                    self.line(&format!("picture {start} {ticks}"));
                }
            }
        }
    }

    /// Runs while the axis homes, halfway in its words, and after `fresh`: the axis is left alone, and `fresh` leaves settings
    /// and rail.
    fn beside_the_axis(&mut self) {
        let method = self.random.pick(&[23, 24, 25, 26, 27, 28, 29, 30]);
        let (settings, rail) = (self.settings_for(method), self.any_roomy_rail());
        self.settings_line(&settings);
        self.rail_line(&rail);
        let other = self.any_settings();
        let words = self.words_of(&other);
        self.fresh();
        for (place, &word) in words.iter().enumerate() {
            if place % 5 == 3 {
                self.trial(0, rail.promised_ticks());
            }
            self.word(word);
        }
        let ours = self.settings_for(method);
        self.take_over(&ours);
        self.now.command = "homing 700".to_string();
        self.reach(OperationEnabled);
        self.trial(0, 1);
        self.now.switches = Switches::default();
        self.tick_with(0x001F, "homing 700", false);
        for _ in 0..3 {
            let start = self.any_start(&rail);
            self.trial(start, rail.promised_ticks());
            self.tick();
        }
        self.line("rail 0 0 0 0"); // unreadable: nothing changes
        self.line("settings 0");
        self.trial(0, rail.promised_ticks());
        self.tick();
        self.fresh();
        self.trial(0, rail.promised_ticks());
        self.tick();
    }

    /// All of them, once a round.
    fn unreadable_rails(&mut self) {
        for (line, place, words) in WRONG {
            for wrong in words {
                self.wrong_word(line, place, wrong);
            }
        }
        for line in LINES {
            for words in 1..line.split(' ').count() {
                self.cut_short(line, words);
            }
            self.one_too_many(line);
        }
        for odd in ODD {
            let end = self.random.pick(&[&b"\n"[..], b"\r\n"]);
            self.emit(odd, end);
        }
    }

    /// A long rail: mostly in great steps, seldom in small ones.
    fn far(&mut self) {
        let method = self.random.pick(&METHODS);
        let settings = self.settings_for(method);
        self.settings_line(&settings);
        let slow = if self.random.once_in(20) { self.random.between(1, 4) } else { self.random.between(1000, 5000) };
        let fast = self.random.between(slow, 20 * slow);
        let (width, cam) = (fast + self.spare(), fast + self.spare());
        let spare = self.spare();
        let length = self.random.pick(&[MOST, cam + width + fast + spare]).min(MOST);
        let rail = Rail { length, cam, width, fast, slow };
        self.rail_line(&rail);
        let start = self.any_start(&rail);
        let needed = self.needed(&rail, &settings, start);
        self.trial(start, needed);
        self.trial(start, MOST_TICKS);
    }
}
