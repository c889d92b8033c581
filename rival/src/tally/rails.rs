//! Sheets tried on paper rails: which rails and starts, how runs end, and what is drawn.

use super::{refused, words, Tally};
use crate::homing::{Homing, Leg, Speed, METHODS};
use crate::lines::Trial;
use crate::picture;
use crate::rail::Rail;
use crate::refusal::Refusal::{self, *};
use crate::sheet::{self, LONGEST};
use crate::simulator::{self, Run, Stop};
use crate::writer::{self, Settings};

/// What later runs go by, and what came since.
#[derive(Default)]
pub(super) struct Rails {
    settings: Option<Settings>,
    rail: Option<Rail>,
    /// A `fresh` line since the latest of the two.
    fresh: bool,
    /// A `settings` or `rail` line since then that could not be read.
    unreadable: bool,
    /// The axis before the run that no other line has followed yet.
    beside: Option<Homing>,
}

impl Rails {
    pub(super) fn fresh(&mut self) {
        self.fresh = true;
        self.beside = None;
    }

    fn given(&mut self) {
        (self.fresh, self.unreadable) = (false, false);
    }
}

const MOST: i64 = 1 << 20;
const MOST_TICKS: i64 = 1 << 24;
const BEYOND: i64 = u32::MAX as i64;

const MEASURES: [&str; 5] = ["L", "u", "w", "f", "s"];

const EDGES: [i64; 6] = [0, 1, 2, MOST, MOST + 1, BEYOND];

/// Whether a rail with this measure may be fit. The cam has a cell before it, and its own, on the rail: so one cell is too
/// short for a rail, and 2^20 too much for u and w, though in range.
fn may_be_fit(measure: &str, edge: i64) -> bool {
    match measure {
        "L" => edge == 2 || edge == MOST,
        "u" | "w" => edge == 1 || edge == 2,
        _ => (1..=MOST).contains(&edge),
    }
}

const TICKS: [i64; 6] = [0, 1, 2, MOST_TICKS, MOST_TICKS + 1, BEYOND];

const STARTS: [&str; 10] = [
    "-1",
    "0",
    "L - 1",
    "L",
    "-2^31",
    "2^31 - 1",
    "on the cam's first cell",
    "on its last",
    "right before it",
    "right after it",
];

/// The promise's inequalities, and by how many cells each is met.
const PROMISE: [&str; 4] = ["s at most f", "f at most w", "f at most u", "u + w at most L - f"];

fn slack(rail: &Rail) -> [i64; 4] {
    let Rail { length, cam, width, fast, slow } = *rail;
    [fast - slow, width - fast, cam - fast, length - fast - cam - width]
}

const NO_METHODS: [i64; 9] = [0, 3, 16, 19, 22, 31, 32, 36, BEYOND];

const SINGLE: [&str; 36] = [
    "run refused 12: before any rail",
    "run refused 3: before any settings",
    "run: u + w is L",
    "run refused 12: u + w is L + 1, all else fit",
    "run: more than 1000 ticks",
    "run: more than a million ticks",
    "run: stopped in the start tick",
    "run: stopped in the second tick",
    "run: a long place in the settings",
    "run: homing torque other than the maximum",
    "run refused 3: homing torque alone",
    "run: s above f",
    "run: a step over the whole cam",
    "run: a step over the whole rail",
    "run: after fresh, not refused",
    "run: after an unreadable settings or rail line, not refused",
    "run: beside an axis that homes, which then goes on",
    "run: beside an axis that is enabled",
    "run: beside an unfinished sheet",
    "run: on an axis without sheet",
    "settings line: HOMING left out",
    "settings line: HOMING given, the maximum",
    "settings line: HOMING given, another",
    "picture: L below 58",
    "picture: L 58",
    "picture: L 59",
    "picture: L above 59",
    "picture: cam to the last column",
    "picture: cam from the first column",
    "picture: a cam of several cells in one column",
    "picture: start in the first column",
    "picture: start in the last column",
    "picture: a leg within one column",
    "picture: no leg",
    "picture: four legs",
    "picture: two legs alike in a row",
];

/// How a method can end on a rail without Z.
fn ends(method: u32) -> &'static [Stop] {
    match method {
        35 => &[Stop::Homed],
        17 | 18 => &[Stop::Homed, Stop::Ticks],
        1 | 2 | 33 | 34 => &[Stop::Error, Stop::Ticks],
        _ => &[Stop::Homed, Stop::Error, Stop::Ticks],
    }
}

/// Words of the lines, as places where one can be wrong or missing.
fn places(keyword: &str) -> &'static [&'static str] {
    match keyword {
        "settings" => &["a field", "HOMING"],
        "rail" => &["LENGTH", "CAM", "WIDTH", "FAST", "SLOW"],
        _ => &["START", "TICKS"],
    }
}

const KEYWORDS: [&str; 4] = ["settings", "rail", "run", "picture"];

pub(super) fn names() -> Vec<String> {
    let mut names: Vec<String> = SINGLE.map(String::from).into();
    for keyword in ["run", "picture"] {
        names.extend([OutOfRange, StopsCrossed, OutOfReach, RailUnfit].map(|refusal| refused(keyword, refusal)));
        names.extend([Stop::Homed, Stop::Error, Stop::Ticks].map(|stop| format!("{keyword}: stop {stop:?}")));
    }
    for by in ["a measure", "the start", "no ticks", "too many ticks"] {
        names.extend([OutOfRange, StopsCrossed, OutOfReach].map(|unsaid| both(by, unsaid)));
    }
    for measure in MEASURES {
        names.extend(EDGES.map(|edge| measured(measure, edge)));
    }
    names.extend(TICKS.map(|ticks| format!("run: TICKS {ticks}")));
    names.extend(STARTS.map(|start| format!("run: START {start}")));
    names.extend(NO_METHODS.map(|method| format!("run refused 3: method {method}")));
    for method in METHODS {
        for stop in ends(method) {
            names.push(format!("method {method}: stop {stop:?}"));
            names.extend((*stop != Stop::Ticks).then(|| format!("method {method}: {stop:?} in the last tick given")));
        }
        names.extend((method != 35).then(|| format!("method {method}: one tick short of its end")));
    }
    for method in 23..=30 {
        names.extend(["A", "B", "C"].map(|way| format!("method {method}: homed by {way} on a rail")));
        names.push(format!("method {method}: given exactly the ticks promised"));
    }
    for inequality in PROMISE {
        names.push(format!("promise: {inequality}, just so"));
        names.push(format!("promise: {inequality}, missed by one, all else met: homed"));
    }
    // The others may be missed: a step off the cam and onto a limit is an event, and "the leg's own event still comes first".
    for inequality in &PROMISE[..2] {
        names.push(format!("promise: {inequality}, missed by one, all else met: error"));
    }
    for mark in ["+F", "-F", "+S", "-S"] {
        names.push(format!("picture: leg {mark}"));
    }
    for end in ["beyond the rail's beginning", "beyond its end", "on it"] {
        names.extend(["a leg ends", "the run ends"].map(|what| format!("picture: {what} {end}")));
    }
    for keyword in KEYWORDS {
        for place in places(keyword) {
            names.push(format!("{keyword} line unreadable: {place} wrong"));
            names.extend((*place != "HOMING").then(|| format!("{keyword} line unreadable: {place} missing")));
        }
        names.push(format!("{keyword} line unreadable: one word too many"));
    }
    names
}

fn measured(measure: &str, edge: i64) -> String {
    match may_be_fit(measure, edge) {
        true => format!("run: {measure} {edge}, fit"),
        false => format!("run refused 12: {measure} {edge}, all others in range"),
    }
}

/// 12, and a sheet that would be refused as well.
fn both(by: &str, unsaid: Refusal) -> String {
    format!("run: 12 by {by} said before {}", unsaid.number())
}

/// By which route the run homed; the legs tell, for b's second is fast and a's slow.
fn way(rail: &Rail, start: i64, run: &Run) -> &'static str {
    match run.passages.get(1) {
        _ if rail.switches(start).hom => "C",
        Some(second) if second.leg.1 == Speed::Fast => "B",
        _ => "A",
    }
}

impl Tally {
    pub(super) fn saw_settings(&mut self, settings: Settings, before_comment: &[u8]) {
        self.saw(match words(before_comment).count() {
            16 => "settings line: HOMING left out",
            _ if settings.homing_torque == settings.maximum_torque => "settings line: HOMING given, the maximum",
            _ => "settings line: HOMING given, another",
        });
        self.rails.settings = Some(settings);
        self.rails.given();
    }

    pub(super) fn saw_rail_line(&mut self, rail: Rail) {
        self.rails.rail = Some(rail);
        self.rails.given();
    }

    pub(super) fn saw_trial(&mut self, keyword: &str, trial: Trial) {
        let settings = self.rails.settings.clone().unwrap_or_default();
        let rail = self.rails.rail.unwrap_or_default();
        let run = simulator::run(&rail, &settings, trial.start, trial.ticks);
        let by_writer = writer::write(3, &settings, &mut [0; LONGEST]).err();
        self.saw_measures(&rail, trial, &run, by_writer);
        self.saw_place_and_ticks(&rail, trial);
        match &run {
            Err(refusal) => self.saw_refused_trial(keyword, &settings, *refusal),
            Ok(run) => {
                self.saw(&format!("{keyword}: stop {:?}", run.stop));
                self.saw_run_of(&rail, &settings, trial, run);
                if keyword == "picture" {
                    self.saw_picture(&rail, trial.start, run);
                }
                self.saw_if(self.rails.fresh, "run: after fresh, not refused");
                let unreadable = self.rails.unreadable;
                self.saw_if(unreadable, "run: after an unreadable settings or rail line, not refused");
            }
        }
        self.saw_if(self.axis.state().is_live(), "run: beside an axis that is enabled");
        self.saw_if(self.axis.due() != sheet::START, "run: beside an unfinished sheet");
        self.saw_if(self.axis.sheet().is_none(), "run: on an axis without sheet");
        self.rails.beside = Some(self.axis.homing());
    }

    /// A tick that comes right after a run.
    pub(super) fn saw_tick_after_a_run(&mut self) {
        let Some(beside) = self.rails.beside.take() else {
            return;
        };
        let runs = matches!(beside, Homing::Runs { .. }) && self.axis.homing() == beside;
        self.saw_if(runs, "run: beside an axis that homes, which then goes on");
    }

    fn saw_refused_trial(&mut self, keyword: &str, settings: &Settings, refusal: Refusal) {
        self.saw(&refused(keyword, refusal));
        self.saw_if(refusal == RailUnfit && self.rails.rail.is_none(), "run refused 12: before any rail");
        if refusal == OutOfRange {
            self.saw_if(self.rails.settings.is_none(), "run refused 3: before any settings");
            let method = settings.method;
            let given = self.rails.settings.is_some() && NO_METHODS.contains(&method);
            self.saw_if(given, &format!("run refused 3: method {method}"));
            let alone = Settings { homing_torque: 0, ..settings.clone() }.words(3).is_some();
            self.saw_if(alone, "run refused 3: homing torque alone");
        }
    }

    /// What 12 goes by, and what it is said before.
    fn saw_measures(&mut self, rail: &Rail, trial: Trial, run: &Result<Run, Refusal>, by_writer: Option<Refusal>) {
        let on_rail = (0..rail.length).contains(&trial.start);
        let some_ticks = (1..=MOST_TICKS).contains(&trial.ticks);
        let in_range = rail.measures().map(|measure| (1..=MOST).contains(&measure));
        for (place, name) in MEASURES.into_iter().enumerate() {
            let edge = rail.measures()[place];
            let others = (0..5).filter(|&other| other != place).all(|other| in_range[other]);
            let seen = run.is_ok() || !may_be_fit(name, edge) && others && some_ticks;
            self.saw_if(seen && EDGES.contains(&edge), &measured(name, edge));
        }
        let over = rail.cam + rail.width - rail.length;
        self.saw_if(run.is_ok() && over == 0, "run: u + w is L");
        let otherwise_fit = in_range == [true; 5] && on_rail && some_ticks;
        self.saw_if(over == 1 && otherwise_fit, "run refused 12: u + w is L + 1, all else fit");
        if let Some(unsaid) = by_writer {
            let by_rail = !rail.is_fit() && self.rails.rail.is_some();
            self.saw_if(by_rail && some_ticks, &both("a measure", unsaid));
            self.saw_if(rail.is_fit() && !on_rail && some_ticks, &both("the start", unsaid));
            self.saw_if(rail.is_fit() && on_rail && trial.ticks == 0, &both("no ticks", unsaid));
            self.saw_if(rail.is_fit() && on_rail && trial.ticks > MOST_TICKS, &both("too many ticks", unsaid));
        }
    }

    /// On a fit rail.
    fn saw_place_and_ticks(&mut self, rail: &Rail, Trial { start, ticks }: Trial) {
        if !rail.is_fit() {
            return;
        }
        let (length, cam, behind) = (rail.length, rail.cam, rail.cam + rail.width);
        let starts = [-1, 0, length - 1, length, i32::MIN.into(), i32::MAX.into(), cam, behind - 1, cam - 1, behind];
        for (name, _) in STARTS.into_iter().zip(starts).filter(|&(_, place)| place == start) {
            self.saw(&format!("run: START {name}"));
        }
        let on_rail = (0..length).contains(&start);
        self.saw_if(on_rail && TICKS.contains(&ticks), &format!("run: TICKS {ticks}"));
    }

    fn saw_run_of(&mut self, rail: &Rail, settings: &Settings, trial: Trial, run: &Run) {
        let (method, stop) = (settings.method as u32, run.stop);
        self.saw(&format!("method {method}: stop {stop:?}"));
        if stop == Stop::Ticks {
            let one_more = simulator::run(rail, settings, trial.start, trial.ticks + 1);
            let short = one_more.is_ok_and(|run| run.stop != Stop::Ticks);
            self.saw_if(short, &format!("method {method}: one tick short of its end"));
        } else {
            self.saw_if(run.ticks == trial.ticks, &format!("method {method}: {stop:?} in the last tick given"));
        }
        self.saw_if(run.ticks == 1, "run: stopped in the start tick");
        self.saw_if(run.ticks == 2, "run: stopped in the second tick");
        self.saw_if(run.ticks > 1000, "run: more than 1000 ticks");
        self.saw_if(run.ticks > 1_000_000, "run: more than a million ticks");
        let long = [settings.offset, settings.lower_stop, settings.upper_stop].into_iter().any(sheet::is_long);
        self.saw_if(long, "run: a long place in the settings");
        self.saw_if(settings.homing_torque != settings.maximum_torque, "run: homing torque other than the maximum");
        let jump = run.passages.iter().map(|passage| (passage.to - passage.from).abs() / passage.ticks).max().unwrap_or(0);
        self.saw_if(rail.slow > rail.fast, "run: s above f");
        self.saw_if(jump > rail.width, "run: a step over the whole cam");
        self.saw_if(jump > rail.length, "run: a step over the whole rail");
        if (23..=30).contains(&method) {
            let way = way(rail, trial.start, run);
            self.saw_if(stop == Stop::Homed, &format!("method {method}: homed by {way} on a rail"));
            self.saw_promise(rail, method, trial.ticks, stop);
        }
    }

    fn saw_promise(&mut self, rail: &Rail, method: u32, ticks: i64, stop: Stop) {
        let slack = slack(rail);
        let exactly = rail.is_roomy() && ticks == rail.promised_ticks();
        self.saw_if(exactly, &format!("method {method}: given exactly the ticks promised"));
        for (place, inequality) in PROMISE.into_iter().enumerate() {
            self.saw_if(rail.is_roomy() && slack[place] == 0, &format!("promise: {inequality}, just so"));
            let others = (0..4).filter(|&other| other != place).all(|other| slack[other] >= 0);
            if others && slack[place] == -1 && stop != Stop::Ticks {
                let how = if stop == Stop::Homed { "homed" } else { "error" };
                self.saw(&format!("promise: {inequality}, missed by one, all else met: {how}"));
            }
        }
    }

    fn saw_picture(&mut self, rail: &Rail, start: i64, run: &Run) {
        self.saw(match rail.length {
            ..58 => "picture: L below 58",
            58 => "picture: L 58",
            59 => "picture: L 59",
            _ => "picture: L above 59",
        });
        let last = picture::columns(rail) as usize;
        let cam = [rail.cam, rail.cam + rail.width - 1].map(|cell| picture::column(rail, cell));
        self.saw_if(cam[0] == 1, "picture: cam from the first column");
        self.saw_if(cam[1] == last, "picture: cam to the last column");
        self.saw_if(cam[0] == cam[1] && rail.width > 1, "picture: a cam of several cells in one column");
        let column = picture::column(rail, start);
        self.saw_if(column == 1, "picture: start in the first column");
        self.saw_if(column == last, "picture: start in the last column");
        let beyond = |cell: i64| match cell {
            ..0 => "beyond the rail's beginning",
            _ if cell >= rail.length => "beyond its end",
            _ => "on it",
        };
        for passage in &run.passages {
            let Leg(direction, speed, _) = passage.leg;
            let letter = if speed == Speed::Fast { 'F' } else { 'S' };
            self.saw(&format!("picture: leg {}{letter}", if direction > 0 { '+' } else { '-' }));
            self.saw(&format!("picture: a leg ends {}", beyond(passage.to)));
            let columns = [passage.from, passage.to].map(|cell| picture::column(rail, cell));
            self.saw_if(columns[0] == columns[1], "picture: a leg within one column");
        }
        self.saw(&format!("picture: the run ends {}", beyond(run.cell)));
        self.saw_if(run.passages.is_empty(), "picture: no leg");
        self.saw_if(run.passages.len() == 4, "picture: four legs");
        let alike = run.passages.windows(2).any(|pair| (pair[0].leg.0, pair[0].leg.1) == (pair[1].leg.0, pair[1].leg.1));
        self.saw_if(alike, "picture: two legs alike in a row");
    }

    /// A line about runs that cannot be read: which of its words, and how.
    pub(super) fn saw_unreadable_rails(&mut self, before_comment: &[u8], column: usize) {
        let mut words = words(&before_comment[..column - 1]);
        let first = words.next().unwrap_or_default();
        let Some(keyword) = KEYWORDS.into_iter().find(|keyword| keyword.as_bytes() == first) else {
            return;
        };
        let how = if column > before_comment.len() { "missing" } else { "wrong" };
        let place = match (keyword, words.count()) {
            ("settings", 0..=14) => Some("a field"),
            ("settings", 15) => Some("HOMING"),
            (_, count) => places(keyword).get(count).copied().filter(|_| keyword != "settings"),
        };
        match place {
            Some(place) => self.saw(&format!("{keyword} line unreadable: {place} {how}")),
            None => self.saw(&format!("{keyword} line unreadable: one word too many")),
        }
        self.rails.unreadable |= keyword == "settings" || keyword == "rail";
    }
}
