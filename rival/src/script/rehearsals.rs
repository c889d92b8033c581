//! Scenes about two rehearsals: sheets that differ in gear, offset and stops alone, and the very same ticks under both. What
//! homing cannot know makes no difference to the answers, until a target is followed.

use std::io::{self, Write};

use super::homing::start_on;
use super::sheets::{is_acceptable, old, words_in, LONG_PLACE};
use super::Script;
use crate::drive_state::DriveState::*;
use crate::gear::follow;
use crate::homing::{all_routes, failing_legs, legs, Homing, Way};
use crate::sheet::{self, Sheet, LAYOUTS};
use crate::writer::Settings;

/// What is heard of a rehearsal that is played for the first time.
pub(super) struct Rehearsal {
    ticks: Vec<String>,
    /// Whether settings words fall between the ticks.
    strays: bool,
}

/// How homing ends.
#[derive(Clone, Copy)]
enum Course {
    Homed(Way),
    Error,
}

/// Two rehearsals to play.
struct Plan {
    differing: Differing,
    course: Course,
    /// One of `OPENINGS`; without a number, two fresh axes.
    opening: Option<usize>,
    /// Whether settings words fall between the ticks of either.
    strays: [bool; 2],
    /// What is done before homing and after it.
    antics: [usize; 2],
    /// Homing is cut off once before it runs to its end, and runs once more after it.
    repeated: bool,
    /// Whether position commands follow at the end, under both sheets.
    followed: bool,
}

const COURSES: [Course; 7] = [
    Course::Homed(Way::A),
    Course::Homed(Way::B),
    Course::Homed(Way::C),
    Course::Homed(Way::OffLimit),
    Course::Homed(Way::OnLimit),
    Course::Homed(Way::Sole),
    Course::Error,
];

/// What may differ: a field, and what it holds at least and at most.
type Field = (fn(&mut Settings) -> &mut i64, i64, i64);

const FIELDS: [Field; 5] = [
    (|s| &mut s.numerator, 1, 1 << 20),
    (|s| &mut s.denominator, 1, 1 << 20),
    (|s| &mut s.offset, -LONG_PLACE, LONG_PLACE - 1),
    (|s| &mut s.lower_stop, -LONG_PLACE, LONG_PLACE - 1),
    (|s| &mut s.upper_stop, -LONG_PLACE, LONG_PLACE - 1),
];

/// Which of the five differ.
#[derive(Clone, Copy)]
enum Differing {
    Only(usize),
    AllFarApart,
    Some,
}

/// From anywhere to Switch on disabled: a fault goes by the rise of bit 7, alarm number 0, and torque mode is shown.
const LEADING: [&str; 2] = ["tick 0000 rest at 0 ---- still set1 0", "tick 0080 torque 0 at 0 ---- still set1 0"];

/// From there to a state that is not live, with a mode, an alarm number and inputs to remember: Switch on disabled, Ready, Switched
/// on, Fault reaction, Fault. And the control word of the first tick after the takeover, with bits 4 and 7 held where they were set.
const OPENINGS: [(&[&str], u16); 5] = [
    (&["tick 0090 homing 0 at -2147483648 --H- moving set2 0"], 0x0090),
    (&["tick 0006 homing 0 at 7 -N-Z moving set1 0"], 0x0006),
    (&["tick 0006 rest at -5 P-H- still set2 0", "tick 0017 hybrid 0 0 0 0 0 0 0 at 2147483647 --H- moving set1 0"], 0x001F),
    (&["tick 000F position 9 9 at 0 ---- still set1 100"], 0x000F),
    (&["tick 000F torque 5 at 3 ---- moving set1 80000000", "tick 0080 homing 0 at -3 P--- still set1 1"], 0x0080),
];

/// A q that is finite under any rated torque, but near the greatest there is.
const HUGE: (u16, &str, bool) = (0x000F, "hybrid 0 0 0 0 x74000000 0 0", false);

/// Control word, command, standstill. They begin enabled; none is a position command.
const ANTICS: [&[(u16, &str, bool)]; 9] = [
    &[(0x000F, "torque 3000", true), (0x000F, "torque -3000", false), (0x000F, "homing 70", false)],
    &[(0x000F, "hybrid 0 0 0 0 0.5 0 0", true), (0x000F, "hybrid 3 1 -2.5 0 0 1 4", false), HUGE],
    &[(0x000F, "hybrid 2 0 0.25 0 0 0.125 0", true), (0x000F, "hybrid x7F800000 0 1 0 0 0 0", false)],
    &[(0x0002, "homing 3000", false), (0x0002, "torque -3000", false), (0x000F, "homing 40", true)],
    &[(0x0012, "homing -3000", false), (0x001F, "homing 2000", true), (0x001F, "homing 2000", true)],
    &[(0x001F, "rest", false), (0x001F, "torque 9", false), (0x001F, "homing 9", true)],
    &[(0x0107, "torque 1", false), (0x010F, "torque 32767", true), (0x0016, "homing 1", true)],
    &[(0x000F, "homing -32768", true), (0x011F, "homing 600", false), (0x000F, "homing 600", false)],
    &[(0x000F, "torque -450", true), (0x001F, "homing 450", false), (0x001F, "homing 450", true)],
];

/// Further ones: an alarm, any control word, a halt.
const ALARM: usize = ANTICS.len();
const ANY_CONTROL: usize = ALARM + 1;
const HALTED: usize = ALARM + 2;
const ANTICS_IN_ALL: usize = ALARM + 3;

/// Whether requests show in the torque that is handed out.
fn is_felt(s: &Settings) -> bool {
    let caps = [s.maximum_torque, s.positive_1, s.negative_1, s.positive_2, s.negative_2];
    caps.into_iter().all(|cap| cap > 0) && s.rated_torque < 1 << 16
}

impl<W: Write> Script<W> {
    /// Each of the five differs alone, all of them, any of them; each with another course and from another state.
    pub(super) fn rehearsals(&mut self) {
        let mut courses = COURSES;
        let homed = courses.len() - 1;
        self.random.shuffle(&mut courses[..homed]);
        let mut openings = [Some(0), Some(1), Some(2), Some(3), Some(4), None];
        self.random.shuffle(&mut openings);
        let mut strays = [[true, false], [false, true], [true, true], [true, false], [false, true], [false, false]];
        self.random.shuffle(&mut strays);
        let mut antics: [usize; ANTICS_IN_ALL] = std::array::from_fn(|place| place);
        self.random.shuffle(&mut antics);
        for (place, course) in courses.into_iter().enumerate() {
            let differing = match place {
                0..=4 => Differing::Only(place),
                5 => Differing::AllFarApart,
                _ => Differing::Some,
            };
            let antics = [2 * place, 2 * place + 1].map(|antic| antics[antic % ANTICS_IN_ALL]);
            let (opening, strays) = (openings[place % openings.len()], strays[place % strays.len()]);
            self.rehearse_twice(&Plan { differing, course, opening, strays, antics, repeated: place % 3 == 0, followed: true });
        }
    }

    /// A script of two rehearsals and nothing else, after whatever sheet was in force before: the last two takeovers are theirs.
    pub fn write_rehearsals(mut self) -> io::Result<()> {
        self.mutating = self.random.once_in(3);
        let only = Differing::Only(self.random.between(0, 4) as usize);
        let plan = Plan {
            differing: self.random.pick(&[only, Differing::AllFarApart, Differing::Some, Differing::Some]),
            course: self.random.pick(&COURSES),
            opening: self.random.pick(&[Some(0), Some(1), Some(2), Some(3), Some(4), None]),
            strays: [self.random.once_in(2), self.random.once_in(2)],
            antics: [self.any_antic(), self.any_antic()],
            repeated: self.random.once_in(3),
            followed: !self.random.once_in(4),
        };
        self.rehearse_twice(&plan);
        self.output.flush()?;
        self.failure
    }

    fn any_antic(&mut self) -> usize {
        self.random.between(0, ANTICS_IN_ALL as i64 - 1) as usize
    }

    fn rehearse_twice(&mut self, plan: &Plan) {
        let (method, way, place) = self.any_route(plan.course);
        let (first, second, mut targets) = self.two_settings(plan.differing, method);
        targets.retain(|_| plan.followed);
        let layouts = self.two_layouts(&first, &second);
        self.open(plan.opening, layouts[0], &first);
        self.rehearsal = Some(Rehearsal { ticks: Vec::new(), strays: plan.strays[0] });
        self.rehearse(plan, method, way, place);
        let ticks = self.rehearsal.take().map(|rehearsal| rehearsal.ticks).unwrap_or_default();
        let targets: Vec<String> = targets.into_iter().map(|target| self.following(target)).collect();
        for target in &targets {
            self.line(target);
        }
        self.open(plan.opening, layouts[1], &second);
        for (place, tick) in ticks.iter().enumerate() {
            if plan.strays[1] {
                self.stray(place);
            }
            self.line(tick);
        }
        for target in &targets {
            self.line(target);
        }
        self.now.set = 1;
    }

    /// Called with each tick of the first rehearsal.
    pub(super) fn rehearsed(&mut self, tick: &str) {
        let Some(rehearsal) = &mut self.rehearsal else {
            return;
        };
        let place = rehearsal.ticks.len();
        rehearsal.ticks.push(tick.to_string());
        if rehearsal.strays {
            self.stray(place);
        }
    }

    /// A method and a way that it has; the leg that fails, if one is to.
    fn any_route(&mut self, course: Course) -> (u32, Way, Option<usize>) {
        match course {
            Course::Homed(way) => {
                let routes: Vec<(u32, Way)> = all_routes().into_iter().filter(|route| route.1 == way).collect();
                (self.random.pick(&routes).0, way, None)
            }
            Course::Error => {
                let (method, way, place) = self.random.pick(&failing_legs());
                (method, way, Some(place))
            }
        }
    }

    /// A layout that holds the one and one that holds the other; they differ where they can.
    fn two_layouts(&mut self, first: &Settings, second: &Settings) -> [u32; 2] {
        let holding = |settings: &Settings| LAYOUTS.into_iter().filter(|&layout| settings.lost_in(layout).is_none()).collect();
        let (ones, twos): (Vec<u32>, Vec<u32>) = (holding(first), holding(second));
        let one = self.random.pick(&ones);
        let others: Vec<u32> = twos.iter().copied().filter(|&layout| layout != one).collect();
        [one, self.random.pick(if others.is_empty() { &twos } else { &others })]
    }

    /// Both sheets, and targets of which one at least is not followed alike.
    fn two_settings(&mut self, differing: Differing, method: u32) -> (Settings, Settings, Vec<i32>) {
        loop {
            let mut first = Settings { method: i64::from(method), ..self.any_settings() };
            if !is_felt(&first) {
                continue;
            }
            let mut second = first.clone();
            match differing {
                Differing::Only(place) => self.change(&mut second, FIELDS[place]),
                Differing::AllFarApart => {
                    // Any layout holds the torques of both, so that the layouts can differ too.
                    (first, second) = (old(first), old(second));
                    let mut long = self.any_long_settings();
                    for (field, _, _) in FIELDS {
                        *field(&mut second) = *field(&mut long);
                    }
                    let places = |s: &Settings| [s.offset, s.lower_stop, s.upper_stop];
                    let near = places(&first).into_iter().zip(places(&second)).any(|(one, two)| (one - two).abs() < 1 << 28);
                    if near || first.numerator == second.numerator || first.denominator == second.denominator {
                        continue;
                    }
                }
                Differing::Some => {
                    for field in FIELDS {
                        if self.random.once_in(2) {
                            self.change(&mut second, field);
                        }
                    }
                }
            }
            if !is_acceptable(&second) {
                continue;
            }
            let targets = self.targets(&first, &second);
            let [one, two] = [&first, &second].map(|settings| Sheet::of(&words_in(3, settings)));
            let differ = |target: &i32| {
                let (one, two) = (follow(&one, 0, *target), follow(&two, 0, *target));
                one.position != two.position || one.clamped != two.clamped
            };
            if targets.iter().any(differ) {
                return if self.random.once_in(2) { (first, second, targets) } else { (second, first, targets) };
            }
        }
    }

    /// Another value: a little beside, or anywhere.
    fn change(&mut self, settings: &mut Settings, (field, least, most): Field) {
        let value = field(settings);
        let beside = *value + self.random.between(1, 9) * self.random.pick(&[1, -1]);
        let other = if self.random.once_in(2) { self.random.between(least, most) } else { beside };
        *value = if other == *value { least } else { other.clamp(least, most) };
    }

    /// Beyond the stops, between those of the one sheet and the other, and within both.
    fn targets(&mut self, first: &Settings, second: &Settings) -> Vec<i32> {
        let lower = first.lower_stop.max(second.lower_stop);
        let upper = first.upper_stop.min(second.upper_stop);
        let within = self.random.between(lower.min(upper), upper.max(lower));
        let mut targets = vec![lower - 1, upper + 1, within];
        self.random.shuffle(&mut targets);
        targets.into_iter().filter_map(|target| i32::try_from(target).ok()).collect()
    }

    /// A tick that follows this target, where the axis is homed. With a limit on, its clamp would not show.
    fn following(&mut self, target: i32) -> String {
        (self.now.switches.pot, self.now.switches.not) = (false, false);
        self.now.control = 0x000F;
        self.now.command = format!("position {target} {}", self.random.between(-900, 900));
        self.now.still = true;
        self.now.line()
    }

    /// Equal drive state, shown mode, alarm number and remembered inputs, whatever was before; and the sheet's words, at times from
    /// the writer first. The last tick may fall between two of them. Without a number, a fresh axis.
    fn open(&mut self, opening: Option<usize>, layout: u32, settings: &Settings) {
        let words = words_in(layout, settings);
        if self.random.once_in(3) {
            self.writer(layout, words.len() as i64, settings);
        }
        let Some(opening) = opening else {
            self.fresh();
            return self.words(&words);
        };
        if self.axis().sheet().is_none() {
            self.take_over_any(); // a tick without a sheet would do nothing
        }
        let ticks = [&LEADING, OPENINGS[opening].0].concat();
        let end = ticks.len() - 1;
        for tick in &ticks[..end] {
            self.line(tick);
        }
        let heard = if self.random.once_in(2) { 0 } else { self.random.between(1, words.len() as i64 - 1) as usize };
        self.words(&words[..heard]);
        self.line(ticks[end]);
        self.words(&words[heard..]);
    }

    /// The ticks of one rehearsal: up, homing by this way, or failing in the leg at this place; other things before and after.
    fn rehearse(&mut self, plan: &Plan, method: u32, way: Way, failing: Option<usize>) {
        self.now.switches = Default::default();
        self.now.position = self.random.pick(&[100, 0, -5000, i32::MAX - 3, i32::MIN + 3]);
        let held = plan.opening.map_or(0, |opening| OPENINGS[opening].1);
        let command = self.random.pick(&["homing 60", "rest"]); // rest leaves the mode as it was shown before
        self.tick_with(held, command, false);
        self.now.command = self.random.pick(&["homing 60", "torque 200", "rest"]).to_string();
        if plan.repeated {
            let legs = legs(method, way);
            let cut = self.random.between(0, legs.len() as i64) as usize;
            self.run(method, way, cut);
        }
        self.antic(plan.antics[0]);
        match failing {
            Some(place) => self.hold(method, way, place),
            None => self.run(method, way, usize::MAX),
        }
        self.now.switches.pot = plan.repeated;
        self.antic(plan.antics[1]);
        let homed = matches!(self.axis().homing(), Homing::Homed { .. });
        if failing.is_none() && (plan.repeated || !homed) {
            self.run(method, way, usize::MAX);
        }
        self.now.command = "rest".to_string();
        self.reach(OperationEnabled);
    }

    /// Bit 4 rises with switches that allow this way; a halt, then so many legs of it.
    fn run(&mut self, method: u32, way: Way, many: usize) {
        self.now.switches = Default::default();
        self.start_with(start_on(method, way, []));
        if self.random.once_in(2) {
            self.halted_tick();
        }
        for leg in legs(method, way).into_iter().take(many) {
            self.leg(leg);
        }
    }

    /// Torque and hybrid requests, quick stops, modes that change or do not, an alarm, any control word, a halt. At times a limit is
    /// on meanwhile.
    fn antic(&mut self, antic: usize) {
        self.reach(OperationEnabled);
        self.now.set = self.random.pick(&[1, 2]);
        self.now.switches.pot |= self.random.once_in(6);
        self.now.switches.not |= self.random.once_in(6);
        match antic {
            ALARM => {
                self.now.alarm = 1 << self.random.between(0, 31) | 1 << self.random.between(0, 31);
                self.tick_with(0x000F, "homing 30", false);
                self.tick_with(0x000F, "torque 30", true);
                self.now.alarm = 0;
            }
            ANY_CONTROL => {
                let control = self.random.bits() as u16;
                self.tick_with(control, "homing 800", true);
            }
            HALTED => self.halted_tick(),
            _ => {
                for &(control, command, still) in ANTICS[antic] {
                    self.tick_with(control, command, still);
                }
            }
        }
        (self.now.switches.pot, self.now.switches.not) = (false, false);
    }

    /// Now and then, settings words that come to nothing: stored, refused, a whole sheet torn or said to a live axis. Before the
    /// second tick there is such a sheet for sure.
    fn stray(&mut self, place: usize) {
        if place != 1 && !self.random.once_in(9) {
            return;
        }
        let settings = self.any_settings();
        let words = self.words_of(&settings);
        let end = words.len() - 1;
        match if place == 1 { 0 } else { self.random.between(0, 4) } {
            0 if self.state().is_live() => self.words(&words),
            0 | 1 => {
                self.words(&words[..end]);
                let bit = self.random.between(0, 27);
                self.word(words[end] ^ 1 << bit);
            }
            2 => {
                let stored = self.random.between(1, end as i64) as usize;
                self.words(&words[..stored]);
            }
            3 => self.word(sheet::word(sheet::START, 4)),
            _ => {
                // Out of turn, or the last of a sheet whose first words are not there.
                let due = self.axis().due();
                let place = self.random.between(1, end as i64) as usize;
                if sheet::kind(words[place]) != due {
                    self.word(words[place]);
                }
            }
        }
    }
}
