//! Two rehearsals: sheets that differ in gear, offset and stops alone, taken over in equal situations, and the same ticks after both
//! takeovers. A place in the two lists counts as long as all ticks up to it were the same, and answered the same.

use super::Tally;
use crate::command::Command;
use crate::control_word::{ControlWord, HALT};
use crate::drive_state::DriveState::{self, *};
use crate::homing::{Homing, Way};
use crate::refusal::Refusal;
use crate::sheet::{LimitSet, Sheet};
use crate::tick::{Answer, Switches, Tick};

/// What may differ.
const FIELDS: [&str; 5] = ["numerator", "denominator", "offset", "lower stop", "upper stop"];

const WAYS: [Way; 6] = [Way::A, Way::B, Way::C, Way::OffLimit, Way::OnLimit, Way::Sole];

const OPENINGS: [DriveState; 6] = [NotReady, SwitchOnDisabled, Ready, SwitchedOn, FaultReaction, Fault];

const SINGLE: [&str; 18] = [
    "rehearsals homed: offset and both stops 2^28 apart",
    "rehearsals homed in layouts that differ",
    "rehearsals homed, homed again",
    "rehearsals homed, words between ticks of the first alone",
    "rehearsals homed, words between ticks of the second alone",
    "rehearsals homed, a whole sheet refused between ticks of the first alone",
    "rehearsals homed, a whole sheet refused between ticks of the second alone",
    "rehearsals: homing error",
    "rehearsals: homing idled",
    "rehearsals: halt in the midst",
    "rehearsals: fault reaction",
    "rehearsals: torque by homing",
    "rehearsals: torque by torque",
    "rehearsals: torque by hybrid",
    "rehearsals: torque in quick stop",
    "rehearsals: limit switch on, homed",
    "rehearsals: mode changes, homed",
    "rehearsals: a target not followed, answered alike",
];

pub(super) fn names() -> Vec<String> {
    let mut names: Vec<String> = SINGLE.map(String::from).into();
    let differing: Vec<String> = FIELDS.iter().map(|field| format!("only {field} differs")).chain([ALL.to_string()]).collect();
    for differing in differing {
        names.push(format!("rehearsals homed: {differing}"));
        names.push(format!("rehearsals homed, then a target: {differing}, and so do the answers"));
    }
    names.extend(WAYS.map(|way| format!("rehearsals homed by {way:?}")));
    names.extend(OPENINGS.map(|state| format!("rehearsals homed, taken over in {state:?}")));
    names
}

const ALL: &str = "each field differs";

/// What is to be equal when the sheets are taken over. A takeover itself makes homed, homing error and the running leg so.
#[derive(Clone, PartialEq)]
struct Opening {
    state: DriveState,
    mode: i8,
    alarm: u32,
    remembered: Remembered,
}

#[derive(Clone, Default, PartialEq)]
struct Remembered {
    control: ControlWord,
    switches: Switches,
    position: i32,
}

/// Settings words since the tick before.
#[derive(Clone, Copy, Default)]
struct Between {
    any: bool,
    /// A whole sheet, refused at its end.
    whole: bool,
}

struct Heard {
    /// Written out, for a NaN is not equal to itself.
    tick: String,
    answer: Answer,
    homing: Homing,
    between: Between,
}

/// From a takeover on.
struct Half {
    sheet: Sheet,
    opening: Opening,
    ticks: Vec<Heard>,
}

#[derive(Default)]
pub(super) struct Rehearsals {
    earlier: Option<Half>,
    latest: Option<Half>,
    /// The halves are alike so far, and so no position command was among the ticks.
    alike: bool,
    /// The same, but for position commands at the end.
    targets: bool,
    remembered: Remembered,
    between: Between,
}

impl Rehearsals {
    /// The halves outlive the axis: two rehearsals may be those of two fresh axes.
    pub(super) fn fresh(&mut self) {
        self.remembered = Remembered::default();
    }
}

/// Which of the five differ; nothing where another field does.
fn differing(one: &Sheet, two: &Sheet) -> Option<[bool; 5]> {
    let limits = |sheet: &Sheet, set| (sheet.positive_limit(set), sheet.negative_limit(set));
    let others = |sheet: &Sheet| {
        (
            [sheet.fast(), sheet.slow()],
            [sheet.method(), sheet.quick_stop_option(), sheet.rated_torque()],
            [sheet.maximum_torque(), sheet.homing_torque()],
            [LimitSet::Set1, LimitSet::Set2].map(|set| limits(sheet, set)),
        )
    };
    let fields = |s: &Sheet| [s.numerator(), s.denominator(), s.offset(), s.lower_stop(), s.upper_stop()];
    let (ones, twos) = (fields(one), fields(two));
    let differ = std::array::from_fn(|place| ones[place] != twos[place]);
    (others(one) == others(two) && differ.contains(&true)).then_some(differ)
}

/// How the counts call it, where they have a name for it.
fn named(differ: [bool; 5]) -> Option<String> {
    match differ.iter().filter(|&&differs| differs).count() {
        1 => FIELDS.iter().zip(differ).find(|(_, differs)| *differs).map(|(field, _)| format!("only {field} differs")),
        5 => Some(ALL.to_string()),
        _ => None,
    }
}

fn far_apart(one: &Sheet, two: &Sheet) -> bool {
    let places = |sheet: &Sheet| [sheet.offset(), sheet.lower_stop(), sheet.upper_stop()];
    places(one).into_iter().zip(places(two)).all(|(one, two)| one.abs_diff(two) >= 1 << 28)
}

impl Tally {
    pub(super) fn rehearsal_word(&mut self, heard: Result<(), Refusal>) {
        let between = &mut self.rehearsals.between;
        between.any = true;
        between.whole |= matches!(heard, Err(Refusal::BadSum | Refusal::AxisLive));
    }

    /// A takeover begins a half, and the one before it may be a first one.
    pub(super) fn rehearsal_begins(&mut self, sheet: &Sheet) {
        let Rehearsals { latest, remembered, .. } = std::mem::take(&mut self.rehearsals);
        let opening = Opening {
            state: self.axis.state(),
            mode: self.axis.shown_mode(),
            alarm: self.axis.alarm_number(),
            remembered: remembered.clone(),
        };
        let alike = latest.as_ref().is_some_and(|half| half.opening == opening && differing(&half.sheet, sheet).is_some());
        let half = Half { sheet: *sheet, opening, ticks: Vec::new() };
        self.rehearsals =
            Rehearsals { earlier: latest, latest: Some(half), alike, targets: alike, remembered, between: Between::default() };
    }

    /// A tick that is not refused; the axis is as it left it.
    pub(super) fn rehearsal_tick(&mut self, tick: &Tick, answer: &Answer, mode_before: i8) {
        let (earlier, latest) = (self.rehearsals.earlier.take(), self.rehearsals.latest.take());
        let between = std::mem::take(&mut self.rehearsals.between);
        self.rehearsals.remembered = Remembered { control: tick.control, switches: tick.switches, position: tick.position };
        let heard = Heard { tick: format!("{tick:?}"), answer: *answer, homing: self.axis.homing(), between };
        let place = latest.as_ref().map_or(0, |half| half.ticks.len());
        let before = earlier.as_ref().and_then(|half| half.ticks.get(place)).filter(|before| before.tick == heard.tick);
        let mut goes_on = false;
        if let (Some(one), Some(two), Some(before), true) = (&earlier, &latest, before, self.rehearsals.targets) {
            let differ = differing(&one.sheet, &two.sheet).unwrap_or_default();
            if matches!(tick.command, Command::Position { .. }) {
                goes_on = true;
                self.rehearsals.alike = false;
                self.saw_rehearsed_target(differ, before, &heard);
            } else if self.rehearsals.alike && before.answer == heard.answer {
                goes_on = true;
                self.saw_rehearsed(tick, mode_before, &two.ticks, before, &heard);
                if ends(&two.ticks, &heard) && before.homing == heard.homing {
                    self.saw_rehearsals_homed((one, two), differ, place);
                }
            }
        }
        self.rehearsals.alike &= goes_on;
        self.rehearsals.targets &= goes_on;
        self.rehearsals.earlier = earlier;
        self.rehearsals.latest = latest.map(|mut half| {
            half.ticks.push(heard);
            half
        });
    }

    /// A tick that both halves have, and answer alike.
    fn saw_rehearsed(&mut self, tick: &Tick, mode_before: i8, ticks: &[Heard], before: &Heard, heard: &Heard) {
        let ran = ticks.last().is_some_and(|last| matches!(last.homing, Homing::Runs { .. }));
        let homed = matches!((before.homing, heard.homing), (Homing::Homed { .. }, Homing::Homed { .. }));
        let both = |homing: Homing| before.homing == homing && heard.homing == homing;
        self.saw_if(ran && both(Homing::Error), "rehearsals: homing error");
        self.saw_if(ran && both(Homing::Idle), "rehearsals: homing idled");
        let runs = matches!(heard.homing, Homing::Runs { .. });
        self.saw_if(ran && runs && tick.control.has(HALT), "rehearsals: halt in the midst");
        self.saw_if(self.axis.state() == FaultReaction, "rehearsals: fault reaction");
        if heard.answer.torque != 0 {
            self.saw(&format!("rehearsals: torque by {}", super::ticks::command_name(&tick.command)));
            self.saw_if(self.axis.state() == QuickStopActive, "rehearsals: torque in quick stop");
        }
        self.saw_if(homed && (tick.switches.pot || tick.switches.not), "rehearsals: limit switch on, homed");
        self.saw_if(homed && mode_before != heard.answer.mode, "rehearsals: mode changes, homed");
    }

    /// Both halves are homed at this place, and were not right before it.
    fn saw_rehearsals_homed(&mut self, (one, two): (&Half, &Half), differ: [bool; 5], place: usize) {
        if let Homing::Homed { way, .. } = self.axis.homing() {
            self.saw(&format!("rehearsals homed by {way:?}"));
        }
        self.saw(&format!("rehearsals homed, taken over in {:?}", two.opening.state));
        if let Some(differing) = named(differ) {
            self.saw(&format!("rehearsals homed: {differing}"));
        }
        self.saw_if(far_apart(&one.sheet, &two.sheet), "rehearsals homed: offset and both stops 2^28 apart");
        self.saw_if(one.sheet.layout() != two.sheet.layout(), "rehearsals homed in layouts that differ");
        let again = two.ticks.iter().any(|heard| matches!(heard.homing, Homing::Homed { .. }));
        self.saw_if(again, "rehearsals homed, homed again");
        let before = |half: &Half, was: fn(&Between) -> bool| half.ticks[..place].iter().any(|heard| was(&heard.between));
        for (what, was) in [("words", (|b| b.any) as fn(&Between) -> bool), ("a whole sheet refused", |b| b.whole)] {
            for (half, other, which) in [(one, two, "first"), (two, one, "second")] {
                let alone = before(half, was) && !before(other, |between| between.any);
                self.saw_if(alone, &format!("rehearsals homed, {what} between ticks of the {which} alone"));
            }
        }
    }

    /// The first thing that knows the gear.
    fn saw_rehearsed_target(&mut self, differ: [bool; 5], before: &Heard, heard: &Heard) {
        let homed = matches!((before.homing, heard.homing), (Homing::Homed { .. }, Homing::Homed { .. }));
        if before.answer == heard.answer {
            self.saw_if(!homed, "rehearsals: a target not followed, answered alike");
        } else if let (Some(differing), true) = (named(differ), homed) {
            self.saw(&format!("rehearsals homed, then a target: {differing}, and so do the answers"));
        }
    }
}

/// Whether a homing ends in this tick, homed.
fn ends(ticks: &[Heard], heard: &Heard) -> bool {
    let was = ticks.last().is_some_and(|last| last.homing == heard.homing);
    matches!(heard.homing, Homing::Homed { .. }) && !was
}
