//! Homing, read from the recorded ticks: the list since the latest start is cut into one stretch a leg.
//!
//! No homing phase is kept from tick to tick. Each reading begins at the start tick and cuts the whole list anew.

use crate::control_word::{ControlWord, HALT, HOMING_START};
use crate::sheet::Sheet;
use crate::tick::{Switch, Switches};

#[derive(Clone, Copy, Debug, PartialEq, Eq)]
pub enum Event {
    Rises(Switch),
    Drops(Switch),
    /// "a limit in the travel direction counts whenever it is on": by its level, "with no movement needed".
    LimitOn,
}

impl Event {
    /// The same event of the turned route: "NOT for POT", and the other way round.
    fn turned(self) -> Event {
        match self {
            Event::Rises(switch) => Event::Rises(turned(switch)),
            Event::Drops(switch) => Event::Drops(turned(switch)),
            Event::LimitOn => Event::LimitOn, // the limit goes by the turned direction
        }
    }
}

fn turned(switch: Switch) -> Switch {
    match switch {
        Switch::Pot => Switch::Not,
        Switch::Not => Switch::Pot,
        Switch::Hom | Switch::Z => switch,
    }
}

#[derive(Clone, Copy, Debug, PartialEq, Eq)]
pub enum Speed {
    Fast,
    Slow,
}

/// Direction (1 or -1), speed and event.
#[derive(Clone, Copy, Debug, PartialEq, Eq)]
pub struct Leg(pub i32, pub Speed, pub Event);

use Event::LimitOn as L;
use Speed::{Fast as F, Slow as S};

const R: Event = Event::Rises(Switch::Hom);
const D: Event = Event::Drops(Switch::Hom);
const Z: Event = Event::Rises(Switch::Z);
const NOT_D: Event = Event::Drops(Switch::Not);

struct Row {
    a: &'static [Leg],
    b: &'static [Leg],
    c: &'static [Leg],
}

/// The paper's table, methods 23 to 26.
const TABLE: [Row; 4] = [
    Row {
        a: &[Leg(1, F, R), Leg(-1, S, D)],
        b: &[Leg(1, F, L), Leg(-1, F, R), Leg(1, S, D), Leg(-1, S, D)],
        c: &[Leg(-1, S, D)],
    },
    Row {
        a: &[Leg(1, F, R), Leg(-1, S, D), Leg(1, S, R)],
        b: &[Leg(1, F, L), Leg(-1, F, D), Leg(1, S, R)],
        c: &[Leg(-1, S, D), Leg(1, S, R)],
    },
    Row {
        a: &[Leg(1, F, D), Leg(-1, S, R)],
        b: &[Leg(1, F, L), Leg(-1, F, R), Leg(1, S, D), Leg(-1, S, R)],
        c: &[Leg(1, S, D), Leg(-1, S, R)],
    },
    Row {
        a: &[Leg(1, F, R), Leg(-1, S, D), Leg(1, S, D)],
        b: &[Leg(1, F, L), Leg(-1, F, R), Leg(1, S, D)],
        c: &[Leg(1, S, D)],
    },
];

/// "Method 17 is −F until NOT rises, then +S until NOT drops"; and later: "A leg of request (i) that awaits that limit's rise
/// ends by it being on, with no movement needed; a drop is unchanged."
const METHOD_17: &[Leg] = &[Leg(-1, F, L), Leg(1, S, NOT_D)];

/// "Method 1 is 17 with a third leg, +S until Z rises."
const METHOD_1: &[Leg] = &[Leg(-1, F, L), Leg(1, S, NOT_D), Leg(1, S, Z)];

#[derive(Clone, Copy, Debug, PartialEq, Eq, PartialOrd, Ord)]
pub enum Way {
    A,
    B,
    C,
    /// 17, 18, 1 and 2 with their limit off at the start: every leg.
    OffLimit,
    /// The same with their limit on: "the first leg is skipped".
    OnLimit,
    /// 33, 34 and 35 have one route, whatever HOM says.
    Sole,
}

/// Every method that a sheet may hold.
pub const METHODS: [u32; 15] = [1, 2, 17, 18, 23, 24, 25, 26, 27, 28, 29, 30, 33, 34, 35];

/// Those that home on a limit.
pub const ON_LIMITS: [u32; 4] = [1, 2, 17, 18];

/// Every route there is.
pub fn all_routes() -> Vec<(u32, Way)> {
    let both = METHODS.iter().flat_map(|&method| [false, true].map(|on| (method, on)));
    let mut all: Vec<(u32, Way)> =
        both.flat_map(|(method, on)| routes(method, on).into_iter().map(move |route| (method, route.way))).collect();
    all.dedup(); // a sole route is allowed either way
    all
}

/// The legs of one of them; none where there is no such route.
pub fn legs(method: u32, way: Way) -> Vec<Leg> {
    let mut both = [false, true].into_iter().flat_map(|on| routes(method, on));
    both.find(|route| route.way == way).map(|route| route.legs().collect()).unwrap_or_default()
}

/// Every leg that a limit ends with an error, by its place in its route: all but a's first, which it moves to b's second, and
/// those that await it.
pub fn failing_legs() -> Vec<(u32, Way, usize)> {
    let fails_at_once = |way| matches!(way, Way::C | Way::OnLimit | Way::Sole);
    let places = |(method, way)| (0..legs(method, way).len()).map(move |place| (method, way, place));
    all_routes().into_iter().flat_map(places).filter(|&(_, way, place)| place > 0 || fails_at_once(way)).collect()
}

#[derive(Clone, Copy)]
pub struct Route {
    pub way: Way,
    legs: &'static [Leg],
    /// -1 for 27 to 30: "23 to 26 with signs turned and NOT for POT"; and for 18 and 2, which "turn the signs and use POT".
    turn: i32,
    /// For b: the event of a's first leg, which would make it route a.
    instead: Option<Event>,
}

/// The switch whose level in the start tick, and in no other, says which routes are allowed.
pub fn decider(method: u32) -> Option<Switch> {
    match method {
        17 | 1 => Some(Switch::Not),
        18 | 2 => Some(Switch::Pot),
        23..=30 => Some(Switch::Hom),
        _ => None,
    }
}

/// "a route that the start tick's switches allow: for 23 to 30, a or b with HOM off, c with it on"; for 17 and 1 "with NOT on
/// at the start, the first leg is skipped", for 18 and 2 with POT. Asked with the level of the method's decider.
pub fn routes(method: u32, on: bool) -> Vec<Route> {
    let only = |way, legs, turn| vec![Route { way, legs, turn, instead: None }];
    let sole = |legs| only(Way::Sole, legs, 1);
    let limit = |legs: &'static [Leg], turn| match on {
        true => only(Way::OnLimit, &legs[1..], turn),
        false => only(Way::OffLimit, legs, turn),
    };
    match method {
        17 => limit(METHOD_17, 1),
        1 => limit(METHOD_1, 1),
        18 => limit(METHOD_17, -1),
        2 => limit(METHOD_1, -1),
        33 => sole(&[Leg(-1, S, Z)]),
        34 => sole(&[Leg(1, S, Z)]),
        35 => sole(&[]),
        _ => {
            let row = &TABLE[(method - 23) as usize % 4];
            let turn = if method < 27 { 1 } else { -1 };
            let route = |way, legs, instead| Route { way, legs, turn, instead };
            if on {
                vec![route(Way::C, row.c, None)]
            } else {
                vec![route(Way::A, row.a, None), route(Way::B, row.b, Some(row.a[0].2))]
            }
        }
    }
}

/// What homing looks at in one tick that was not refused.
#[derive(Clone, Copy, Debug)]
pub struct Moment {
    pub control: ControlWord,
    pub switches: Switches,
    pub position: i32,
    /// Homing is matched and the new state is Operation enabled.
    pub may_home: bool,
}

impl Moment {
    /// "A later tick with bit 4 clear, homing not matched or another state makes homing idle."
    fn idles(&self) -> bool {
        !self.control.has(HOMING_START) || !self.may_home
    }
}

/// A tick after the start, and the one before it, which is remembered.
#[derive(Clone, Copy, Debug)]
struct Step {
    before: Moment,
    now: Moment,
}

/// The ticks since the latest homing start. One that leaves the reading as it was ends no stretch, so no later reading needs
/// it but as the tick before: such ticks are left out, and a long run is read as fast as a short one.
#[derive(Clone, Debug)]
pub struct Record {
    start: Moment,
    steps: Vec<Step>,
    last: Moment,
}

impl Record {
    pub fn begin(start: Moment) -> Record {
        Record { start, steps: Vec::new(), last: start }
    }

    pub fn add(&mut self, method: u32, now: Moment) {
        let reading = read(method, self);
        self.steps.push(Step { before: self.last, now });
        if read(method, self) == reading {
            self.steps.pop();
        }
        self.last = now;
    }
}

impl Leg {
    /// "position minus remembered position, taken modulo 2^32 and read as signed, has the leg's sign"
    fn moves(&self, before: &Moment, now: &Moment) -> bool {
        now.position.wrapping_sub(before.position).signum() == self.0
    }

    /// The limit in travel direction.
    pub fn limit(&self) -> Switch {
        match self.0 {
            1 => Switch::Pot,
            _ => Switch::Not,
        }
    }

    /// The other one.
    pub fn behind(&self) -> Switch {
        turned(self.limit())
    }

    /// "whenever it is on": be it that it was on all the time, or came on during halt.
    fn meets_limit(&self, now: &Moment) -> bool {
        now.switches.on(self.limit())
    }

    /// The switch that the event is about, and its level then.
    pub fn awaits(&self) -> (Switch, bool) {
        match self.2 {
            Event::Rises(switch) => (switch, true),
            Event::Drops(switch) => (switch, false),
            L => (self.limit(), true),
        }
    }

    fn event_counts(&self, before: &Moment, now: &Moment) -> bool {
        let (switch, level) = self.awaits();
        match self.2 {
            L => self.meets_limit(now),
            _ => now.switches.turned(&before.switches, switch, level) && self.moves(before, now),
        }
    }

    pub fn signed_speed(&self, sheet: &Sheet) -> i32 {
        match self.1 {
            F => self.0 * sheet.fast(),
            S => self.0 * sheet.slow(),
        }
    }
}

/// What can end a stretch.
enum Ending {
    Event,
    Idled,
    Error,
    AnotherRoute,
}

#[derive(Clone, Copy, Debug, PartialEq, Eq)]
pub enum Homing {
    Idle,
    Runs { leg: Leg, way: Way, place: usize },
    Error,
    Homed { home: i32, way: Way },
}

impl Route {
    pub fn legs(&self) -> impl Iterator<Item = Leg> {
        let turn = self.turn;
        self.legs.iter().map(move |&Leg(direction, speed, event)| match turn {
            1 => Leg(direction, speed, event),
            _ => Leg(-direction, speed, event.turned()),
        })
    }

    /// What a tick means in the stretch of the leg at this place. The tick before it is the remembered one.
    fn ending(&self, place: usize, leg: &Leg, before: &Moment, now: &Moment) -> Option<Ending> {
        if now.idles() {
            return Some(Ending::Idled);
        }
        if now.control.has(HALT) {
            return None; // "With bit 8 (halt) set nothing counts."
        }
        // "b's first [stretch] has no counting event of a's first leg"
        if let (0, Some(event)) = (place, self.instead) {
            if Leg(leg.0, leg.1, event).event_counts(before, now) {
                return Some(Ending::AnotherRoute);
            }
        }
        // "The leg's event is tried first; if it counts, no limit is looked at in that tick." The awaited limit is an event.
        if leg.event_counts(before, now) {
            return Some(Ending::Event);
        }
        if leg.meets_limit(now) {
            // A's first stretch has no counting limit before its end.
            let first_of_a = place == 0 && self.way == Way::A;
            return Some(if first_of_a { Ending::AnotherRoute } else { Ending::Error });
        }
        None
    }

    /// Cuts the ticks after the start into one stretch a leg, each ending at its first counting event. Nothing is returned
    /// where the ticks are those of another route.
    fn cut(&self, record: &Record) -> Option<Homing> {
        let mut home = record.start.position;
        let mut steps = record.steps.iter(); // the start tick "counts no event", and a limit counts "after the start tick"
        for (place, leg) in self.legs().enumerate() {
            let stretch = steps.find_map(|Step { before, now }| Some((now, self.ending(place, &leg, before, now)?)));
            match stretch {
                None => return Some(Homing::Runs { leg, way: self.way, place }),
                Some((now, Ending::Event)) => home = now.position,
                Some((_, Ending::Idled)) => return Some(Homing::Idle),
                Some((_, Ending::Error)) => return Some(Homing::Error),
                Some((_, Ending::AnotherRoute)) => return None,
            }
        }
        Some(Homing::Homed { home, way: self.way }) // "ticks after the last event undo nothing"
    }
}

/// The reading of the ticks since the latest homing start. What first happens in the first stretch is either a's or b's, so one
/// of the two always fits.
pub fn read(method: u32, record: &Record) -> Homing {
    let on = decider(method).is_some_and(|switch| record.start.switches.on(switch));
    let reading = routes(method, on).iter().find_map(|route| route.cut(record));
    reading.expect("the ticks are those of one of the routes allowed")
}
