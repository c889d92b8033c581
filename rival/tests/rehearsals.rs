//! What homing can't know: under sheets that differ only in gear, offset and stops, ticks without position command are answered
//! alike. Asked of generated text, and of axes directly.

use std::collections::BTreeSet;

use rival::axis::Axis;
use rival::command::Command;
use rival::control_word::ControlWord;
use rival::drive_state::DriveState::{self, *};
use rival::homing::{all_routes, legs, Homing, Leg, Way, METHODS};
use rival::hybrid::Hybrid;
use rival::lines::{next_text, read, Line};
use rival::program::Program;
use rival::random::Random;
use rival::script::{is_acceptable, sheet_s, Script};
use rival::sheet::{LimitSet, Sheet, LONGEST};
use rival::tally::Tally;
use rival::tick::{Answer, Switches, Tick};
use rival::writer::Settings;

type Field = fn(&mut Settings) -> &mut i64;

/// The five that homing cannot know.
const UNKNOWN: [(&str, Field); 5] = [
    ("numerator", |s| &mut s.numerator),
    ("denominator", |s| &mut s.denominator),
    ("offset", |s| &mut s.offset),
    ("lower stop", |s| &mut s.lower_stop),
    ("upper stop", |s| &mut s.upper_stop),
];

/// The others.
const KNOWN: [(&str, Field); 11] = [
    ("method", |s| &mut s.method),
    ("fast", |s| &mut s.fast),
    ("slow", |s| &mut s.slow),
    ("maximum torque", |s| &mut s.maximum_torque),
    ("positive limit 1", |s| &mut s.positive_1),
    ("negative limit 1", |s| &mut s.negative_1),
    ("positive limit 2", |s| &mut s.positive_2),
    ("negative limit 2", |s| &mut s.negative_2),
    ("quick stop option", |s| &mut s.quick_stop_option),
    ("rated torque", |s| &mut s.rated_torque),
    ("homing torque", |s| &mut s.homing_torque),
];

/// All that a sheet says but for the five.
fn known(sheet: &Sheet) -> impl PartialEq + std::fmt::Debug {
    let limits = [LimitSet::Set1, LimitSet::Set2].map(|set| [sheet.positive_limit(set), sheet.negative_limit(set)]);
    let torques = [sheet.maximum_torque(), sheet.homing_torque()];
    (sheet.method(), sheet.fast(), sheet.slow(), limits, torques, sheet.quick_stop_option(), sheet.rated_torque())
}

/// Drive state, shown mode, alarm number and the remembered control word.
fn situation(axis: &Axis) -> (DriveState, i8, u32, ControlWord) {
    (axis.state(), axis.shown_mode(), axis.alarm_number(), axis.remembered())
}

/// What a script says from a takeover on: each tick, written out, with its answer.
struct Half {
    sheet: Sheet,
    situation: (DriveState, i8, u32, ControlWord),
    ticks: Vec<(String, bool, String)>,
    words: usize,
}

fn generated(seed: u64) -> Vec<u8> {
    let mut script = Vec::new();
    Script::new(seed, 5, &mut script).write_rehearsals().expect("memory takes all bytes");
    script
}

/// The last two takeovers of a generated script.
fn halves(seed: u64) -> (Half, Half) {
    let script = generated(seed);
    let (mut program, mut input) = (Program::default(), &script[..]);
    let mut halves: Vec<Half> = Vec::new();
    while let Some(text) = next_text(&mut input).expect("bytes in memory can be read") {
        let line = read(&text);
        let answer = program.answer_read(&line).unwrap_or_default();
        match (&line, halves.last_mut()) {
            (Ok(Line::Word(word)), _) if word >> 28 == 15 && answer == "word 0" => {
                let sheet = *program.axis().sheet().expect("an end word was accepted");
                halves.push(Half { sheet, situation: situation(program.axis()), ticks: Vec::new(), words: 0 });
            }
            (Ok(Line::Word(_)), Some(half)) => half.words += 1,
            (Ok(Line::Tick(tick)), Some(half)) => {
                let is_position = matches!(tick.command, Command::Position { .. });
                half.ticks.push((format!("{tick:?}"), is_position, answer));
            }
            _ => {}
        }
    }
    let second = halves.pop().expect("there are two");
    (halves.pop().expect("there are two"), second)
}

#[test]
fn generated_rehearsals() {
    let (mut homed, mut errors, mut faults, mut differ, mut first_alone, mut second_alone) = (0, 0, 0, 0, 0, 0);
    for seed in 0..600 {
        let (first, second) = halves(seed);
        assert_eq!(known(&first.sheet), known(&second.sheet), "{seed}");
        assert_ne!(first.sheet, second.sheet, "{seed}");
        assert_eq!(first.situation, second.situation, "{seed}");
        // The first goes on with ticks that lead to the second.
        assert!(first.ticks.len() >= second.ticks.len(), "{seed}");
        let mut followed = false;
        for (place, (one, two)) in first.ticks.iter().zip(&second.ticks).enumerate() {
            assert_eq!(one.0, two.0, "{seed}, tick {place}");
            followed |= two.1;
            assert!(followed || one.2 == two.2, "{seed}, tick {place}:\n{}\n{}", one.2, two.2);
        }
        let shows = |what: &str| usize::from(second.ticks.iter().any(|(_, _, answer)| answer.contains(what)));
        homed += shows("status 1737");
        errors += shows("status 2637") | shows("status 2E37");
        faults += shows("status 020F");
        differ += usize::from(first.ticks.iter().zip(&second.ticks).any(|(one, two)| one.2 != two.2));
        // The first half's time lasts until the second sheet's end word, so that sheet's other words are heard in it.
        first_alone += usize::from(first.words >= LONGEST && second.words == 0);
        second_alone += usize::from(first.words < LONGEST && second.words > 0);
    }
    let reached = [homed, errors, faults, differ, first_alone, second_alone];
    assert!(reached.iter().all(|&times| times > 30), "{reached:?}");
}

#[test]
fn the_tally_sees_them() {
    let mut tally = Tally::default();
    for seed in 0..300 {
        generated(seed).split_inclusive(|&byte| byte == b'\n').for_each(|line| tally.line(line));
    }
    let rehearsals: Vec<(String, u64)> = tally.table().into_iter().filter(|(name, _)| name.starts_with("rehearsals")).collect();
    assert!(!rehearsals.is_empty());
    for (name, count) in rehearsals {
        assert!(count > 0, "{name}");
    }
}

/// Now a usual value, now an edge, now any.
fn any_settings(random: &mut Random) -> Settings {
    loop {
        let torque = |random: &mut Random| {
            let any = random.between(0, 3000);
            random.pick(&[1000, 3000, any])
        };
        let mut settings = Settings {
            method: i64::from(random.pick(&METHODS)),
            fast: random.pick(&[20000, 1, (1 << 28) - 1]),
            slow: random.pick(&[1000, 7, (1 << 28) - 1]),
            maximum_torque: torque(random),
            positive_1: torque(random),
            negative_1: torque(random),
            positive_2: torque(random),
            negative_2: torque(random),
            quick_stop_option: random.pick(&[2, 6]),
            rated_torque: random.pick(&[1, 2000, 12345, 1 << 24]),
            homing_torque: torque(random),
            ..sheet_s()
        };
        for (name, field) in UNKNOWN {
            *field(&mut settings) = any_unknown(random, name);
        }
        if is_acceptable(&settings) {
            return settings;
        }
    }
}

fn any_unknown(random: &mut Random, name: &str) -> i64 {
    if name == "numerator" || name == "denominator" {
        let any = random.between(1, 1 << 20);
        return random.pick(&[1, 2, 3, 1000, any, 1 << 20]);
    }
    let width = random.pick(&[50, 100_000, 1 << 27, (1 << 31) - 1]);
    random.between(-width, width)
}

/// Settings that differ in one of the five, or in any of them.
fn two_settings(random: &mut Random, only: Option<usize>) -> (Settings, Settings) {
    loop {
        let first = any_settings(random);
        let mut second = first.clone();
        for (place, (name, field)) in UNKNOWN.into_iter().enumerate() {
            if only.map_or_else(|| random.once_in(2), |only| only == place) {
                let near = *field(&mut second) + random.between(-3, 3);
                *field(&mut second) = if random.once_in(3) { near } else { any_unknown(random, name) };
            }
        }
        if is_acceptable(&second) && first != second {
            return (first, second);
        }
    }
}

fn axis_under(settings: &Settings) -> Axis {
    let mut axis = Axis::default();
    take_over(&mut axis, settings);
    axis
}

fn take_over(axis: &mut Axis, settings: &Settings) {
    for word in settings.words(3).expect("the settings are in range") {
        assert_eq!(axis.word(word), Ok(()), "{settings:?}");
    }
}

fn rest() -> Tick {
    Tick {
        control: ControlWord(0),
        command: Command::Rest,
        position: 0,
        switches: Switches::default(),
        standstill: false,
        limit_set: LimitSet::Set1,
        alarm: 0,
    }
}

fn any_float(random: &mut Random) -> f32 {
    let tenths = random.between(-30, 30) as f32 / 10.0;
    let any = if random.once_in(9) { f32::from_bits(random.bits() as u32) } else { 1.0 };
    random.pick(&[0.0, 0.0, 0.0, tenths, tenths, tenths, any])
}

/// Any command but position.
fn any_command(random: &mut Random) -> Command {
    let request = random.pick(&[32767, -32768, 700, -700, 5]);
    match random.between(0, 9) {
        0 => Command::Rest,
        1 => Command::Torque { request },
        2 => {
            let [kp, kd, pd, vd, t, p, v] = std::array::from_fn(|_| any_float(random));
            Command::Hybrid(Hybrid { kp, kd, pd, vd, t, p, v })
        }
        _ => Command::Homing { request },
    }
}

/// Any tick without position command after this one. Mostly it goes on towards homed, as this axis would have it.
fn any_tick(random: &mut Random, axis: &Axis, last: &Tick) -> Tick {
    let mut tick = Tick { command: any_command(random), alarm: 0, ..*last };
    tick.standstill = random.once_in(2);
    tick.limit_set = random.pick(&[LimitSet::Set1, LimitSet::Set2]);
    tick.control = ControlWord(match axis.state() {
        _ if random.once_in(12) => random.bits() as u16,
        NotReady | FaultReaction => 0x0000,
        Fault => random.pick(&[0x0000, 0x0080]),
        SwitchOnDisabled => 0x0006,
        OperationEnabled if random.once_in(15) => random.pick(&[0x0002, 0x0006, 0x0007, 0x0000]),
        OperationEnabled if random.once_in(8) => 0x011F,
        OperationEnabled if matches!(axis.homing(), Homing::Runs { .. }) && !random.once_in(20) => 0x001F,
        OperationEnabled => random.pick(&[0x000F, 0x001F]),
        QuickStopActive => random.pick(&[0x0002, 0x000F, 0x0080]),
        Ready | SwitchedOn => 0x000F,
    });
    if random.once_in(50) {
        tick.alarm = random.bits() as u32 & random.bits() as u32;
    }
    let step = random.between(-9, 9) as i32;
    tick.position = if random.once_in(20) { random.bits() as i32 } else { tick.position.wrapping_add(step) };
    for switch in [&mut tick.switches.hom, &mut tick.switches.z] {
        *switch ^= random.once_in(5);
    }
    for limit in [&mut tick.switches.pot, &mut tick.switches.not] {
        *limit = random.once_in(if *limit { 2 } else { 15 });
    }
    if let Homing::Runs { leg, .. } = axis.homing() {
        if !random.once_in(4) {
            help(leg, last, &mut tick);
        }
    }
    tick
}

/// The leg's event, or the turn that must come before it.
fn help(leg: Leg, last: &Tick, tick: &mut Tick) {
    let (switch, _) = leg.awaits();
    tick.command = Command::Homing { request: 300 };
    tick.switches.turn(leg.limit(), false);
    tick.switches.turn(switch, !last.switches.on(switch));
    tick.position = last.position.wrapping_add(3 * leg.0);
}

/// What was reached, so that a test that compares nothing does not pass.
#[derive(Default)]
struct Reached {
    states: BTreeSet<DriveState>,
    routes: BTreeSet<(u32, Way)>,
    errors: BTreeSet<u32>,
}

impl Reached {
    fn look(&mut self, axis: &Axis) {
        let method = axis.sheet().map_or(0, |sheet| sheet.method());
        self.states.insert(axis.state());
        match axis.homing() {
            Homing::Homed { way, .. } => _ = self.routes.insert((method, way)),
            Homing::Error => _ = self.errors.insert(method),
            _ => {}
        }
    }

    fn all(&self) {
        assert_eq!(self.states.len(), 7, "{:?}", self.states); // the first tick leads out of Not ready
        assert_eq!(self.routes, all_routes().into_iter().collect());
        assert_eq!(self.errors.len(), METHODS.len() - 1, "{:?}", self.errors); // 35 cannot fail
    }
}

#[test]
fn two_fresh_axes() {
    let random = &mut Random::new(6);
    let mut reached = Reached::default();
    for _ in 0..6000 {
        let (first, second) = two_settings(random, None);
        let (mut one, mut two) = (axis_under(&first), axis_under(&second));
        let mut last = rest();
        for _ in 0..60 {
            let tick = any_tick(random, &one, &last);
            assert_eq!(one.tick(&tick), two.tick(&tick), "{first:?}\n{second:?}\n{tick:?}");
            reached.look(&one);
            last = tick;
        }
    }
    reached.all();
}

/// What (vi) asks of homing: homed, homing error, and which leg runs. Home is not among it, nor the route that the leg is of.
fn progress(axis: &Axis) -> (bool, bool, Option<Leg>) {
    match axis.homing() {
        Homing::Idle => (false, false, None),
        Homing::Runs { leg, .. } => (false, false, Some(leg)),
        Homing::Homed { .. } => (true, false, None),
        Homing::Error => (false, true, None),
    }
}

/// A history of this axis alone, until it is homed, or fails, or, after so many ticks, a leg runs.
fn live_through(random: &mut Random, axis: &mut Axis, goal: usize) {
    let (mut last, many) = (rest(), random.between(5, 25));
    for place in 0..40 {
        last = any_tick(random, axis, &last);
        if goal == 1 && random.once_in(4) {
            (last.switches.pot, last.switches.not) = (true, true);
        }
        axis.tick(&last);
        let (homed, error, leg) = progress(axis);
        if [homed, error, leg.is_some() && place >= many][goal] {
            return;
        }
    }
}

/// Axes that come by histories of their own to what is to be equal: homes may differ, and the routes that a leg is of.
#[test]
fn two_axes_with_a_past() {
    let random = &mut Random::new(60);
    let (mut other_homes, mut errors, mut legs, mut other_routes) = (0, 0, 0, 0);
    for place in 0..12_000 {
        let (first, second) = two_settings(random, None);
        let (mut one, mut two) = (axis_under(&first), axis_under(&second));
        let goal = place % 3;
        live_through(random, &mut one, goal);
        live_through(random, &mut two, goal);
        // A tick in which nothing starts or counts; both remember it.
        let control = ControlWord(if goal == 2 { 0x011F } else { 0x000F });
        let mut last = Tick { control, command: Command::Homing { request: 0 }, ..rest() };
        one.tick(&last);
        two.tick(&last);
        if situation(&one) != situation(&two) || progress(&one) != progress(&two) {
            continue;
        }
        let (homed, error, leg) = progress(&one);
        let otherwise = one.homing() != two.homing();
        other_homes += usize::from(homed && otherwise);
        errors += usize::from(error);
        legs += usize::from(leg.is_some());
        other_routes += usize::from(leg.is_some() && otherwise);
        for _ in 0..20 {
            last = any_tick(random, &one, &last);
            assert_eq!(one.tick(&last), two.tick(&last), "{first:?}\n{second:?}\n{last:?}");
        }
    }
    let reached = [other_homes, errors, legs, other_routes];
    assert!(reached.iter().all(|&times| times > 50), "{reached:?}");
}

/// Why the running leg is enough: legs of one method that are alike are followed by legs that are alike.
#[test]
fn a_leg_tells_the_legs_after_it() {
    for (method, way) in all_routes() {
        for (other_method, other_way) in all_routes() {
            let (ones, twos) = (legs(method, way), legs(other_method, other_way));
            for (place, leg) in ones.iter().enumerate() {
                for (other_place, other) in twos.iter().enumerate() {
                    let alike = method == other_method && leg == other;
                    assert!(!alike || ones[place..] == twos[other_place..], "{method} {way:?} {other_way:?}");
                }
            }
        }
    }
}

/// Both axes homed by the same ticks, if they are; then a target.
fn follow(random: &mut Random, first: &Settings, second: &Settings) -> Option<(Answer, Answer)> {
    let (mut one, mut two) = (axis_under(first), axis_under(second));
    let mut last = rest();
    for _ in 0..60 {
        if matches!(one.homing(), Homing::Homed { .. }) && one.state() == OperationEnabled {
            let places = [first, second].map(|s| [s.lower_stop, s.upper_stop]).concat();
            let target = (random.pick(&places) + random.between(-2, 2)).clamp(i32::MIN.into(), i32::MAX.into()) as i32;
            let command = Command::Position { target, request: 0 };
            let tick = Tick { control: ControlWord(0x000F), command, standstill: true, ..rest() };
            return Some((one.tick(&tick), two.tick(&tick)));
        }
        last = any_tick(random, &one, &last);
        assert_eq!(one.tick(&last), two.tick(&last), "{first:?}\n{second:?}\n{last:?}");
    }
    None
}

#[test]
fn a_followed_target_knows() {
    for (place, (name, _)) in UNKNOWN.into_iter().enumerate() {
        let random = &mut Random::new(place as u64);
        let mut differ = 0;
        for _ in 0..300 {
            let (first, second) = two_settings(random, Some(place));
            differ += usize::from(follow(random, &first, &second).is_some_and(|(one, two)| one != two));
        }
        assert!(differ > 10, "{name}: {differ}");
    }
}

/// Until homed, not even a target knows.
#[test]
fn a_target_that_is_not_followed() {
    let random = &mut Random::new(0);
    for _ in 0..300 {
        let (first, second) = two_settings(random, None);
        let (mut one, mut two) = (axis_under(&first), axis_under(&second));
        for control in [0x0000, 0x0006, 0x000F, 0x000F, 0x001F, 0x0002, 0x0080] {
            let command = Command::Position { target: random.bits() as i32, request: random.bits() as i16 };
            let tick = Tick { control: ControlWord(control), command, position: random.bits() as i32, ..rest() };
            assert_eq!(one.tick(&tick), two.tick(&tick), "{first:?}\n{second:?}\n{tick:?}");
        }
    }
}

/// Every other field is known to homing or torque: answers to ticks without position command differ in some seed.
#[test]
fn what_homing_knows() {
    for (name, field) in KNOWN {
        let random = &mut Random::new(1);
        let mut differ = 0;
        for _ in 0..300 {
            let first = any_settings(random);
            let mut second = first.clone();
            *field(&mut second) = *field(&mut any_settings(random));
            if !is_acceptable(&second) {
                continue;
            }
            let (mut one, mut two) = (axis_under(&first), axis_under(&second));
            let mut last = rest();
            let differs = (0..60).any(|_| {
                last = any_tick(random, &one, &last);
                one.tick(&last) != two.tick(&last)
            });
            assert!(!differs || first != second, "{name}");
            differ += usize::from(differs);
        }
        assert!(differ > 10, "{name}: {differ}");
    }
}

/// One axis, a takeover in between: nothing of the first half is left in the second, where both begin alike.
#[test]
fn one_axis_twice() {
    let random = &mut Random::new(66);
    let mut homed = 0;
    for _ in 0..1000 {
        let (first, second) = two_settings(random, None);
        let (mut axis, mut fresh) = (axis_under(&first), axis_under(&second));
        let leading = [(0x0000, 0), (0x0080, 0), (0x0006, 1)].map(|(control, request)| Tick {
            control: ControlWord(control),
            command: Command::Torque { request },
            ..rest()
        });
        let mut last = rest();
        for _ in 0..60 {
            last = any_tick(random, &axis, &last);
            axis.tick(&last);
        }
        for tick in &leading {
            axis.tick(tick);
            fresh.tick(tick);
        }
        take_over(&mut axis, &second);
        take_over(&mut fresh, &first);
        assert_eq!(situation(&axis), situation(&fresh));
        last = leading[2];
        for _ in 0..60 {
            last = any_tick(random, &axis, &last);
            assert_eq!(axis.tick(&last), fresh.tick(&last), "{first:?}\n{second:?}\n{last:?}");
            homed += usize::from(progress(&axis).0);
        }
    }
    assert!(homed > 1000, "{homed}");
}
