//! Scenes about homing: each route played to its end, with noise that must not count, the limits in every leg, and the ways it
//! can go wrong.

use std::io::Write;

use super::sheets::sheet_s;
use super::Script;
use crate::drive_state::DriveState::*;
use crate::homing::{all_routes, decider, failing_legs, legs, Event, Leg, Way, ON_LIMITS};
use crate::tick::{Switch, Switches};
use crate::writer::Settings;

#[derive(Clone, Copy)]
pub(super) enum Interruption {
    BitFourDropped,
    Rest,
    OtherModeMoving,
    OtherModeStill,
    /// A drive command that leaves Operation enabled.
    Drive(u16),
    Alarm,
    Halt,
}

pub(super) const INTERRUPTIONS: [Interruption; 10] = [
    Interruption::BitFourDropped,
    Interruption::Rest,
    Interruption::OtherModeMoving,
    Interruption::OtherModeStill,
    Interruption::Drive(0x0017),
    Interruption::Drive(0x0016),
    Interruption::Drive(0x0012),
    Interruption::Drive(0x0010),
    Interruption::Alarm,
    Interruption::Halt,
];

/// Whether the method's decider is on in the start tick.
fn starts_on(way: Way) -> bool {
    matches!(way, Way::C | Way::OnLimit)
}

/// The switches of a start tick that allows this way, with these limits on beside.
pub(super) fn start_on(method: u32, way: Way, limits: impl IntoIterator<Item = Switch>) -> Switches {
    let mut switches = Switches::default();
    for limit in limits {
        switches.turn(limit, true);
    }
    if let Some(decider) = decider(method) {
        switches.turn(decider, starts_on(way));
    }
    switches
}

impl<W: Write> Script<W> {
    /// Moves with this sign, mostly a little, at times half way round the counts.
    pub(super) fn move_by(&mut self, sign: i32) {
        let little = self.random.between(1, 20) as i32;
        let size = match (self.random.between(0, 29), sign) {
            (0, -1) => i32::MIN,
            (0, 1) => i32::MAX,
            (1, _) => sign * 1_000_000,
            _ => sign * little,
        };
        self.now.position = self.now.position.wrapping_add(size);
    }

    fn turn(&mut self, switch: Switch) {
        let on = self.now.switches.on(switch);
        self.now.switches.turn(switch, !on);
    }

    /// A sheet with this method, then bit 4 rises. The limit ahead of the first leg may be on in that
    /// tick, but no longer in the next.
    fn start(&mut self, method: u32, way: Way) {
        self.start_under(&Settings { method: i64::from(method), ..sheet_s() }, way);
    }

    fn start_under(&mut self, settings: &Settings, way: Way) {
        self.take_over_like(settings);
        let method = settings.method as u32;
        let (decider, on) = (decider(method), starts_on(way));
        self.now.position = self.random.pick(&[100, 0, -5000, i32::MAX - 3, i32::MIN + 3, i32::MAX, i32::MIN]);
        self.now.switches = Default::default();
        let level = on != self.random.once_in(3);
        self.now.switches.turn(decider.unwrap_or(Switch::Hom), level);
        // Only the decider in the start tick itself matters; what is on, rises or drops there is no event.
        let mut switches = self.now.switches;
        if self.random.once_in(3) {
            for switch in [Switch::Pot, Switch::Not, Switch::Hom, Switch::Z] {
                let level = self.random.once_in(2);
                switches.turn(switch, level);
            }
        }
        if let Some(decider) = decider {
            switches.turn(decider, on);
        }
        self.start_with(switches);
        if let Some(&first) = legs(method, way).first() {
            self.keep_off(first);
        }
    }

    /// These settings, or their method with any others.
    fn take_over_like(&mut self, settings: &Settings) {
        let mut settings = settings.clone();
        if self.random.once_in(2) {
            let method = settings.method;
            settings = Settings { method, ..self.any_settings() };
        }
        self.take_over(&settings);
    }

    /// Enabled, homing matched, bit 4 clear; then it is set with these switches.
    pub(super) fn start_with(&mut self, switches: Switches) {
        self.now.command = "homing 100".to_string();
        self.reach(OperationEnabled);
        self.tick_with(0x000F, "homing 100", true);
        self.now.switches = switches;
        let sign = self.random.between(-1, 1) as i32;
        self.move_by(sign);
        let halted = self.random.once_in(8);
        let still = self.random.once_in(2);
        self.tick_with(if halted { 0x011F } else { 0x001F }, "homing 100", still);
        self.now.control = 0x001F;
    }

    /// The limit ahead counts whenever it is on, so it must be off in the next tick.
    fn keep_off(&mut self, leg: Leg) {
        self.now.switches.turn(leg.limit(), false);
    }

    /// A tick that must not count in this leg.
    fn noise(&mut self, leg: Leg) {
        self.now.still = self.random.once_in(4);
        self.keep_off(leg);
        match self.random.between(0, 6) {
            0 => {
                let sign = self.random.between(-1, 1) as i32;
                self.move_by(sign);
                self.tick();
            }
            1 => {
                // The event, but coasting the other way or standing.
                let sign = self.random.pick(&[0, -leg.0]);
                self.move_by(sign);
                self.turn(Switch::Hom);
                self.turn(Switch::Z);
                self.tick();
            }
            2 => self.miss_halted(leg),
            3 => {
                // The limit, but halted.
                self.now.switches.turn(leg.limit(), true);
                self.halted_tick();
            }
            4 => {
                // The limit behind, without movement or coasting: it may be the one whose drop is awaited.
                let sign = self.random.pick(&[0, -leg.0]);
                self.move_by(sign);
                self.turn(leg.behind());
                self.tick();
            }
            5 => {
                // Movement along the leg, and a switch that it does not await: HOM plays no part where Z or a limit is awaited,
                // but in b's first leg it would make it route a.
                self.move_by(leg.0);
                let limit_sheet = self.axis().sheet().is_some_and(|sheet| ON_LIMITS.contains(&sheet.method()));
                let heeds_hom = leg.awaits().0 == Switch::Hom || leg.2 == Event::LimitOn && !limit_sheet;
                self.turn(if heeds_hom { Switch::Z } else { Switch::Hom });
                self.tick();
            }
            _ => self.tick(),
        }
    }

    pub(super) fn halted_tick(&mut self) {
        self.now.control = 0x011F;
        self.tick();
        self.now.control = 0x001F;
    }

    /// Turns the leg's switch so that its event can come. The turn itself is no event of this leg.
    fn ready_for(&mut self, leg: Leg) {
        self.keep_off(leg);
        let (switch, level) = leg.awaits();
        if self.now.switches.on(switch) == level {
            self.turn(switch);
            let sign = self.random.between(-1, 1) as i32;
            self.move_by(sign);
            self.tick();
        }
    }

    fn flip(&mut self, leg: Leg) {
        let (switch, level) = leg.awaits();
        self.now.switches.turn(switch, level);
    }

    /// The event, but halted.
    fn miss_halted(&mut self, leg: Leg) {
        self.ready_for(leg);
        self.move_by(leg.0);
        self.flip(leg);
        self.halted_tick();
    }

    /// The movement with which the leg's event counts.
    fn move_for(&mut self, leg: Leg) {
        let sign = if leg.2 == Event::LimitOn { self.random.pick(&[0, 0, 1, -1]) } else { leg.0 };
        self.move_by(sign);
    }

    /// The leg's event, as soon as it can be.
    fn pass(&mut self, leg: Leg) {
        self.ready_for(leg);
        self.move_for(leg);
        self.flip(leg);
        self.tick();
    }

    /// Noise, then the leg's event; at times the limit or Z rises in the same tick, which nobody looks at, or the awaited limit
    /// came on in halt.
    pub(super) fn leg(&mut self, leg: Leg) {
        for _ in 0..self.random.between(0, 2) {
            self.noise(leg);
        }
        self.ready_for(leg);
        if leg.2 == Event::LimitOn && self.random.once_in(4) {
            self.flip(leg);
            self.halted_tick();
        }
        self.move_for(leg);
        self.flip(leg);
        if self.random.once_in(5) {
            self.now.switches.turn(leg.limit(), true);
        }
        self.now.switches.z |= self.random.once_in(4);
        self.tick();
    }

    pub(super) fn home(&mut self, method: u32, way: Way) {
        self.start(method, way);
        for leg in legs(method, way) {
            self.leg(leg);
        }
        // Nothing undoes it: neither more events, nor bit 4, nor another mode.
        self.now.switches = Default::default();
        for (control, command, still) in
            [(0x001F, "homing 1", false), (0x000F, "homing 1", false), (0x000F, "position 5 10", true)]
        {
            self.tick_with(control, command, still);
        }
        if self.random.once_in(4) {
            self.tick_with(0x001F, "homing 1", true); // a new start clears homed
        }
    }

    /// 17, 18, 1 and 2: started as their limit rises, then as it drops, for the start tick's level alone is looked at. The first
    /// leg is ended by the limit without movement, coasting, along, and since halt. Then each leg's switch turns as it must not
    /// count: without movement, coasting, halted; HOM turns on the way along. Only then comes the event, and with it a rise of Z,
    /// which is used up.
    pub(super) fn miss(&mut self, method: u32) {
        self.start(method, Way::OffLimit);
        let legs = legs(method, Way::OffLimit);
        let (first, limit) = (legs[0], legs[0].limit());
        self.tick_with(0x000F, "homing 100", true);
        self.now.switches.turn(limit, true);
        self.tick_with(0x001F, "homing 100", false);
        for (sign, halted) in [(first.0, false), (0, true), (-first.0, false), (0, false)] {
            self.tick_with(0x000F, "homing 100", true);
            self.now.switches.turn(limit, false);
            self.tick_with(0x001F, "homing 100", false);
            if halted {
                self.miss_halted(first);
                self.keep_off(first);
                self.tick();
                self.miss_halted(first);
            }
            self.move_by(sign);
            self.now.switches.turn(limit, true);
            self.tick();
        }
        for &leg in &legs[1..] {
            for sign in [0, -leg.0] {
                self.ready_for(leg);
                self.move_by(sign);
                self.flip(leg);
                self.tick();
            }
            self.miss_halted(leg);
            self.turn(Switch::Hom);
            self.now.switches.z = false;
            self.move_by(leg.0);
            self.tick();
            self.ready_for(leg);
            self.move_by(leg.0);
            self.flip(leg);
            self.now.switches.z = true;
            self.tick();
        }
    }

    /// The limits under one sheet: each leg begins with its limit on, and so it fails, or turns, or its event comes first.
    pub(super) fn limits(&mut self, method: u32) {
        self.take_over_like(&Settings { method: i64::from(method), ..sheet_s() });
        for (_, way) in all_routes().into_iter().filter(|route| route.0 == method) {
            self.outrun(method, way);
            let mut places: Vec<usize> =
                failing_legs().into_iter().filter(|leg| (leg.0, leg.1) == (method, way)).map(|leg| leg.2).collect();
            if way == Way::A {
                places.insert(0, 0);
            }
            for &place in &places {
                self.hold(method, way, place);
            }
            let place = if way == Way::A { 0 } else { self.random.pick(&places) };
            self.let_go(method, way, place);
            self.leave(method, way);
        }
    }

    /// Both limits on wherever they can be: each leg's event comes in a tick with its limit on, in the leg's first tick if the
    /// awaited switch stands right.
    fn outrun(&mut self, method: u32, way: Way) {
        self.start_with(start_on(method, way, [Switch::Pot, Switch::Not]));
        for leg in legs(method, way) {
            let (switch, level) = leg.awaits();
            if leg.2 != Event::LimitOn && self.now.switches.on(switch) == level {
                self.ready_for(leg);
            }
            self.move_for(leg);
            self.now.switches.pot = true;
            self.now.switches.not = true;
            self.flip(leg);
            self.tick();
        }
    }

    /// Plays up to the leg at this place, which begins with its limit on. Where it lay behind in the leg before, it is on all
    /// along there.
    fn begin_on_limit(&mut self, method: u32, way: Way, place: usize) {
        let legs = legs(method, way);
        let ahead = legs[place].limit();
        let from_start = place == 0 || place == 1 && legs[0].behind() == ahead;
        self.start_with(start_on(method, way, from_start.then_some(ahead)));
        for (at, &leg) in legs[..place].iter().enumerate() {
            if at == 0 && from_start {
                self.move_by(leg.0);
                self.tick();
            }
            self.ready_for(leg);
            self.move_for(leg);
            self.flip(leg);
            if at + 1 == place {
                self.now.switches.turn(ahead, true);
            }
            self.tick();
        }
    }

    /// The leg begins with its limit on, and it stays on.
    pub(super) fn hold(&mut self, method: u32, way: Way, place: usize) {
        self.begin_on_limit(method, way, place);
        if self.random.once_in(4) {
            self.halted_tick();
        }
        self.meet(method, way, place);
    }

    /// The leg begins with its limit on, but it goes off; then it comes on again, in halt or not.
    fn let_go(&mut self, method: u32, way: Way, place: usize) {
        self.begin_on_limit(method, way, place);
        let leg = legs(method, way)[place];
        self.keep_off(leg);
        let sign = self.random.between(-1, 1) as i32;
        self.move_by(sign);
        self.tick();
        self.now.switches.turn(leg.limit(), true);
        // Of the first legs of a, half turn since halt for sure.
        if self.random.once_in(2) || way == Way::A && method.is_multiple_of(2) {
            self.halted_tick();
        }
        self.meet(method, way, place);
    }

    /// A tick in this leg that counts the limit: a's first leg turns, any other fails. At times it is played on, to b's end or
    /// in vain.
    fn meet(&mut self, method: u32, way: Way, place: usize) {
        let sign = self.random.between(-1, 1) as i32;
        self.move_by(sign);
        self.tick();
        let turned = way == Way::A && place == 0;
        if self.random.once_in(if turned { 2 } else { 6 }) {
            let rest = if turned { legs(method, Way::B).split_off(1) } else { legs(method, way).split_off(place) };
            for leg in rest {
                self.pass(leg);
            }
        }
    }

    /// Away from the limit: in a route of one leg, the one behind is on all along.
    fn leave(&mut self, method: u32, way: Way) {
        if let [leg] = legs(method, way)[..] {
            self.start_with(start_on(method, way, [leg.behind()]));
            self.move_by(leg.0);
            self.tick();
            self.pass(leg);
        }
    }

    /// A sheet with this method and a start, then a homing error.
    pub(super) fn fail(&mut self, method: u32, way: Way) {
        self.take_over_like(&Settings { method: i64::from(method), ..sheet_s() });
        self.hold(method, way, 0);
    }

    /// Homing cut off in the midst; the rest of the legs is played in vain, for bit 4 does not rise again. A halt only
    /// makes it wait.
    pub(super) fn interrupt(&mut self, interruption: Interruption) {
        let routes = all_routes();
        let (method, way) = self.random.pick(&routes[..routes.len() - 1]); // the last is that of 35, which has no leg
        let legs = legs(method, way);
        self.start_under(&Settings { method: i64::from(method), quick_stop_option: 6, ..sheet_s() }, way);
        let cut = self.random.between(0, legs.len() as i64 - 1) as usize;
        for &leg in &legs[..cut] {
            self.leg(leg);
        }
        match interruption {
            Interruption::BitFourDropped => self.tick_with(0x000F, "homing 3", false),
            Interruption::Rest => self.tick_with(0x001F, "rest", false),
            Interruption::OtherModeMoving => self.tick_with(0x001F, "torque 30", false),
            Interruption::OtherModeStill => {
                self.tick_with(0x001F, "torque 30", true);
                self.tick_with(0x001F, "homing 3", false);
            }
            Interruption::Drive(control) => self.tick_with(control, "homing 3", false),
            Interruption::Alarm => {
                self.now.alarm = 0x0004_0000;
                self.tick_with(0x001F, "homing 3", false);
                self.now.alarm = 0;
            }
            Interruption::Halt => {
                for _ in 0..3 {
                    self.halted_tick();
                }
                self.keep_off(legs[cut]);
            }
        }
        self.tick_with(0x001F, "homing 3", true);
        for &leg in &legs[cut..] {
            self.leg(leg);
        }
        self.tick_with(0x000F, "position 0 0", true);
    }

    /// Without movement no Z counts; a movement of 2^31 reads as one in minus direction, whichever way it went.
    pub(super) fn half_turn(&mut self) {
        for method in [34, 33] {
            self.start(method, Way::Sole);
            for z in [false, true, false] {
                self.now.switches.z = z;
                self.tick();
            }
            self.now.position = self.now.position.wrapping_add(i32::MIN);
            self.now.switches.z = true;
            self.tick();
        }
    }

    /// Bit 4 in ways that start nothing: not enabled, not matched, held.
    pub(super) fn start_in_vain(&mut self) {
        self.take_over(&Settings { method: 35, ..sheet_s() });
        self.reach(SwitchedOn);
        self.tick_with(0x0017, "homing 0", true);
        self.tick_with(0x001F, "homing 0", true);
        self.tick_with(0x001F, "homing 0", false);
        self.tick_with(0x000F, "torque 0", true);
        self.tick_with(0x001F, "homing 0", false);
        self.tick_with(0x001F, "homing 0", true);
        self.tick_with(0x000F, "homing 0", true);
        self.tick_with(0x0112, "homing 0", true);
        self.tick_with(0x0000, "homing 0", true);
        self.reach(SwitchedOn);
        self.tick_with(0x011F, "homing 0", true); // enabled and started in one tick, halted: 35 is homed all the same
    }
}
