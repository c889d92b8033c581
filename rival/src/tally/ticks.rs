//! Ticks: states, homing, and what is handed out.

use super::{refused, Stretch, Tally};
use crate::axis::Axis;
use crate::command::{Command, HOMING_MODE};
use crate::control_word::{ControlWord, FAULT_RESET, HALT, HOMING_START};
use crate::drive_state::DriveState::{self, *};
use crate::gear;
use crate::homing::{decider, Event, Homing, Leg, Way, ON_LIMITS};
use crate::hybrid::Hybrid;
use crate::sheet::{LimitSet, Sheet};
use crate::tick::{Answer, Switch, Tick};

/// The axis before the tick.
struct Before {
    state: DriveState,
    mode: i8,
    alarm: u32,
    homing: Homing,
    remembered: ControlWord,
}

impl Before {
    fn of(axis: &Axis) -> Before {
        Before {
            state: axis.state(),
            mode: axis.shown_mode(),
            alarm: axis.alarm_number(),
            homing: axis.homing(),
            remembered: axis.remembered(),
        }
    }
}

pub(super) fn command_name(command: &Command) -> &'static str {
    match command {
        Command::Hybrid(_) => "hybrid",
        Command::Homing { .. } => "homing",
        Command::Position { .. } => "position",
        Command::Torque { .. } => "torque",
        Command::Rest => "rest",
    }
}

fn drive_command(control: ControlWord) -> String {
    control.drive_command().map_or("bit 7 set".to_string(), |command| format!("{command:?}"))
}

impl Tally {
    pub(super) fn saw_tick(&mut self, tick: &Tick) {
        let before = Before::of(&self.axis);
        let due = self.axis.due();
        let answer = self.axis.tick(tick);
        let sheet = match (answer.refusal, self.axis.sheet()) {
            (None, Some(sheet)) => *sheet,
            (refusal, _) => {
                if let Some(refusal) = refusal {
                    self.saw(&refused("tick", refusal));
                }
                return;
            }
        };
        self.saw_if(due != 0, "tick between the words of a sheet");
        self.saw_state(tick, &before, &sheet);
        self.saw_mode(tick, &before);
        self.saw_alarm(tick, &before, &sheet);
        self.saw_start(tick, &before);
        self.saw_homing(tick, &before);
        self.saw_target(tick, &sheet, &answer);
        self.saw_torque(tick, &sheet, &answer, &before);
        self.saw_remembered(tick, &before);
        self.rehearsal_tick(tick, &answer, before.mode);
        self.switches = tick.switches;
        self.stretch = self.stretch_after(tick, &before);
        if self.starts(tick, &before) || !tick.control.has(HALT) {
            self.recent.clear();
        }
        self.recent.push(*tick);
        self.taken_over = false;
        if let Command::Hybrid(hybrid) = tick.command {
            self.saw_hybrid(tick, &hybrid, &sheet, &before);
        }
    }

    fn matched(&self, tick: &Tick) -> bool {
        tick.command.mode() == Some(self.axis.shown_mode())
    }

    fn saw_state(&mut self, tick: &Tick, before: &Before, sheet: &Sheet) {
        let after = self.axis.state();
        self.saw(&format!("state {:?}", before.state));
        if after != before.state {
            self.saw(&format!("{:?} to {after:?}", before.state));
        }
        let alarm = tick.alarm != 0 || matches!(tick.command, Command::Hybrid(h) if !h.q(sheet.rated_torque()).is_finite());
        let command = drive_command(tick.control);
        let rises = tick.control.rises(FAULT_RESET, before.remembered);
        match before.state {
            _ if alarm => self.saw(&format!("alarm in {:?}", before.state)),
            SwitchOnDisabled | Ready | SwitchedOn | OperationEnabled => self.saw(&format!("{:?}: {command}", before.state)),
            QuickStopActive => {
                let (how, option) = (if tick.standstill { "still" } else { "moving" }, sheet.quick_stop_option());
                self.saw(&format!("QuickStopActive: {command}, {how}, option {option}"));
                let left = after != QuickStopActive && command != "DisableVoltage";
                self.saw_if(left && sheet.layout() == 3, &format!("layout 3: option {option} leaves quick stop"));
            }
            Fault if rises => self.saw("Fault: bit 7 rises, no alarm"),
            Fault if tick.control.has(FAULT_RESET) => self.saw("Fault: bit 7 held, no alarm"),
            Fault => self.saw("Fault: bit 7 clear"),
            NotReady | FaultReaction => {}
        }
        self.saw_if(before.state == Fault && rises && alarm, "Fault: bit 7 rises, alarm present");
    }

    fn saw_mode(&mut self, tick: &Tick, before: &Before) {
        let name = command_name(&tick.command);
        let after = self.axis.state();
        self.saw_if(tick.command.mode().is_none() && after.is_live(), &format!("rest in {after:?}"));
        if tick.command.mode().is_some() {
            let how = if self.matched(tick) { "matched" } else { "not matched" };
            self.saw_if(after == OperationEnabled, &format!("{name} {how} in OperationEnabled"));
            self.saw_if(after == QuickStopActive && self.matched(tick), &format!("{name} matched in QuickStopActive"));
        }
        let changed = before.mode != self.axis.shown_mode();
        self.saw_if(changed && before.state == OperationEnabled, "mode changes at standstill while enabled");
        self.saw_if(changed && before.state == QuickStopActive && !tick.standstill, "mode changes moving in quick stop");
    }

    fn saw_alarm(&mut self, tick: &Tick, before: &Before, sheet: &Sheet) {
        let entered = self.axis.state() == FaultReaction;
        if entered {
            self.saw(&format!("alarm number {}", self.axis.alarm_number()));
            self.saw_if(tick.alarm.count_ones() > 1, "alarm: several bits, the lowest counts");
        }
        let another = tick.alarm != 0 && tick.alarm.trailing_zeros() + 1 != before.alarm;
        self.saw_if(matches!(before.state, FaultReaction | Fault) && another, "alarm: another one in fault changes no number");
        if let Command::Hybrid(hybrid) = tick.command {
            let finite = hybrid.q(sheet.rated_torque()).is_finite();
            self.saw_if(entered && !finite && tick.alarm & 0x7FFF_FFFF != 0, "alarm: bit 31 by q, a lower one counts");
        }
    }

    /// "remembered inputs stay": what is held across a takeover does not rise after it.
    fn saw_remembered(&mut self, tick: &Tick, before: &Before) {
        let held = |bit: u16| self.taken_over && tick.control.has(bit) && before.remembered.has(bit);
        let may_home = matches!(tick.command, Command::Homing { .. }) && self.matched(tick);
        let starts_nothing = held(HOMING_START) && may_home && self.axis.state() == OperationEnabled;
        let resets_nothing = held(FAULT_RESET) && before.state == Fault && tick.alarm == 0;
        self.saw_if(starts_nothing, "takeover, then bit 4 held starts nothing");
        self.saw_if(resets_nothing, "takeover, then bit 7 held resets nothing");
    }

    fn starts(&self, tick: &Tick, before: &Before) -> bool {
        let homing = matches!(tick.command, Command::Homing { .. }) && self.matched(tick);
        tick.control.rises(HOMING_START, before.remembered) && homing && self.axis.state() == OperationEnabled
    }

    fn saw_start(&mut self, tick: &Tick, before: &Before) {
        let homing = matches!(tick.command, Command::Homing { .. });
        let enabled = self.axis.state() == OperationEnabled;
        let rises = tick.control.rises(HOMING_START, before.remembered);
        self.saw_if(rises && homing && self.matched(tick) && !enabled, "no start: not enabled");
        self.saw_if(rises && homing && enabled && !self.matched(tick), "no start: not matched");
        let held = tick.control.has(HOMING_START) && !rises;
        let idle = !matches!(before.homing, Homing::Runs { .. });
        self.saw_if(held && idle && homing && enabled && self.matched(tick), "no start: bit 4 held");
        if self.starts(tick, before) {
            self.saw_if(before.state == SwitchedOn, "start in the tick that enables");
            self.saw_if(tick.control.has(HALT), "start halted");
            self.saw_if(self.switches != tick.switches, "start as a switch turns");
            self.saw_if(matches!(before.homing, Homing::Homed { .. }), "start clears homed");
            self.saw_if(before.homing == Homing::Error, "start clears homing error");
            let (method, after) = (self.axis.sheet().map_or(0, |sheet| sheet.method()), self.axis.homing());
            if let Some(limit @ (Switch::Pot | Switch::Not)) = decider(method) {
                for (level, turn) in [(true, "rises"), (false, "drops")] {
                    let turned = tick.switches.turned(&self.switches, limit, level);
                    self.saw_if(turned, &format!("method {method}: start as {limit:?} {turn}"));
                }
            }
            if let Homing::Homed { way, .. } = after {
                self.saw(&format!("method {method} homed by {way:?}"));
                self.saw(if tick.control.has(HALT) { "method 35 halted" } else { "method 35 not halted" });
            }
        }
    }

    fn stretch_after(&self, tick: &Tick, before: &Before) -> Stretch {
        let Homing::Runs { leg, .. } = self.axis.homing() else {
            return Stretch::default();
        };
        let behind = tick.switches.on(leg.behind());
        if self.axis.homing() != before.homing {
            return Stretch { tried: false, behind };
        }
        Stretch { tried: self.stretch.tried || !tick.control.has(HALT), behind: self.stretch.behind && behind }
    }

    /// A tick while homing ran before it.
    fn saw_homing(&mut self, tick: &Tick, before: &Before) {
        let (Homing::Runs { leg, way, place }, Some(&last)) = (before.homing, self.recent.last()) else {
            if let (Homing::Homed { .. }, Homing::Homed { .. }) = (before.homing, self.axis.homing()) {
                self.saw_if(self.axis.state() == Fault, "homed stays in fault");
                self.saw_if(!tick.control.has(HOMING_START), "homed stays with bit 4 clear");
            }
            return;
        };
        let method = self.axis.sheet().map_or(0, |sheet| sheet.method());
        match self.axis.homing() {
            Homing::Homed { way, .. } => self.saw(&format!("method {method} homed by {way:?}")),
            Homing::Error => {
                self.saw(&format!("homing error, method {method}"));
                self.saw(&format!("homing error, route {way:?}"));
            }
            Homing::Idle => self.saw_idled(tick),
            Homing::Runs { .. } => self.saw_if(tick.control.has(HALT), "halt in the midst"),
        }
        self.saw_counting(tick, before, method, leg, &last);
        if !tick.control.has(HALT) {
            self.saw_limit(tick, before, (method, way, place), leg, &last);
        }
    }

    fn saw_idled(&mut self, tick: &Tick) {
        self.saw_if(!tick.control.has(HOMING_START), "idled: bit 4 clear");
        if self.axis.state() != OperationEnabled {
            self.saw(&format!("idled: state {:?}", self.axis.state()));
        } else if matches!(tick.command, Command::Rest) {
            self.saw("idled: rest");
        } else if !matches!(tick.command, Command::Homing { .. }) {
            self.saw(if tick.standstill { "idled: another mode" } else { "idled: another command, mode stays" });
        }
    }

    /// Switches that turn in a leg, whether they count or not.
    fn saw_counting(&mut self, tick: &Tick, before: &Before, method: u32, leg: Leg, last: &Tick) {
        let turned = |switch, level| tick.switches.turned(&last.switches, switch, level);
        let (switch, level) = leg.awaits();
        let event = leg.2 != Event::LimitOn && turned(switch, level);
        let opposite = turned(leg.behind(), true);
        let moved = tick.position.wrapping_sub(last.position);
        let halted = tick.control.has(HALT);
        let stays = self.axis.homing() == before.homing;
        let counts = event && !halted && !stays && moved.signum() == leg.0;
        let missed = [
            (halted, "halted"),
            (!halted && moved == 0, "no movement"),
            (!halted && moved.signum() == -leg.0, "coasting the other way"),
        ];
        for (_, why) in missed.into_iter().filter(|(missed, _)| stays && event && *missed) {
            self.saw(&format!("event missed: {why}"));
            if matches!(switch, Switch::Pot | Switch::Not) {
                self.saw(&format!("method {method}: {switch:?}'s drop missed: {why}"));
            }
        }
        if ON_LIMITS.contains(&method) && !halted {
            let hom_turns = last.switches.hom != tick.switches.hom;
            self.saw_if(stays && hom_turns && moved.signum() == leg.0, &format!("method {method}: HOM plays no part"));
            self.saw_if(stays && opposite, &format!("method {method}: the limit behind rises"));
            let z_used_up = counts && switch != Switch::Z && turned(Switch::Z, true);
            self.saw_if(z_used_up, &format!("method {method}: Z rises in the tick of another event"));
        }
        self.saw_if(stays && turned(leg.limit(), true) && halted, "limit missed: halted");
        self.saw_if(stays && opposite && !halted, "limit passes: against travel");
        let around = i64::from(tick.position) - i64::from(last.position) != i64::from(moved);
        self.saw_if(counts && around, "event counts across 2^31");
        self.saw_if(counts && moved == i32::MIN, "event counts at a movement of 2^31");
    }

    /// What the limits do in a tick that is not halted.
    fn saw_limit(&mut self, tick: &Tick, before: &Before, (method, way, place): (u32, Way, usize), leg: Leg, last: &Tick) {
        let (limit, after) = (leg.limit(), self.axis.homing());
        let was_on = |tick: &Tick| tick.switches.on(limit);
        let on = tick.switches.on(limit);
        let stays = after == before.homing;
        let fails = after == Homing::Error;
        let turns = (way, place) == (Way::A, 0) && matches!(after, Homing::Runs { way: Way::B, .. });
        let ends = !stays && !fails && !turns && after != Homing::Idle;

        // The leg's first tick that is not halted: nothing could count since the one in which it began.
        if !self.stretch.tried && self.recent.first().is_some_and(was_on) {
            let held = on && self.recent.iter().all(was_on);
            self.saw_if(held && turns, &format!("method {method} begins on the limit: turns"));
            self.saw_if(held && fails, &format!("method {method} {way:?}, leg {} begins on the limit: error", place + 1));
            if held && ends {
                match (way, place) {
                    (_, 0) => self.saw("a first leg begins on the limit: event first"),
                    (Way::B, 2) => self.saw(&format!("method {method} B, leg 3 begins on the limit: event first")),
                    _ if leg.awaits().0 == Switch::Z => {
                        self.saw(&format!("method {method}, last leg begins on the limit: event first"))
                    }
                    _ => {}
                }
            }
            let begins = if place == 0 { "the start tick" } else { "the tick that begins a leg" };
            self.saw_if(!on && stays, &format!("limit on in {begins}, off in the next"));
        }

        let came = self.recent.windows(2).any(|pair| pair[1].switches.turned(&pair[0].switches, limit, true));
        if came && was_on(last) {
            self.saw_if(on && turns, "limit on since halt: turns");
            self.saw_if(on && fails, "limit on since halt: error");
            let awaited = on && ends && leg.2 == Event::LimitOn;
            self.saw_if(awaited, &format!("method {method}: first leg ends since halt"));
            self.saw_if(!on && stays, "limit gone as halt ends");
        }

        let how = match tick.position.wrapping_sub(last.position).signum() * leg.0 {
            0 => "without movement",
            1 => "along the movement",
            _ => "against the movement",
        };
        self.saw_if(fails, &format!("homing error {how}"));
        self.saw_if(turns, &format!("limit turns {how}"));
        if ends && leg.2 == Event::LimitOn {
            self.saw(&format!("method {method}: first leg ends {how}"));
        } else if ends && on {
            let before = if was_on(last) { "was on" } else { "rises" };
            self.saw(&format!("event and limit in one tick, it {before}"));
        }
        let all_along = self.stretch.tried && self.stretch.behind && tick.switches.on(leg.behind());
        self.saw_if(ends && all_along, &format!("method {method}: limit behind on all along"));
    }

    fn saw_target(&mut self, tick: &Tick, sheet: &Sheet, answer: &Answer) {
        let Command::Position { target, .. } = tick.command else {
            return;
        };
        let enabled = self.axis.state() == OperationEnabled;
        let Homing::Homed { home, .. } = self.axis.homing() else {
            self.saw_if(enabled && self.matched(tick), "target not followed: not homed");
            return;
        };
        self.saw_if(enabled && !self.matched(tick), "target not followed: not matched");
        self.saw_if(!enabled && self.matched(tick), "target not followed: not enabled");
        if enabled && self.matched(tick) {
            let (lower, upper) = (sheet.lower_stop(), sheet.upper_stop());
            self.saw_if(target < lower, "target clamped to the lower stop");
            self.saw_if(target == lower, "target on the lower stop");
            self.saw_if(lower < target && target < upper, "target between the stops");
            self.saw_if(target == upper, "target on the upper stop");
            self.saw_if(target > upper, "target clamped to the upper stop");
            let counts = gear::counts(sheet, target.clamp(lower, upper));
            self.saw_if(i64::from(home) + counts != i64::from(answer.position), "target wraps across 2^31");
            self.saw_gear(sheet, target);
        }
    }

    fn saw_torque(&mut self, tick: &Tick, sheet: &Sheet, answer: &Answer, before: &Before) {
        if !self.axis.state().is_live() {
            return;
        }
        let demand = match tick.command {
            Command::Hybrid(hybrid) => hybrid.demand(sheet.rated_torque()),
            Command::Homing { request } | Command::Torque { request } => request.into(),
            Command::Position { request, .. } => request.into(),
            Command::Rest => 0,
        };
        if !self.matched(tick) {
            self.saw_unmatched(tick, demand);
            return;
        }
        self.saw_cap(tick, sheet, before.mode, demand, answer.torque);
        let set = if tick.limit_set == LimitSet::Set1 { "set 1" } else { "set 2" };
        let maximum = sheet.maximum_torque();
        // In mode 6 homing torque may hold where neither limit nor maximum does.
        let lesser = if self.axis.shown_mode() == HOMING_MODE { maximum.min(sheet.homing_torque()) } else { maximum };
        let (positive, negative) = (sheet.positive_limit(tick.limit_set), sheet.negative_limit(tick.limit_set));
        let torque = answer.torque;
        self.saw_if(torque == demand && torque != 0, "torque: the demand itself");
        self.saw_if(torque == demand && torque > 0 && torque == positive.min(lesser), "torque: the demand on its limit");
        self.saw_if(demand > torque && positive < lesser, &format!("torque: positive limit of {set} holds"));
        self.saw_if(demand < torque && negative < lesser, &format!("torque: negative limit of {set} holds"));
        let by_maximum = lesser == maximum;
        self.saw_if(by_maximum && demand > torque && maximum < positive, "torque: maximum holds above");
        self.saw_if(by_maximum && demand < torque && maximum < negative, "torque: maximum holds below");
        self.saw_if(self.axis.state() == QuickStopActive && torque != 0, "torque: in quick stop");
        self.saw_if(demand == -32768, "torque: request -32768");
        self.saw_if(demand == 32767, "torque: request 32767");
    }

    fn saw_hybrid(&mut self, tick: &Tick, hybrid: &Hybrid, sheet: &Sheet, before: &Before) {
        let Hybrid { kp, kd, pd, vd, t, p, v } = *hybrid;
        let given = [kp, kd, pd, vd, t, p, v];
        let q = hybrid.q(sheet.rated_torque());
        let live = self.axis.state().is_live() && self.matched(tick);
        if !q.is_finite() {
            self.saw_if(given.iter().any(|float| float.is_nan()), "hybrid: NaN given");
            self.saw_if(given.iter().any(|float| float.is_infinite()), "hybrid: infinity given");
            self.saw_if(q.is_nan() && !given.iter().any(|float| float.is_nan()), "hybrid: NaN made");
            self.saw_if(given.iter().all(|float| float.is_finite()), "hybrid: overflow of finite floats");
            self.saw_if(!self.matched(tick), "hybrid: not finite, not matched");
            self.saw_if(matches!(before.state, Fault | FaultReaction), "hybrid: not finite in fault");
        }
        self.saw_if(given.iter().any(|float| float.is_subnormal()), "hybrid: subnormal given");
        self.saw_if(q.is_subnormal(), "hybrid: q subnormal");
        self.saw_if(live && q.is_finite() && q.abs() >= i64::MAX as f32, "hybrid: q finite and beyond 64 bits");
        let [kp, kd, pd, vd, t, p, v] = given.map(f64::from);
        let wide = (kp * (pd - p) + kd * (vd - v) + t) * 1e6 / f64::from(sheet.rated_torque());
        self.saw_if(live && q.abs() < 3000.0 && wide as i64 != q as i64, "hybrid: roundings of binary32 decide");
        self.saw_if(live && q > 0.0 && q.fract() != 0.0 && q.abs() < 3000.0, "hybrid: fraction dropped above zero");
        self.saw_if(live && q < 0.0 && q.fract() != 0.0 && q.abs() < 3000.0, "hybrid: fraction dropped below zero");
    }
}
