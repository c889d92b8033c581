//! From the lines' ticks to the baseline's.

use crate::baseline::{self, Gains};
use rival::command::Command;
use rival::sheet::LimitSet;
use rival::tick::Tick;

fn command(command: &Command) -> baseline::Command {
    match *command {
        Command::Hybrid(h) => {
            baseline::Command::Hybrid(Gains { kp: h.kp, kd: h.kd, pd: h.pd, vd: h.vd, t: h.t, p: h.p, v: h.v })
        }
        Command::Homing { request } => baseline::Command::Homing(request),
        Command::Position { target, request } => baseline::Command::Position(target, request),
        Command::Torque { request } => baseline::Command::Torque(request),
        Command::Rest => baseline::Command::Rest,
    }
}

pub fn tick(t: &Tick) -> baseline::Tick {
    let on = |switch: bool, bit: u8| if switch { bit } else { 0 };
    let s = t.switches;
    baseline::Tick {
        control: t.control.0,
        command: command(&t.command),
        position: t.position,
        switches: on(s.pot, baseline::POT) | on(s.not, baseline::NOT) | on(s.hom, baseline::HOM) | on(s.z, baseline::INDEX),
        still: t.standstill,
        set: matches!(t.limit_set, LimitSet::Set2) as u8,
        alarm: t.alarm,
    }
}
