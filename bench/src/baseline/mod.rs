//! The axis as a careful C programmer would write it by hand for a small microcontroller: the state and the homing phase are small
//! numbers, the axis is changed in place, and nothing is computed twice. What proved code costs is measured against it.

mod drive;
mod gear;
mod homing;
mod settings;

pub use gear::Gear;
pub use settings::{write_sheet, Limits, Settings};

use drive::{OPERATION_ENABLED, QUICK_STOP_ACTIVE};
use homing::{Leg, FAILED, HOMED, IDLE};
use settings::Pending;

/// The bits of the four switches.
pub const POT: u8 = 1;
pub const NOT: u8 = 2;
pub const HOM: u8 = 4;
pub const INDEX: u8 = 8;

/// Modes of operation.
const HYBRID: i8 = -1;
const HOMING: i8 = 6;
const POSITION: i8 = 8;
const TORQUE: i8 = 10;

#[derive(Clone, Copy)]
pub struct Gains {
    pub kp: f32,
    pub kd: f32,
    pub pd: f32,
    pub vd: f32,
    pub t: f32,
    pub p: f32,
    pub v: f32,
}

#[derive(Clone, Copy)]
pub enum Command {
    Hybrid(Gains),
    Homing(i16),
    Position(i32, i16),
    Torque(i16),
    Rest,
}

#[derive(Clone, Copy)]
pub struct Tick {
    pub control: u16,
    pub command: Command,
    pub position: i32,
    pub switches: u8,
    pub still: bool,
    /// 0 or 1.
    pub set: u8,
    pub alarm: u32,
}

#[derive(Clone, Copy, Default, PartialEq, Eq, Debug)]
pub struct Answer {
    pub number: u8,
    pub mode: i8,
    pub alarm: u8,
    pub status: u16,
    pub torque: i16,
    pub speed: i32,
    pub position: i32,
}

pub struct Axis {
    active: Settings,
    pending: Pending,
    has_settings: bool,
    state: u8,
    mode: i8,
    alarm: u8,
    phase: u8,
    switches: u8,
    control: u16,
    home: i32,
    position: i32,
}

impl Axis {
    pub const FRESH: Axis = Axis {
        active: Settings::NONE,
        pending: Pending::EMPTY,
        has_settings: false,
        state: drive::NOT_READY,
        mode: 0,
        alarm: 0,
        phase: IDLE,
        switches: 0,
        control: 0,
        home: 0,
        position: 0,
    };
}

/// One settings word; 0, or why it is refused.
#[inline(always)]
pub fn word(axis: &mut Axis, word: u32) -> u8 {
    let number = axis.pending.take(word);
    if number != settings::COMPLETE {
        return number;
    }
    if axis.state == OPERATION_ENABLED || axis.state == QUICK_STOP_ACTIVE {
        return 7;
    }
    axis.active = axis.pending.settings;
    axis.has_settings = true;
    axis.phase = IDLE;
    0
}

/// Hybrid's demand before it is made whole.
fn quotient(g: &Gains, rated: u32) -> f32 {
    ((g.kp * (g.pd - g.p) + g.kd * (g.vd - g.v)) + g.t) * 1_000_000.0 / rated as f32
}

/// One tick.
#[inline(always)]
pub fn tick(axis: &mut Axis, t: &Tick) -> Answer {
    if !axis.has_settings {
        return Answer { number: 8, ..Answer::default() };
    }
    let s = &axis.active;

    let mut alarm = t.alarm;
    let mut target = None;
    let (mode, demand) = match t.command {
        Command::Hybrid(ref g) => {
            let q = quotient(g, s.rated);
            if !q.is_finite() {
                alarm |= 1 << 31;
            }
            (HYBRID, q as i32)
        }
        Command::Homing(request) => (HOMING, request as i32),
        Command::Position(to, request) => {
            target = Some(to);
            (POSITION, request as i32)
        }
        Command::Torque(request) => (TORQUE, request as i32),
        Command::Rest => (0, 0),
    };

    if mode != 0 && (axis.state != OPERATION_ENABLED || t.still) {
        axis.mode = mode;
    }
    let matched = mode != 0 && mode == axis.mode;

    let state = drive::next(axis.state, t.control, axis.control, t.still, s.option, alarm != 0);
    if state != axis.state {
        if state == drive::FAULT_REACTION {
            axis.alarm = alarm.trailing_zeros() as u8 + 1;
        } else if axis.state == drive::FAULT {
            axis.alarm = 0;
        }
        axis.state = state;
    }
    let enabled = state == OPERATION_ENABLED;

    let halted = t.control & 1 << 8 != 0;
    let homing_on = enabled && matched && mode == HOMING;
    if homing_on && t.control & !axis.control & 1 << 4 != 0 {
        axis.phase = homing::start(s.method, t.switches);
        if axis.phase == HOMED {
            axis.home = t.position;
        }
    } else if axis.phase < IDLE {
        if !homing_on || t.control & 1 << 4 == 0 {
            axis.phase = IDLE;
        } else if !halted {
            let moved = t.position.wrapping_sub(axis.position);
            axis.phase = homing::step(axis.phase, moved, axis.switches, t.switches);
            if axis.phase == HOMED {
                axis.home = t.position;
            }
        }
    }
    axis.control = t.control;
    axis.switches = t.switches;
    axis.position = t.position;

    let homed = axis.phase == HOMED;
    let mut status = drive::STATUS[state as usize & 7];
    let mut position = t.position;
    if homed {
        status |= 1 << 8;
    }
    if t.switches & (POT | NOT) != 0 {
        status |= 1 << 11;
    }
    match target {
        Some(to) if matched && enabled && homed => {
            let near = s.gear.clamp(to);
            if near != to {
                status |= 1 << 11;
            }
            status |= 1 << 12;
            position = axis.home.wrapping_add(s.gear.geared(near));
        }
        _ => (),
    }
    let mut speed = 0;
    if axis.phase < IDLE && !halted {
        let leg = Leg::at(axis.phase);
        let magnitude = if leg.fast() { s.fast } else { s.slow } as i32;
        speed = if leg.forward() { magnitude } else { -magnitude };
    }
    if axis.mode == HOMING {
        if axis.phase >= IDLE {
            status |= 1 << 10;
        }
        if homed {
            status |= 1 << 12;
        }
        if axis.phase == FAILED {
            status |= 1 << 13;
        }
    }
    let mut torque = 0;
    if matched && (enabled || state == QUICK_STOP_ACTIVE) {
        let limits = &s.limits[t.set as usize & 1];
        let cap = if axis.mode == HOMING { s.homing } else { s.maximum };
        let low = -(limits.negative.min(cap) as i32);
        let high = limits.positive.min(cap) as i32;
        torque = demand.max(low).min(high) as i16;
    }
    Answer {
        number: 0,
        mode: axis.mode,
        alarm: axis.alarm,
        status,
        torque,
        speed,
        position,
    }
}
