//! The rail simulator: a sheet is tried on a paper rail.

use crate::axis::Axis;
use crate::command::Command;
use crate::control_word::ControlWord;
use crate::homing::{Homing, Leg, Speed};
use crate::rail::{Rail, TICKS};
use crate::refusal::Refusal;
use crate::sheet::{LimitSet, LONGEST};
use crate::tick::Tick;
use crate::writer::{self, Settings};

/// A fresh axis is led to Operation enabled by these control words, a tick each.
const WAY_UP: [u16; 4] = [0x0000, 0x0006, 0x000F, 0x000F];

/// Bit 4 rises in the start tick and stays.
const HOME: u16 = 0x001F;

#[derive(Clone, Copy, Debug, PartialEq, Eq)]
pub enum Stop {
    Homed,
    Error,
    /// "the number of ticks only if neither other did"
    Ticks,
}

/// A leg that ran a tick: from the cell of the tick before it to the cell where it ended.
#[derive(Clone, Copy, Debug, PartialEq, Eq)]
pub struct Passage {
    pub leg: Leg,
    /// The leg's place in its route: two legs in a row may be alike otherwise.
    place: usize,
    pub from: i64,
    pub to: i64,
    pub ticks: i64,
}

#[derive(Clone, Debug, PartialEq, Eq)]
pub struct Run {
    /// "the ticks run, the start tick included"
    pub ticks: i64,
    pub stop: Stop,
    /// Where it stopped.
    pub cell: i64,
    pub passages: Vec<Passage>,
}

/// Refused with 12, "tested before the sheet", then with 3, 5 or 6 "as by the writer". Layout 3 holds every sheet, so the
/// writer says no more than these.
pub fn run(rail: &Rail, settings: &Settings, start: i64, ticks: i64) -> Result<Run, Refusal> {
    if !rail.is_fit() || !(0..rail.length).contains(&start) || !TICKS.contains(&ticks) {
        return Err(Refusal::RailUnfit);
    }
    let mut words = [0; LONGEST];
    writer::write(3, settings, &mut words)?;
    let mut axis = Axis::default();
    for word in words {
        axis.word(word)?;
    }
    for control in WAY_UP {
        axis.tick(&tick(rail, control, start));
    }
    axis.tick(&tick(rail, HOME, start));
    Ok(follow(rail, axis, start, ticks))
}

/// From the start tick on.
fn follow(rail: &Rail, mut axis: Axis, start: i64, ticks: i64) -> Run {
    let (mut run, mut cell, mut passages) = (1, start, Vec::new());
    loop {
        let homing = axis.homing();
        let stop = match homing {
            Homing::Homed { .. } => Some(Stop::Homed),
            Homing::Error => Some(Stop::Error),
            Homing::Idle | Homing::Runs { .. } => (run == ticks).then_some(Stop::Ticks),
        };
        if let Some(stop) = stop {
            return Run { ticks: run, stop, cell, passages };
        }
        if let Homing::Runs { leg, place, .. } = homing {
            let from = cell;
            cell += step(rail, leg);
            pass(&mut passages, Passage { leg, place, from, to: cell, ticks: 1 });
        }
        axis.tick(&tick(rail, HOME, cell));
        run += 1;
    }
}

/// "the carriage first moves f or s cells, as the running leg is F or S, in that leg's direction"
fn step(rail: &Rail, Leg(direction, speed, _): Leg) -> i64 {
    let cells = match speed {
        Speed::Fast => rail.fast,
        Speed::Slow => rail.slow,
    };
    i64::from(direction) * cells
}

/// One tick more, of the leg that ran before it or of another.
fn pass(passages: &mut Vec<Passage>, next: Passage) {
    match passages.last_mut() {
        Some(last) if last.place == next.place => {
            last.to = next.to;
            last.ticks += 1;
        }
        _ => passages.push(next),
    }
}

/// Nothing but homing is asked for, at this cell; a position is the cell's low 32 bits.
fn tick(rail: &Rail, control: u16, cell: i64) -> Tick {
    Tick {
        control: ControlWord(control),
        command: Command::Homing { request: 0 },
        position: cell as i32,
        switches: rail.switches(cell),
        standstill: false,
        limit_set: LimitSet::Set1,
        alarm: 0,
    }
}
