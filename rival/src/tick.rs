//! What goes into a tick and what comes out.

use crate::command::Command;
use crate::control_word::ControlWord;
use crate::refusal::Refusal;
use crate::sheet::LimitSet;

#[derive(Clone, Copy, Debug, Default, PartialEq, Eq)]
pub struct Switches {
    pub pot: bool,
    pub not: bool,
    pub hom: bool,
    pub z: bool,
}

#[derive(Clone, Copy, Debug, PartialEq, Eq)]
pub enum Switch {
    Pot,
    Not,
    Hom,
    Z,
}

impl Switches {
    pub fn on(&self, switch: Switch) -> bool {
        match switch {
            Switch::Pot => self.pot,
            Switch::Not => self.not,
            Switch::Hom => self.hom,
            Switch::Z => self.z,
        }
    }

    pub fn turn(&mut self, switch: Switch, on: bool) {
        *match switch {
            Switch::Pot => &mut self.pot,
            Switch::Not => &mut self.not,
            Switch::Hom => &mut self.hom,
            Switch::Z => &mut self.z,
        } = on;
    }

    /// "A rise or drop compares with the remembered switch."
    pub fn turned(&self, before: &Switches, switch: Switch, on: bool) -> bool {
        self.on(switch) == on && before.on(switch) != on
    }
}

#[derive(Clone, Copy, Debug)]
pub struct Tick {
    pub control: ControlWord,
    pub command: Command,
    pub position: i32,
    pub switches: Switches,
    pub standstill: bool,
    pub limit_set: LimitSet,
    pub alarm: u32,
}

/// A refused tick answers with its number and zeros.
#[derive(Clone, Copy, Debug, Default, PartialEq, Eq)]
pub struct Answer {
    pub refusal: Option<Refusal>,
    pub torque: i64,
    pub speed: i32,
    pub position: i32,
    pub status: u16,
    pub mode: i8,
    pub alarm: u32,
}
