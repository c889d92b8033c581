//! The one command each tick carries.

use crate::hybrid::Hybrid;

#[derive(Clone, Copy, Debug)]
pub enum Command {
    Hybrid(Hybrid),
    Homing { request: i16 },
    Position { target: i32, request: i16 },
    Torque { request: i16 },
    Rest,
}

pub const HYBRID_MODE: i8 = -1;
pub const HOMING_MODE: i8 = 6;
pub const POSITION_MODE: i8 = 8;
pub const TORQUE_MODE: i8 = 10;

impl Command {
    /// "rest has none", so rest is never matched.
    pub fn mode(&self) -> Option<i8> {
        match self {
            Command::Hybrid(_) => Some(HYBRID_MODE),
            Command::Homing { .. } => Some(HOMING_MODE),
            Command::Position { .. } => Some(POSITION_MODE),
            Command::Torque { .. } => Some(TORQUE_MODE),
            Command::Rest => None,
        }
    }
}
