//! The statusword.

use crate::command::{HOMING_MODE, POSITION_MODE};
use crate::drive_state::DriveState;
use crate::homing::Homing;

const HOMED: u16 = 1 << 8;
const HOMING_RESTS: u16 = 1 << 10;
const LIMIT: u16 = 1 << 11;
const HOMED_OR_FOLLOWING: u16 = 1 << 12;
const HOMING_ERROR: u16 = 1 << 13;

/// Bits 0 to 9 without homed.
fn state_bits(state: DriveState) -> u16 {
    match state {
        DriveState::NotReady => 0x0000,
        DriveState::SwitchOnDisabled => 0x0250,
        DriveState::Ready => 0x0231,
        DriveState::SwitchedOn => 0x0233,
        DriveState::OperationEnabled => 0x0237,
        DriveState::QuickStopActive => 0x0217,
        DriveState::FaultReaction => 0x020F,
        DriveState::Fault => 0x0208,
    }
}

pub struct Shown {
    pub state: DriveState,
    pub mode: i8,
    pub homing: Homing,
    /// A limit switch is on, or the followed target was clamped.
    pub limit: bool,
    pub following: bool,
}

pub fn statusword(shown: &Shown) -> u16 {
    let bit = |bit: u16, set: bool| if set { bit } else { 0 };
    let homed = matches!(shown.homing, Homing::Homed { .. });
    let by_mode = match shown.mode {
        HOMING_MODE => {
            bit(HOMING_RESTS, !matches!(shown.homing, Homing::Runs { .. }))
                | bit(HOMED_OR_FOLLOWING, homed)
                | bit(HOMING_ERROR, shown.homing == Homing::Error)
        }
        POSITION_MODE => bit(HOMED_OR_FOLLOWING, shown.following),
        _ => 0,
    };
    state_bits(shown.state) | bit(HOMED, homed) | bit(LIMIT, shown.limit) | by_mode
}
