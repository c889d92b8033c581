//! The drive states of CiA 402 and the one transition a tick may make.

use crate::control_word::DriveCommand::{self, *};

#[derive(Clone, Copy, Debug, Default, PartialEq, Eq, PartialOrd, Ord)]
pub enum DriveState {
    #[default]
    NotReady,
    SwitchOnDisabled,
    Ready,
    SwitchedOn,
    OperationEnabled,
    QuickStopActive,
    FaultReaction,
    Fault,
}

use DriveState::*;

/// What a tick brings to the drive state.
pub struct Cause {
    /// Nothing while control bit 7 is set.
    pub command: Option<DriveCommand>,
    pub reset_rises: bool,
    pub alarm: bool,
    pub standstill: bool,
    pub quick_stop_option: u32,
}

impl DriveState {
    /// Live: torque may be handed out, and no sheet may be taken over.
    pub fn is_live(self) -> bool {
        matches!(self, OperationEnabled | QuickStopActive)
    }

    /// "At most one transition a tick." Whatever the paper does not name stays.
    pub fn next(self, cause: &Cause) -> DriveState {
        match self {
            FaultReaction => Fault,
            Fault if cause.reset_rises && !cause.alarm => SwitchOnDisabled,
            Fault => Fault,
            _ if cause.alarm => FaultReaction,
            NotReady => SwitchOnDisabled,
            QuickStopActive => leave_quick_stop(cause),
            _ => cause.command.map_or(self, |command| self.obey(command)),
        }
    }

    fn obey(self, command: DriveCommand) -> DriveState {
        match (self, command) {
            (SwitchOnDisabled, Shutdown) => Ready,
            (Ready, SwitchOn | Enable) => SwitchedOn,
            (Ready, DisableVoltage | QuickStop) => SwitchOnDisabled,
            (SwitchedOn, Enable) => OperationEnabled,
            (SwitchedOn, Shutdown) => Ready,
            (SwitchedOn, DisableVoltage | QuickStop) => SwitchOnDisabled,
            (OperationEnabled, SwitchOn) => SwitchedOn,
            (OperationEnabled, Shutdown) => Ready,
            (OperationEnabled, DisableVoltage) => SwitchOnDisabled,
            (OperationEnabled, QuickStop) => QuickStopActive,
            (state, _) => state,
        }
    }
}

/// "disable voltage to Switch on disabled; else at standstill, option 2 to Switch on disabled by itself, bit 7 not looked at,
/// and option 6 with enable to Operation enabled."
fn leave_quick_stop(cause: &Cause) -> DriveState {
    match (cause.command, cause.standstill, cause.quick_stop_option) {
        (Some(DisableVoltage), _, _) => SwitchOnDisabled,
        (_, true, 2) => SwitchOnDisabled,
        (Some(Enable), true, 6) => OperationEnabled,
        _ => QuickStopActive,
    }
}
