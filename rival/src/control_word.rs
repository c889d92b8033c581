//! The control word's bits and the drive commands they spell (source document 004, command table of CiA 402).

#[derive(Clone, Copy, Debug, Default, PartialEq, Eq)]
pub struct ControlWord(pub u16);

pub const SWITCH_ON: u16 = 1 << 0;
pub const ENABLE_VOLTAGE: u16 = 1 << 1;
pub const QUICK_STOP: u16 = 1 << 2;
pub const ENABLE_OPERATION: u16 = 1 << 3;
pub const HOMING_START: u16 = 1 << 4;
pub const FAULT_RESET: u16 = 1 << 7;
pub const HALT: u16 = 1 << 8;

#[derive(Clone, Copy, Debug, PartialEq, Eq)]
pub enum DriveCommand {
    DisableVoltage,
    QuickStop,
    Shutdown,
    SwitchOn,
    Enable,
}

impl ControlWord {
    pub fn has(self, bit: u16) -> bool {
        self.0 & bit != 0
    }

    pub fn rises(self, bit: u16, remembered: ControlWord) -> bool {
        self.has(bit) && !remembered.has(bit)
    }

    /// "Other commands need bit 7 clear."
    pub fn drive_command(self) -> Option<DriveCommand> {
        if self.has(FAULT_RESET) {
            None
        } else if !self.has(ENABLE_VOLTAGE) {
            Some(DriveCommand::DisableVoltage)
        } else if !self.has(QUICK_STOP) {
            Some(DriveCommand::QuickStop)
        } else if !self.has(SWITCH_ON) {
            Some(DriveCommand::Shutdown)
        } else if !self.has(ENABLE_OPERATION) {
            Some(DriveCommand::SwitchOn)
        } else {
            Some(DriveCommand::Enable)
        }
    }
}
