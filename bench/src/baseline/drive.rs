//! The drive's state machine (CiA 402).

pub const NOT_READY: u8 = 0;
pub const SWITCH_ON_DISABLED: u8 = 1;
pub const READY: u8 = 2;
pub const SWITCHED_ON: u8 = 3;
pub const OPERATION_ENABLED: u8 = 4;
pub const QUICK_STOP_ACTIVE: u8 = 5;
pub const FAULT_REACTION: u8 = 6;
pub const FAULT: u8 = 7;

/// The statusword's bits 0 to 9, by state.
pub const STATUS: [u16; 8] = [0x0000, 0x0250, 0x0231, 0x0233, 0x0237, 0x0217, 0x020f, 0x0208];

const DISABLE_VOLTAGE: u8 = 0;
const QUICK_STOP: u8 = 1;
const SHUTDOWN: u8 = 2;
const SWITCH_ON: u8 = 3;
const ENABLE: u8 = 4;
const NOTHING: u8 = 5;

/// What a control word asks; nothing while bit 7 is set.
fn command(control: u16) -> u8 {
    if control & 1 << 7 != 0 {
        NOTHING
    } else if control & 1 << 1 == 0 {
        DISABLE_VOLTAGE
    } else if control & 1 << 2 == 0 {
        QUICK_STOP
    } else if control & 1 << 0 == 0 {
        SHUTDOWN
    } else if control & 1 << 3 == 0 {
        SWITCH_ON
    } else {
        ENABLE
    }
}

/// The state after a tick.
pub fn next(state: u8, control: u16, before: u16, still: bool, option: u8, alarm: bool) -> u8 {
    if state == FAULT_REACTION {
        return FAULT;
    }
    if state == FAULT {
        let reset = control & !before & 1 << 7 != 0;
        return if reset && !alarm { SWITCH_ON_DISABLED } else { FAULT };
    }
    if alarm {
        return FAULT_REACTION;
    }
    let command = command(control);
    match (state, command) {
        (NOT_READY, _) => SWITCH_ON_DISABLED,
        (SWITCH_ON_DISABLED, SHUTDOWN) => READY,
        (READY, SWITCH_ON | ENABLE) => SWITCHED_ON,
        (READY | SWITCHED_ON, DISABLE_VOLTAGE | QUICK_STOP) => SWITCH_ON_DISABLED,
        (SWITCHED_ON, ENABLE) => OPERATION_ENABLED,
        (SWITCHED_ON | OPERATION_ENABLED, SHUTDOWN) => READY,
        (OPERATION_ENABLED, SWITCH_ON) => SWITCHED_ON,
        (OPERATION_ENABLED | QUICK_STOP_ACTIVE, DISABLE_VOLTAGE) => SWITCH_ON_DISABLED,
        (OPERATION_ENABLED, QUICK_STOP) => QUICK_STOP_ACTIVE,
        (QUICK_STOP_ACTIVE, _) if still && option == 2 => SWITCH_ON_DISABLED,
        (QUICK_STOP_ACTIVE, ENABLE) if still => OPERATION_ENABLED,
        _ => state,
    }
}
