//! Scenes about the drive state: the whole command table, quick stop, alarms and faults, and plain wandering about.

use std::io::Write;

use super::Script;
use crate::control_word::FAULT_RESET;
use crate::drive_state::DriveState::{self, *};

/// Control words for disable voltage, quick stop, shutdown, switch on, enable, and bit 7 set, with the bits no command looks at
/// as they come.
const COMMANDS: [u16; 11] = [0x0000, 0x000D, 0x0002, 0x000B, 0x0006, 0x000E, 0x0007, 0x000F, 0x0080, 0x0086, 0x008F];

impl<W: Write> Script<W> {
    /// Brings the axis to a drive state by the shortest way; a mutated tick only makes it longer.
    pub(super) fn reach(&mut self, goal: DriveState) {
        if self.axis().sheet().is_none() {
            self.take_over_any();
        }
        self.now.alarm = 0;
        if self.now.command.starts_with("hybrid") {
            self.now.command = "rest".to_string(); // a q that is not finite would keep the axis in fault
        }
        for _ in 0..20 {
            if self.state() == goal {
                return;
            }
            self.step_towards(goal);
        }
    }

    fn step_towards(&mut self, goal: DriveState) {
        let faulty = matches!(goal, FaultReaction | Fault);
        self.now.alarm = 0;
        self.now.control = match self.state() {
            NotReady | SwitchOnDisabled | Ready | SwitchedOn | OperationEnabled | QuickStopActive if faulty => {
                self.now.alarm = 1 << self.random.between(0, 31);
                0x000F
            }
            NotReady | FaultReaction => 0x0000,
            Fault if self.axis().remembered().has(FAULT_RESET) => 0x0000,
            Fault => 0x0080,
            SwitchOnDisabled => 0x0006,
            Ready if goal == SwitchOnDisabled => 0x0000,
            Ready => self.random.pick(&[0x0007, 0x000F]),
            SwitchedOn if goal == SwitchOnDisabled => 0x0000,
            SwitchedOn if goal == Ready => 0x0006,
            SwitchedOn => 0x000F,
            OperationEnabled if goal == QuickStopActive => 0x0002,
            OperationEnabled if goal == SwitchedOn => 0x0007,
            OperationEnabled if goal == Ready => 0x0006,
            OperationEnabled | QuickStopActive => 0x0000,
        };
        self.now.still = goal != QuickStopActive && self.random.once_in(2);
        self.tick();
        self.now.alarm = 0;
    }

    /// Each state with each command.
    pub(super) fn state_table(&mut self) {
        self.now.command = "rest".to_string();
        for state in [SwitchOnDisabled, Ready, SwitchedOn, OperationEnabled] {
            let mut commands = COMMANDS;
            self.random.shuffle(&mut commands);
            for control in commands {
                self.reach(state);
                let unlooked = self.random.pick(&[0x0000, 0x0020, 0x0040, 0x0200, 0xFC00]);
                let still = self.random.once_in(2);
                self.tick_with(control | unlooked, "torque 250", still);
            }
        }
    }

    /// Quick stop active with each command, moving and at standstill, under one quick stop option.
    pub(super) fn quick_stops(&mut self, option: u32) {
        let mut settings = self.any_settings();
        settings.quick_stop_option = i64::from(option);
        self.take_over(&settings);
        let commands = ["torque 700", "position 5 -700", "rest", "homing 20", "hybrid 0 0 0 0 1 0 0"];
        for (place, control) in [0x0002, 0x0006, 0x0007, 0x000F, 0x008F, 0x0080, 0x0000].into_iter().enumerate() {
            for still in [false, true] {
                self.now.command = "torque 700".to_string();
                self.reach(QuickStopActive);
                self.tick_with(control, commands[place % commands.len()], still);
            }
        }
    }

    /// Each alarm bit once as the lowest, reset in between.
    pub(super) fn alarm_numbers(&mut self) {
        self.reach(SwitchOnDisabled);
        for place in 0..32 {
            let above = self.random.bits() as u32 & self.random.bits() as u32;
            self.now.alarm = (above | 1) << place;
            self.tick_with(0x0000, "rest", true);
            self.now.alarm = 0;
            self.tick_with(0x0000, "rest", true);
            self.tick_with(0x0080, "rest", true);
        }
    }

    /// An alarm in every state; then a reset that is none, for the alarm is still there or bit 7 was set before; then one.
    pub(super) fn faults(&mut self) {
        for state in [NotReady, SwitchOnDisabled, Ready, SwitchedOn, OperationEnabled, QuickStopActive, FaultReaction] {
            if state == NotReady {
                self.fresh();
                self.take_over_any();
            }
            self.now.command = self.random.pick(&["torque 300", "homing 5", "rest"]).to_string();
            self.reach(state);
            let first = 1 << self.random.between(0, 31);
            self.now.alarm = first;
            self.tick_with(0x000F, "torque 100", false);
            self.now.alarm = 1 << self.random.between(0, 31);
            self.tick_with(0x000F, "torque 100", false);
            self.tick_with(0x000F, "torque 100", true);
            self.tick_with(0x008F, "torque 100", true); // rises, but the alarm is present
            self.now.alarm = 0;
            self.tick_with(0x0080, "rest", true); // no alarm, but no rise
            self.tick_with(0x0006, "rest", true);
            self.tick_with(0x0086, "rest", true);
        }
    }

    /// Nothing in particular, near what matters: mostly enabled, mostly homing, switches that come and go.
    pub(super) fn wander(&mut self) {
        if self.random.once_in(2) {
            self.take_over_any();
        }
        self.reach(OperationEnabled);
        let commands = ["homing 10", "homing -32768", "position 40 5", "position -3000 -5", "torque 900", "rest"];
        self.now.command = "homing 32767".to_string();
        for _ in 0..40 {
            if self.state() != OperationEnabled && self.random.once_in(2) {
                self.step_towards(OperationEnabled);
                continue;
            }
            if self.random.once_in(6) {
                self.now.command = self.random.pick(&commands).to_string();
            } else if self.random.once_in(3) {
                self.now.command = "homing 77".to_string();
            }
            self.now.control = match self.random.between(0, 29) {
                0..=20 => 0x001F,
                21 | 22 => 0x000F,
                23 | 24 => 0x011F,
                25 => 0x0006,
                26 => 0x0002,
                27 => 0x0080,
                28 => 0x0007,
                _ => self.random.bits() as u16,
            };
            self.now.alarm = if self.random.once_in(60) { self.random.bits() as u32 } else { 0 };
            let sign = self.random.between(-1, 1);
            self.move_by(sign as i32);
            let switches = &mut self.now.switches;
            // A limit counts as long as it is on, so it goes sooner than it comes.
            switches.pot = self.random.once_in(if switches.pot { 2 } else { 12 });
            switches.not = self.random.once_in(if switches.not { 2 } else { 12 });
            switches.hom ^= self.random.once_in(3);
            switches.z ^= self.random.once_in(3);
            self.now.still = self.random.once_in(2);
            self.now.set = self.random.pick(&[1, 2]);
            self.tick();
        }
        self.now.alarm = 0;
    }
}
