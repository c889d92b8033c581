//! The axis: settings words and ticks in, answers out.

use crate::command::Command;
use crate::control_word::{ControlWord, FAULT_RESET, HALT, HOMING_START};
use crate::drive_state::{Cause, DriveState};
use crate::gear;
use crate::homing::{self, Homing, Moment, Record};
use crate::refusal::Refusal;
use crate::sheet::Sheet;
use crate::statusword::{statusword, Shown};
use crate::tick::{Answer, Tick};
use crate::torque::torque;
use crate::words::Unfinished;

/// "no sheet, an empty unfinished one, state Not ready"; it "remembers zeros and shows mode 0, alarm 0".
#[derive(Clone, Debug, Default)]
pub struct Axis {
    unfinished: Unfinished,
    sheet: Option<Sheet>,
    state: DriveState,
    shown_mode: i8,
    alarm_number: u32,
    remembered: ControlWord,
    /// The ticks since the latest homing start, if there was one. They also remember switches and position for the next, so
    /// the axis keeps no others. A takeover forgets them all: then neither homed nor error, homing idle.
    since_start: Option<Record>,
}

impl Axis {
    pub fn state(&self) -> DriveState {
        self.state
    }

    pub fn shown_mode(&self) -> i8 {
        self.shown_mode
    }

    pub fn alarm_number(&self) -> u32 {
        self.alarm_number
    }

    pub fn remembered(&self) -> ControlWord {
        self.remembered
    }

    pub fn sheet(&self) -> Option<&Sheet> {
        self.sheet.as_ref()
    }

    pub fn due(&self) -> u32 {
        self.unfinished.due()
    }

    /// The words of the unfinished sheet.
    pub fn unfinished(&self) -> &[u32] {
        self.unfinished.run()
    }

    pub fn homing(&self) -> Homing {
        match (&self.sheet, &self.since_start) {
            (Some(sheet), Some(record)) => homing::read(sheet.method(), record),
            _ => Homing::Idle,
        }
    }

    pub fn word(&mut self, word: u32) -> Result<(), Refusal> {
        if let Some(sheet) = self.unfinished.hear(word, self.state)? {
            self.sheet = Some(sheet);
            self.since_start = None;
        }
        Ok(())
    }

    /// "Order: mode, drive state, homing, answer."
    pub fn tick(&mut self, tick: &Tick) -> Answer {
        let Some(sheet) = self.sheet else {
            return Answer { refusal: Some(Refusal::NoSheet), ..Answer::default() };
        };
        let matched = self.show_mode(tick);
        self.change_state(tick, &sheet);
        let enabled = self.state == DriveState::OperationEnabled;
        self.record(tick, &sheet, matched && enabled);
        self.remembered = tick.control;
        let homing = self.homing();

        let followed = match (tick.command, homing) {
            (Command::Position { target, .. }, Homing::Homed { home, .. }) if matched && enabled => {
                Some(gear::follow(&sheet, home, target))
            }
            _ => None,
        };
        let limit_switch = tick.switches.pot || tick.switches.not;
        Answer {
            refusal: None,
            torque: if matched && self.state.is_live() {
                torque(&tick.command, &sheet, self.shown_mode, tick.limit_set)
            } else {
                0
            },
            speed: match homing {
                Homing::Runs { leg, .. } if !tick.control.has(HALT) => leg.signed_speed(&sheet),
                _ => 0,
            },
            position: followed.as_ref().map_or(tick.position, |followed| followed.position),
            status: statusword(&Shown {
                state: self.state,
                mode: self.shown_mode,
                homing,
                limit: limit_switch || followed.as_ref().is_some_and(|followed| followed.clamped),
                following: followed.is_some(),
            }),
            mode: self.shown_mode,
            alarm: self.alarm_number,
        }
    }

    /// "A command's mode becomes the shown mode if the state before was not Operation enabled, or standstill is set."
    /// Says whether the command is matched.
    fn show_mode(&mut self, tick: &Tick) -> bool {
        let mode = tick.command.mode();
        if self.state != DriveState::OperationEnabled || tick.standstill {
            self.shown_mode = mode.unwrap_or(self.shown_mode);
        }
        mode == Some(self.shown_mode)
    }

    fn change_state(&mut self, tick: &Tick, sheet: &Sheet) {
        let alarm = alarm_word(tick, sheet);
        let before = self.state;
        self.state = before.next(&Cause {
            command: tick.control.drive_command(),
            reset_rises: tick.control.rises(FAULT_RESET, self.remembered),
            alarm: alarm != 0,
            standstill: tick.standstill,
            quick_stop_option: sheet.quick_stop_option(),
        });
        match (before, self.state) {
            (_, DriveState::FaultReaction) => self.alarm_number = alarm.trailing_zeros() + 1,
            (DriveState::Fault, DriveState::SwitchOnDisabled) => self.alarm_number = 0,
            _ => {}
        }
    }

    /// "Homing starts when control bit 4 rises, homing is matched and the new state is Operation enabled." Ticks before any
    /// start have no part in a reading.
    fn record(&mut self, tick: &Tick, sheet: &Sheet, matched_and_enabled: bool) {
        let may_home = matched_and_enabled && matches!(tick.command, Command::Homing { .. });
        let moment = Moment { control: tick.control, switches: tick.switches, position: tick.position, may_home };
        if may_home && tick.control.rises(HOMING_START, self.remembered) {
            self.since_start = Some(Record::begin(moment));
        } else if let Some(record) = &mut self.since_start {
            record.add(sheet.method(), moment);
        }
    }
}

/// "If q is not finite, alarm bit 31 is set in that tick, in any mode."
fn alarm_word(tick: &Tick, sheet: &Sheet) -> u32 {
    match tick.command {
        Command::Hybrid(hybrid) if !hybrid.q(sheet.rated_torque()).is_finite() => tick.alarm | 1 << 31,
        _ => tick.alarm,
    }
}
