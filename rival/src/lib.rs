//! A rival of the show axis: the same answers by a second way.
//!
//! It is written from the papers (01, 02) and the line layout alone. Where they offer two tellings of one rule it takes the
//! one about the whole list: the sheet in force is read from the recorded words, and homed, homing error and the running leg
//! from the recorded ticks since the latest homing start, cut into one stretch a leg. No homing phase is kept.

pub mod answers;
pub mod axis;
pub mod command;
pub mod control_word;
pub mod drive_state;
pub mod gear;
pub mod homing;
pub mod hybrid;
pub mod lines;
pub mod numerals;
pub mod picture;
pub mod program;
pub mod rail;
pub mod random;
pub mod refusal;
pub mod script;
pub mod sheet;
pub mod simulator;
pub mod statusword;
pub mod tally;
pub mod tick;
pub mod torque;
pub mod words;
pub mod writer;
