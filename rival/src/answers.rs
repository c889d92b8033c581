//! How answers are printed.

use crate::lines::{Unreadable, LONGEST};
use crate::refusal::Refusal;
use crate::simulator::{Run, Stop};
use crate::tick::Answer;

fn number(refusal: Option<Refusal>) -> u8 {
    refusal.map_or(0, Refusal::number)
}

/// "Where `N` is not 0 the answer ends in two spaces and the paper's trade word."
fn closing(refusal: Option<Refusal>) -> String {
    refusal.map_or(String::new(), |refusal| format!("  {}", refusal.trade_word()))
}

pub fn word(refusal: Option<Refusal>) -> String {
    format!("word {}{}", number(refusal), closing(refusal))
}

pub fn tick(answer: &Answer) -> String {
    let Answer { refusal, torque, speed, position, status, mode, alarm } = *answer;
    format!(
        "tick {} torque {torque} speed {speed} position {position} status {status:04X} mode {mode} alarm {alarm}{}",
        number(refusal),
        closing(refusal)
    )
}

/// The writer's, to a `sheet` or a `layout` line.
pub fn written(keyword: &str, refusal: Option<Refusal>, buffer: &[u32]) -> String {
    let words: String = buffer.iter().map(|word| format!(" {word:08X}")).collect();
    format!("{keyword} {}{words}{}", number(refusal), closing(refusal))
}

/// The simulator's, to a `run` or a `picture` line. "A refused run has T 0 and STOP `none`."
pub fn run(keyword: &str, run: &Result<Run, Refusal>) -> String {
    let (refusal, ticks, stop) = match run {
        Ok(run) => (None, run.ticks, stop(run.stop)),
        Err(refusal) => (Some(*refusal), 0, "none"),
    };
    format!("{keyword} {} ticks {ticks} stop {stop}{}", number(refusal), closing(refusal))
}

fn stop(stop: Stop) -> &'static str {
    match stop {
        Stop::Homed => "homed",
        Stop::Error => "error",
        Stop::Ticks => "ticks",
    }
}

pub fn unreadable(line: u64, unreadable: &Unreadable) -> String {
    match unreadable {
        Unreadable::Expected { column, what } => format!("unreadable {line} {column} expected {what}"),
        Unreadable::TooLong => format!("unreadable {line} {} line too long", LONGEST + 1),
    }
}
