//! The torque rule.

use crate::command::{Command, HOMING_MODE};
use crate::sheet::{LimitSet, Sheet};

/// "The demand is the request, or in hybrid the value below." Rest demands nothing; it is never matched anyway.
fn demand(command: &Command, sheet: &Sheet) -> i64 {
    match *command {
        Command::Hybrid(hybrid) => hybrid.demand(sheet.rated_torque()),
        Command::Homing { request } | Command::Torque { request } => i64::from(request),
        Command::Position { request, .. } => i64::from(request),
        Command::Rest => 0,
    }
}

/// "In mode 6 the torque cap is the least of three: maximum, chosen limit, homing torque", in any other the lesser of the first
/// two. The mode is the shown one.
fn cap(sheet: &Sheet, mode: i8, limit: i64) -> i64 {
    let lesser = sheet.maximum_torque().min(limit);
    match mode {
        HOMING_MODE => lesser.min(sheet.homing_torque()),
        _ => lesser,
    }
}

/// "the demand clamped between −(lesser of maximum and chosen negative limit) and the lesser of maximum and chosen positive
/// limit"; "every torque bound means that cap".
pub fn torque(command: &Command, sheet: &Sheet, mode: i8, set: LimitSet) -> i64 {
    let most = cap(sheet, mode, sheet.positive_limit(set));
    let least = -cap(sheet, mode, sheet.negative_limit(set));
    demand(command, sheet).clamp(least, most)
}
