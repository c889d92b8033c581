//! Everything a script is to reach, by name.

use super::gears::{BY_BOTH, EDGES as GEAR_EDGES, ON_EDGE, ON_LONG_RAILS};
use super::refused;
use super::settings::{can_hold, EDGES, FIELDS, INNER_METHODS};
use super::text::{EXPECTED, FLOAT_SHAPES};
use super::{homing_torque, layouts, rehearsals};
use crate::control_word::DriveCommand::*;
use crate::drive_state::DriveState::{self, *};
use crate::homing::failing_legs;
use crate::lines::LONGEST;
use crate::refusal::Refusal::*;

const STATES: [DriveState; 8] =
    [NotReady, SwitchOnDisabled, Ready, SwitchedOn, OperationEnabled, QuickStopActive, FaultReaction, Fault];

/// Every transition of the paper.
const TRANSITIONS: [(DriveState, &[DriveState]); 8] = [
    (NotReady, &[SwitchOnDisabled, FaultReaction]),
    (SwitchOnDisabled, &[Ready, FaultReaction]),
    (Ready, &[SwitchedOn, SwitchOnDisabled, FaultReaction]),
    (SwitchedOn, &[OperationEnabled, Ready, SwitchOnDisabled, FaultReaction]),
    (OperationEnabled, &[SwitchedOn, Ready, SwitchOnDisabled, QuickStopActive, FaultReaction]),
    (QuickStopActive, &[SwitchOnDisabled, OperationEnabled, FaultReaction]),
    (FaultReaction, &[Fault]),
    (Fault, &[SwitchOnDisabled]),
];

const SINGLE: &[&str] = &[
    "line: fresh",
    "text: last line without LF",
    "text: CR LF",
    "text: a comment too long",
    "text: empty line",
    "text: blank line",
    "text: only a comment",
    "text: tabs between words",
    "text: comment behind words",
    "text: unreadable before a comment",
    "text: any bytes in a comment",
    "text: NUL in a word",
    "text: high byte in a word",
    "text: CR in a word",
    "unreadable: line too long",
    "word: axis live in OperationEnabled",
    "word: axis live in QuickStopActive",
    "word: refused, the earlier sheet stays",
    "word: bad sum said before axis live",
    "word: stops crossed said before axis live",
    "word: end too early",
    "word: start halfway",
    "word: strange start halfway",
    "takeover clears homed",
    "takeover clears homing error",
    "takeover with a sum beyond 28 bits",
    "takeover, then bit 4 held starts nothing",
    "takeover, then bit 7 held resets nothing",
    "reach: lower stop at its last count",
    "reach: upper stop at its last count",
    "reach: lower stop out",
    "reach: only upper stop out",
    "writer: short buffer said before out of range",
    "writer: a value beyond 28 bits",
    "writer: long value by a sheet line",
    "writer: a small field's value beyond 16 bits",
    "tick between the words of a sheet",
    "Fault: bit 7 rises, no alarm",
    "Fault: bit 7 rises, alarm present",
    "Fault: bit 7 held, no alarm",
    "Fault: bit 7 clear",
    "rest in OperationEnabled",
    "rest in QuickStopActive",
    "mode changes at standstill while enabled",
    "mode changes moving in quick stop",
    "alarm: several bits, the lowest counts",
    "alarm: another one in fault changes no number",
    "alarm: bit 31 by q, a lower one counts",
    "no start: not enabled",
    "no start: not matched",
    "no start: bit 4 held",
    "start in the tick that enables",
    "start halted",
    "start as a switch turns",
    "start clears homed",
    "start clears homing error",
    "method 35 halted",
    "method 35 not halted",
    "homed stays in fault",
    "homed stays with bit 4 clear",
    "homing error without movement",
    "homing error along the movement",
    "homing error against the movement",
    "halt in the midst",
    "idled: bit 4 clear",
    "idled: rest",
    "idled: another mode",
    "idled: another command, mode stays",
    "event missed: halted",
    "event missed: no movement",
    "event missed: coasting the other way",
    "limit missed: halted",
    "limit passes: against travel",
    "limit gone as halt ends",
    "limit on since halt: turns",
    "limit on since halt: error",
    "limit on in the start tick, off in the next",
    "limit on in the tick that begins a leg, off in the next",
    "limit turns without movement",
    "limit turns along the movement",
    "limit turns against the movement",
    "event and limit in one tick, it rises",
    "event and limit in one tick, it was on",
    "a first leg begins on the limit: event first",
    "event counts across 2^31",
    "event counts at a movement of 2^31",
    "target not followed: not homed",
    "target not followed: not matched",
    "target not followed: not enabled",
    "target clamped to the lower stop",
    "target on the lower stop",
    "target between the stops",
    "target on the upper stop",
    "target clamped to the upper stop",
    "target wraps across 2^31",
    "narrow gear: denominator 1",
    "narrow gear: wide without the offset",
    "narrow gear: wide without the clamp",
    "wide gear: denominator 2",
    "wide gear: narrow without the offset",
    "wide gear: narrow without the clamp",
    "wide gear: 16 bits times 16 bits, above zero",
    "wide gear: 16 bits times 16 bits, below zero",
    "wide gear: the least count above zero",
    "wide gear: the least count below zero",
    "wide gear: the low half is 0",
    "wide gear: the low half is above zero as well",
    "wide gear: the low half is below zero as well",
    "torque: the demand itself",
    "torque: the demand on its limit",
    "torque: positive limit of set 1 holds",
    "torque: negative limit of set 1 holds",
    "torque: positive limit of set 2 holds",
    "torque: negative limit of set 2 holds",
    "torque: maximum holds above",
    "torque: maximum holds below",
    "torque: in quick stop",
    "torque: request -32768",
    "torque: request 32767",
    "hybrid: NaN given",
    "hybrid: infinity given",
    "hybrid: NaN made",
    "hybrid: overflow of finite floats",
    "hybrid: not finite, not matched",
    "hybrid: not finite in fault",
    "hybrid: subnormal given",
    "hybrid: q subnormal",
    "hybrid: q finite and beyond 64 bits",
    "hybrid: roundings of binary32 decide",
    "hybrid: fraction dropped above zero",
    "hybrid: fraction dropped below zero",
];

pub(super) fn names() -> Vec<String> {
    let mut names: Vec<String> = SINGLE.iter().map(|name| name.to_string()).collect();
    names.extend(texts());
    names.extend(refusals());
    names.extend(fields());
    names.extend(states());
    names.extend(commands());
    names.extend(homing());
    names.extend(gears());
    names.extend(layouts::names());
    names.extend(homing_torque::names());
    names.extend(rehearsals::names());
    names
}

fn texts() -> Vec<String> {
    let mut names = Vec::new();
    for length in LONGEST - 1..=LONGEST + 2 {
        for with in ["with", "without"] {
            names.push(format!("text: {length} bytes, {with} CR"));
        }
    }
    for what in EXPECTED {
        // A line without its first word is blank, and a missing end is no end.
        for how in ["wrong", "missing"] {
            if how == "wrong" || what != EXPECTED[0] && what != "end of line" {
                names.push(format!("unreadable: {what}, {how}"));
            }
        }
    }
    names.extend(FLOAT_SHAPES.map(|shape| format!("float: {shape}")));
    names
}

fn refusals() -> Vec<String> {
    let by_word = [OutOfTurn, StrangeLayout, OutOfRange, BadSum, StopsCrossed, OutOfReach, AxisLive];
    let by_writer = [StrangeLayout, ShortBuffer, LongValue, HomingTorqueLost, OutOfRange, StopsCrossed, OutOfReach];
    let mut names: Vec<String> = by_word.map(|refusal| refused("word", refusal)).into();
    names.extend(by_word.map(|refusal| format!("word: due before refusal {}, out of turn after it", refusal.number())));
    names.push(refused("tick", NoSheet));
    names.extend(by_writer.map(|refusal| refused("writer", refusal)));
    names
}

fn fields() -> Vec<String> {
    let mut names: Vec<String> = (0..=32).map(|length| format!("writer: buffer of {length}")).collect();
    for by in ["word", "writer"] {
        for (field, (name, _, _)) in FIELDS.into_iter().enumerate() {
            let held = EDGES.into_iter().filter(|edge| can_hold(by, field, edge));
            names.extend(held.map(|edge| format!("{by}: {name} {edge}")));
        }
        names.extend(INNER_METHODS.map(|method| format!("{by}: method {method}")));
    }
    names
}

fn states() -> Vec<String> {
    let mut names = Vec::new();
    for state in STATES {
        names.push(format!("state {state:?}"));
        names.push(format!("alarm in {state:?}"));
        if !state.is_live() {
            names.push(format!("takeover in {state:?}"));
        }
    }
    for (from, all) in TRANSITIONS {
        names.extend(all.iter().map(|to| format!("{from:?} to {to:?}")));
    }
    names.extend((1..=32).map(|number| format!("alarm number {number}")));
    names
}

fn commands() -> Vec<String> {
    let mut names = Vec::new();
    let mut drive: Vec<String> =
        [DisableVoltage, QuickStop, Shutdown, SwitchOn, Enable].map(|command| format!("{command:?}")).into();
    drive.push("bit 7 set".to_string());
    for command in drive {
        for state in [SwitchOnDisabled, Ready, SwitchedOn, OperationEnabled] {
            names.push(format!("{state:?}: {command}"));
        }
        for how in ["still", "moving"] {
            names.extend([2, 6].map(|option| format!("QuickStopActive: {command}, {how}, option {option}")));
        }
    }
    for name in ["hybrid", "homing", "position", "torque"] {
        names.push(format!("{name} matched in OperationEnabled"));
        names.push(format!("{name} not matched in OperationEnabled"));
        names.push(format!("{name} matched in QuickStopActive"));
    }
    names
}

fn homing() -> Vec<String> {
    let mut names = Vec::new();
    for method in 23..=30 {
        names.extend(["A", "B", "C"].map(|way| format!("method {method} homed by {way}")));
    }
    names.extend([33, 34, 35].map(|method| format!("method {method} homed by Sole")));
    for (method, limit) in [(1, "Not"), (2, "Pot"), (17, "Not"), (18, "Pot")] {
        names.extend(["OffLimit", "OnLimit"].map(|way| format!("method {method} homed by {way}")));
        names.extend(["rises", "drops"].map(|turn| format!("method {method}: start as {limit} {turn}")));
        let missed = ["halted", "no movement", "coasting the other way"];
        names.extend(missed.map(|why| format!("method {method}: {limit}'s drop missed: {why}")));
        let ends = ["without movement", "along the movement", "against the movement", "since halt"];
        names.extend(ends.map(|how| format!("method {method}: first leg ends {how}")));
        let passes = ["HOM plays no part", "the limit behind rises", "Z rises in the tick of another event"];
        names.extend(passes.map(|what| format!("method {method}: {what}")));
    }
    let with_a_leg = [1, 2, 17, 18].into_iter().chain(23..=30).chain([33, 34]);
    names.extend(with_a_leg.clone().map(|method| format!("homing error, method {method}")));
    names.extend(with_a_leg.map(|method| format!("method {method}: limit behind on all along")));
    names.extend((23..=30).map(|method| format!("method {method} begins on the limit: turns")));
    names.extend((23..=30).map(|method| format!("method {method} B, leg 3 begins on the limit: event first")));
    names.extend([1, 2].map(|method| format!("method {method}, last leg begins on the limit: event first")));
    for (method, way, place) in failing_legs() {
        names.push(format!("method {method} {way:?}, leg {} begins on the limit: error", place + 1));
    }
    names.extend(["A", "B", "C", "OffLimit", "OnLimit", "Sole"].map(|way| format!("homing error, route {way}")));
    let left = [SwitchedOn, Ready, SwitchOnDisabled, QuickStopActive, FaultReaction];
    names.extend(left.map(|state| format!("idled: state {state:?}")));
    names
}

fn gears() -> Vec<String> {
    let mut names = Vec::new();
    for gear in ["narrow gear", "wide gear"] {
        names.extend(BY_BOTH.map(|what| format!("{gear}: {what}")));
    }
    for (edge, _) in GEAR_EDGES {
        names.extend(ON_EDGE.map(|what| format!("{edge}: {what}")));
    }
    names.extend(ON_LONG_RAILS.map(String::from));
    names
}
