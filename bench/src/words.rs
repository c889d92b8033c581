//! Events and answers as plain words, and the baseline's calls over them: the layout of `c/axis.h`, for both sides.

use crate::baseline::{self, Answer, Axis, Command, Gains, Gear, Limits, Settings, Tick};

/// An event is seven words and seven floats, an answer seven words.
pub const WIDTH: usize = 7;

/// Words of a proved axis.
pub const AXIS_WORDS: usize = 39;

/// Fields of settings.
pub const AXIS_FIELDS: usize = 16;

/// What an axis is fed with.
#[derive(Clone)]
pub enum Event {
    Word(u32),
    Tick([u32; WIDTH], [f32; WIDTH]),
}

/// A tick as its words and floats.
pub fn event(t: &Tick) -> Event {
    let mut floats = [0.0; WIDTH];
    let (command, request, target) = match t.command {
        Command::Rest => (0, 0, 0),
        Command::Hybrid(g) => {
            floats = [g.kp, g.kd, g.pd, g.vd, g.t, g.p, g.v];
            (1, 0, 0)
        }
        Command::Homing(request) => (2, request, 0),
        Command::Position(target, request) => (3, request, target),
        Command::Torque(request) => (4, request, 0),
    };
    let inputs = t.switches as u32 | (t.still as u32) << 4 | (t.set as u32) << 5;
    Event::Tick([command, t.control as u32, t.position as u32, inputs, t.alarm, request as i32 as u32, target as u32], floats)
}

#[inline(always)]
fn tick_in(e: &[u32; WIDTH], f: &[f32; WIDTH]) -> Tick {
    let request = (e[5] as i32).clamp(-32768, 32767) as i16;
    let command = match e[0] {
        1 => Command::Hybrid(Gains { kp: f[0], kd: f[1], pd: f[2], vd: f[3], t: f[4], p: f[5], v: f[6] }),
        2 => Command::Homing(request),
        3 => Command::Position(e[6] as i32, request),
        4 => Command::Torque(request),
        _ => Command::Rest,
    };
    Tick {
        control: u16::try_from(e[1]).unwrap_or(0),
        command,
        position: e[2] as i32,
        switches: e[3] as u8 & 15,
        still: e[3] & 1 << 4 != 0,
        set: (e[3] >> 5) as u8 & 1,
        alarm: e[4],
    }
}

#[inline(always)]
fn put(out: &mut [u32; WIDTH], a: &Answer) {
    *out = [
        a.number as u32,
        a.torque as i32 as u32,
        a.speed as u32,
        a.position as u32,
        a.status as u32,
        a.mode as i32 as u32,
        a.alarm as u32,
    ];
}

/// What `axis_fresh` of the proved library does, over the baseline.
#[no_mangle]
#[inline(never)]
pub extern "C" fn baseline_fresh(axis: &mut Axis) {
    *axis = Axis::FRESH;
}

/// What `axis_word` does.
#[no_mangle]
#[inline(never)]
pub extern "C" fn baseline_word(axis: &mut Axis, word: u32) -> u32 {
    baseline::word(axis, word) as u32
}

/// What `axis_tick` does.
#[no_mangle]
#[inline(never)]
pub extern "C" fn baseline_tick(axis: &mut Axis, event: &[u32; WIDTH], floats: &[f32; WIDTH], answer: &mut [u32; WIDTH]) -> u32 {
    let a = baseline::tick(axis, &tick_in(event, floats));
    put(answer, &a);
    a.number as u32
}

/// What `axis_write` does.
///
/// # Safety
/// The pointer leads to as many words as the length says.
#[no_mangle]
#[inline(never)]
pub unsafe extern "C" fn baseline_write(layout: u32, settings: &Settings, buffer: *mut u32, length: usize) -> u32 {
    baseline::write_sheet(layout, settings, std::slice::from_raw_parts_mut(buffer, length)) as u32
}

/// The gear among the fields.
fn gear(f: &[u32; AXIS_FIELDS]) -> Gear {
    Gear { offset: f[3] as i32, numerator: f[4], denominator: f[5], lower: f[6] as i32, upper: f[7] as i32 }
}

/// Fields as the baseline's settings. One beyond its width becomes the greatest of that width, which is out of range as well, or the one below
/// it, so that a homing torque that differs from the maximum still does.
pub fn settings(f: &[u32; AXIS_FIELDS]) -> Settings {
    let byte = |field: u32| field.min(u8::MAX.into()) as u8;
    let half = |field: u32| field.min(u16::MAX.into()) as u16;
    let limits = |positive, negative| Limits { positive: half(positive), negative: half(negative) };
    let (maximum, homing) = (half(f[8]), half(f[15]));
    let cut_alike = homing == maximum && f[15] != f[8];
    Settings {
        fast: f[1],
        slow: f[2],
        gear: gear(f),
        rated: f[14],
        maximum,
        homing: homing - cut_alike as u16,
        limits: [limits(f[9], f[10]), limits(f[11], f[12])],
        method: byte(f[0]),
        option: byte(f[13]),
    }
}

/// `baseline_write` for a caller in C, which has fields and no struct.
///
/// # Safety
/// That of `baseline_write`.
#[no_mangle]
pub unsafe extern "C" fn baseline_sheet(layout: u32, fields: &[u32; AXIS_FIELDS], buffer: *mut u32, length: usize) -> u32 {
    baseline_write(layout, &settings(fields), buffer, length)
}

/// The narrow gear alone, without home: 1, or 0 where it is too wide and the count is left alone.
#[no_mangle]
#[inline(never)]
pub extern "C" fn baseline_narrow_gear(fields: &[u32; AXIS_FIELDS], target: i32, count: &mut i32) -> u32 {
    let gear = gear(fields);
    match gear.narrow(gear.clamp(target)) {
        Some(geared) => {
            *count = geared;
            1
        }
        None => 0,
    }
}

/// The wide gear alone, without home.
#[no_mangle]
#[inline(never)]
pub extern "C" fn baseline_wide_gear(fields: &[u32; AXIS_FIELDS], target: i32) -> i32 {
    let gear = gear(fields);
    gear.wide(gear.clamp(target)) as i32
}
