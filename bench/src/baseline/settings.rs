//! Settings, and the words that carry them.

use super::gear::Gear;

const DATA: u32 = (1 << 28) - 1;

/// Outcome of an end word whose settings are sound.
pub const COMPLETE: u8 = 255;

/// A set of torque limits, as magnitudes.
#[derive(Clone, Copy)]
pub struct Limits {
    pub positive: u16,
    pub negative: u16,
}

#[derive(Clone, Copy)]
pub struct Settings {
    pub fast: u32,
    pub slow: u32,
    pub gear: Gear,
    pub rated: u32,
    pub maximum: u16,
    /// The homing torque; of settings that were read, the lesser of it and the maximum, so that a tick compares them no more.
    pub homing: u16,
    pub limits: [Limits; 2],
    pub method: u8,
    pub option: u8,
}

fn method_ok(method: u32) -> bool {
    matches!(method, 1 | 2 | 17 | 18 | 23..=30 | 33..=35)
}

fn torque_ok(torque: u32) -> bool {
    torque <= 3000
}

fn ratio_ok(ratio: u32) -> bool {
    ratio.wrapping_sub(1) < 1 << 20
}

fn option_ok(option: u8) -> bool {
    option == 2 || option == 6
}

fn rated_ok(rated: u32) -> bool {
    rated.wrapping_sub(1) < 1 << 24
}

/// Layout 1, 2 or 3.
fn layout_ok(layout: u32) -> bool {
    layout.wrapping_sub(1) < 3
}

/// 28 bits read as signed.
fn position(data: u32) -> i32 {
    (data << 4) as i32 >> 4
}

/// A position's low 28 bits, below the four from this bit on.
fn lengthened(low: i32, data: u32, bit: u32) -> i32 {
    (low as u32 & DATA | data >> bit << 28) as i32
}

/// A position's top four bits, from this bit on.
fn top(position: i32, bit: u32) -> u32 {
    position as u32 >> 28 << bit
}

impl Settings {
    pub const NONE: Settings = Settings {
        fast: 0,
        slow: 0,
        gear: Gear { offset: 0, numerator: 0, denominator: 1, lower: 0, upper: 0 },
        rated: 1,
        maximum: 0,
        homing: 0,
        limits: [Limits { positive: 0, negative: 0 }; 2],
        method: 35,
        option: 2,
    };

    /// 0, or 5 or 6.
    fn check_limits(&self) -> u8 {
        const REACH: std::ops::RangeInclusive<i64> = -(1 << 30)..=1 << 30;
        let gear = &self.gear;
        if gear.lower >= gear.upper {
            5
        } else if !REACH.contains(&gear.wide(gear.lower)) || !REACH.contains(&gear.wide(gear.upper)) {
            6
        } else {
            0
        }
    }

    /// Whether every position has 28 bits.
    fn short(&self) -> bool {
        let short = |p: i32| position(p as u32) == p;
        short(self.gear.offset) && short(self.gear.lower) && short(self.gear.upper)
    }

    fn in_range(&self) -> bool {
        method_ok(self.method as u32)
            && self.fast.wrapping_sub(1) < DATA
            && self.slow.wrapping_sub(1) < DATA
            && ratio_ok(self.gear.numerator)
            && ratio_ok(self.gear.denominator)
            && torque_ok(self.maximum as u32)
            && torque_ok(self.homing as u32)
            && self.limits.iter().all(|l| torque_ok(l.positive as u32) && torque_ok(l.negative as u32))
            && option_ok(self.option)
            && rated_ok(self.rated)
    }
}

/// The settings that are being read: the kind due next, the layout, and the sum of the data so far.
pub struct Pending {
    pub settings: Settings,
    due: u8,
    layout: u8,
    sum: u32,
}

impl Pending {
    pub const EMPTY: Pending = Pending { settings: Settings::NONE, due: 0, layout: 1, sum: 0 };

    /// Takes one word. Where it is refused, or completes the settings, nothing stays due but a start word.
    pub fn take(&mut self, word: u32) -> u8 {
        let kind = (word >> 28) as u8;
        let data = word & DATA;
        if kind != self.due && kind != 0 {
            self.due = 0;
            return 1;
        }
        let s = &mut self.settings;
        let ok = match kind {
            0 => {
                self.sum = 0;
                if !layout_ok(data) {
                    self.due = 0;
                    return 2;
                }
                self.layout = data as u8;
                true
            }
            1 => {
                s.method = data as u8;
                method_ok(data)
            }
            2 => {
                s.fast = data;
                data != 0
            }
            3 => {
                s.slow = data;
                data != 0
            }
            4 => {
                s.gear.offset = position(data);
                true
            }
            5 => {
                s.gear.numerator = data;
                ratio_ok(data)
            }
            6 => {
                s.gear.denominator = data;
                ratio_ok(data)
            }
            7 => {
                s.gear.lower = position(data);
                true
            }
            8 => {
                s.gear.upper = position(data);
                true
            }
            9 => {
                s.maximum = data as u16;
                s.homing = s.maximum;
                torque_ok(data)
            }
            10 | 11 => {
                let (positive, negative) = (data & 0x3fff, data >> 14);
                s.limits[kind as usize - 10] = Limits { positive: positive as u16, negative: negative as u16 };
                torque_ok(positive) && torque_ok(negative)
            }
            12 => {
                s.option = data as u8;
                let torque = data >> 8;
                if self.layout == 3 {
                    s.homing = s.maximum.min(torque as u16);
                    option_ok(s.option) && torque_ok(torque)
                } else {
                    option_ok(s.option) && torque == 0
                }
            }
            13 => {
                s.rated = data;
                rated_ok(data)
            }
            14 => {
                s.gear.offset = lengthened(s.gear.offset, data, 0);
                s.gear.lower = lengthened(s.gear.lower, data, 4);
                s.gear.upper = lengthened(s.gear.upper, data, 8);
                data < 1 << 12
            }
            _ => {
                self.due = 0;
                if data != self.sum & DATA {
                    return 4;
                }
                let number = s.check_limits();
                return if number == 0 { COMPLETE } else { number };
            }
        };
        if !ok {
            self.due = 0;
            return 3;
        }
        self.sum += data;
        self.due = if kind == 13 && self.layout == 1 { 15 } else { kind + 1 };
        0
    }
}

/// Writes settings as the words of a layout to the front of the buffer; 0, or why they are refused.
pub fn write_sheet(layout: u32, s: &Settings, buffer: &mut [u32]) -> u8 {
    if !layout_ok(layout) {
        return 2;
    }
    let long = layout != 1;
    if buffer.len() < 15 + long as usize {
        return 9;
    }
    if !long && !s.short() {
        return 10;
    }
    if layout != 3 && s.homing != s.maximum {
        return 11;
    }
    if !s.in_range() {
        return 3;
    }
    let number = s.check_limits();
    if number != 0 {
        return number;
    }
    let limits = |l: &Limits| (l.negative as u32) << 14 | l.positive as u32;
    let data = [
        layout,
        s.method as u32,
        s.fast,
        s.slow,
        s.gear.offset as u32 & DATA,
        s.gear.numerator,
        s.gear.denominator,
        s.gear.lower as u32 & DATA,
        s.gear.upper as u32 & DATA,
        s.maximum as u32,
        limits(&s.limits[0]),
        limits(&s.limits[1]),
        s.option as u32,
        s.rated,
    ];
    let (words, last) = buffer.split_at_mut(data.len());
    let mut sum = 0;
    for (kind, &x) in data.iter().enumerate() {
        words[kind] = (kind as u32) << 28 | x;
        sum += x;
    }
    if long {
        let tops = top(s.gear.offset, 0) | top(s.gear.lower, 4) | top(s.gear.upper, 8);
        last[0] = 14 << 28 | tops;
        sum += tops;
        if layout == 3 {
            let homing = (s.homing as u32) << 8;
            words[12] |= homing;
            sum += homing;
        }
    }
    last[long as usize] = 15 << 28 | sum & DATA;
    0
}
