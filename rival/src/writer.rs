//! The sheet writer: settings and a layout in, the words of that layout out.

use crate::refusal::Refusal;
use crate::sheet::{self, Sheet, TORQUE_TOP};

/// What a `sheet` or `layout` line asks for. Each value is wide enough for any number the line may hold, so that nothing is cut down.
#[derive(Clone, Debug, Default, PartialEq, Eq)]
pub struct Settings {
    pub method: i64,
    pub fast: i64,
    pub slow: i64,
    pub offset: i64,
    pub numerator: i64,
    pub denominator: i64,
    pub lower_stop: i64,
    pub upper_stop: i64,
    pub maximum_torque: i64,
    pub positive_1: i64,
    pub negative_1: i64,
    pub positive_2: i64,
    pub negative_2: i64,
    pub quick_stop_option: i64,
    pub rated_torque: i64,
    pub homing_torque: i64,
}

impl Settings {
    /// In the order of a `layout` line.
    pub fn values(&self) -> [i64; 16] {
        [
            self.method,
            self.fast,
            self.slow,
            self.offset,
            self.numerator,
            self.denominator,
            self.lower_stop,
            self.upper_stop,
            self.maximum_torque,
            self.positive_1,
            self.negative_1,
            self.positive_2,
            self.negative_2,
            self.quick_stop_option,
            self.rated_torque,
            self.homing_torque,
        ]
    }

    /// "the offset or a stop needs more than 28 bits"
    pub fn is_long(&self) -> bool {
        [self.offset, self.lower_stop, self.upper_stop].into_iter().any(sheet::is_long)
    }

    /// What a layout cannot hold: "layout 1 is asked and the offset or a stop needs more than 28 bits"; "an older layout is
    /// asked and homing torque differs from the maximum", whatever either does.
    pub fn lost_in(&self, layout: u32) -> Option<Refusal> {
        if layout == 1 && self.is_long() {
            Some(Refusal::LongValue)
        } else if layout < 3 && self.homing_torque != self.maximum_torque {
            Some(Refusal::HomingTorqueLost)
        } else {
            None
        }
    }

    /// The data of a field's word, or nothing where the value is outside the field.
    fn data(&self, layout: u32, kind: u32) -> Option<u32> {
        let data = match kind {
            sheet::METHOD => unsigned(self.method)?,
            sheet::FAST => unsigned(self.fast)?,
            sheet::SLOW => unsigned(self.slow)?,
            sheet::OFFSET => low_bits(self.offset)?,
            sheet::NUMERATOR => unsigned(self.numerator)?,
            sheet::DENOMINATOR => unsigned(self.denominator)?,
            sheet::LOWER_STOP => low_bits(self.lower_stop)?,
            sheet::UPPER_STOP => low_bits(self.upper_stop)?,
            sheet::MAXIMUM_TORQUE => unsigned(self.maximum_torque)?,
            sheet::LIMIT_SET_1 => limits(self.positive_1, self.negative_1)?,
            sheet::LIMIT_SET_2 => limits(self.positive_2, self.negative_2)?,
            sheet::QUICK_STOP_OPTION if layout == 3 => option_and_torque(self.quick_stop_option, self.homing_torque)?,
            sheet::QUICK_STOP_OPTION => unsigned(self.quick_stop_option)?,
            sheet::RATED_TORQUE => unsigned(self.rated_torque)?,
            sheet::TOP_BITS => {
                let places =
                    [(sheet::OFFSET, self.offset), (sheet::LOWER_STOP, self.lower_stop), (sheet::UPPER_STOP, self.upper_stop)];
                places.iter().fold(0, |data, &(kind, place)| data | top_bits(place) << sheet::top_bits_at(kind))
            }
            _ => return None,
        };
        sheet::data_is_in_range(layout, kind, data).then_some(data)
    }

    /// The words of this layout, or nothing where nobody defined it or a value is outside its field. What is lost in it is for
    /// the writer to refuse.
    pub fn words(&self, layout: u32) -> Option<Vec<u32>> {
        let mut words = Vec::new();
        for &kind in sheet::kinds(layout)? {
            let data = match kind {
                sheet::START => layout,
                sheet::END => sheet::sum(&words),
                field => self.data(layout, field)?,
            };
            words.push(sheet::word(kind, data));
        }
        Some(words)
    }
}

fn unsigned(value: i64) -> Option<u32> {
    (0..=i64::from(sheet::DATA)).contains(&value).then_some(value as u32)
}

/// The low 28 bits of a place of 32.
fn low_bits(place: i64) -> Option<u32> {
    i32::try_from(place).ok().map(|place| place as u32 & sheet::DATA)
}

/// Its top four.
fn top_bits(place: i64) -> u32 {
    place as u32 >> 28
}

/// Tested before packing: a torque would otherwise spill into its neighbour.
fn torque(value: i64) -> Option<u32> {
    (0..=i64::from(TORQUE_TOP)).contains(&value).then_some(value as u32)
}

fn limits(positive: i64, negative: i64) -> Option<u32> {
    Some(torque(negative)? << 14 | torque(positive)?)
}

/// Layout 3's kind 12: "bits 8 to 19 hold the homing torque", "bits 0 to 7 keep the option".
fn option_and_torque(option: i64, homing_torque: i64) -> Option<u32> {
    let option = u8::try_from(option).ok()?;
    Some(torque(homing_torque)? << 8 | u32::from(option))
}

/// All that can be wrong where this layout is asked, in the order in which it is tested.
pub fn faults(layout: u32) -> &'static [Refusal] {
    use Refusal::*;
    match layout {
        1 => &[ShortBuffer, LongValue, HomingTorqueLost, OutOfRange, StopsCrossed, OutOfReach],
        2 => &[ShortBuffer, HomingTorqueLost, OutOfRange, StopsCrossed, OutOfReach],
        3 => &[ShortBuffer, OutOfRange, StopsCrossed, OutOfReach],
        _ => &[StrangeLayout, ShortBuffer, LongValue, HomingTorqueLost, OutOfRange, StopsCrossed, OutOfReach],
    }
}

/// Two of them at once, the one that is said and the one that is not. Of a layout nobody defined nothing else is ever said.
pub fn two_faults(layout: u32) -> Vec<(Refusal, Refusal)> {
    let faults = faults(layout);
    let said = if faults[0] == Refusal::StrangeLayout { 1 } else { faults.len() };
    (0..said).flat_map(|place| faults[place + 1..].iter().map(move |&unsaid| (faults[place], unsaid))).collect()
}

/// Tested 2, 9, 10, 11, 3, 5, 6. "The writer fills 15 words and keeps the rest of a longer buffer", or 16 in layouts 2 and 3;
/// refused, it touches none.
pub fn write(layout: u32, settings: &Settings, buffer: &mut [u32]) -> Result<(), Refusal> {
    let kinds = sheet::kinds(layout).ok_or(Refusal::StrangeLayout)?;
    let room = buffer.get_mut(..kinds.len()).ok_or(Refusal::ShortBuffer)?;
    if let Some(lost) = settings.lost_in(layout) {
        return Err(lost);
    }
    let words = settings.words(layout).ok_or(Refusal::OutOfRange)?;
    Sheet::of(&words).stops_are_sound()?;
    room.copy_from_slice(&words);
    Ok(())
}
