//! The refusals and their trade words.

#[derive(Clone, Copy, Debug, PartialEq, Eq)]
pub enum Refusal {
    OutOfTurn = 1,
    StrangeLayout = 2,
    OutOfRange = 3,
    BadSum = 4,
    StopsCrossed = 5,
    OutOfReach = 6,
    AxisLive = 7,
    NoSheet = 8,
    ShortBuffer = 9,
    LongValue = 10,
    HomingTorqueLost = 11,
    RailUnfit = 12,
}

impl Refusal {
    pub fn number(self) -> u8 {
        self as u8
    }

    pub fn trade_word(self) -> &'static str {
        match self {
            Refusal::OutOfTurn => "out of turn",
            Refusal::StrangeLayout => "strange layout",
            Refusal::OutOfRange => "out of range",
            Refusal::BadSum => "bad sum",
            Refusal::StopsCrossed => "stops crossed",
            Refusal::OutOfReach => "out of reach",
            Refusal::AxisLive => "axis live",
            Refusal::NoSheet => "no sheet",
            Refusal::ShortBuffer => "short buffer",
            Refusal::LongValue => "long value",
            Refusal::HomingTorqueLost => "homing torque lost",
            Refusal::RailUnfit => "rail unfit",
        }
    }
}
