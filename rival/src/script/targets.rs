//! Scenes about what is handed out: followed targets, torque requests, hybrid demands.

use std::io::Write;

use super::sheets::{old, sheet_s};
use super::Script;
use crate::drive_state::DriveState::*;
use crate::hybrid::Hybrid;
use crate::numerals;
use crate::writer::Settings;

/// Floats that are trouble: zeros, the smallest, the greatest, infinities, NaNs, and decimals of all shapes.
const FLOATS: [&str; 24] = [
    "0",
    "-0",
    "1",
    "-1",
    "0.5",
    "-0.5",
    "000000000",
    "123456789",
    "999999999",
    "-99999999.9",
    "0.00000001",
    "16777217",
    "x00000000",
    "x80000000",
    "x00000001",
    "x807FFFFF",
    "x3f800000",
    "x7F7FFFFF",
    "xFF7FFFFF",
    "x7F800000",
    "xff800000",
    "x7FC00000",
    "xFFC00001",
    "x7F800001",
];

/// KP KD PD VD T P V, each line reaching one case by itself: NaN, infinities, overflow, subnormals, huge but finite, edges of
/// the whole part.
const HYBRIDS: [&str; 18] = [
    "2 000000000 0.5 0 0 -0.0 123456789",
    "0 0 0 0 -1 0 0",
    "0 0 0 0 x7FC00000 0 0",
    "0 0 0 0 0 0 x7F800001",
    "0 0 0 0 x7F800000 0 0",
    "0 0 x7F800000 0 0 x7F800000 0",
    "0 0 x7F800000 0 0 0 0",
    "x7F7FFFFF 0 2 0 0 0 0",
    "0 0 0 0 x7F7FFFFF 0 0",
    "0 x7F7FFFFF 0 x7F7FFFFF x7F800000 0 0",
    "x00000001 0 1 0 0 0 0",
    "0 x80000001 0 0.5 x007FFFFF 0 0",
    "0 0 0 0 x71800000 0 0",
    "0 0 0 0 xF1800000 0 0",
    "1 1 0.25 0.125 0.0005 0.75 0.5",
    "0 0 0 0 0.999 0 0",
    "0 0 0 0 -0.0019999 0 0",
    "10.5 0.3 1.25 -2.5 0.75 1.2 -2.4",
];

/// Ways to work out q that are not "every operation rounded once in that order".
#[derive(Clone, Copy)]
enum Slip {
    Binary64,
    Binary64ThenOneRounding,
    Fused,
    ScaleFirst,
}

impl Slip {
    const ALL: [Slip; 4] = [Slip::Binary64, Slip::Binary64ThenOneRounding, Slip::Fused, Slip::ScaleFirst];

    fn demand(self, hybrid: &Hybrid, rated_torque: u32) -> i64 {
        let Hybrid { kp, kd, pd, vd, t, p, v } = *hybrid;
        let [wide_kp, wide_kd, wide_pd, wide_vd, wide_t, wide_p, wide_v] = [kp, kd, pd, vd, t, p, v].map(f64::from);
        let wide = (wide_kp * (wide_pd - wide_p) + wide_kd * (wide_vd - wide_v) + wide_t) * 1e6 / f64::from(rated_torque);
        let rated = rated_torque as f32;
        match self {
            Slip::Binary64 => wide as i64,
            Slip::Binary64ThenOneRounding => wide as f32 as i64,
            Slip::Fused => ((kp.mul_add(pd - p, kd * (vd - v)) + t) * 1e6 / rated) as i64,
            Slip::ScaleFirst => ((kp * (pd - p) + kd * (vd - v) + t) * (1e6 / rated)) as i64,
        }
    }
}

impl<W: Write> Script<W> {
    pub(super) fn any_home(&mut self) -> i32 {
        self.random.pick(&[0, 0, i32::MAX - 4, i32::MIN + 4, -77])
    }

    /// Takes the settings over, but for the method, and is homed by method 35.
    pub(super) fn home_under(&mut self, settings: &Settings, home: i32) {
        self.take_over(&Settings { method: 35, ..settings.clone() });
        self.home_at(home);
    }

    /// By method 35, which is in force.
    pub(super) fn home_at(&mut self, home: i32) {
        self.now.command = "position 1 0".to_string();
        self.reach(OperationEnabled);
        self.tick_with(0x000F, "position 5 0", true); // not homed
        self.now.position = home;
        self.now.switches = Default::default();
        self.tick_with(0x000F, "homing 0", true);
        self.tick_with(0x001F, "homing 0", true);
    }

    /// Homed, then targets inside, on and beyond the stops; then the three reasons not to follow.
    pub(super) fn follow_targets(&mut self) {
        let any_home = self.any_home();
        for (settings, home) in [(sheet_s(), i32::MAX - 4), (self.any_settings(), any_home)] {
            self.home_under(&settings, home);
            let (lower, upper) = (settings.lower_stop, settings.upper_stop);
            let inside = self.random.between(lower, upper);
            let targets = [5, -5, lower - 1, lower, lower + 1, upper - 1, upper, upper + 1, inside, 1001, 1000];
            for target in targets.into_iter().filter(|&target| i32::try_from(target).is_ok()) {
                let request = self.random.between(-32768, 32767);
                self.move_by(1);
                self.tick_with(0x000F, &format!("position {target} {request}"), true);
            }
            for target in [i32::MIN, i32::MAX, -1, 0] {
                self.tick_with(0x000F, &format!("position {target} -0"), false);
            }
            self.now.switches.not = true;
            self.tick_with(0x000F, "position 0 0", false);
            self.now.switches.not = false;
            self.tick_with(0x000F, "torque 12", true);
            self.tick_with(0x000F, "position 5 0", false); // not matched
            self.tick_with(0x0007, "position 5 0", true); // not enabled
        }
    }

    /// Requests at, inside and beyond the limits of both sets, under sheets where now the set and now the maximum holds.
    pub(super) fn request_torques(&mut self) {
        let low_maximum = old(Settings { maximum_torque: 250, ..sheet_s() });
        for settings in [sheet_s(), low_maximum, self.any_settings()] {
            self.take_over(&settings);
            self.now.command = "torque 0".to_string();
            self.reach(OperationEnabled);
            for set in [1, 2] {
                self.now.set = set;
                let any = self.random.between(-3100, 3100);
                for request in [900, -700, -32768, 32767, 800, 299, -299, any] {
                    let command = match self.random.between(0, 3) {
                        0 => format!("homing {request}"),
                        1 => format!("position 0 {request}"),
                        _ => format!("torque {request}"),
                    };
                    self.tick_with(0x000F, &command, true);
                }
            }
            self.tick_with(0x000F, "torque 0", true);
            self.tick_with(0x000F, "homing 500", false); // not matched
            self.tick_with(0x0002, "torque 500", false);
            self.now.set = 1;
        }
    }

    fn any_float(&mut self) -> String {
        match self.random.between(0, 5) {
            0 => self.random.pick(&FLOATS).to_string(),
            1 => format!("x{:08X}", self.random.bits() as u32),
            // About one, so that q lands among the torques.
            2 => format!("x{:08x}", 0x3F80_0000 + (self.random.bits() as u32 & 0x00FF_FFFF)),
            3 => format!("{}.{:03}", self.random.between(-3, 3), self.random.between(0, 999)),
            4 => format!("0.{:08}", self.random.between(0, 99_999_999)),
            _ => self.random.between(-2, 2).to_string(),
        }
    }

    pub(super) fn hybrids(&mut self) {
        self.take_over(&Settings { rated_torque: 3000, ..sheet_s() });
        for floats in HYBRIDS {
            self.reach(OperationEnabled);
            self.tick_with(0x000F, &format!("hybrid {floats}"), true);
        }
        let wide = old(Settings { maximum_torque: 3000, positive_1: 3000, negative_1: 3000, ..sheet_s() });
        let rated_torque = self.random.pick(&[1, 12345, 1 << 24]);
        self.take_over(&Settings { rated_torque, ..wide.clone() });
        self.any_hybrids();
        self.hybrid_alarms();
        let rated_torque = self.random.pick(&[1000, 700, 3000]);
        self.take_over(&Settings { rated_torque: rated_torque.into(), ..wide });
        self.close_hybrids(rated_torque);
        self.reach(QuickStopActive);
        self.tick_with(0x0002, "hybrid 0 0 0 0 1 0 0", false);
        self.now.set = 1;
    }

    fn any_hybrids(&mut self) {
        for _ in 0..12 {
            self.reach(OperationEnabled);
            // Half of the seven quiet, so that the others can be heard.
            let floats: Vec<String> =
                (0..7).map(|_| if self.random.once_in(2) { "0".to_string() } else { self.any_float() }).collect();
            self.tick_with(0x000F, &format!("hybrid {}", floats.join(" ")), true);
        }
    }

    /// Demands right beside a whole number, where the roundings of binary32 decide.
    fn close_hybrids(&mut self, rated_torque: u32) {
        self.reach(OperationEnabled);
        for slip in Slip::ALL {
            for _ in 0..6 {
                let floats = self.close_floats(rated_torque, slip);
                self.tick_with(0x000F, &format!("hybrid {floats}"), true);
            }
        }
    }

    /// Seven floats whose demand comes out otherwise with this slip; after many tries, any.
    fn close_floats(&mut self, rated_torque: u32, slip: Slip) -> String {
        let mut words = Vec::new();
        for _ in 0..1000 {
            words = (0..7).map(|_| format!("{}.{}", self.random.between(0, 2), self.random.between(0, 99))).collect();
            let float = |place: usize| numerals::float(words[place].as_bytes()).unwrap_or_default();
            let [kp, kd, pd, vd, t, p, v] = std::array::from_fn(float);
            let hybrid = Hybrid { kp, kd, pd, vd, t, p, v };
            let demand = hybrid.demand(rated_torque);
            if demand.abs() < 3000 && demand != slip.demand(&hybrid, rated_torque) {
                break;
            }
        }
        words.join(" ")
    }

    /// Not matched, yet not finite: the alarm comes in any mode. Then bit 31 with a lower alarm beside it.
    fn hybrid_alarms(&mut self) {
        self.reach(OperationEnabled);
        self.tick_with(0x000F, "torque 10", true);
        self.tick_with(0x000F, "hybrid 1 0 0 0 0 0 0", false);
        self.tick_with(0x000F, "hybrid x7FC00000 0 0 0 0 0 0", false);
        self.tick_with(0x000F, "hybrid x7F800000 0 1 0 0 0 0", false);
        self.tick_with(0x000F, "hybrid x7F800000 0 1 0 0 0 0", true);
        self.reach(OperationEnabled);
        self.now.alarm = 0x0000_0100;
        self.tick_with(0x000F, "hybrid x7F800000 0 1 0 0 0 0", true);
        self.now.alarm = 0;
    }
}
