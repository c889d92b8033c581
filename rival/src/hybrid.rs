//! The hybrid demand, in binary32.

#[derive(Clone, Copy, Debug)]
pub struct Hybrid {
    pub kp: f32,
    pub kd: f32,
    pub pd: f32,
    pub vd: f32,
    pub t: f32,
    pub p: f32,
    pub v: f32,
}

impl Hybrid {
    /// "q = ((KP × (pd − p) + KD × (vd − v)) + T) × 1000000 ÷ rated, every operation rounded once in that order."
    ///
    /// Rust rounds each f32 operation once and never fuses two. Rated is at most 2^24, so it is a float without rounding.
    pub fn q(&self, rated_torque: u32) -> f32 {
        let stiffness = self.kp * (self.pd - self.p);
        let damping = self.kd * (self.vd - self.v);
        ((stiffness + damping) + self.t) * 1_000_000.0 / rated_torque as f32
    }

    /// "The demand is q's whole part, towards zero." The cast drops the fraction; where q is beyond 64 bits it gives the
    /// outermost whole number instead, which any torque limit cuts down just the same.
    pub fn demand(&self, rated_torque: u32) -> i64 {
        self.q(rated_torque) as i64
    }
}
