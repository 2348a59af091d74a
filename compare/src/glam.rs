//! `DVec3` with document 01's arithmetic, in place of the crate glam.

use crate::stand::Stand;
use std::ops::{Add, Div, Mul, Neg, Sub, SubAssign};

#[derive(Debug, Clone, Copy, PartialEq)]
pub struct DVec3 {
    pub x: f64,
    pub y: f64,
    pub z: f64,
}

impl DVec3 {
    pub const ZERO: Self = Self::new(0.0, 0.0, 0.0);
    pub const Y: Self = Self::new(0.0, 1.0, 0.0);
    pub const Z: Self = Self::new(0.0, 0.0, 1.0);

    pub const fn new(x: f64, y: f64, z: f64) -> Self {
        Self { x, y, z }
    }

    pub fn dot(self, w: Self) -> f64 {
        (self.x * w.x + self.y * w.y) + self.z * w.z
    }

    pub fn cross(self, w: Self) -> Self {
        Self::new(self.y * w.z - self.z * w.y, self.z * w.x - self.x * w.z, self.x * w.y - self.y * w.x)
    }

    pub fn length_squared(self) -> f64 {
        self.dot(self)
    }

    pub fn length(self) -> f64 {
        self.dot(self).root()
    }

    pub fn normalize(self) -> Self {
        self * (1.0 / self.length())
    }

    pub fn normalize_or_zero(self) -> Self {
        let inverse = 1.0 / self.length();
        if inverse.is_finite() && inverse > 0.0 { self * inverse } else { Self::ZERO }
    }

    /// For `GroundModel::landing`, which no comparison calls.
    pub fn lerp(self, w: Self, s: f64) -> Self {
        self * (1.0 - s) + w * s
    }
}

impl Add for DVec3 {
    type Output = Self;
    fn add(self, w: Self) -> Self {
        Self::new(self.x + w.x, self.y + w.y, self.z + w.z)
    }
}

impl Sub for DVec3 {
    type Output = Self;
    fn sub(self, w: Self) -> Self {
        Self::new(self.x - w.x, self.y - w.y, self.z - w.z)
    }
}

impl SubAssign for DVec3 {
    fn sub_assign(&mut self, w: Self) {
        *self = *self - w;
    }
}

impl Neg for DVec3 {
    type Output = Self;
    fn neg(self) -> Self {
        Self::new(-self.x, -self.y, -self.z)
    }
}

impl Mul<f64> for DVec3 {
    type Output = Self;
    fn mul(self, s: f64) -> Self {
        Self::new(self.x * s, self.y * s, self.z * s)
    }
}

impl Mul<DVec3> for f64 {
    type Output = DVec3;
    fn mul(self, v: DVec3) -> DVec3 {
        DVec3::new(self * v.x, self * v.y, self * v.z)
    }
}

impl Div<f64> for DVec3 {
    type Output = Self;
    fn div(self, s: f64) -> Self {
        Self::new(self.x / s, self.y / s, self.z / s)
    }
}
