//! A stand-in for the crate `glam`: `Vec2` with what the given files use of it.
//! Written from the definition of the build alone: each operation rounds once, none is fused.

use std::ops::{Add, Div, Mul, Neg, Sub};

/// Equal by the value of the components, so a zero equals the other zero.
#[derive(Clone, Copy, PartialEq, Debug)]
pub struct Vec2 {
    pub x: f32,
    pub y: f32,
}

impl Vec2 {
    pub const ZERO: Vec2 = Vec2::new(0.0, 0.0);

    pub const fn new(x: f32, y: f32) -> Vec2 {
        Vec2 { x, y }
    }

    pub fn dot(self, other: Vec2) -> f32 {
        self.x * other.x + self.y * other.y
    }

    pub fn perp(self) -> Vec2 {
        Vec2::new(-self.y, self.x)
    }

    pub fn length_squared(self) -> f32 {
        self.dot(self)
    }

    pub fn distance_squared(self, other: Vec2) -> f32 {
        (self - other).length_squared()
    }

    pub fn length(self) -> f32 {
        self.length_squared().sqrt()
    }

    /// Multiplies by 1 / length; dividing by the length would round otherwise.
    pub fn normalize(self) -> Vec2 {
        self * self.length_recip()
    }

    // The rest is used by the neighbour lines alone, which the definition of the build takes as they come.

    pub fn length_recip(self) -> f32 {
        1.0 / self.length()
    }

    pub fn normalize_or_zero(self) -> Vec2 {
        let scale = self.length_recip();
        if scale.is_finite() && scale > 0.0 {
            self * scale
        } else {
            Vec2::ZERO
        }
    }

    pub fn project_onto_normalized(self, onto: Vec2) -> Vec2 {
        onto * self.dot(onto)
    }
}

impl Add for Vec2 {
    type Output = Vec2;

    fn add(self, other: Vec2) -> Vec2 {
        Vec2::new(self.x + other.x, self.y + other.y)
    }
}

impl Sub for Vec2 {
    type Output = Vec2;

    fn sub(self, other: Vec2) -> Vec2 {
        Vec2::new(self.x - other.x, self.y - other.y)
    }
}

impl Neg for Vec2 {
    type Output = Vec2;

    fn neg(self) -> Vec2 {
        Vec2::new(-self.x, -self.y)
    }
}

impl Mul<f32> for Vec2 {
    type Output = Vec2;

    fn mul(self, factor: f32) -> Vec2 {
        Vec2::new(self.x * factor, self.y * factor)
    }
}

impl Mul<Vec2> for f32 {
    type Output = Vec2;

    fn mul(self, vector: Vec2) -> Vec2 {
        Vec2::new(self * vector.x, self * vector.y)
    }
}

impl Div<f32> for Vec2 {
    type Output = Vec2;

    fn div(self, divisor: f32) -> Vec2 {
        Vec2::new(self.x / divisor, self.y / divisor)
    }
}
