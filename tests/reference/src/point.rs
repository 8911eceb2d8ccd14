//! Points in whole units, and exact points before rounding.

use std::iter::Sum;
use std::ops::{Add, Div, Mul, Sub};

use crate::fraction::Fraction;

/// Three coordinates in whole units, which the scope paper calls counts.
pub type Point = [i32; 3];

/// A point whose coordinates are exact fractions.
#[derive(Clone, Copy, Debug, PartialEq, Eq, Hash)]
pub struct ExactPoint(pub [Fraction; 3]);

impl ExactPoint {
    pub const ORIGIN: Self = Self([Fraction::ZERO; 3]);

    /// Each coordinate rounded to the nearest whole number, halves upward.
    pub fn round(self) -> Point {
        self.0
            .map(|value| i32::try_from(value.round()).expect("rounded coordinate fits 32 bits"))
    }

    fn zip_with(self, other: Self, f: impl Fn(Fraction, Fraction) -> Fraction) -> Self {
        Self(std::array::from_fn(|axis| f(self.0[axis], other.0[axis])))
    }
}

impl From<Point> for ExactPoint {
    fn from(point: Point) -> Self {
        Self(point.map(|value| Fraction::whole(value.into())))
    }
}

impl Add for ExactPoint {
    type Output = Self;

    fn add(self, other: Self) -> Self {
        self.zip_with(other, Add::add)
    }
}

impl Sub for ExactPoint {
    type Output = Self;

    fn sub(self, other: Self) -> Self {
        self.zip_with(other, Sub::sub)
    }
}

impl Mul<i128> for ExactPoint {
    type Output = Self;

    fn mul(self, factor: i128) -> Self {
        Self(self.0.map(|value| value * factor))
    }
}

impl Div<i128> for ExactPoint {
    type Output = Self;

    fn div(self, divisor: i128) -> Self {
        Self(self.0.map(|value| value / divisor))
    }
}

impl Sum for ExactPoint {
    fn sum<I: Iterator<Item = Self>>(points: I) -> Self {
        points.fold(Self::ORIGIN, Add::add)
    }
}
