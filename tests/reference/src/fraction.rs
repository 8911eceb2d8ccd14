//! Exact fractions over `i128`. Every operation panics on overflow.

use std::ops::{Add, Div, Mul, Sub};

/// A fraction in lowest terms with a positive denominator.
#[derive(Clone, Copy, Debug, PartialEq, Eq, Hash)]
pub struct Fraction {
    numerator: i128,
    denominator: i128,
}

impl Fraction {
    pub const ZERO: Self = Self::whole(0);

    pub const fn whole(value: i128) -> Self {
        Self {
            numerator: value,
            denominator: 1,
        }
    }

    /// `numerator / denominator`; the denominator must be positive.
    pub fn new(numerator: i128, denominator: i128) -> Self {
        assert!(denominator > 0, "denominator must be positive");
        let divisor = gcd(numerator.unsigned_abs(), denominator.unsigned_abs());
        let divisor = i128::try_from(divisor).expect("divisor fits");
        Self {
            numerator: numerator / divisor,
            denominator: denominator / divisor,
        }
    }

    pub fn numerator(self) -> i128 {
        self.numerator
    }

    pub fn denominator(self) -> i128 {
        self.denominator
    }

    /// Paper 01: "rounded once to the nearest whole count"; paper 02: "From
    /// now on halves round upward." So the greatest whole number that is not
    /// above the fraction and a half.
    pub fn round(self) -> i128 {
        let twice_with_half = add(mul(self.numerator, 2), self.denominator);
        twice_with_half.div_euclid(mul(self.denominator, 2))
    }
}

impl Add for Fraction {
    type Output = Self;

    fn add(self, other: Self) -> Self {
        if self.denominator == other.denominator {
            return Self::new(add(self.numerator, other.numerator), self.denominator);
        }
        Self::new(
            add(
                mul(self.numerator, other.denominator),
                mul(other.numerator, self.denominator),
            ),
            mul(self.denominator, other.denominator),
        )
    }
}

impl Sub for Fraction {
    type Output = Self;

    fn sub(self, other: Self) -> Self {
        self + other * -1
    }
}

impl Mul<i128> for Fraction {
    type Output = Self;

    fn mul(self, factor: i128) -> Self {
        Self::new(mul(self.numerator, factor), self.denominator)
    }
}

impl Div<i128> for Fraction {
    type Output = Self;

    /// Division by a positive whole number.
    fn div(self, divisor: i128) -> Self {
        Self::new(self.numerator, mul(self.denominator, divisor))
    }
}

fn add(a: i128, b: i128) -> i128 {
    a.checked_add(b).expect("fraction overflow")
}

fn mul(a: i128, b: i128) -> i128 {
    a.checked_mul(b).expect("fraction overflow")
}

fn gcd(a: u128, b: u128) -> u128 {
    let (mut a, mut b) = (a, b);
    while b != 0 {
        if let (Ok(a), Ok(b)) = (u64::try_from(a), u64::try_from(b)) {
            return u128::from(gcd_of_words(a, b));
        }
        (a, b) = (b, a % b);
    }
    a
}

/// The same on machine words, which divide much faster.
fn gcd_of_words(mut a: u64, mut b: u64) -> u64 {
    while b != 0 {
        (a, b) = (b, a % b);
    }
    a
}

#[cfg(test)]
mod tests {
    use super::*;

    #[test]
    fn fractions_are_kept_in_lowest_terms() {
        let sum = Fraction::new(1, 6) + Fraction::new(1, 3);
        assert_eq!((sum.numerator(), sum.denominator()), (1, 2));
        assert_eq!(Fraction::new(0, 7), Fraction::ZERO);
        assert_eq!(Fraction::new(-4, 6) * 3 / 5, Fraction::new(-2, 5));
    }

    #[test]
    fn large_terms_are_reduced_too() {
        let large = 1_i128 << 100;
        assert_eq!(Fraction::new(large * 3, large), Fraction::whole(3));
    }

    #[test]
    fn halves_round_upward() {
        let rounded = |n, d| Fraction::new(n, d).round();
        assert_eq!(rounded(1, 2), 1);
        assert_eq!(rounded(-1, 2), 0);
        assert_eq!(rounded(7, 16), 0);
        assert_eq!(rounded(-7, 16), 0);
        assert_eq!(rounded(-9, 16), -1);
        assert_eq!(rounded(-1475, 2), -737);
        assert_eq!(rounded(1475, 2), 738);
        assert_eq!(rounded(5, 2), 3);
        assert_eq!(rounded(-5, 2), -2);
        assert_eq!(rounded(100, 16), 6);
        assert_eq!(rounded(2, 3), 1);
        assert_eq!(rounded(-2, 3), -1);
        assert_eq!(rounded(-1, 3), 0);
    }

    #[test]
    fn the_rounded_number_is_less_than_half_below_and_at_most_half_above() {
        for d in 1..=48 {
            for n in -200..=200 {
                let distance = Fraction::whole(Fraction::new(n, d).round()) - Fraction::new(n, d);
                let twice = distance * 2;
                assert!(-twice.denominator() < twice.numerator());
                assert!(twice.numerator() <= twice.denominator());
            }
        }
    }

    #[test]
    fn rounding_commutes_with_adding_whole_numbers() {
        for d in 1..=16 {
            for n in -40..=40 {
                for k in [-1_048_576, -3, -1, 1, 2, 1_048_576] {
                    let moved = Fraction::new(n, d) + Fraction::whole(k);
                    assert_eq!(moved.round(), Fraction::new(n, d).round() + k);
                }
            }
        }
    }

    #[test]
    #[should_panic(expected = "fraction overflow")]
    fn overflow_is_not_silent() {
        let _ = Fraction::whole(i128::MAX) + Fraction::whole(1);
    }
}
