//! Boundary curves on their own: they see a list of points and no face.

use crate::fraction::Fraction;
use crate::point::Point;
use crate::rules::Tension;

/// Whether a list of points is an open polygon or a closed one.
#[derive(Clone, Copy, Debug, PartialEq, Eq, Hash, PartialOrd, Ord)]
pub enum Form {
    Open,
    Round,
}

type Wide = [i128; 3];

/// The denominator of every rule.
const DENOMINATOR: i128 = 64;

/// The list after `steps` refinement steps, each new point rounded once.
pub fn rounded_curve(tension: Tension, form: Form, points: &[Point], steps: u32) -> Vec<Point> {
    let mut curve: Vec<Point> = points.to_vec();
    for _ in 0..steps {
        let wide: Vec<Wide> = curve.iter().map(|point| point.map(i128::from)).collect();
        let middles = new_numerators(tension, form, &wide)
            .into_iter()
            .map(|middle| middle.map(rounded));
        curve = interleave(curve.iter().copied(), middles);
    }
    curve
}

/// The list after `steps` steps without rounding, each coordinate times 64^steps.
pub fn exact_curve(tension: Tension, form: Form, points: &[Point], steps: u32) -> Vec<Wide> {
    let mut curve: Vec<Wide> = points.iter().map(|point| point.map(i128::from)).collect();
    for _ in 0..steps {
        let middles = new_numerators(tension, form, &curve).into_iter();
        let old = curve
            .iter()
            .map(|point| point.map(|value| value * DENOMINATOR));
        curve = interleave(old, middles);
    }
    curve
}

/// The greatest distance on an axis between the rounded curve and the exact
/// curve after `steps` steps, at the scale 64^steps.
pub fn distance_bound(steps: u32) -> i128 {
    2 * (80_i128.pow(steps) - scale(steps))
}

/// What the coordinates of the exact curve after `steps` steps are multiplied by.
pub fn scale(steps: u32) -> i128 {
    DENOMINATOR.pow(steps)
}

fn rounded(numerator: i128) -> i32 {
    let value = Fraction::new(numerator, DENOMINATOR).round();
    i32::try_from(value).expect("rounded coordinate fits 32 bits")
}

/// Old points with the new ones between them; a closed list ends with a new one.
fn interleave<T>(old: impl Iterator<Item = T>, new: impl Iterator<Item = T>) -> Vec<T> {
    let mut new = new;
    let mut list = Vec::new();
    for point in old {
        list.push(point);
        list.extend(new.next());
    }
    list
}

/// For each edge of the list its new point as a numerator over 64.
fn new_numerators(tension: Tension, form: Form, points: &[Wide]) -> Vec<Wide> {
    let (n, t) = (points.len(), tension.weight());
    match form {
        Form::Open => {
            assert!(n >= 2, "an open list has two points or more");
            (0..n - 1).map(|at| open_numerator(t, points, at)).collect()
        }
        Form::Round => {
            assert!(n >= 3, "a round list has three points or more");
            (0..n)
                .map(|at| {
                    let [p, q, r, s] = [n - 1, 0, 1, 2].map(|on| points[(at + on) % n]);
                    combine([(-t, p), (32 + t, q), (32 + t, r), (-t, s)])
                })
                .collect()
        }
    }
}

/// The new point between points `at` and `at + 1` of an open list, at tension `t`.
fn open_numerator(t: i128, points: &[Wide], at: usize) -> Wide {
    let (q, r) = (points[at], points[at + 1]);
    let before = at.checked_sub(1).map(|i| points[i]);
    let after = points.get(at + 2).copied();
    match (before, after) {
        (Some(p), Some(s)) => combine([(-t, p), (32 + t, q), (32 + t, r), (-t, s)]),
        (None, Some(s)) => combine([(32 - t, q), (32 + 2 * t, r), (-t, s)]),
        (Some(p), None) => combine([(32 - t, r), (32 + 2 * t, q), (-t, p)]),
        (None, None) => combine([(32, q), (32, r)]),
    }
}

fn combine<const N: usize>(terms: [(i128, Wide); N]) -> Wide {
    std::array::from_fn(|axis| terms.iter().map(|(weight, p)| weight * p[axis]).sum())
}
