//! Coordinates for which new points of the first round are as far out as the
//! limit allows, or halves.

use reference::fraction::Fraction;
use reference::rules::Tension;
use reference::step::{Rule, refine_once};

use crate::case::ControlNet;
use crate::change::LIMIT;
use crate::rng::Rng;

/// A common multiple of all side counts and of 2, so that splits are exact.
const UNIT: i32 = 840;

/// The least denominators of the weights (8+ω)/16 and -ω/16, and of ω/(8+ω), at
/// each tension.
const DENOMINATORS: [[i32; 2]; 5] = [[2, 1], [64, 33], [32, 17], [64, 35], [16, 9]];

/// If all coordinates are multiples of these numbers, many edge points are
/// halves, many face points, and many new points with wide edges.
fn steps(tension: Tension) -> [i32; 3] {
    let [of_edges, of_rings] = DENOMINATORS[tension.number() as usize];
    let half = of_edges / 2;
    [half, half * of_edges, half * of_rings * UNIT]
}

/// A new point of the first round.
#[derive(Clone, Debug)]
pub struct Weights {
    pub rule: Rule,
    /// For each drawn vertex its weight in the point.
    pub of_vertices: Vec<Fraction>,
}

impl Weights {
    fn none(rule: Rule) -> Self {
        Self {
            rule,
            of_vertices: vec![],
        }
    }

    fn is_face(&self) -> bool {
        matches!(self.rule, Rule::Face { .. })
    }

    pub fn absolute_sum(&self) -> Fraction {
        let absolute =
            |weight: &Fraction| Fraction::new(weight.numerator().abs(), weight.denominator());
        let all = self.of_vertices.iter().map(absolute);
        all.fold(Fraction::ZERO, |sum, weight| sum + weight)
    }
}

/// The weights in all new points of the first round at a tension.
pub fn weights(control: &ControlNet, tension: Tension) -> Vec<Weights> {
    let vertices: Vec<usize> = (0..control.points().len()).collect();
    let mut all: Vec<Weights> = Vec::new();
    for three in vertices.chunks(3) {
        let mut unit = control.clone();
        unit.points_mut().fill([0; 3]);
        for (axis, &vertex) in three.iter().enumerate() {
            unit.points_mut()[vertex][axis] = UNIT;
        }
        let made = refine_once(&unit.start(), tension).made;
        if all.is_empty() {
            all.extend(made.iter().map(|new| Weights::none(new.rule)));
        }
        for (weights, new) in all.iter_mut().zip(made) {
            let of_three = new.exact.0.map(|value| value / i128::from(UNIT));
            weights.of_vertices.extend(&of_three[..three.len()]);
        }
    }
    all
}

/// The point whose weights have the greatest sum of absolute values.
fn farthest<'a>(points: impl Iterator<Item = &'a Weights>) -> &'a Weights {
    let sums = points.map(|point| (point.absolute_sum(), point));
    let farther = sums.reduce(|a, b| if (b.0 - a.0).numerator() > 0 { b } else { a });
    farther.expect("a new point").1
}

/// Places every vertex at the limit, so that some new points are as far out as
/// they can be at a tension: on one axis an edge point, on the next a face point below 0,
/// on the last any point.
pub fn place_peaks(control: &mut ControlNet, tension: Tension, rng: &mut Rng) {
    let all = weights(control, tension);
    let (faces, edges): (Vec<&Weights>, Vec<&Weights>) = all.iter().partition(|new| new.is_face());
    let any = &all[rng.below(all.len())];
    let chosen = [
        farthest(edges.into_iter()),
        farthest(faces.into_iter()),
        any,
    ];
    let signs = [1, -1, rng.pick(&[1, -1])];
    for (axis, (new, sign)) in chosen.into_iter().zip(signs).enumerate() {
        for (point, weight) in control.points_mut().iter_mut().zip(&new.of_vertices) {
            let way = match weight.numerator().signum() {
                0 => rng.pick(&[1, -1]),
                way if way > 0 => sign,
                _ => -sign,
            };
            point[axis] = way * LIMIT;
        }
    }
}

/// Places every vertex at multiples of a number, another one on each axis, so
/// that many new points at a tension are halves.
pub fn place_halves(control: &mut ControlNet, tension: Tension, rng: &mut Rng) {
    let mut steps = steps(tension);
    rng.shuffle(&mut steps);
    for point in control.points_mut() {
        *point = steps.map(|step| {
            let reach = (LIMIT / step).min(20);
            step * rng.between(-reach, reach)
        });
    }
}
