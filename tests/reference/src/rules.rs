//! The formulas for new points, free of topology.

use crate::point::ExactPoint;
use crate::refusal::{MAX_TENSION, Refusal};

/// The tension t of a call, 0 to 4. Paper 02: "ω = t/4 throughout"; the weights
/// are written over four times the paper's denominators, so that they are whole.
#[derive(Clone, Copy, Debug, PartialEq, Eq, Hash, PartialOrd, Ord)]
pub struct Tension(u32);

impl Tension {
    pub const ALL: [Self; 5] = [Self(0), Self(1), Self(2), Self(3), Self(4)];

    /// ω = 1, as in paper 01. "Old callers get t = 4 and their old points."
    pub const OLD: Self = Self(4);

    /// The tension of this number, or refusal 16.
    pub fn new(number: u32) -> Result<Self, Refusal> {
        if number > MAX_TENSION {
            return Err(Refusal::new(16, 0));
        }
        Ok(Self(number))
    }

    pub const fn number(self) -> u32 {
        self.0
    }

    /// The number t among the weights.
    pub(crate) fn weight(self) -> i128 {
        self.0.into()
    }

    /// The new point between `q` and `r` of four consecutive points: the weights
    /// are (8+ω)/16 and -ω/16.
    pub fn four_point(
        self,
        p: ExactPoint,
        q: ExactPoint,
        r: ExactPoint,
        s: ExactPoint,
    ) -> ExactPoint {
        let t = self.weight();
        ((q + r) * (32 + t) - (p + s) * t) / 64
    }

    /// The new point on the end edge from `p0` to `p1`, followed by `p2`: the
    /// weights are (8-ω)/16, (8+2ω)/16 and -ω/16.
    pub fn end_edge(self, p0: ExactPoint, p1: ExactPoint, p2: ExactPoint) -> ExactPoint {
        let t = self.weight();
        (p0 * (32 - t) + p1 * (32 + 2 * t) - p2 * t) / 64
    }

    /// The virtual point at a vertex with the given ring, for the edge towards
    /// neighbour `j`. `opposites[i]` lies between neighbours `i` and `i + 1`.
    /// "ω/(8+ω) for the 1/9, in the term 4/(9n) as well."
    pub fn virtual_point(
        self,
        neighbours: &[ExactPoint],
        opposites: &[ExactPoint],
        j: usize,
    ) -> ExactPoint {
        let t = self.weight();
        let n = neighbours.len();
        assert_eq!(n, opposites.len(), "a ring has as many faces as edges");
        let l = |back: usize, on: usize| neighbours[(j + n - back + on) % n];
        let k = |back: usize, on: usize| opposites[(j + n - back + on) % n];
        let all_l: ExactPoint = neighbours.iter().copied().sum();
        let all_k: ExactPoint = opposites.iter().copied().sum();
        let near_l = l(1, 0) + l(0, 0) + l(0, 1);
        let near_k = k(2, 0) + k(1, 0) + k(0, 0) + k(0, 1);
        let from_l = all_l * 4 / whole(n) - near_l;
        from_l + near_k * t / (32 + t) - all_k * (4 * t) / ((32 + t) * whole(n))
    }
}

pub fn midpoint(p: ExactPoint, q: ExactPoint) -> ExactPoint {
    (p + q) / 2
}

/// The mean of at least one point.
pub fn mean(points: &[ExactPoint]) -> ExactPoint {
    points.iter().copied().sum::<ExactPoint>() / whole(points.len())
}

/// `mirror` carried over `centre` to the other side.
pub fn reflect(centre: ExactPoint, mirror: ExactPoint) -> ExactPoint {
    centre * 2 - mirror
}

fn whole(length: usize) -> i128 {
    i128::try_from(length).expect("length fits")
}
