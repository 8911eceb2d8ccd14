//! Calls on moved nets. Paper 02: "Yards place a panel by adding whole counts
//! to it."

use reference::call::Tables;
use reference::refusal::{MAX_COORDINATE, Refusal};

use crate::build::to_u32;
use crate::case::{Case, Expected};
use crate::rng::Rng;

/// Whole counts to add on each axis.
pub type Shift = [i32; 3];

/// A call, and the same call on the moved net.
#[derive(Clone, Debug)]
pub struct MovedPair {
    pub case: Case,
    pub moved: Case,
    pub shift: Shift,
}

impl MovedPair {
    /// The vertex table is moved entry by entry, whatever its length.
    pub fn new(case: Case, shift: Shift) -> Self {
        let mut moved = case.clone();
        add(&mut moved.vertices, shift);
        moved.expected = expected(&case, &moved.vertices);
        Self { case, moved, shift }
    }

    /// A shift of a few counts on each axis, or one so far that coordinates
    /// change sides or reach the limit; rarely one that passes it.
    pub fn draw(case: Case, rng: &mut Rng) -> Self {
        let passing = rng.one_in(6).then(|| rng.below(3));
        let shift = std::array::from_fn(|axis| {
            let values: Vec<i32> = case
                .vertices
                .iter()
                .copied()
                .skip(axis)
                .step_by(3)
                .collect();
            axis_shift(&values, passing == Some(axis), rng)
        });
        Self::new(case, shift)
    }

    /// Whether the net, and whether the moved one, is within the coordinate
    /// limit.
    pub fn within_limit(&self) -> [bool; 2] {
        let tables = [&self.case.vertices, &self.moved.vertices];
        tables.map(|table| first_beyond(table).is_none())
    }

    /// Whether both are, so that both calls must give the same.
    pub fn is_within_limit(&self) -> bool {
        self.within_limit() == [true; 2]
    }

    /// Whether a coordinate of the moved net is at the limit.
    pub fn reaches_limit(&self) -> bool {
        let mut values = self.moved.vertices.iter();
        values.any(|value| value.unsigned_abs() == MAX_COORDINATE)
    }

    /// What the call on the moved net must leave if the other one leaves these
    /// tables, with so many refined vertices.
    pub fn moved_tables(&self, left: &Tables, vertices: usize) -> Tables {
        let mut tables = left.clone();
        add(&mut tables.vertices[..3 * vertices], self.shift);
        tables
    }
}

fn add(coordinates: &mut [i32], shift: Shift) {
    for (value, by) in coordinates.iter_mut().zip(shift.into_iter().cycle()) {
        *value += by;
    }
}

/// What is known of the answer on the moved net: refusal 5 alone sees
/// coordinates.
fn expected(case: &Case, moved: &[i32]) -> Expected {
    match (case.expected, first_beyond(moved)) {
        (Expected::Unknown, _) => Expected::Unknown,
        // Given before coordinates are looked at.
        (
            Expected::Refused(Refusal {
                reason: 1..=4 | 14 | 16,
                ..
            }),
            _,
        ) => case.expected,
        (_, Some(vertex)) => Expected::Refused(Refusal::new(5, vertex)),
        (_, None) if first_beyond(&case.vertices).is_some() => Expected::Unknown,
        (_, None) => case.expected,
    }
}

/// The first vertex with a coordinate beyond the limit.
fn first_beyond(vertices: &[i32]) -> Option<u32> {
    let is_beyond = |value: &i32| value.unsigned_abs() > MAX_COORDINATE;
    let at = vertices.iter().position(is_beyond)?;
    Some(to_u32(at / 3))
}

/// A shift for the coordinates on one axis, which pass the limit if `passes`
/// and never leave 32 bits.
fn axis_shift(values: &[i32], passes: bool, rng: &mut Rng) -> i32 {
    let (Some(&low), Some(&high)) = (values.iter().min(), values.iter().max()) else {
        return rng.between(i32::MIN, i32::MAX);
    };
    let [low, high] = [low, high].map(i64::from);
    let limit = i64::from(MAX_COORDINATE);
    // The shifts down to the limit, and up to it.
    let [down, up] = [-limit - low, limit - high];
    let shift = match rng.below(6) {
        _ if passes => {
            let more = rng.pick(&[1, 1, 2, 1_000]);
            rng.pick(&[down - more, up + more])
        }
        0 => 0,
        1 => i64::from(rng.between(-9, 9)),
        2 => down,
        3 => up,
        // Some coordinate comes to lie at 0 or next to it.
        4 => i64::from(rng.between(-1, 1)) - i64::from(rng.pick(values)),
        _ => i64::from(rng.between(-1_048_576, 1_048_576)),
    };
    let shift = if passes || down > up {
        shift
    } else {
        shift.clamp(down, up)
    };
    let [least, most] = [i64::from(i32::MIN), i64::from(i32::MAX)];
    let shift = shift.clamp(least - low, most - high).clamp(least, most);
    i32::try_from(shift).expect("within 32 bits")
}
