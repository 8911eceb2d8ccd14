//! What calls find in the record of new points. Paper 02: "Makers pay by new
//! points. The host lends one tally record and reads it after each call."

use std::collections::BTreeSet;

use reference::net::{Net, PolygonNet, edge, sides};
use reference::refusal::{MAX_TALLY, Refusal};

use crate::case::{Case, Expected};
use crate::rng::Rng;

named_cases! {
    /// A figure for the record before a call, by what the call would make of it.
    pub enum Figure {
        Zero = "from 0",
        Within = "to within the limit",
        ToLimit = "to the limit",
        AtLimit = "from the limit",
        OnePast = "to one past the limit",
        FromBeyond = "from beyond the limit",
        Overflow = "to beyond 64 bits",
        Largest = "from 2^64 - 1",
    }
}

impl Figure {
    /// With these a call that is accepted otherwise is accepted.
    const ACCEPTED: [Self; 3] = [Self::Zero, Self::Within, Self::ToLimit];
    /// With these it gets 15, whatever it adds.
    const REFUSED: [Self; 3] = [Self::FromBeyond, Self::Overflow, Self::Largest];

    /// The figure for a call that adds so many points.
    fn before(self, new_points: u64, rng: &mut Rng) -> u64 {
        match self {
            Self::Zero => 0,
            Self::Within => rng.next_u64() % (MAX_TALLY - new_points),
            Self::ToLimit => MAX_TALLY - new_points,
            Self::AtLimit => MAX_TALLY,
            Self::OnePast => MAX_TALLY - new_points + 1,
            Self::FromBeyond => rng.pick(&[MAX_TALLY + 1, 1 << 32, 1 << 63]),
            Self::Overflow => u64::MAX - new_points.saturating_sub(1),
            Self::Largest => u64::MAX,
        }
    }

    /// Whether a call that adds so many points is accepted with this figure.
    pub fn accepts(self, new_points: u64) -> bool {
        Self::ACCEPTED.contains(&self) || (self == Self::AtLimit && new_points == 0)
    }

    /// What a record with this figure is to a call that adds so many points.
    pub fn of(tally: u64, new_points: u64) -> Self {
        match (tally, tally.checked_add(new_points)) {
            (0, _) => Self::Zero,
            (u64::MAX, _) => Self::Largest,
            (_, None) => Self::Overflow,
            (MAX_TALLY, _) => Self::AtLimit,
            (_, Some(MAX_TALLY)) => Self::ToLimit,
            (..MAX_TALLY, Some(after)) if after == MAX_TALLY + 1 => Self::OnePast,
            (_, Some(after)) if after > MAX_TALLY => Self::FromBeyond,
            _ => Self::Within,
        }
    }
}

/// The points that an accepted call adds, by the counts of vertices, edges,
/// faces and corners: each step, the split too, adds a vertex for each edge and
/// one for each face.
pub fn new_points(case: &Case) -> u64 {
    let control = case.vertices.len() / 3;
    let (mut vertices, mut edges) = (control, edge_count(case));
    let (mut faces, mut corners) = (face_count(case), case.faces.len());
    let steps = case.rounds + u32::from(!case.sides.is_empty());
    for _ in 0..steps {
        vertices += edges + faces;
        edges = 2 * edges + corners;
        (faces, corners) = (corners, 4 * corners);
    }
    (vertices - control) as u64
}

fn face_count(case: &Case) -> usize {
    if case.sides.is_empty() {
        case.faces.len() / 4
    } else {
        case.sides.len()
    }
}

fn edge_count(case: &Case) -> usize {
    let faces: Vec<Vec<u32>> = if case.sides.is_empty() {
        PolygonNet::from(&Net::from_tables(&[], &case.faces, &[])).faces
    } else {
        PolygonNet::from_tables(&[], &case.faces, &case.sides, &[]).faces
    };
    let edges: BTreeSet<(u32, u32)> = faces
        .iter()
        .flat_map(|face| sides(face))
        .map(|(a, b)| edge(a, b))
        .collect();
    edges.len()
}

/// The call with this figure in its record. Where it is not known whether the
/// call adds points, some number is taken.
pub fn with_figure(mut case: Case, figure: Figure, rng: &mut Rng) -> Case {
    let new_points = match case.expected {
        Expected::Accepted => new_points(&case),
        _ => rng.below(200) as u64,
    };
    case.tally = figure.before(new_points, rng);
    let after = u128::from(case.tally) + u128::from(new_points);
    if case.expected == Expected::Accepted && after > u128::from(MAX_TALLY) {
        case.expected = Expected::Refused(Refusal::new(15, 0));
    }
    case
}

/// The call with a figure that leaves its answer as it is.
pub fn accepted_tally(case: Case, rng: &mut Rng) -> Case {
    let figure = rng.pick(&Figure::ACCEPTED);
    with_figure(case, figure, rng)
}

/// The call with a figure that is a reason for 15.
pub fn refused_tally(case: Case, rng: &mut Rng) -> Case {
    let figure = match case.expected {
        Expected::Accepted if rng.one_in(2) => Figure::OnePast,
        _ => rng.pick(&Figure::REFUSED),
    };
    with_figure(case, figure, rng)
}

/// The call with any figure, unless it has one. One in eight of the accepted
/// calls may get 15.
pub fn any_tally(case: Case, rng: &mut Rng) -> Case {
    let is_refused = matches!(case.expected, Expected::Refused(_));
    if case.tally > 0 {
        case
    } else if is_refused || rng.one_in(8) {
        let figure = rng.pick(&Figure::ALL);
        with_figure(case, figure, rng)
    } else {
        accepted_tally(case, rng)
    }
}
