//! Reasons for refusing a call, their order and their places.

use crate::net::{Mesh, NetRecord};
use crate::topology::{Star, Topology};

pub const MAX_ROUNDS: u32 = 6;
pub const MAX_VERTICES: usize = 8_192;
pub const MAX_FACES: usize = 4_096;
pub const MAX_REFINED_FACES: u128 = 262_144;
pub const MAX_COORDINATE: u32 = 1_048_576;
pub const RING_SIZES: std::ops::RangeInclusive<usize> = 3..=8;
pub const MAX_FAN: usize = 6;
pub const MAX_TENSION: u32 = 4;
pub const MAX_TALLY: u64 = 4_000_000_000;
pub const SIDE_COUNTS: std::ops::RangeInclusive<u8> = 3..=8;

/// A refusal: its number in the scope paper and its place.
#[derive(Clone, Copy, Debug, PartialEq, Eq)]
pub struct Refusal {
    pub reason: u32,
    pub place: u32,
}

impl Refusal {
    pub fn new(reason: u32, place: u32) -> Self {
        Self { reason, place }
    }
}

/// Lengths of the tables that the caller provides for the results and as
/// workspace; the scope paper calls these tables lent.
#[derive(Clone, Copy, Debug, PartialEq, Eq)]
pub struct Capacity {
    pub vertices: usize,
    pub faces: usize,
    pub marks: usize,
    /// Whether letters are asked for. If not, their table may have any length.
    pub with_letters: bool,
    pub letters: usize,
    pub workspace: usize,
}

impl Capacity {
    /// The least lengths that serve this many refined faces, without letters.
    pub fn for_refined_faces(faces: usize) -> Self {
        Self {
            vertices: 12 * faces,
            faces: 4 * faces,
            marks: 4 * faces,
            with_letters: false,
            letters: 0,
            workspace: 16 * faces,
        }
    }

    /// The same lengths with letters asked for, in a table of so many bytes.
    /// "The lent letter table has 4G bytes; a shorter one counts among the
    /// outputs of 4."
    pub fn asking_for_letters(self, letters: usize) -> Self {
        Self {
            with_letters: true,
            letters,
            ..self
        }
    }

    fn serves(&self, refined_faces: u128) -> bool {
        let at_least = |length: usize, factor: u128| length as u128 >= factor * refined_faces;
        at_least(self.vertices, 12)
            && at_least(self.faces, 4)
            && at_least(self.marks, 4)
            && (!self.with_letters || at_least(self.letters, 4))
            && at_least(self.workspace, 16)
    }
}

/// Faces after `rounds` steps, at most [`MAX_ROUNDS`].
pub fn refined_faces(faces: usize, rounds: u32) -> u128 {
    assert!(rounds <= MAX_ROUNDS, "too many rounds to count faces");
    faces as u128 * 4_u128.pow(rounds)
}

/// Refusals 1 to 4 and 14, which look at lengths, rounds and side counts only:
/// first 1, then 2 for the vertex table, 14 or 2 for the face table, 2 for the
/// marks, 3 and 4. After them comes 16, which is the tension's alone.
pub fn check_call(rounds: u32, net: &NetRecord, capacity: &Capacity) -> Result<(), Refusal> {
    check_rounds(rounds)?;
    let vertex_count = net.vertices.len() / 3;
    if !net.vertices.len().is_multiple_of(3) {
        return Err(Refusal::new(2, 0));
    }
    check_faces(net.faces.len(), net.sides)?;
    if net.marks.len() != vertex_count {
        return Err(Refusal::new(2, 0));
    }
    let face_count = net.quadrilaterals();
    check_limits(rounds, vertex_count, face_count)?;
    if !capacity.serves(refined_faces(face_count, rounds)) {
        return Err(Refusal::new(4, 0));
    }
    Ok(())
}

/// With side counts refusal 14, without them the face part of 2.
fn check_faces(corners: usize, sides: &[u8]) -> Result<(), Refusal> {
    if sides.is_empty() && !corners.is_multiple_of(4) {
        return Err(Refusal::new(2, 0));
    }
    let in_range = sides.iter().all(|count| SIDE_COUNTS.contains(count));
    let sum: u128 = sides.iter().map(|&count| u128::from(count)).sum();
    if !sides.is_empty() && (!in_range || sum != corners as u128) {
        return Err(Refusal::new(14, 0));
    }
    Ok(())
}

/// Refusal 1.
pub fn check_rounds(rounds: u32) -> Result<(), Refusal> {
    if rounds > MAX_ROUNDS {
        return Err(Refusal::new(1, 0));
    }
    Ok(())
}

/// Refusal 3.
pub fn check_limits(rounds: u32, vertices: usize, faces: usize) -> Result<(), Refusal> {
    let refined = refined_faces(faces, rounds);
    if vertices > MAX_VERTICES || faces > MAX_FACES || refined > MAX_REFINED_FACES {
        return Err(Refusal::new(3, 0));
    }
    Ok(())
}

/// Refusals 5 to 12 of a net as it is drawn: each reason is looked for in the
/// whole net before the next.
pub fn check_net<F: AsRef<[u32]>>(net: &Mesh<F>) -> Result<(), Refusal> {
    let vertices = net.points.len();
    refuse(5, &net.points, |point| {
        point.iter().any(|c| c.unsigned_abs() > MAX_COORDINATE)
    })?;
    refuse(6, &net.marks, |&mark| mark > 1)?;
    refuse(7, &net.faces, |face| is_bad_face(face.as_ref(), vertices))?;
    refuse(8, &used(net), |&used| !used)?;
    let topology = Topology::new(&net.faces).map_err(|face| Refusal::new(9, face))?;
    let stars: Vec<Option<Star>> = (0..)
        .take(vertices)
        .map(|vertex| topology.star(vertex))
        .collect();
    refuse(10, &stars, Option::is_none)?;
    let stars: Vec<Star> = stars.into_iter().flatten().collect();
    refuse(11, &stars, has_bad_valence)?;
    let marked_stars: Vec<(Star, u8)> = stars.into_iter().zip(net.marks.clone()).collect();
    refuse(12, &marked_stars, |(star, mark)| {
        *mark == 1 && star.is_ring()
    })
}

/// Refusal 15: the record would pass its limit, also where nothing is added.
pub fn check_tally(tally: u64, new_points: u64) -> Result<(), Refusal> {
    if u128::from(tally) + u128::from(new_points) > u128::from(MAX_TALLY) {
        return Err(Refusal::new(15, 0));
    }
    Ok(())
}

/// Refuses with the lowest place whose entry is bad.
fn refuse<T>(reason: u32, entries: &[T], is_bad: impl Fn(&T) -> bool) -> Result<(), Refusal> {
    match (0..).zip(entries).find(|(_, entry)| is_bad(entry)) {
        Some((place, _)) => Err(Refusal::new(reason, place)),
        None => Ok(()),
    }
}

fn is_bad_face(face: &[u32], vertices: usize) -> bool {
    let equal_corners = (1..face.len()).any(|i| face[..i].contains(&face[i]));
    equal_corners || face.iter().any(|&corner| corner as usize >= vertices)
}

/// For each vertex whether a face has it as a corner.
fn used<F: AsRef<[u32]>>(net: &Mesh<F>) -> Vec<bool> {
    let mut used = vec![false; net.points.len()];
    for corner in net.corners() {
        used[corner as usize] = true;
    }
    used
}

fn has_bad_valence(star: &Star) -> bool {
    if star.is_ring() {
        !RING_SIZES.contains(&star.face_count())
    } else {
        star.face_count() > MAX_FAN
    }
}
