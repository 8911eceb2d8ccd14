//! Adjacency of a net, kept in maps from vertex pairs.

use std::collections::{BTreeMap, BTreeSet};

use crate::net::{edge, sides};

/// A face seen from one of its sides: from `(p, a)` the corners are `p`, `a`,
/// `opposite`, .., `next`. In a quadrilateral these are all, and `opposite`
/// lies opposite to `p`; in a triangle `opposite` and `next` are one.
#[derive(Clone, Copy, Debug, PartialEq, Eq)]
pub struct Wedge {
    pub face: u32,
    pub opposite: u32,
    pub next: u32,
}

/// The faces round one vertex, in order.
///
/// `opposites[i]` is the corner after `neighbours[i]` in the face between it
/// and `neighbours[i + 1]`, in a quadrilateral the one opposite to the vertex.
/// A ring has as many neighbours as faces and closes from the last to the
/// first; a fan has one neighbour more.
#[derive(Clone, Debug, PartialEq, Eq)]
pub struct Star {
    pub neighbours: Vec<u32>,
    pub opposites: Vec<u32>,
}

impl Star {
    pub fn is_ring(&self) -> bool {
        self.neighbours.len() == self.opposites.len()
    }

    pub fn face_count(&self) -> usize {
        self.opposites.len()
    }
}

/// For each boundary vertex the next and the previous one on its loop, the way
/// the sides run.
#[derive(Clone, Debug)]
pub struct BoundaryLoops {
    pub after: BTreeMap<u32, u32>,
    pub before: BTreeMap<u32, u32>,
}

/// All directed sides of a net whose sides are distinct as ordered pairs.
#[derive(Clone, Debug)]
pub struct Topology {
    wedges: BTreeMap<(u32, u32), Wedge>,
}

impl Topology {
    /// The topology of these faces, or the first face with a side that runs
    /// from one vertex to another as a side of an earlier face does.
    pub fn new<F: AsRef<[u32]>>(faces: &[F]) -> Result<Self, u32> {
        let mut wedges = BTreeMap::new();
        for (number, face) in (0..).zip(faces) {
            let corners = face.as_ref();
            let n = corners.len();
            for (s, side) in sides(corners).enumerate() {
                let wedge = Wedge {
                    face: number,
                    opposite: corners[(s + 2) % n],
                    next: corners[(s + n - 1) % n],
                };
                if wedges.insert(side, wedge).is_some() {
                    return Err(number);
                }
            }
        }
        Ok(Self { wedges })
    }

    /// The face with the side from `from` to `to`.
    pub fn wedge(&self, from: u32, to: u32) -> Option<Wedge> {
        self.wedges.get(&(from, to)).copied()
    }

    /// Whether two faces meet along this edge.
    pub fn is_inner(&self, a: u32, b: u32) -> bool {
        self.wedges.contains_key(&(a, b)) && self.wedges.contains_key(&(b, a))
    }

    /// The star of a vertex if its faces form one full ring or one open fan.
    pub fn star(&self, vertex: u32) -> Option<Star> {
        let spokes: BTreeMap<u32, Wedge> = self
            .wedges
            .range((vertex, 0)..=(vertex, u32::MAX))
            .map(|(&(_, neighbour), &wedge)| (neighbour, wedge))
            .collect();
        let open_end = spokes
            .keys()
            .copied()
            .find(|&neighbour| !self.is_inner(vertex, neighbour));
        let start = open_end.or_else(|| spokes.keys().next().copied())?;
        let mut star = Star {
            neighbours: vec![start],
            opposites: Vec::new(),
        };
        let mut at = start;
        while let Some(wedge) = spokes.get(&at) {
            star.opposites.push(wedge.opposite);
            at = wedge.next;
            if at == start {
                break;
            }
            star.neighbours.push(at);
        }
        (star.face_count() == spokes.len()).then_some(star)
    }

    /// The boundary edges of an accepted net, which form loops.
    pub fn boundary(&self) -> BoundaryLoops {
        let sides = self.wedges.keys().copied();
        let after: BTreeMap<u32, u32> = sides
            .filter(|&(from, to)| !self.wedges.contains_key(&(to, from)))
            .collect();
        let before = after.iter().map(|(&from, &to)| (to, from)).collect();
        BoundaryLoops { after, before }
    }

    /// Edges in the order in which they are first met, face by face, from side
    /// 0 on.
    pub fn edges_in_order<F: AsRef<[u32]>>(faces: &[F]) -> Vec<(u32, u32)> {
        let mut met = BTreeSet::new();
        let all_sides = faces.iter().flat_map(|face| sides(face.as_ref()));
        all_sides
            .filter(|&(from, to)| met.insert(edge(from, to)))
            .collect()
    }
}
