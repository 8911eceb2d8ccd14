//! The cases of the rules that a round of a net meets, told from the
//! reference's adjacency alone.

use std::collections::BTreeSet;
use std::fmt::{self, Display, Formatter};

use reference::net::Net;
use reference::topology::Topology;

/// What a vertex is to the edges that end there: the faces round it, as a full
/// ring or an open fan.
#[derive(Clone, Copy, Debug, PartialEq, Eq, PartialOrd, Ord)]
pub enum End {
    Ring(usize),
    Fan(usize),
}

impl End {
    /// Every two ends that an inner edge of an accepted net can have.
    pub fn pairs() -> Vec<[End; 2]> {
        let rings = (3..=8).map(End::Ring);
        let ends: Vec<End> = rings.chain((2..=6).map(End::Fan)).collect();
        pairs_of(&ends)
    }

    /// Whether the vertex is as those that a round makes.
    pub fn is_ordinary(self) -> bool {
        matches!(self, End::Ring(4) | End::Fan(2))
    }
}

impl Display for End {
    fn fmt(&self, f: &mut Formatter) -> fmt::Result {
        match self {
            End::Ring(faces) => write!(f, "ring-{faces}"),
            End::Fan(faces) => write!(f, "fan-{faces}"),
        }
    }
}

/// Every two of these, and each with itself.
pub fn pairs_of<T: Copy>(items: &[T]) -> Vec<[T; 2]> {
    let firsts = items.iter().enumerate();
    firsts
        .flat_map(|(at, &first)| items[at..].iter().map(move |&second| [first, second]))
        .collect()
}

/// A sort of edge. All but wide ones are plain.
#[derive(Clone, Copy, Debug, PartialEq, Eq, PartialOrd, Ord)]
pub enum Sort {
    Boundary,
    /// Inner, both ends with a full ring of four faces.
    Regular,
    /// Inner, each end with a full ring of four or an open fan of two, and one
    /// of them at least with a fan.
    Rim,
    /// Inner, with another end.
    Wide,
}

named_cases! {
    /// A case that a round of a net meets. The eight edges of a face are those
    /// of both directions.
    pub enum Feature {
        RimEdge = "plain inner edge with a fan end",
        WideEdge = "wide edge",
        LoneFan = "fan of three among ordinary vertices",
        RegularFace = "face with eight regular edges",
        IrregularDiagonal = "face with eight regular edges and an irregular vertex diagonally",
        SevenAndWide = "face with seven regular edges and a wide one",
        SevenAndBoundary = "face with seven regular edges and a boundary one",
        PlainFace = "face with eight plain edges, some on the boundary",
        JoinedCorners = "face with opposite corners joined",
        OneDirection = "one direction alone with four inner edges",
        IrregularMean = "both directions with four inner edges, not all regular",
    }
}

impl Feature {
    /// Whether a round after the first can meet it. Opposite corners of a face
    /// that a round made are never joined.
    pub fn occurs_later(self) -> bool {
        self != Feature::JoinedCorners
    }
}

impl Display for Feature {
    fn fmt(&self, f: &mut Formatter) -> fmt::Result {
        f.write_str(self.name())
    }
}

/// What a round of a net meets.
#[derive(Clone, Debug, Default)]
pub struct Met {
    pub features: BTreeSet<Feature>,
    /// The ends of inner edges, the lesser one first.
    pub ends: BTreeSet<[End; 2]>,
}

impl Met {
    /// What the next round of an accepted net, or of the result of refining
    /// one, meets.
    pub fn of(net: &Net) -> Self {
        let adjacency = Adjacency::new(net);
        let mut met = Self::default();
        for (from, to) in Topology::edges_in_order(&net.faces) {
            met.add_edge(&adjacency, from, to);
        }
        for (&end, vertex) in adjacency.ends.iter().zip(0..) {
            if end == End::Fan(3) && adjacency.has_ordinary_neighbours(vertex) {
                met.features.insert(Feature::LoneFan);
            }
        }
        for &face in &net.faces {
            met.add_face(&adjacency, face);
        }
        met
    }

    fn add_edge(&mut self, adjacency: &Adjacency, from: u32, to: u32) {
        let feature = match adjacency.sort(from, to) {
            Sort::Boundary => return,
            Sort::Regular => None,
            Sort::Rim => Some(Feature::RimEdge),
            Sort::Wide => Some(Feature::WideEdge),
        };
        self.features.extend(feature);
        let mut ends = [from, to].map(|vertex| adjacency.end(vertex));
        ends.sort_unstable();
        self.ends.insert(ends);
    }

    fn add_face(&mut self, adjacency: &Adjacency, face: [u32; 4]) {
        let rows = adjacency.rows(face);
        let eight = rows.as_flattened();
        let count = |sort: Sort| eight.iter().filter(|&&at| at == Some(sort)).count();
        let [regular, wide, boundary] = [Sort::Regular, Sort::Wide, Sort::Boundary].map(count);
        let is_plain = wide == 0 && eight.iter().all(Option::is_some);
        let four_inner = rows.map(|row| row.iter().all(|&at| at > Some(Sort::Boundary)));
        let cases = [
            (Feature::RegularFace, regular == 8),
            (
                Feature::IrregularDiagonal,
                regular == 8 && adjacency.has_irregular_opposite(face),
            ),
            (Feature::SevenAndWide, regular == 7 && wide == 1),
            (Feature::SevenAndBoundary, regular == 7 && boundary == 1),
            (Feature::PlainFace, is_plain && boundary > 0),
            (Feature::JoinedCorners, adjacency.has_joined_corners(face)),
            (Feature::OneDirection, four_inner[0] != four_inner[1]),
            (
                Feature::IrregularMean,
                four_inner == [true; 2] && regular < 8,
            ),
        ];
        let holding = cases.into_iter().filter(|(_, holds)| *holds);
        self.features.extend(holding.map(|(feature, _)| feature));
    }
}

/// The adjacency of a net, with what each vertex is as an end.
pub struct Adjacency {
    topology: Topology,
    ends: Vec<End>,
}

impl Adjacency {
    pub fn new(net: &Net) -> Self {
        let topology = Topology::new(&net.faces).expect("the sides of the net are distinct");
        let mut faces_at = vec![0; net.points.len()];
        for corner in net.corners() {
            faces_at[corner as usize] += 1;
        }
        let mut ends: Vec<End> = faces_at.iter().map(|&faces| End::Ring(faces)).collect();
        for &vertex in topology.boundary().after.keys() {
            ends[vertex as usize] = End::Fan(faces_at[vertex as usize]);
        }
        Self { topology, ends }
    }

    pub fn end(&self, vertex: u32) -> End {
        self.ends[vertex as usize]
    }

    pub fn sort(&self, from: u32, to: u32) -> Sort {
        if !self.topology.is_inner(from, to) {
            return Sort::Boundary;
        }
        match [from, to].map(|vertex| self.end(vertex)) {
            [End::Ring(4), End::Ring(4)] => Sort::Regular,
            ends if ends.iter().all(|end| end.is_ordinary()) => Sort::Rim,
            _ => Sort::Wide,
        }
    }

    /// The edges of both directions of a face; those beyond a boundary side
    /// are missing.
    pub fn rows(&self, [a, b, c, d]: [u32; 4]) -> [[Option<Sort>; 4]; 2] {
        [[(a, b), (c, d)], [(b, c), (d, a)]].map(|sides| {
            let [near, far] = sides.map(|(from, to)| Some(self.sort(from, to)));
            let [first, last] = sides.map(|(from, to)| {
                let wedge = self.topology.wedge(to, from)?;
                Some(self.sort(wedge.opposite, wedge.next))
            });
            [first, near, far, last]
        })
    }

    fn has_ordinary_neighbours(&self, vertex: u32) -> bool {
        let star = self.topology.star(vertex).expect("a ring or a fan");
        let mut neighbours = star.neighbours.iter();
        neighbours.all(|&neighbour| self.end(neighbour).is_ordinary())
    }

    /// Whether some face at a corner has an irregular vertex opposite to it.
    fn has_irregular_opposite(&self, face: [u32; 4]) -> bool {
        let stars = face.map(|corner| self.topology.star(corner).expect("a ring or a fan"));
        let mut opposites = stars.iter().flat_map(|star| &star.opposites);
        opposites.any(|&vertex| !self.end(vertex).is_ordinary())
    }

    fn has_joined_corners(&self, [a, b, c, d]: [u32; 4]) -> bool {
        let is_edge = |(from, to)| self.topology.wedge(from, to).is_some();
        [(a, c), (c, a), (b, d), (d, b)].into_iter().any(is_edge)
    }
}
