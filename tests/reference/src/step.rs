//! One refinement step of an accepted net, and the split of other faces that
//! goes before the first.

use std::collections::BTreeMap;

use crate::net::{Mesh, Net, PolygonNet, edge, sides};
use crate::point::ExactPoint;
use crate::rules::{Tension, mean, midpoint, reflect};
use crate::topology::{BoundaryLoops, Star, Topology};

/// The rule that makes a new point.
#[derive(Clone, Copy, Debug, PartialEq, Eq, Hash, PartialOrd, Ord)]
pub enum Rule {
    /// Boundary edge with four consecutive points of its boundary segment.
    BoundaryInside,
    /// First or last edge of an open boundary segment of two or more edges.
    EndEdge,
    /// The only edge of an open boundary segment.
    OneEdge,
    /// Edge of two faces.
    InnerEdge,
    /// Face point; the directions start from sides 0 and 1.
    Face {
        neighbours: [u8; 2],
        four_inner: Directions,
    },
}

/// The directions of a face that have four inner edges. One alone makes the
/// face point; otherwise it is the mean of both.
#[derive(Clone, Copy, Debug, PartialEq, Eq, Hash, PartialOrd, Ord)]
pub enum Directions {
    /// Only the direction from side 0.
    First,
    /// Only the direction from side 1.
    Second,
    Both,
    Neither,
}

/// A new point before rounding.
#[derive(Clone, Copy, Debug, PartialEq, Eq)]
pub struct NewPoint {
    pub rule: Rule,
    pub exact: ExactPoint,
}

/// The result of one direction of a face.
#[derive(Clone, Copy, Debug, PartialEq, Eq)]
pub struct Direction {
    /// Neighbouring faces in this direction, 0 to 2.
    pub neighbours: u8,
    /// Whether all four edges are there and inner.
    pub four_inner: bool,
    pub point: ExactPoint,
}

/// A refined net with the origin of its new vertices: `made[i]` belongs to
/// vertex `V + i`, the edge points first.
#[derive(Clone, Debug, PartialEq, Eq)]
pub struct Step {
    pub net: Net,
    pub made: Vec<NewPoint>,
}

/// Refines an accepted net, or the result of refining one, once.
pub fn refine_once(net: &Net, tension: Tension) -> Step {
    let surface = Surface::new(net, tension);
    let edges = Topology::edges_in_order(&net.faces);
    let mut made: Vec<NewPoint> = Vec::with_capacity(edges.len() + net.faces.len());
    let mut edge_points = BTreeMap::new();
    for &(from, to) in &edges {
        let point = surface.edge_point(from, to);
        edge_points.insert(edge(from, to), point.exact);
        made.push(point);
    }
    for &face in &net.faces {
        made.push(surface.face_point(face, &edge_points));
    }
    let points: Vec<ExactPoint> = made.iter().map(|new| new.exact).collect();
    let net = subdivide(net, &edges, &points);
    Step { net, made }
}

/// Splits every face of an accepted net with side counts into as many
/// quadrilaterals as it has sides. An edge gets its midpoint, a face the mean
/// of its corners.
pub fn split(net: &PolygonNet) -> Net {
    let exact = |&vertex: &u32| ExactPoint::from(net.point(vertex));
    let edges = Topology::edges_in_order(&net.faces);
    let mut points: Vec<ExactPoint> = edges
        .iter()
        .map(|(from, to)| midpoint(exact(from), exact(to)))
        .collect();
    for face in &net.faces {
        let corners: Vec<ExactPoint> = face.iter().map(exact).collect();
        points.push(mean(&corners));
    }
    subdivide(net, &edges, &points)
}

/// The net after a step with these new points, one per edge, then one per
/// face. They are rounded here; old points and marks stay.
fn subdivide<F: AsRef<[u32]>>(net: &Mesh<F>, edges: &[(u32, u32)], new: &[ExactPoint]) -> Net {
    let old = net.points.len();
    let mut points = net.points.clone();
    points.extend(new.iter().map(|point| point.round()));
    let mut marks = net.marks.clone();
    marks.resize(points.len(), 0);
    let numbers: BTreeMap<(u32, u32), u32> = edges
        .iter()
        .zip(old..)
        .map(|(&(from, to), number)| (edge(from, to), vertex_number(number)))
        .collect();
    let centres = (old + edges.len()..).map(vertex_number);
    let faces = net.faces.iter().zip(centres);
    let faces = faces.flat_map(|(face, centre)| parts(face.as_ref(), centre, &numbers));
    Net {
        faces: faces.collect(),
        points,
        marks,
    }
}

fn vertex_number(number: usize) -> u32 {
    u32::try_from(number).expect("vertex number fits")
}

/// The faces that a face becomes, one for each corner: corner i, point of side
/// i, face point, point of side i-1.
fn parts(face: &[u32], centre: u32, numbers: &BTreeMap<(u32, u32), u32>) -> Vec<[u32; 4]> {
    let middles: Vec<u32> = sides(face)
        .map(|(from, to)| numbers[&edge(from, to)])
        .collect();
    let n = face.len();
    (0..n)
        .map(|i| [face[i], middles[i], centre, middles[(i + n - 1) % n]])
        .collect()
}

/// The first `rounds` steps of an accepted net, each with the origin of its
/// new vertices.
pub fn trace(net: &Net, tension: Tension, rounds: u32) -> Vec<Step> {
    let mut steps: Vec<Step> = Vec::new();
    for _ in 0..rounds {
        let last = steps.last().map_or(net, |step| &step.net);
        steps.push(refine_once(last, tension));
    }
    steps
}

/// A net with its adjacency and the tension, as the rules see it.
pub struct Surface<'a> {
    pub(crate) net: &'a Net,
    pub(crate) tension: Tension,
    pub(crate) topology: Topology,
    pub(crate) boundary: BoundaryLoops,
}

impl<'a> Surface<'a> {
    pub fn new(net: &'a Net, tension: Tension) -> Self {
        let topology = Topology::new(&net.faces).expect("the sides of the net are distinct");
        let boundary = topology.boundary();
        Self {
            net,
            tension,
            topology,
            boundary,
        }
    }

    pub fn topology(&self) -> &Topology {
        &self.topology
    }

    pub fn edge_point(&self, from: u32, to: u32) -> NewPoint {
        if self.topology.is_inner(from, to) {
            NewPoint {
                rule: Rule::InnerEdge,
                exact: self.tension.four_point(
                    self.virtual_point(from, to),
                    self.exact(from),
                    self.exact(to),
                    self.virtual_point(to, from),
                ),
            }
        } else {
            self.boundary_point(from, to)
        }
    }

    /// The point on the boundary side from `from` to `to`.
    fn boundary_point(&self, from: u32, to: u32) -> NewPoint {
        let [p, q] = [from, to].map(|vertex| self.exact(vertex));
        let before = || self.exact(self.boundary.before[&from]);
        let after = || self.exact(self.boundary.after[&to]);
        let t = self.tension;
        let (rule, exact) = match (self.net.is_marked(from), self.net.is_marked(to)) {
            (true, true) => (Rule::OneEdge, midpoint(p, q)),
            (true, false) => (Rule::EndEdge, t.end_edge(p, q, after())),
            (false, true) => (Rule::EndEdge, t.end_edge(q, p, before())),
            (false, false) => (Rule::BoundaryInside, t.four_point(before(), p, q, after())),
        };
        NewPoint { rule, exact }
    }

    /// The extrapolated point P* of a boundary vertex.
    pub fn extrapolated(&self, vertex: u32) -> ExactPoint {
        let star = self.star(vertex);
        assert!(!star.is_ring(), "only boundary vertices are extrapolated");
        let inner = &star.neighbours[1..star.neighbours.len() - 1];
        let far = if inner.is_empty() {
            self.exact(star.opposites[0])
        } else {
            mean(&self.exact_all(inner))
        };
        reflect(self.exact(vertex), far)
    }

    /// The neighbours and opposite corners of a vertex as a closed ring; at a
    /// boundary vertex the extrapolated points close it. The fan runs from
    /// its first neighbour b to its last neighbour c: then come P* as a
    /// neighbour, c* between c and P*, and b* between P* and b.
    pub fn closed_ring(&self, vertex: u32) -> (Vec<ExactPoint>, Vec<ExactPoint>) {
        let star = self.star(vertex);
        let mut neighbours = self.exact_all(&star.neighbours);
        let mut opposites = self.exact_all(&star.opposites);
        if !star.is_ring() {
            let first = star.neighbours[0];
            let last = star.neighbours[star.neighbours.len() - 1];
            neighbours.push(self.extrapolated(vertex));
            opposites.push(self.extrapolated(last));
            opposites.push(self.extrapolated(first));
        }
        (neighbours, opposites)
    }

    /// The virtual point at `vertex` for its inner edge towards `other`.
    pub fn virtual_point(&self, vertex: u32, other: u32) -> ExactPoint {
        let towards = self
            .star(vertex)
            .neighbours
            .iter()
            .position(|&neighbour| neighbour == other)
            .expect("the edge starts at the vertex");
        let (neighbours, opposites) = self.closed_ring(vertex);
        let tension = self.tension;
        tension.virtual_point(&neighbours, &opposites, towards)
    }

    /// Both directions of a face, from side 0 and from side 1.
    pub fn directions(
        &self,
        face: [u32; 4],
        edge_points: &BTreeMap<(u32, u32), ExactPoint>,
    ) -> [Direction; 2] {
        let [a, b, c, d] = face;
        let opposite_sides = [((a, b), (c, d)), ((b, c), (d, a))];
        opposite_sides.map(|(near, far)| self.direction(near, far, edge_points))
    }

    fn direction(
        &self,
        near: (u32, u32),
        far: (u32, u32),
        edge_points: &BTreeMap<(u32, u32), ExactPoint>,
    ) -> Direction {
        let at = |(a, b): (u32, u32)| edge_points[&edge(a, b)];
        let t = self.tension;
        let beyond = [self.edge_beyond(near), self.edge_beyond(far)];
        let (neighbours, point) = match beyond {
            [Some(first), Some(last)] => (2, t.four_point(at(first), at(near), at(far), at(last))),
            [Some(first), None] => (1, t.end_edge(at(far), at(near), at(first))),
            [None, Some(last)] => (1, t.end_edge(at(near), at(far), at(last))),
            [None, None] => (0, midpoint(at(near), at(far))),
        };
        let four_inner = beyond
            .iter()
            .all(|edge| edge.is_some_and(|(a, b)| self.topology.is_inner(a, b)));
        Direction {
            neighbours,
            four_inner,
            point,
        }
    }

    /// The opposite edge of the neighbour across a side of a face.
    fn edge_beyond(&self, (from, to): (u32, u32)) -> Option<(u32, u32)> {
        let wedge = self.topology.wedge(to, from)?;
        Some((wedge.opposite, wedge.next))
    }

    pub fn face_point(
        &self,
        face: [u32; 4],
        edge_points: &BTreeMap<(u32, u32), ExactPoint>,
    ) -> NewPoint {
        let [first, second] = self.directions(face, edge_points);
        let mean = midpoint(first.point, second.point);
        let (four_inner, exact) = match (first.four_inner, second.four_inner) {
            (true, false) => (Directions::First, first.point),
            (false, true) => (Directions::Second, second.point),
            (true, true) => (Directions::Both, mean),
            (false, false) => (Directions::Neither, mean),
        };
        let neighbours = [first.neighbours, second.neighbours];
        NewPoint {
            rule: Rule::Face {
                neighbours,
                four_inner,
            },
            exact,
        }
    }

    fn star(&self, vertex: u32) -> Star {
        self.topology
            .star(vertex)
            .expect("the faces at a vertex form a ring or a fan")
    }

    pub(crate) fn exact(&self, vertex: u32) -> ExactPoint {
        self.net.point(vertex).into()
    }

    fn exact_all(&self, vertices: &[u32]) -> Vec<ExactPoint> {
        vertices.iter().map(|&vertex| self.exact(vertex)).collect()
    }
}
