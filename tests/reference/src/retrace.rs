//! Points worked out again from their letters. Paper 02: "V exactly for drawn
//! points, and the rule that any other letter names, applied to the net before
//! its round (for S the drawn net), gives that point."

use std::collections::BTreeMap;

use crate::letter::Letter;
use crate::net::{Net, edge};
use crate::point::{ExactPoint, Point};
use crate::rules::{Tension, midpoint};
use crate::step::Surface;
use crate::topology::Topology;

impl Surface<'_> {
    /// The point on an edge by the rule that a letter names, taken at its word:
    /// whether the marks agree is not asked. None if the edge has no such rule.
    pub fn edge_point_by(&self, letter: Letter, from: u32, to: u32) -> Option<ExactPoint> {
        let [p, q] = [from, to].map(|vertex| self.exact(vertex));
        let exact = |vertex: Option<&u32>| Some(self.exact(*vertex?));
        let before = exact(self.boundary.before.get(&from));
        let after = exact(self.boundary.after.get(&to));
        let t = self.tension;
        match letter {
            Letter::InsideSegment => Some(t.four_point(before?, p, q, after?)),
            Letter::EndEdge if self.net.is_marked(from) => Some(t.end_edge(p, q, after?)),
            Letter::EndEdge if self.net.is_marked(to) => Some(t.end_edge(q, p, before?)),
            Letter::OneEdge => Some(midpoint(p, q)),
            Letter::InnerEdge if self.topology.is_inner(from, to) => {
                let [v, w] = [self.virtual_point(from, to), self.virtual_point(to, from)];
                Some(t.four_point(v, p, q, w))
            }
            _ => None,
        }
    }

    /// The same for a face, from exact edge points. D is the direction with four
    /// inner edges, or the mean if both have them; where neither has them it is
    /// the first direction, so that a D in the place of an E is found out.
    pub fn face_point_by(
        &self,
        letter: Letter,
        face: [u32; 4],
        edge_points: &BTreeMap<(u32, u32), ExactPoint>,
    ) -> Option<ExactPoint> {
        let [first, second] = self.directions(face, edge_points);
        let mean = midpoint(first.point, second.point);
        match letter {
            Letter::FaceFourInner => Some(match (first.four_inner, second.four_inner) {
                (true, true) => mean,
                (false, true) => second.point,
                (_, false) => first.point,
            }),
            Letter::OtherFace => Some(mean),
            _ => None,
        }
    }
}

/// The new points of a round on a net by their letters, one for each edge and
/// then one for each face; none if a letter names no rule there.
fn new_points_by(net: &Net, tension: Tension, letters: &[Letter]) -> Option<Vec<Point>> {
    let surface = Surface::new(net, tension);
    let edges = Topology::edges_in_order(&net.faces);
    let (on_edges, on_faces) = letters.split_at_checked(edges.len())?;
    let mut points = Vec::new();
    let mut edge_points = BTreeMap::new();
    for (&(from, to), &letter) in edges.iter().zip(on_edges) {
        let exact = surface.edge_point_by(letter, from, to)?;
        edge_points.insert(edge(from, to), exact);
        points.push(exact.round());
    }
    for (&face, &letter) in net.faces.iter().zip(on_faces) {
        let exact = surface.face_point_by(letter, face, &edge_points)?;
        points.push(exact.round());
    }
    (on_faces.len() == net.faces.len()).then_some(points)
}

/// Whether a round on this net gives these points by these letters: all points
/// after the round, and a letter for each.
pub fn round_is_by_letters(
    before: &Net,
    tension: Tension,
    points: &[Point],
    letters: &[u8],
) -> bool {
    let old = before.points.len();
    let letters: Option<Vec<Letter>> = letters.iter().map(|&b| Letter::of_byte(b)).collect();
    let new = letters.filter(|letters| letters.len() == points.len() && old <= points.len());
    let new = new.and_then(|letters| new_points_by(before, tension, &letters[old..]));
    new.is_some_and(|new| before.points == points[..old] && new == points[old..])
}

/// Whether the points where refining begins, and a letter for each, are those
/// of the drawn net and of its split: V exactly for drawn points, then S.
pub fn start_is_by_letters(start: &Net, control: usize, points: &[Point], letters: &[u8]) -> bool {
    let due = (0..start.points.len()).map(|vertex| if vertex < control { b'V' } else { b'S' });
    points == start.points && letters.iter().copied().eq(due)
}
