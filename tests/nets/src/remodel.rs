//! Accepted nets with some faces cut along a diagonal or merged over an edge.

use std::collections::{BTreeMap, BTreeSet};

use reference::net::{PolygonNet, sides};
use reference::refusal::{MAX_FAN, RING_SIZES, SIDE_COUNTS};
use reference::topology::{Star, Topology};

use crate::build::to_u32;
use crate::rng::Rng;

/// A net in the making. Every change keeps it accepted.
#[derive(Debug)]
pub struct Remodel {
    /// Faces that were merged into others stay as empty lists.
    net: PolygonNet,
    /// For each directed side its face.
    owners: BTreeMap<(u32, u32), usize>,
    is_ring: Vec<bool>,
    faces_at: Vec<usize>,
}

impl Remodel {
    /// Begins with an accepted net.
    pub fn new(net: PolygonNet) -> Self {
        let topology = Topology::new(&net.faces).expect("an accepted net");
        let star = |vertex| topology.star(vertex).expect("an accepted net");
        let stars: Vec<Star> = (0..to_u32(net.points.len())).map(star).collect();
        let mut model = Self {
            owners: BTreeMap::new(),
            is_ring: stars.iter().map(Star::is_ring).collect(),
            faces_at: stars.iter().map(Star::face_count).collect(),
            net,
        };
        (0..model.net.faces.len()).for_each(|face| model.own(face));
        model
    }

    /// Faces, with those that were merged into others.
    pub fn faces(&self) -> usize {
        self.net.faces.len()
    }

    pub fn finish(mut self) -> PolygonNet {
        self.net.faces.retain(|face| !face.is_empty());
        self.net
    }

    fn own(&mut self, face: usize) {
        for side in sides(&self.net.faces[face]) {
            self.owners.insert(side, face);
        }
    }

    fn can_gain(&self, vertex: u32) -> bool {
        let at = vertex as usize;
        let most = if self.is_ring[at] {
            *RING_SIZES.end()
        } else {
            MAX_FAN
        };
        self.faces_at[at] < most
    }

    fn can_lose(&self, vertex: u32) -> bool {
        let at = vertex as usize;
        !self.is_ring[at] || self.faces_at[at] > *RING_SIZES.start()
    }

    /// Cuts a random face along a random diagonal, if that can be.
    pub fn cut(&mut self, rng: &mut Rng) {
        let number = rng.below(self.net.faces.len());
        let mut face = self.net.faces[number].clone();
        if face.len() < 4 {
            return;
        }
        let (start, far) = (rng.below(face.len()), 2 + rng.below(face.len() - 3));
        face.rotate_left(start);
        let (a, c) = (face[0], face[far]);
        let is_taken = self.owners.contains_key(&(a, c)) || self.owners.contains_key(&(c, a));
        if is_taken || !self.can_gain(a) || !self.can_gain(c) {
            return;
        }
        let mut other = face.split_off(far);
        face.push(c);
        other.push(a);
        self.net.faces[number] = face;
        self.net.faces.push(other);
        self.own(number);
        self.own(self.net.faces.len() - 1);
        for vertex in [a, c] {
            self.faces_at[vertex as usize] += 1;
        }
    }

    /// Merges two random faces over their common edge, if that can be.
    pub fn merge(&mut self, rng: &mut Rng) {
        let number = rng.below(self.net.faces.len());
        let mut face = self.net.faces[number].clone();
        if face.is_empty() {
            return;
        }
        let start = rng.below(face.len());
        face.rotate_left(start);
        let (b, a) = (face[0], face[face.len() - 1]);
        let Some(&neighbour) = self.owners.get(&(b, a)) else {
            return;
        };
        let mut other = self.net.faces[neighbour].clone();
        let at = other.iter().position(|&v| v == a).expect("a corner");
        other.rotate_left(at);
        let corners: BTreeSet<u32> = face.iter().chain(&other).copied().collect();
        let count = face.len() + other.len() - 2;
        let is_simple = corners.len() == count && count <= usize::from(*SIDE_COUNTS.end());
        if !is_simple || !self.can_lose(a) || !self.can_lose(b) {
            return;
        }
        face.extend(&other[1..other.len() - 1]);
        self.owners.remove(&(a, b));
        self.owners.remove(&(b, a));
        self.net.faces[number] = face;
        self.net.faces[neighbour].clear();
        self.own(number);
        for vertex in [a, b] {
            self.faces_at[vertex as usize] -= 1;
        }
    }
}
