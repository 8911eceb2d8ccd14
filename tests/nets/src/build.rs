//! Nets put together from faces whose corners are named by keys.

use std::collections::BTreeMap;

use reference::net::Net;
use reference::point::Point;

/// Collects faces; equal keys are one vertex.
#[derive(Debug)]
pub struct Builder<K> {
    numbers: BTreeMap<K, u32>,
    net: Net,
}

impl<K: Ord> Default for Builder<K> {
    fn default() -> Self {
        Self {
            numbers: BTreeMap::new(),
            net: Net::default(),
        }
    }
}

impl<K: Ord + Copy> Builder<K> {
    /// Adds a face; `place` gives the point of a corner met for the first time.
    pub fn face(&mut self, corners: [K; 4], place: impl Fn(K) -> Point) {
        let face = corners.map(|key| self.vertex(key, &place));
        self.net.faces.push(face);
    }

    fn vertex(&mut self, key: K, place: impl Fn(K) -> Point) -> u32 {
        let next = to_u32(self.net.points.len());
        *self.numbers.entry(key).or_insert_with(|| {
            self.net.points.push(place(key));
            self.net.marks.push(0);
            next
        })
    }

    pub fn finish(self) -> Net {
        self.net
    }
}

/// A length or position in a table as a 32-bit number.
pub fn to_u32(length: usize) -> u32 {
    u32::try_from(length).expect("small tables")
}
