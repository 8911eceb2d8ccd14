//! Random nets with side counts that a call accepts, of every kind.

use std::collections::BTreeSet;

use reference::net::{PolygonNet, sides};
use reference::refusal::MAX_FACES;

use crate::accepted::{Shape, Size, draw_part, dressed, topology};
use crate::change::{PLACINGS, Placing, erode, repair};
use crate::remodel::Remodel;
use crate::rng::Rng;
use crate::shapes::union;
use crate::solids;

named_cases! {
    /// Kinds of nets with side counts.
    pub enum PolygonShape {
        /// One face.
        Lone = "lone",
        /// Faces of four sides only.
        Quads = "quads",
        /// Quadrilaterals, some of them cut along a diagonal.
        Cut = "cut",
        /// Quadrilaterals, some of them merged over an edge.
        Merged = "merged",
        /// Faces cut and merged many times.
        Remodelled = "remodelled",
        /// A closed solid.
        Solid = "solid",
        /// A closed solid, cut and merged.
        RemodelledSolid = "remodelled-solid",
        /// A closed solid without some of its faces.
        OpenSolid = "open-solid",
        /// Faces round a vertex with a full ring.
        Ring = "ring",
        /// Faces round a vertex with an open fan.
        Fan = "fan",
        /// Random faces over few vertices.
        Soup = "soup",
        /// Several separate nets.
        Components = "components",
        /// Another net with coordinates at the limit.
        Extreme = "extreme",
    }
}

/// Shapes of quadrilaterals that are drawn fast with many faces.
const LARGE: [Shape; 4] = [Shape::Grid, Shape::Holes, Shape::Annulus, Shape::Torus];

/// The most corners of a net of this size; a dodecahedron has 60.
pub fn most_corners(size: Size) -> usize {
    match size {
        Size::Small => 60,
        Size::Medium => 256,
        Size::Large => MAX_FACES,
    }
}

fn holds(size: Size, net: &PolygonNet) -> bool {
    net.corners().count() <= most_corners(size) && net.points.len() <= size.most_vertices()
}

/// A number of sides.
pub fn some_size(rng: &mut Rng) -> u32 {
    rng.between(3, 8).unsigned_abs()
}

/// So many numbers of sides, sometimes all equal.
pub fn some_sizes(count: i32, rng: &mut Rng) -> Vec<u32> {
    let same = some_size(rng);
    let is_mixed = rng.one_in(2);
    (0..count)
        .map(|_| if is_mixed { some_size(rng) } else { same })
        .collect()
}

/// A random net of this kind that a call accepts, with random numbers, face
/// rotations, marks and points.
pub fn accepted_polygons(shape: PolygonShape, size: Size, rng: &mut Rng) -> PolygonNet {
    let net = loop {
        let net = draw(shape, size, rng);
        if holds(size, &net) && !net.faces.is_empty() {
            break net;
        }
    };
    let placing = match shape {
        PolygonShape::Extreme => Placing::Extreme,
        _ => rng.pick(&PLACINGS),
    };
    dressed(net, placing, rng)
}

fn draw(shape: PolygonShape, size: Size, rng: &mut Rng) -> PolygonNet {
    match shape {
        PolygonShape::Lone => solids::separate(&[some_size(rng)]),
        PolygonShape::Quads => quads(size, rng),
        PolygonShape::Cut => remodelled(quads(size, rng), [1, 0], size, rng),
        PolygonShape::Merged => remodelled(quads(size, rng), [0, 1], size, rng),
        PolygonShape::Remodelled => remodelled(quads(size, rng), [3, 3], size, rng),
        PolygonShape::Solid => solid(rng),
        PolygonShape::RemodelledSolid => remodelled(solid(rng), [2, 2], size, rng),
        PolygonShape::OpenSolid => {
            let times = rng.pick(&[3, 6, 12]);
            erode(solid(rng), times, rng)
        }
        PolygonShape::Ring => {
            let faces = rng.between(3, 8);
            solids::star(&some_sizes(faces, rng), true)
        }
        PolygonShape::Fan => {
            let faces = rng.between(1, 6);
            solids::star(&some_sizes(faces, rng), false)
        }
        PolygonShape::Soup => soup(size, rng),
        PolygonShape::Components => {
            let [first, second] = [(); 2].map(|()| part(size, rng));
            union(first, &second)
        }
        PolygonShape::Extreme => part(size, rng),
    }
}

fn part(size: Size, rng: &mut Rng) -> PolygonNet {
    use PolygonShape::{Fan, Lone, Merged, OpenSolid, Remodelled, Ring, Solid, Soup};
    let shape = rng.pick(&[Lone, Merged, Remodelled, Solid, OpenSolid, Ring, Fan, Soup]);
    draw(shape, size, rng)
}

/// Quadrilaterals of any shape.
fn quads(size: Size, rng: &mut Rng) -> PolygonNet {
    loop {
        let net = match size {
            Size::Large => topology(rng.pick(&LARGE), size, rng),
            _ => draw_part(size, rng),
        };
        if 4 * net.faces.len() <= most_corners(size) {
            return PolygonNet::from(&net);
        }
    }
}

/// A net with so many tries to cut and to merge for each of its faces, or
/// fewer.
fn remodelled(net: PolygonNet, [cut, merge]: [usize; 2], size: Size, rng: &mut Rng) -> PolygonNet {
    let room = most_corners(size).saturating_sub(net.corners().count()) / 2;
    let mut model = Remodel::new(net);
    let faces = model.faces();
    let part = rng.pick(&[1, 1, 4]);
    let cuts = (cut * faces / part).min(room);
    let mut tries = [vec![true; cuts], vec![false; merge * faces / part]].concat();
    rng.shuffle(&mut tries);
    for is_cut in tries {
        if is_cut {
            model.cut(rng);
        } else {
            model.merge(rng);
        }
    }
    model.finish()
}

/// A closed solid of genus 0.
fn solid(rng: &mut Rng) -> PolygonNet {
    let n = some_size(rng);
    let net = match rng.below(6) {
        0 => solids::prism(n),
        1 => solids::antiprism(n),
        2 => solids::pyramid(n),
        3 => solids::bipyramid(n),
        4 => solids::capped_antiprism(n),
        _ => solids::capped_antiprism(5),
    };
    if rng.one_in(3) {
        solids::dual(&net)
    } else {
        net
    }
}

/// Random faces over few vertices: those whose sides are still free are kept,
/// then vertices between several fans are split.
fn soup(size: Size, rng: &mut Rng) -> PolygonNet {
    let vertices = 3 + rng.below(8);
    let mut taken = BTreeSet::new();
    let mut faces: Vec<Vec<u32>> = Vec::new();
    let tries = if size == Size::Small { 20 } else { 100 };
    for _ in 0..tries {
        let mut face = rng.permutation(vertices);
        face.truncate(some_size(rng) as usize);
        if sides(&face).all(|side| !taken.contains(&side)) {
            taken.extend(sides(&face));
            faces.push(face);
        }
    }
    repair(solids::polygons(vec![[0; 3]; vertices], faces), rng)
}
