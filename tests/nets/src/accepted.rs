//! Random nets that a call accepts, of every kind.

use std::collections::BTreeSet;

use reference::net::{Mesh, Net, sides};
use reference::refusal::check_net;
use reference::rules::Tension;
use reference::step::refine_once;

use crate::build::to_u32;
use crate::change::{
    Face, PLACINGS, Placing, boundary_loops, erode, flip, mark, place, renumber, repair,
};
use crate::rng::Rng;
use crate::shapes;

named_cases! {
    /// Topological kinds of nets, and kinds of coordinates that deserve their own.
    pub enum Shape {
        Empty = "empty",
        Single = "single",
        Grid = "grid",
        Holes = "holes",
        Annulus = "annulus",
        Cylinder = "cylinder",
        /// Closed, genus 0.
        Sphere = "sphere",
        /// Closed, genus 1.
        Torus = "torus",
        /// Closed, genus 2.
        DoubleTorus = "double-torus",
        /// Sectors round a vertex with a full ring.
        Ring = "ring",
        /// Sectors round a vertex with an open fan.
        Fan = "fan",
        /// Several separate nets.
        Components = "components",
        /// Another net without some of its faces.
        Eroded = "eroded",
        /// Random faces over few vertices.
        Soup = "soup",
        /// Grown face by face along the boundary.
        Grown = "grown",
        /// A face with any valences and regular layers round it.
        Patch = "patch",
        /// Another net with every face split.
        Split = "split",
        /// Another net with coordinates at the limit.
        Extreme = "extreme",
        /// Another net with coordinates that make halves.
        Halves = "halves",
    }
}

impl Shape {
    /// Whether other shapes are made of this one.
    fn is_part(self) -> bool {
        use Shape::{Components, DoubleTorus, Empty, Eroded, Extreme, Halves, Split};
        !matches!(
            self,
            Empty | DoubleTorus | Components | Eroded | Split | Extreme | Halves
        )
    }
}

/// How large a net may become.
#[derive(Clone, Copy, Debug, PartialEq, Eq)]
pub enum Size {
    /// At most 12 faces and 40 vertices.
    Small,
    /// At most 64 faces, so that the program serves one round.
    Medium,
    /// At most 4,096 faces.
    Large,
}

impl Size {
    pub fn most_faces(self) -> usize {
        match self {
            Size::Small => 12,
            Size::Medium => 64,
            Size::Large => 4_096,
        }
    }

    pub fn most_vertices(self) -> usize {
        match self {
            Size::Small => 40,
            Size::Medium => 1_024,
            Size::Large => 8_192,
        }
    }

    fn holds(self, net: &Net) -> bool {
        net.faces.len() <= self.most_faces() && net.points.len() <= self.most_vertices()
    }

    /// A number from `low` to the limit of this size.
    fn upto(self, low: i32, limits: [i32; 3], rng: &mut Rng) -> i32 {
        let [small, medium, large] = limits;
        let high = match self {
            Size::Small => small,
            Size::Medium => medium,
            Size::Large => large,
        };
        rng.between(low, high)
    }
}

/// A random net of this kind that a call accepts, with random numbers, face
/// rotations, marks and points.
pub fn accepted(shape: Shape, size: Size, rng: &mut Rng) -> Net {
    let net = topology(shape, size, rng);
    let placing = match shape {
        Shape::Extreme => Placing::Extreme,
        Shape::Halves => Placing::Halves,
        _ => rng.pick(&PLACINGS),
    };
    dressed(net, placing, rng)
}

/// A net with points as this placing says, turned over or not, with random
/// marks, and mostly with random numbers and face rotations.
pub fn dressed<F: Face>(mut net: Mesh<F>, placing: Placing, rng: &mut Rng) -> Mesh<F> {
    place(&mut net, placing, rng);
    if rng.one_in(2) {
        flip(&mut net);
    }
    mark(&mut net, rng);
    if rng.one_in(4) {
        return net;
    }
    renumber(&net, rng).0
}

/// A net of this kind and size without marks.
pub fn topology(shape: Shape, size: Size, rng: &mut Rng) -> Net {
    loop {
        let net = draw(shape, size, rng);
        if size.holds(&net) && (shape == Shape::Empty || !net.faces.is_empty()) {
            return net;
        }
    }
}

fn draw(shape: Shape, size: Size, rng: &mut Rng) -> Net {
    match shape {
        Shape::Empty => Net::default(),
        Shape::Single => shapes::grid(1, 1),
        Shape::Grid => {
            let columns = size.upto(1, [4, 8, 64], rng);
            shapes::grid(columns, size.upto(1, [3, 8, 64], rng))
        }
        Shape::Holes => holes(size, rng),
        Shape::Annulus => {
            let around = size.upto(3, [6, 16, 64], rng);
            shapes::annulus(around, size.upto(1, [2, 4, 64], rng))
        }
        Shape::Cylinder => {
            let around = size.upto(3, [6, 16, 64], rng);
            shapes::cylinder(around, size.upto(1, [2, 4, 64], rng))
        }
        Shape::Sphere => sphere(size, rng),
        Shape::Torus => torus(size, rng),
        Shape::DoubleTorus => double_torus(size, rng),
        Shape::Ring => sectors(rng.between(3, 8), true, size, rng),
        Shape::Fan => sectors(rng.between(1, 6), false, size, rng),
        Shape::Components => components(size, rng),
        Shape::Eroded => {
            let base = draw_part(size, rng);
            let times = rng.pick(&[4, 8, 20]);
            erode(base, times, rng)
        }
        Shape::Soup => soup(size, rng),
        Shape::Grown => grown(size, rng),
        Shape::Patch => patch(size, rng),
        Shape::Split => split(size, rng),
        Shape::Extreme | Shape::Halves => draw_part(size, rng),
    }
}

pub fn draw_part(size: Size, rng: &mut Rng) -> Net {
    let parts = Shape::ALL.iter().copied().filter(|shape| shape.is_part());
    let part = rng.pick(&parts.collect::<Vec<_>>());
    topology(part, size, rng)
}

/// A grid without some of its faces; one at least stays.
fn holes(size: Size, rng: &mut Rng) -> Net {
    let columns = size.upto(3, [4, 8, 64], rng);
    let rows = size.upto(3, [3, 8, 64], rng);
    let mut net = shapes::grid(columns, rows);
    for _ in 0..size.upto(1, [2, 6, 40], rng) {
        let count = net.faces.len();
        if count > 1 {
            net.faces.remove(rng.below(count));
        }
    }
    repair(net, rng)
}

/// Closed, genus 0.
fn sphere(size: Size, rng: &mut Rng) -> Net {
    match rng.below(2) {
        0 => shapes::trapezohedron(size.upto(3, [6, 8, 8], rng)),
        _ => shapes::block([(); 3].map(|()| size.upto(1, [2, 3, 20], rng))),
    }
}

/// Closed, genus 1.
fn torus(size: Size, rng: &mut Rng) -> Net {
    if rng.one_in(2) {
        let around = size.upto(3, [4, 8, 64], rng);
        return shapes::torus(around, size.upto(3, [3, 8, 64], rng));
    }
    let faces = size.upto(5, [12, 64, 4096], rng);
    let shift = rng.between(2, (faces - 1) / 2);
    shapes::skew_torus(faces, shift)
}

/// Closed, genus 2.
fn double_torus(size: Size, rng: &mut Rng) -> Net {
    let by_grid = |most, rng: &mut Rng| shapes::torus(rng.between(3, most), rng.between(3, most));
    match size {
        Size::Small => {
            let (grid, skew) = (shapes::torus(3, 3), shapes::skew_torus(5, 2));
            shapes::connected_sum(grid, rng.below(9), &skew, rng.below(5))
        }
        Size::Medium if rng.one_in(2) => shapes::plate(2),
        _ => {
            let most = size.upto(4, [4, 5, 40], rng);
            let (first, second) = (by_grid(most, rng), by_grid(most, rng));
            let (a, b) = (rng.below(first.faces.len()), rng.below(second.faces.len()));
            shapes::connected_sum(first, a, &second, b)
        }
    }
}

/// Sectors round a vertex, each as large as the size allows.
fn sectors(sectors: i32, closed: bool, size: Size, rng: &mut Rng) -> Net {
    let largest = (1..)
        .take_while(|&side| to_u32(size.most_faces()) >= (sectors * side * side).unsigned_abs())
        .last()
        .unwrap_or(1);
    shapes::sectors(sectors, rng.between(1, largest), closed)
}

/// Two to four separate nets.
fn components(size: Size, rng: &mut Rng) -> Net {
    let parts = rng.between(2, 4);
    let first = draw_part(size, rng);
    (1..parts).fold(first, |net, _| {
        let larger = shapes::union(net.clone(), &draw_part(size, rng));
        if size.holds(&larger) {
            larger
        } else {
            shapes::union(net, &shapes::grid(1, 1))
        }
    })
}

/// Random faces over few vertices: those whose sides are still free are kept,
/// then vertices between several fans are split.
fn soup(size: Size, rng: &mut Rng) -> Net {
    let vertices = rng.between(5, 9);
    let mut net = shapes::grid(vertices - 1, 1);
    let mut taken = BTreeSet::new();
    net.faces.clear();
    for _ in 0..size.upto(3, [40, 200, 200], rng) {
        let corners = rng.permutation(net.points.len());
        let face = [corners[0], corners[1], corners[2], corners[3]];
        if sides(&face).all(|side| !taken.contains(&side)) {
            taken.extend(sides(&face));
            net.faces.push(face);
        }
    }
    repair(net, rng)
}

/// A net grown face by face along its boundary.
fn grown(size: Size, rng: &mut Rng) -> Net {
    let mut net = shapes::grid(1, 1);
    for _ in 0..size.upto(2, [24, 90, 200], rng) {
        let mut larger = net.clone();
        attach(&mut larger, rng);
        if size.holds(&larger) && check_net(&larger).is_ok() {
            net = larger;
        }
    }
    net
}

/// A face with any valences at its corners and layers of faces round it.
fn patch(size: Size, rng: &mut Rng) -> Net {
    let (most, layers) = match size {
        Size::Small => (5, 1),
        Size::Medium => (8, 2),
        Size::Large => (8, 3),
    };
    let valences = [(); 4].map(|()| usize::try_from(rng.between(3, most)).expect("positive"));
    shapes::patch(valences, layers)
}

/// Attaches a face to one to three consecutive boundary sides, or between two
/// boundary sides anywhere. The result need not be acceptable.
fn attach(net: &mut Net, rng: &mut Rng) {
    let loops = boundary_loops(net);
    if loops.is_empty() {
        return;
    }
    let chosen = &loops[rng.below(loops.len())];
    let start = rng.below(chosen.len());
    let at = |on: usize| chosen[(start + on) % chosen.len()];
    if rng.one_in(4) {
        let other = &loops[rng.below(loops.len())];
        let far = rng.below(other.len());
        let [c, d] = [far, far + 1].map(|i| other[i % other.len()]);
        net.faces.push([at(1), at(0), d, c]);
        return;
    }
    let sides = rng.pick(&[1, 1, 2, 2, 3]);
    let mut corners: Vec<u32> = (0..=sides).rev().map(at).collect();
    while corners.len() < 4 {
        corners.push(to_u32(net.points.len()));
        net.points.push([0; 3]);
        net.marks.push(0);
    }
    net.faces.extend(corners.as_chunks::<4>().0);
}

/// A net with every face split, so that irregular vertices stand apart.
fn split(size: Size, rng: &mut Rng) -> Net {
    loop {
        let part = match size {
            Size::Large => draw_part(Size::Medium, rng),
            _ => draw_part(Size::Small, rng),
        };
        if 4 * part.faces.len() <= size.most_faces() {
            return refine_once(&part, Tension::OLD).net;
        }
    }
}
