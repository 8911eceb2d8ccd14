//! Changes to nets: numbering, marks, points, removal and repair of faces.

use std::collections::BTreeMap;

use reference::net::Mesh;
use reference::refusal::{Refusal, check_net};
use reference::topology::Topology;

use crate::build::to_u32;
use crate::rng::Rng;

pub(crate) const LIMIT: i32 = 1_048_576;

/// The corners of a face: four of them, or a list.
pub trait Face: Clone + AsRef<[u32]> + AsMut<[u32]> {}

impl<F: Clone + AsRef<[u32]> + AsMut<[u32]>> Face for F {}

/// Removes vertices without faces; the others keep their order.
pub fn drop_unused_vertices<F: Face>(net: Mesh<F>) -> Mesh<F> {
    let mut is_used = vec![false; net.points.len()];
    for corner in net.corners() {
        is_used[corner as usize] = true;
    }
    let mut kept = Mesh {
        points: vec![],
        faces: net.faces,
        marks: vec![],
    };
    let mut numbers = vec![0; is_used.len()];
    for (vertex, _) in is_used.iter().enumerate().filter(|(_, used)| **used) {
        numbers[vertex] = to_u32(kept.points.len());
        kept.points.push(net.points[vertex]);
        kept.marks.push(net.marks[vertex]);
    }
    for corner in kept.corners_mut() {
        *corner = numbers[*corner as usize];
    }
    kept
}

/// New numbers for vertices and faces.
#[derive(Clone, Debug)]
pub struct Numbering {
    pub vertices: Vec<u32>,
    pub faces: Vec<u32>,
}

/// Gives vertices and faces random numbers and turns faces to a random first
/// corner. Corners beyond the vertex table stay as they are.
pub fn renumber<F: Face>(net: &Mesh<F>, rng: &mut Rng) -> (Mesh<F>, Numbering) {
    let numbering = Numbering {
        vertices: rng.permutation(net.points.len()),
        faces: rng.permutation(net.faces.len()),
    };
    let mut renumbered = net.clone();
    for (old, &new) in numbering.vertices.iter().enumerate() {
        renumbered.points[new as usize] = net.points[old];
        renumbered.marks[new as usize] = net.marks[old];
    }
    for (old, &new) in numbering.faces.iter().enumerate() {
        let mut face = net.faces[old].clone();
        for corner in face.as_mut() {
            let number = numbering.vertices.get(*corner as usize);
            *corner = number.copied().unwrap_or(*corner);
        }
        let sides = face.as_ref().len();
        face.as_mut().rotate_left(rng.below(sides));
        renumbered.faces[new as usize] = face;
    }
    (renumbered, numbering)
}

/// Turns all faces over, so that the boundary runs the other way.
pub fn flip<F: Face>(net: &mut Mesh<F>) {
    for face in &mut net.faces {
        face.as_mut().reverse();
    }
}

/// Boundary loops as vertex lists, the way the sides run.
pub fn boundary_loops<F: Face>(net: &Mesh<F>) -> Vec<Vec<u32>> {
    let topology = Topology::new(&net.faces).expect("an accepted net");
    let mut after = topology.boundary().after;
    let mut loops = Vec::new();
    while let Some((&start, _)) = after.first_key_value() {
        let mut vertices = Vec::new();
        let mut at = start;
        while let Some(next) = after.remove(&at) {
            vertices.push(at);
            at = next;
        }
        loops.push(vertices);
    }
    loops
}

/// Marks boundary vertices of an accepted net, loop by loop, in one of several
/// manners.
pub fn mark<F: Face>(net: &mut Mesh<F>, rng: &mut Rng) {
    let mut faces_at: BTreeMap<u32, usize> = BTreeMap::new();
    for corner in net.corners() {
        *faces_at.entry(corner).or_default() += 1;
    }
    for vertices in boundary_loops(net) {
        let chosen = rng.pick(&vertices);
        let manner = rng.below(6);
        for vertex in vertices {
            let is_marked = match manner {
                0 => false,
                1 => true,
                2 => vertex == chosen,
                3 => vertex != chosen,
                4 => faces_at[&vertex] == 1,
                _ => rng.one_in(3),
            };
            net.marks[vertex as usize] = u8::from(is_marked);
        }
    }
}

/// How coordinates are chosen.
#[derive(Clone, Copy, Debug, PartialEq, Eq)]
pub enum Placing {
    /// As built.
    Plain,
    /// As built, each coordinate moved a little.
    Noisy,
    /// Anywhere within some hundreds.
    Scattered,
    /// Anywhere within the limit.
    Wide,
    /// At the limit, or 0.
    Extreme,
    /// Multiples of 8, so that sixteenths often are halves.
    Halves,
    /// Only -1, 0 and 1.
    Tiny,
}

pub const PLACINGS: [Placing; 7] = [
    Placing::Plain,
    Placing::Noisy,
    Placing::Scattered,
    Placing::Wide,
    Placing::Extreme,
    Placing::Halves,
    Placing::Tiny,
];

/// Places all vertices anew.
pub fn place<F>(net: &mut Mesh<F>, placing: Placing, rng: &mut Rng) {
    for value in net.points.as_flattened_mut() {
        *value = match placing {
            Placing::Plain => *value,
            Placing::Noisy => *value + rng.between(-9, 9),
            Placing::Scattered => rng.between(-500, 500),
            Placing::Wide => rng.between(-LIMIT, LIMIT),
            Placing::Extreme => rng.pick(&[-LIMIT, LIMIT, -LIMIT, LIMIT, 0]),
            Placing::Halves => 8 * rng.between(-20, 20),
            Placing::Tiny => rng.between(-1, 1),
        };
    }
}

/// Removes about one face in `times`, and whatever then is not acceptable.
pub fn erode<F: Face>(mut net: Mesh<F>, times: usize, rng: &mut Rng) -> Mesh<F> {
    net.faces.retain(|_| !rng.one_in(times));
    repair(net, rng)
}

/// Makes a net with valid corners acceptable: vertices between several fans
/// are split, and faces at too large or too small rings are removed.
pub fn repair<F: Face>(net: Mesh<F>, rng: &mut Rng) -> Mesh<F> {
    let mut net = drop_unused_vertices(net);
    while let Err(Refusal { reason, place }) = check_net(&net) {
        match reason {
            9 => {
                net.faces.remove(place as usize);
            }
            10 => split_vertex(&mut net, place),
            11 => remove_face_at(&mut net, place, rng),
            _ => panic!("refusal {reason} at {place} has no repair"),
        }
        net = drop_unused_vertices(net);
    }
    net
}

fn remove_face_at<F: Face>(net: &mut Mesh<F>, vertex: u32, rng: &mut Rng) {
    let at_vertex: Vec<usize> = (0..net.faces.len())
        .filter(|&face| net.faces[face].as_ref().contains(&vertex))
        .collect();
    net.faces.remove(rng.pick(&at_vertex));
}

/// Gives one of the rings or fans at a vertex its own copy of it.
fn split_vertex<F: Face>(net: &mut Mesh<F>, vertex: u32) {
    // From the corner after the vertex in a face to the corner before it.
    let mut spokes = BTreeMap::new();
    for (number, face) in net.faces.iter().enumerate() {
        let face = face.as_ref();
        if let Some(at) = face.iter().position(|&v| v == vertex) {
            let n = face.len();
            spokes.insert(face[(at + 1) % n], (face[(at + n - 1) % n], number));
        }
    }
    let is_open_end = |spoke: &u32| spokes.values().all(|(last, _)| last != spoke);
    let open_end = spokes.keys().copied().find(is_open_end);
    let first = spokes.keys().copied().next();
    let mut at = open_end.or(first).expect("a vertex of some face");
    let copy = to_u32(net.points.len());
    net.points.push(net.points[vertex as usize]);
    net.marks.push(0);
    while let Some((next, number)) = spokes.remove(&at) {
        let corners = net.faces[number].as_mut().iter_mut();
        corners
            .filter(|corner| **corner == vertex)
            .for_each(|corner| *corner = copy);
        at = next;
    }
}
