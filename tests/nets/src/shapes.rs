//! Plain nets of every topological kind, before any random change.

use std::collections::BTreeSet;

use reference::net::{Mesh, Net};
use reference::point::Point;

use crate::build::{Builder, to_u32};
use crate::change::{Face, boundary_loops, drop_unused_vertices};

/// Side length of the squares that the plain nets are made of.
pub const UNIT: i32 = 64;

fn lattice([x, y]: [i32; 2]) -> Point {
    [x * UNIT, y * UNIT, 0]
}

/// A flat open grid.
pub fn grid(columns: i32, rows: i32) -> Net {
    let mut net = Builder::default();
    for (y, x) in (0..rows).flat_map(|y| (0..columns).map(move |x| (y, x))) {
        net.face([[x, y], [x + 1, y], [x + 1, y + 1], [x, y + 1]], lattice);
    }
    net.finish()
}

/// Step `i` of `n` round a diamond of the given radius.
pub fn diamond(i: i32, n: i32, radius: i32) -> [i32; 2] {
    let (quarter, on) = (4 * i / n, radius * (4 * i % n) / n);
    match quarter {
        0 => [radius - on, on],
        1 => [-on, radius - on],
        2 => [on - radius, -on],
        _ => [on, on - radius],
    }
}

/// Faces round a closed band: keys are (step round, layer).
fn band(around: i32, layers: i32, place: impl Fn([i32; 2]) -> Point) -> Net {
    let mut net = Builder::default();
    for (y, x) in (0..layers).flat_map(|y| (0..around).map(move |x| (y, x))) {
        let on = (x + 1) % around;
        net.face([[x, y], [on, y], [on, y + 1], [x, y + 1]], &place);
    }
    net.finish()
}

/// A flat ring between two boundary loops.
pub fn annulus(around: i32, layers: i32) -> Net {
    band(around, layers, |[x, y]| {
        let [px, py] = diamond(x, around, UNIT * (layers + 1 - y));
        [px, py, 0]
    })
}

/// An upright tube between two boundary loops.
pub fn cylinder(around: i32, layers: i32) -> Net {
    band(around, layers, |[x, y]| {
        let [px, py] = diamond(x, around, UNIT);
        [px, py, y * UNIT]
    })
}

/// A closed surface of genus 1, at least 3 by 3.
pub fn torus(around: i32, across: i32) -> Net {
    twisted_torus([around, across], 0)
}

/// The same, where going across once leads `twist` steps round: the square
/// lattice with (x, y) and (x + around, y) one vertex, and (x, y) and (x +
/// twist, y + across). Vertices up to two steps apart must not become one.
pub fn twisted_torus([around, across]: [i32; 2], twist: i32) -> Net {
    let key = |x: i32, y: i32| {
        let back = twist * y.div_euclid(across);
        [(x - back).rem_euclid(around), y.rem_euclid(across)]
    };
    let place = |[x, y]: [i32; 2]| {
        let [radius, height] = diamond(y, across, UNIT);
        let [px, py] = diamond(x, around, 3 * UNIT + radius);
        [px, py, height]
    };
    let mut net = Builder::default();
    for (y, x) in (0..across).flat_map(|y| (0..around).map(move |x| (y, x))) {
        let corners = [(x, y), (x + 1, y), (x + 1, y + 1), (x, y + 1)];
        net.face(corners.map(|(x, y)| key(x, y)), place);
    }
    net.finish()
}

/// A closed surface of genus 1 with as many vertices as faces: the square
/// lattice with (x, y) and (x', y') one vertex if x + shift y and x' + shift
/// y' leave the same remainder by `size`. Size 5 and shift 2 join every two
/// vertices by an edge. The numbers 1, -1, shift and -shift must have four
/// different remainders.
pub fn skew_torus(size: i32, shift: i32) -> Net {
    let mut net = Builder::default();
    for v in 0..size {
        let corners = [v, v + 1, v + 1 + shift, v + shift];
        net.face(corners.map(|corner| corner % size), |v| {
            let [x, y] = diamond(v, size, 2 * UNIT);
            [x, y, v * v % 7 * UNIT / 4]
        });
    }
    net.finish()
}

/// A closed surface of genus 0 with two vertices of valence `n` and 2n faces.
pub fn trapezohedron(n: i32) -> Net {
    let (top, bottom) = (-1, -2);
    let belt = |i: i32| (i + 2 * n) % (2 * n);
    let place = |v: i32| match v {
        -1 => [0, 0, 2 * UNIT],
        -2 => [0, 0, -2 * UNIT],
        _ => {
            let [x, y] = diamond(v, 2 * n, 2 * UNIT);
            [x, y, UNIT / 2 * (1 - 2 * (v % 2))]
        }
    };
    let mut net = Builder::default();
    for i in (0..2 * n).step_by(2) {
        net.face([top, i, belt(i + 1), belt(i + 2)], place);
        net.face([bottom, belt(i + 1), i, belt(i - 1)], place);
    }
    net.finish()
}

/// A closed surface with `n` faces at every vertex, n even: each vertex u of
/// one half is joined to every vertex w of the other.
pub fn bipartite(n: i32) -> Net {
    let place = |[half, i]: [i32; 2]| {
        let [x, y] = diamond(i, n, (2 + half) * UNIT);
        [x, y, half * UNIT]
    };
    let [u, w] = [0, 1].map(|half| move |i: i32| [half, i.rem_euclid(n)]);
    let mut net = Builder::default();
    for (i, j) in (0..n).step_by(2).flat_map(|i| (0..n).map(move |j| (i, j))) {
        let on = 1 - 2 * (j % 2);
        net.face([u(i), w(j), u(i + on), w(j - 1)], place);
    }
    net.finish()
}

/// The surface of a set of unit cells in space.
pub fn cells(cells: &BTreeSet<[i32; 3]>) -> Net {
    let mut net = Builder::default();
    for &cell in cells {
        for axis in 0..3 {
            let [u, v] = [(axis + 1) % 3, (axis + 2) % 3];
            for step in [-1, 1] {
                let mut beyond = cell;
                beyond[axis] += step;
                if cells.contains(&beyond) {
                    continue;
                }
                let corner = |du: i32, dv: i32| {
                    let mut at = cell;
                    at[axis] += (step + 1) / 2;
                    at[u] += du;
                    at[v] += dv;
                    at
                };
                let mut face = [corner(0, 0), corner(1, 0), corner(1, 1), corner(0, 1)];
                if step < 0 {
                    face.reverse();
                }
                net.face(face, |at| at.map(|c| c * UNIT));
            }
        }
    }
    net.finish()
}

/// A closed block of cells, genus 0.
pub fn block([a, b, c]: [i32; 3]) -> Net {
    let all = (0..a).flat_map(|x| (0..b).flat_map(move |y| (0..c).map(move |z| [x, y, z])));
    cells(&all.collect())
}

/// A closed plate of cells with `holes` holes, which is its genus.
pub fn plate(holes: i32) -> Net {
    let all = (0..2 * holes + 1).flat_map(|x| (0..3).map(move |y| [x, y, 0]));
    let is_hole = |&[x, y, _]: &[i32; 3]| x % 2 == 1 && y == 1;
    cells(&all.filter(|cell| !is_hole(cell)).collect())
}

/// `sectors` grids of `size` by `size` faces round one vertex, which gets a
/// full ring if `closed` and an open fan otherwise.
pub fn sectors(sectors: i32, size: i32, closed: bool) -> Net {
    // A vertex is (ray, steps along it, steps to the next ray).
    let key = |sector: i32, x: i32, y: i32| match (x, y) {
        (0, 0) => [0, 0, 0],
        (0, y) if closed => [(sector + 1) % sectors, y, 0],
        (0, y) => [sector + 1, y, 0],
        _ => [sector, x, y],
    };
    let rays = if closed { sectors } else { 2 * sectors };
    let place = |[ray, x, y]: [i32; 3]| {
        let [ax, ay] = diamond(ray, rays, UNIT);
        let [bx, by] = diamond((ray + 1) % rays, rays, UNIT);
        [ax * x + bx * y, ay * x + by * y, 0]
    };
    let mut net = Builder::default();
    for sector in 0..sectors {
        for (y, x) in (0..size).flat_map(|y| (0..size).map(move |x| (y, x))) {
            let corners = [(x, y), (x + 1, y), (x + 1, y + 1), (x, y + 1)];
            net.face(corners.map(|(x, y)| key(sector, x, y)), place);
        }
    }
    net.finish()
}

/// A face whose corners get the given valences, with `layers` layers of faces
/// round it; all further inner vertices have valence 4.
pub fn patch(valences: [usize; 4], layers: usize) -> Net {
    surrounded(grid(1, 1), &valences, layers)
}

/// A disc with `layers` layers of faces round it; its boundary vertices get
/// the given valences, all further inner vertices valence 4.
pub fn surrounded(mut net: Net, valences: &[usize], layers: usize) -> Net {
    let mut wanted = valences.to_vec();
    for _ in 0..layers {
        add_layer(&mut net, &wanted);
        wanted = vec![4; net.points.len()];
    }
    net
}

/// Adds a layer of faces round a disc, so that each boundary vertex becomes an
/// inner one of the wanted valence. That must be two or more above the number
/// of faces there.
fn add_layer(net: &mut Net, wanted: &[usize]) {
    let rim = boundary_loops(net).concat();
    let faces_at = |v: &u32| net.faces.iter().flatten().filter(|&c| c == v).count();
    let spokes: Vec<usize> = rim
        .iter()
        .map(|v| wanted[*v as usize] - faces_at(v) - 1)
        .collect();
    // Each rim vertex in turn gets its spoke ends and the corners between them.
    let mut ends: Vec<Vec<u32>> = Vec::new();
    for (&vertex, &spokes) in rim.iter().zip(&spokes) {
        let first = to_u32(net.points.len());
        let new: Vec<u32> = (first..).take(2 * spokes - 1).collect();
        net.points.resize(net.points.len() + new.len(), [0; 3]);
        for fan in new.windows(3).step_by(2) {
            net.faces.push([vertex, fan[0], fan[1], fan[2]]);
        }
        ends.push(new);
    }
    for (at, &vertex) in rim.iter().enumerate() {
        let on = (at + 1) % rim.len();
        let last = ends[at][ends[at].len() - 1];
        net.faces.push([rim[on], vertex, last, ends[on][0]]);
    }
    net.marks.resize(net.points.len(), 0);
}

/// Two nets side by side.
pub fn union<F: Face>(mut first: Mesh<F>, second: &Mesh<F>) -> Mesh<F> {
    let shift = to_u32(first.points.len());
    first.points.extend(&second.points);
    first.marks.extend(&second.marks);
    for mut face in second.faces.iter().cloned() {
        face.as_mut().iter_mut().for_each(|corner| *corner += shift);
        first.faces.push(face);
    }
    first
}

/// Two nets joined along a face of each, which both disappear.
pub fn connected_sum(first: Net, face: usize, second: &Net, other: usize) -> Net {
    let shift = to_u32(first.points.len());
    let faces = first.faces.len();
    let mut net = union(first, second);
    let removed = net.faces.swap_remove(faces + other);
    let kept = net.faces.swap_remove(face);
    let glued = [kept[0], kept[3], kept[2], kept[1]];
    for corner in net.faces.as_flattened_mut() {
        if *corner >= shift
            && let Some(i) = removed.iter().position(|v| v == corner)
        {
            *corner = glued[i];
        }
    }
    drop_unused_vertices(net)
}
