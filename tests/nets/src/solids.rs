//! Plain nets with faces of 3 to 8 sides, before any random change.

use reference::net::{Net, PolygonNet};
use reference::point::Point;
use reference::topology::Topology;

use crate::build::to_u32;
use crate::shapes::{UNIT, diamond};

/// A net without marks from its points and faces.
pub fn polygons(points: Vec<Point>, faces: Vec<Vec<u32>>) -> PolygonNet {
    PolygonNet {
        marks: vec![0; points.len()],
        points,
        faces,
    }
}

/// The same net without side counts; every face must have four sides.
pub fn plain(net: PolygonNet) -> Net {
    let four = |face: Vec<u32>| face.try_into().expect("four corners");
    Net {
        points: net.points,
        faces: net.faces.into_iter().map(four).collect(),
        marks: net.marks,
    }
}

/// `n` points round the axis at a height.
fn circle(n: u32, height: i32) -> impl Iterator<Item = Point> {
    let around = n.cast_signed();
    (0..around).map(move |i| {
        let [x, y] = diamond(i, around, 2 * UNIT);
        [x, y, height]
    })
}

/// Separate faces with these numbers of sides.
pub fn separate(sizes: &[u32]) -> PolygonNet {
    let mut net = PolygonNet::default();
    for &size in sizes {
        let first = to_u32(net.points.len());
        net.points.extend(circle(size, first.cast_signed()));
        net.faces.push((first..first + size).collect());
    }
    net.marks.resize(net.points.len(), 0);
    net
}

/// Faces with these numbers of sides round vertex 0, as a full ring or an open
/// fan.
pub fn star(sizes: &[u32], is_ring: bool) -> PolygonNet {
    let n = to_u32(sizes.len());
    let spokes = if is_ring { n } else { n + 1 };
    let mut points: Vec<Point> = vec![[0; 3]];
    points.extend(circle(spokes, 0));
    let mut faces = Vec::new();
    for (i, size) in (0..).zip(sizes) {
        let mut face = vec![0, 1 + i];
        for between in 3..*size {
            face.push(to_u32(points.len()));
            let [x, y, _] = points[1 + i as usize];
            points.push([2 * x, 2 * y, between.cast_signed()]);
        }
        face.push(1 + (i + 1) % spokes);
        faces.push(face);
    }
    polygons(points, faces)
}

/// The pairs of consecutive numbers from 0 to n - 1, round to 0.
fn round(n: u32) -> impl Iterator<Item = (u32, u32)> {
    (0..n).map(move |i| (i, (i + 1) % n))
}

/// Two faces of `n` sides and `n` quadrilaterals.
pub fn prism(n: u32) -> PolygonNet {
    let mut faces = vec![(0..n).rev().collect(), (n..2 * n).collect()];
    faces.extend(round(n).map(|(i, j)| vec![i, j, n + j, n + i]));
    polygons(circle(n, 0).chain(circle(n, 2 * UNIT)).collect(), faces)
}

/// Two faces of `n` sides and 2n triangles; an octahedron for n = 3.
pub fn antiprism(n: u32) -> PolygonNet {
    let mut faces: Vec<Vec<u32>> = vec![(0..n).rev().collect(), (n..2 * n).collect()];
    faces.extend(round(n).map(|(i, j)| vec![i, j, n + i]));
    faces.extend(round(n).map(|(i, j)| vec![j, n + j, n + i]));
    polygons(circle(n, 0).chain(circle(n, 2 * UNIT)).collect(), faces)
}

/// A face of `n` sides and `n` triangles; a tetrahedron for n = 3.
pub fn pyramid(n: u32) -> PolygonNet {
    let mut faces: Vec<Vec<u32>> = vec![(0..n).rev().collect()];
    faces.extend(round(n).map(|(i, j)| vec![i, j, n]));
    polygons(circle(n, 0).chain([[0, 0, 2 * UNIT]]).collect(), faces)
}

/// Two times `n` triangles; an octahedron for n = 4.
pub fn bipyramid(n: u32) -> PolygonNet {
    let mut faces: Vec<Vec<u32>> = round(n).map(|(i, j)| vec![i, j, n]).collect();
    faces.extend(round(n).map(|(i, j)| vec![j, i, n + 1]));
    let poles = [[0, 0, 2 * UNIT], [0, 0, -2 * UNIT]];
    polygons(circle(n, 0).chain(poles).collect(), faces)
}

/// Two caps of `n` triangles and a band of 2n between them; an icosahedron for
/// n = 5.
pub fn capped_antiprism(n: u32) -> PolygonNet {
    let mut net = antiprism(n);
    net.faces.drain(..2);
    let (bottom, top) = (2 * n, 2 * n + 1);
    net.faces.extend(round(n).map(|(i, j)| vec![j, i, bottom]));
    net.faces
        .extend(round(n).map(|(i, j)| vec![n + i, n + j, top]));
    net.points.extend([[0, 0, -UNIT], [0, 0, 3 * UNIT]]);
    net.marks.extend([0; 2]);
    net
}

/// A vertex for every face of a closed net, and a face for every vertex.
pub fn dual(net: &PolygonNet) -> PolygonNet {
    let topology = Topology::new(&net.faces).expect("an accepted net");
    let faces = (0..to_u32(net.points.len())).map(|vertex| {
        let star = topology.star(vertex).expect("an accepted net");
        let across = |&other: &u32| topology.wedge(vertex, other).expect("a side").face;
        star.neighbours.iter().map(across).collect()
    });
    let points = net.faces.iter().map(|face| {
        let sides = i32::try_from(face.len()).expect("few sides");
        let sum = |axis: usize| face.iter().map(|&v| net.point(v)[axis]).sum::<i32>();
        [0, 1, 2].map(|axis| sum(axis) / sides)
    });
    polygons(points.collect(), faces.collect())
}
