//! Pairs of nets that share a boundary segment.

use reference::curve::Form;
use reference::net::{Mesh, Net, PolygonNet};
use reference::point::Point;
use reference::rules::Tension;
use reference::seam::{Boundary, Reading, Way};
use reference::step::split;

use crate::accepted::{Shape, Size, accepted};
use crate::build::to_u32;
use crate::case::ControlNet;
use crate::change::{Face, Placing, boundary_loops, flip, mark, place, renumber};
use crate::polygons::{PolygonShape, accepted_polygons, some_size};
use crate::remodel::Remodel;
use crate::rng::Rng;
use crate::tension::some_tension;
use crate::{shapes, solids};

/// Two nets with their tensions, and a reading in each where refining begins;
/// both readings give the same points.
#[derive(Clone, Debug)]
pub struct SharedPair {
    pub nets: [ControlNet; 2],
    pub tensions: [Tension; 2],
    pub readings: [Reading; 2],
}

/// Two random nets without side counts that share a random segment.
pub fn shared_pair(rng: &mut Rng) -> SharedPair {
    let form = rng.pick(&[Form::Open, Form::Open, Form::Round]);
    let points = segment(form, rng);
    let [first, second] = [(); 2].map(|()| carrier(form, &points, &WAYS, rng));
    SharedPair {
        readings: [first.reading, second.reading],
        nets: [first.net, second.net].map(ControlNet::Plain),
        tensions: tensions(rng),
    }
}

/// Two random nets with side counts that share a drawn segment, or one of each
/// sort that share it after the split.
pub fn shared_polygon_pair(rng: &mut Rng) -> SharedPair {
    let form = rng.pick(&[Form::Open, Form::Open, Form::Round]);
    let points = segment(form, rng);
    let first = polygon_carrier(form, &points, &WAYS, rng);
    let (second, reading) = if rng.one_in(2) {
        let second = polygon_carrier(form, &points, &WAYS, rng);
        (ControlNet::WithSides(second.net), second.reading)
    } else {
        let start = split(&first.net);
        let points = Boundary::new(&start).read(first.reading);
        let second = carrier(form, &points.expect("a reading"), &WAYS, rng);
        (ControlNet::Plain(second.net), second.reading)
    };
    SharedPair {
        nets: [ControlNet::WithSides(first.net), second],
        tensions: tensions(rng),
        readings: [first.reading, reading],
    }
}

/// Two nets that have these points on their boundaries as an open segment, and
/// its vertices in each: in the first the segment runs with the sides, in the
/// second against them.
#[derive(Clone, Debug)]
pub struct MatchingPair {
    pub nets: [ControlNet; 2],
    pub segments: [Vec<u32>; 2],
}

impl MatchingPair {
    /// Two random nets, each with side counts or without.
    pub fn draw(points: &[Point], with_sides: [bool; 2], rng: &mut Rng) -> Self {
        let ways = [Way::With, Way::Against];
        let [first, second] = [0, 1].map(|at| {
            if with_sides[at] {
                let drawn = polygon_carrier(Form::Open, points, &[ways[at]], rng);
                (ControlNet::WithSides(drawn.net), drawn.vertices)
            } else {
                let drawn = carrier(Form::Open, points, &[ways[at]], rng);
                (ControlNet::Plain(drawn.net), drawn.vertices)
            }
        });
        Self {
            nets: [first.0, second.0],
            segments: [first.1, second.1],
        }
    }

    /// Two nets with the points once round the first of their loops, which has as
    /// many vertices as the segment has edges.
    pub fn round<F: Face>(nets: [Mesh<F>; 2], points: &[Point], rng: &mut Rng) -> Self
    where
        ControlNet: From<Mesh<F>>,
    {
        let mut ways = [Way::With, Way::Against].into_iter();
        let [first, second] = nets.map(|net| {
            let rim = boundary_loops(&net).swap_remove(0);
            let way = ways.next().expect("two nets");
            let drawn = carry(net, &rim, Form::Open, points, &[way], rng);
            (ControlNet::from(drawn.net), drawn.vertices)
        });
        Self {
            nets: [first.0, second.0],
            segments: [first.1, second.1],
        }
    }
}

/// Ways in which a segment may run, by turns.
const WAYS: [Way; 2] = [Way::Against, Way::With];

/// Equal tensions, or one time in six any two.
fn tensions(rng: &mut Rng) -> [Tension; 2] {
    let first = some_tension(rng);
    if rng.one_in(6) {
        [first, some_tension(rng)]
    } else {
        [first; 2]
    }
}

/// Random points of a segment; open ones sometimes end where they begin, and
/// some segments are the same both ways or several times round.
pub fn segment(form: Form, rng: &mut Rng) -> Vec<Point> {
    let fewest = if form == Form::Open { 2 } else { 3 };
    let length = rng.between(fewest, 9).unsigned_abs();
    let mut points = some_points(length as usize, rng);
    if form == Form::Open && rng.one_in(2) {
        let last = points.len() - 1;
        points[last] = points[0];
    }
    repeat(&mut points, rng);
    points
}

/// So many random points.
pub fn some_points(count: usize, rng: &mut Rng) -> Vec<Point> {
    let reach = rng.pick(&[1, 100, 1_048_576]);
    let points = (0..count).map(|_| [(); 3].map(|()| rng.between(-reach, reach)));
    points.collect()
}

/// Makes some lists of points equal to their reverse, and some periodic.
fn repeat(points: &mut [Point], rng: &mut Rng) {
    let length = points.len();
    match rng.below(8) {
        0 => mirror(points),
        1 => {
            let period = length.div_ceil(2);
            (period..length).for_each(|i| points[i] = points[i - period]);
        }
        _ => {}
    }
}

/// Makes a list of points equal to its reverse.
pub fn mirror(points: &mut [Point]) {
    let last = points.len() - 1;
    (0..points.len() / 2).for_each(|i| points[last - i] = points[i]);
}

/// The edges of a segment, and whether it ends where it begins.
fn extent(form: Form, points: &[Point]) -> (i32, bool) {
    let edges = i32::try_from(points.len()).expect("small") - i32::from(form == Form::Open);
    (edges, points[0] == points[points.len() - 1])
}

/// A net with a segment on its boundary: its vertices in order, of which a single
/// mark is the first and the last, and the reading.
struct Carrier<F> {
    net: Mesh<F>,
    vertices: Vec<u32>,
    reading: Reading,
}

/// A random net with the segment on its boundary, where it runs in one of these
/// ways.
fn carrier(form: Form, points: &[Point], ways: &[Way], rng: &mut Rng) -> Carrier<[u32; 4]> {
    let (edges, is_closed) = extent(form, points);
    let generated = accepted(rng.pick(&Shape::ALL), Size::Small, rng);
    let (net, rim) = with_room(generated, form, edges, is_closed, rng)
        .unwrap_or_else(|| plain(form, edges, is_closed, rng));
    carry(net, &rim, form, points, ways, rng)
}

/// The same with side counts.
fn polygon_carrier(form: Form, points: &[Point], ways: &[Way], rng: &mut Rng) -> Carrier<Vec<u32>> {
    let (edges, is_closed) = extent(form, points);
    let generated = match rng.below(3) {
        0 => solids::separate(&[some_size(rng)]),
        _ => accepted_polygons(rng.pick(&PolygonShape::ALL), Size::Small, rng),
    };
    let (net, rim) = with_room(generated, form, edges, is_closed, rng).unwrap_or_else(|| {
        let (net, rim) = plain(form, edges, is_closed, rng);
        (remodelled(&net, rng), rim)
    });
    carry(net, &rim, form, points, ways, rng)
}

/// A net with faces cut and merged; its boundary stays.
pub fn remodelled(net: &Net, rng: &mut Rng) -> PolygonNet {
    let mut model = Remodel::new(PolygonNet::from(net));
    for _ in 0..rng.below(2 * net.faces.len() + 1) {
        model.cut(rng);
        model.merge(rng);
    }
    model.finish()
}

/// Puts the segment on a boundary loop of the net, with random marks, points
/// and numbers elsewhere.
fn carry<F: Face>(
    mut net: Mesh<F>,
    rim: &[u32],
    form: Form,
    points: &[Point],
    ways: &[Way],
    rng: &mut Rng,
) -> Carrier<F> {
    place(&mut net, Placing::Scattered, rng);
    mark(&mut net, rng);
    for (&vertex, &point) in rim.iter().zip(points) {
        net.points[vertex as usize] = point;
        net.marks[vertex as usize] = 0;
    }
    if form == Form::Open {
        let last = rim.get(points.len() - 1).unwrap_or(&rim[0]);
        net.marks[rim[0] as usize] = 1;
        net.marks[*last as usize] = 1;
    }
    let way = rng.pick(ways);
    if way == Way::Against {
        flip(&mut net);
    }
    let (net, numbering) = renumber(&net, rng);
    let along = rim.iter().cycle().take(points.len());
    let vertices: Vec<u32> = along.map(|&v| numbering.vertices[v as usize]).collect();
    let start = vertices[0];
    Carrier {
        net,
        vertices,
        reading: Reading { start, way, form },
    }
}

/// The net, if it has room for the segment on one of its loops, and the loop
/// from where the segment begins.
fn with_room<F: Face>(
    net: Mesh<F>,
    form: Form,
    edges: i32,
    is_closed: bool,
    rng: &mut Rng,
) -> Option<(Mesh<F>, Vec<u32>)> {
    let edges = usize::try_from(edges).expect("positive");
    let has_room = |rim: &Vec<u32>| match form {
        Form::Open => rim.len() > edges || rim.len() == edges && is_closed,
        Form::Round => rim.len() == edges,
    };
    let mut rims = boundary_loops(&net);
    rims.retain(has_room);
    rng.shuffle(&mut rims);
    let mut rim = rims.pop()?;
    let start = rng.below(rim.len());
    rim.rotate_left(start);
    Some((net, rim))
}

/// A grid or a band with the segment on its boundary.
fn plain(form: Form, edges: i32, is_closed: bool, rng: &mut Rng) -> (Net, Vec<u32>) {
    let layers = rng.between(1, 3);
    match form {
        Form::Open if is_closed && edges >= 3 && rng.one_in(2) => around(edges, layers),
        Form::Open => across(edges, layers),
        Form::Round if edges % 2 == 0 && rng.one_in(2) => {
            let net = shapes::grid(edges / 2 - 1, 1);
            let rim = boundary_loops(&net).concat();
            (net, rim)
        }
        Form::Round => around(edges, layers),
    }
}

/// A band with the segment round its first loop.
fn around(edges: i32, layers: i32) -> (Net, Vec<u32>) {
    let net = shapes::annulus(edges, layers);
    let mut rims = boundary_loops(&net);
    (net, rims.swap_remove(0))
}

/// A grid with the segment along its first row.
fn across(edges: i32, layers: i32) -> (Net, Vec<u32>) {
    let net = shapes::grid(edges, layers);
    let bottom = |v: &u32| net.points[*v as usize][1] == 0;
    let row = (0..to_u32(net.points.len())).filter(bottom);
    let mut row: Vec<u32> = row.collect();
    row.sort_by_key(|&v| net.points[v as usize][0]);
    (net, row)
}
