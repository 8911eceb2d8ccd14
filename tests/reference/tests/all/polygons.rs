//! Nets with side counts: the split, refusal 14 and the order of refusals.

use crate::common::{grid, refined, scattered, square};
use reference::call::{Call, Outcome, Tables, refine, refine_into};
use reference::net::{Net, NetRecord, PolygonNet};
use reference::point::Point;
use reference::refusal::{Capacity, check_net};
use reference::rules::Tension;
use reference::seam::{Boundary, check_seam, shared_readings};
use reference::step::{refine_once, split};

fn polygons(points: &[Point], faces: &[&[u32]]) -> PolygonNet {
    PolygonNet {
        points: points.to_vec(),
        faces: faces.iter().map(|face| face.to_vec()).collect(),
        marks: vec![0; points.len()],
    }
}

/// One face of `n` sides in no special position.
fn lone(n: u32) -> PolygonNet {
    let face: Vec<u32> = (0..n).collect();
    polygons(&scattered(n), &[&face])
}

/// A call with side counts, whose tables may be changed.
#[derive(Clone)]
struct ControlNet {
    rounds: u32,
    vertices: Vec<i32>,
    faces: Vec<u32>,
    sides: Vec<u8>,
    marks: Vec<u8>,
    tension: u32,
    capacity: Capacity,
}

impl ControlNet {
    fn new(net: &PolygonNet, rounds: u32) -> Self {
        let faces = net.face_table();
        Self {
            rounds,
            vertices: net.vertex_table(),
            sides: net.side_table(),
            marks: net.marks.clone(),
            tension: Tension::OLD.number(),
            capacity: Capacity::for_refined_faces(faces.len() << (2 * rounds)),
            faces,
        }
    }

    /// Tables of these counts, all vertices and corners zero.
    fn zeros(rounds: u32, vertices: usize, sides: Vec<u8>) -> Self {
        let corners = sides.iter().map(|&count| usize::from(count)).sum();
        Self {
            rounds,
            vertices: vec![0; 3 * vertices],
            faces: vec![0; corners],
            sides,
            marks: vec![0; vertices],
            tension: Tension::OLD.number(),
            capacity: Capacity::for_refined_faces(corners << (2 * rounds)),
        }
    }

    fn with(&self, change: impl Fn(&mut Self)) -> Self {
        let mut changed = self.clone();
        change(&mut changed);
        changed
    }

    fn record(&self) -> NetRecord<'_> {
        NetRecord {
            vertices: &self.vertices,
            faces: &self.faces,
            sides: &self.sides,
            marks: &self.marks,
            tension: self.tension,
        }
    }

    fn outcome(&self) -> Outcome {
        refine(&Call {
            tally: 0,
            rounds: self.rounds,
            net: self.record(),
            capacity: self.capacity,
        })
    }

    /// The number and the place of a refusal; 0 and 0 if the call is accepted.
    fn refusal(&self) -> (u32, u32) {
        match self.outcome() {
            Outcome::Refined { .. } => (0, 0),
            Outcome::Refused { reason, place } => (reason, place),
        }
    }

    fn refined(&self) -> Net {
        match self.outcome() {
            Outcome::Refined {
                vertices,
                faces,
                marks,
                ..
            } => Net::from_tables(&vertices, &faces, &marks),
            Outcome::Refused { reason, place } => panic!("refused: {reason} at {place}"),
        }
    }
}

fn verdict(net: &PolygonNet) -> (u32, u32) {
    ControlNet::new(net, 0).refusal()
}

// ---- the split

#[test]
fn a_triangle_becomes_three_quadrilaterals() {
    let net = polygons(&[[0, 0, 0], [6, 0, 0], [0, 6, 0]], &[&[0, 1, 2]]);
    let start = ControlNet::new(&net, 0).refined();
    assert_eq!(start.points[..3], net.points);
    assert_eq!(
        start.points[3..],
        [[3, 0, 0], [3, 3, 0], [0, 3, 0], [2, 2, 0]]
    );
    assert_eq!(start.faces, [[0, 3, 6, 5], [1, 4, 6, 3], [2, 5, 6, 4]]);
    assert_eq!(start.marks, [0; 7]);
}

#[test]
fn four_sided_faces_are_split_too() {
    let net = square();
    let control = ControlNet::new(&PolygonNet::from(&net), 0);
    let start = control.refined();
    assert_eq!(
        start.points[4..],
        [[8, 0, 0], [16, 8, 0], [8, 16, 0], [0, 8, 0], [8, 8, 0]]
    );
    assert_eq!(
        start.faces,
        [[0, 4, 8, 7], [1, 5, 8, 4], [2, 6, 8, 5], [3, 7, 8, 6]]
    );
    assert_eq!(refined(&net, 1).points[4], [8, -2, 0]);
    // A round after the split, and no round without counts.
    let once = control.with(|d| d.rounds = 1);
    let once = once.with(|d| d.capacity = Capacity::for_refined_faces(16));
    assert_eq!(once.refined(), refine_once(&start, Tension::OLD).net);
    assert_eq!(control.with(|d| d.sides.clear()).refined(), net);
}

#[test]
fn a_pentagon_rounds_halves_upward() {
    let flat = [[0, 0], [4, 0], [6, 2], [4, 4], [0, 4]];
    let heights = [0, 0, -1, 0, -2];
    let points: Vec<Point> = flat
        .iter()
        .zip(heights)
        .map(|(&[x, y], z)| [x, y, z])
        .collect();
    let start = split(&polygons(&points, &[&[0, 1, 2, 3, 4]]));
    let new: Vec<i32> = start.points[5..].iter().map(|point| point[2]).collect();
    assert_eq!(new, [0, 0, 0, -1, -1, -1]);
    assert_eq!(start.points[5], [2, 0, 0]);
    assert_eq!(start.points[10][..2], [3, 2]);
}

#[test]
fn faces_and_edges_are_counted_on() {
    // A square, then a triangle on its side from 2 to 1.
    let points = [[0, 0, 9], [10, 0, 9], [10, 10, 9], [0, 10, 9], [20, 4, 9]];
    let net = polygons(&points, &[&[0, 1, 2, 3], &[2, 1, 4]]);
    let mut marked = net.clone();
    marked.marks[4] = 1;
    let start = split(&marked);
    assert_eq!(
        start.points[5..],
        [
            [5, 0, 9],
            [10, 5, 9],
            [5, 10, 9],
            [0, 5, 9],
            [15, 2, 9],
            [15, 7, 9],
            [5, 5, 9],
            [13, 5, 9]
        ]
    );
    assert_eq!(
        start.faces,
        [
            [0, 5, 11, 8],
            [1, 6, 11, 5],
            [2, 7, 11, 6],
            [3, 8, 11, 7],
            [2, 6, 12, 10],
            [1, 9, 12, 6],
            [4, 10, 12, 9]
        ]
    );
    assert_eq!(start.marks[..5], [0, 0, 0, 0, 1]);
    assert_eq!(start.marks[5..], [0; 8]);
}

#[test]
fn every_polygon_is_accepted_and_refined() {
    for n in 3..=8 {
        let control = ControlNet::new(&lone(n), 2);
        let faces = control.refined().faces.len();
        assert_eq!(faces, 16 * n as usize);
    }
}

/// The split of a net without refusals has none, and it fits the tables.
#[test]
fn lone_triangles_have_more_vertices_after_the_split_than_can_be_control() {
    let faces: Vec<Vec<u32>> = (0..1_365)
        .map(|t| vec![3 * t, 3 * t + 1, 3 * t + 2])
        .collect();
    let net = PolygonNet {
        points: scattered(4_095),
        marks: vec![0; 4_095],
        faces,
    };
    let start = ControlNet::new(&net, 0).refined();
    assert_eq!((start.points.len(), start.faces.len()), (9_555, 4_095));
    assert_eq!(check_net(&start), Ok(()));
}

// ---- refusal 14 and the order

/// A square with a triangle beside it: seven corners.
fn house() -> ControlNet {
    let net = polygons(&scattered(5), &[&[0, 1, 2, 3], &[2, 1, 4]]);
    ControlNet::new(&net, 1)
}

#[test]
fn counts_outside_3_to_8_get_14() {
    for n in [3, 8] {
        assert_eq!(verdict(&lone(n)), (0, 0));
    }
    for n in [2, 9, 255] {
        assert_eq!(verdict(&lone(n)), (14, 0));
    }
    // The sum is right, with a count of 0, 1 or 2 among others.
    for sides in [
        vec![4, 0, 3],
        vec![0, 4, 3],
        vec![6, 1],
        vec![5, 2],
        vec![7, 0],
    ] {
        assert_eq!(house().with(|d| d.sides = sides.clone()).refusal(), (14, 0));
    }
}

#[test]
fn counts_that_do_not_add_up_get_14() {
    assert_eq!(house().refusal(), (0, 0));
    for sides in [
        vec![3, 3],
        vec![4, 4],
        vec![8, 8],
        vec![4],
        vec![7, 8, 8, 8],
    ] {
        assert_eq!(house().with(|d| d.sides = sides.clone()).refusal(), (14, 0));
    }
    for corners in [0, 1, 4, 6, 8] {
        let cut = house().with(|d| d.faces.resize(corners, 0));
        assert_eq!(cut.refusal(), (14, 0));
    }
    let long = house().with(|d| d.sides = vec![3; 100_000]);
    assert_eq!(long.refusal(), (14, 0));
    // Counts whose sum is right modulo 256 or modulo 65,536.
    for more in [256, 65_536] {
        let sides = vec![8; (more + 8) / 8];
        assert_eq!(
            ControlNet::new(&lone(8), 0)
                .with(|d| d.sides = sides.clone())
                .refusal(),
            (14, 0)
        );
    }
}

#[test]
fn counts_without_corners_get_14() {
    let empty = ControlNet::zeros(0, 0, vec![]);
    assert_eq!(empty.refusal(), (0, 0));
    for sides in [vec![0], vec![3], vec![4], vec![0; 9]] {
        assert_eq!(empty.with(|d| d.sides = sides.clone()).refusal(), (14, 0));
    }
}

#[test]
fn fourteen_comes_after_1_and_the_vertex_part_of_2() {
    let bad = house().with(|d| d.sides = vec![4, 4]);
    assert_eq!(bad.with(|d| d.rounds = 7).refusal(), (1, 0));
    assert_eq!(bad.with(|d| d.rounds = u32::MAX).refusal(), (1, 0));
    assert_eq!(bad.with(|d| d.vertices.push(0)).refusal(), (2, 0));
    assert_eq!(bad.with(|d| d.marks.push(0)).refusal(), (14, 0));
    assert_eq!(bad.with(|d| d.marks.clear()).refusal(), (14, 0));
    let many = bad.with(|d| {
        d.vertices.resize(3 * 8_193, 0);
        d.marks.resize(8_193, 0);
    });
    assert_eq!(many.refusal(), (14, 0));
    assert_eq!(many.with(|d| d.sides = vec![4, 3]).refusal(), (3, 0));
    assert_eq!(bad.with(|d| d.capacity.marks = 0).refusal(), (14, 0));
    // Without counts seven corners are 2; with counts four sides are not tested for.
    assert_eq!(house().with(|d| d.sides.clear()).refusal(), (2, 0));
    assert_eq!(house().with(|d| d.marks.push(0)).refusal(), (2, 0));
    assert_eq!(house().with(|d| d.vertices.push(0)).refusal(), (2, 0));
}

/// 14 and both parts of 2 come before 16, which comes before 5.
#[test]
fn a_tension_above_4_comes_after_side_counts_and_tables() {
    let tense = house().with(|d| d.tension = 5);
    assert_eq!(tense.refusal(), (16, 0));
    assert_eq!(tense.with(|d| d.sides = vec![4, 4]).refusal(), (14, 0));
    assert_eq!(tense.with(|d| d.vertices.push(0)).refusal(), (2, 0));
    assert_eq!(tense.with(|d| d.marks.push(0)).refusal(), (2, 0));
    assert_eq!(tense.with(|d| d.rounds = 7).refusal(), (1, 0));
    assert_eq!(tense.with(|d| d.capacity.faces -= 1).refusal(), (4, 0));
    assert_eq!(tense.with(|d| d.vertices[0] = i32::MAX).refusal(), (16, 0));
    assert_eq!(tense.with(|d| d.marks[0] = 2).refusal(), (16, 0));
    let (_, before, after) = run(&tense);
    assert_eq!(after, before);
}

/// The split does not depend on the tension, the rounds after it do.
#[test]
fn the_split_is_the_same_at_every_tension() {
    for n in 3..=8 {
        let at = |rounds, tension| {
            let control = ControlNet::new(&lone(n), rounds);
            control.with(|d| d.tension = tension).refined()
        };
        for tension in 0..4 {
            assert_eq!(at(0, tension), at(0, 4));
            assert_ne!(at(1, tension), at(1, 4));
        }
    }
}

#[test]
fn limits_count_the_quadrilaterals_after_the_split() {
    let short = |control: ControlNet| control.with(|d| d.capacity.workspace = 0);
    for (rounds, sides, reason) in [
        (0, vec![4; 1_024], 4),
        (3, vec![4; 1_024], 4),
        (4, vec![4; 1_024], 3),
        (0, vec![3; 1_366], 3),
        (3, vec![8; 512], 4),
        (0, vec![8; 513], 3),
        (6, vec![8; 8], 4),
        (6, vec![5; 13], 3),
        (5, vec![8; 32], 4),
        (5, [vec![8; 31], vec![5, 4]].concat(), 3),
    ] {
        let zeros = ControlNet::zeros(0, 4, sides);
        assert_eq!(
            short(zeros.with(|d| d.rounds = rounds)).refusal(),
            (reason, 0)
        );
    }
    assert_eq!(
        short(ControlNet::zeros(0, 8_192, vec![3])).refusal(),
        (4, 0)
    );
    assert_eq!(
        short(ControlNet::zeros(0, 8_193, vec![3])).refusal(),
        (3, 0)
    );
    // The drawn vertices are within the limit, the bad face is found.
    assert_eq!(ControlNet::zeros(0, 8_192, vec![8; 512]).refusal(), (7, 0));
}

#[test]
fn each_table_must_be_long_enough_for_the_split_net() {
    for rounds in 0..=2 {
        let control = ControlNet::new(&lone(5), rounds);
        assert_eq!(control.refusal(), (0, 0));
        assert_eq!(control.with(|d| d.capacity.vertices -= 1).refusal(), (4, 0));
        assert_eq!(control.with(|d| d.capacity.faces -= 1).refusal(), (4, 0));
        assert_eq!(control.with(|d| d.capacity.marks -= 1).refusal(), (4, 0));
        assert_eq!(
            control.with(|d| d.capacity.workspace -= 1).refusal(),
            (4, 0)
        );
    }
}

fn run(control: &ControlNet) -> (Outcome, Tables, Tables) {
    let before = Tables {
        vertices: vec![-77; control.capacity.vertices],
        faces: vec![77; control.capacity.faces],
        marks: vec![7; control.capacity.marks],
        with_letters: false,
        letters: vec![],
        workspace: vec![777; control.capacity.workspace],
    };
    let mut after = before.clone();
    let outcome = refine_into(&mut 0, control.rounds, control.record(), &mut after);
    (outcome, before, after)
}

#[test]
fn calls_with_counts_leave_the_tables_as_others_do() {
    let longer = house().with(|d| {
        d.capacity = Capacity::for_refined_faces(29);
    });
    let (outcome, before, after) = run(&longer);
    let Outcome::Refined {
        vertices, faces, ..
    } = outcome
    else {
        panic!("accepted");
    };
    assert_eq!(faces.len(), 4 * 28);
    assert_eq!(after.vertices[..vertices.len()], vertices);
    assert_eq!(
        after.vertices[vertices.len()..],
        before.vertices[vertices.len()..]
    );
    assert!(after.workspace[..16 * 28].iter().all(|&word| word == 0));
    assert!(after.workspace[16 * 28..].iter().all(|&word| word == 777));

    let (outcome, before, after) = run(&longer.with(|d| d.sides[1] = 4));
    assert_eq!(
        outcome,
        Outcome::Refused {
            reason: 14,
            place: 0
        }
    );
    assert_eq!(after, before);

    let (outcome, before, after) = run(&longer.with(|d| d.marks[3] = 2));
    assert_eq!(
        outcome,
        Outcome::Refused {
            reason: 6,
            place: 3
        }
    );
    let mut cleared = before;
    cleared.workspace[..16 * 28].fill(0);
    assert_eq!(after, cleared);
}

// ---- refusals 5 to 12 on the drawn net

/// `n` faces of `sides` corners round vertex 0, as a full ring or an open fan.
fn star(n: u32, sides: u32, is_ring: bool) -> PolygonNet {
    let ends = if is_ring { n } else { n + 1 };
    let between = sides - 3;
    let faces: Vec<Vec<u32>> = (0..n)
        .map(|i| {
            let mut face = vec![0, 1 + i];
            face.extend((0..between).map(|k| 1 + ends + i * between + k));
            face.push(1 + (i + 1) % ends);
            face
        })
        .collect();
    let points = scattered(1 + ends + n * between);
    PolygonNet {
        marks: vec![0; points.len()],
        points,
        faces,
    }
}

const SIZES: [u32; 4] = [3, 4, 5, 8];

#[test]
fn rings_and_fans_have_the_same_limits() {
    for sides in SIZES {
        for n in 3..=8 {
            assert_eq!(verdict(&star(n, sides, true)), (0, 0));
        }
        assert_eq!(verdict(&star(9, sides, true)), (11, 0));
        for m in 1..=6 {
            assert_eq!(verdict(&star(m, sides, false)), (0, 0));
        }
        assert_eq!(verdict(&star(7, sides, false)), (11, 0));
    }
    assert_eq!(verdict(&star(1_365, 3, true)), (11, 0));
    assert_eq!(verdict(&star(512, 8, true)), (11, 0));
}

#[test]
fn a_ring_of_two_is_a_ring() {
    let triangles = polygons(&scattered(3), &[&[0, 1, 2], &[2, 1, 0]]);
    assert_eq!(verdict(&triangles), (11, 0));
    // A triangle and a pentagon glued along two edges at vertex 2.
    let pocket = polygons(&scattered(5), &[&[2, 0, 1], &[2, 1, 3, 4, 0]]);
    assert_eq!(verdict(&pocket), (11, 2));
}

/// One face of `n` sides and a second one on its side from 1 to 0.
fn two(n: u32) -> PolygonNet {
    let mut net = lone(n);
    net.faces
        .push([1, 0].into_iter().chain(n..2 * n - 2).collect());
    net.points = scattered(2 * n - 2);
    net.marks = vec![0; net.points.len()];
    net
}

#[test]
fn refusals_5_to_12_have_their_place_in_the_control_net() {
    for n in SIZES {
        let net = two(n);
        let changed = |change: &dyn Fn(&mut PolygonNet)| {
            let mut net = net.clone();
            change(&mut net);
            verdict(&net)
        };
        assert_eq!(changed(&|_| ()), (0, 0));
        assert_eq!(changed(&|net| net.points[2][1] = 1_048_577), (5, 2));
        assert_eq!(changed(&|net| net.points[2][1] = -1_048_576), (0, 0));
        assert_eq!(changed(&|net| net.marks[1] = 2), (6, 1));
        assert_eq!(changed(&|net| net.faces[1][2] = 2 * n - 2), (7, 1));
        assert_eq!(changed(&|net| net.faces[1][2] = u32::MAX), (7, 1));
        assert_eq!(changed(&|net| net.faces[1][2] = 0), (7, 1));
        let unused = |net: &mut PolygonNet| {
            net.points.push([0; 3]);
            net.marks.push(0);
        };
        assert_eq!(changed(&unused), (8, 2 * n - 2));
        assert_eq!(changed(&|net| net.faces[1] = net.faces[0].clone()).0, 8);
        assert_eq!(changed(&|net| net.faces.push(vec![1, 2, 0])), (9, 2));
        assert_eq!(changed(&|net| net.faces[1].swap(0, 1)), (9, 1));
    }
}

#[test]
fn equal_corners_anywhere_in_a_face_get_7() {
    for n in 3..=8 {
        for i in 0..n as usize {
            for j in 0..i {
                let mut net = lone(n);
                net.faces[0][i] = net.faces[0][j];
                assert_eq!(verdict(&net), (7, 0));
            }
        }
    }
}

#[test]
fn faces_that_touch_at_a_vertex_get_10() {
    for n in SIZES {
        let mut net = lone(n);
        let first = n;
        net.faces.push(vec![first, 2, first + 1]);
        net.points.extend(scattered(2));
        net.marks.extend([0; 2]);
        assert_eq!(verdict(&net), (10, 2));
    }
}

#[test]
fn a_mark_inside_gets_12() {
    for sides in SIZES {
        let mut net = star(5, sides, true);
        net.marks[1] = 1;
        assert_eq!(verdict(&net), (0, 0));
        net.marks[0] = 1;
        assert_eq!(verdict(&net), (12, 0));
    }
    let mut tetrahedron = polygons(
        &scattered(4),
        &[&[0, 1, 2], &[0, 2, 3], &[0, 3, 1], &[1, 3, 2]],
    );
    assert_eq!(verdict(&tetrahedron), (0, 0));
    tetrahedron.marks[3] = 1;
    assert_eq!(verdict(&tetrahedron), (12, 3));
}

#[test]
fn the_lowest_number_goes_before_the_lowest_place() {
    let mut net = star(9, 3, true);
    net.marks[0] = 1;
    assert_eq!(verdict(&net), (11, 0));
    net.faces.push(vec![9, 10, 11]);
    net.points.extend(scattered(2));
    net.marks.extend([0; 2]);
    assert_eq!(verdict(&net), (10, 9));
    net.faces.push(vec![10, 11, 2]);
    assert_eq!(verdict(&net), (9, 10));
    net.points.push([0; 3]);
    net.marks.push(0);
    assert_eq!(verdict(&net), (8, 12));
    net.faces[3][1] = 13;
    assert_eq!(verdict(&net), (7, 3));
    net.marks[12] = 255;
    assert_eq!(verdict(&net), (6, 12));
    net.points[11][2] = i32::MIN;
    assert_eq!(verdict(&net), (5, 11));
}

// ---- the seam

#[test]
fn the_boundary_of_the_split_net_is_a_curve_of_its_own() {
    for n in SIZES {
        let mut net = two(n);
        for marked in [[0_usize, 2], [1, 3], [2, 2]] {
            net.marks.fill(0);
            for vertex in marked {
                net.marks[vertex] = 1;
            }
            for (rounds, tension) in (0..=2).flat_map(|k| Tension::ALL.map(|t| (k, t))) {
                let readings = check_seam(&split(&net), tension, rounds);
                assert!(readings.is_ok_and(|readings| readings > 0));
            }
        }
    }
}

#[test]
fn a_control_segment_is_shared_by_two_nets_with_counts_and_by_no_mixed_pair() {
    let mut triangle = polygons(&[[0, 0, 0], [8, 0, 0], [4, 9, 3]], &[&[0, 1, 2]]);
    let mut plain = grid(1, 1);
    plain.points[..2].copy_from_slice(&triangle.points[..2]);
    triangle.marks[..2].fill(1);
    plain.marks[..2].fill(1);
    let with_counts = split(&PolygonNet::from(&plain));
    let start = split(&triangle);
    assert_eq!(Boundary::new(&start).readings().len(), 4);
    assert_eq!(shared_readings(&start, &with_counts).len(), 2);
    assert!(shared_readings(&start, &plain).is_empty());
}
