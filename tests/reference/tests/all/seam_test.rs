//! The seam test of two drawn nets: its answers, their order and its work table.

use crate::common::{cube, fan, grid, square, unmarked, wheel, with_marks};
use reference::net::{Mesh, Net, NetRecord, PolygonNet};
use reference::refusal::Refusal;
use reference::seamtest::{SeamSide, test_seam};

/// Tables of one side, any of which may be a reason for a refusal.
#[derive(Clone, Debug)]
struct Side {
    vertices: Vec<i32>,
    faces: Vec<u32>,
    sides: Vec<u8>,
    marks: Vec<u8>,
    tension: u32,
    start: u32,
}

fn with_sides<F: AsRef<[u32]>>(net: &Mesh<F>, sides: Vec<u8>, start: u32) -> Side {
    Side {
        vertices: net.vertex_table(),
        faces: net.face_table(),
        sides,
        marks: net.marks.clone(),
        tension: 4,
        start,
    }
}

fn plain(net: &Net, start: u32) -> Side {
    with_sides(net, vec![], start)
}

fn polygons(net: &PolygonNet, start: u32) -> Side {
    with_sides(net, net.side_table(), start)
}

impl Side {
    fn net(&self) -> NetRecord<'_> {
        NetRecord {
            vertices: &self.vertices,
            faces: &self.faces,
            sides: &self.sides,
            marks: &self.marks,
            tension: self.tension,
        }
    }

    fn work(&self) -> usize {
        16 * self.net().quadrilaterals()
    }

    fn at(&self, tension: u32) -> Self {
        Self {
            tension,
            ..self.clone()
        }
    }

    fn from(&self, start: u32) -> Self {
        Self {
            start,
            ..self.clone()
        }
    }

    fn marked(&self, vertex: usize, mark: u8) -> Self {
        let mut side = self.clone();
        side.marks[vertex] = mark;
        side
    }

    fn moved(&self, vertex: usize, axis: usize, by: i32) -> Self {
        let mut side = self.clone();
        side.vertices[3 * vertex + axis] += by;
        side
    }

    /// The same net with a count of four for each face.
    fn with_fours(&self) -> Self {
        Self {
            sides: vec![4; self.faces.len() / 4],
            ..self.clone()
        }
    }
}

const FOUND: u32 = 77;

/// The answer with a work table of this length, and how many of its first
/// numbers are zero; the others are as found.
fn tested_in(first: &Side, second: &Side, work: usize) -> (Result<usize, (u32, u32)>, usize) {
    let side = |side: &Side| -> (Vec<i32>, u32) { (side.vertices.clone(), side.start) };
    let before = (side(first), side(second));
    let mut workspace = vec![FOUND; work];
    let [one, other] = [first, second].map(|side| SeamSide {
        net: side.net(),
        start: side.start,
    });
    let answer = test_seam(&one, &other, &mut workspace);
    assert_eq!(before, (side(first), side(second)));
    assert_eq!(workspace.len(), work);
    let cleared = workspace.iter().take_while(|&&number| number == 0).count();
    assert!(workspace[cleared..].iter().all(|&number| number == FOUND));
    let told = answer.map_err(|Refusal { reason, place }| (reason, place));
    (told, cleared)
}

/// The answer after two checks, with a work table of 16 times the larger F and 5
/// more.
#[track_caller]
fn tested(first: &Side, second: &Side) -> Result<usize, (u32, u32)> {
    let least = first.work().max(second.work());
    let (answer, cleared) = tested_in(first, second, least + 5);
    assert_eq!(cleared, least, "{answer:?}");
    answer
}

/// A strip of three faces above the segment 0 1 2 3, which runs with its sides.
fn above() -> Side {
    let mut net = with_marks(grid(3, 1), &[0, 3]);
    net.points[1][2] = 9;
    net.points[2][2] = -5;
    plain(&net, 0)
}

/// Two rows of faces below the same segment, here 8 9 10 11, which runs against
/// the sides.
fn below() -> Side {
    let mut net = with_marks(grid(3, 2), &[8, 11]);
    for point in &mut net.points {
        point[1] -= 32;
    }
    net.points[9][2] = 9;
    net.points[10][2] = -5;
    plain(&net, 8)
}

#[test]
fn two_nets_match_along_their_segment() {
    assert_eq!(tested(&above(), &below()), Ok(3));
    assert_eq!(tested(&above().at(0), &below().at(0)), Ok(3));
}

#[test]
fn along_and_against_are_fixed() {
    // The second net is walked against its sides, the first along them.
    assert_eq!(tested(&below(), &above()), Err((18, 1)));
    assert_eq!(tested(&below().from(11), &above().from(3)), Ok(3));
    assert_eq!(tested(&above(), &above()), Err((18, 1)));
}

#[test]
fn one_coordinate_off_by_one_differs_at_its_step() {
    for (step, axis) in (0..4).flat_map(|step| (0..3).map(move |axis| (step, axis))) {
        let place = u32::try_from(step).expect("small");
        for by in [1, -1] {
            let first = above().moved(step, axis, by);
            assert_eq!(tested(&first, &below()), Err((18, place)));
            let second = below().moved(8 + step, axis, by);
            assert_eq!(tested(&above(), &second), Err((18, place)));
            assert_eq!(tested(&first, &second), Ok(3));
        }
    }
    let twice = above().moved(3, 0, 1).moved(2, 1, 1);
    assert_eq!(tested(&twice, &below()), Err((18, 2)));
    // Points off the segment do not count.
    assert_eq!(tested(&above().moved(5, 0, 1), &below()), Ok(3));
}

#[test]
fn marks_differ_at_the_sooner_end() {
    // Longer first: its mark at step 3 is missing.
    let long_first = above().marked(3, 0);
    assert_eq!(tested(&long_first, &below()), Err((18, 3)));
    assert_eq!(
        tested(&long_first.marked(2, 1), &below()),
        Err((18, 2)),
        "moved to step 2"
    );
    assert_eq!(tested(&above().marked(1, 1), &below()), Err((18, 1)));
    // Longer second.
    let long_second = below().marked(11, 0);
    assert_eq!(tested(&above(), &long_second), Err((18, 3)));
    assert_eq!(
        tested(&above(), &long_second.marked(9, 1)),
        Err((18, 1)),
        "moved to step 1"
    );
    assert_eq!(tested(&above(), &below().marked(10, 1)), Err((18, 2)));
    let both = [above().marked(1, 1), below().marked(9, 1)];
    assert_eq!(tested(&both[0], &both[1]), Ok(1), "a segment of one edge");
    assert_eq!(tested(&both[0].from(1), &both[1].from(9)), Ok(2));
}

#[test]
fn a_single_mark_reads_back_to_itself() {
    let first = plain(&with_marks(square(), &[0]), 0);
    let turned = unmarked(&square().points, &[[3, 2, 1, 0]]);
    let second = plain(&with_marks(turned, &[0]), 0);
    assert_eq!(tested(&first, &second), Ok(4));
    assert_eq!(tested(&first, &first), Err((18, 1)));
    assert_eq!(tested(&first, &second.moved(3, 2, 1)), Err((18, 3)));
    assert_eq!(tested(&first, &second.marked(2, 1)), Err((18, 2)));
    // Once round is not twice round.
    let twice_round = {
        let mut net = with_marks(grid(3, 1), &[0]);
        let corners = square().points;
        for (step, vertex) in [0, 4, 5, 6, 7, 3, 2, 1].into_iter().enumerate() {
            net.points[vertex] = corners[step % 4];
        }
        plain(&net, 0)
    };
    assert_eq!(tested(&first, &twice_round), Err((18, 4)));
}

/// 18, unless the segment reads the same both ways.
#[test]
fn the_same_net_twice() {
    let flat = plain(&with_marks(grid(2, 1), &[0, 2]), 0);
    assert_eq!(tested(&flat, &flat), Err((18, 1)));
    assert_eq!(tested(&flat, &flat.from(2)), Err((18, 0)));
    let mut mirrored = flat.clone();
    for vertex in 0..6 {
        mirrored.vertices[3 * vertex] %= 32;
    }
    assert_eq!(tested(&mirrored, &mirrored.from(2)), Ok(2));
    assert_eq!(tested(&mirrored, &mirrored), Err((18, 1)));
    let same_points = Side {
        vertices: vec![8; 18],
        ..flat
    };
    assert_eq!(tested(&same_points, &same_points), Err((18, 2)));
    let single = same_points.marked(2, 0);
    assert_eq!(tested(&single, &single), Ok(6));
}

#[test]
fn a_start_must_be_a_marked_vertex() {
    let bad = [1, 4, 8, 9, u32::MAX - 1, u32::MAX];
    for start in bad {
        assert_eq!(tested(&above().from(start), &below()), Err((17, 1)));
        assert_eq!(
            tested(&above().from(start), &below().from(5)),
            Err((17, 1)),
            "both"
        );
    }
    // Vertex 5 is inside, 12 is V.
    for start in [5, 0, 9, 12, 13, u32::MAX] {
        assert_eq!(tested(&above(), &below().from(start)), Err((17, 2)));
    }
}

#[test]
fn a_loop_without_marks_has_no_start() {
    let mut net = with_marks(grid(1, 1), &[0, 1]);
    net.points.extend(grid(1, 1).points);
    net.marks.extend([0; 4]);
    net.faces.push([4, 5, 7, 6]);
    let first = plain(&net, 4);
    let second = plain(&net, 1);
    assert_eq!(tested(&first, &second), Err((17, 1)));
    assert_eq!(tested(&second, &first), Err((17, 2)));
    assert_eq!(tested(&second, &second.from(1)), Err((18, 1)));
}

#[test]
fn closed_and_empty_nets_have_no_start() {
    let empty = plain(&Net::default(), 0);
    assert_eq!(tested(&empty, &below()), Err((17, 1)));
    assert_eq!(tested(&above(), &empty), Err((17, 2)));
    assert_eq!(tested(&empty, &empty), Err((17, 1)));
    assert_eq!(tested(&plain(&cube(), 0), &below()), Err((17, 1)));
}

#[test]
fn different_tensions_have_place_0() {
    for (one, other) in [(3, 4), (4, 3), (0, 4), (0, 1)] {
        assert_eq!(tested(&above().at(one), &below().at(other)), Err((18, 0)));
        let differing = below().moved(10, 1, 1).at(other);
        assert_eq!(tested(&above().at(one), &differing), Err((18, 0)));
    }
    // 17 goes first.
    let bad_start = above().at(3).from(1);
    assert_eq!(tested(&bad_start, &below()), Err((17, 1)));
}

#[test]
fn side_counts_in_one_net_alone_have_place_0() {
    let (one, other) = (above(), below());
    assert_eq!(tested(&one.with_fours(), &other), Err((18, 0)));
    assert_eq!(tested(&one, &other.with_fours()), Err((18, 0)));
    assert_eq!(
        tested(&one.with_fours(), &other.from(9)),
        Err((17, 2)),
        "17 goes first"
    );
    // As drawn, before any split.
    assert_eq!(tested(&one.with_fours(), &other.with_fours()), Ok(3));
}

/// A pentagon and a triangle above the segment, a hexagon below it.
#[test]
fn side_counts_in_both_nets_may_differ() {
    let points = vec![
        [0, 0, 0],
        [16, 0, 9],
        [32, 0, -5],
        [48, 0, 0],
        [24, 40, 0],
        [0, 40, 0],
    ];
    let net = |faces: &[&[u32]], marked: [usize; 2]| {
        let mut net = PolygonNet {
            points: points.clone(),
            faces: faces.iter().map(|face| face.to_vec()).collect(),
            marks: vec![0; 6],
        };
        marked.into_iter().for_each(|vertex| net.marks[vertex] = 1);
        net
    };
    let first = polygons(&net(&[&[0, 1, 2, 4, 5], &[2, 3, 4]], [0, 3]), 0);
    let hexagon = polygons(&net(&[&[5, 4, 3, 2, 1, 0]], [0, 3]), 0);
    assert_eq!(tested(&first, &hexagon), Ok(3));
    assert_eq!(tested(&first, &hexagon.moved(2, 0, 1)), Err((18, 2)));
    assert_eq!(tested(&first, &below()), Err((18, 0)));
    assert_eq!(tested(&above(), &hexagon), Err((18, 0)));
    assert_eq!(tested(&first, &below().with_fours()), Ok(3));
}

/// Sides with each refusal of the check, and whether it leaves the work table
/// as found.
fn refused() -> Vec<(Side, (u32, u32), bool)> {
    let side = above();
    let short = |table: &[u32]| table[..table.len() - 1].to_vec();
    let tables = |edit: fn(&mut Side)| {
        let mut side = above();
        edit(&mut side);
        side
    };
    let pinched = unmarked(&[[0; 3]; 7], &[[0, 1, 2, 3], [0, 4, 5, 6]]);
    vec![
        (tables(|side| side.vertices.push(0)), (2, 0), true),
        (
            Side {
                faces: short(&side.faces),
                ..side.clone()
            },
            (2, 0),
            true,
        ),
        (tables(|side| side.marks.push(0)), (2, 0), true),
        (tables(|side| side.sides = vec![4, 4, 2]), (14, 0), true),
        (tables(|side| side.sides = vec![4, 4]), (14, 0), true),
        (
            tables(|side| {
                side.vertices = vec![0; 3 * 8_193];
                side.marks = vec![0; 8_193];
            }),
            (3, 0),
            true,
        ),
        (tables(|side| side.faces = vec![0; 4 * 4_097]), (3, 0), true),
        (side.at(5), (16, 0), true),
        (side.at(5).from(1), (16, 0), true),
        (side.moved(6, 2, 1_048_577), (5, 6), false),
        (side.marked(7, 2), (6, 7), false),
        (tables(|side| side.faces[9] = 8), (7, 2), false),
        (
            tables(|side| {
                side.vertices.extend([0; 3]);
                side.marks.push(0);
            }),
            (8, 8),
            false,
        ),
        (
            tables(|side| {
                let face = side.faces[..4].to_vec();
                side.faces.extend(face);
            }),
            (9, 3),
            false,
        ),
        (plain(&pinched, 0), (10, 0), false),
        (plain(&wheel(9), 0), (11, 0), false),
        (plain(&fan(7), 0), (11, 0), false),
        (below().marked(5, 1), (12, 5), false),
    ]
}

#[test]
fn each_refusal_of_a_net_ends_the_call() {
    for (bad, refusal, is_untouched) in refused() {
        let cleared = if is_untouched { 0 } else { bad.work() };
        let work = bad.work().max(below().work());
        assert_eq!(
            tested_in(&bad, &below(), work),
            (Err(refusal), cleared),
            "first"
        );
        // The first check has cleared its part.
        let cleared = cleared.max(above().work());
        assert_eq!(
            tested_in(&above(), &bad, work),
            (Err(refusal), cleared),
            "second"
        );
        // A bad start does not matter before the checks.
        let bad_start = above().from(1);
        assert_eq!(tested_in(&bad_start, &bad, work), (Err(refusal), cleared));
    }
}

/// "the first net before the second", whatever the numbers.
#[test]
fn the_first_net_is_refused_before_the_second() {
    for (first, refusal, is_untouched) in refused() {
        for (second, ..) in refused() {
            let work = first.work().max(second.work());
            let cleared = if is_untouched { 0 } else { first.work() };
            let answer = tested_in(&first, &second, work);
            assert_eq!(answer, (Err(refusal), cleared));
        }
    }
}

#[test]
fn the_work_table_must_serve_each_net() {
    let (small, large) = (above(), below());
    let [few, many] = [&small, &large].map(Side::work);
    assert_eq!([few, many], [48, 96]);
    let refused = Err((4, 0));
    // The smaller net first: its check is made.
    assert_eq!(tested_in(&small, &large, many - 1), (refused, few));
    assert_eq!(tested_in(&small, &large, few), (refused, few));
    assert_eq!(tested_in(&small, &large, few - 1), (refused, 0));
    assert_eq!(tested_in(&small, &large, 0), (refused, 0));
    // The larger net first.
    let (first, second) = (large.from(11), small.from(3));
    assert_eq!(tested_in(&first, &second, many - 1), (refused, 0));
    assert_eq!(tested_in(&first, &second, few - 1), (refused, 0));
    assert_eq!(tested_in(&first, &second, many), (Ok(3), many));
    // Both of one size.
    assert_eq!(tested_in(&small, &small, few - 1), (refused, 0));
    // With side counts 16 numbers for each corner.
    let (first, second) = (small.with_fours(), large.with_fours());
    assert_eq!(tested_in(&first, &second, 4 * many), (Ok(3), 4 * many));
    let short = tested_in(&first, &second, 4 * many - 1);
    assert_eq!(short, (refused, 4 * few));
}

/// 4 comes before 16 and 5 in each net, but only of that net.
#[test]
fn refusals_of_one_net_keep_their_order() {
    let tense = above().at(5).moved(0, 0, 2_000_000);
    assert_eq!(tested_in(&tense, &below(), 47), (Err((4, 0)), 0));
    assert_eq!(tested_in(&tense, &below(), 48), (Err((16, 0)), 0));
    let far = tense.at(4);
    assert_eq!(tested_in(&far, &below(), 48), (Err((5, 0)), 48));
    assert_eq!(tested_in(&above(), &below().at(5), 95), (Err((4, 0)), 48));
    assert_eq!(tested_in(&above(), &below().at(5), 96), (Err((16, 0)), 48));
}
