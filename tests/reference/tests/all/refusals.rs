//! Refusals 1 to 12 and 16: their order, their places and what they leave behind.

use crate::common::{
    cube, fan, grid, refine_at, refine_control, refine_net, scattered, square, unmarked, verdict,
    wheel, with_marks,
};
use reference::call::{Call, Outcome, Tables, refine};
use reference::net::{Net, NetRecord};
use reference::refusal::Capacity;
use reference::rules::Tension;

fn refused(reason: u32, place: u32) -> Outcome {
    Outcome::Refused { reason, place }
}

/// Table lengths of a call, all contents zero.
struct Sizes {
    rounds: u32,
    vertices: usize,
    faces: usize,
    marks: usize,
    tension: u32,
    capacity: Capacity,
}

impl Sizes {
    fn outcome(&self) -> Outcome {
        refine(&Call {
            tally: 0,
            rounds: self.rounds,
            net: NetRecord {
                vertices: &vec![0; self.vertices],
                faces: &vec![0; self.faces],
                sides: &[],
                marks: &vec![0; self.marks],
                tension: self.tension,
            },
            capacity: self.capacity,
        })
    }
}

const NOTHING: Capacity = Capacity {
    vertices: 0,
    faces: 0,
    marks: 0,
    with_letters: false,
    letters: 0,
    workspace: 0,
};

#[test]
fn an_empty_net_is_accepted_for_all_rounds_and_tensions() {
    for (rounds, tension) in (0..=7).flat_map(|k| (0..=5).map(move |t| (k, t))) {
        let outcome = Sizes {
            rounds,
            vertices: 0,
            faces: 0,
            marks: 0,
            tension,
            capacity: NOTHING,
        }
        .outcome();
        let empty = Outcome::Refined {
            vertices: vec![],
            faces: vec![],
            marks: vec![],
            letters: None,
        };
        let expected = match (rounds, tension) {
            (0..=6, 0..=4) => empty,
            (0..=6, _) => refused(16, 0),
            _ => refused(1, 0),
        };
        assert_eq!(outcome, expected);
    }
}

#[test]
fn callers_refusals_come_in_order() {
    let sizes = |rounds, vertices, faces, marks| Sizes {
        rounds,
        vertices,
        faces,
        marks,
        tension: 5,
        capacity: NOTHING,
    };
    for (case, reason) in [
        (sizes(7, 4, 4, 0), 1),
        (sizes(u32::MAX, 3, 4, 1), 1),
        (sizes(6, 4, 4, 1), 2),
        (sizes(6, 3, 5, 1), 2),
        (sizes(6, 3, 4, 2), 2),
        (sizes(6, 3, 4, 0), 2),
        (sizes(0, 3 * 8193 + 1, 4, 8193), 2),
        (sizes(0, 3 * 8193, 4, 8193), 3),
        (sizes(0, 3 * 8192, 4, 8192), 4),
        (sizes(0, 3, 4 * 4097, 1), 3),
        (sizes(3, 3, 4 * 4096, 1), 4),
        (sizes(4, 3, 4 * 1025, 1), 3),
        (sizes(4, 3, 4 * 1024, 1), 4),
        (sizes(6, 3, 4 * 65, 1), 3),
        (sizes(6, 3, 4 * 64, 1), 4),
    ] {
        assert_eq!(case.outcome(), refused(reason, 0));
        let sound = Sizes { tension: 4, ..case };
        assert_eq!(sound.outcome(), refused(reason, 0));
    }
}

/// A tension above 4 comes after short tables and before what is wrong with the
/// net.
#[test]
fn sixteen_comes_after_4_and_before_5() {
    let mut flawed = with_marks(grid(2, 2), &[4]);
    let mut nets = vec![grid(2, 2), flawed.clone()];
    flawed.marks[4] = 2;
    nets.push(flawed.clone());
    flawed.points[8][0] = i32::MAX;
    nets.push(flawed);
    for net in nets {
        for tension in [5, 256, 1 << 31, u32::MAX] {
            assert_eq!(refine_at(&net, tension, 1), refused(16, 0));
            assert_eq!(refine_at(&net, tension, 7), refused(1, 0));
            let before = filled_tables(15, 0);
            let (outcome, tables) = run_at(&net, tension, 1, before.clone());
            assert_eq!((outcome, tables), (refused(4, 0), before));
        }
    }
    for tension in 0..=4 {
        assert!(matches!(
            refine_at(&square(), tension, 1),
            Outcome::Refined { .. }
        ));
    }
}

#[test]
fn each_table_must_be_long_enough() {
    let net = square();
    let least = Capacity::for_refined_faces(16);
    let mut short = [least; 4];
    short[0].vertices -= 1;
    short[1].faces -= 1;
    short[2].marks -= 1;
    short[3].workspace -= 1;
    let call = |capacity| {
        refine(&Call {
            tally: 0,
            rounds: 2,
            net: NetRecord {
                vertices: &net.vertex_table(),
                faces: &net.face_table(),
                sides: &[],
                marks: &net.marks,
                tension: 0,
            },
            capacity,
        })
    };
    assert!(matches!(call(least), Outcome::Refined { .. }));
    for capacity in short {
        assert_eq!(call(capacity), refused(4, 0));
    }
}

#[test]
fn more_vertices_than_corners_means_an_unused_vertex() {
    let mut net = square();
    net.points.push([0; 3]);
    net.marks.push(0);
    assert_eq!(refine_net(&net, 0), refused(8, 4));
    net.marks[4] = 2;
    assert_eq!(refine_net(&net, 0), refused(6, 4));
    let lonely = unmarked(&[[0; 3]], &[]);
    assert_eq!(refine_net(&lonely, 6), refused(8, 0));
}

#[test]
fn bad_faces_get_7() {
    for corners in [
        [0, 1, 2, 4],
        [0, 1, 2, 0],
        [3, 1, 1, 0],
        [0, 1, 0, 2],
        [u32::MAX, 0, 1, 2],
    ] {
        let net = unmarked(&square().points, &[[0, 1, 2, 3], corners]);
        assert_eq!(verdict(&net), Some((7, 1)));
    }
    let no_vertices = unmarked(&[], &[[0, 1, 2, 3]]);
    assert_eq!(verdict(&no_vertices), Some((7, 0)));
}

#[test]
fn turned_faces_and_edges_of_three_faces_get_9() {
    let turned = unmarked(&scattered(6), &[[0, 1, 2, 3], [1, 2, 4, 5]]);
    assert_eq!(verdict(&turned), Some((9, 1)));
    let three = unmarked(&scattered(8), &[[0, 1, 2, 3], [1, 0, 4, 5], [0, 1, 6, 7]]);
    assert_eq!(verdict(&three), Some((9, 2)));
    let rotated = unmarked(&scattered(8), &[[4, 5, 6, 7], [0, 1, 2, 3], [2, 3, 0, 1]]);
    assert_eq!(verdict(&rotated), Some((9, 2)));
}

#[test]
fn the_place_of_9_is_the_lowest_later_face() {
    let faces = [[0, 1, 2, 3], [4, 5, 6, 7], [4, 5, 6, 7], [0, 1, 2, 3]];
    assert_eq!(verdict(&unmarked(&scattered(8), &faces)), Some((9, 2)));
}

#[test]
fn neither_ring_nor_fan_gets_10() {
    // Two closed surfaces that share vertex 0.
    let mut net = cube();
    let second = cube();
    let renumber = |vertex: u32| if vertex == 0 { 0 } else { vertex + 7 };
    net.points.extend(&second.points[1..]);
    net.marks.extend(&second.marks[1..]);
    net.faces
        .extend(second.faces.iter().map(|face| face.map(renumber)));
    assert_eq!(verdict(&net), Some((10, 0)));
}

#[test]
fn rings_and_fans_have_limits() {
    for n in 3..=8 {
        assert_eq!(verdict(&wheel(n)), None);
    }
    assert_eq!(verdict(&wheel(9)), Some((11, 0)));
    for m in 1..=6 {
        assert_eq!(verdict(&fan(m)), None);
    }
    assert_eq!(verdict(&fan(7)), Some((11, 0)));
}

#[test]
fn a_ring_of_two_is_a_ring() {
    // Two faces glued along two edges at vertex 3, and a pillow.
    let pocket = unmarked(&scattered(5), &[[3, 0, 1, 2], [3, 2, 4, 0]]);
    assert_eq!(verdict(&pocket), Some((11, 3)));
    let pillow = unmarked(&square().points, &[[0, 1, 2, 3], [3, 2, 1, 0]]);
    assert_eq!(verdict(&pillow), Some((11, 0)));
}

#[test]
fn a_mark_inside_gets_12() {
    assert_eq!(verdict(&with_marks(grid(2, 2), &[4])), Some((12, 4)));
    assert_eq!(verdict(&with_marks(cube(), &[7, 3])), Some((12, 3)));
}

#[test]
fn the_lowest_number_goes_before_the_lowest_place() {
    let mut net = with_marks(grid(2, 2), &[4]);
    net.faces.push([0, 1, 4, 3]);
    assert_eq!(verdict(&net), Some((9, 4)));
    net.points.push([0; 3]);
    net.marks.push(0);
    assert_eq!(verdict(&net), Some((8, 9)));
    net.faces[3][0] = 10;
    assert_eq!(verdict(&net), Some((7, 3)));
    net.marks[9] = 255;
    assert_eq!(verdict(&net), Some((6, 9)));
    net.points[8][0] = i32::MAX;
    assert_eq!(verdict(&net), Some((5, 8)));
}

fn filled_tables(refined_faces: usize, surplus: usize) -> Tables {
    let least = Capacity::for_refined_faces(refined_faces);
    Tables {
        vertices: vec![-77; least.vertices + surplus],
        faces: vec![77; least.faces + surplus],
        marks: vec![7; least.marks + surplus],
        with_letters: false,
        letters: vec![99; surplus],
        workspace: vec![777; least.workspace + surplus],
    }
}

/// Calls with filled tables and returns their final state.
fn run(net: &Net, rounds: u32, tables: Tables) -> (Outcome, Tables) {
    run_at(net, Tension::OLD.number(), rounds, tables)
}

/// The same at any tension.
fn run_at(net: &Net, tension: u32, rounds: u32, mut tables: Tables) -> (Outcome, Tables) {
    let outcome = refine_control(&mut 0, net, &[], tension, rounds, &mut tables);
    (outcome, tables)
}

#[test]
fn an_accepted_call_fills_from_the_front_and_clears_the_workspace() {
    let (outcome, tables) = run(&square(), 1, filled_tables(4, 5));
    let Outcome::Refined {
        vertices,
        faces,
        marks,
        ..
    } = outcome
    else {
        panic!("accepted");
    };
    assert_eq!((vertices.len(), faces.len(), marks.len()), (27, 16, 9));
    assert_eq!(tables.vertices[..27], vertices);
    assert!(tables.vertices[27..].iter().all(|&c| c == -77));
    assert_eq!(tables.faces[..16], faces);
    assert!(tables.faces[16..].iter().all(|&c| c == 77));
    assert_eq!(tables.marks[..9], marks);
    assert!(tables.marks[9..].iter().all(|&c| c == 7));
    assert_eq!(tables.letters, [99; 5]);
    assert!(tables.workspace[..64].iter().all(|&w| w == 0));
    assert!(tables.workspace[64..].iter().all(|&w| w == 777));
}

#[test]
fn a_refused_net_clears_the_workspace_only() {
    let mut net = square();
    net.marks[1] = 2;
    let before = filled_tables(16, 3);
    let (outcome, tables) = run(&net, 2, before.clone());
    assert_eq!(outcome, refused(6, 1));
    let mut expected = before;
    expected.workspace[..256].fill(0);
    assert_eq!(tables, expected);
}

#[test]
fn a_refused_caller_finds_all_tables_untouched() {
    let before = filled_tables(15, 0);
    for (rounds, tension, reason) in [(2, 4, 4), (7, 4, 1), (1, 5, 16), (0, u32::MAX, 16)] {
        let (outcome, tables) = run_at(&square(), tension, rounds, before.clone());
        assert_eq!(outcome, refused(reason, 0));
        assert_eq!(tables, before);
    }
}

#[test]
fn zero_rounds_copy_the_net() {
    let net = with_marks(grid(3, 2), &[0, 3]);
    for tension in Tension::ALL {
        assert_eq!(crate::common::refined_at(&net, tension, 0), net);
    }
}
