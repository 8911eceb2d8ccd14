//! Nets of the scope paper and shorthand shared by the tests.

#![allow(dead_code)]

use reference::call::{Call, Outcome, Tables, refine, refine_into};
use reference::net::{Mesh, Net, NetRecord};
use reference::point::Point;
use reference::refusal::{Capacity, Refusal, check_net};
use reference::rules::Tension;
use reference::text::{Document, answer};

pub const SAMPLE_TEXT: &str = "vertices faces rounds\n4 1 1\nx y z corner\n0 0 0 1\n\
    16 0 0 1\n16 16 0 1\n0 16 0 1\na b c d\n0 1 2 3\n";

pub const SAMPLE_ANSWER: &str = "vertices faces\n9 4\nx y z corner\n0 0 0 1\n16 0 0 1\n\
    16 16 0 1\n0 16 0 1\n8 0 0 0\n16 8 0 0\n8 16 0 0\n0 8 0 0\n8 8 0 0\na b c d\n\
    0 4 8 7\n1 5 8 4\n2 6 8 5\n3 7 8 6\n";

/// A net without marks.
pub fn unmarked(points: &[Point], faces: &[[u32; 4]]) -> Net {
    Net {
        points: points.to_vec(),
        faces: faces.to_vec(),
        marks: vec![0; points.len()],
    }
}

pub fn with_marks(mut net: Net, marked: &[usize]) -> Net {
    for &vertex in marked {
        net.marks[vertex] = 1;
    }
    net
}

pub fn square() -> Net {
    unmarked(
        &[[0, 0, 0], [16, 0, 0], [16, 16, 0], [0, 16, 0]],
        &[[0, 1, 2, 3]],
    )
}

/// A flat grid of squares of side 16, vertices and faces row by row.
pub fn grid(columns: u32, rows: u32) -> Net {
    let across = columns + 1;
    let side = |cells: u32| i32::try_from(16 * cells).expect("a small grid");
    let points: Vec<Point> = (0..=rows)
        .flat_map(|y| (0..=columns).map(move |x| [side(x), side(y), 0]))
        .collect();
    let faces: Vec<[u32; 4]> = (0..rows)
        .flat_map(|y| (0..columns).map(move |x| y * across + x))
        .map(|low| [low, low + 1, low + across + 1, low + across])
        .collect();
    unmarked(&points, &faces)
}

/// The cube with corners at ±540, sides running counter-clockwise seen from
/// outside. Vertex 4x + 2y + z, with a bit per axis.
pub fn cube() -> Net {
    let at = |bit: i32| if bit == 0 { -540 } else { 540 };
    let points: Vec<Point> = (0..8).map(|v| [at(v & 4), at(v & 2), at(v & 1)]).collect();
    unmarked(
        &points,
        &[
            [0, 2, 6, 4],
            [1, 5, 7, 3],
            [0, 4, 5, 1],
            [2, 3, 7, 6],
            [0, 1, 3, 2],
            [4, 6, 7, 5],
        ],
    )
}

/// `n` faces round vertex 0, which becomes a full ring. Neighbours are
/// vertices 1 to n, the opposite corners n + 1 to 2n.
pub fn wheel(n: u32) -> Net {
    let faces: Vec<[u32; 4]> = (0..n)
        .map(|i| [0, 1 + i, 1 + n + i, 1 + (i + 1) % n])
        .collect();
    unmarked(&scattered(2 * n + 1), &faces)
}

/// `m` faces round vertex 0, which stays on the boundary. Neighbours are
/// vertices 1 to m + 1, the opposite corners m + 2 to 2m + 1.
pub fn fan(m: u32) -> Net {
    let faces: Vec<[u32; 4]> = (0..m).map(|i| [0, 1 + i, 2 + m + i, 2 + i]).collect();
    unmarked(&scattered(2 * m + 2), &faces)
}

/// A 6 x 6 grid without its last 3 x 3 faces, in no special position. The
/// inward corner has a fan of three.
pub fn bent_grid() -> Net {
    let outside = |vertex: &u32| vertex % 7 > 3 && vertex / 7 > 3;
    let kept: Vec<u32> = (0..49).filter(|vertex| !outside(vertex)).collect();
    let number = |vertex: u32| kept.partition_point(|&other| other < vertex) as u32;
    let faces = grid(6, 6).faces.into_iter();
    let faces: Vec<[u32; 4]> = faces
        .filter(|face| !face.iter().any(outside))
        .map(|face| face.map(number))
        .collect();
    unmarked(&scattered(kept.len() as u32), &faces)
}

/// Points in no special position.
pub fn scattered(count: u32) -> Vec<Point> {
    (0..i64::from(count))
        .map(|i| {
            [7919, 104_729, 1_299_709]
                .map(|prime| i32::try_from((i + 1) * prime % 2003 - 1001).expect("small"))
        })
        .collect()
}

/// The call for a net at the tension of old callers, with tables just long
/// enough.
pub fn refine_net(net: &Net, rounds: u32) -> Outcome {
    refine_at(net, Tension::OLD.number(), rounds)
}

/// The same at any tension.
pub fn refine_at(net: &Net, tension: u32, rounds: u32) -> Outcome {
    let refined = net.faces.len() * 4_usize.pow(rounds.min(6));
    refine(&Call {
        tally: 0,
        rounds,
        net: NetRecord {
            vertices: &net.vertex_table(),
            faces: &net.face_table(),
            sides: &[],
            marks: &net.marks,
            tension,
        },
        capacity: Capacity::for_refined_faces(refined),
    })
}

/// Any call, with the record and the tables that it writes.
pub fn refine_control<F: AsRef<[u32]>>(
    tally: &mut u64,
    net: &Mesh<F>,
    sides: &[u8],
    tension: u32,
    rounds: u32,
    tables: &mut Tables,
) -> Outcome {
    let record = NetRecord {
        vertices: &net.vertex_table(),
        faces: &net.face_table(),
        sides,
        marks: &net.marks,
        tension,
    };
    refine_into(tally, rounds, record, tables)
}

/// The net that an accepted call gives, at the tension of old callers.
pub fn refined(net: &Net, rounds: u32) -> Net {
    refined_at(net, Tension::OLD, rounds)
}

pub fn refined_at(net: &Net, tension: Tension, rounds: u32) -> Net {
    match refine_at(net, tension.number(), rounds) {
        Outcome::Refined {
            vertices,
            faces,
            marks,
            ..
        } => Net::from_tables(&vertices, &faces, &marks),
        Outcome::Refused { reason, place } => panic!("refused: {reason} at {place}"),
    }
}

pub fn verdict(net: &Net) -> Option<(u32, u32)> {
    check_net(net)
        .err()
        .map(|Refusal { reason, place }| (reason, place))
}

/// The document of a net, which asks for no letters.
pub fn document(net: &Net, rounds: u32) -> Document {
    Document {
        rounds,
        with_letters: false,
        vertices: net.vertex_table(),
        faces: net.face_table(),
        marks: net.marks.clone(),
    }
}

/// A text with its line `number` replaced; without a line break if the
/// replacement has none.
pub fn with_line(text: &str, number: usize, replacement: &str) -> String {
    let mut lines = text.split_inclusive('\n').collect::<Vec<_>>();
    lines[number - 1] = replacement;
    lines.concat()
}

/// The answer to a text that is refused so.
pub fn refusal(reason: u32, place: u32) -> String {
    format!("refusal place\n{reason} {place}\n")
}

#[track_caller]
pub fn assert_bad_line(text: &[u8], line: u32) {
    assert_eq!(answer(text), refusal(13, line));
}
