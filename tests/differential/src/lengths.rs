//! Calls with tables of any length.

use nets::build::to_u32;
use nets::case::{Case, Expected};
use nets::letters::fit_letters;
use nets::rng::Rng;
use reference::refusal::{Capacity, refined_faces};
use reference::rules::Tension;

/// A table of a call.
#[derive(Clone, Copy, Debug, PartialEq, Eq)]
pub enum Table {
    Vertices,
    Faces,
    Marks,
    OutVertices,
    OutFaces,
    OutMarks,
    Letters,
    Work,
    Sides,
}

impl Table {
    /// The tables for the results without letters.
    pub const RESULTS: [Self; 4] = [
        Self::OutVertices,
        Self::OutFaces,
        Self::OutMarks,
        Self::Work,
    ];
    const ALL: [Self; 9] = [
        Self::Vertices,
        Self::Faces,
        Self::Marks,
        Self::OutVertices,
        Self::OutFaces,
        Self::OutMarks,
        Self::Letters,
        Self::Work,
        Self::Sides,
    ];

    /// The tables of a call; the last one only if it has side counts.
    fn of(case: &Case) -> &'static [Self] {
        let count = Self::ALL.len() - usize::from(case.sides.is_empty());
        &Self::ALL[..count]
    }

    pub fn length(self, case: &Case) -> usize {
        match self {
            Self::Vertices => case.vertices.len(),
            Self::Faces => case.faces.len(),
            Self::Marks => case.marks.len(),
            Self::OutVertices => case.capacity.vertices,
            Self::OutFaces => case.capacity.faces,
            Self::OutMarks => case.capacity.marks,
            Self::Letters => case.capacity.letters,
            Self::Work => case.capacity.workspace,
            Self::Sides => case.sides.len(),
        }
    }

    /// Cuts a table, or makes it longer; new entries of the net are 0, new
    /// side counts 4.
    pub fn resize(self, case: &mut Case, length: usize) {
        match self {
            Self::Vertices => case.vertices.resize(length, 0),
            Self::Faces => case.faces.resize(length, 0),
            Self::Marks => case.marks.resize(length, 0),
            Self::OutVertices => case.capacity.vertices = length,
            Self::OutFaces => case.capacity.faces = length,
            Self::OutMarks => case.capacity.marks = length,
            Self::Letters => case.capacity.letters = length,
            Self::Work => case.capacity.workspace = length,
            Self::Sides => case.sides.resize(length, 4),
        }
    }
}

/// The same call, with letters or without, and one to three tables of another
/// length.
pub fn other_lengths(case: Case, rng: &mut Rng) -> Case {
    let mut case = fit_letters(case, rng);
    for _ in 0..rng.between(1, 3) {
        let table = rng.pick(Table::of(&case));
        let length = table.length(&case);
        let other = match rng.below(6) {
            0 => 0,
            1 => length.saturating_sub(1),
            2 => length + 1,
            3 => length + rng.pick(&[3, 4, 12, 16]),
            4 => length.saturating_sub(rng.pick(&[3, 4, 12, 16])),
            _ => rng.below(2 * length + 8),
        };
        table.resize(&mut case, other);
    }
    case.expected = Expected::Unknown;
    case
}

/// Any numbers in tables of up to 12 vertices and faces.
pub fn noise(rng: &mut Rng) -> Case {
    let rounds = noise_rounds(rng);
    let case = filled(rng.below(13), 4 * rng.below(13), vec![], rounds, rng);
    noise_lengths(case, rng)
}

/// The same with side counts, of which a few are out of range.
pub fn polygon_noise(rng: &mut Rng) -> Case {
    let rounds = noise_rounds(rng);
    let count = 1 + rng.below(12);
    let mut sides = some_sides(count, rng);
    let corners = sum(&sides);
    if rng.one_in(4) {
        sides[rng.below(count)] = rng.pick(&[0, 1, 2, 9, 16, 128, 255]);
    }
    let case = filled(rng.below(13), corners, sides, rounds, rng);
    noise_lengths(case, rng)
}

fn noise_rounds(rng: &mut Rng) -> u32 {
    match rng.below(8) {
        0 => rng.pick(&[6, 7, u32::MAX]),
        _ => to_u32(rng.below(3)),
    }
}

fn noise_lengths(mut case: Case, rng: &mut Rng) -> Case {
    if rng.one_in(2) {
        return other_lengths(case, rng);
    }
    if rng.one_in(4) {
        case.capacity.with_letters = rng.one_in(2);
        for table in Table::of(&case) {
            table.resize(&mut case, rng.below(40));
        }
    }
    case
}

fn some_sides(count: usize, rng: &mut Rng) -> Vec<u8> {
    (0..count)
        .map(|_| 3 + rng.below(6).to_le_bytes()[0])
        .collect()
}

fn sum(sides: &[u8]) -> usize {
    sides.iter().map(|&count| usize::from(count)).sum()
}

/// Vertices, faces and rounds at the limits or just beyond.
const BRINKS: [(usize, usize, u32); 12] = [
    (8_192, 4_096, 0),
    (8_193, 4_096, 0),
    (8_192, 4_097, 0),
    (8_193, 1, 0),
    (8_192, 1, 0),
    (4, 4_097, 0),
    (4, 4_097, 3),
    (4_225, 4_096, 4),
    (1_089, 1_025, 4),
    (289, 257, 5),
    (81, 65, 6),
    (81, 64, 6),
];

/// Any numbers in tables with such counts; some results lack room.
pub fn brink(rng: &mut Rng) -> Case {
    let (vertices, faces, rounds) = rng.pick(&BRINKS);
    let case = filled(vertices, 4 * faces, vec![], rounds, rng);
    brink_room(case, rng)
}

/// Vertices, side counts of two faces and how often they occur, and rounds at
/// the limits or just beyond.
const POLYGON_BRINKS: [(usize, [u8; 2], usize, u32); 14] = [
    (4, [4, 4], 512, 0),
    (4_096, [8, 8], 256, 0),
    (4, [3, 3], 683, 0),
    (4, [3, 8], 373, 0),
    (4, [5, 3], 512, 3),
    (4, [5, 3], 513, 3),
    (8_192, [3, 5], 1, 0),
    (8_193, [3, 5], 1, 0),
    (8_192, [8, 8], 256, 0),
    (8_193, [3, 3], 683, 0),
    (64, [4, 4], 8, 6),
    (64, [5, 8], 5, 6),
    (64, [3, 5], 32, 5),
    (64, [3, 8], 94, 4),
];

/// The same with side counts.
pub fn polygon_brink(rng: &mut Rng) -> Case {
    let (vertices, pair, times, rounds) = rng.pick(&POLYGON_BRINKS);
    let mut sides = pair.repeat(times);
    let corners = sum(&sides);
    if rng.one_in(8) {
        let last = sides.len() - 1;
        sides[last] = rng.pick(&[2, 3, 8, 9]);
    }
    let case = filled(vertices, corners, sides, rounds, rng);
    brink_room(case, rng)
}

fn brink_room(mut case: Case, rng: &mut Rng) -> Case {
    if refined_faces(case.quadrilaterals(), case.rounds) > 4_097 {
        case.capacity = Capacity::for_refined_faces(1);
    } else if rng.one_in(2) {
        let table = rng.pick(&Table::RESULTS);
        let length = table.length(&case);
        table.resize(&mut case, length - 1);
    }
    case
}

/// A call with any numbers and these side counts, with tables for the results
/// that serve it, or one round if there are too many rounds.
fn filled(vertices: usize, corners: usize, sides: Vec<u8>, rounds: u32, rng: &mut Rng) -> Case {
    let reach = rng.pick(&[1, 1_048_576, 1_048_577, i32::MAX]);
    let below = rng
        .pick(&[vertices, vertices, vertices + 1, 1 << 32])
        .max(1);
    let marks = rng.pick(&[1, 2, 2, 256]);
    let number = |below: usize, rng: &mut Rng| to_u32(rng.below(below));
    let mut case = Case {
        tally: 0,
        rounds,
        vertices: (0..3 * vertices)
            .map(|_| rng.between(-reach, reach))
            .collect(),
        faces: (0..corners).map(|_| number(below, rng)).collect(),
        sides,
        marks: (0..vertices)
            .map(|_| number(marks, rng).to_le_bytes()[0])
            .collect(),
        tension: Tension::OLD.number(),
        capacity: Capacity::for_refined_faces(0),
        expected: Expected::Unknown,
    };
    case.capacity = Capacity::for_refined_faces(case.served_faces());
    case
}
