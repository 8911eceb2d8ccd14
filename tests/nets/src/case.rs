//! Calls and texts together with what is known of their answers.

use reference::call::{Call, Outcome, Tables, refine, refine_into};
use reference::net::{Mesh, Net, NetRecord, PolygonNet};
use reference::point::Point;
use reference::refusal::{Capacity, MAX_ROUNDS, Refusal};
use reference::rules::Tension;
use reference::step::split;
use reference::text::{Document, PROGRAM_REFINED_FACES};

use crate::build::to_u32;
use crate::rng::Rng;

/// What the maker of a case knows of its answer.
#[derive(Clone, Copy, Debug, PartialEq, Eq)]
pub enum Expected {
    Accepted,
    Refused(Refusal),
    /// Damaged at random: nothing is known.
    Unknown,
}

impl Expected {
    pub fn agrees_with(&self, outcome: &Outcome) -> bool {
        match self {
            Expected::Accepted => matches!(outcome, Outcome::Refined { .. }),
            Expected::Refused(refusal) => *outcome == Outcome::from(*refusal),
            Expected::Unknown => true,
        }
    }
}

/// A call with all its tables; those for the results are given by length.
#[derive(Clone, Debug)]
pub struct Case {
    /// What the record of new points holds before the call.
    pub tally: u64,
    pub rounds: u32,
    pub vertices: Vec<i32>,
    pub faces: Vec<u32>,
    /// Sides of each face; none if every face has four.
    pub sides: Vec<u8>,
    pub marks: Vec<u8>,
    pub tension: u32,
    pub capacity: Capacity,
    pub expected: Expected,
}

impl Case {
    /// A call without side counts and letters, at the tension of old callers, with
    /// a record from zero and tables just long enough, or for one round if there
    /// are too many rounds.
    pub fn new(net: &Net, rounds: u32, expected: Expected) -> Self {
        Self::of_tables(net, vec![], rounds, expected)
    }

    /// The same with side counts.
    pub fn with_sides(net: &PolygonNet, rounds: u32, expected: Expected) -> Self {
        Self::of_tables(net, net.side_table(), rounds, expected)
    }

    fn of_tables<F: AsRef<[u32]>>(
        net: &Mesh<F>,
        sides: Vec<u8>,
        rounds: u32,
        expected: Expected,
    ) -> Self {
        let mut case = Self {
            tally: 0,
            rounds,
            vertices: net.vertex_table(),
            faces: net.face_table(),
            sides,
            marks: net.marks.clone(),
            tension: Tension::OLD.number(),
            capacity: Capacity::for_refined_faces(0),
            expected,
        };
        case.capacity = Capacity::for_refined_faces(case.served_faces());
        case
    }

    /// The net record of the call.
    pub fn net(&self) -> NetRecord<'_> {
        NetRecord {
            vertices: &self.vertices,
            faces: &self.faces,
            sides: &self.sides,
            marks: &self.marks,
            tension: self.tension,
        }
    }

    /// F: the quadrilaterals that refining begins with.
    pub fn quadrilaterals(&self) -> usize {
        self.net().quadrilaterals()
    }

    /// Faces after refining, or after one round if there are too many rounds.
    pub fn served_faces(&self) -> usize {
        let served = if self.rounds <= MAX_ROUNDS {
            self.rounds
        } else {
            1
        };
        self.quadrilaterals() << (2 * served)
    }

    /// Tables for the results and the workspace, filled with random contents.
    pub fn tables(&self, rng: &mut Rng) -> Tables {
        let low_byte = |value: u64| value.to_le_bytes()[0];
        let coordinate = |value: u64| low_word(value).cast_signed();
        Tables {
            vertices: filled(self.capacity.vertices, coordinate, rng),
            faces: filled(self.capacity.faces, low_word, rng),
            marks: filled(self.capacity.marks, low_byte, rng),
            with_letters: self.capacity.with_letters,
            letters: filled(self.capacity.letters, low_byte, rng),
            workspace: filled_words(self.capacity.workspace, rng),
        }
    }

    /// The reference's answer.
    pub fn outcome(&self) -> Outcome {
        refine(&Call {
            tally: self.tally,
            rounds: self.rounds,
            net: self.net(),
            capacity: self.capacity,
        })
    }

    /// The reference's answer and what the record holds after the call, and in
    /// `tables` the final state of every table.
    pub fn outcome_in(&self, tables: &mut Tables) -> (Outcome, u64) {
        let mut tally = self.tally;
        let outcome = refine_into(&mut tally, self.rounds, self.net(), tables);
        (outcome, tally)
    }
}

/// The low half of a number.
fn low_word(value: u64) -> u32 {
    u32::try_from(value & 0xFFFF_FFFF).expect("32 bits")
}

/// So many random numbers, as a work table may have them.
pub(crate) fn filled_words(length: usize, rng: &mut Rng) -> Vec<u32> {
    filled(length, low_word, rng)
}

fn filled<T>(length: usize, entry: impl Fn(u64) -> T, rng: &mut Rng) -> Vec<T> {
    (0..length).map(|_| entry(rng.next_u64())).collect()
}

/// A net as a caller draws it.
#[derive(Clone, Debug)]
pub enum ControlNet {
    Plain(Net),
    WithSides(PolygonNet),
}

impl From<Net> for ControlNet {
    fn from(net: Net) -> Self {
        ControlNet::Plain(net)
    }
}

impl From<PolygonNet> for ControlNet {
    fn from(net: PolygonNet) -> Self {
        ControlNet::WithSides(net)
    }
}

impl ControlNet {
    /// The net where refining begins.
    pub fn start(&self) -> Net {
        match self {
            ControlNet::Plain(net) => net.clone(),
            ControlNet::WithSides(net) => split(net),
        }
    }

    /// The net as it is drawn, with lists of corners.
    pub fn polygons(&self) -> PolygonNet {
        match self {
            ControlNet::Plain(net) => PolygonNet::from(net),
            ControlNet::WithSides(net) => net.clone(),
        }
    }

    pub fn has_sides(&self) -> bool {
        matches!(self, ControlNet::WithSides(_))
    }

    pub fn points(&self) -> &[Point] {
        match self {
            ControlNet::Plain(net) => &net.points,
            ControlNet::WithSides(net) => &net.points,
        }
    }

    pub fn points_mut(&mut self) -> &mut [Point] {
        match self {
            ControlNet::Plain(net) => &mut net.points,
            ControlNet::WithSides(net) => &mut net.points,
        }
    }

    /// Faces where refining begins.
    pub fn quadrilaterals(&self) -> usize {
        match self {
            ControlNet::Plain(net) => net.faces.len(),
            ControlNet::WithSides(net) => net.corners().count(),
        }
    }

    pub fn accepted_case(&self, tension: Tension, rounds: u32) -> Case {
        let case = match self {
            ControlNet::Plain(net) => Case::new(net, rounds, Expected::Accepted),
            ControlNet::WithSides(net) => Case::with_sides(net, rounds, Expected::Accepted),
        };
        Case {
            tension: tension.number(),
            ..case
        }
    }
}

/// A text for the program.
#[derive(Clone, Debug)]
pub struct TextCase {
    pub text: Vec<u8>,
    pub expected: Expected,
}

/// The text form of a net, which asks for letters half of the time.
pub fn document(net: &Net, rounds: u32, rng: &mut Rng) -> Document {
    Document {
        rounds,
        with_letters: rng.one_in(2),
        vertices: net.vertex_table(),
        faces: net.face_table(),
        marks: net.marks.clone(),
    }
}

/// The most rounds, up to 6, after which so many quadrilaterals have become at
/// most `faces`.
pub fn most_rounds(quadrilaterals: usize, faces: usize) -> u32 {
    (0..=6)
        .rev()
        .find(|&rounds| quadrilaterals << (2 * rounds) <= faces)
        .unwrap_or(0)
}

/// Some rounds, up to 4, that the program serves for so many faces.
pub fn served_rounds(faces: usize, rng: &mut Rng) -> u32 {
    let most = most_rounds(faces, PROGRAM_REFINED_FACES).min(4);
    to_u32(rng.below(most as usize + 1))
}
