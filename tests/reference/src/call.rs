//! The call that refines a net, with the tables it is given.

use crate::letter::{Letter, letter_table, refine_with_letters};
use crate::net::{Net, NetRecord, PolygonNet};
use crate::refusal::{Capacity, Refusal, check_call, check_net, check_tally, refined_faces};
use crate::rules::Tension;
use crate::step::{refine_once, split};

/// What a caller passes: the record of new points, the rounds, the net, the
/// lengths of the tables for the results and as workspace, and whether letters
/// are asked for.
#[derive(Clone, Copy, Debug)]
pub struct Call<'a> {
    /// What the record holds before the call.
    pub tally: u64,
    pub rounds: u32,
    pub net: NetRecord<'a>,
    pub capacity: Capacity,
}

/// What a call reports.
#[derive(Clone, Debug, PartialEq, Eq)]
pub enum Outcome {
    Refined {
        vertices: Vec<i32>,
        faces: Vec<u32>,
        marks: Vec<u8>,
        /// One for each vertex, if they are asked for.
        letters: Option<Vec<u8>>,
    },
    Refused {
        reason: u32,
        place: u32,
    },
}

impl From<Refusal> for Outcome {
    fn from(refusal: Refusal) -> Self {
        Self::Refused {
            reason: refusal.reason,
            place: refusal.place,
        }
    }
}

/// The tables that a call writes, as the caller owns them.
#[derive(Clone, Debug, PartialEq, Eq)]
pub struct Tables {
    pub vertices: Vec<i32>,
    pub faces: Vec<u32>,
    pub marks: Vec<u8>,
    /// Whether letters are asked for. If not, their table is not looked at.
    pub with_letters: bool,
    pub letters: Vec<u8>,
    pub workspace: Vec<u32>,
}

impl Tables {
    pub fn capacity(&self) -> Capacity {
        Capacity {
            vertices: self.vertices.len(),
            faces: self.faces.len(),
            marks: self.marks.len(),
            with_letters: self.with_letters,
            letters: self.letters.len(),
            workspace: self.workspace.len(),
        }
    }
}

/// The result of a call.
pub fn refine(call: &Call) -> Outcome {
    refine_net(call).unwrap_or_else(Outcome::from)
}

/// The same, with refusals in their order: what [`check_call`] finds, then 16,
/// what is wrong with the net, and 15.
fn refine_net(call: &Call) -> Result<Outcome, Refusal> {
    check_call(call.rounds, &call.net, &call.capacity)?;
    let tension = Tension::new(call.net.tension)?;
    let start = start_net(&call.net)?;
    let control = call.net.vertices.len() / 3;
    let (refined, letters) = refine_with_letters(start, tension, control, call.rounds);
    judge_tally(call, &refined, &letters)
}

/// The result of a call that gives this net with these letters unless refusal
/// 15 holds.
fn judge_tally(call: &Call, refined: &Net, letters: &[Letter]) -> Result<Outcome, Refusal> {
    check_tally(call.tally, new_points(&call.net, &refined.marks))?;
    Ok(Outcome::Refined {
        vertices: refined.vertex_table(),
        faces: refined.face_table(),
        marks: refined.marks.clone(),
        letters: call.capacity.with_letters.then(|| letter_table(letters)),
    })
}

/// "refined vertices minus drawn vertices", from the drawn net and the refined
/// marks.
fn new_points(control: &NetRecord, refined_marks: &[u8]) -> u64 {
    (refined_marks.len() - control.vertices.len() / 3) as u64
}

/// The net where refining begins, or why the drawn net is refused: the net
/// itself, or with side counts its split.
pub fn start_net(control: &NetRecord) -> Result<Net, Refusal> {
    let NetRecord {
        vertices,
        faces,
        sides,
        marks,
        ..
    } = *control;
    if sides.is_empty() {
        let net = Net::from_tables(vertices, faces, marks);
        check_net(&net).map(|()| net)
    } else {
        let net = PolygonNet::from_tables(vertices, faces, sides, marks);
        check_net(&net).map(|()| split(&net))
    }
}

/// An accepted net after `rounds` refinement steps.
pub fn refine_times(net: Net, tension: Tension, rounds: u32) -> Net {
    (0..rounds).fold(net, |net, _| refine_once(&net, tension).net)
}

/// The result of a call, in `tally` what the record holds after it, and in
/// `tables` the final state of every table.
pub fn refine_into(tally: &mut u64, rounds: u32, net: NetRecord, tables: &mut Tables) -> Outcome {
    let outcome = refine(&Call {
        tally: *tally,
        rounds,
        net,
        capacity: tables.capacity(),
    });
    match &outcome {
        Outcome::Refined {
            vertices,
            faces,
            marks,
            letters,
        } => {
            *tally += new_points(&net, marks);
            tables.vertices[..vertices.len()].copy_from_slice(vertices);
            tables.faces[..faces.len()].copy_from_slice(faces);
            tables.marks[..marks.len()].copy_from_slice(marks);
            if let Some(letters) = letters {
                tables.letters[..letters.len()].copy_from_slice(letters);
            }
        }
        Outcome::Refused {
            reason: 1..=4 | 14 | 16,
            ..
        } => return outcome,
        Outcome::Refused { .. } => {}
    }
    let used = 16 * refined_faces(net.quadrilaterals(), rounds);
    let used = usize::try_from(used).expect("the workspace was long enough");
    tables.workspace[..used].fill(0);
    outcome
}
