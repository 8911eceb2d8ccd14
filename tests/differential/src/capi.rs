//! The functions for C, called with lent tables.

#![allow(unsafe_code)]

use reference::call::Tables;
use reference::net::Net;
use reference::refusal::Capacity;

use nets::case::Case;

use crate::guarded::{Guarded, Side};

pub use foreign::{Finding, Report, SeamReport, Sizes};
use foreign::{gedrovit_check, gedrovit_refine, gedrovit_share_seam, gedrovit_sizes_for};

/// The declarations stand once, with the Rust crate of the package.
#[allow(dead_code)]
#[path = "../../../package/rust/src/foreign.rs"]
mod foreign;

/// For each table of a call the zone that it touches, one bit each.
#[derive(Clone, Copy, Debug)]
pub struct Zones(pub u64);

impl Zones {
    pub fn opposite(self) -> Self {
        Self(!self.0)
    }

    fn of(self, table: u32) -> Side {
        if self.0 >> table & 1 == 0 {
            Side::Before
        } else {
            Side::After
        }
    }
}

/// The tables that a call reads, its rounds and its tension.
pub struct Inputs {
    pub rounds: u32,
    pub vertices: Guarded<i32>,
    pub faces: Guarded<u32>,
    pub sides: Guarded<u8>,
    pub marks: Guarded<u8>,
    pub tension: u32,
}

impl Inputs {
    pub fn new(case: &Case, zones: Zones) -> Self {
        Self {
            rounds: case.rounds,
            vertices: Guarded::read_only(&case.vertices, zones.of(0)),
            faces: Guarded::read_only(&case.faces, zones.of(1)),
            sides: Guarded::read_only(&case.sides, zones.of(7)),
            marks: Guarded::read_only(&case.marks, zones.of(2)),
            tension: case.tension,
        }
    }

    /// The lengths of the vertices, faces and marks.
    pub fn lengths(&self) -> [usize; 3] {
        [
            self.vertices.length(),
            self.faces.length(),
            self.marks.length(),
        ]
    }

    /// What is not as the case has it.
    pub fn differences(&self, case: &Case) -> Vec<String> {
        [
            self.vertices.difference("vertices", &case.vertices),
            self.faces.difference("faces", &case.faces),
            self.sides.difference("sides", &case.sides),
            self.marks.difference("marks", &case.marks),
        ]
        .into_iter()
        .flatten()
        .collect()
    }
}

/// The tables that a call writes.
pub struct Outputs {
    pub vertices: Guarded<i32>,
    pub faces: Guarded<u32>,
    pub marks: Guarded<u8>,
    /// Whether letters are asked for; their table is given in any case.
    pub with_letters: bool,
    pub letters: Guarded<u8>,
    pub work: Guarded<u32>,
}

impl Outputs {
    pub fn new(found: &Tables, zones: Zones) -> Self {
        Self {
            vertices: Guarded::new(&found.vertices, zones.of(3)),
            faces: Guarded::new(&found.faces, zones.of(4)),
            marks: Guarded::new(&found.marks, zones.of(5)),
            with_letters: found.with_letters,
            letters: Guarded::new(&found.letters, zones.of(9)),
            work: work_table(&found.workspace, zones),
        }
    }

    /// What is not as expected.
    pub fn differences(&self, expected: &Tables) -> Vec<String> {
        [
            self.vertices.difference("out vertices", &expected.vertices),
            self.faces.difference("out faces", &expected.faces),
            self.marks.difference("out marks", &expected.marks),
            self.letters.difference("letters", &expected.letters),
            self.work.difference("work", &expected.workspace),
        ]
        .into_iter()
        .flatten()
        .collect()
    }

    /// The refined net that a call reports, with its letters if they are asked
    /// for.
    pub fn refined(&self, report: &Report) -> Refined {
        let count = |number: u64| usize::try_from(number).expect("a count of entries in memory");
        let (vertices, faces) = (count(report.vertices), count(report.faces));
        let net = Net::from_tables(
            &self.vertices.table()[..3 * vertices],
            &self.faces.table()[..4 * faces],
            &self.marks.table()[..vertices],
        );
        let letters = &self.letters.table()[..if self.with_letters { vertices } else { 0 }];
        Refined {
            net,
            letters: self.with_letters.then(|| letters.to_vec()),
        }
    }
}

/// What an accepted call gives.
pub struct Refined {
    pub net: Net,
    pub letters: Option<Vec<u8>>,
}

/// The record of new points with this figure.
pub fn record(tally: u64, zones: Zones) -> Guarded<u64> {
    Guarded::new(&[tally], zones.of(8))
}

/// The work table alone, for the check and the seam test.
pub fn work_table(found: &[u32], zones: Zones) -> Guarded<u32> {
    Guarded::new(found, zones.of(6))
}

/// The check, with output tables of these lengths.
pub fn check(inputs: &Inputs, room: &Capacity, work: &mut Guarded<u32>) -> Finding {
    // SAFETY: every pointer is lent with its length and lives through the call.
    unsafe {
        gedrovit_check(
            inputs.rounds,
            inputs.vertices.pointer(),
            inputs.vertices.length(),
            inputs.faces.pointer(),
            inputs.faces.length(),
            inputs.sides.pointer(),
            inputs.sides.length(),
            inputs.marks.pointer(),
            inputs.marks.length(),
            inputs.tension,
            room.vertices,
            room.faces,
            room.marks,
            room.with_letters,
            room.letters,
            work.pointer(),
            work.length(),
        )
    }
}

/// The refining call.
pub fn refine(record: &mut Guarded<u64>, inputs: &Inputs, outputs: &mut Outputs) -> Report {
    // SAFETY: every pointer is lent with its length and lives through the call.
    unsafe {
        gedrovit_refine(
            record.pointer().cast(),
            inputs.rounds,
            inputs.vertices.pointer(),
            inputs.vertices.length(),
            inputs.faces.pointer(),
            inputs.faces.length(),
            inputs.sides.pointer(),
            inputs.sides.length(),
            inputs.marks.pointer(),
            inputs.marks.length(),
            inputs.tension,
            outputs.vertices.pointer(),
            outputs.vertices.length(),
            outputs.faces.pointer(),
            outputs.faces.length(),
            outputs.marks.pointer(),
            outputs.marks.length(),
            outputs.with_letters,
            outputs.letters.pointer(),
            outputs.letters.length(),
            outputs.work.pointer(),
            outputs.work.length(),
        )
    }
}

/// The lengths to provide for a net with these side counts and with vertex,
/// face and mark tables of these lengths.
pub fn sizes_for(rounds: u32, lengths: [usize; 3], sides: &Guarded<u8>) -> Sizes {
    let [vertices, faces, marks] = lengths;
    // SAFETY: the pointer is lent with its length and lives through the call.
    unsafe {
        gedrovit_sizes_for(
            rounds,
            vertices,
            faces,
            sides.pointer(),
            sides.length(),
            marks,
        )
    }
}

/// The seam test of two nets from these starts.
pub fn share_seam(
    [first, second]: [&Inputs; 2],
    starts: [u32; 2],
    work: &mut Guarded<u32>,
) -> SeamReport {
    // SAFETY: every pointer is lent with its length and lives through the call.
    unsafe {
        gedrovit_share_seam(
            first.vertices.pointer(),
            first.vertices.length(),
            first.faces.pointer(),
            first.faces.length(),
            first.sides.pointer(),
            first.sides.length(),
            first.marks.pointer(),
            first.marks.length(),
            first.tension,
            starts[0],
            second.vertices.pointer(),
            second.vertices.length(),
            second.faces.pointer(),
            second.faces.length(),
            second.sides.pointer(),
            second.sides.length(),
            second.marks.pointer(),
            second.marks.length(),
            second.tension,
            starts[1],
            work.pointer(),
            work.length(),
        )
    }
}
