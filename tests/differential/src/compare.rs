//! One call, through the C interface and by the reference.

use nets::case::Case;
use nets::rng::Rng;
use reference::call::{Outcome, Tables};
use reference::refusal::{Capacity, check_call};

use crate::capi::{
    Finding, Inputs, Outputs, Refined, Report, Sizes, Zones, check, record, refine, sizes_for,
    work_table,
};
use crate::guarded::Guarded;

/// A call with what the reference says of it.
pub struct Known {
    pub case: Case,
    /// The tables for the results as they are found.
    pub found: Tables,
    /// The same after the call.
    pub left: Tables,
    /// What the record of new points holds after the call.
    pub tally: u64,
    pub report: Report,
}

impl Known {
    /// The call with random contents in the tables for its results.
    pub fn new(case: Case, rng: &mut Rng) -> Result<Self, String> {
        let found = case.tables(rng);
        Self::with_tables(case, found)
    }

    /// The call with these tables for its results.
    pub fn with_tables(case: Case, found: Tables) -> Result<Self, String> {
        let mut left = found.clone();
        let (outcome, tally) = case.outcome_in(&mut left);
        if !case.expected.agrees_with(&outcome) {
            return Err("the reference's answer is not the one drawn".to_owned());
        }
        Ok(Self {
            report: report(&outcome),
            case,
            found,
            left,
            tally,
        })
    }

    /// The functions for C give the same answer and leave the same tables and
    /// record, wherever these lie: each touches either zone in turn. The result
    /// is what the refining call gave, if anything.
    pub fn compare(&self, rng: &mut Rng) -> Result<Option<Refined>, String> {
        let generated = Zones(rng.next_u64());
        self.compare_at(generated)?;
        self.compare_at(generated.opposite())
    }

    fn compare_at(&self, zones: Zones) -> Result<Option<Refined>, String> {
        let inputs = Inputs::new(&self.case, zones);
        self.compare_sizes(&inputs)?;
        self.compare_check(&inputs, zones)?;
        let mut record = record(self.case.tally, zones);
        self.compare_refine(&mut record, &inputs, zones)
    }

    /// The refining call alone, on a record that other calls left so.
    pub fn compare_on(&self, record: &mut Guarded<u64>, rng: &mut Rng) -> Result<(), String> {
        let zones = Zones(rng.next_u64());
        let inputs = Inputs::new(&self.case, zones);
        self.compare_refine(record, &inputs, zones).map(drop)
    }

    fn compare_sizes(&self, inputs: &Inputs) -> Result<(), String> {
        let given = sizes_for(inputs.rounds, inputs.lengths(), &inputs.sides);
        agree("sizes", &given, &sizes_due(&self.case))?;
        let sides = inputs.sides.difference("sides", &self.case.sides);
        as_expected("sizes", sides)
    }

    /// What the check must find: what the call reports, but for 15.
    fn finding(&self) -> Finding {
        match self.report {
            Report { reason: 15, .. } => Finding {
                reason: 0,
                place: 0,
            },
            Report { reason, place, .. } => Finding { reason, place },
        }
    }

    fn compare_check(&self, inputs: &Inputs, zones: Zones) -> Result<(), String> {
        let mut work = work_table(&self.found.workspace, zones);
        let finding = check(inputs, &self.case.capacity, &mut work);
        agree("check", &finding, &self.finding())?;
        as_expected("check", inputs.differences(&self.case))?;
        as_expected("check", work.difference("work", &self.left.workspace))
    }

    fn compare_refine(
        &self,
        record: &mut Guarded<u64>,
        inputs: &Inputs,
        zones: Zones,
    ) -> Result<Option<Refined>, String> {
        let mut outputs = Outputs::new(&self.found, zones);
        let report = refine(record, inputs, &mut outputs);
        agree("refine", &report, &self.report)?;
        as_expected("refine", record.difference("record", &[self.tally]))?;
        as_expected("refine", inputs.differences(&self.case))?;
        as_expected("refine", outputs.differences(&self.left))?;
        Ok((self.report.reason == 0).then(|| outputs.refined(&self.report)))
    }
}

fn report(outcome: &Outcome) -> Report {
    match outcome {
        Outcome::Refined { faces, marks, .. } => Report {
            reason: 0,
            place: 0,
            vertices: marks.len() as u64,
            faces: faces.len() as u64 / 4,
        },
        Outcome::Refused { reason, place } => Report {
            reason: *reason,
            place: u64::from(*place),
            vertices: 0,
            faces: 0,
        },
    }
}

/// What any tables for the results cannot avert, or the least that serve.
fn sizes_due(case: &Case) -> Sizes {
    let any = Capacity::for_refined_faces(usize::MAX / 16);
    match check_call(case.rounds, &case.net(), &any) {
        Ok(()) => sizes(case.served_faces()),
        Err(refusal) => no_sizes(refusal.reason),
    }
}

/// The lengths for so many refined faces.
pub fn sizes(faces: usize) -> Sizes {
    let least = Capacity::for_refined_faces(faces);
    Sizes {
        reason: 0,
        out_vertices: least.vertices as u64,
        out_faces: least.faces as u64,
        out_marks: least.marks as u64,
        work: least.workspace as u64,
    }
}

pub fn no_sizes(reason: u32) -> Sizes {
    Sizes { reason, ..sizes(0) }
}

pub fn agree<T: std::fmt::Debug + PartialEq>(
    call: &str,
    given: &T,
    expected: &T,
) -> Result<(), String> {
    if given == expected {
        Ok(())
    } else {
        Err(format!("{call} gives {given:?}, not {expected:?}"))
    }
}

/// Every table and the rest of its pages are as they must be after a call.
pub fn as_expected(
    call: &str,
    differences: impl IntoIterator<Item = String>,
) -> Result<(), String> {
    let differences: Vec<String> = differences.into_iter().collect();
    if differences.is_empty() {
        Ok(())
    } else {
        Err(format!("after {call} {}", differences.join("; ")))
    }
}
