//! Series of calls over one record, through the C interface. Paper 02: "Over any
//! series of calls from zero, with nothing else writing the record, the tally
//! equals the sum over the accepted nets, worked out from the nets and not from
//! stored sums."

use std::fmt::{self, Display, Formatter};

use nets::case::{Case, Expected};
use nets::kind::{call, polygon_call};
use nets::rng::Rng;
use reference::refusal::MAX_TALLY;

use crate::capi::{Zones, record};
use crate::compare::{Known, as_expected};
use crate::counts::Counts;
use crate::run::shown;

/// A series that begins near the limit begins at most so many points below it.
const NEAR: usize = 1_000;

/// What the compared series were.
pub struct Series {
    series: u64,
    answers: Counts<u32>,
    sorts: Counts<&'static str>,
}

impl Series {
    pub fn new() -> Self {
        Self {
            series: 0,
            answers: Counts::new([0, 15, 16]),
            sorts: Counts::new([
                "from 0",
                "from near the limit",
                "with 15 and an accepted call after it",
            ]),
        }
    }

    pub fn is_complete(&self) -> bool {
        self.answers.is_complete() && self.sorts.is_complete()
    }

    /// Compares the record after each call of a series with the sum over the
    /// nets that the reference accepted.
    pub fn compare(&mut self, rng: &mut Rng) -> Result<(), String> {
        let first = match rng.one_in(2) {
            true => 0,
            false => MAX_TALLY - rng.below(NEAR) as u64,
        };
        let mut record = record(first, Zones(rng.next_u64()));
        let mut accepted = Vec::new();
        let mut reasons = Vec::new();
        for _ in 0..rng.between(4, 16) {
            let case = next_call(sum(first, &accepted), rng);
            let fault = |fault| format!("{fault}\n{}", shown(&case));
            let known = Known::new(case.clone(), rng).map_err(fault)?;
            known.compare_on(&mut record, rng).map_err(fault)?;
            if known.report.reason == 0 {
                accepted.push([case.marks.len() as u64, known.report.vertices]);
            }
            let due = sum(first, &accepted);
            as_expected("the call", record.difference("record", &[due])).map_err(fault)?;
            reasons.push(known.report.reason);
        }
        self.add(first, &reasons);
        Ok(())
    }

    fn add(&mut self, first: u64, reasons: &[u32]) {
        self.series += 1;
        self.sorts.add(match first {
            0 => "from 0",
            _ => "from near the limit",
        });
        let refused = reasons.iter().position(|&reason| reason == 15);
        if refused.is_some_and(|at| reasons[at..].contains(&0)) {
            self.sorts.add("with 15 and an accepted call after it");
        }
        reasons.iter().for_each(|&reason| self.answers.add(reason));
    }
}

/// A call that finds this figure in the record.
fn next_call(tally: u64, rng: &mut Rng) -> Case {
    let draw = rng.pick(&[call, polygon_call]);
    Case {
        tally,
        expected: Expected::Unknown,
        ..draw(rng.next_u64())
    }
}

/// The figure that the record began with, and for each accepted net its refined
/// vertices minus its drawn ones.
fn sum(first: u64, accepted: &[[u64; 2]]) -> u64 {
    let added = accepted.iter().map(|[control, refined]| refined - control);
    first + added.sum::<u64>()
}

impl Display for Series {
    fn fmt(&self, f: &mut Formatter) -> fmt::Result {
        let (series, calls) = (self.series, self.answers.total());
        writeln!(f, "{series} series over one record agree, in {calls} calls")?;
        writeln!(f, "{}", self.answers.line("by reason, 0 if accepted"))?;
        write!(f, "{}", self.sorts.line("series"))
    }
}
