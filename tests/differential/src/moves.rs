//! Calls and the same calls on the moved net, through the C interface.

use std::fmt::{self, Debug, Display, Formatter};

use nets::case::Case;
use nets::moved::MovedPair;
use nets::refused::{PLAIN_REASONS, POLYGON_REASONS};
use nets::rng::Rng;
use reference::rules::Tension;

use crate::compare::{Known, agree};
use crate::counts::Counts;

/// What the compared pairs were.
pub struct Moves {
    /// Answers to both calls of a pair within the coordinate limit.
    answers: Counts<u32>,
    /// The tensions of those accepted with a round or more.
    tensions: Counts<u32>,
    sorts: Counts<&'static str>,
}

impl Moves {
    pub fn without_sides() -> Self {
        Self::new(PLAIN_REASONS)
    }

    pub fn with_sides() -> Self {
        Self::new(POLYGON_REASONS)
    }

    /// Refusal 5 holds in no pair within the limit.
    fn new(reasons: impl IntoIterator<Item = u32>) -> Self {
        let reasons = reasons.into_iter().filter(|&reason| reason != 5);
        Self {
            answers: Counts::new([0].into_iter().chain(reasons)),
            tensions: Counts::new(Tension::ALL.map(Tension::number)),
            sorts: Counts::new([
                "within the limit",
                "to the limit",
                "out of the limit",
                "from beyond the limit",
                "with a vertex table of a bad length",
            ]),
        }
    }

    pub fn is_complete(&self) -> bool {
        self.answers.is_complete() && self.tensions.is_complete() && self.sorts.is_complete()
    }

    /// Compares both calls, from equal records, with the reference, and where
    /// both nets are within the limit, the answers, the record and every table
    /// of one with those of the other.
    pub fn compare(&mut self, case: Case, rng: &mut Rng) -> Result<(), String> {
        let pair = MovedPair::draw(case, rng);
        let plain = Known::new(pair.case.clone(), rng)?;
        let moved = Known::with_tables(pair.moved.clone(), plain.found.clone())?;
        plain.compare(rng)?;
        let by = pair.shift;
        let on_moved = |fault| format!("moved by {by:?}: {fault}");
        moved.compare(rng).map_err(on_moved)?;
        if pair.is_within_limit() {
            compare_pair(&pair, &plain, &moved).map_err(on_moved)?;
            self.answers.add(plain.report.reason);
            if plain.report.reason == 0 && pair.case.rounds > 0 {
                self.tensions.add(pair.case.tension);
            }
        }
        self.add_sorts(&pair);
        Ok(())
    }

    fn add_sorts(&mut self, pair: &MovedPair) {
        self.sorts.add(match pair.within_limit() {
            [true, true] if pair.reaches_limit() => "to the limit",
            [true, true] => "within the limit",
            [true, false] => "out of the limit",
            [false, _] => "from beyond the limit",
        });
        if !pair.case.vertices.len().is_multiple_of(3) {
            self.sorts.add("with a vertex table of a bad length");
        }
    }
}

/// The call on the moved net gives the same answer, record and tables, the
/// refined points moved.
fn compare_pair(pair: &MovedPair, plain: &Known, moved: &Known) -> Result<(), String> {
    agree("refine", &moved.report, &plain.report)?;
    agree("record", &moved.tally, &plain.tally)?;
    let vertices = usize::try_from(plain.report.vertices).expect("a count in memory");
    let due = pair.moved_tables(&plain.left, vertices);
    same("out vertices", &moved.left.vertices, &due.vertices)?;
    same("out faces", &moved.left.faces, &due.faces)?;
    same("out marks", &moved.left.marks, &due.marks)?;
    same("letters", &moved.left.letters, &due.letters)?;
    same("work", &moved.left.workspace, &due.workspace)
}

/// A table of the call on the moved net has the entries that it must have.
fn same<T: Debug + PartialEq>(name: &str, given: &[T], due: &[T]) -> Result<(), String> {
    let mut entries = given.iter().zip(due).enumerate();
    match entries.find(|(_, (given, due))| given != due) {
        Some((at, (given, due))) => Err(format!("{name}[{at}] is {given:?}, not {due:?}")),
        None => Ok(()),
    }
}

impl Display for Moves {
    fn fmt(&self, f: &mut Formatter) -> fmt::Result {
        let pairs = self.answers.total();
        writeln!(f, "{pairs} nets and their moved copies agree")?;
        writeln!(f, "{}", self.answers.line("by reason, 0 if accepted"))?;
        writeln!(f, "{}", self.tensions.line("accepted by tension"))?;
        write!(f, "{}", self.sorts.line("moved"))
    }
}
