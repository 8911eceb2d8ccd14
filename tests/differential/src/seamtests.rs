//! Seam tests through the C interface.

use std::fmt::{self, Display, Formatter};

use nets::case::{Case, Expected};
use nets::rng::Rng;
use nets::seamtest::{SeamCase, SeamKind};
use reference::curve::Form;
use reference::refusal::{Capacity, Refusal};
use reference::seam::{Reading, Way};

use crate::capi::{Inputs, SeamReport, Zones, share_seam, work_table};
use crate::compare::{agree, as_expected};
use crate::counts::Counts;
use crate::draw::most_rounds;
use crate::run::shown;
use crate::seams::{parting, refined};

/// After a yes both nets are refined with up to so many rounds.
const ROUNDS: u32 = 3;
/// The most faces of these.
const REFINED_FACES: usize = 1_024;
/// Edges of a long segment.
const MANY_EDGES: u64 = 1_000;

/// A seam test with what the reference says of it.
pub struct KnownTest {
    kind: SeamKind,
    pub case: SeamCase,
    /// The work table as it is found.
    pub found: Vec<u32>,
    /// The same after the call.
    pub left: Vec<u32>,
    pub report: SeamReport,
}

impl KnownTest {
    /// One of a series, with all kinds in turn.
    pub fn draw(number: u64, rng: &mut Rng) -> Result<Self, String> {
        let kinds = SeamKind::rotation();
        let at = number % kinds.len() as u64;
        let kind = kinds[usize::try_from(at).expect("below a length")];
        let case = kind.draw(rng);
        let found = case.work_table(rng);
        let mut left = found.clone();
        let answer = case.outcome_in(&mut left);
        if !case.expected.agrees_with(answer) {
            let name = kind.name();
            return Err(format!("{name}: the reference says {answer:?}"));
        }
        Ok(Self {
            kind,
            report: report(answer),
            case,
            found,
            left,
        })
    }

    /// The call gives the same answer and leaves the work table so, wherever the
    /// tables lie; both nets are read-only.
    fn compare(&self, rng: &mut Rng) -> Result<(), String> {
        let zones = [(); 3].map(|()| Zones(rng.next_u64()));
        self.compare_at(zones)?;
        self.compare_at(zones.map(Zones::opposite))
    }

    fn compare_at(&self, [first, second, work]: [Zones; 3]) -> Result<(), String> {
        let [one, other] = &self.case.nets;
        let first = Inputs::new(one, first);
        if is_same(one, other) {
            self.compare_call([&first, &first], work)?;
        }
        self.compare_call([&first, &Inputs::new(other, second)], work)
    }

    fn compare_call(&self, inputs: [&Inputs; 2], work: Zones) -> Result<(), String> {
        let mut work = work_table(&self.found, work);
        let report = share_seam(inputs, self.case.starts, &mut work);
        agree("share_seam", &report, &self.report)?;
        for (inputs, case) in inputs.into_iter().zip(&self.case.nets) {
            as_expected("share_seam", inputs.differences(case))?;
        }
        as_expected("share_seam", work.difference("work", &self.left))
    }

    /// After a yes the two segments are equal after every round that both nets
    /// make. Returns the most rounds.
    fn compare_refined(&self, rng: &mut Rng) -> Result<u32, String> {
        let ways = [Way::With, Way::Against];
        let [one, other] = [0, 1].map(|at| Reading {
            start: self.case.starts[at],
            way: ways[at],
            form: Form::Open,
        });
        let nets = &self.case.nets;
        let most = nets
            .each_ref()
            .map(|net| most_rounds(net.quadrilaterals(), ROUNDS, REFINED_FACES));
        let most = most[0].min(most[1]);
        for rounds in 0..=most {
            let calls = nets.iter().map(|net| of_rounds(net, rounds));
            let after: Result<Vec<_>, _> = calls.map(|call| refined(call, rng)).collect();
            if parting(&after?, &[(one, other)]).is_some() {
                return Err(format!("the segments part in round {rounds}"));
            }
        }
        Ok(most)
    }
}

fn report(answer: Result<usize, Refusal>) -> SeamReport {
    match answer {
        Ok(edges) => SeamReport {
            reason: 0,
            place: 0,
            edges: edges as u64,
        },
        Err(Refusal { reason, place }) => SeamReport {
            reason,
            place: u64::from(place),
            edges: 0,
        },
    }
}

/// Whether both nets can lie in the same memory.
fn is_same(one: &Case, other: &Case) -> bool {
    one.vertices == other.vertices
        && one.faces == other.faces
        && one.sides == other.sides
        && one.marks == other.marks
        && one.tension == other.tension
}

/// The call that refines this accepted net.
fn of_rounds(net: &Case, rounds: u32) -> Case {
    Case {
        rounds,
        capacity: Capacity::for_refined_faces(net.quadrilaterals() << (2 * rounds)),
        expected: Expected::Accepted,
        ..net.clone()
    }
}

/// What the compared seam tests were.
pub struct SeamTests {
    answers: Counts<String>,
    kinds: Counts<String>,
    sorts: Counts<&'static str>,
    /// The most rounds of the nets that match.
    rounds: Counts<u32>,
}

impl SeamTests {
    pub fn new() -> Self {
        let reasons = [14, 16].into_iter().chain(2..=12);
        let answers = reasons.map(|reason| reason.to_string());
        let others = ["yes", "17 at 1", "17 at 2", "18 at 0", "18 further on"];
        let others = others.map(str::to_owned);
        Self {
            answers: Counts::new(answers.chain(others)),
            kinds: Counts::new(SeamKind::all().into_iter().map(SeamKind::name)),
            sorts: Counts::new([
                "of one edge",
                "of many edges",
                "of all corners of a net",
                "with side counts",
                "without side counts",
                "of a net with itself in the same memory",
            ]),
            rounds: Counts::new(0..=ROUNDS),
        }
    }

    pub fn is_complete(&self) -> bool {
        self.answers.is_complete()
            && self.kinds.is_complete()
            && self.sorts.is_complete()
            && self.rounds.is_complete()
    }

    /// Compares one of a series, and after a yes the refined nets.
    pub fn compare(&mut self, number: u64, rng: &mut Rng) -> Result<(), String> {
        let known = KnownTest::draw(number, rng)?;
        let rounds = known.compare(rng).and_then(|()| match known.report.reason {
            0 => known.compare_refined(rng).map(Some),
            _ => Ok(None),
        });
        let shown = |fault| {
            let [first, second] = known.case.nets.each_ref().map(shown);
            let (name, starts) = (known.kind.name(), known.case.starts);
            format!("{name}, {fault}\nfrom {starts:?}\n{first}\n{second}")
        };
        self.add(&known, rounds.map_err(shown)?);
        Ok(())
    }

    fn add(&mut self, known: &KnownTest, rounds: Option<u32>) {
        self.kinds.add(known.kind.name());
        let SeamReport { reason, place, .. } = known.report;
        self.answers.add(match (reason, place) {
            (0, _) => "yes".to_owned(),
            (17, _) | (18, 0) => format!("{reason} at {place}"),
            (18, _) => "18 further on".to_owned(),
            _ => reason.to_string(),
        });
        if let Some(rounds) = rounds {
            self.rounds.add(rounds);
            self.add_sorts(known);
        }
    }

    /// Counts a test that says yes.
    fn add_sorts(&mut self, known: &KnownTest) {
        let [one, other] = &known.case.nets;
        let edges = known.report.edges;
        match edges {
            1 => self.sorts.add("of one edge"),
            MANY_EDGES.. => self.sorts.add("of many edges"),
            _ => {}
        }
        if [one, other]
            .map(|net| net.faces.len() as u64)
            .contains(&edges)
        {
            self.sorts.add("of all corners of a net");
        }
        self.sorts.add(if one.sides.is_empty() {
            "without side counts"
        } else {
            "with side counts"
        });
        if is_same(one, other) {
            self.sorts.add("of a net with itself in the same memory");
        }
    }
}

impl Display for SeamTests {
    fn fmt(&self, f: &mut Formatter) -> fmt::Result {
        let tests = self.kinds.total();
        writeln!(f, "{tests} seam tests agree")?;
        writeln!(f, "{}", self.answers.line("by answer"))?;
        writeln!(f, "{}", self.kinds.summary("kinds of seam tests"))?;
        writeln!(f, "{}", self.sorts.line("yes by sort"))?;
        write!(f, "{}", self.rounds.line("yes by rounds refined with"))
    }
}
