//! A series of comparisons.

use std::fs;

use nets::case::Case;
use nets::rng::Rng;
use nets::stored::{from_text, stored_calls};

use crate::compare::Known;
use crate::counts::Calls;
use crate::coverage::Coverage;
use crate::draw::Kind;
use crate::guards::announce;
use crate::huge;
use crate::moves::Moves;
use crate::named::{NamedNets, crowd_call, named_call};
use crate::options::What;
use crate::polygons::PolygonKind;
use crate::retrace::Retraced;
use crate::seams::Seams;
use crate::seamtests::SeamTests;
use crate::series::Series;
use crate::valences::valence_call;

/// Calls with at most so many vertex coordinates are printed whole.
const PRINTED: usize = 120;

/// The numbers for one comparison of a series.
pub fn rng(seed: u64, number: u64) -> Rng {
    let first = Rng::new(seed).next_u64();
    Rng::new(first.wrapping_add(number))
}

/// A call of a series of nets, and its kind. Nets to move are of the next kind,
/// so that they are others, and few are of the largest.
pub fn generated(what: What, number: u64, rng: &mut Rng) -> (String, Case) {
    let at = match what {
        What::Moved | What::MovedPolygons => number + 1,
        _ => number,
    };
    match what {
        What::Polygons | What::MovedPolygons => {
            let kind = PolygonKind::of(at);
            (format!("{kind:?}"), kind.draw(rng))
        }
        What::Named => named_call(number, rng),
        What::Crowd => crowd_call(number, rng),
        What::Valence => valence_call(number, rng),
        _ => {
            let kind = Kind::of(at);
            (format!("{kind:?}"), kind.draw(rng))
        }
    }
}

/// A stored call, counted round, and its name.
fn stored(number: u64) -> (String, Case) {
    let calls = stored_calls();
    let at = number % calls.len() as u64;
    let path = &calls[usize::try_from(at).expect("below a length")];
    let text = fs::read_to_string(path).expect("a stored call");
    let case = from_text(&text).expect("the form of stored calls");
    (path.display().to_string(), case)
}

pub struct Run {
    seed: u64,
    calls: Calls,
    polygons: Calls,
    moves: Moves,
    polygon_moves: Moves,
    series: Series,
    seams: Seams,
    polygon_seams: Seams,
    seam_tests: SeamTests,
    named: NamedNets,
    coverage: Coverage,
    retraced: Retraced,
}

impl Run {
    pub fn new(seed: u64) -> Self {
        Self {
            seed,
            calls: Calls::without_sides(),
            polygons: Calls::with_sides(),
            moves: Moves::without_sides(),
            polygon_moves: Moves::with_sides(),
            series: Series::new(),
            seams: Seams::without_sides(),
            polygon_seams: Seams::with_sides(),
            seam_tests: SeamTests::new(),
            named: NamedNets::new(),
            coverage: Coverage::new(),
            retraced: Retraced::new(),
        }
    }

    /// Compares everything; the result counts it.
    pub fn all(&mut self, nets: u64) -> Result<String, String> {
        for what in What::ALL {
            let count = what.count(nets);
            (0..count).try_for_each(|number| self.one(what, number).map(drop))?;
        }
        let [crowds, valences, stored, huge] =
            [What::Crowd, What::Valence, What::Stored, What::Huge].map(|what| what.count(nets));
        let counts = format!(
            "{}\nwith side counts: {}\n{}\nwith side counts: {}\n{}\n\
             {}\nwith side counts: {}\n{}\n{}\n\
             {crowds} nets of many named ones agree\n{}\n{}\n\
             {valences} calls with a vertex in many faces agree\n\
             {stored} stored calls agree\n{huge} calls with lengths beyond 32 bits agree",
            self.calls,
            self.polygons,
            self.moves,
            self.polygon_moves,
            self.series,
            self.seams,
            self.polygon_seams,
            self.seam_tests,
            self.named,
            self.coverage,
            self.retraced,
        );
        if self.is_complete() {
            Ok(counts)
        } else {
            Err(format!("{counts}\na sort that must occur is missing"))
        }
    }

    fn is_complete(&self) -> bool {
        self.calls.is_complete()
            && self.polygons.is_complete()
            && self.moves.is_complete()
            && self.polygon_moves.is_complete()
            && self.series.is_complete()
            && self.seams.is_complete()
            && self.polygon_seams.is_complete()
            && self.seam_tests.is_complete()
            && self.named.is_complete()
            && self.coverage.is_complete()
            && self.retraced.is_complete()
    }

    /// One comparison.
    pub fn one(&mut self, what: What, number: u64) -> Result<String, String> {
        announce(self.seed, what, number);
        let rng = &mut rng(self.seed, number);
        let compared = match what {
            What::Net
            | What::Polygons
            | What::Moved
            | What::MovedPolygons
            | What::Crowd
            | What::Valence => {
                let generated = generated(what, number, rng);
                self.net(what, generated, rng)
            }
            What::Stored => self.net(what, stored(number), rng),
            What::Series => self.series.compare(rng),
            What::Pair => self.seams.compare_pair(rng),
            What::PolygonPair => self.polygon_seams.compare_pair(rng),
            What::SeamTest => self.seam_tests.compare(number, rng),
            What::Named => {
                let (coverage, retraced) = (&mut self.coverage, &mut self.retraced);
                self.named.compare(number, coverage, retraced, rng)
            }
            What::Huge => huge::compare(number, rng),
        };
        let name = format!("{} {number} of seed {}", what.name(), self.seed);
        match compared {
            Ok(()) => Ok(format!("{name} agrees")),
            Err(fault) => Err(format!("{name}: {fault}")),
        }
    }

    fn net(
        &mut self,
        what: What,
        (kind, case): (String, Case),
        rng: &mut Rng,
    ) -> Result<(), String> {
        let shown = shown(&case);
        let compared = match what {
            What::Moved => self.moves.compare(case, rng),
            What::MovedPolygons => self.polygon_moves.compare(case, rng),
            _ => self.call(what, case, rng),
        };
        compared.map_err(|fault| format!("{kind}, {fault}\n{shown}"))
    }

    fn call(&mut self, what: What, case: Case, rng: &mut Rng) -> Result<(), String> {
        let known = Known::new(case, rng)?;
        match what {
            What::Net => self.calls.add(&known),
            What::Polygons => self.polygons.add(&known),
            _ => {}
        }
        self.coverage.add(&known);
        match known.compare(rng)? {
            Some(refined) => self.retraced.compare(&known.case, &refined),
            None => Ok(()),
        }
    }
}

/// A small call as it is, of a large one the rounds and lengths.
pub fn shown(case: &Case) -> String {
    if case.vertices.len() <= PRINTED {
        return format!("{case:?}");
    }
    let lengths = [
        case.vertices.len(),
        case.faces.len(),
        case.sides.len(),
        case.marks.len(),
    ];
    let (rounds, tension) = (case.rounds, case.tension);
    format!("{rounds} rounds, tension {tension}, tables of {lengths:?} entries")
}
