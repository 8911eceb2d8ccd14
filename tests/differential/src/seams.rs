//! Boundary segments that two nets share, refined through the C interface.

use std::fmt::{self, Display, Formatter};

use nets::case::{Case, ControlNet};
use nets::letters::fit_letters;
use nets::pairs::{SharedPair, shared_pair, shared_polygon_pair};
use nets::rng::Rng;
use nets::tally::accepted_tally;
use reference::curve::{Form, exact_curve, rounded_curve};
use reference::net::Net;
use reference::refusal::MAX_ROUNDS;
use reference::rules::Tension;
use reference::seam::{Boundary, Reading, is_near, shared_readings};

use crate::compare::Known;
use crate::counts::Counts;
use crate::draw::most_rounds;

const PART: &str = "part";

type DrawPair = fn(&mut Rng) -> SharedPair;

/// What the compared seams were.
pub struct Seams {
    draw: DrawPair,
    /// Faces where refining begins that are few enough for many rounds.
    few: [usize; 2],
    pairs: u64,
    readings: u64,
    /// Shared readings of nets with equal tensions.
    rounds: Counts<u32>,
    tensions: Counts<u32>,
    sorts: Counts<&'static str>,
    /// Pairs with different tensions, of which nothing is promised.
    different: Counts<&'static str>,
}

impl Seams {
    pub fn without_sides() -> Self {
        Self::new(shared_pair, [1, 4], MAX_ROUNDS, &[])
    }

    /// Six rounds do not occur: even one triangle becomes too many faces.
    pub fn with_sides() -> Self {
        let counts = ["with counts in both", "with counts in one"];
        Self::new(shared_polygon_pair, [4, 8], MAX_ROUNDS - 1, &counts)
    }

    fn new(draw: DrawPair, few: [usize; 2], most_rounds: u32, counts: &[&'static str]) -> Self {
        let ways = ["run the same way", "run opposite ways"];
        let forms = [
            "between two marks",
            "from one mark to itself",
            "without marks",
        ];
        Self {
            draw,
            few,
            pairs: 0,
            readings: 0,
            rounds: Counts::new(0..=most_rounds),
            tensions: Counts::new(Tension::ALL.map(Tension::number)),
            sorts: Counts::new(ways.into_iter().chain(forms).chain(counts.iter().copied())),
            different: Counts::new([PART]),
        }
    }

    pub fn is_complete(&self) -> bool {
        self.rounds.is_complete()
            && self.tensions.is_complete()
            && self.sorts.is_complete()
            && self.different.is_complete()
    }

    /// Compares all readings of a pair of nets after each round. They are
    /// those of the nets where refining begins. "Two panels keep their seam if
    /// their tensions are equal too."
    pub fn compare_pair(&mut self, rng: &mut Rng) -> Result<(), String> {
        let (pair, faces) = self.generated_pair(rng);
        let starts = pair.nets.each_ref().map(ControlNet::start);
        let shared = shared_readings(&starts[0], &starts[1]);
        if !shared.contains(&pair.readings.into()) {
            return Err("the nets do not share what was drawn".to_owned());
        }
        let is_equal = pair.tensions[0] == pair.tensions[1];
        let most = (starts.each_ref()).map(|net| most_rounds(net.faces.len(), MAX_ROUNDS, faces));
        let mut do_part = false;
        for rounds in 0..=most[0].min(most[1]) {
            let mut after = Vec::new();
            for ((net, start), tension) in pair.nets.iter().zip(&starts).zip(pair.tensions) {
                let refined = refined(net.accepted_case(tension, rounds), rng)?;
                self.readings += compare_readings(start, tension, &refined, rounds)?;
                after.push(refined);
            }
            match (parting(&after, &shared), is_equal) {
                (None, true) => self.add_shared(pair.tensions[0], rounds, shared.len()),
                (Some((a, b)), true) => {
                    return Err(format!("{a:?} and {b:?} part in round {rounds}"));
                }
                (parting, false) => do_part |= parting.is_some(),
            }
        }
        self.pairs += 1;
        match (is_equal, do_part) {
            (true, _) => self.add_pair(&pair, &starts, &shared),
            (false, true) => self.different.add(PART),
            (false, false) => self.different.add("stay equal"),
        }
        Ok(())
    }

    /// Counts a pair with equal tensions by what it shares.
    fn add_pair(&mut self, pair: &SharedPair, starts: &[Net; 2], shared: &[(Reading, Reading)]) {
        for readings in shared {
            self.add_sorts(starts, readings);
        }
        match pair.nets.iter().filter(|net| net.has_sides()).count() {
            0 => {}
            1 => self.sorts.add("with counts in one"),
            _ => self.sorts.add("with counts in both"),
        }
    }

    fn add_shared(&mut self, tension: Tension, rounds: u32, readings: usize) {
        self.rounds.add_many(rounds, readings as u64);
        self.tensions.add_many(tension.number(), readings as u64);
    }

    /// A pair of nets with the most faces after refining; some have so few
    /// faces that many rounds are made.
    fn generated_pair(&self, rng: &mut Rng) -> (SharedPair, usize) {
        if !rng.one_in(20) {
            return ((self.draw)(rng), rng.pick(&[64, 256, 256, 256, 1_024]));
        }
        let few = rng.pick(&self.few);
        loop {
            let pair = (self.draw)(rng);
            if pair.nets.iter().all(|net| net.start().faces.len() <= few) {
                return (pair, 4_096);
            }
        }
    }

    fn add_sorts(&mut self, nets: &[Net; 2], (one, other): &(Reading, Reading)) {
        self.sorts.add(if one.way == other.way {
            "run the same way"
        } else {
            "run opposite ways"
        });
        let returns = |net: &Net, reading: &Reading| {
            let vertices = Boundary::new(net).vertices(*reading).unwrap_or_default();
            vertices.first() == vertices.last()
        };
        self.sorts.add(match one.form {
            Form::Round => "without marks",
            Form::Open if returns(&nets[0], one) || returns(&nets[1], other) => {
                "from one mark to itself"
            }
            Form::Open => "between two marks",
        });
    }
}

impl Display for Seams {
    fn fmt(&self, f: &mut Formatter) -> fmt::Result {
        let (pairs, readings, shared) = (self.pairs, self.readings, self.rounds.total());
        writeln!(
            f,
            "{pairs} pairs agree: {readings} readings are the rounded curve, {shared} shared ones are equal"
        )?;
        writeln!(f, "{}", self.rounds.line("shared by rounds"))?;
        writeln!(f, "{}", self.tensions.line("shared by tension"))?;
        writeln!(f, "{}", self.sorts.line("shared by sort"))?;
        let different = "pairs at different tensions";
        write!(f, "{}", self.different.line(different))
    }
}

/// The net that an accepted call gives through C.
pub fn refined(case: Case, rng: &mut Rng) -> Result<Net, String> {
    let case = fit_letters(accepted_tally(case, rng), rng);
    let known = Known::new(case, rng)?;
    let answer = known
        .compare(rng)
        .map_err(|fault| format!("{fault}; {:?}", known.case))?;
    let answer = answer.ok_or_else(|| "an accepted net is missing".to_owned())?;
    Ok(answer.net)
}

/// Each reading of the refined net is the rounded curve of what it was at
/// first, near enough to the exact curve. Returns the number of readings.
fn compare_readings(
    net: &Net,
    tension: Tension,
    refined: &Net,
    rounds: u32,
) -> Result<u64, String> {
    let (initial, after) = (Boundary::new(net), Boundary::new(refined));
    let readings = initial.readings();
    for &reading in &readings {
        let points = initial.read(reading).ok_or("a reading is missing")?;
        let curve = rounded_curve(tension, reading.form, &points, rounds);
        let given = after.read(reading).ok_or("a reading got lost")?;
        let exact = exact_curve(tension, reading.form, &points, rounds);
        if given != curve || !is_near(&given, &exact, rounds) {
            return Err(format!(
                "{reading:?} leaves its curve in round {rounds} at {tension:?}; {net:?}"
            ));
        }
    }
    Ok(readings.len() as u64)
}

/// A shared segment that is not the same in both refined nets.
pub fn parting(refined: &[Net], shared: &[(Reading, Reading)]) -> Option<(Reading, Reading)> {
    let [one, other] = [&refined[0], &refined[1]].map(Boundary::new);
    let parts =
        |(a, b): &&(Reading, Reading)| one.read(*a).is_none() || one.read(*a) != other.read(*b);
    shared.iter().find(parts).copied()
}
