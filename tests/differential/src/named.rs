//! Named nets through the C interface, each with every number of rounds.

use std::collections::BTreeSet;
use std::fmt::{self, Display, Formatter};

use nets::case::{Case, ControlNet};
use nets::features::Met;
use nets::letters::fit_letters;
use nets::named::{Dressing, Family, NAMED, Named, by_turns, crowd};
use nets::rng::Rng;
use nets::tally::accepted_tally;
use reference::net::Net;
use reference::refusal::MAX_ROUNDS;
use reference::rules::Tension;

use crate::capi::Refined;
use crate::compare::Known;
use crate::counts::Counts;
use crate::coverage::Coverage;
use crate::draw::{most_rounds, with_all};
use crate::retrace::Retraced;
use crate::run::shown;

/// Most refined faces of a named net.
const MOST_FACES: usize = 1_024;
/// The same when a net comes up for the first time: four rounds of 16 faces.
const MOST_FIRST_FACES: usize = 4_096;
/// The same then of a net with up to five faces, unless it is one of many that
/// differ in their marks alone: six rounds.
const MOST_DEEP_FACES: usize = 20_480;

/// Most refined faces of a named net at the tensions that it is not refined with
/// in every number of rounds, but for one round.
const MOST_OTHER_FACES: usize = 256;

/// Nets of many named ones: rounds, with as many faces as these allow, and
/// whether there are side counts.
const CROWDS: [(u32, bool); 4] = [(6, false), (3, false), (5, true), (3, true)];

pub const CROWD_COUNT: u64 = CROWDS.len() as u64;

/// A call with a net of many named ones, and its name.
pub fn crowd_call(number: u64, rng: &mut Rng) -> (String, Case) {
    let at = usize::try_from(number % CROWD_COUNT).expect("below a length");
    let (rounds, has_sides) = CROWDS[at];
    let control = crowd(262_144 >> (2 * rounds), has_sides, rng);
    let sides = if has_sides { "with" } else { "without" };
    let case = with_all(control.accepted_case(Tension::OLD, rounds), rng);
    (format!("crowd {sides} side counts"), case)
}

/// What the compared nets were.
pub struct NamedNets {
    families: Counts<&'static str>,
    rounds: Counts<u32>,
    tensions: Counts<u32>,
}

/// A net of the series with its name and its tension.
fn named(number: u64, rng: &mut Rng) -> (&'static Named, String, ControlNet, Tension) {
    let number = usize::try_from(number).expect("a number in memory");
    let (named, dressing, tension) = by_turns(number);
    let name = format!("{} {}", dressing.name(), named.name);
    (named, name, named.dressed(dressing, tension, rng), tension)
}

/// One call of the series with its name.
pub fn named_call(number: u64, rng: &mut Rng) -> (String, Case) {
    let (_, name, control, tension) = named(number, rng);
    let rounds = most_rounds(control.quadrilaterals(), MAX_ROUNDS, MOST_FACES);
    (name, dressed_case(&control, tension, rounds, rng))
}

/// An accepted call with any figure in its record, with letters or without.
fn dressed_case(control: &ControlNet, tension: Tension, rounds: u32, rng: &mut Rng) -> Case {
    let case = accepted_tally(control.accepted_case(tension, rounds), rng);
    fit_letters(case, rng)
}

/// Most refined faces of a net of the series.
fn most_faces(number: u64, named: &Named) -> usize {
    let is_first = number < NAMED.len() as u64;
    match named.control.quadrilaterals() {
        1..=5 if is_first && !named.family.has_marks() => MOST_DEEP_FACES,
        _ if is_first => MOST_FIRST_FACES,
        _ => MOST_FACES,
    }
}

impl NamedNets {
    pub fn new() -> Self {
        Self {
            families: Counts::new(Family::ALL.map(Family::name)),
            rounds: Counts::new(0..=MAX_ROUNDS),
            tensions: Counts::new(Tension::ALL.map(Tension::number)),
        }
    }

    /// Whether every net came up in every dressing, and every number of rounds.
    pub fn is_complete(&self) -> bool {
        let due = NAMED.len() * Dressing::ALL.len();
        let came_up = self.families.total() >= due as u64;
        came_up && self.rounds.is_complete() && self.tensions.is_complete()
    }

    /// Compares a net after each number of rounds at one tension; its new points
    /// are worked out again from their letters, where there are some, and from the
    /// net that was given for one round less. Then at each other tension after as
    /// many rounds as few faces allow, or one.
    pub fn compare(
        &mut self,
        number: u64,
        coverage: &mut Coverage,
        retraced: &mut Retraced,
        rng: &mut Rng,
    ) -> Result<(), String> {
        let (named, name, control, tension) = named(number, rng);
        let most_faces = most_faces(number, named);
        let most = most_rounds(control.quadrilaterals(), MAX_ROUNDS, most_faces);
        let mut later = BTreeSet::new();
        let mut before: Option<Net> = None;
        for rounds in 0..=most {
            let case = dressed_case(&control, tension, rounds, rng);
            let given = self.refined(&name, &case, rng, |given| {
                retraced.compare_last(&case, before.as_ref(), given)
            })?;
            match rounds {
                _ if rounds == most => {}
                0 => coverage.add_first(&Met::of(&given.net), case.tension),
                _ => later.extend(Met::of(&given.net).features),
            }
            before = Some(given.net);
        }
        for other in Tension::ALL.into_iter().filter(|&other| other != tension) {
            let rounds = most_rounds(control.quadrilaterals(), MAX_ROUNDS, MOST_OTHER_FACES).max(1);
            let case = dressed_case(&control, other, rounds, rng);
            self.refined(&name, &case, rng, |given| retraced.compare(&case, given))?;
        }
        coverage.add_later(&later);
        self.families.add(named.family.name());
        Ok(())
    }

    /// What a call gives, compared and traced back.
    fn refined(
        &mut self,
        name: &str,
        case: &Case,
        rng: &mut Rng,
        traced: impl FnOnce(&Refined) -> Result<(), String>,
    ) -> Result<Refined, String> {
        let fault = |fault| format!("{name}, {fault}\n{}", shown(case));
        let known = Known::new(case.clone(), rng).map_err(fault)?;
        let given = known.compare(rng).map_err(fault)?;
        let given = given.ok_or_else(|| fault("an accepted net is missing".to_owned()))?;
        traced(&given).map_err(fault)?;
        self.rounds.add(case.rounds);
        self.tensions.add(case.tension);
        Ok(given)
    }
}

impl Display for NamedNets {
    fn fmt(&self, f: &mut Formatter) -> fmt::Result {
        let (nets, calls) = (self.families.total(), self.rounds.total());
        writeln!(f, "{nets} named nets agree, in {calls} calls")?;
        writeln!(f, "{}", self.families.line("nets by family"))?;
        writeln!(f, "{}", self.rounds.line("calls by rounds"))?;
        write!(f, "{}", self.tensions.line("calls by tension"))
    }
}
