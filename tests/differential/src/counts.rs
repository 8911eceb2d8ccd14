//! Counts of what the compared calls and seams were.

use std::collections::BTreeMap;
use std::fmt::{self, Display, Formatter};

use nets::letters::LetterTable;
use nets::refused::{PLAIN_REASONS, POLYGON_REASONS};
use nets::tally::{Figure, new_points};
use reference::call::start_net;
use reference::refusal::{MAX_ROUNDS, MAX_TENSION, SIDE_COUNTS, check_tally};
use reference::rules::Tension;

use crate::compare::Known;

/// How many were of each sort; sorts that must occur begin at 0.
#[derive(Clone, Debug)]
pub struct Counts<K> {
    counts: BTreeMap<K, u64>,
}

impl<K: Ord + Display> Counts<K> {
    pub fn new(due: impl IntoIterator<Item = K>) -> Self {
        Self {
            counts: due.into_iter().map(|sort| (sort, 0)).collect(),
        }
    }

    pub fn add(&mut self, sort: K) {
        self.add_many(sort, 1);
    }

    pub fn add_many(&mut self, sort: K, number: u64) {
        *self.counts.entry(sort).or_default() += number;
    }

    pub fn total(&self) -> u64 {
        self.counts.values().sum()
    }

    pub fn line(&self, name: &str) -> String {
        let parts = self.counts.iter().map(|(sort, n)| format!("{sort}: {n}"));
        format!("{name}: {}", parts.collect::<Vec<_>>().join(", "))
    }

    /// The same with a line for each sort.
    pub fn lines(&self, name: &str) -> String {
        let parts = self
            .counts
            .iter()
            .map(|(sort, n)| format!("\n  {sort}: {n}"));
        format!("{name}:{}", parts.collect::<String>())
    }

    /// How many sorts occurred, and how often the rarest of all.
    pub fn summary(&self, name: &str) -> String {
        let (all, met) = (self.counts.len(), self.counts.values().filter(|&&n| n > 0));
        let (met, least) = (met.count(), self.counts.values().min().unwrap_or(&0));
        format!("{name}: {met} of {all} sorts, each {least} times or more")
    }

    /// Whether every sort that must occur did.
    pub fn is_complete(&self) -> bool {
        self.counts.values().all(|&count| count > 0)
    }
}

/// What the compared calls were.
pub struct Calls {
    refusals: Counts<u32>,
    rounds: Counts<u32>,
    /// Side counts in accepted nets.
    sides: Counts<u8>,
    /// What nets that are accepted, but for 15, find in the record.
    figures: Counts<&'static str>,
    letters: Letters,
    tensions: Tensions,
    empty: u64,
}

/// What the tensions of the compared calls were.
struct Tensions {
    /// Those of accepted calls with a round or more.
    accepted: Counts<u32>,
    /// Where 16 holds, the reason beside it that comes first, if any.
    refused: Counts<String>,
}

impl Tensions {
    fn new(reasons: &[u32]) -> Self {
        let others = reasons.iter().filter(|&&reason| reason != 16);
        let beside = others.map(|&reason| beside_16(Some(reason)));
        Self {
            accepted: Counts::new(Tension::ALL.map(Tension::number)),
            refused: Counts::new(beside.chain([beside_16(None)])),
        }
    }

    fn add(&mut self, known: &Known) {
        if known.case.tension > MAX_TENSION {
            self.refused.add(beside_16(other_reason(known)));
        } else if known.report.reason == 0 && known.case.rounds > 0 {
            self.accepted.add(known.case.tension);
        }
    }

    fn is_complete(&self) -> bool {
        self.accepted.is_complete() && self.refused.is_complete()
    }
}

/// The first reason of a call for which 16 holds, but for that.
fn other_reason(Known { case, report, .. }: &Known) -> Option<u32> {
    let other = match report.reason {
        16 => {
            start_net(&case.net())
                .and_then(|_| check_tally(case.tally, new_points(case)))
                .err()?
                .reason
        }
        reason => reason,
    };
    Some(other)
}

/// Where 16 stands to this reason in the order.
fn beside_16(reason: Option<u32>) -> String {
    match reason {
        None => "alone".to_owned(),
        Some(reason @ (1..=4 | 14)) => format!("after {reason}"),
        Some(reason) => format!("before {reason}"),
    }
}

impl Display for Tensions {
    fn fmt(&self, f: &mut Formatter) -> fmt::Result {
        let accepted = "accepted with a round or more by tension";
        writeln!(f, "{}", self.accepted.line(accepted))?;
        write!(f, "{}", self.refused.line("a tension above 4"))
    }
}

/// What the letter tables of the compared calls were.
struct Letters {
    /// Wishes and lengths where no reason before 4 holds.
    tables: Counts<&'static str>,
    /// Reasons of calls that ask for letters, 0 for those accepted.
    answers: Counts<u32>,
    /// Rounds of those accepted, but for empty nets.
    rounds: Counts<u32>,
    /// The letters that accepted calls gave.
    given: Counts<char>,
}

impl Letters {
    /// Nothing is split without side counts.
    fn without_sides() -> Self {
        Self {
            tables: Counts::new(LetterTable::ALL.map(LetterTable::name)),
            answers: Counts::new([0].into_iter().chain(PLAIN_REASONS)),
            rounds: Counts::new(0..=MAX_ROUNDS),
            given: Counts::new("ABCDEMV".chars()),
        }
    }

    /// No accepted net is empty, and after the split no segment has one edge
    /// alone.
    fn with_sides() -> Self {
        let tables = LetterTable::ALL.into_iter();
        let tables = tables.filter(|&table| table != LetterTable::NoFaces);
        Self {
            tables: Counts::new(tables.map(LetterTable::name)),
            answers: Counts::new([0].into_iter().chain(POLYGON_REASONS)),
            rounds: Counts::new(0..MAX_ROUNDS),
            given: Counts::new("ABCDESV".chars()),
        }
    }

    fn add(&mut self, known: &Known) {
        let reason = known.report.reason;
        if !matches!(reason, 1..=3 | 14) {
            self.tables.add(LetterTable::of(&known.case).name());
        }
        if known.case.capacity.with_letters {
            self.answers.add(reason);
            if reason == 0 && !known.case.faces.is_empty() {
                self.rounds.add(known.case.rounds);
            }
            let vertices = usize::try_from(known.report.vertices).expect("a count in memory");
            for &letter in &known.left.letters[..vertices] {
                self.given.add(char::from(letter));
            }
        }
    }

    fn is_complete(&self) -> bool {
        self.tables.is_complete()
            && self.answers.is_complete()
            && self.rounds.is_complete()
            && self.given.is_complete()
    }
}

impl Display for Letters {
    fn fmt(&self, f: &mut Formatter) -> fmt::Result {
        writeln!(f, "{}", self.tables.line("letters"))?;
        let answers = "letters asked for, by reason, 0 if accepted";
        writeln!(f, "{}", self.answers.line(answers))?;
        writeln!(f, "{}", self.rounds.line("letters given by rounds"))?;
        write!(f, "{}", self.given.line("letters given"))
    }
}

impl Calls {
    pub fn without_sides() -> Self {
        Self {
            refusals: Counts::new(PLAIN_REASONS),
            rounds: Counts::new(0..=MAX_ROUNDS),
            sides: Counts::new([]),
            figures: Counts::new(Figure::ALL.map(Figure::name)),
            letters: Letters::without_sides(),
            tensions: Tensions::new(&PLAIN_REASONS),
            empty: 0,
        }
    }

    /// The largest nets are few and do not all have 6 rounds.
    pub fn with_sides() -> Self {
        Self {
            refusals: Counts::new(POLYGON_REASONS),
            rounds: Counts::new(0..MAX_ROUNDS),
            sides: Counts::new(SIDE_COUNTS),
            figures: Counts::new(Figure::ALL.map(Figure::name)),
            letters: Letters::with_sides(),
            tensions: Tensions::new(&POLYGON_REASONS),
            empty: 0,
        }
    }

    pub fn add(&mut self, known: &Known) {
        self.letters.add(known);
        self.tensions.add(known);
        if matches!(known.report.reason, 0 | 15) {
            let figure = Figure::of(known.case.tally, new_points(&known.case));
            self.figures.add(figure.name());
        }
        match known.report.reason {
            0 if known.case.faces.is_empty() => self.empty += 1,
            0 => {
                self.rounds.add(known.case.rounds);
                known.case.sides.iter().for_each(|&n| self.sides.add(n));
            }
            reason => self.refusals.add(reason),
        }
    }

    pub fn is_complete(&self) -> bool {
        self.refusals.is_complete()
            && self.rounds.is_complete()
            && self.sides.is_complete()
            && self.figures.is_complete()
            && self.letters.is_complete()
            && self.tensions.is_complete()
    }
}

impl Display for Calls {
    fn fmt(&self, f: &mut Formatter) -> fmt::Result {
        let (accepted, refused) = (self.rounds.total() + self.empty, self.refusals.total());
        let (all, empty) = (accepted + refused, self.empty);
        writeln!(
            f,
            "{all} nets agree: {accepted} accepted, {empty} of them empty, {refused} refused"
        )?;
        writeln!(f, "{}", self.rounds.line("accepted by rounds"))?;
        if self.sides.total() > 0 {
            writeln!(f, "{}", self.sides.line("accepted faces by sides"))?;
        }
        writeln!(f, "{}", self.figures.line("the record goes"))?;
        writeln!(f, "{}", self.letters)?;
        writeln!(f, "{}", self.tensions)?;
        write!(f, "{}", self.refusals.line("refused by reason"))
    }
}
