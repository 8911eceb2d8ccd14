//! How many of the accepted nets meet each case of the rules, told from the
//! reference's adjacency.

use std::collections::BTreeSet;
use std::fmt::{self, Display, Formatter};

use nets::features::{End, Feature, Met};
use reference::call::start_net;
use reference::rules::Tension;

use crate::compare::Known;
use crate::counts::Counts;

pub struct Coverage {
    nets: u64,
    first: Counts<Feature>,
    /// The same by tension.
    first_at: Counts<String>,
    later: Counts<Feature>,
    ends: Counts<String>,
}

fn name_at(feature: Feature, tension: u32) -> String {
    format!("{feature} at tension {tension}")
}

fn pair_name([first, second]: &[End; 2]) -> String {
    format!("{first} {second}")
}

impl Coverage {
    pub fn new() -> Self {
        let later = Feature::ALL.into_iter().filter(|f| f.occurs_later());
        let tensions = Tension::ALL.map(Tension::number);
        let at = Feature::ALL.map(|feature| tensions.map(|tension| name_at(feature, tension)));
        Self {
            nets: 0,
            first: Counts::new(Feature::ALL),
            first_at: Counts::new(at.into_iter().flatten()),
            later: Counts::new(later),
            ends: Counts::new(End::pairs().iter().map(pair_name)),
        }
    }

    pub fn is_complete(&self) -> bool {
        self.first.is_complete()
            && self.first_at.is_complete()
            && self.later.is_complete()
            && self.ends.is_complete()
    }

    /// Counts the net of an accepted call with a round or more.
    pub fn add(&mut self, known: &Known) {
        let case = &known.case;
        if known.report.reason == 0 && case.rounds > 0 {
            let start = start_net(&case.net()).expect("an accepted net");
            self.add_first(&Met::of(&start), case.tension);
        }
    }

    /// Counts a net by what its first round meets at a tension.
    pub fn add_first(&mut self, met: &Met, tension: u32) {
        self.nets += 1;
        for &feature in &met.features {
            self.first.add(feature);
            self.first_at.add(name_at(feature, tension));
        }
        met.ends
            .iter()
            .for_each(|ends| self.ends.add(pair_name(ends)));
    }

    /// Counts a net by what its further rounds meet.
    pub fn add_later(&mut self, features: &BTreeSet<Feature>) {
        features.iter().for_each(|&f| self.later.add(f));
    }
}

impl Display for Coverage {
    fn fmt(&self, f: &mut Formatter) -> fmt::Result {
        let nets = self.nets;
        writeln!(
            f,
            "{nets} accepted nets with a round or more, by what they meet"
        )?;
        writeln!(f, "{}", self.first.lines("in the first round"))?;
        let at = "cases in the first round at a tension";
        writeln!(f, "{}", self.first_at.summary(at))?;
        writeln!(
            f,
            "{}",
            self.later.lines("in a later round, named nets only")
        )?;
        write!(f, "{}", self.ends.summary("two ends of an inner edge"))
    }
}
