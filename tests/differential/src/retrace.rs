//! Points that calls give, worked out again from their letters. Paper 02: "the
//! rule that any other letter names, applied to the net before its round (for S
//! the drawn net), gives that point."

use std::fmt::{self, Display, Formatter};

use nets::case::Case;
use reference::call::start_net;
use reference::letter::Letter;
use reference::net::Net;
use reference::retrace::{round_is_by_letters, start_is_by_letters};
use reference::rules::Tension;
use reference::step::trace;

use crate::capi::Refined;
use crate::counts::Counts;

/// Most refined faces of a net of the series whose points are worked out again.
const MOST_FACES: usize = 256;

/// The points that were worked out again.
pub struct Retraced {
    /// Nets by their tension.
    nets: Counts<u32>,
    points: Counts<char>,
}

impl Retraced {
    pub fn new() -> Self {
        Self {
            nets: Counts::new(Tension::ALL.map(Tension::number)),
            points: Counts::new(Letter::ALL.map(|letter| char::from(letter.byte()))),
        }
    }

    pub fn is_complete(&self) -> bool {
        self.nets.is_complete() && self.points.is_complete()
    }

    /// Works out every point of an accepted call with letters and not too many
    /// faces. The nets before its rounds are the reference's.
    pub fn compare(&mut self, case: &Case, refined: &Refined) -> Result<(), String> {
        if refined.letters.is_none() || refined.net.faces.len() > MOST_FACES {
            return Ok(());
        }
        let start = control_start(case);
        self.compare_start(case, &start, refined)?;
        let mut before = start;
        let tension = tension_of(case);
        for step in trace(&before, tension, case.rounds) {
            self.compare_round(&before, tension, step.net.points.len(), refined)?;
            before = step.net;
        }
        self.nets.add(case.tension);
        Ok(())
    }

    /// The same with the net before the last round, as another call gave it, for
    /// the new points of that round; without one for the points where refining
    /// begins.
    pub fn compare_last(
        &mut self,
        case: &Case,
        before: Option<&Net>,
        refined: &Refined,
    ) -> Result<(), String> {
        if refined.letters.is_none() {
            return Ok(());
        }
        self.nets.add(case.tension);
        match before {
            Some(before) => {
                let vertices = refined.net.points.len();
                self.compare_round(before, tension_of(case), vertices, refined)
            }
            None => self.compare_start(case, &control_start(case), refined),
        }
    }

    fn compare_start(&mut self, case: &Case, start: &Net, refined: &Refined) -> Result<(), String> {
        let (count, control) = (start.points.len(), case.marks.len());
        let (points, letters) = front(refined, count)?;
        if !start_is_by_letters(start, control, points, letters) {
            return Err("a point where refining begins is not as its letter says".to_owned());
        }
        self.add(letters);
        Ok(())
    }

    /// The round that leads to so many vertices.
    fn compare_round(
        &mut self,
        before: &Net,
        tension: Tension,
        vertices: usize,
        refined: &Refined,
    ) -> Result<(), String> {
        let (points, letters) = front(refined, vertices)?;
        if !round_is_by_letters(before, tension, points, letters) {
            let old = before.points.len();
            return Err(format!(
                "a point from {old} on is not what its letter names"
            ));
        }
        self.add(&letters[before.points.len()..]);
        Ok(())
    }

    fn add(&mut self, letters: &[u8]) {
        for &letter in letters {
            self.points.add(char::from(letter));
        }
    }
}

/// The net where the refining of an accepted call begins.
fn control_start(case: &Case) -> Net {
    start_net(&case.net()).expect("an accepted net")
}

fn tension_of(case: &Case) -> Tension {
    Tension::new(case.tension).expect("an accepted call")
}

/// The first so many points and their letters.
fn front(refined: &Refined, count: usize) -> Result<(&[[i32; 3]], &[u8]), String> {
    let letters = refined.letters.as_deref().unwrap_or_default();
    match (refined.net.points.get(..count), letters.get(..count)) {
        (Some(points), Some(letters)) => Ok((points, letters)),
        _ => Err("points or letters are missing".to_owned()),
    }
}

impl Display for Retraced {
    fn fmt(&self, f: &mut Formatter) -> fmt::Result {
        let (nets, points) = (self.nets.total(), self.points.total());
        writeln!(
            f,
            "{points} points of {nets} nets are what their letters name"
        )?;
        writeln!(f, "{}", self.nets.line("nets by tension"))?;
        write!(f, "{}", self.points.line("points by letter"))
    }
}
