//! Readings of boundary segments, and the seam between nets that share one.
//!
//! The scope paper calls a boundary segment between marks, or a boundary loop
//! without marks, a stretch. Readings are those of the net where refining
//! begins: with side counts, of the split net.

use crate::call::refine_times;
use crate::curve::{Form, distance_bound, exact_curve, rounded_curve, scale};
use crate::net::Net;
use crate::point::Point;
use crate::rules::Tension;
use crate::topology::{BoundaryLoops, Topology};

/// Whether a boundary is walked the way the sides run.
#[derive(Clone, Copy, Debug, PartialEq, Eq, Hash, PartialOrd, Ord)]
pub enum Way {
    With,
    Against,
}

/// Where and how a boundary segment is read.
#[derive(Clone, Copy, Debug, PartialEq, Eq, Hash, PartialOrd, Ord)]
pub struct Reading {
    pub start: u32,
    pub way: Way,
    pub form: Form,
}

/// The boundary loops of an accepted net.
pub struct Boundary<'a> {
    net: &'a Net,
    loops: BoundaryLoops,
}

impl<'a> Boundary<'a> {
    pub fn new(net: &'a Net) -> Self {
        let topology = Topology::new(&net.faces).expect("the sides of the net are distinct");
        let loops = topology.boundary();
        Self { net, loops }
    }

    /// The points of a reading, or none if there is no such reading.
    pub fn read(&self, reading: Reading) -> Option<Vec<Point>> {
        let vertices = self.vertices(reading)?;
        Some(vertices.into_iter().map(|v| self.net.point(v)).collect())
    }

    /// The vertices of a reading, or none if there is no such reading.
    pub fn vertices(&self, reading: Reading) -> Option<Vec<u32>> {
        let next = match reading.way {
            Way::With => &self.loops.after,
            Way::Against => &self.loops.before,
        };
        let start = reading.start;
        let mut list = vec![start];
        let mut at = *next.get(&start)?;
        while at != start && !self.net.is_marked(at) {
            list.push(at);
            at = next[&at];
        }
        match reading.form {
            Form::Open if self.net.is_marked(start) => list.push(at),
            Form::Round if !self.net.is_marked(at) => {}
            _ => return None,
        }
        Some(list)
    }

    /// Every reading that the net has.
    pub fn readings(&self) -> Vec<Reading> {
        let ways = [Way::With, Way::Against];
        let forms = [Form::Open, Form::Round];
        let mut all = Vec::new();
        for &start in self.loops.after.keys() {
            for (way, form) in ways.into_iter().flat_map(|w| forms.map(|f| (w, f))) {
                let reading = Reading { start, way, form };
                all.extend(self.vertices(reading).map(|_| reading));
            }
        }
        all
    }
}

/// All pairs of readings, one in each net, that are equal lists of one form:
/// the nets share these boundary segments.
pub fn shared_readings(first: &Net, second: &Net) -> Vec<(Reading, Reading)> {
    let [first, second] = [first, second].map(|net| {
        let boundary = Boundary::new(net);
        let with_points = |reading| (reading, boundary.read(reading));
        let readings = boundary.readings().into_iter().map(with_points);
        readings.collect::<Vec<_>>()
    });
    let mut shared = Vec::new();
    for (one, points) in &first {
        for (other, _) in second.iter().filter(|(_, list)| list == points) {
            if one.form == other.form {
                shared.push((*one, *other));
            }
        }
    }
    shared
}

/// A reading that breaks the seam guarantee.
#[derive(Clone, Copy, Debug, PartialEq, Eq)]
pub enum SeamFault {
    /// The refined net's reading is not the rounded curve.
    NotTheCurve(Reading),
    /// The rounded curve is too far from the exact one.
    TooFar(Reading),
}

/// Checks every reading of an accepted net: after `rounds` steps it is the
/// rounded curve of the initial reading at the same tension, within the distance
/// from the exact curve. Returns the number of readings.
pub fn check_seam(net: &Net, tension: Tension, rounds: u32) -> Result<usize, SeamFault> {
    let refined = refine_times(net.clone(), tension, rounds);
    let (initial, after) = (Boundary::new(net), Boundary::new(&refined));
    let readings = initial.readings();
    for &reading in &readings {
        let points = initial.read(reading).expect("listed readings exist");
        let curve = rounded_curve(tension, reading.form, &points, rounds);
        let exact = exact_curve(tension, reading.form, &points, rounds);
        if after.read(reading).as_ref() != Some(&curve) {
            return Err(SeamFault::NotTheCurve(reading));
        }
        if !is_near(&curve, &exact, rounds) {
            return Err(SeamFault::TooFar(reading));
        }
    }
    Ok(readings.len())
}

/// Whether a rounded curve after `rounds` steps is within the distance from
/// the exact one.
pub fn is_near(curve: &[Point], exact: &[[i128; 3]], rounds: u32) -> bool {
    let scale = scale(rounds);
    let curve = curve.as_flattened().iter();
    let exact = exact.as_flattened().iter();
    curve
        .zip(exact)
        .all(|(&c, &e)| (i128::from(c) * scale - e).abs() <= distance_bound(rounds))
}
