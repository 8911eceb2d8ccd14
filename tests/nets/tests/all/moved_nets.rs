//! Paper 02: "Refining a net moved by whole counts must equal moving the
//! refined net, wherever both are within the coordinate limit."

use std::collections::BTreeSet;

use nets::accepted::{Shape, Size, accepted};
use nets::case::{Case, ControlNet, Expected};
use nets::kind::{call, polygon_call};
use nets::moved::MovedPair;
use nets::refused::{PLAIN_REASONS, POLYGON_REASONS};
use nets::rng::Rng;
use nets::shapes::grid;
use reference::call::{Outcome, start_net};
use reference::curve::{Form, rounded_curve};
use reference::fraction::Fraction;
use reference::point::Point;
use reference::refusal::Refusal;
use reference::rules::Tension;
use reference::step::refine_once;

/// The number of a refusal, or 0, its place, and the counts of the refined
/// vertices and faces.
fn answer(outcome: &Outcome) -> [usize; 4] {
    match outcome {
        Outcome::Refined { faces, marks, .. } => [0, 0, marks.len(), faces.len() / 4],
        Outcome::Refused { reason, place } => [*reason as usize, *place as usize, 0, 0],
    }
}

/// What a series of pairs has shown.
#[derive(Default)]
struct Met {
    /// Answers to both calls of a pair within the limit.
    reasons: BTreeSet<usize>,
    /// Answers on the moved net where one of the nets is beyond it.
    beyond: BTreeSet<usize>,
    /// Vertex tables within it whose length is no multiple of 3.
    bad_lengths: u64,
    /// Accepted nets that were moved just to the limit.
    at_limit: u64,
    /// Halves that were moved over 0.
    other_sides: usize,
}

impl Met {
    /// Makes both calls and compares the answers and every table.
    fn compare(&mut self, pair: &MovedPair, seed: u64) {
        let found = pair.case.tables(&mut Rng::new(seed));
        let [mut left, mut left_moved] = [found.clone(), found];
        let (outcome, tally) = pair.case.outcome_in(&mut left);
        let (moved, moved_tally) = pair.moved.outcome_in(&mut left_moved);
        assert!(
            pair.moved.expected.agrees_with(&moved),
            "{pair:?} {moved:?}"
        );
        let [reason, _, vertices, _] = answer(&outcome);
        if !pair.is_within_limit() {
            self.beyond.insert(answer(&moved)[0]);
            return;
        }
        assert_eq!(answer(&moved), answer(&outcome), "{pair:?}");
        assert_eq!(moved_tally, tally, "{pair:?}");
        assert_eq!(left_moved, pair.moved_tables(&left, vertices), "{pair:?}");
        self.reasons.insert(reason);
        self.bad_lengths += u64::from(!pair.case.vertices.len().is_multiple_of(3));
        if reason == 0 {
            self.at_limit += u64::from(pair.reaches_limit());
            self.other_sides += halves_on_other_side(pair);
        }
    }
}

/// New coordinates of the first round that are halves, below 0 in one net and
/// above it in the other.
fn halves_on_other_side(pair: &MovedPair) -> usize {
    let start = start_net(&pair.case.net()).expect("accepted");
    let tension = Tension::new(pair.case.tension).expect("accepted");
    let made = refine_once(&start, tension).made;
    let values = made
        .iter()
        .flat_map(|new| new.exact.0.into_iter().zip(pair.shift));
    values
        .filter(|(value, _)| value.denominator() == 2)
        .filter(|&(value, by)| {
            let moved = value + Fraction::whole(by.into());
            (value.numerator() < 0) != (moved.numerator() < 0)
        })
        .count()
}

#[track_caller]
fn assert_moved(call: fn(u64) -> Case, reasons: &[u32]) {
    let mut met = Met::default();
    for seed in 0..1_000 {
        met.compare(&MovedPair::draw(call(seed), &mut Rng::new(!seed)), seed);
    }
    let reasons = reasons.iter().map(|&reason| reason as usize);
    let due = [0].into_iter().chain(reasons.filter(|&reason| reason != 5));
    assert_eq!(met.reasons, due.collect());
    assert!([0, 5].iter().all(|reason| met.beyond.contains(reason)));
    assert!(met.bad_lengths > 10);
    assert!(met.at_limit > 50);
    assert!(met.other_sides > 100);
}

#[test]
fn calls_on_moved_nets_give_the_same_moved() {
    assert_moved(call, &PLAIN_REASONS);
}

#[test]
fn calls_with_side_counts_on_moved_nets_give_the_same_moved() {
    assert_moved(polygon_call, &POLYGON_REASONS);
}

#[test]
fn every_small_shift_commutes_with_refining() {
    for shape in Shape::ALL {
        let net = ControlNet::Plain(accepted(shape, Size::Small, &mut Rng::new(2)));
        for (by, tension) in (-20..=20).flat_map(|by| Tension::ALL.map(|t| (by, t))) {
            let case = net.accepted_case(tension, 1);
            let pair = MovedPair::new(case, [by, -by, by / 2]);
            Met::default().compare(&pair, 0);
        }
    }
}

#[test]
fn tables_of_any_length_are_moved_by_axis() {
    let mut case = Case::new(&grid(1, 1), 1, Expected::Accepted);
    case.vertices = vec![1, 2, 3, 4, 5];
    let pair = MovedPair::new(case, [10, -20, 300]);
    assert_eq!(pair.moved.vertices, [11, -18, 303, 14, -15]);
}

#[test]
fn the_first_vertex_moved_beyond_the_limit_gets_5() {
    let mut net = grid(1, 1);
    for (point, y) in net.points.iter_mut().zip([0, -1_048_576, 1_048_576, 0]) {
        point[1] = y;
    }
    let case = Case::new(&net, 1, Expected::Accepted);
    for (by, place) in [(1, 2), (-1, 1), (2_000_000, 0)] {
        let moved = MovedPair::new(case.clone(), [0, by, 0]).moved;
        assert_eq!(moved.outcome(), Refusal::new(5, place).into());
        assert_eq!(moved.expected, Expected::Refused(Refusal::new(5, place)));
    }
}

#[test]
fn rounded_curves_move_with_their_points() {
    let mut rng = Rng::new(8);
    for length in 3..12 {
        for form in [Form::Open, Form::Round] {
            let reach = rng.pick(&[1, 9, 1_048_576]);
            let shift = [(); 3].map(|()| rng.between(-reach, reach));
            let points: Vec<Point> = (0..length)
                .map(|_| [(); 3].map(|()| rng.between(-reach, reach)))
                .collect();
            let moved = |list: &[Point]| -> Vec<Point> {
                let add = |point: &Point| std::array::from_fn(|axis| point[axis] + shift[axis]);
                list.iter().map(add).collect()
            };
            for (steps, tension) in (0..=5).flat_map(|k| Tension::ALL.map(|t| (k, t))) {
                let curve = |points: &[Point]| rounded_curve(tension, form, points, steps);
                assert_eq!(curve(&moved(&points)), moved(&curve(&points)));
            }
        }
    }
}
