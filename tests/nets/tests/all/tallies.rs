//! Paper 02: "Over any series of calls from zero, with nothing else writing the
//! record, the tally equals the sum over the accepted nets, worked out from the
//! nets and not from stored sums."

use std::collections::BTreeSet;

use nets::case::{Case, Expected};
use nets::kind::{call, polygon_call};
use nets::named::{NAMED, by_turns};
use nets::rng::Rng;
use nets::tally::{Figure, new_points, with_figure};
use reference::call::Outcome;
use reference::refusal::MAX_TALLY;

/// Makes a call and tells its outcome and what the record holds after it.
fn answered(case: &Case) -> (Outcome, u64) {
    case.outcome_in(&mut case.tables(&mut Rng::new(0)))
}

#[test]
fn new_points_are_known_from_the_counts_of_the_control_net() {
    for number in 0..NAMED.len() {
        let (named, dressing, tension) = by_turns(number);
        for rounds in 0..=1 {
            let control = named.dressed(dressing, tension, &mut Rng::new(7));
            let case = control.accepted_case(tension, rounds);
            let due = new_points(&case);
            assert_eq!(answered(&case).1, due, "{} {rounds}", named.name);
        }
    }
}

#[test]
fn every_figure_gets_its_answer() {
    for (number, figure) in (0..NAMED.len()).zip(Figure::ALL.into_iter().cycle()) {
        let (named, dressing, tension) = by_turns(number);
        let rng = &mut Rng::new(number as u64);
        let control = named.dressed(dressing, tension, rng);
        let accepted = control.accepted_case(tension, rng.pick(&[0, 1]));
        let added = new_points(&accepted);
        let case = with_figure(accepted, figure, rng);
        let (outcome, after) = answered(&case);
        assert!(case.expected.agrees_with(&outcome), "{case:?} {outcome:?}");
        let is_accepted = case.expected == Expected::Accepted;
        let due = case.tally + if is_accepted { added } else { 0 };
        assert_eq!(after, due, "{case:?}");
        assert_eq!(is_accepted, figure.accepts(added), "{case:?}");
    }
}

/// A series of calls over one record; the sum is worked out from the accepted
/// nets.
fn assert_series(first: u64, seeds: std::ops::Range<u64>) -> BTreeSet<u32> {
    let (mut tally, mut sum) = (first, first);
    let mut reasons = BTreeSet::new();
    for seed in seeds {
        let draw = if seed % 2 == 0 { call } else { polygon_call };
        let case = Case {
            tally,
            ..draw(seed)
        };
        let (outcome, after) = answered(&case);
        match outcome {
            Outcome::Refined { marks, .. } => sum += (marks.len() - case.marks.len()) as u64,
            Outcome::Refused { reason, .. } => {
                reasons.insert(reason);
            }
        }
        assert_eq!(after, sum, "{case:?}");
        tally = after;
    }
    reasons
}

#[test]
fn a_series_adds_up_over_its_accepted_nets() {
    let reasons = assert_series(0, 0..400);
    assert!(!reasons.contains(&15) && reasons.len() > 10);
    assert!(assert_series(MAX_TALLY - 2_000, 400..600).contains(&15));
}
