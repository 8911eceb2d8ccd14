//! Seam tests are what they are drawn as.

use std::collections::BTreeSet;

use nets::rng::Rng;
use nets::seamtest::{Match, SeamCase, SeamKind};
use reference::call::{refine_times, start_net};
use reference::curve::Form;
use reference::refusal::Refusal;
use reference::rules::Tension;
use reference::seam::{Boundary, Reading, Way};

fn answer(case: &SeamCase) -> (Result<usize, Refusal>, usize) {
    let found = case.work_table(&mut Rng::new(1));
    let mut left = found.clone();
    let answer = case.outcome_in(&mut left);
    let changed = (0..left.len()).rev().find(|&at| left[at] != found[at]);
    let touched = changed.map_or(0, |last| last + 1);
    assert!(left[..touched].iter().all(|&number| number == 0));
    (answer, touched)
}

#[test]
fn every_kind_gets_the_answer_it_is_drawn_for() {
    let kinds = SeamKind::all();
    let names: BTreeSet<String> = kinds.iter().map(|kind| kind.name()).collect();
    assert_eq!(names.len(), kinds.len());
    let mut answers = BTreeSet::new();
    for kind in kinds {
        assert_eq!(SeamKind::named(&kind.name()), Some(kind));
        let count = if kind == SeamKind::Match(Match::Long) {
            3
        } else {
            12
        };
        for seed in 0..count {
            let case = kind.make(seed);
            let (answer, touched) = answer(&case);
            let name = kind.name();
            assert!(
                case.expected.agrees_with(answer),
                "{name} {seed}: {answer:?}, {:?}",
                case.expected
            );
            let [first, second] = case.least_work();
            let both = first.max(second);
            match answer {
                Ok(edges) => {
                    assert!(edges > 0);
                    assert_eq!(touched, both, "{name} {seed}");
                }
                Err(refusal) if refusal.reason > 16 => assert_eq!(touched, both, "{name} {seed}"),
                Err(_) => assert!([0, first, both].contains(&touched), "{name} {seed}"),
            }
            let told = answer.map_or_else(|refusal| (refusal.reason, refusal.place), |_| (0, 0));
            answers.insert(told);
        }
    }
    let reasons: BTreeSet<u32> = answers.iter().map(|&(reason, _)| reason).collect();
    let due = [0, 14].into_iter().chain(2..=12).chain(16..=18);
    assert_eq!(reasons, due.collect());
    for told in [(17, 1), (17, 2), (18, 0), (18, 1), (18, 5)] {
        assert!(answers.contains(&told), "no {told:?}");
    }
}

#[test]
fn equal_seeds_give_equal_seam_tests() {
    for kind in SeamKind::all() {
        let [first, same] = [5, 5].map(|seed| format!("{:?}", kind.make(seed)));
        assert_eq!(first, same);
    }
}

/// A yes means that the two segments stay equal, whatever is refined.
#[test]
fn what_matches_keeps_its_seam() {
    let mut matching = 0;
    for kind in SeamKind::all() {
        for seed in 0..6 {
            let case = kind.make(seed);
            let is_small = case.least_work().iter().all(|&work| work <= 16 * 64);
            if is_small && answer(&case).0.is_ok() {
                matching += 1;
                let tension = Tension::new(case.nets[0].tension).expect("accepted");
                for rounds in 0..=2 {
                    let [first, second] = [Way::With, Way::Against].map(|way| {
                        let at = way as usize;
                        let start = start_net(&case.nets[at].net()).expect("accepted");
                        let refined = refine_times(start, tension, rounds);
                        let (start, form) = (case.starts[at], Form::Open);
                        let read = Boundary::new(&refined).read(Reading { start, way, form });
                        read.expect("an open segment")
                    });
                    assert_eq!(first, second, "{} {seed}", kind.name());
                }
            }
        }
    }
    assert!(matching > 40, "{matching}");
}
