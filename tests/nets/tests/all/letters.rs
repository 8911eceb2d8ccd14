//! Letters in generated calls, and points worked out again from their letters.

use std::collections::{BTreeMap, BTreeSet};

use nets::case::{Case, ControlNet, Expected};
use nets::kind::{Kind, call, polygon_call};
use nets::letters::{LetterTable, with_letter_table};
use nets::named::{NAMED, by_turns};
use nets::refused::{PLAIN_REASONS, POLYGON_REASONS, refused_call, refused_polygons};
use nets::rng::Rng;
use reference::call::Outcome;
use reference::letter::{letter_table, refine_with_letters};
use reference::net::Net;
use reference::refusal::MAX_ROUNDS;
use reference::retrace::{round_is_by_letters, start_is_by_letters};
use reference::rules::Tension;
use reference::text::parse;

/// Letters of the net after each number of rounds, checked point by point.
fn assert_by_letters(name: &str, control: &ControlNet, tension: Tension, rounds: u32) -> Vec<u8> {
    let (start, count) = (control.start(), control.points().len());
    let front = start.points.len();
    let mut before: Option<(Net, Vec<u8>)> = None;
    for k in 0..=rounds {
        let (net, letters) = refine_with_letters(start.clone(), tension, count, k);
        let letters = letter_table(&letters);
        let (points, named) = (&net.points[..front], &letters[..front]);
        assert!(start_is_by_letters(&start, count, points, named), "{name}");
        if let Some((old, kept)) = before {
            let is_by_letters = round_is_by_letters(&old, tension, &net.points, &letters);
            assert!(is_by_letters, "{name}");
            assert_eq!(letters[..kept.len()], kept, "{name}");
        }
        before = Some((net, letters));
    }
    before.expect("zero rounds at least").1
}

#[test]
fn the_rule_that_a_letter_names_gives_every_point_of_a_named_net() {
    let mut met: BTreeMap<u8, usize> = BTreeMap::new();
    for number in 0..NAMED.len() {
        let (named, dressing, tension) = by_turns(number);
        let control = named.dressed(dressing, tension, &mut Rng::new(3));
        let rounds = if control.quadrilaterals() <= 16 { 2 } else { 1 };
        for letter in assert_by_letters(&named.name, &control, tension, rounds) {
            *met.entry(letter).or_default() += 1;
        }
    }
    assert!(met.keys().copied().eq(*b"ABCDEMSV"), "{met:?}");
    assert!(met.values().all(|&count| count > 50), "{met:?}");
}

/// What the letter tables of calls were, whether letters were asked for with
/// each reason, and the letters of accepted calls.
#[derive(Default)]
struct Seen {
    tables: BTreeSet<&'static str>,
    asked: BTreeSet<u32>,
    letters: BTreeSet<u8>,
    half: [usize; 2],
}

impl Seen {
    fn add(&mut self, case: &Case) {
        let outcome = case.outcome();
        assert!(case.expected.agrees_with(&outcome), "{case:?} {outcome:?}");
        let asked = case.capacity.with_letters;
        self.half[usize::from(asked)] += 1;
        if case.rounds <= MAX_ROUNDS {
            self.tables.insert(LetterTable::of(case).name());
        }
        match outcome {
            Outcome::Refined { letters, .. } => {
                assert_eq!(letters.is_some(), asked);
                self.letters.extend(letters.unwrap_or_default());
            }
            Outcome::Refused { reason, .. } if asked => {
                self.asked.insert(reason);
            }
            Outcome::Refused { .. } => {}
        }
    }

    fn assert_complete(&self, reasons: &[u32], letters: &[u8]) {
        let all: BTreeSet<&str> = LetterTable::ALL.map(LetterTable::name).into();
        let missing: Vec<&&str> = all.difference(&self.tables).collect();
        assert!(
            missing
                .iter()
                .all(|&&name| name == LetterTable::NoFaces.name()),
            "{missing:?}"
        );
        assert_eq!(self.asked, reasons.iter().copied().collect());
        assert_eq!(self.letters, letters.iter().copied().collect());
        let [without, with] = self.half;
        assert!(
            without > 2 * with / 3 && with > 2 * without / 3,
            "{:?}",
            self.half
        );
    }
}

#[test]
fn calls_have_every_letter_table_and_every_letter() {
    let (mut plain, mut polygons) = (Seen::default(), Seen::default());
    (0..1500).for_each(|seed| plain.add(&call(seed)));
    (0..1500).for_each(|seed| polygons.add(&polygon_call(seed)));
    plain.assert_complete(&PLAIN_REASONS, b"ABCDEMV");
    // After a split no segment has one edge alone.
    polygons.assert_complete(&POLYGON_REASONS, b"ABCDESV");
    assert!(plain.tables.contains(LetterTable::NoFaces.name()));
}

/// A table that is too short gets 4 where no earlier reason holds, whatever
/// else is wrong.
#[test]
fn every_letter_table_beside_every_reason_gets_its_answer() {
    let earlier = [1, 2, 3, 14];
    for table in LetterTable::ALL {
        for (seed, &reason) in (0..).zip(&POLYGON_REASONS) {
            let rng = &mut Rng::new(seed);
            let sound = refused_polygons(&[reason], rng);
            let case = with_letter_table(sound, table, rng);
            let outcome = case.outcome();
            assert!(case.expected.agrees_with(&outcome), "{case:?} {outcome:?}");
            let Outcome::Refused { reason: given, .. } = outcome else {
                panic!("refused");
            };
            let is_later = !earlier.contains(&reason);
            assert_eq!(
                given,
                if table.is_short() && is_later {
                    4
                } else {
                    reason
                }
            );
        }
    }
}

/// Refusals leave the letters, asked for or not.
#[test]
fn refused_calls_leave_the_letters() {
    for (seed, &reason) in (0..).zip(PLAIN_REASONS.iter().cycle().take(80)) {
        let rng = &mut Rng::new(seed);
        let table = rng.pick(&LetterTable::ALL);
        let case = with_letter_table(refused_call(&[reason], rng), table, rng);
        let before = case.tables(rng);
        let mut after = before.clone();
        case.outcome_in(&mut after);
        assert_eq!(after.letters, before.letters);
    }
}

#[test]
fn texts_ask_for_letters_half_of_the_time() {
    let mut half = [0, 0];
    let mut letters = BTreeSet::new();
    for kind in Kind::all() {
        for seed in 0..4 {
            let case = kind.make(seed);
            let Ok(document) = parse(&case.text) else {
                continue;
            };
            half[usize::from(document.with_letters)] += 1;
            let outcome = reference::text::refine_document(&document);
            if let (Expected::Accepted, Outcome::Refined { letters: named, .. }) =
                (case.expected, outcome)
            {
                letters.extend(named.unwrap_or_default());
            }
        }
    }
    assert!(half[0] > 100 && half[1] > 100, "{half:?}");
    assert!(letters.into_iter().eq(*b"ABCDEMV"));
}
