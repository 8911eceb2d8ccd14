//! Generated cases get the answers that their makers expect.

use std::collections::BTreeSet;

use nets::case::{Case, ControlNet, Expected, TextCase};
use nets::kind::{Kind, call, named_texts, polygon_call, small_nets};
use nets::pairs::{SharedPair, shared_pair, shared_polygon_pair};
use nets::refused::{PLAIN_REASONS, POLYGON_REASONS, refused_call, refused_polygons};
use nets::rng::Rng;
use nets::tension::TOO_LARGE;
use reference::call::{Outcome, Tables, refine_times};
use reference::curve::Form;
use reference::refusal::{MAX_TENSION, check_net};
use reference::rules::Tension;
use reference::seam::{Boundary, Way, shared_readings};
use reference::text::{answer, parse, print, refine_document};

fn outcome(case: &TextCase) -> Outcome {
    match parse(&case.text) {
        Ok(document) => refine_document(&document),
        Err(refusal) => refusal.into(),
    }
}

#[test]
fn texts_of_every_kind_get_their_answer() {
    for kind in Kind::all() {
        for seed in 0..12 {
            let case = kind.make(seed);
            let outcome = outcome(&case);
            let name = kind.name();
            assert!(
                case.expected.agrees_with(&outcome),
                "{name} {seed}: {case:?} {outcome:?}"
            );
            assert_eq!(answer(&case.text), print(&outcome));
        }
    }
}

#[test]
fn named_texts_are_accepted() {
    let texts = named_texts(3);
    assert!(texts.len() > 300);
    for (name, case) in texts {
        let outcome = outcome(&case);
        assert!(case.expected.agrees_with(&outcome), "{name}: {outcome:?}");
    }
}

#[test]
fn names_of_kinds_are_distinct() {
    let kinds = Kind::all();
    let names: BTreeSet<String> = kinds.iter().map(Kind::name).collect();
    assert_eq!(names.len(), kinds.len());
    assert_eq!(Kind::named("grid"), Some(kinds[2].clone()));
}

#[test]
fn calls_with_one_or_two_reasons_get_the_lowest() {
    for (at, &first) in PLAIN_REASONS.iter().enumerate() {
        for &second in &PLAIN_REASONS[at..] {
            for seed in 0..4 {
                let case = refused_call(&[first, second], &mut Rng::new(seed));
                let Expected::Refused(refusal) = case.expected else {
                    panic!("no refusal expected for {first} and {second}");
                };
                let lowest = rank(first).min(rank(second));
                assert_eq!(rank(refusal.reason), lowest);
                let outcome = case.outcome();
                assert!(case.expected.agrees_with(&outcome), "{case:?} {outcome:?}");
            }
        }
    }
}

/// Place of a reason in the order of refusals; with side counts the vertex part
/// of 2 goes before 14 and its marks part after it.
fn rank(reason: u32) -> u32 {
    let order = [1, 14, 2, 3, 4, 16, 5, 6, 7, 8, 9, 10, 11, 12, 15];
    let at = (0..).zip(order).find(|(_, other)| *other == reason);
    at.expect("a reason of a call").0
}

#[test]
fn calls_with_side_counts_get_the_first_in_the_order() {
    for &first in &POLYGON_REASONS {
        for &second in &POLYGON_REASONS {
            for seed in 0..6 {
                let case = refused_polygons(&[first, second], &mut Rng::new(seed));
                let Expected::Refused(refusal) = case.expected else {
                    panic!("no refusal expected for {first} and {second}");
                };
                let lowest = rank(first).min(rank(second));
                let is_first = rank(refusal.reason) == lowest;
                assert!(is_first || (refusal.reason == 2 && lowest == rank(14)));
                let outcome = case.outcome();
                assert!(case.expected.agrees_with(&outcome), "{case:?} {outcome:?}");
            }
        }
    }
}

/// The reasons of these calls, 0 for those accepted.
fn reasons_met(call: impl Fn(u64) -> Case) -> BTreeSet<u32> {
    let answered = |seed| {
        let case = call(seed);
        let outcome = case.outcome();
        assert!(case.expected.agrees_with(&outcome), "{seed}: {outcome:?}");
        match outcome {
            Outcome::Refined { .. } => 0,
            Outcome::Refused { reason, .. } => reason,
        }
    };
    (0..1200).map(answered).collect()
}

/// The tensions of these calls, and those above 4.
#[test]
fn calls_have_every_tension() {
    for draw in [call, polygon_call] {
        let met: Vec<u32> = (0..1200).map(|seed| draw(seed).tension).collect();
        for tension in Tension::ALL {
            let number = tension.number();
            assert!(met.iter().filter(|&&t| t == number).count() > 150);
        }
        let above: BTreeSet<u32> = met.into_iter().filter(|&t| t > MAX_TENSION).collect();
        assert!(above.into_iter().eq(TOO_LARGE));
    }
}

#[test]
fn mixed_calls_get_their_answer() {
    let accepted_or = |reasons: &[u32]| [&[0], reasons].concat().into_iter().collect();
    assert_eq!(reasons_met(call), accepted_or(&PLAIN_REASONS));
    assert_eq!(reasons_met(polygon_call), accepted_or(&POLYGON_REASONS));
}

/// What the paper says of the tables after a call, apart from the contents of
/// the results.
fn assert_frame(case: &Case, before: &Tables, after: &Tables, outcome: &Outcome) {
    let (filled, cleared) = match outcome {
        Outcome::Refined {
            vertices,
            faces,
            marks,
            letters,
        } => {
            let named = letters.as_deref().unwrap_or_default();
            assert_eq!(letters.is_some(), case.capacity.with_letters);
            assert_eq!(after.vertices[..vertices.len()], *vertices);
            assert_eq!(after.faces[..faces.len()], *faces);
            assert_eq!(after.marks[..marks.len()], *marks);
            assert_eq!(after.letters[..named.len()], *named);
            let lengths = [vertices.len(), faces.len(), marks.len(), named.len()];
            (lengths, true)
        }
        Outcome::Refused { reason, .. } => ([0; 4], matches!(reason, 5..=12 | 15)),
    };
    assert_eq!(after.vertices[filled[0]..], before.vertices[filled[0]..]);
    assert_eq!(after.faces[filled[1]..], before.faces[filled[1]..]);
    assert_eq!(after.marks[filled[2]..], before.marks[filled[2]..]);
    assert_eq!(after.letters[filled[3]..], before.letters[filled[3]..]);
    let used = if cleared { 16 * case.served_faces() } else { 0 };
    assert!(after.workspace[..used].iter().all(|&word| word == 0));
    assert_eq!(after.workspace[used..], before.workspace[used..]);
}

/// "An accepted call adds refined vertices minus drawn vertices; a refused call
/// adds nothing."
fn added(case: &Case, outcome: &Outcome) -> u64 {
    match outcome {
        Outcome::Refined { marks, .. } => (marks.len() - case.marks.len()) as u64,
        Outcome::Refused { .. } => 0,
    }
}

#[test]
fn calls_leave_every_table_as_the_paper_says() {
    let plain = (0..200).map(call);
    for (seed, case) in (0..).zip(plain.chain((0..200).map(polygon_call))) {
        let before = case.tables(&mut Rng::new(seed));
        let mut after = before.clone();
        let (outcome, tally) = case.outcome_in(&mut after);
        assert_eq!(outcome, case.outcome());
        assert_eq!(tally, case.tally + added(&case, &outcome));
        assert_frame(&case, &before, &after, &outcome);
    }
}

#[test]
fn small_nets_are_small_distinct_and_accepted() {
    let chosen = small_nets(1, 300);
    assert_eq!(chosen.len(), 300);
    for (at, (net, rounds)) in chosen.iter().enumerate() {
        assert_eq!(check_net(net), Ok(()));
        assert!(net.faces.len() <= 12 && net.points.len() <= 40);
        assert!([1, 2].contains(rounds));
        assert!(chosen[..at].iter().all(|(other, _)| other != net));
    }
}

/// What occurs among the pairs that these seeds draw: a form and a way, and
/// whether the net has side counts.
fn shared_after_every_round(
    draw: impl Fn(&mut Rng) -> SharedPair,
    seeds: std::ops::Range<u64>,
) -> BTreeSet<(Form, Way, bool)> {
    let (mut met, mut met_tensions, mut parted) = (BTreeSet::new(), BTreeSet::new(), 0);
    for seed in seeds {
        let pair = draw(&mut Rng::new(seed));
        let answers = pair
            .nets
            .each_ref()
            .map(|net| net.accepted_case(pair.tensions[0], 0).outcome());
        assert!(
            answers
                .iter()
                .all(|answer| matches!(answer, Outcome::Refined { .. }))
        );
        let [first, second] = pair.nets.each_ref().map(ControlNet::start);
        let shared = shared_readings(&first, &second);
        assert!(shared.contains(&pair.readings.into()), "{seed}");
        let [tension, other_tension] = pair.tensions;
        for rounds in 1..=2 {
            let one = refine_times(first.clone(), tension, rounds);
            let other = refine_times(second.clone(), other_tension, rounds);
            let [one, other] = [&one, &other].map(Boundary::new);
            for &(a, b) in &shared {
                let points = one.read(a);
                assert!(points.is_some());
                if tension == other_tension {
                    assert_eq!(points, other.read(b));
                } else {
                    parted += usize::from(points != other.read(b));
                }
            }
        }
        met_tensions.insert((tension, tension == other_tension));
        for (reading, net) in pair.readings.iter().zip(&pair.nets) {
            met.insert((reading.form, reading.way, net.has_sides()));
        }
    }
    let due = Tension::ALL.map(|tension| [false, true].map(|is_equal| (tension, is_equal)));
    assert!(met_tensions.into_iter().eq(due.into_iter().flatten()));
    assert!(parted > 20);
    met
}

#[test]
fn pairs_share_their_segment_after_every_round() {
    let ways = [Way::With, Way::Against];
    let both = [Form::Open, Form::Round].map(|form| ways.map(|way| (form, way)));
    let all: Vec<(Form, Way)> = both.into_iter().flatten().collect();
    let of = |sides: bool| all.iter().map(move |&(form, way)| (form, way, sides));
    assert!(
        shared_after_every_round(shared_pair, 0..150)
            .into_iter()
            .eq(of(false))
    );
    let met = shared_after_every_round(shared_polygon_pair, 0..150);
    assert_eq!(met, of(false).chain(of(true)).collect());
}
