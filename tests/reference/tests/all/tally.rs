//! Paper 02, the usage tally: "An accepted call adds refined vertices minus
//! drawn vertices; a refused call adds nothing."

use crate::common::{cube, grid, refine_control, square, unmarked, with_marks};
use reference::call::{Outcome, Tables};
use reference::net::{Net, PolygonNet};
use reference::refusal::{Capacity, MAX_TALLY};
use reference::rules::Tension;

const REFUSED: Outcome = Outcome::Refused {
    reason: 15,
    place: 0,
};

/// The tables of a call, filled, that serve this many refined faces.
fn tables(refined_faces: usize) -> Tables {
    let least = Capacity::for_refined_faces(refined_faces);
    Tables {
        vertices: vec![-77; least.vertices],
        faces: vec![77; least.faces],
        marks: vec![7; least.marks],
        with_letters: true,
        letters: vec![99; least.marks + 1],
        workspace: vec![777; least.workspace + 3],
    }
}

/// A call without side counts on a record.
fn call(tally: &mut u64, net: &Net, rounds: u32) -> Outcome {
    let refined = net.faces.len() << (2 * rounds.min(6));
    refine_control(
        tally,
        net,
        &[],
        Tension::OLD.number(),
        rounds,
        &mut tables(refined),
    )
}

/// The same with side counts.
fn call_with_sides(tally: &mut u64, net: &PolygonNet, rounds: u32) -> Outcome {
    let tables = &mut tables(net.corners().count() << (2 * rounds));
    refine_control(
        tally,
        net,
        &net.side_table(),
        Tension::OLD.number(),
        rounds,
        tables,
    )
}

/// What a call adds to a record from zero.
fn added(net: &Net, rounds: u32) -> u64 {
    let mut tally = 0;
    call(&mut tally, net, rounds);
    tally
}

#[test]
fn new_points_are_added() {
    assert_eq!([0, 1, 2, 3].map(|k| added(&square(), k)), [0, 5, 21, 77]);
    assert_eq!([0, 1, 2].map(|k| added(&cube(), k)), [0, 18, 90]);
    assert_eq!(added(&grid(2, 2), 1), 16);
    assert_eq!(added(&Net::default(), 6), 0);
}

#[test]
fn with_side_counts_the_points_of_the_split_are_added() {
    let triangle = PolygonNet {
        points: vec![[0, 0, 0], [6, 0, 0], [0, 6, 0]],
        faces: vec![vec![0, 1, 2]],
        marks: vec![0; 3],
    };
    for (rounds, due) in [(0, 4), (1, 16)] {
        let mut tally = 100;
        call_with_sides(&mut tally, &triangle, rounds);
        assert_eq!(tally, 100 + due);
    }
    let mut tally = 0;
    call_with_sides(&mut tally, &PolygonNet::from(&square()), 0);
    assert_eq!(tally, 5);
}

#[test]
fn the_limit_is_on_what_the_record_holds_after_the_call() {
    let empty = Net::default();
    for (net, rounds, tally, is_accepted) in [
        (&square(), 1, MAX_TALLY - 5, true),
        (&square(), 1, MAX_TALLY - 4, false),
        (&square(), 0, MAX_TALLY, true),
        (&square(), 0, MAX_TALLY + 1, false),
        (&empty, 6, MAX_TALLY, true),
        (&empty, 6, MAX_TALLY + 1, false),
        (&square(), 1, u64::MAX, false),
        (&square(), 0, u64::MAX, false),
        (&square(), 1, u64::MAX - 4, false),
    ] {
        let mut after = tally;
        let outcome = call(&mut after, net, rounds);
        assert_eq!(outcome != REFUSED, is_accepted, "{rounds} {tally}");
        let due = if is_accepted { MAX_TALLY } else { tally };
        assert_eq!(after, due);
    }
}

#[test]
fn a_refusal_by_the_record_clears_the_workspace_only() {
    let net = with_marks(square(), &[0]);
    let mut after = tables(4);
    let mut tally = MAX_TALLY - 4;
    let old = Tension::OLD.number();
    let outcome = refine_control(&mut tally, &net, &[], old, 1, &mut after);
    assert_eq!(outcome, REFUSED);
    let mut expected = tables(4);
    expected.workspace[..64].fill(0);
    assert_eq!(after, expected);
}

#[test]
fn the_record_is_judged_last() {
    let flawed = [
        (7, square(), 1),
        (1, with_marks(grid(2, 2), &[4]), 12),
        (1, unmarked(&[[1_048_577; 3]], &[]), 5),
    ];
    for (rounds, net, due) in flawed {
        let mut tally = u64::MAX;
        let outcome = call(&mut tally, &net, rounds);
        let Outcome::Refused { reason, .. } = outcome else {
            panic!("refused");
        };
        assert_eq!((reason, tally), (due, u64::MAX));
    }
}

/// What a call adds does not depend on its tension; one above 4 adds nothing and
/// touches nothing, from whatever figure.
#[test]
fn the_tension_adds_no_points() {
    for tension in 0..=4 {
        let mut tally = 7;
        refine_control(&mut tally, &grid(2, 2), &[], tension, 1, &mut tables(16));
        assert_eq!(tally, 7 + 16);
    }
    for figure in [0, MAX_TALLY, u64::MAX] {
        for tension in [5, 256, u32::MAX] {
            let (mut tally, mut after) = (figure, tables(16));
            let outcome = refine_control(&mut tally, &grid(2, 2), &[], tension, 1, &mut after);
            let refused = Outcome::Refused {
                reason: 16,
                place: 0,
            };
            assert_eq!((outcome, tally, after), (refused, figure, tables(16)));
        }
    }
}

#[test]
fn a_series_adds_up_over_the_accepted_nets() {
    let mut tally = 0;
    call(&mut tally, &square(), 2);
    call(&mut tally, &square(), 7);
    call(&mut tally, &with_marks(cube(), &[3]), 1);
    call(&mut tally, &cube(), 1);
    assert_eq!(tally, 21 + 18);
}
