//! Nets with a vertex in many faces get the refusals that their rows have.

use std::collections::BTreeSet;

use nets::case::Expected;
use nets::rng::Rng;
use nets::valences::{Change, Hub, ROWS, any_call, row_call, row_net};
use reference::call::Outcome;
use reference::refusal::check_net;
use reference::topology::Topology;

#[test]
fn rows_get_their_refusals() {
    let rng = &mut Rng::new(8);
    let mut reasons = BTreeSet::new();
    for row in ROWS {
        let (.., rounds, refusal) = row;
        let Outcome::Refused { reason, place } = row_call(row, rounds[0], rng).outcome() else {
            panic!("{row:?}: accepted");
        };
        assert_eq!([reason, place], refusal, "{row:?}");
        reasons.insert(reason);
    }
    assert_eq!(reasons, [3, 8, 9, 10, 11].into());
}

#[test]
fn the_hub_is_in_all_faces_and_first_or_last() {
    for row in ROWS {
        let (hub, faces, changes, ..) = row;
        let net = row_net(row);
        let hub = match changes {
            [] if hub != Hub::AnyCorners => 0,
            [Change::FirstToLast] => net.points.len() - 1,
            _ => continue,
        };
        let at_hub = net.corners().filter(|&corner| corner as usize == hub);
        assert_eq!(at_hub.count(), faces as usize, "{row:?}");
        assert_eq!(net.faces.len(), faces as usize, "{row:?}");
    }
}

#[test]
fn the_largest_have_these_counts() {
    for (hub, faces, vertices) in [
        (Hub::WheelToOne, 4_096, 4_098),
        (Hub::WheelPinched, 4_096, 8_192),
        (Hub::Wheel, 4_095, 8_191),
        (Hub::Wheel, 4_096, 8_193),
        (Hub::FanToOne, 4_096, 4_099),
        (Hub::FanPinched, 4_096, 8_192),
        (Hub::Fan, 4_095, 8_192),
        (Hub::Fan, 4_096, 8_194),
        (Hub::TwoRings, 4_096, 8_192),
        (Hub::TwoFans, 4_096, 8_192),
        (Hub::FourAndRing, 4_096, 8_192),
        (Hub::RingAndFour, 4_096, 8_192),
        (Hub::TwoAndRing, 4_096, 8_192),
        (Hub::ThreeFans, 4_096, 4_103),
        (Hub::Petals, 2_730, 8_191),
        (Hub::TwoHubs, 4_095, 8_192),
        (Hub::TwoHubs, 4_096, 8_194),
        (Hub::FourHubs, 512, 2_052),
        (Hub::AnyCorners, 4_096, 64),
        (Hub::TriangleWheel, 1_365, 1_366),
        (Hub::TriangleFan, 1_365, 1_367),
    ] {
        let net = hub.net(faces);
        assert_eq!(net.points.len(), vertices, "{hub:?}");
        let has_sides = |face: &Vec<u32>| face.len() == hub.sides();
        assert!(net.faces.iter().all(has_sides), "{hub:?}");
    }
}

#[test]
fn a_repeated_side_is_repeated_once() {
    for row in ROWS {
        let (hub, _, changes, ..) = row;
        let Some(&Change::Repeated(face, side)) = changes.last() else {
            continue;
        };
        let net = row_net(row);
        let (last, earlier) = net.faces.split_last().expect("faces");
        let ends = |face: &[u32], side: usize| [0, 1].map(|i| face[(side + i) % face.len()]);
        let repeated = ends(last, hub.sides() - 1);
        assert_eq!(repeated, ends(&earlier[face], side), "{row:?}");
        assert!(Topology::new(earlier).is_ok(), "{row:?}");
    }
}

#[test]
fn isolated_vertices_make_up_for_shared_corners() {
    let mut met = BTreeSet::new();
    for row in ROWS {
        let (.., changes, _, [_, place]) = row;
        let net = row_net(row);
        if let [Change::Isolated(vertex), ..] = changes {
            assert_eq!(*vertex, place, "{row:?}");
            met.insert(net.points.len() - net.corners().count());
        }
    }
    assert_eq!(met, [0, 1].into());
}

/// Nothing but the number of faces is a reason in wheels and fans.
#[test]
fn wheels_of_eight_and_fans_of_six_are_accepted() {
    for (hub, faces) in [
        (Hub::Wheel, 8),
        (Hub::Fan, 6),
        (Hub::TriangleWheel, 8),
        (Hub::TriangleFan, 6),
    ] {
        assert_eq!(check_net(&hub.net(faces)), Ok(()), "{hub:?}");
        assert!(check_net(&hub.net(faces + 1)).is_err(), "{hub:?}");
    }
}

#[test]
fn generated_calls_get_their_refusals() {
    let mut met = BTreeSet::new();
    for seed in 0..60 {
        let case = any_call(&mut Rng::new(seed));
        assert!(case.expected.agrees_with(&case.outcome()), "{seed}");
        if let Expected::Refused(refusal) = case.expected {
            met.insert((case.sides.is_empty(), refusal.reason));
        }
    }
    let plain = [9, 10, 11].map(|reason| (true, reason));
    let with_sides = [9, 11].map(|reason| (false, reason));
    assert_eq!(met, plain.into_iter().chain(with_sides).collect());
}
