//! What the papers promise of every accepted net, on generated nets, at all
//! tensions by turns.

use std::collections::{BTreeMap, BTreeSet};

use nets::accepted::{Shape, Size, accepted};
use nets::case::ControlNet;
use nets::change::{boundary_loops, flip, renumber};
use nets::coordinates::{Weights, weights};
use nets::rng::Rng;
use reference::call::refine_times;
use reference::curve::{Form, distance_bound, exact_curve, rounded_curve, scale};
use reference::fraction::Fraction;
use reference::net::{Net, edge};
use reference::point::{ExactPoint, Point};
use reference::rules::{Tension, midpoint};
use reference::seam::check_seam;
use reference::step::{Directions, Rule, Surface, refine_once, trace};
use reference::topology::{Star, Topology};

const COORDINATE_BOUND: u32 = 268_435_456;

/// Nets of every kind, `count` of each.
fn nets(size: Size, count: u64) -> impl Iterator<Item = (Shape, Net)> {
    Shape::ALL.into_iter().flat_map(move |shape| {
        (0..count).map(move |seed| (shape, accepted(shape, size, &mut Rng::new(seed))))
    })
}

/// The same with all tensions by turns.
fn tense_nets(size: Size, count: u64) -> impl Iterator<Item = (Shape, Tension, Net)> {
    let tensions = Tension::ALL.into_iter().cycle();
    let nets = nets(size, count).zip(tensions);
    nets.map(|((shape, net), tension)| (shape, tension, net))
}

fn edge_count(net: &Net) -> usize {
    Topology::edges_in_order(&net.faces).len()
}

/// The Euler characteristic.
fn euler(net: &Net) -> i64 {
    let signed = |length: usize| i64::try_from(length).expect("small");
    signed(net.points.len()) - signed(edge_count(net)) + signed(net.faces.len())
}

#[test]
fn a_step_keeps_points_marks_and_the_euler_characteristic() {
    for (shape, tension, net) in tense_nets(Size::Medium, 20) {
        let refined = refine_once(&net, tension).net;
        let old = net.points.len();
        assert_eq!(refined.points[..old], net.points, "{shape:?}");
        assert_eq!(refined.marks[..old], net.marks);
        assert!(refined.marks[old..].iter().all(|&mark| mark == 0));
        assert_eq!(
            refined.points.len(),
            old + edge_count(&net) + net.faces.len()
        );
        assert_eq!(refined.marks.len(), refined.points.len());
        assert_eq!(refined.faces.len(), 4 * net.faces.len());
        assert_eq!(euler(&refined), euler(&net));
    }
}

#[test]
fn coordinates_stay_within_the_bound() {
    for (shape, size, rounds) in [
        (Shape::Extreme, Size::Small, 4),
        (Shape::Extreme, Size::Medium, 2),
        (Shape::Soup, Size::Small, 4),
    ] {
        for seed in 0..15 {
            let net = accepted(shape, size, &mut Rng::new(seed));
            let tension = Tension::ALL[seed as usize % 5];
            let refined = refine_times(net, tension, rounds);
            let mut values = refined.points.as_flattened().iter();
            assert!(values.all(|value| value.unsigned_abs() <= COORDINATE_BOUND));
        }
    }
}

#[test]
fn boundaries_are_curves_of_their_own() {
    let mut readings = 0;
    for (shape, tension, net) in tense_nets(Size::Small, 8) {
        for rounds in 0..=3 {
            match check_seam(&net, tension, rounds) {
                Ok(count) => readings += count,
                Err(fault) => panic!("{shape:?}: {fault:?} after {rounds} rounds at {tension:?}"),
            }
        }
    }
    assert!(readings > 2000);
}

#[test]
fn rounded_curves_stay_near_the_exact_ones() {
    let mut rng = Rng::new(3);
    for (form, fewest) in [(Form::Open, 2), (Form::Round, 3)] {
        for length in fewest..12 {
            let reach = rng.pick(&[1, 9, 1_048_576]);
            let points: Vec<Point> = (0..length)
                .map(|_| [(); 3].map(|()| rng.between(-reach, reach)))
                .collect();
            for (steps, tension) in (0..=6).flat_map(|k| Tension::ALL.map(|t| (k, t))) {
                let rounded = rounded_curve(tension, form, &points, steps);
                let exact = exact_curve(tension, form, &points, steps);
                assert_eq!(rounded.len(), exact.len());
                let values = rounded.as_flattened().iter().zip(exact.as_flattened());
                let distance = |(&r, &e): (&i32, &i128)| (i128::from(r) * scale(steps) - e).abs();
                assert!(values.map(distance).max() <= Some(distance_bound(steps)));
            }
        }
    }
}

/// The largest sum of absolute weights of a new point.
fn largest_weight_sum(net: Net, tension: Tension) -> Fraction {
    let new = weights(&ControlNet::Plain(net), tension);
    let sums = new.iter().map(Weights::absolute_sum);
    let larger = |a: Fraction, b: Fraction| if (a - b).numerator() > 0 { a } else { b };
    sums.fold(Fraction::ZERO, larger)
}

#[test]
fn weights_are_too_small_to_leave_the_bound_in_six_rounds() {
    // 2.5 to the power 6 is below 256, the ratio of the two limits.
    for (shape, tension, net) in tense_nets(Size::Small, 30) {
        let sum = largest_weight_sum(net, tension);
        assert!(
            (sum * 2 - Fraction::whole(5)).numerator() < 0,
            "{shape:?} {sum:?}"
        );
    }
}

#[test]
fn rounds_compose() {
    for (shape, t, net) in tense_nets(Size::Small, 4) {
        let all = trace(&net, t, 3).pop().expect("three steps").net;
        let parts = refine_times(refine_times(net.clone(), t, 1), t, 2);
        assert_eq!(all, parts, "{shape:?}");
    }
}

/// "t = 0 gives plain midpoints on edges", and the mean of its corners for a face.
#[test]
fn tension_0_gives_midpoints_and_means() {
    for (shape, net) in nets(Size::Medium, 10) {
        let exact = |vertex: u32| ExactPoint::from(net.point(vertex));
        let edges = Topology::edges_in_order(&net.faces).into_iter();
        let due = edges.map(|(a, b)| midpoint(exact(a), exact(b)));
        let of_faces = net.faces.iter().map(|face| {
            let corners: ExactPoint = face.iter().map(|&corner| exact(corner)).sum();
            corners / 4
        });
        let made = refine_once(&net, Tension::ALL[0]).made.into_iter();
        assert!(
            made.map(|new| new.exact).eq(due.chain(of_faces)),
            "{shape:?}"
        );
    }
}

/// A point of a round is one at tension 0 and t times another, where no ring or
/// face counts: on the boundary.
#[test]
fn boundary_points_are_linear_in_the_tension() {
    for (shape, net) in nets(Size::Small, 6) {
        let [low, .., high] = Tension::ALL.map(|tension| refine_once(&net, tension).made);
        for (number, tension) in (0..).zip(Tension::ALL) {
            let made = refine_once(&net, tension).made.into_iter();
            for (at, new) in made.enumerate() {
                let (a, b) = (low[at].exact, high[at].exact);
                let is_inner = matches!(new.rule, Rule::InnerEdge | Rule::Face { .. });
                let due = (a * (4 - number) + b * number) / 4;
                assert!(is_inner || new.exact == due, "{shape:?} {tension:?}");
            }
        }
    }
}

/// Points with their marks, in an order that numbering does not change.
fn cloud(net: &Net) -> Vec<(Point, u8)> {
    let mut cloud: Vec<_> = net.points.iter().copied().zip(net.marks.clone()).collect();
    cloud.sort_unstable();
    cloud
}

#[test]
fn numbering_rotation_and_turning_over_do_not_move_points() {
    for (shape, tension, net) in tense_nets(Size::Small, 8) {
        let refined = |net: &Net| cloud(&refine_times(net.clone(), tension, 2));
        let expected = refined(&net);
        let mut other = renumber(&net, &mut Rng::new(77)).0;
        assert_eq!(refined(&other), expected, "{shape:?}");
        flip(&mut other);
        assert_eq!(refined(&other), expected, "{shape:?}");
    }
}

/// Whether the paper promises that both directions of a face agree.
fn directions_must_agree(topology: &Topology, face: [u32; 4]) -> bool {
    let star = |vertex: u32| topology.star(vertex).expect("accepted");
    let corners = face.map(star);
    let diagonals = [(0, 2), (1, 3)];
    let joined = |(i, j): (usize, usize)| corners[i].neighbours.contains(&face[j]);
    if !corners.iter().all(Star::is_ring) || diagonals.into_iter().any(joined) {
        return false;
    }
    corners
        .iter()
        .flat_map(|corner| &corner.neighbours)
        .all(|&neighbour| {
            let around = star(neighbour);
            around.is_ring() && (face.contains(&neighbour) || around.face_count() == 4)
        })
}

fn exact_edge_points(net: &Net, tension: Tension) -> BTreeMap<(u32, u32), ExactPoint> {
    let edges = Topology::edges_in_order(&net.faces);
    let made = refine_once(net, tension).made;
    let named = edges.into_iter().map(|(a, b)| edge(a, b));
    named.zip(made.into_iter().map(|new| new.exact)).collect()
}

#[test]
fn both_directions_agree_where_promised() {
    let mut irregular = BTreeSet::new();
    let mut differing = BTreeMap::from(Tension::ALL.map(|tension| (tension, 0)));
    for (_, tension, net) in tense_nets(Size::Medium, 60) {
        let points = exact_edge_points(&net, tension);
        let surface = Surface::new(&net, tension);
        let topology = surface.topology();
        for &face in &net.faces {
            let [first, second] = surface.directions(face, &points);
            if directions_must_agree(topology, face) {
                assert_eq!(first.point, second.point);
                let stars = face.map(|corner| topology.star(corner).expect("accepted"));
                let mut valences = stars.map(|star| star.face_count());
                valences.sort_unstable();
                irregular.insert(valences);
            } else if first.point != second.point {
                differing.entry(tension).and_modify(|count| *count += 1);
            }
        }
    }
    assert!(irregular.len() > 30, "{irregular:?}");
    // At tension 0 both are the mean of the corners everywhere.
    assert!(
        differing
            .iter()
            .all(|(t, &count)| (count == 0) == (t.number() == 0))
    );
}

#[test]
fn every_rule_and_every_kind_of_direction_occurs() {
    let mut rules = BTreeSet::new();
    let (mut neighbours, mut used) = (BTreeSet::new(), BTreeSet::new());
    for (_, tension, net) in tense_nets(Size::Medium, 20) {
        for new in refine_once(&net, tension).made {
            match new.rule {
                Rule::Face {
                    neighbours: counts,
                    four_inner: directions,
                } => {
                    neighbours.insert(counts);
                    used.insert(directions);
                }
                rule => {
                    rules.insert(rule);
                }
            }
        }
    }
    let edge_rules = [
        Rule::BoundaryInside,
        Rule::EndEdge,
        Rule::OneEdge,
        Rule::InnerEdge,
    ];
    assert_eq!(rules, BTreeSet::from(edge_rules));
    let all_counts = (0..3).flat_map(|first| (0..3).map(move |second| [first, second]));
    assert_eq!(neighbours, all_counts.collect());
    let all_used = [
        Directions::First,
        Directions::Second,
        Directions::Both,
        Directions::Neither,
    ];
    assert_eq!(used, BTreeSet::from(all_used));
}

#[test]
fn loops_with_any_number_of_marks_occur() {
    let mut met = BTreeSet::new();
    for (_, net) in nets(Size::Small, 20) {
        for vertices in boundary_loops(&net) {
            let marked = vertices.iter().filter(|&&v| net.is_marked(v)).count();
            met.insert((marked.min(2), vertices.len().min(5)));
        }
    }
    let all = (0..3).flat_map(|marks| (3..=5).map(move |length| (marks, length)));
    assert_eq!(met, all.collect());
}
