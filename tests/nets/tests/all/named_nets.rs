//! The named nets are accepted and meet the cases that they are there for.

use std::collections::{BTreeMap, BTreeSet};

use nets::case::ControlNet;
use nets::coordinates::weights;
use nets::features::{Adjacency, End, Feature, Met, Sort, pairs_of};
use nets::named::{Dressing, NAMED, crowd};
use nets::rng::Rng;
use reference::call::Outcome;
use reference::fraction::Fraction;
use reference::net::{Net, edge};
use reference::point::ExactPoint;
use reference::rules::Tension;
use reference::step::{Surface, refine_once};
use reference::topology::Topology;

/// Every net in a dressing, for calls at a tension.
fn dressed(
    dressing: Dressing,
    tension: Tension,
) -> impl Iterator<Item = (&'static str, ControlNet)> {
    (0..).zip(NAMED.iter()).map(move |(seed, named)| {
        let control = named.dressed(dressing, tension, &mut Rng::new(seed));
        (named.name.as_str(), control)
    })
}

fn assert_accepted((name, control): (&str, ControlNet)) {
    let outcome = control.accepted_case(Tension::OLD, 0).outcome();
    assert!(matches!(outcome, Outcome::Refined { .. }), "{name}");
}

#[test]
fn all_are_accepted_under_names_of_their_own() {
    let names: BTreeSet<&str> = NAMED.iter().map(|named| named.name.as_str()).collect();
    assert_eq!(names.len(), NAMED.len());
    for dressing in [Dressing::Scattered, Dressing::Wide, Dressing::Halves] {
        dressed(dressing, Tension::OLD).for_each(assert_accepted);
    }
}

#[test]
fn crowds_are_accepted_and_nearly_as_large_as_allowed() {
    for has_sides in [false, true] {
        for most in [64, 4_096] {
            let control = crowd(most, has_sides, &mut Rng::new(6));
            let faces = control.quadrilaterals();
            assert!(faces <= most && 10 * faces > 9 * most, "{faces}");
            assert_accepted(("crowd", control));
        }
    }
}

#[test]
fn every_feature_is_met_in_the_first_round_and_in_the_second() {
    let [mut first, mut second] = [BTreeSet::new(), BTreeSet::new()];
    for (_, control) in dressed(Dressing::Scattered, Tension::OLD) {
        let start = control.start();
        first.extend(Met::of(&start).features);
        second.extend(Met::of(&refine_once(&start, Tension::OLD).net).features);
    }
    assert!(first.into_iter().eq(Feature::ALL));
    let later = Feature::ALL.into_iter().filter(|f| f.occurs_later());
    assert!(second.into_iter().eq(later));
}

#[test]
fn edges_join_vertices_of_every_two_sorts() {
    let [mut inner, mut rims] = [BTreeSet::new(), BTreeSet::new()];
    for (_, control) in dressed(Dressing::Scattered, Tension::OLD) {
        let start = control.start();
        inner.extend(Met::of(&start).ends);
        let adjacency = Adjacency::new(&start);
        for (from, to) in Topology::edges_in_order(&start.faces) {
            if adjacency.sort(from, to) == Sort::Boundary {
                let mut ends = [from, to].map(|vertex| adjacency.end(vertex));
                ends.sort_unstable();
                rims.insert(ends);
            }
        }
    }
    assert!(inner.into_iter().eq(End::pairs()));
    assert!(
        rims.into_iter()
            .eq(pairs_of(&[1, 2, 3, 4, 5, 6].map(End::Fan)))
    );
}

/// A net with its exact new points: those of edges by their ends, and those of
/// faces.
struct Refined {
    net: Net,
    edges: BTreeMap<(u32, u32), ExactPoint>,
    faces: Vec<ExactPoint>,
}

impl Refined {
    fn new(net: Net, tension: Tension) -> Self {
        let made = refine_once(&net, tension).made.into_iter();
        let mut made = made.map(|new| new.exact);
        let edges = Topology::edges_in_order(&net.faces);
        let named = edges.into_iter().map(|(from, to)| edge(from, to));
        Self {
            edges: named.zip(made.by_ref()).collect(),
            faces: made.collect(),
            net,
        }
    }
}

/// Nets where refining begins, and after a round; every `step`th of the named ones.
fn refined(dressing: Dressing, tension: Tension, step: usize) -> impl Iterator<Item = Refined> {
    let nets = dressed(dressing, tension).step_by(step);
    nets.flat_map(move |(_, control)| {
        let start = control.start();
        let after = refine_once(&start, tension).net;
        [start, after].map(|net| Refined::new(net, tension))
    })
}

fn is_over(denominator: i128, point: &ExactPoint) -> bool {
    let divides = |value: &Fraction| denominator % value.denominator() == 0;
    point.0.iter().all(divides)
}

/// What the edge points of plain edges are over at each tension.
const DENOMINATORS: [i128; 5] = [2, 64, 32, 64, 16];

#[test]
fn plain_edges_have_the_denominator_of_their_rule_and_wide_ones_need_not() {
    for (tension, denominator) in Tension::ALL.into_iter().zip(DENOMINATORS) {
        let mut others = 0;
        for Refined { net, edges, .. } in refined(Dressing::Wide, tension, 3) {
            let adjacency = Adjacency::new(&net);
            for (&(from, to), point) in &edges {
                let is_wide = adjacency.sort(from, to) == Sort::Wide;
                let is_over = is_over(denominator, point);
                assert!(is_wide || is_over, "{from} {to} {net:?}");
                others += usize::from(!is_over);
            }
        }
        assert_eq!(others > 300, tension.number() > 0);
    }
}

#[test]
fn directions_agree_where_all_eight_edges_are_regular_and_may_differ_elsewhere() {
    for (tension, denominator) in Tension::ALL.into_iter().zip(DENOMINATORS) {
        directions_agree_where_all_eight_edges_are_regular(tension, denominator);
    }
}

fn directions_agree_where_all_eight_edges_are_regular(tension: Tension, denominator: i128) {
    // By the regular, wide and boundary edges among the eight.
    let mut differing: BTreeMap<[usize; 3], usize> = BTreeMap::new();
    for Refined { net, edges, faces } in refined(Dressing::Wide, tension, 1) {
        let (adjacency, surface) = (Adjacency::new(&net), Surface::new(&net, tension));
        for (&face, point) in net.faces.iter().zip(&faces) {
            let rows = adjacency.rows(face);
            let eight = rows.as_flattened();
            let counts = [Sort::Regular, Sort::Wide, Sort::Boundary]
                .map(|sort| eight.iter().filter(|&&at| at == Some(sort)).count());
            let [first, second] = surface.directions(face, &edges);
            if counts[0] == 8 {
                assert_eq!(first.point, second.point, "{face:?} {net:?}");
                assert!(is_over(denominator * denominator, point));
            } else if first.point != second.point {
                *differing.entry(counts).or_default() += 1;
            }
        }
    }
    // Seven regular edges and a wide one, or a boundary one; four regular edges
    // between boundary edges, as in the centre of three by three faces.
    for counts in [[7, 1, 0], [7, 0, 1], [4, 0, 4]] {
        let is_met = differing.get(&counts) > Some(&5);
        assert_eq!(is_met, tension.number() > 0, "{counts:?} {tension:?}");
    }
}

/// Whether coordinates of these points are halves below 0, and above it.
fn halves<'a>(points: impl Iterator<Item = &'a ExactPoint>) -> BTreeSet<bool> {
    let values = points.flat_map(|point| point.0);
    let halves = values.filter(|value| value.denominator() == 2);
    halves.map(|value| value.numerator() > 0).collect()
}

#[test]
fn edges_of_every_sort_and_faces_of_several_are_halves() {
    Tension::ALL.into_iter().for_each(assert_halves);
}

fn assert_halves(tension: Tension) {
    let mut edge_halves: BTreeMap<Sort, BTreeSet<bool>> = BTreeMap::new();
    let mut face_halves: BTreeMap<[bool; 2], BTreeSet<bool>> = BTreeMap::new();
    for Refined { net, edges, faces } in refined(Dressing::Halves, tension, 1).step_by(2) {
        let adjacency = Adjacency::new(&net);
        for (&(from, to), point) in &edges {
            let sort = adjacency.sort(from, to);
            let met = edge_halves.entry(sort).or_default();
            met.extend(halves([point].into_iter()));
        }
        for (&face, point) in net.faces.iter().zip(&faces) {
            let rows = adjacency.rows(face);
            let mut eight = rows.as_flattened().iter();
            let is_regular = eight.clone().all(|&at| at == Some(Sort::Regular));
            let is_wide = eight.any(|&at| at == Some(Sort::Wide));
            let met = face_halves.entry([is_regular, is_wide]).or_default();
            met.extend(halves([point].into_iter()));
        }
    }
    assert_eq!((edge_halves.len(), face_halves.len()), (4, 3));
    let mut all = edge_halves.values().chain(face_halves.values());
    assert!(all.all(|met| met.len() == 2), "{tension:?}");
}

fn greatest(sums: &[Fraction]) -> Fraction {
    let greater = |a: Fraction, b: Fraction| if (b - a).numerator() > 0 { b } else { a };
    sums.iter().copied().reduce(greater).expect("a new point")
}

/// No edge point can be farther out than the sum of absolute weights puts it.
/// On the first axis one is there, on the second a face point, below 0.
#[test]
fn peaks_are_as_far_out_as_can_be() {
    // Every fourth net, at all tensions by turns.
    let tensions = Tension::ALL.into_iter().cycle();
    for ((seed, named), tension) in (0..).zip(NAMED.iter()).step_by(4).zip(tensions) {
        let control = named.dressed(Dressing::Peaks, tension, &mut Rng::new(seed));
        let name = named.name.as_str();
        assert_accepted((name, control.clone()));
        if control.has_sides() {
            continue;
        }
        let sums = weights(&control, tension).into_iter().map(|new| {
            let total = new.of_vertices.iter().copied().reduce(|a, b| a + b);
            assert_eq!(total, Some(Fraction::whole(1)));
            new.absolute_sum() * 1_048_576
        });
        let sums: Vec<Fraction> = sums.collect();
        let Refined { edges, faces, .. } = Refined::new(control.start(), tension);
        let (of_edges, of_faces) = sums.split_at(edges.len());
        let [far, low] = [greatest(of_edges), greatest(of_faces) * -1];
        assert!(edges.values().any(|point| point.0[0] == far), "{name}");
        assert!(faces.iter().any(|point| point.0[1] == low), "{name}");
    }
}
