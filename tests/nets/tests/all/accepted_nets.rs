//! The nets meant to be accepted are, and cover what they should.

use std::collections::BTreeMap;

use nets::accepted::{Shape, Size, accepted};
use nets::change::boundary_loops;
use nets::rng::Rng;
use reference::net::Net;
use reference::refusal::check_net;
use reference::topology::Topology;

fn some(shape: Shape, size: Size, count: u64) -> impl Iterator<Item = Net> {
    (0..count).map(move |seed| accepted(shape, size, &mut Rng::new(seed)))
}

#[test]
fn every_kind_is_accepted_and_keeps_its_size() {
    for shape in Shape::ALL {
        for (size, count) in [(Size::Small, 60), (Size::Medium, 20), (Size::Large, 2)] {
            for net in some(shape, size, count) {
                assert_eq!(check_net(&net), Ok(()), "{shape:?}");
                assert!(net.faces.len() <= size.most_faces());
                assert!(net.points.len() <= size.most_vertices());
            }
        }
    }
}

fn euler(net: &Net) -> i64 {
    let edges = Topology::edges_in_order(&net.faces).len();
    net.points.len() as i64 - edges as i64 + net.faces.len() as i64
}

#[test]
fn closed_surfaces_have_their_genus() {
    for (shape, characteristic) in [
        (Shape::Sphere, 2),
        (Shape::Torus, 0),
        (Shape::DoubleTorus, -2),
    ] {
        for size in [Size::Small, Size::Medium, Size::Large] {
            for net in some(shape, size, 6) {
                assert_eq!(euler(&net), characteristic, "{shape:?} {size:?}");
                assert!(boundary_loops(&net).is_empty());
            }
        }
    }
}

#[test]
fn all_rings_and_fans_occur() {
    for size in [Size::Small, Size::Medium] {
        let mut met: BTreeMap<(bool, usize), usize> = BTreeMap::new();
        for shape in Shape::ALL {
            for net in some(shape, size, 30) {
                let topology = Topology::new(&net.faces).expect("accepted");
                for vertex in (0..).take(net.points.len()) {
                    let star = topology.star(vertex).expect("accepted");
                    *met.entry((star.is_ring(), star.face_count())).or_default() += 1;
                }
            }
        }
        let rings = (3..=8).map(|n| (true, n));
        let fans = (1..=6).map(|m| (false, m));
        let expected: Vec<_> = fans.chain(rings).collect();
        assert!(met.keys().copied().eq(expected));
    }
}
