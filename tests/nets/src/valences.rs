//! Nets with a vertex in many faces, the hub, up to as many as a call allows.
//! Counts kept in too few bits would take some hubs for vertices in few faces, and
//! tables that have a place for each half-edge or vertex are full with some nets.

use reference::net::PolygonNet;
use reference::refusal::{MAX_VERTICES, Refusal};

use crate::build::to_u32;
use crate::case::{Case, Expected};
use crate::change::{Placing, drop_unused_vertices, flip, place, renumber};
use crate::rng::Rng;
use crate::solids::{plain, polygons};

/// How the faces lie round the hub. Vertices between faces with the same
/// opposite corner are in rings of two.
#[derive(Clone, Copy, Debug, PartialEq, Eq)]
pub enum Hub {
    /// A full ring.
    Wheel,
    /// A full ring; two neighbouring opposite corners are one vertex.
    WheelPinched,
    /// A full ring; all opposite corners are one vertex.
    WheelToOne,
    /// An open fan.
    Fan,
    /// An open fan; three neighbouring opposite corners are one vertex.
    FanPinched,
    /// An open fan; all opposite corners are one vertex.
    FanToOne,
    /// Two full rings, of half of the faces each.
    TwoRings,
    /// Two open fans, of half of the faces each.
    TwoFans,
    /// A full ring of four, then one of the other faces.
    FourAndRing,
    /// The same in the other order.
    RingAndFour,
    /// An open fan of two, then a full ring of the other faces.
    TwoAndRing,
    /// Three open fans, of a third of the faces each; all opposite corners of a
    /// fan are one vertex.
    ThreeFans,
    /// As many open fans as faces.
    Petals,
    /// Two hubs, at opposite corners of every face; the faces share nothing else.
    TwoHubs,
    /// Four hubs, at every other corner of octagons; the faces share nothing else.
    FourHubs,
    /// Every face has four of 64 vertices, drawn once.
    AnyCorners,
    /// A full ring of triangles.
    TriangleWheel,
    /// An open fan of triangles.
    TriangleFan,
}

/// Faces at the hub that follow each other.
#[derive(Clone, Copy, Debug)]
struct Piece {
    is_ring: bool,
    faces: u32,
    /// How many opposite corners there are; the last faces share the last one.
    /// Triangles have none.
    opposites: u32,
}

fn ring(faces: u32, opposites: u32) -> Piece {
    Piece {
        is_ring: true,
        faces,
        opposites,
    }
}

fn fan(faces: u32, opposites: u32) -> Piece {
    Piece {
        is_ring: false,
        faces,
        opposites,
    }
}

fn unplaced(vertices: u32, faces: Vec<Vec<u32>>) -> PolygonNet {
    polygons(vec![[0; 3]; vertices as usize], faces)
}

/// These pieces round vertex 0. In each the opposite corners come first, then the
/// neighbours of the hub.
fn round_hub(pieces: &[Piece]) -> PolygonNet {
    let mut vertices = 1;
    let mut table = Vec::new();
    for piece in pieces {
        let (first, spokes) = (vertices, vertices + piece.opposites);
        let ends = piece.faces + u32::from(!piece.is_ring);
        for i in 0..piece.faces {
            let opposite = piece.opposites.checked_sub(1);
            let opposite = opposite.map(|last| first + last.min(i));
            let mut face = vec![0, spokes + i];
            face.extend(opposite);
            face.push(spokes + (i + 1) % ends);
            table.push(face);
        }
        vertices = spokes + ends;
    }
    unplaced(vertices, table)
}

/// Faces with all of the first `hubs` vertices, and vertices of their own between
/// them.
fn round_hubs(hubs: u32, faces: u32) -> PolygonNet {
    let own = |face: u32| hubs * (1 + face)..;
    let face = |i| (0..hubs).zip(own(i)).flat_map(|(hub, own)| [hub, own]);
    let table = (0..faces).map(|i| face(i).collect());
    unplaced(hubs * (1 + faces), table.collect())
}

fn any_corners(faces: u32) -> PolygonNet {
    let rng = &mut Rng::new(64);
    let table = (0..faces).map(|_| rng.permutation(64)[..4].to_vec());
    unplaced(64, table.collect())
}

impl Hub {
    /// Those whose first reason is the hub, with that reason and the most faces
    /// that a call allows.
    const ALONE: [(Self, u32, i32); 7] = [
        (Self::Wheel, 11, 4_095),
        (Self::Fan, 11, 4_095),
        (Self::TriangleWheel, 11, 1_365),
        (Self::TriangleFan, 11, 1_365),
        (Self::TwoRings, 10, 4_096),
        (Self::TwoFans, 10, 4_096),
        (Self::ThreeFans, 10, 4_096),
    ];

    /// The number of sides of all faces.
    pub fn sides(self) -> usize {
        match self {
            Self::TriangleWheel | Self::TriangleFan => 3,
            Self::FourHubs => 8,
            _ => 4,
        }
    }

    /// So many faces; the hub is vertex 0, several hubs are the first vertices. In
    /// two pieces so many opposite corners are one vertex that 4,096 faces have 8,192
    /// vertices.
    pub fn net(self, n: u32) -> PolygonNet {
        let (half, rest) = (n / 2, n - n / 2);
        let (third, last_third) = (n / 3, n - n / 3 * 2);
        let pieces = match self {
            Self::Wheel => vec![ring(n, n)],
            Self::WheelPinched => vec![ring(n, n - 1)],
            Self::WheelToOne => vec![ring(n, 1)],
            Self::Fan => vec![fan(n, n)],
            Self::FanPinched => vec![fan(n, n - 2)],
            Self::FanToOne => vec![fan(n, 1)],
            Self::TwoRings => vec![ring(half, half), ring(rest, rest - 1)],
            Self::TwoFans => vec![fan(half, half), fan(rest, rest - 3)],
            Self::FourAndRing => vec![ring(4, 4), ring(n - 4, n - 5)],
            Self::RingAndFour => vec![ring(n - 4, n - 5), ring(4, 4)],
            Self::TwoAndRing => vec![fan(2, 2), ring(n - 2, n - 4)],
            Self::ThreeFans => [third, third, last_third].map(|n| fan(n, 1)).to_vec(),
            Self::Petals => vec![fan(1, 1); n as usize],
            Self::TriangleWheel => vec![ring(n, 0)],
            Self::TriangleFan => vec![fan(n, 0)],
            Self::TwoHubs => return round_hubs(2, n),
            Self::FourHubs => return round_hubs(4, n),
            Self::AnyCorners => return any_corners(n),
        };
        round_hub(&pieces)
    }

    /// A call with such a net, with points anywhere and with marks, also where
    /// they are a reason for 12.
    fn call(self, mut net: PolygonNet, rounds: u32, [reason, at]: [u32; 2], rng: &mut Rng) -> Case {
        place(&mut net, Placing::Wide, rng);
        net.marks.fill_with(|| u8::from(rng.one_in(2)));
        let expected = Expected::Refused(Refusal::new(reason, at));
        if self.sides() == 4 {
            Case::new(&plain(net), rounds, expected)
        } else {
            Case::with_sides(&net, rounds, expected)
        }
    }
}

/// A change to a net as it is built.
#[derive(Clone, Copy, Debug, PartialEq, Eq)]
pub enum Change {
    /// Vertex 0 becomes the last; the other vertices keep their order.
    FirstToLast,
    /// The faces stand in the opposite order.
    Backwards,
    /// The faces stand in an order drawn once.
    Shuffled,
    /// The last face is another one, whose last side runs as a side of an earlier
    /// face does: the number of that face, and of the side in it.
    Repeated(usize, usize),
    /// A further vertex, with this number, is in no face.
    Isolated(u32),
}

impl Change {
    fn make(self, net: &mut PolygonNet) {
        let vertices = to_u32(net.points.len());
        match self {
            Self::FirstToLast => {
                for corner in net.corners_mut() {
                    *corner = (*corner + vertices - 1) % vertices;
                }
            }
            Self::Backwards => net.faces.reverse(),
            Self::Shuffled => Rng::new(0).shuffle(&mut net.faces),
            Self::Repeated(face, side) => repeat_side(net, face, side),
            Self::Isolated(vertex) => {
                let later = net.corners_mut().filter(|corner| **corner >= vertex);
                later.for_each(|corner| *corner += 1);
                add_vertices(net, 1);
            }
        }
    }
}

fn add_vertices(net: &mut PolygonNet, count: usize) {
    let vertices = net.points.len() + count;
    net.points.resize(vertices, [0; 3]);
    net.marks.resize(vertices, 0);
}

/// The last face gives way to one with a repeated side and new vertices.
fn repeat_side(net: &mut PolygonNet, face: usize, side: usize) {
    let size = net.faces.pop().expect("a face").len();
    *net = drop_unused_vertices(std::mem::take(net));
    let earlier = &net.faces[face];
    let [from, to] = [side, side + 1].map(|corner| earlier[corner % size]);
    let new = (to_u32(net.points.len())..).take(size - 2);
    let corners = [to].into_iter().chain(new).chain([from]);
    net.faces.push(corners.collect());
    add_vertices(net, size - 2);
}

/// How the faces lie round the hub, how many there are, changes in this order,
/// rounds to call it with, and reason and place of the refusal.
pub type Row = (Hub, u32, &'static [Change], &'static [u32], [u32; 2]);

/// The first counts that are refused, the largest that a call allows and the
/// next; counts whose remainder by a power of two is 0, or is allowed; a side
/// repeated in the last face; and as many vertices as corners, or one more.
pub const ROWS: [Row; 93] = {
    use Change::{Backwards, FirstToLast, Isolated, Repeated, Shuffled};
    use Hub::{
        AnyCorners, Fan, FanPinched, FanToOne, FourAndRing, FourHubs, Petals, RingAndFour,
        ThreeFans, TriangleFan, TriangleWheel, TwoAndRing, TwoFans, TwoHubs, TwoRings, Wheel,
        WheelPinched, WheelToOne,
    };
    const ALL: &[u32] = &[0, 1, 2, 3];
    const AS_BUILT: &[Change] = &[];
    const HUB_LAST: &[Change] = &[FirstToLast];
    [
        (WheelToOne, 8, AS_BUILT, ALL, [11, 2]),
        (WheelToOne, 8, HUB_LAST, ALL, [11, 1]),
        (WheelToOne, 9, AS_BUILT, ALL, [11, 0]),
        (WheelToOne, 255, AS_BUILT, ALL, [11, 0]),
        (WheelToOne, 256, AS_BUILT, ALL, [11, 0]),
        (WheelToOne, 256, HUB_LAST, ALL, [11, 0]),
        (WheelToOne, 257, AS_BUILT, ALL, [11, 0]),
        (WheelToOne, 4_096, AS_BUILT, &[0, 3], [11, 0]),
        (WheelToOne, 4_096, &[Backwards], &[0], [11, 0]),
        (WheelToOne, 4_096, &[Shuffled], &[0], [11, 0]),
        (WheelToOne, 4_096, &[Repeated(2_048, 1)], &[0], [9, 4_095]),
        (
            WheelToOne,
            4_096,
            &[Backwards, Repeated(0, 0)],
            &[0],
            [9, 4_095],
        ),
        (
            WheelToOne,
            4_096,
            &[Shuffled, Repeated(4_094, 2)],
            &[0],
            [9, 4_095],
        ),
        (WheelToOne, 4_096, AS_BUILT, &[4], [3, 0]),
        (WheelToOne, 4_097, AS_BUILT, &[0], [3, 0]),
        (WheelPinched, 8, AS_BUILT, ALL, [11, 15]),
        (WheelPinched, 9, AS_BUILT, ALL, [11, 0]),
        (WheelPinched, 260, AS_BUILT, ALL, [11, 0]),
        (WheelPinched, 260, HUB_LAST, ALL, [11, 518]),
        (WheelPinched, 4_096, AS_BUILT, &[0, 2], [11, 0]),
        (Wheel, 9, AS_BUILT, ALL, [11, 0]),
        (Wheel, 9, HUB_LAST, ALL, [11, 18]),
        (Wheel, 255, AS_BUILT, ALL, [11, 0]),
        (Wheel, 256, AS_BUILT, ALL, [11, 0]),
        (Wheel, 257, AS_BUILT, ALL, [11, 0]),
        (Wheel, 260, AS_BUILT, ALL, [11, 0]),
        (Wheel, 260, HUB_LAST, ALL, [11, 520]),
        (Wheel, 264, AS_BUILT, ALL, [11, 0]),
        (Wheel, 516, AS_BUILT, &[0, 1], [11, 0]),
        (Wheel, 1_028, AS_BUILT, &[0, 1], [11, 0]),
        (Wheel, 2_052, AS_BUILT, &[0, 1], [11, 0]),
        (Wheel, 4_095, AS_BUILT, &[0], [11, 0]),
        (Wheel, 4_095, HUB_LAST, &[1], [11, 8_190]),
        (Wheel, 4_096, AS_BUILT, &[0], [3, 0]),
        (FanToOne, 6, AS_BUILT, ALL, [11, 3]),
        (FanToOne, 7, AS_BUILT, ALL, [11, 0]),
        (FanToOne, 258, HUB_LAST, ALL, [11, 0]),
        (FanPinched, 6, AS_BUILT, ALL, [11, 9]),
        (FanPinched, 262, HUB_LAST, ALL, [11, 520]),
        (FanPinched, 4_096, AS_BUILT, &[0], [11, 0]),
        (Fan, 7, AS_BUILT, ALL, [11, 0]),
        (Fan, 256, AS_BUILT, ALL, [11, 0]),
        (Fan, 258, AS_BUILT, ALL, [11, 0]),
        (Fan, 262, AS_BUILT, ALL, [11, 0]),
        (Fan, 262, HUB_LAST, ALL, [11, 525]),
        (Fan, 4_095, AS_BUILT, &[0], [11, 0]),
        (Fan, 4_095, HUB_LAST, &[1], [11, 8_191]),
        (Fan, 4_095, &[Repeated(0, 0)], &[0], [9, 4_094]),
        (
            Fan,
            4_095,
            &[FirstToLast, Repeated(4_093, 3)],
            &[0],
            [9, 4_094],
        ),
        (Fan, 4_096, AS_BUILT, &[0], [3, 0]),
        (TwoRings, 4_096, AS_BUILT, &[0], [10, 0]),
        (TwoFans, 262, AS_BUILT, ALL, [10, 0]),
        (TwoFans, 262, HUB_LAST, ALL, [10, 523]),
        (TwoFans, 4_096, AS_BUILT, &[0], [10, 0]),
        (
            TwoFans,
            4_095,
            &[Shuffled, Repeated(0, 3)],
            &[0],
            [9, 4_094],
        ),
        (ThreeFans, 3, AS_BUILT, ALL, [10, 0]),
        (ThreeFans, 6, HUB_LAST, ALL, [10, 12]),
        (ThreeFans, 4_096, AS_BUILT, &[0], [10, 0]),
        (ThreeFans, 4_096, &[Shuffled], &[0], [10, 0]),
        (ThreeFans, 4_096, &[Repeated(1_365, 0)], &[0], [9, 4_095]),
        (FourAndRing, 260, AS_BUILT, ALL, [10, 0]),
        (FourAndRing, 4_096, AS_BUILT, &[1], [10, 0]),
        (RingAndFour, 260, AS_BUILT, ALL, [10, 0]),
        (TwoAndRing, 258, AS_BUILT, ALL, [10, 0]),
        (TriangleWheel, 255, AS_BUILT, ALL, [11, 0]),
        (TriangleWheel, 256, AS_BUILT, ALL, [11, 0]),
        (TriangleWheel, 257, AS_BUILT, ALL, [11, 0]),
        (TriangleWheel, 260, HUB_LAST, ALL, [11, 260]),
        (TriangleWheel, 1_365, AS_BUILT, &[0, 3], [11, 0]),
        (TriangleWheel, 1_366, AS_BUILT, &[0], [3, 0]),
        (TriangleFan, 258, AS_BUILT, ALL, [11, 0]),
        (TriangleFan, 1_365, HUB_LAST, &[0], [11, 1_366]),
        (TwoHubs, 2, AS_BUILT, ALL, [10, 0]),
        (TwoHubs, 4_095, AS_BUILT, &[0], [10, 0]),
        (TwoHubs, 4_095, &[Shuffled], &[0], [10, 0]),
        (TwoHubs, 4_095, &[Repeated(0, 0)], &[0], [9, 4_094]),
        (TwoHubs, 4_095, &[Repeated(4_093, 3)], &[0], [9, 4_094]),
        (TwoHubs, 4_096, AS_BUILT, &[0], [3, 0]),
        (FourHubs, 512, AS_BUILT, &[0, 3], [10, 0]),
        (FourHubs, 512, &[Repeated(0, 0)], &[0], [9, 511]),
        (FourHubs, 512, &[Repeated(510, 7)], &[0], [9, 511]),
        (FourHubs, 513, AS_BUILT, &[0], [3, 0]),
        (AnyCorners, 4_096, AS_BUILT, &[0], [9, 24]),
        (Petals, 2_730, AS_BUILT, &[0], [10, 0]),
        (Petals, 2_730, &[Repeated(2_728, 0)], &[0], [9, 2_729]),
        (Petals, 1, &[Isolated(0)], ALL, [8, 0]),
        (Petals, 1, &[Isolated(4)], ALL, [8, 4]),
        (Petals, 2, &[Isolated(0)], ALL, [8, 0]),
        (Petals, 2, &[Isolated(7)], ALL, [8, 7]),
        (Petals, 2, &[Isolated(3), Isolated(8)], ALL, [8, 3]),
        (TriangleFan, 1, &[Isolated(3)], ALL, [8, 3]),
        (FourHubs, 1, &[Isolated(1)], ALL, [8, 1]),
        (FourHubs, 2, &[Isolated(5); 4], ALL, [8, 5]),
    ]
};

/// The net of a row, with all points 0.
pub fn row_net((hub, faces, changes, ..): Row) -> PolygonNet {
    let mut net = hub.net(faces);
    for change in changes {
        change.make(&mut net);
    }
    net
}

/// A call with the net of a row and so many rounds.
pub fn row_call(row: Row, rounds: u32, rng: &mut Rng) -> Case {
    let (hub, .., refusal) = row;
    hub.call(row_net(row), rounds, refusal, rng)
}

/// A call with any number of faces at its hub, often next to a power of two,
/// some with a repeated side, and with random numbers.
pub fn any_call(rng: &mut Rng) -> Case {
    let (hub, reason, most) = rng.pick(&Hub::ALONE);
    let few = [(9, 40), (255, 264), (511, 520)];
    let (low, high) = match rng.below(8) {
        0 => (9, most),
        1 => (most - 5, most),
        _ => rng.pick(&few),
    };
    let faces = rng.between(low, high).unsigned_abs();
    let mut net = hub.net(faces);
    // with two vertices more, as a repeated side may bring
    let has_room = net.points.len() + 2 <= MAX_VERTICES;
    let repeated = (has_room && rng.one_in(4)).then(|| rng.below(net.faces.len() - 1));
    if let Some(face) = repeated {
        Change::Repeated(face, rng.below(hub.sides())).make(&mut net);
    }
    if rng.one_in(2) {
        flip(&mut net);
    }
    let (net, numbering) = renumber(&net, rng);
    let last = numbering.faces[net.faces.len() - 1];
    let refusal = match repeated {
        Some(face) => [9, last.max(numbering.faces[face])],
        None => [reason, numbering.vertices[0]],
    };
    let rounds = to_u32(rng.below(2));
    hub.call(net, rounds, refusal, rng)
}
