//! Named nets: small nets that meet the cases of the rules one by one.

use std::sync::LazyLock;

use reference::net::{Mesh, Net, PolygonNet, sides};
use reference::point::Point;
use reference::refusal::{MAX_VERTICES, check_net};
use reference::rules::Tension;
use reference::topology::Topology;

use crate::case::ControlNet;
use crate::change::{
    Face, Placing, boundary_loops, drop_unused_vertices, flip, mark, place, renumber,
};
use crate::coordinates::{place_halves, place_peaks};
use crate::features::{End, pairs_of};
use crate::rng::Rng;
use crate::{shapes, solids};

named_cases! {
    /// What a named net is there for.
    pub enum Family {
        /// The square lattice with both sides identified, up to nine faces.
        Torus = "torus",
        /// Tori without a face, and without two.
        Punctured = "punctured",
        /// Closed, with 4, 6 or 8 faces at every vertex.
        Bipartite = "bipartite",
        /// Grids with a centre, marked in every place.
        Grid = "grid",
        /// One row of faces, marked in every place.
        Strip = "strip",
        /// Closed rows of faces, both loops marked in several manners.
        Band = "band",
        /// An open fan of one to six sectors.
        Fan = "fan",
        /// A full ring of sectors, which end one to three faces away.
        Ring = "ring",
        /// Two irregular inner vertices one to three faces apart.
        Apart = "apart",
        /// Two irregular inner vertices at opposite corners of a face.
        Diagonal = "diagonal",
        /// Ends of every two sorts joined by an inner edge.
        Ends = "ends",
        /// Fans of every two sizes joined by a boundary edge.
        Rim = "rim",
        /// A face with a neighbour on every side and regular corners, each
        /// neighbour before or after it; the same with an irregular corner, and
        /// without one neighbour.
        Inside = "inside",
        /// Faces of 3 to 8 sides.
        Polygons = "polygons",
    }
}

impl Family {
    /// Whether its nets come with their marks.
    pub fn has_marks(self) -> bool {
        matches!(self, Family::Grid | Family::Strip | Family::Band)
    }

    fn nets(self) -> Vec<(String, ControlNet)> {
        let nets = match self {
            Family::Torus => tori(),
            Family::Punctured => punctured(),
            Family::Bipartite => [4, 6, 8]
                .map(|n| (n.to_string(), shapes::bipartite(n)))
                .to_vec(),
            Family::Grid => marked(&[[3, 3], [4, 4], [5, 5], [3, 5]]),
            Family::Strip => marked(&[[1, 1], [2, 1], [3, 1], [4, 1], [5, 1]]),
            Family::Band => bands(),
            Family::Fan => sectors(1..=6, false),
            Family::Ring => sectors(3..=8, true),
            Family::Apart => apart(),
            Family::Diagonal => diagonal(),
            Family::Ends => ends(),
            Family::Rim => rims(),
            Family::Inside => inside(),
            Family::Polygons => return polygons(),
        };
        nets.into_iter()
            .map(|(name, net)| (name, ControlNet::Plain(net)))
            .collect()
    }
}

named_cases! {
    /// How a named net gets its points and numbers.
    pub enum Dressing {
        /// Points anywhere within some hundreds; numbers as built.
        Scattered = "scattered",
        /// Points anywhere within the limit; other numbers, some marks.
        Wide = "wide",
        /// The same with points at the limit.
        Peaks = "peaks",
        /// The same with points that make halves.
        Halves = "halves",
    }
}

/// A net that is there for a case of the rules.
#[derive(Clone, Debug)]
pub struct Named {
    pub family: Family,
    pub name: String,
    pub control: ControlNet,
}

/// All of them; their points come with a dressing.
pub static NAMED: LazyLock<Vec<Named>> = LazyLock::new(|| {
    let nets = Family::ALL.into_iter().flat_map(|family| {
        let named = move |(name, control)| Named {
            family,
            name: format!("{}-{name}", family.name()),
            control,
        };
        family.nets().into_iter().map(named)
    });
    nets.collect()
});

impl Named {
    /// The net with points, numbers and marks, for calls at a tension.
    pub fn dressed(&self, dressing: Dressing, tension: Tension, rng: &mut Rng) -> ControlNet {
        let mut control = match &self.control {
            ControlNet::Plain(net) => self.dress(net, ControlNet::Plain, dressing, rng),
            ControlNet::WithSides(net) => self.dress(net, ControlNet::WithSides, dressing, rng),
        };
        match dressing {
            Dressing::Peaks => place_peaks(&mut control, tension, rng),
            Dressing::Halves => place_halves(&mut control, tension, rng),
            Dressing::Scattered | Dressing::Wide => {}
        }
        control
    }

    fn dress<F: Face>(
        &self,
        net: &Mesh<F>,
        control: impl Fn(Mesh<F>) -> ControlNet,
        dressing: Dressing,
        rng: &mut Rng,
    ) -> ControlNet {
        let mut net = net.clone();
        if dressing == Dressing::Scattered {
            place(&mut net, Placing::Scattered, rng);
            return control(net);
        }
        if !self.family.has_marks() && rng.one_in(2) {
            mark(&mut net, rng);
        }
        if rng.one_in(2) {
            flip(&mut net);
        }
        let mut net = renumber(&net, rng).0;
        place(&mut net, Placing::Wide, rng);
        control(net)
    }
}

/// The net, the dressing and the tension of this number, where all nets come up
/// by turns, each time in another dressing and at another tension.
pub fn by_turns(number: usize) -> (&'static Named, Dressing, Tension) {
    let (turn, at) = (number / NAMED.len(), number % NAMED.len());
    let dressing = Dressing::ALL[(number + turn) % Dressing::ALL.len()];
    let tension = Tension::ALL[(at + turn) % Tension::ALL.len()];
    (&NAMED[at], dressing, tension)
}

/// Many named nets side by side, with up to so many faces where refining
/// begins, and with random numbers.
pub fn crowd(most_faces: usize, has_sides: bool, rng: &mut Rng) -> ControlNet {
    let unmarked = NAMED.iter().filter(|named| !named.family.has_marks());
    if has_sides {
        let parts = unmarked.map(|named| match &named.control {
            ControlNet::Plain(net) => PolygonNet::from(net),
            ControlNet::WithSides(net) => net.clone(),
        });
        let count = |net: &PolygonNet| net.corners().count();
        ControlNet::WithSides(united(&parts.collect::<Vec<_>>(), count, most_faces, rng))
    } else {
        let parts = unmarked.filter_map(|named| match &named.control {
            ControlNet::Plain(net) => Some(net.clone()),
            ControlNet::WithSides(_) => None,
        });
        let count = |net: &Net| net.faces.len();
        ControlNet::Plain(united(&parts.collect::<Vec<_>>(), count, most_faces, rng))
    }
}

/// Random parts side by side until hardly another one fits.
fn united<F: Face>(
    parts: &[Mesh<F>],
    count: impl Fn(&Mesh<F>) -> usize,
    most_faces: usize,
    rng: &mut Rng,
) -> Mesh<F> {
    let mut net = Mesh {
        points: vec![],
        faces: vec![],
        marks: vec![],
    };
    let (mut faces, mut misfits) = (0, 0);
    while misfits < parts.len() {
        let next = &parts[rng.below(parts.len())];
        let vertices = net.points.len() + next.points.len();
        if faces + count(next) <= most_faces && vertices <= MAX_VERTICES {
            faces += count(next);
            net = shapes::union(net, next);
        } else {
            misfits += 1;
        }
    }
    place(&mut net, Placing::Wide, rng);
    mark(&mut net, rng);
    renumber(&net, rng).0
}

type Nets = Vec<(String, Net)>;

/// Every lattice with up to nine vertices that is accepted.
fn tori() -> Nets {
    let sizes = (1..=9).flat_map(|across| (1..=9 / across).map(move |around| [around, across]));
    let all = sizes.flat_map(|size| (0..size[0]).map(move |twist| (size, twist)));
    let named = all.map(|(size, twist)| {
        let [around, across] = size;
        let name = format!("{around}-{across}-twist-{twist}");
        (name, shapes::twisted_torus(size, twist))
    });
    accepted(named)
}

fn accepted(nets: impl Iterator<Item = (String, Net)>) -> Nets {
    nets.filter(|(_, net)| check_net(net).is_ok()).collect()
}

/// Tori without their first face, and without the first two where no vertex
/// is left between two fans. They are irregular round the hole alone.
fn punctured() -> Nets {
    let skew = [(5, 2), (6, 2), (7, 3), (8, 3), (11, 2), (12, 2), (13, 2)];
    let skew = skew.map(|(size, twist)| ([size, 1], twist));
    let plain = [[3, 3], [4, 3], [4, 4]].map(|size| (size, 0));
    let mut nets = Vec::new();
    for (size, twist) in skew.into_iter().chain(plain) {
        for faces in [1, 2] {
            let mut net = shapes::twisted_torus(size, twist);
            net.faces.drain(..faces);
            let [around, across] = size;
            let name = format!("{around}-{across}-twist-{twist}-without-{faces}");
            nets.push((name, net));
        }
    }
    accepted(nets.into_iter())
}

/// Grids of these sizes without marks, with all, with the corners and with one
/// mark in each place.
fn marked(sizes: &[[i32; 2]]) -> Nets {
    let mut nets = Vec::new();
    for &[columns, rows] in sizes {
        let net = shapes::grid(columns, rows);
        let faces_at = |v: &u32| net.corners().filter(|corner| corner == v).count();
        let rim = boundary_loops(&net).concat();
        let corners = rim.iter().copied().filter(|v| faces_at(v) == 1).collect();
        let mut markings = vec![
            ("unmarked".to_owned(), vec![]),
            ("corners".to_owned(), corners),
            ("all".to_owned(), rim.clone()),
        ];
        markings.extend(rim.iter().map(|&v| (format!("mark-{v}"), vec![v])));
        for (name, vertices) in markings {
            let name = format!("{columns}-{rows}-{name}");
            nets.push((name, with_marks(&net, &vertices)));
        }
    }
    nets
}

fn with_marks(net: &Net, vertices: &[u32]) -> Net {
    let mut net = net.clone();
    for &vertex in vertices {
        net.marks[vertex as usize] = 1;
    }
    net
}

/// Bands of three or four faces round and up to four across; of each loop no
/// vertex, one or all are marked.
fn bands() -> Nets {
    let mut nets = Vec::new();
    let sizes = (3..=4).flat_map(|around| (1..=4).map(move |across| (around, across)));
    for (around, across) in sizes {
        let net = shapes::annulus(around, across);
        let loops = boundary_loops(&net);
        let counts = [0, 1, loops[0].len()];
        for (first, last) in counts.into_iter().flat_map(|a| counts.map(|b| (a, b))) {
            let marks = [&loops[0][..first], &loops[1][..last]].concat();
            let name = format!("{around}-{across}-marks-{first}-{last}");
            nets.push((name, with_marks(&net, &marks)));
        }
    }
    nets
}

/// Sectors of one to three faces each way round a vertex.
fn sectors(counts: impl Iterator<Item = i32>, is_ring: bool) -> Nets {
    let sizes = counts.flat_map(|count| (1..=3).map(move |size| (count, size)));
    sizes
        .map(|(count, size)| {
            let name = format!("{count}-size-{size}");
            (name, shapes::sectors(count, size, is_ring))
        })
        .collect()
}

/// Every two irregular valences, counted.
fn irregular_pairs() -> impl Iterator<Item = (usize, [usize; 2])> {
    pairs_of(&[3, 5, 6, 7, 8]).into_iter().enumerate()
}

/// Two inner vertices of these valences one to three faces apart; the boundary
/// is one to three faces away by turns.
fn apart() -> Nets {
    let mut nets = Vec::new();
    for (at, [first, second]) in irregular_pairs() {
        for distance in 1..=3 {
            let row = shapes::grid(distance, 1);
            let far = distance * shapes::UNIT;
            let valence = |point: &Point| match point {
                [0, 0, _] => first,
                [x, 0, _] if *x == far => second,
                _ => 4,
            };
            let valences: Vec<usize> = row.points.iter().map(valence).collect();
            let layers = 1 + (at + distance.unsigned_abs() as usize) % 3;
            let name = format!("{first}-{second}-by-{distance}-layers-{layers}");
            nets.push((name, shapes::surrounded(row, &valences, layers)));
        }
    }
    nets
}

/// The same at opposite corners of a face.
fn diagonal() -> Nets {
    let nets = irregular_pairs().map(|(at, [first, second])| {
        let layers = 1 + at % 3;
        let name = format!("{first}-{second}-layers-{layers}");
        (name, shapes::patch([first, 4, second, 4], layers))
    });
    nets.collect()
}

/// Vertices 0 and 1 as ends of these sorts, joined by an inner edge.
fn ends() -> Nets {
    let joined = |(at, pair): (usize, [End; 2])| {
        let valences = pair.map(|end| match end {
            End::Ring(faces) => faces,
            End::Fan(faces) => faces + 1,
        });
        let layers = 1 + at % 2;
        let mut net = shapes::patch([valences[0], valences[1], 4, 4], layers);
        for (vertex, end) in (0..).zip(pair) {
            if let End::Fan(_) = end {
                open(&mut net, vertex, 1 - vertex);
            }
        }
        let [first, second] = pair;
        let name = format!("{first}-{second}-layers-{layers}");
        (name, drop_unused_vertices(net))
    };
    End::pairs().into_iter().enumerate().map(joined).collect()
}

/// Removes a face at a vertex with a full ring, as far as can be from its edge
/// to the other vertex.
fn open(net: &mut Net, vertex: u32, other: u32) {
    let topology = Topology::new(&net.faces).expect("an accepted net");
    let mut ring = topology.star(vertex).expect("an accepted net").neighbours;
    let towards = ring.iter().position(|&v| v == other).expect("an edge");
    ring.rotate_left(towards);
    remove_face(net, vertex, ring[ring.len() / 2]);
}

/// Removes the face with this side.
fn remove_face(net: &mut Net, from: u32, to: u32) {
    net.faces
        .retain(|face| sides(face).all(|side| side != (from, to)));
}

/// Vertices 0 and 1 in so many faces each, joined by a boundary edge.
fn rims() -> Nets {
    let pairs = pairs_of(&[2, 3, 4, 5, 6]).into_iter().enumerate();
    let joined = |(at, [first, second]): (usize, [usize; 2])| {
        let layers = 1 + at % 2;
        let mut net = shapes::patch([first + 1, second + 1, 4, 4], layers);
        remove_face(&mut net, 1, 0);
        let name = format!("{first}-{second}-layers-{layers}");
        (name, drop_unused_vertices(net))
    };
    pairs.map(joined).collect()
}

/// The middle of a grid, with its neighbours before and after it in every
/// manner; a face with one irregular corner and two layers round it; the middle
/// of a larger grid without the neighbour on one side.
fn inside() -> Nets {
    let neighbours = [1, 5, 7, 3];
    let mut nets = Vec::new();
    for manner in 0..16 {
        let is_before = |side: usize| manner >> side & 1 == 1;
        let some = |wanted: bool| (0..4).filter(move |&side| is_before(side) == wanted);
        let before = some(true).map(|side| neighbours[side]);
        let after = some(false).map(|side| neighbours[side]);
        let order = before.chain([4]).chain(after).chain([0, 2, 6, 8]);
        let grid = shapes::grid(3, 3);
        let faces = order.map(|face: usize| grid.faces[face]).collect();
        nets.push((format!("before-{manner:04b}"), Net { faces, ..grid }));
    }
    for valence in [3, 5] {
        let name = format!("corner-{valence}");
        nets.push((name, shapes::patch([valence, 4, 4, 4], 2)));
    }
    for (side, face) in [(0, 7), (3, 11)] {
        let mut net = shapes::grid(5, 5);
        net.faces.remove(face);
        nets.push((format!("without-{side}"), net));
    }
    nets
}

/// Faces of every number of sides: alone, two of them, round a vertex, and in
/// closed nets.
fn polygons() -> Vec<(String, ControlNet)> {
    let mixed = |count: u32| -> Vec<u32> { (0..count).map(|i| 3 + (i + count) % 6).collect() };
    let mut nets = Vec::new();
    for n in 3..=8 {
        nets.push((format!("lone-{n}"), solids::separate(&[n])));
        nets.extend((n..=8).map(|m| (format!("two-{n}-{m}"), solids::star(&[n, m], false))));
        nets.push((format!("ring-{n}"), solids::star(&mixed(n), true)));
        nets.push((format!("pyramid-{n}"), solids::pyramid(n)));
        nets.push((format!("prism-{n}"), solids::prism(n)));
        nets.push((format!("antiprism-{n}"), solids::antiprism(n)));
    }
    nets.extend((3..=6).map(|n| (format!("fan-{n}"), solids::star(&mixed(n), false))));
    nets.into_iter()
        .map(|(name, net)| (name, ControlNet::WithSides(net)))
        .collect()
}
