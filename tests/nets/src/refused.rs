//! Random calls and texts with one or more reasons for a refusal.

use reference::net::{Net, PolygonNet};
use reference::refusal::{MAX_COORDINATE, Refusal};
use reference::text::{Document, PROGRAM_REFINED_FACES};
use reference::topology::Topology;

use crate::accepted::{Shape, Size, accepted};
use crate::build::to_u32;
use crate::case::{Case, Expected, TextCase, document, most_rounds};
use crate::change::{Numbering, renumber};
use crate::polygons::{PolygonShape, accepted_polygons, some_size, some_sizes};
use crate::rng::Rng;
use crate::shapes;
use crate::solids;
use crate::tally::refused_tally;
use crate::tension::refused_tension;

/// Stands for a corner beyond the vertex table until the table is complete.
const BEYOND: u32 = u32::MAX;

/// What is wrong with a net.
#[derive(Clone, Debug, Default)]
struct Flaws {
    /// Reasons with their vertices.
    vertices: Vec<(u32, u32)>,
    /// Faces for reason 7.
    bad_faces: Vec<u32>,
    /// Pairs of faces with a common directed side, for reason 9.
    repeats: Vec<[u32; 2]>,
}

impl Flaws {
    fn vertex(&mut self, reason: u32, vertex: u32) {
        self.vertices.push((reason, vertex));
    }

    /// The lowest place for a reason, under a new numbering.
    fn place(&self, reason: u32, numbering: &Numbering) -> u32 {
        let vertex = |&(_, v): &(u32, u32)| numbering.vertices[v as usize];
        let face = |&f: &u32| numbering.faces[f as usize];
        let later = |[f, g]: &[u32; 2]| face(f).max(face(g));
        let of_reason = |(r, _): &&(u32, u32)| *r == reason;
        let place = match reason {
            7 => self.bad_faces.iter().map(face).min(),
            9 => self.repeats.iter().map(later).min(),
            _ => self.vertices.iter().filter(of_reason).map(vertex).min(),
        };
        place.expect("the reason was put in")
    }
}

/// A net in the making with reasons 5 to 12 put in.
struct Draft {
    net: PolygonNet,
    /// Whether every face has four sides.
    is_plain: bool,
    flaws: Flaws,
    /// Vertices and faces of the sound net that the draft began with.
    sound: (usize, usize),
    /// Vertices of the sound net with a full ring.
    inner: Vec<u32>,
}

impl Draft {
    fn new(net: PolygonNet, is_plain: bool) -> Self {
        let topology = Topology::new(&net.faces).expect("a sound net");
        let is_inner = |&vertex: &u32| topology.star(vertex).is_some_and(|star| star.is_ring());
        Self {
            flaws: Flaws::default(),
            sound: (net.points.len(), net.faces.len()),
            inner: (0..to_u32(net.points.len())).filter(is_inner).collect(),
            is_plain,
            net,
        }
    }

    /// The number of sides of a further face.
    fn size(&self, rng: &mut Rng) -> usize {
        if self.is_plain {
            4
        } else {
            some_size(rng) as usize
        }
    }

    /// Faces round one vertex, which is the first.
    fn star(&self, faces: i32, is_ring: bool, rng: &mut Rng) -> PolygonNet {
        if self.is_plain {
            PolygonNet::from(&shapes::sectors(faces, 1, is_ring))
        } else {
            solids::star(&some_sizes(faces, rng), is_ring)
        }
    }

    fn sound_vertex(&self, rng: &mut Rng) -> u32 {
        to_u32(rng.below(self.sound.0))
    }

    fn new_vertex(&mut self) -> u32 {
        self.net.points.push([1, 2, 3]);
        self.net.marks.push(0);
        to_u32(self.net.points.len() - 1)
    }

    fn new_vertices(&mut self, count: usize) -> Vec<u32> {
        (0..count).map(|_| self.new_vertex()).collect()
    }

    fn new_face(&mut self, corners: Vec<u32>) -> u32 {
        self.net.faces.push(corners);
        to_u32(self.net.faces.len() - 1)
    }

    /// Adds a separate net and returns its first vertex.
    fn add(&mut self, other: &PolygonNet) -> u32 {
        let first = to_u32(self.net.points.len());
        self.net = shapes::union(std::mem::take(&mut self.net), other);
        first
    }

    /// Puts in one of the reasons 5 to 12.
    fn put(&mut self, reason: u32, rng: &mut Rng) {
        match reason {
            5 => self.put_coordinate(rng),
            6 => {
                let vertex = self.sound_vertex(rng);
                self.net.marks[vertex as usize] = rng.pick(&[2, 3, 128, 255]);
                self.flaws.vertex(6, vertex);
            }
            7 => self.put_bad_face(rng),
            8 => {
                let vertex = self.new_vertex();
                self.flaws.vertex(8, vertex);
            }
            9 => self.put_repeated_side(rng),
            10 => self.put_pinch(rng),
            11 => self.put_bad_valence(rng),
            12 => self.put_inner_mark(rng),
            _ => panic!("reason {reason} is not in the net"),
        }
    }

    fn put_coordinate(&mut self, rng: &mut Rng) {
        let beyond = i32::try_from(MAX_COORDINATE + 1).expect("fits");
        let value = rng.pick(&[beyond, -beyond, i32::MAX, i32::MIN]);
        let vertex = self.sound_vertex(rng);
        self.net.points[vertex as usize][rng.below(3)] = value;
        self.flaws.vertex(5, vertex);
    }

    /// A face with a corner beyond the vertices, or with two equal corners.
    fn put_bad_face(&mut self, rng: &mut Rng) {
        let size = self.size(rng);
        let mut corners = self.new_vertices(size - 1);
        let last = rng.pick(&[&[BEYOND], &corners[..]].concat());
        corners.push(last);
        let face = self.new_face(corners);
        self.flaws.bad_faces.push(face);
    }

    /// A face again, or another one on a side that is taken; each face of the
    /// sound net is used once.
    fn put_repeated_side(&mut self, rng: &mut Rng) {
        let is_free = |&face: &usize| !self.flaws.repeats.iter().any(|[f, _]| *f == to_u32(face));
        let free: Vec<usize> = (0..self.sound.1).filter(is_free).collect();
        if free.is_empty() {
            return;
        }
        let earlier = rng.pick(&free);
        let mut corners = self.net.faces[earlier].clone();
        let turned = rng.below(corners.len());
        corners.rotate_left(turned);
        if rng.one_in(2) {
            let size = self.size(rng);
            corners.truncate(2);
            corners.extend(self.new_vertices(size - 2));
        }
        let later = self.new_face(corners);
        self.flaws.repeats.push([to_u32(earlier), later]);
    }

    /// A face or a closed surface that touches the net at one vertex.
    fn put_pinch(&mut self, rng: &mut Rng) {
        let vertex = self.sound_vertex(rng);
        let faces = self.net.faces.len();
        let is_face = rng.one_in(2);
        let other = match (self.is_plain, is_face) {
            (true, true) => PolygonNet::from(&shapes::grid(1, 1)),
            (true, false) => PolygonNet::from(&shapes::trapezohedron(3)),
            (false, true) => solids::separate(&[some_size(rng)]),
            (false, false) => solids::pyramid(some_size(rng)),
        };
        self.add(&other);
        let last = to_u32(self.net.points.len() - 1);
        for corner in self.net.faces[faces..].iter_mut().flatten() {
            if *corner == last {
                *corner = vertex;
            }
        }
        self.net.points.pop();
        self.net.marks.pop();
        self.flaws.vertex(10, vertex);
    }

    /// A mark inside the net, or inside a separate one.
    fn put_inner_mark(&mut self, rng: &mut Rng) {
        let is_free = |&&vertex: &&u32| self.net.marks[vertex as usize] == 0;
        let free: Vec<u32> = self.inner.iter().filter(is_free).copied().collect();
        let vertex = if !free.is_empty() && rng.one_in(2) {
            rng.pick(&free)
        } else {
            let ring = self.star(4, true, rng);
            self.add(&ring)
        };
        self.net.marks[vertex as usize] = 1;
        self.flaws.vertex(12, vertex);
    }

    /// A separate net with a ring of two, a ring of nine or more, or a fan of
    /// seven or more.
    fn put_bad_valence(&mut self, rng: &mut Rng) {
        match rng.below(4) {
            0 => {
                let ring = self.star(rng.between(9, 12), true, rng);
                let first = self.add(&ring);
                self.flaws.vertex(11, first);
            }
            1 => {
                let fan = self.star(rng.between(7, 9), false, rng);
                let first = self.add(&fan);
                self.flaws.vertex(11, first);
            }
            2 => {
                let [size, other] = [self.size(rng), self.size(rng).max(4)];
                let first = self.new_vertices(size);
                let (a, b, last) = (first[0], first[1], first[size - 1]);
                let mut second = vec![a, last];
                second.extend(self.new_vertices(other - 3));
                second.push(b);
                self.new_face(first);
                self.new_face(second);
                self.flaws.vertex(11, a);
            }
            _ => {
                let size = self.size(rng);
                let corners = self.new_vertices(size);
                self.new_face(corners.clone());
                self.new_face(corners.iter().rev().copied().collect());
                for vertex in corners {
                    self.flaws.vertex(11, vertex);
                }
            }
        }
    }

    /// The net under a random numbering, and the places of its reasons.
    fn finish(self, rng: &mut Rng) -> (PolygonNet, Flaws, Numbering) {
        let (mut net, numbering) = renumber(&self.net, rng);
        let vertices = to_u32(net.points.len());
        for corner in net.corners_mut() {
            if *corner == BEYOND {
                *corner = rng.pick(&[vertices, vertices + 1, i32::MAX as u32]);
            }
        }
        (net, self.flaws, numbering)
    }
}

/// A small sound net with at least one face.
pub(crate) fn base(rng: &mut Rng) -> Net {
    loop {
        let net = accepted(rng.pick(&Shape::ALL), Size::Small, rng);
        if !net.faces.is_empty() {
            return net;
        }
    }
}

/// A small sound net with side counts.
fn polygon_base(rng: &mut Rng) -> PolygonNet {
    accepted_polygons(rng.pick(&PolygonShape::ALL), Size::Small, rng)
}

/// A net of quadrilaterals with those of the reasons that lie in the net, and
/// what is then expected of a call with nothing else against it.
fn flawed(net: &Net, reasons: &[u32], rng: &mut Rng) -> (Net, Expected) {
    let draft = Draft::new(PolygonNet::from(net), true);
    let (net, expected) = with_flaws(draft, reasons, rng);
    (solids::plain(net), expected)
}

fn with_flaws(mut draft: Draft, reasons: &[u32], rng: &mut Rng) -> (PolygonNet, Expected) {
    let in_net: Vec<u32> = reasons
        .iter()
        .copied()
        .filter(|reason| (5..=12).contains(reason))
        .collect();
    for &reason in &in_net {
        draft.put(reason, rng);
        if rng.one_in(3) {
            draft.put(reason, rng);
        }
    }
    let (net, flaws, numbering) = draft.finish(rng);
    let expected = match in_net.iter().min() {
        Some(&reason) => {
            let place = flaws.place(reason, &numbering);
            Expected::Refused(Refusal::new(reason, place))
        }
        None => Expected::Accepted,
    };
    (net, expected)
}

/// A call with these of [`PLAIN_REASONS`] against it.
pub fn refused_call(reasons: &[u32], rng: &mut Rng) -> Case {
    let has = |reason| reasons.contains(&reason);
    let (start, mut rounds) = if has(3) {
        oversized(rng)
    } else {
        (base(rng), to_u32(rng.below(3)))
    };
    if has(1) {
        rounds = rng.pick(&[7, 8, 100, u32::MAX]);
    }
    let (net, expected) = flawed(&start, reasons, rng);
    let mut case = Case::new(&net, rounds, expected);
    if has(2) {
        break_tables(&mut case, rng);
    }
    if has(4) {
        shorten(&mut case, rng);
    }
    case.expected = callers_refusal(reasons).unwrap_or(case.expected);
    with_tally_and_tension(case, reasons, rng)
}

/// A call with side counts and these of [`POLYGON_REASONS`] against it.
pub fn refused_polygons(reasons: &[u32], rng: &mut Rng) -> Case {
    let has = |reason| reasons.contains(&reason);
    let (start, mut rounds) = if has(3) {
        oversized_polygons(rng)
    } else {
        (polygon_base(rng), to_u32(rng.below(3)))
    };
    if has(1) {
        rounds = rng.pick(&[7, 8, 100, u32::MAX]);
    }
    let (net, expected) = with_flaws(Draft::new(start, false), reasons, rng);
    let mut case = Case::with_sides(&net, rounds, expected);
    let breaks_vertices = has(2) && rng.one_in(2);
    if breaks_vertices {
        let surplus = rng.pick(&[1, 2]);
        case.vertices.resize(case.vertices.len() + surplus, 0);
    } else if has(2) {
        let marks = case.marks.len();
        let other = rng.pick(&[0, marks - 1, marks + 1]);
        case.marks.resize(other, 0);
    }
    if has(4) {
        shorten(&mut case, rng);
    }
    if has(14) {
        break_sides(&mut case, rng);
    }
    // The vertex part of 2 goes before 14, its marks part after it.
    let order: &[u32] = if breaks_vertices {
        &[1, 2, 14, 3, 4]
    } else {
        &[1, 14, 2, 3, 4]
    };
    if let Some(&reason) = order.iter().find(|&&reason| has(reason)) {
        case.expected = Expected::Refused(Refusal::new(reason, 0));
    }
    with_tally_and_tension(case, reasons, rng)
}

/// Puts in 15 and 16 if they are among these reasons. 15 is the last in the
/// order, 16 comes before 5.
fn with_tally_and_tension(mut case: Case, reasons: &[u32], rng: &mut Rng) -> Case {
    if reasons.contains(&15) {
        case = refused_tally(case, rng);
    }
    if reasons.contains(&16) {
        case = refused_tension(case, rng);
    }
    case
}

/// Reasons that a call without side counts can have.
pub const PLAIN_REASONS: [u32; 14] = [1, 2, 3, 4, 5, 6, 7, 8, 9, 10, 11, 12, 15, 16];

/// Reasons that a call with side counts can have.
pub const POLYGON_REASONS: [u32; 15] = [1, 2, 3, 4, 5, 6, 7, 8, 9, 10, 11, 12, 14, 15, 16];

/// Makes the side counts wrong, or the corners for them.
pub fn break_sides(case: &mut Case, rng: &mut Rng) {
    let at = rng.below(case.sides.len());
    match rng.below(12) {
        0 => case.sides[at] = rng.pick(&[0, 1, 2, 9, 10, 255]),
        // The sum is right.
        10 | 11 => {
            case.sides[at] = rng.pick(&[1, 2, 2, 9, 9, 10]);
            let sum = case.sides.iter().map(|&count| usize::from(count)).sum();
            case.faces.resize(sum, 0);
        }
        1 => case.sides[at] += 1,
        2 => case.sides[at] -= 1,
        3 => case.sides.push(rng.pick(&[0, 3, 8, 255])),
        4 => case.faces.push(0),
        5 => case.faces.truncate(case.faces.len() - 1),
        6 => case.faces.clear(),
        7 => case.sides = vec![3; 4 * case.faces.len()],
        8 => case.sides = vec![255; rng.pick(&[1, 300])],
        // The sum stays right.
        _ => case.sides.insert(at, 0),
    }
}

/// The lowest of the reasons 1 to 4, if any.
fn callers_refusal(reasons: &[u32]) -> Option<Expected> {
    let lowest = reasons
        .iter()
        .copied()
        .filter(|&reason| reason <= 4)
        .min()?;
    Some(Expected::Refused(Refusal::new(lowest, 0)))
}

/// Separate faces with so many corners, or some more.
fn separate_faces(corners: u32, rng: &mut Rng) -> PolygonNet {
    let mut sizes = Vec::new();
    while sizes.iter().sum::<u32>() < corners {
        sizes.push(some_size(rng));
    }
    solids::separate(&sizes)
}

/// A net with side counts and rounds, with too many refined faces, corners or
/// vertices.
fn oversized_polygons(rng: &mut Rng) -> (PolygonNet, u32) {
    match rng.below(3) {
        0 => (separate_faces(65, rng), 6),
        1 => (separate_faces(4_097, rng), 0),
        _ => {
            let mut net = polygon_base(rng);
            net.points.resize(8_193, [0; 3]);
            net.marks.resize(8_193, 0);
            (net, 0)
        }
    }
}

/// A net and rounds with too many refined faces, faces or vertices.
fn oversized(rng: &mut Rng) -> (Net, u32) {
    match rng.below(3) {
        0 => (shapes::grid(13, rng.between(5, 9)), 6),
        1 => (shapes::grid(241, 17), 0),
        _ => {
            let square = shapes::grid(1, 1);
            let squares = (0..11).fold(square.clone(), |net, _| shapes::union(net.clone(), &net));
            (shapes::union(squares, &square), 0)
        }
    }
}

/// Makes a table length wrong.
fn break_tables(case: &mut Case, rng: &mut Rng) {
    match rng.below(4) {
        0 => case.vertices.push(0),
        1 => case.faces.truncate(case.faces.len() - 1),
        2 => case.marks.push(0),
        _ => case.marks.truncate(case.marks.len() - 1),
    }
}

/// Makes one of the tables for the results too short; the letter table, if it
/// is chosen, is asked for. It is due as long as that of the marks.
fn shorten(case: &mut Case, rng: &mut Rng) {
    let asking = case.capacity.asking_for_letters(case.capacity.marks);
    let room = &mut case.capacity;
    let length = match rng.below(5) {
        0 => &mut room.vertices,
        1 => &mut room.faces,
        2 => &mut room.marks,
        3 => &mut room.workspace,
        _ => {
            *room = asking;
            &mut room.letters
        }
    };
    *length = rng.pick(&[0, *length / 2, *length - 1]);
}

/// Reasons that a well-formed text can have.
pub const TEXT_REASONS: [u32; 11] = [1, 3, 4, 5, 6, 7, 8, 9, 10, 11, 12];

/// A well-formed text with these of [`TEXT_REASONS`] against it.
pub fn refused_text(reasons: &[u32], rng: &mut Rng) -> TextCase {
    let (document, expected) = refused_document(reasons, rng);
    TextCase {
        text: document.to_text().into_bytes(),
        expected,
    }
}

/// The document of such a text, and what is expected of it.
pub fn refused_document(reasons: &[u32], rng: &mut Rng) -> (Document, Expected) {
    let has = |reason| reasons.contains(&reason);
    let start = if has(3) {
        shapes::grid(13, rng.between(5, 6))
    } else {
        base(rng)
    };
    let (net, expected) = flawed(&start, reasons, rng);
    let served = most_rounds(net.faces.len(), PROGRAM_REFINED_FACES);
    let rounds = if has(1) {
        rng.pick(&[7, 8, 1000, i32::MAX as u32])
    } else if has(3) {
        6
    } else if has(4) {
        (served + 1).min(6)
    } else {
        served.min(2)
    };
    let expected = callers_refusal(reasons).unwrap_or(expected);
    (document(&net, rounds, rng), expected)
}
