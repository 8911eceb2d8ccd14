//! Nets of quadrilaterals, and of other polygons.

use crate::point::Point;

/// A net: a point and a corner mark per vertex, the vertex numbers of each
/// face.
#[derive(Clone, Debug, Default, PartialEq, Eq)]
pub struct Mesh<F> {
    pub points: Vec<Point>,
    pub faces: Vec<F>,
    pub marks: Vec<u8>,
}

/// A net of quadrilaterals, which rounds refine.
pub type Net = Mesh<[u32; 4]>;

/// A net drawn with side counts: each face is the list of its corners.
pub type PolygonNet = Mesh<Vec<u32>>;

impl Net {
    /// A net from flat tables; incomplete rows at the ends are left out.
    pub fn from_tables(vertices: &[i32], faces: &[u32], marks: &[u8]) -> Self {
        Self {
            points: vertices.as_chunks().0.to_vec(),
            faces: faces.as_chunks().0.to_vec(),
            marks: marks.to_vec(),
        }
    }
}

impl PolygonNet {
    /// A net from flat tables, with the number of sides of each face. The
    /// counts must add up to the corners.
    pub fn from_tables(vertices: &[i32], faces: &[u32], sides: &[u8], marks: &[u8]) -> Self {
        let mut rest = faces;
        let mut next_face = |&count: &u8| {
            let (face, others) = rest.split_at(usize::from(count));
            rest = others;
            face.to_vec()
        };
        let faces = sides.iter().map(&mut next_face).collect();
        assert!(rest.is_empty(), "the counts add up to the corners");
        Self {
            points: vertices.as_chunks().0.to_vec(),
            faces,
            marks: marks.to_vec(),
        }
    }

    /// The side counts: the number of sides of each face.
    pub fn side_table(&self) -> Vec<u8> {
        let count = |face: &Vec<u32>| u8::try_from(face.len()).expect("faces have few sides");
        self.faces.iter().map(count).collect()
    }
}

/// The net of a call as the caller gives it: flat tables and a tension, any of
/// which may be a reason for a refusal.
#[derive(Clone, Copy, Debug)]
pub struct NetRecord<'a> {
    pub vertices: &'a [i32],
    pub faces: &'a [u32],
    /// Sides of each face; none if every face has four.
    pub sides: &'a [u8],
    pub marks: &'a [u8],
    pub tension: u32,
}

impl NetRecord<'_> {
    /// F: the quadrilaterals that refining begins with. Without side counts they
    /// are the drawn faces, with them each drawn face gives one for each corner.
    pub fn quadrilaterals(&self) -> usize {
        if self.sides.is_empty() {
            self.faces.len() / 4
        } else {
            self.faces.len()
        }
    }
}

/// The same net with lists of corners.
impl From<&Net> for PolygonNet {
    fn from(net: &Net) -> Self {
        Self {
            points: net.points.clone(),
            faces: net.faces.iter().map(|face| face.to_vec()).collect(),
            marks: net.marks.clone(),
        }
    }
}

impl<F: AsRef<[u32]>> Mesh<F> {
    /// The vertex table: three coordinates per vertex.
    pub fn vertex_table(&self) -> Vec<i32> {
        self.points.as_flattened().to_vec()
    }

    /// The face table: the vertex numbers of one face after the other.
    pub fn face_table(&self) -> Vec<u32> {
        self.corners().collect()
    }

    /// The corners of all faces, face by face.
    pub fn corners(&self) -> impl Iterator<Item = u32> {
        self.faces.iter().flat_map(|face| face.as_ref()).copied()
    }
}

impl<F: AsMut<[u32]>> Mesh<F> {
    /// The corners of all faces, to be changed.
    pub fn corners_mut(&mut self) -> impl Iterator<Item = &mut u32> {
        self.faces.iter_mut().flat_map(|face| face.as_mut())
    }
}

impl<F> Mesh<F> {
    pub fn is_marked(&self, vertex: u32) -> bool {
        self.marks[vertex as usize] == 1
    }

    pub fn point(&self, vertex: u32) -> Point {
        self.points[vertex as usize]
    }
}

/// The sides of a face as ordered vertex pairs; side s runs from corner s to
/// corner s+1, counted modulo the number of corners.
pub fn sides(face: &[u32]) -> impl Iterator<Item = (u32, u32)> {
    let ends = face.iter().cycle().skip(1);
    face.iter().copied().zip(ends.copied())
}

/// A vertex pair without direction, as the name of an edge.
pub fn edge(a: u32, b: u32) -> (u32, u32) {
    (a.min(b), a.max(b))
}
