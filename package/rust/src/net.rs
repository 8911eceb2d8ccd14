//! Nets and the tables that a call fills.

use crate::{lengths, refine, share_seam, Counts, Letter, Refusal, Tally, DEFAULT_TENSION};

/// A net in tables of its own, made by [`Net::new`] or by default, empty; later versions add fields.
#[derive(Clone, Debug, PartialEq, Eq)]
#[non_exhaustive]
pub struct Net {
    /// Three coordinates for each vertex.
    pub vertices: Vec<i32>,
    /// The vertex numbers of each face.
    pub faces: Vec<u32>,
    /// For each vertex 1 if the boundary has a corner there, 0 if not.
    pub marks: Vec<u8>,
    /// For each face how many sides it has; empty if all have four.
    pub sides: Vec<u8>,
    /// The tension, from 0 to 4; 0 is a surface of its own.
    pub tension: u32,
}

/// A net in borrowed tables, made by [`NetView::new`]; later versions add fields. Tables of arrays, as `[[i32; 3]]`, give theirs by `as_flattened`.
#[derive(Clone, Copy, Debug)]
#[non_exhaustive]
pub struct NetView<'a> {
    /// Three coordinates for each vertex.
    pub vertices: &'a [i32],
    /// The vertex numbers of each face.
    pub faces: &'a [u32],
    /// For each vertex 1 if the boundary has a corner there, 0 if not.
    pub marks: &'a [u8],
    /// For each face how many sides it has; empty if all have four.
    pub sides: &'a [u8],
    /// The tension, from 0 to 4; 0 is a surface of its own.
    pub tension: u32,
}

/// The tables that [`refine`] fills, with its workspace, made by [`Tables::new`]; later versions add
/// fields. What they hold before does not matter.
#[derive(Debug)]
#[non_exhaustive]
pub struct Tables<'a> {
    /// The refined vertices.
    pub vertices: &'a mut [i32],
    /// The refined faces.
    pub faces: &'a mut [u32],
    /// The refined marks.
    pub marks: &'a mut [u8],
    /// The workspace.
    pub work: &'a mut [u32],
    /// The letters, as bytes; none if they are not asked for. [`Letter::from`] gives the letter of a
    /// byte.
    pub letters: Option<&'a mut [u8]>,
}

/// A refined net with a letter for each of its vertices, which tells how its point was made. Later
/// versions add fields.
#[derive(Clone, Debug, Default, PartialEq, Eq)]
#[non_exhaustive]
pub struct Traced {
    /// The refined net.
    pub net: Net,
    /// For each vertex its letter.
    pub letters: Vec<Letter>,
}

/// The empty net, with [`DEFAULT_TENSION`].
impl Default for Net {
    fn default() -> Self {
        Self::new(Vec::new(), Vec::new(), Vec::new())
    }
}

impl Net {
    /// A net of these tables, every face with four sides, with [`DEFAULT_TENSION`].
    #[must_use]
    pub fn new(vertices: Vec<i32>, faces: Vec<u32>, marks: Vec<u8>) -> Self {
        Self {
            vertices,
            faces,
            marks,
            sides: Vec::new(),
            tension: DEFAULT_TENSION,
        }
    }

    /// The net with these side counts, from 3 to 8 for each face; its faces are then split before
    /// refining.
    #[must_use]
    pub fn with_sides(self, sides: Vec<u8>) -> Self {
        Self { sides, ..self }
    }

    /// The net with this tension, from 0 to 4. The lower it is, the less the surface overshoots; at 0
    /// new points are midpoints of edges and means of corners. Nets that are to share a boundary
    /// segment need equal tensions.
    #[must_use]
    pub fn with_tension(self, tension: u32) -> Self {
        Self { tension, ..self }
    }

    /// The net as borrowed tables.
    #[must_use]
    pub fn view(&self) -> NetView<'_> {
        NetView::new(&self.vertices, &self.faces, &self.marks)
            .with_sides(&self.sides)
            .with_tension(self.tension)
    }

    /// The net after this many refinement steps, all faces with four sides, in tables allocated for
    /// it and with the tension it was refined at. Its new points are added to the record.
    ///
    /// # Errors
    ///
    /// Every reason but 4, 17 and 18.
    pub fn refined(&self, tally: &mut Tally, rounds: u32) -> Result<Net, Refusal> {
        self.view().refined(tally, rounds)
    }

    /// As [`Net::refined`], with a letter for each vertex.
    ///
    /// # Errors
    ///
    /// Every reason but 4, 17 and 18.
    pub fn traced(&self, tally: &mut Tally, rounds: u32) -> Result<Traced, Refusal> {
        self.view().traced(tally, rounds)
    }

    /// Whether this net and another share the open segment that begins at vertex `start` of this one,
    /// read with its sides, and at vertex `other_start` of the other, read against its sides: the
    /// number of edges of that segment as drawn. Both starts are marked vertices. A yes holds for
    /// every refining of the two nets.
    ///
    /// # Errors
    ///
    /// Every reason but 1, 4 and 15, those of this net before those of the other, then 17 and 18.
    pub fn shares_with(&self, start: u32, other: &Net, other_start: u32) -> Result<usize, Refusal> {
        self.view().shares_with(start, other.view(), other_start)
    }
}

impl<'a> NetView<'a> {
    /// A net of these tables, every face with four sides, with [`DEFAULT_TENSION`].
    #[must_use]
    pub fn new(vertices: &'a [i32], faces: &'a [u32], marks: &'a [u8]) -> Self {
        Self {
            vertices,
            faces,
            marks,
            sides: &[],
            tension: DEFAULT_TENSION,
        }
    }

    /// As [`Net::with_sides`].
    #[must_use]
    pub fn with_sides(self, sides: &'a [u8]) -> Self {
        Self { sides, ..self }
    }

    /// As [`Net::with_tension`].
    #[must_use]
    pub fn with_tension(self, tension: u32) -> Self {
        Self { tension, ..self }
    }

    /// As [`Net::refined`].
    ///
    /// # Errors
    ///
    /// Every reason but 4, 17 and 18.
    pub fn refined(self, tally: &mut Tally, rounds: u32) -> Result<Net, Refusal> {
        let (mut net, mut work) = allocated(rounds, self)?;
        let tables = Tables::new(&mut net.vertices, &mut net.faces, &mut net.marks, &mut work);
        let counts = refine(tally, rounds, self, tables)?;
        net.cut(counts);
        Ok(net)
    }

    /// As [`Net::traced`].
    ///
    /// # Errors
    ///
    /// Every reason but 4, 17 and 18.
    pub fn traced(self, tally: &mut Tally, rounds: u32) -> Result<Traced, Refusal> {
        let (mut net, mut work) = allocated(rounds, self)?;
        let mut letters = vec![0; net.marks.len()];
        let tables = Tables::new(&mut net.vertices, &mut net.faces, &mut net.marks, &mut work)
            .with_letters(&mut letters);
        let counts = refine(tally, rounds, self, tables)?;
        net.cut(counts);
        let letters = letters[..counts.vertices].iter().copied();
        Ok(Traced {
            net,
            letters: letters.map(Letter::from).collect(),
        })
    }

    /// As [`Net::shares_with`].
    ///
    /// # Errors
    ///
    /// Every reason but 1, 4 and 15, those of this net before those of the other, then 17 and 18.
    pub fn shares_with(
        self,
        start: u32,
        other: NetView<'_>,
        other_start: u32,
    ) -> Result<usize, Refusal> {
        // A net without lengths needs no work table: the call refuses it before it looks at that.
        let needed = |net| lengths(0, net).map_or(0, |n| n.work);
        let mut work = vec![0; needed(self).max(needed(other))];
        share_seam(self, start, other, other_start, &mut work)
    }
}

impl<'a> Tables<'a> {
    /// These tables, and no letters.
    #[must_use]
    pub fn new(
        vertices: &'a mut [i32],
        faces: &'a mut [u32],
        marks: &'a mut [u8],
        work: &'a mut [u32],
    ) -> Self {
        Self {
            vertices,
            faces,
            marks,
            work,
            letters: None,
        }
    }

    /// The same with letters asked for, in a table as long as the marks; a shorter one is refused as
    /// they are.
    #[must_use]
    pub fn with_letters(self, letters: &'a mut [u8]) -> Self {
        Self {
            letters: Some(letters),
            ..self
        }
    }
}

/// Tables for the refined net, of the same tension, and the workspace.
fn allocated(rounds: u32, net: NetView<'_>) -> Result<(Net, Vec<u32>), Refusal> {
    let n = lengths(rounds, net)?;
    let tables = Net::new(vec![0; n.vertices], vec![0; n.faces], vec![0; n.marks]);
    Ok((tables.with_tension(net.tension), vec![0; n.work]))
}

impl Net {
    /// Leaves the refined net of its tables.
    fn cut(&mut self, counts: Counts) {
        cut(&mut self.vertices, 3 * counts.vertices);
        cut(&mut self.faces, 4 * counts.faces);
        cut(&mut self.marks, counts.vertices);
    }
}

fn cut<T>(table: &mut Vec<T>, length: usize) {
    table.truncate(length);
    table.shrink_to_fit();
}
