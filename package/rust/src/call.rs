//! The functions of the archive over slices.

use crate::foreign::{
    gedrovit_check, gedrovit_refine, gedrovit_share_seam, gedrovit_sizes_for, gedrovit_version,
    gedrovit_version_0_8_0,
};
use crate::{NetView, Refusal, Tables, Tally};

/// The version of the archive: 0.8.0 is 8000.
#[must_use]
pub fn version() -> u32 {
    // SAFETY: the function takes nothing.
    unsafe { gedrovit_version() }
}

/// Every function here calls this one: the name has the version in it, so that an archive of
/// another version does not link.
fn same_version() {
    // SAFETY: the function takes nothing.
    unsafe { gedrovit_version_0_8_0() };
}

/// How many vertices and faces a refined net has.
#[derive(Clone, Copy, Debug, PartialEq, Eq)]
pub struct Counts {
    /// The number of vertices.
    pub vertices: usize,
    /// The number of faces.
    pub faces: usize,
}

/// Lengths of the tables that a call fills, in elements, made by [`lengths`] or by default, all 0;
/// later versions add fields.
#[derive(Clone, Copy, Debug, Default, PartialEq, Eq)]
#[non_exhaustive]
pub struct Lengths {
    /// Of the refined vertices.
    pub vertices: usize,
    /// Of the refined faces.
    pub faces: usize,
    /// Of the refined marks.
    pub marks: usize,
    /// Of the workspace.
    pub work: usize,
    /// Of the letters; none if they are not asked for.
    pub letters: Option<usize>,
}

impl Lengths {
    /// The same with letters asked for, in a table as long as the marks.
    #[must_use]
    pub fn with_letters(self) -> Self {
        Self {
            letters: Some(self.marks),
            ..self
        }
    }
}

/// The least lengths of the tables that serve a net without letters, by the lengths of its own tables
/// and its side counts alone, not its tension. [`Lengths::with_letters`] adds the letters.
///
/// # Errors
///
/// Reasons 1, 2, 3 and 14: no call with these lengths and side counts is accepted.
pub fn lengths(rounds: u32, net: NetView<'_>) -> Result<Lengths, Refusal> {
    same_version();
    // SAFETY: as in `refine`.
    let sizes = unsafe {
        gedrovit_sizes_for(
            rounds,
            net.vertices.len(),
            net.faces.len(),
            net.sides.as_ptr(),
            net.sides.len(),
            net.marks.len(),
        )
    };
    Refusal::accept(sizes.reason, 0)?;
    Ok(Lengths {
        vertices: sizes.out_vertices as usize,
        faces: sizes.out_faces as usize,
        marks: sizes.out_marks as usize,
        work: sizes.work as usize,
        letters: None,
    })
}

/// Refines a net into the tables, from their front, adds its new points to the record, and tells its
/// numbers of vertices and faces. If there is a table for letters, it gets one for each refined vertex. Elements beyond the refined net stay as
/// they are. The first 16 G work numbers are 0 afterwards, G being the number of refined faces.
///
/// # Errors
///
/// Every reason but 17 and 18. The record, the vertices, faces, marks and letters stay as they are,
/// and on reasons 1 to 4, 14 and 16 the work numbers too.
pub fn refine(
    tally: &mut Tally,
    rounds: u32,
    net: NetView<'_>,
    tables: Tables<'_>,
) -> Result<Counts, Refusal> {
    same_version();
    let with_letters = tables.letters.is_some();
    let letters = tables.letters.unwrap_or_default();
    // SAFETY: references and slices are non-null, aligned and of at most isize::MAX bytes; mutable
    // ones overlap no other.
    let report = unsafe {
        gedrovit_refine(
            tally,
            rounds,
            net.vertices.as_ptr(),
            net.vertices.len(),
            net.faces.as_ptr(),
            net.faces.len(),
            net.sides.as_ptr(),
            net.sides.len(),
            net.marks.as_ptr(),
            net.marks.len(),
            net.tension,
            tables.vertices.as_mut_ptr(),
            tables.vertices.len(),
            tables.faces.as_mut_ptr(),
            tables.faces.len(),
            tables.marks.as_mut_ptr(),
            tables.marks.len(),
            with_letters,
            letters.as_mut_ptr(),
            letters.len(),
            tables.work.as_mut_ptr(),
            tables.work.len(),
        )
    };
    Refusal::accept(report.reason, report.place)?;
    Ok(Counts {
        vertices: report.vertices as usize,
        faces: report.faces as usize,
    })
}

/// Whether [`refine`] would refine the net into tables of these lengths and this work table, which
/// is left as by that call. `lengths.work` does not count. It takes no record, so the limit on that
/// is not judged.
///
/// # Errors
///
/// As [`refine`], but for reason 15.
pub fn check(
    rounds: u32,
    net: NetView<'_>,
    lengths: Lengths,
    work: &mut [u32],
) -> Result<(), Refusal> {
    same_version();
    // SAFETY: as in `refine`.
    let finding = unsafe {
        gedrovit_check(
            rounds,
            net.vertices.as_ptr(),
            net.vertices.len(),
            net.faces.as_ptr(),
            net.faces.len(),
            net.sides.as_ptr(),
            net.sides.len(),
            net.marks.as_ptr(),
            net.marks.len(),
            net.tension,
            lengths.vertices,
            lengths.faces,
            lengths.marks,
            lengths.letters.is_some(),
            lengths.letters.unwrap_or(0),
            work.as_mut_ptr(),
            work.len(),
        )
    };
    Refusal::accept(finding.reason, finding.place)
}

/// Whether two nets share the open segment that begins at vertex `start_a` of the first, read with
/// its sides, and at vertex `start_b` of the second, read against its sides: the number of edges of
/// that segment as drawn. A yes holds for every refining of the two nets. The work table needs the
/// larger [`Lengths::work`] of the two nets with 0 rounds; it is left as by [`check`] of the first
/// net and, if that is accepted, of the second. [`NetView::shares_with`] allocates it.
///
/// # Errors
///
/// The reasons of [`check`] with 0 rounds, those of the first net before those of the second; then 17
/// and 18.
pub fn share_seam(
    a: NetView<'_>,
    start_a: u32,
    b: NetView<'_>,
    start_b: u32,
    work: &mut [u32],
) -> Result<usize, Refusal> {
    same_version();
    // SAFETY: as in `refine`.
    let report = unsafe {
        gedrovit_share_seam(
            a.vertices.as_ptr(),
            a.vertices.len(),
            a.faces.as_ptr(),
            a.faces.len(),
            a.sides.as_ptr(),
            a.sides.len(),
            a.marks.as_ptr(),
            a.marks.len(),
            a.tension,
            start_a,
            b.vertices.as_ptr(),
            b.vertices.len(),
            b.faces.as_ptr(),
            b.faces.len(),
            b.sides.as_ptr(),
            b.sides.len(),
            b.marks.as_ptr(),
            b.marks.len(),
            b.tension,
            start_b,
            work.as_mut_ptr(),
            work.len(),
        )
    };
    Refusal::accept(report.reason, report.place)?;
    Ok(report.edges as usize)
}
