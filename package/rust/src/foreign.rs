//! The functions in the archive, as `gedrovit.h` declares them.

/// The record of new points, which every refining call takes. An accepted call adds the number of
/// refined vertices minus the number of drawn ones, with side counts the points of the split too; a
/// refused call adds nothing.
#[repr(C)]
#[derive(Debug, Default, PartialEq, Eq)]
pub struct Tally {
    pub(crate) points: u64,
}

#[repr(C)]
#[derive(Clone, Copy, Debug, PartialEq, Eq)]
pub struct Report {
    pub reason: u32,
    pub place: u64,
    pub vertices: u64,
    pub faces: u64,
}

#[repr(C)]
#[derive(Clone, Copy, Debug, PartialEq, Eq)]
pub struct Finding {
    pub reason: u32,
    pub place: u64,
}

#[repr(C)]
#[derive(Clone, Copy, Debug, PartialEq, Eq)]
pub struct Sizes {
    pub reason: u32,
    pub out_vertices: u64,
    pub out_faces: u64,
    pub out_marks: u64,
    pub work: u64,
}

#[repr(C)]
#[derive(Clone, Copy, Debug, PartialEq, Eq)]
pub struct SeamReport {
    pub reason: u32,
    pub place: u64,
    pub edges: u64,
}

unsafe extern "C" {
    pub fn gedrovit_version() -> u32;

    pub fn gedrovit_version_0_8_0() -> u32;

    pub fn gedrovit_refine(
        tally: *mut Tally,
        rounds: u32,
        vertices: *const i32,
        vertices_length: usize,
        faces: *const u32,
        faces_length: usize,
        sides: *const u8,
        sides_length: usize,
        marks: *const u8,
        marks_length: usize,
        tension: u32,
        out_vertices: *mut i32,
        out_vertices_length: usize,
        out_faces: *mut u32,
        out_faces_length: usize,
        out_marks: *mut u8,
        out_marks_length: usize,
        with_letters: bool,
        letters: *mut u8,
        letters_length: usize,
        work: *mut u32,
        work_length: usize,
    ) -> Report;

    pub fn gedrovit_check(
        rounds: u32,
        vertices: *const i32,
        vertices_length: usize,
        faces: *const u32,
        faces_length: usize,
        sides: *const u8,
        sides_length: usize,
        marks: *const u8,
        marks_length: usize,
        tension: u32,
        out_vertices_length: usize,
        out_faces_length: usize,
        out_marks_length: usize,
        with_letters: bool,
        letters_length: usize,
        work: *mut u32,
        work_length: usize,
    ) -> Finding;

    pub fn gedrovit_sizes_for(
        rounds: u32,
        vertices_length: usize,
        faces_length: usize,
        sides: *const u8,
        sides_length: usize,
        marks_length: usize,
    ) -> Sizes;

    pub fn gedrovit_share_seam(
        vertices_a: *const i32,
        vertices_a_length: usize,
        faces_a: *const u32,
        faces_a_length: usize,
        sides_a: *const u8,
        sides_a_length: usize,
        marks_a: *const u8,
        marks_a_length: usize,
        tension_a: u32,
        start_a: u32,
        vertices_b: *const i32,
        vertices_b_length: usize,
        faces_b: *const u32,
        faces_b_length: usize,
        sides_b: *const u8,
        sides_b_length: usize,
        marks_b: *const u8,
        marks_b_length: usize,
        tension_b: u32,
        start_b: u32,
        work: *mut u32,
        work_length: usize,
    ) -> SeamReport;
}
