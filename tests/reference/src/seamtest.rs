//! The seam test of paper 02: "Given two nets, a marked vertex on each and a work
//! table", whether their boundary segments match from there as they are drawn.

use std::iter::successors;

use crate::call::{Outcome, Tables, refine_into};
use crate::net::{Net, NetRecord, PolygonNet};
use crate::point::Point;
use crate::refusal::{Capacity, Refusal};
use crate::seam::Way;
use crate::topology::Topology;

/// One of the two nets, and the vertex where its boundary segment begins.
#[derive(Clone, Copy, Debug)]
pub struct SeamSide<'a> {
    pub net: NetRecord<'a>,
    pub start: u32,
}

/// The number of edges of the segment, or the refusal; in `workspace` the final
/// state of the work table.
///
/// Refusals in their order: those of the first net, those of the second, 17 for
/// the first start, 17 for the second, 18.
pub fn test_seam(
    first: &SeamSide,
    second: &SeamSide,
    workspace: &mut Vec<u32>,
) -> Result<usize, Refusal> {
    let one = checked(&first.net, workspace)?;
    let other = checked(&second.net, workspace)?;
    check_start(&one, first.start, 1)?;
    check_start(&other, second.start, 2)?;
    let has_sides = |side: &SeamSide| !side.net.sides.is_empty();
    if first.net.tension != second.net.tension || has_sides(first) != has_sides(second) {
        return Err(Refusal::new(18, 0));
    }
    let one = segment(&one, first.start, Way::With);
    let other = segment(&other, second.start, Way::Against);
    match first_difference(&one, &other) {
        Some(step) => Err(Refusal::new(18, step)),
        None => Ok(one.len() - 1),
    }
}

/// The net as it is drawn: "the part first checks each net as a call of zero
/// rounds would"; "no outputs or tally are lent, and the work table is left as the
/// checks made leave it."
fn checked(net: &NetRecord, workspace: &mut Vec<u32>) -> Result<PolygonNet, Refusal> {
    let enough = Capacity::for_refined_faces(net.quadrilaterals());
    let mut tables = Tables {
        vertices: vec![0; enough.vertices],
        faces: vec![0; enough.faces],
        marks: vec![0; enough.marks],
        with_letters: false,
        letters: vec![],
        workspace: std::mem::take(workspace),
    };
    let outcome = refine_into(&mut 0, 0, *net, &mut tables);
    *workspace = tables.workspace;
    match outcome {
        Outcome::Refused { reason, place } => Err(Refusal::new(reason, place)),
        Outcome::Refined { .. } => Ok(as_drawn(net)),
    }
}

fn as_drawn(net: &NetRecord) -> PolygonNet {
    let NetRecord {
        vertices,
        faces,
        sides,
        marks,
        ..
    } = *net;
    if sides.is_empty() {
        PolygonNet::from(&Net::from_tables(vertices, faces, marks))
    } else {
        PolygonNet::from_tables(vertices, faces, sides, marks)
    }
}

/// "17, a start that is no marked vertex (place 1 or 2 for the net)".
fn check_start(net: &PolygonNet, start: u32, place: u32) -> Result<(), Refusal> {
    match net.marks.get(start as usize) {
        Some(1) => Ok(()),
        _ => Err(Refusal::new(17, place)),
    }
}

/// The points and marks from a marked vertex to the next mark on its loop, both
/// ends included; a single mark is its own next.
fn segment(net: &PolygonNet, start: u32, way: Way) -> Vec<(Point, bool)> {
    let topology = Topology::new(&net.faces).expect("an accepted net");
    let loops = topology.boundary();
    let next = match way {
        Way::With => loops.after,
        Way::Against => loops.before,
    };
    let mut list = vec![(net.point(start), net.is_marked(start))];
    for vertex in successors(Some(next[&start]), |at| Some(next[at])) {
        list.push((net.point(vertex), net.is_marked(vertex)));
        if net.is_marked(vertex) {
            break;
        }
    }
    list
}

/// "the first differing step, from 0". If one segment is the longer, the marks
/// differ where the other ends.
fn first_difference(one: &[(Point, bool)], other: &[(Point, bool)]) -> Option<u32> {
    let steps = (0..).zip(one.iter().zip(other));
    let mut differing = steps.filter(|(_, (a, b))| a != b);
    differing.next().map(|(step, _)| step)
}
