//! Calls through the safe functions: answers, refusals, and what they leave in the tables.

use gedrovit::{
    check, lengths, Counts, Lengths, Letter, Net, NetView, Reason, Refusal, Tables, Tally,
    DEFAULT_TENSION, MAX_TENSION,
};

/// What the tables hold before a call.
const FILL: u8 = 0xA5;

/// Output tables and workspace with content of their own.
#[derive(Clone, Debug, PartialEq)]
struct Owned {
    vertices: Vec<i32>,
    faces: Vec<u32>,
    marks: Vec<u8>,
    work: Vec<u32>,
    letters: Option<Vec<u8>>,
}

impl Owned {
    fn new(n: Lengths) -> Self {
        Self {
            vertices: vec![FILL.into(); n.vertices],
            faces: vec![FILL.into(); n.faces],
            marks: vec![FILL; n.marks],
            work: vec![FILL.into(); n.work],
            letters: n.letters.map(|length| vec![FILL; length]),
        }
    }

    fn lend(&mut self) -> Tables<'_> {
        let tables = Tables::new(
            &mut self.vertices,
            &mut self.faces,
            &mut self.marks,
            &mut self.work,
        );
        match &mut self.letters {
            Some(letters) => tables.with_letters(letters),
            None => tables,
        }
    }
}

/// The square of side 16 with four marked corners.
fn square() -> Net {
    Net::new(
        vec![0, 0, 0, 16, 0, 0, 16, 16, 0, 0, 16, 0],
        vec![0, 1, 2, 3],
        vec![1, 1, 1, 1],
    )
}

/// The square after one step.
fn refined_square() -> Net {
    Net::new(
        [
            [0, 0, 0],
            [16, 0, 0],
            [16, 16, 0],
            [0, 16, 0],
            [8, 0, 0],
            [16, 8, 0],
            [8, 16, 0],
            [0, 8, 0],
            [8, 8, 0],
        ]
        .concat(),
        [[0, 4, 8, 7], [1, 5, 8, 4], [2, 6, 8, 5], [3, 7, 8, 6]].concat(),
        vec![1, 1, 1, 1, 0, 0, 0, 0, 0],
    )
}

fn refusal(reason: Reason, place: usize) -> Refusal {
    Refusal { reason, place }
}

/// The refining call with a fresh record, which holds the new points afterwards.
fn refine(rounds: u32, net: NetView<'_>, tables: Tables<'_>) -> Result<Counts, Refusal> {
    let mut tally = Tally::new();
    let answer = gedrovit::refine(&mut tally, rounds, net, tables);
    let after = answer.map_or(0, |counts| counts.vertices - net.marks.len());
    assert_eq!(tally.points(), after as u64);
    answer
}

/// The refined net, with a fresh record.
fn refined(net: NetView<'_>, rounds: u32) -> Result<Net, Refusal> {
    let mut tally = Tally::new();
    let answer = net.refined(&mut tally, rounds);
    let after = answer
        .as_ref()
        .map_or(0, |fine| fine.marks.len() - net.marks.len());
    assert_eq!(tally.points(), after as u64);
    answer
}

#[test]
fn the_square_is_refined() {
    assert_eq!(refined(square().view(), 1), Ok(refined_square()));
}

#[test]
fn zero_rounds_copy() {
    assert_eq!(refined(refined_square().view(), 0), Ok(refined_square()));
}

#[test]
fn steps_can_be_done_one_by_one() {
    for tension in 0..=MAX_TENSION {
        let net = hills(3, 2).with_tension(tension);
        let once = refined(net.view(), 1).unwrap();
        let twice = refined(once.view(), 1);
        assert_eq!(refined(net.view(), 2), twice);
        assert_eq!(twice.unwrap().tension, tension);
    }
}

/// The square without marks: its boundary is one closed segment.
fn unmarked_square() -> Net {
    let mut net = square();
    net.marks.fill(0);
    net
}

#[test]
fn a_net_has_the_default_tension_unless_it_is_set() {
    let net = unmarked_square();
    let view = NetView::new(&net.vertices, &net.faces, &net.marks);
    for tension in [net.tension, view.tension, Net::default().tension] {
        assert_eq!(tension, DEFAULT_TENSION);
    }
    assert_eq!(refined(view, 1).unwrap().vertices[12..15], [8, -2, 0]);
    assert_eq!(refined(view, 1), refined(net.with_tension(4).view(), 1));
}

#[test]
fn a_lower_tension_overshoots_less() {
    let points = [0, 0, -1, -1, -2];
    for (tension, y) in (0..=MAX_TENSION).zip(points) {
        let net = unmarked_square().with_tension(tension);
        assert_eq!(refined(net.view(), 1).unwrap().vertices[12..15], [8, y, 0]);
        assert_eq!(letters(&net, 1), "VVVVAAAAE");
    }
}

#[test]
fn at_tension_zero_nothing_overshoots() {
    let net = hills(4, 3);
    let range = |net: &Net, first| {
        let axis = axis(&net.vertices, first);
        (axis.iter().min().copied(), axis.iter().max().copied())
    };
    for first in 0..3 {
        let flat = refined(net.view().with_tension(0), 4).unwrap();
        assert_eq!(range(&flat, first), range(&net, first));
        let full = refined(net.view(), 4).unwrap();
        assert_ne!(range(&full, first), range(&net, first));
    }
}

#[test]
fn a_tension_above_the_limit_is_refused_and_tables_are_left_alone() {
    let mut net = square();
    net.vertices[7] = gedrovit::MAX_COORDINATE + 1;
    for tension in [MAX_TENSION + 1, u32::MAX] {
        let net = net.view().with_tension(tension);
        let n = lengths(1, net).unwrap().with_letters();
        let mut tables = Owned::new(n);
        let refused = refusal(Reason::TensionOutOfRange, 0);
        assert_eq!(check(1, net, n, &mut tables.work), Err(refused));
        assert_eq!(refine(1, net, tables.lend()), Err(refused));
        assert_eq!(tables, Owned::new(n));
        let mut tally = Tally::with_points(u64::MAX);
        assert_eq!(net.refined(&mut tally, 1), Err(refused));
        assert_eq!(tally, Tally::with_points(u64::MAX));
        let mut short = n;
        short.work -= 1;
        assert_eq!(
            refine(1, net, Owned::new(short).lend()),
            Err(refusal(Reason::TableTooShort, 0))
        );
    }
}

#[test]
fn the_split_has_no_tension() {
    let net = lone(&[0, 7, -3, 5, 9]);
    let split = refined(net.view(), 0).unwrap();
    for tension in 0..=MAX_TENSION {
        let other = refined(net.view().with_tension(tension), 0).unwrap();
        assert_eq!(other, split.clone().with_tension(tension));
    }
}

#[test]
fn an_empty_net_needs_no_tables() {
    let none = Lengths::default();
    let empty = Net::default();
    assert_eq!(lengths(6, empty.view()), Ok(none));
    for n in [none, none.with_letters()] {
        assert_eq!(
            refine(6, empty.view(), Owned::new(n).lend()),
            Ok(Counts {
                vertices: 0,
                faces: 0
            })
        );
        assert_eq!(check(6, empty.view(), n, &mut []), Ok(()));
    }
    assert_eq!(refined(empty.view(), 6), Ok(Net::default()));
    let traced = empty.traced(&mut Tally::new(), 6).unwrap();
    assert_eq!((traced.net, traced.letters), (Net::default(), vec![]));
}

#[test]
fn elements_beyond_the_refined_net_stay() {
    for surplus in [None, Some(0), Some(1), Some(9)] {
        let mut n = lengths(1, square().view()).unwrap();
        n.work += 5;
        n.letters = surplus.map(|bytes| n.marks + bytes);
        let mut tables = Owned::new(n);
        assert_eq!(
            refine(1, square().view(), tables.lend()),
            Ok(Counts {
                vertices: 9,
                faces: 4
            })
        );

        let refined = refined_square();
        let mut expected = Owned::new(n);
        expected.vertices[..27].copy_from_slice(&refined.vertices);
        expected.faces[..16].copy_from_slice(&refined.faces);
        expected.marks[..9].copy_from_slice(&refined.marks);
        expected.work[..64].fill(0);
        if let Some(letters) = &mut expected.letters {
            letters[..9].copy_from_slice(b"VVVVMMMME");
        }
        assert_eq!(tables, expected);
    }
}

fn letters(net: &Net, rounds: u32) -> String {
    let mut tally = Tally::new();
    let traced = net.traced(&mut tally, rounds).unwrap();
    assert_eq!(net.refined(&mut Tally::new(), rounds), Ok(traced.net));
    traced.letters.iter().map(Letter::to_string).collect()
}

#[test]
fn letters_tell_how_points_were_made() {
    assert_eq!(letters(&square(), 0), "VVVV");
    assert_eq!(letters(&square(), 1), "VVVVMMMME");
    let unmarked = unmarked_square();
    assert_eq!(letters(&unmarked, 1), "VVVVAAAAE");
    assert_eq!(letters(&unmarked.with_sides(vec![4]), 0), "VVVVSSSSS");
    // A segment of one edge gives M once and two end edges in the next step.
    let twice = letters(&square(), 2);
    assert!(twice.starts_with("VVVVMMMME"));
    assert_eq!(twice.matches('B').count(), 8);
}

/// A flat grid without marks.
fn grid(columns: u32, rows: u32) -> Net {
    let across = columns + 1;
    let vertices =
        (0..=rows).flat_map(|y| (0..=columns).flat_map(move |x| [x as i32, y as i32, 0]));
    let first = (0..rows).flat_map(|y| (0..columns).map(move |x| y * across + x));
    Net::new(
        vertices.collect(),
        first
            .flat_map(|v| [v, v + 1, v + across + 1, v + across])
            .collect(),
        vec![0; (across * (rows + 1)) as usize],
    )
}

/// A grid with hills, 100 counts to a face.
fn hills(columns: u32, rows: u32) -> Net {
    let mut net = grid(columns, rows);
    for (v, point) in net.vertices.chunks_mut(3).enumerate() {
        point[2] = 70 * (v as i32 % 3);
        point[..2].iter_mut().for_each(|n| *n *= 100);
    }
    net
}

#[test]
fn faces_with_four_inner_edges_are_told_from_others() {
    for (columns, rows, due) in [(3, 3, 0), (5, 3, 3), (5, 5, 9)] {
        let all = letters(&grid(columns, rows), 1);
        assert_eq!(all.matches('D').count(), due);
        assert_eq!(all.matches('E').count(), (columns * rows) as usize - due);
    }
}

#[test]
fn short_tables_are_refused_and_left_alone() {
    let enough = lengths(1, square().view()).unwrap();
    let mut short = [enough; 6];
    short[0].vertices -= 1;
    short[1].faces -= 1;
    short[2].marks -= 1;
    short[3].work -= 1;
    short[4].letters = Some(enough.marks - 1);
    short[5].letters = Some(0);
    for n in short {
        let mut tables = Owned::new(n);
        let expected = Err(refusal(Reason::TableTooShort, 0));
        assert_eq!(
            check(1, square().view(), n, &mut tables.work),
            expected.map(|_: Counts| ())
        );
        assert_eq!(refine(1, square().view(), tables.lend()), expected);
        assert_eq!(tables, Owned::new(n));
    }
}

#[test]
fn a_refused_net_clears_the_workspace_only() {
    let mut net = square();
    net.vertices[7] = 1_048_577;
    let n = lengths(2, net.view()).unwrap().with_letters();
    let mut tables = Owned::new(n);
    assert_eq!(
        refine(2, net.view(), tables.lend()),
        Err(refusal(Reason::CoordinateOutOfRange, 2))
    );
    assert_eq!(
        tables,
        Owned {
            work: vec![0; n.work],
            ..Owned::new(n)
        }
    );
}

#[test]
fn each_table_of_the_net_is_checked() {
    let (vertices, faces, marks) = (
        &square().vertices[..],
        &square().faces[..],
        &square().marks[..],
    );
    let cases = [
        (7, vertices, faces, marks, Reason::TooManyRounds, 0),
        (1, &vertices[..11], faces, marks, Reason::InvalidLengths, 0),
        (1, vertices, &faces[..3], marks, Reason::InvalidLengths, 0),
        (1, vertices, faces, &marks[..3], Reason::InvalidLengths, 0),
        (6, vertices, &[0; 4 * 65], marks, Reason::NetTooLarge, 0),
        (1, vertices, faces, &[1, 1, 1, 2], Reason::InvalidMark, 3),
        (
            1,
            vertices,
            &[0, 1, 2, 3, 0, 1, 2, 4],
            marks,
            Reason::InvalidCorner,
            1,
        ),
        (1, vertices, &[], marks, Reason::IsolatedVertex, 0),
        (
            1,
            vertices,
            &[0, 1, 2, 3, 0, 1, 2, 3],
            marks,
            Reason::RepeatedHalfEdge,
            1,
        ),
        (
            1,
            vertices,
            &[0, 1, 2, 3, 0, 3, 2, 1],
            marks,
            Reason::ValenceOutOfRange,
            0,
        ),
    ];
    for (rounds, vertices, faces, marks, reason, place) in cases {
        let net = NetView::new(vertices, faces, marks);
        assert_eq!(refined(net, rounds), Err(refusal(reason, place)));
    }
}

#[test]
fn vertices_are_checked() {
    let touching = NetView::new(&[0; 21], &[0, 1, 2, 3, 3, 4, 5, 6], &[0; 7]);
    assert_eq!(
        refined(touching, 1),
        Err(refusal(Reason::NonManifoldVertex, 3))
    );
    let mut marked = refined_square();
    marked.marks[8] = 1;
    assert_eq!(
        refined(marked.view(), 1),
        Err(refusal(Reason::MarkedInteriorVertex, 8))
    );
}

/// A net of one face with these heights above corners on a parabola, without marks.
fn lone(heights: &[i32]) -> Net {
    let count = heights.len() as u32;
    let vertices = heights
        .iter()
        .enumerate()
        .flat_map(|(i, &z)| [i as i32, (i * i) as i32, z]);
    Net::new(
        vertices.collect(),
        (0..count).collect(),
        vec![0; heights.len()],
    )
    .with_sides(vec![count as u8])
}

/// Every third number from this one on.
fn axis(vertices: &[i32], first: usize) -> Vec<i32> {
    vertices.iter().skip(first).step_by(3).copied().collect()
}

#[test]
fn zero_rounds_split_a_net_with_side_counts() {
    let triangle = Net::new(
        vec![0, 0, 0, 6, 0, 0, 0, 6, 0],
        vec![0, 1, 2],
        vec![1, 0, 1],
    )
    .with_sides(vec![3]);
    let split = Net::new(
        [
            [0, 0, 0],
            [6, 0, 0],
            [0, 6, 0],
            [3, 0, 0],
            [3, 3, 0],
            [0, 3, 0],
            [2, 2, 0],
        ]
        .concat(),
        [[0, 3, 6, 5], [1, 4, 6, 3], [2, 5, 6, 4]].concat(),
        vec![1, 0, 1, 0, 0, 0, 0],
    );
    assert_eq!(refined(triangle.view(), 0), Ok(split.clone()));
    assert_eq!(refined(triangle.view(), 2), refined(split.view(), 2));
}

#[test]
fn midpoints_and_means_are_rounded_once() {
    let split = refined(lone(&[0, 0, -1, 0, -2]).view(), 0).unwrap();
    assert_eq!(axis(&split.vertices, 2)[5..], [0, 0, 0, -1, -1, -1]);
}

#[test]
fn faces_of_four_sides_are_split_too() {
    let mut counted = square().with_sides(vec![4]);
    counted.marks.fill(0);
    let split = refined(counted.view(), 0).unwrap();
    assert_eq!(split.faces.len() / 4, 4);
    assert_eq!(split.vertices[12..15], [8, 0, 0]);
    counted.sides.clear();
    let round = refined(counted.view(), 1).unwrap();
    assert_eq!(round.vertices[12..15], [8, -2, 0]);
}

#[test]
fn faces_have_three_to_eight_sides() {
    for count in 0..=20 {
        let net = lone(&vec![0; count]);
        let range = usize::from(gedrovit::MIN_SIDES)..=usize::from(gedrovit::MAX_SIDES);
        let corners = refined(net.view(), 1).map(|refined| refined.faces.len());
        if range.contains(&count) {
            assert_eq!(corners, Ok(16 * count));
        } else {
            assert_eq!(corners, Err(refusal(Reason::InvalidSideCounts, 0)));
        }
    }
}

#[test]
fn side_counts_are_tested_after_the_vertices_and_before_the_marks() {
    let short = Net::new(vec![0; 12], vec![0, 1, 2, 3, 4], vec![0; 3]);
    let refused = [
        (7, 12, 3, Reason::TooManyRounds),
        (1, 11, 3, Reason::InvalidLengths),
        (1, 12, 3, Reason::InvalidSideCounts),
        (1, 12, 5, Reason::InvalidLengths),
    ];
    for (rounds, vertices, count, reason) in refused {
        let view = NetView::new(&short.vertices[..vertices], &short.faces, &short.marks);
        let view = view.with_sides(std::slice::from_ref(&count));
        let mut tables = Owned::new(Lengths::default().with_letters());
        let before = tables.clone();
        assert_eq!(refine(rounds, view, tables.lend()), Err(refusal(reason, 0)));
        assert_eq!(tables, before);
        assert_eq!(lengths(rounds, view), Err(refusal(reason, 0)));
    }
}

#[test]
fn limits_count_the_corners_where_there_are_side_counts() {
    let triangles = |count: u32| {
        Net::new(
            vec![0; 9 * count as usize],
            (0..3 * count).collect(),
            vec![0; 3 * count as usize],
        )
        .with_sides(vec![3; count as usize])
    };
    assert_eq!(
        lengths(0, triangles(1365).view()).map(|n| n.work),
        Ok(16 * 4095)
    );
    let too_large = Err(refusal(Reason::NetTooLarge, 0));
    assert_eq!(lengths(0, triangles(1366).view()), too_large);
    assert_eq!(
        lengths(6, triangles(21).view()).map(|n| n.faces),
        Ok(4 * 63 * 4096)
    );
    assert_eq!(lengths(6, triangles(22).view()), too_large);
}

#[test]
fn places_are_those_of_control_faces() {
    let twice = NetView::new(&[0; 9], &[0, 1, 2, 2, 1, 2], &[0; 3]).with_sides(&[3, 3]);
    assert_eq!(refined(twice, 0), Err(refusal(Reason::InvalidCorner, 1)));
    let turned = NetView::new(&[0; 12], &[0, 1, 2, 0, 1, 3], &[0; 4]).with_sides(&[3, 3]);
    assert_eq!(
        refined(turned, 0),
        Err(refusal(Reason::RepeatedHalfEdge, 1))
    );
}

#[test]
fn lengths_follow_the_refined_faces() {
    let mut expected = Lengths::default();
    expected.vertices = 12 * 4096;
    expected.faces = 4 * 4096;
    expected.marks = 4 * 4096;
    expected.work = 16 * 4096;
    let least = lengths(6, square().view());
    assert_eq!(least, Ok(expected));
    expected.letters = Some(4 * 4096);
    assert_eq!(least.map(Lengths::with_letters), Ok(expected));
}

#[test]
fn the_check_tells_what_refining_would() {
    let net = square();
    let n = lengths(3, net.view()).unwrap();
    assert_eq!(check(3, net.view(), n, &mut vec![7; n.work]), Ok(()));
}

#[test]
fn threads_share_a_net() {
    let net = refined_square();
    let expected = refined(net.view(), 5).unwrap();
    std::thread::scope(|scope| {
        let calls: Vec<_> = (0..4)
            .map(|_| scope.spawn(|| refined(net.view(), 5)))
            .collect();
        for call in calls {
            assert_eq!(call.join().unwrap().as_ref(), Ok(&expected));
        }
    });
}

#[test]
fn a_record_adds_up_over_the_accepted_calls() {
    let mut tally = Tally::default();
    assert_eq!(tally, Tally::new());
    square().refined(&mut tally, 1).unwrap();
    assert_eq!(tally.points(), 5);
    square().refined(&mut tally, 7).unwrap_err();
    assert_eq!(tally.points(), 5);
    lone(&[0, 0, 0]).refined(&mut tally, 0).unwrap();
    assert_eq!(tally.points(), 5 + 4);
    refined_square().refined(&mut tally, 0).unwrap();
    assert_eq!(tally.points(), 5 + 4);
}

#[test]
fn a_record_beyond_its_limit_is_refused() {
    let refused = refusal(Reason::TallyLimit, 0);
    let cases = [
        (1, gedrovit::MAX_TALLY - 5, true),
        (1, gedrovit::MAX_TALLY - 4, false),
        (0, gedrovit::MAX_TALLY, true),
        (0, gedrovit::MAX_TALLY + 1, false),
        (1, u64::MAX, false),
        (1, u64::MAX - 4, false),
    ];
    for (rounds, points, is_accepted) in cases {
        let n = lengths(rounds, square().view()).unwrap().with_letters();
        let (mut tally, mut tables) = (Tally::with_points(points), Owned::new(n));
        let answer = gedrovit::refine(&mut tally, rounds, square().view(), tables.lend());
        assert_eq!(answer.err(), (!is_accepted).then_some(refused));
        if is_accepted {
            assert_eq!(tally.points(), gedrovit::MAX_TALLY);
            continue;
        }
        assert_eq!(tally.points(), points);
        let cleared = Owned {
            work: vec![0; n.work],
            ..Owned::new(n)
        };
        assert_eq!(tables, cleared);
        let mut work = vec![7; n.work];
        assert_eq!(check(rounds, square().view(), n, &mut work), Ok(()));
    }
}

#[test]
fn the_record_is_judged_last() {
    let mut net = square();
    net.marks[3] = 2;
    let mut tally = Tally::with_points(u64::MAX);
    let answer = net.refined(&mut tally, 1);
    assert_eq!(answer, Err(refusal(Reason::InvalidMark, 3)));
    assert_eq!(tally, Tally::with_points(u64::MAX));
}
