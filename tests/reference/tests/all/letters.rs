//! Paper 02: "a letter beside each refined point".

use std::collections::BTreeSet;

use crate::common::{
    SAMPLE_TEXT, bent_grid, cube, grid, refine_control, scattered, square, unmarked, wheel,
    with_marks,
};
use reference::call::{Call, Outcome, Tables, refine};
use reference::letter::{Letter, letter_table, refine_with_letters};
use reference::net::{Net, NetRecord, PolygonNet};
use reference::point::Point;
use reference::refusal::Capacity;
use reference::retrace::{round_is_by_letters, start_is_by_letters};
use reference::rules::Tension;
use reference::step::{refine_once, split};
use reference::text::answer;

/// The letters of a net without side counts.
fn letters(net: &Net, rounds: u32) -> String {
    letters_from(net, net.points.len(), rounds)
}

/// The letters of a net with side counts.
fn letters_of_polygons(net: &PolygonNet, rounds: u32) -> String {
    letters_from(&split(net), net.points.len(), rounds)
}

/// Letters are the same at every tension.
fn letters_from(start: &Net, control: usize, rounds: u32) -> String {
    let at = |tension| refine_with_letters(start.clone(), tension, control, rounds).1;
    let [old, others @ ..] = [4, 0, 1, 2, 3].map(|t: usize| at(Tension::ALL[t]));
    assert!(others.iter().all(|letters| *letters == old));
    text(&old)
}

fn text(letters: &[Letter]) -> String {
    String::from_utf8(letter_table(letters)).expect("letters")
}

fn count(letters: &str, letter: char) -> usize {
    letters.chars().filter(|&other| other == letter).count()
}

#[test]
fn bytes_are_the_papers_letters() {
    let bytes: Vec<u8> = Letter::ALL.iter().map(|letter| letter.byte()).collect();
    assert_eq!(bytes, b"VABMSCDE");
    for byte in 0..=255 {
        let letter = Letter::of_byte(byte);
        assert_eq!(letter.is_some(), bytes.contains(&byte));
        assert!(letter.is_none_or(|letter| letter.byte() == byte));
    }
}

#[test]
fn the_square_has_one_edge_segments_or_a_loop() {
    let marked = with_marks(square(), &[0, 1, 2, 3]);
    assert_eq!(letters(&marked, 1), "VVVVMMMME");
    assert_eq!(letters(&square(), 1), "VVVVAAAAE");
    assert_eq!(letters(&square(), 0), "VVVV");
    // Marks at 0, 1 and 2: two segments of one edge, one of two.
    let three = with_marks(square(), &[0, 1, 2]);
    assert_eq!(letters(&three, 1), "VVVVMMBBE");
    // Two marks opposite each other: two segments of two edges.
    assert_eq!(letters(&with_marks(square(), &[0, 2]), 1), "VVVVBBBBE");
    // One mark: a segment of four edges.
    assert_eq!(letters(&with_marks(square(), &[1]), 1), "VVVVBBAAE");
}

#[test]
fn with_a_side_count_the_square_is_split() {
    let square = PolygonNet::from(&square());
    assert_eq!(letters_of_polygons(&square, 0), "VVVVSSSSS");
    let marked = PolygonNet::from(&with_marks(crate::common::square(), &[0, 1, 2, 3]));
    assert_eq!(letters_of_polygons(&marked, 0), "VVVVSSSSS");
    // A round on two by two faces: eight boundary edges, four inner ones.
    let round = letters_of_polygons(&square, 1);
    assert_eq!(round[..9], *"VVVVSSSSS");
    assert_eq!([count(&round, 'A'), count(&round, 'C')], [8, 4]);
    assert_eq!([count(&round, 'E'), round.len()], [4, 25]);
    let round = letters_of_polygons(&marked, 1);
    assert_eq!([count(&round, 'B'), count(&round, 'A')], [8, 0]);
}

#[test]
fn faces_with_four_inner_edges_are_told_from_others() {
    for (columns, rows, due, both) in [(3, 3, 0, 0), (5, 3, 3, 0), (5, 5, 9, 1), (3, 5, 3, 0)] {
        let net = grid(columns, rows);
        let faces = (columns * rows) as usize;
        let all = letters(&net, 1);
        let of_faces = &all[all.len() - faces..];
        assert_eq!(
            [count(of_faces, 'D'), count(of_faces, 'E')],
            [due, faces - due]
        );
        assert_eq!(count(&all, 'D'), due);
        assert_eq!(both_directions(&net), both);
    }
    // In a 5 x 5 grid the faces D are those of the middle row and column.
    let all = letters(&grid(5, 5), 1);
    assert_eq!(all[all.len() - 25..], *"EEDEEEEDEEDDDDDEEDEEEEDEE");
    let cube = letters(&cube(), 1);
    assert_eq!(cube, format!("VVVVVVVV{}{}", "C".repeat(12), "D".repeat(6)));
}

/// Faces both of whose directions have four inner edges.
fn both_directions(net: &Net) -> usize {
    use reference::step::{Directions, Rule};
    let made = refine_once(net, Tension::OLD).made;
    let is_both = |rule: Rule| {
        matches!(
            rule,
            Rule::Face {
                four_inner: Directions::Both,
                ..
            }
        )
    };
    made.iter().filter(|new| is_both(new.rule)).count()
}

#[test]
fn a_one_edge_segment_gives_m_once_and_then_two_end_edges() {
    let marked = with_marks(square(), &[0, 1, 2, 3]);
    let twice = letters(&marked, 2);
    assert_eq!(twice[..9], *"VVVVMMMME");
    // Eight boundary edges from a mark to a vertex made before, four inner ones.
    assert_eq!([count(&twice, 'M'), count(&twice, 'B')], [4, 8]);
    assert_eq!([count(&twice, 'C'), count(&twice, 'A')], [4, 0]);
    // Then each segment has two end edges and two edges inside it.
    let thrice = letters(&marked, 3);
    assert_eq!([count(&thrice, 'B'), count(&thrice, 'A')], [16, 8]);
}

#[test]
fn kept_points_keep_their_letters() {
    let nets = [
        square(),
        with_marks(grid(3, 2), &[0, 3]),
        cube(),
        grid(5, 3),
    ];
    for net in nets {
        let by_rounds: Vec<String> = (0..=3).map(|rounds| letters(&net, rounds)).collect();
        for pair in by_rounds.windows(2) {
            assert!(pair[1].starts_with(&pair[0]) && pair[1].len() > pair[0].len());
        }
        let control = net.points.len();
        assert_eq!(by_rounds[0], "V".repeat(control));
        assert_eq!(count(&by_rounds[3], 'V'), control);
    }
    let triangle = PolygonNet {
        points: scattered(3),
        faces: vec![vec![0, 1, 2]],
        marks: vec![1, 0, 0],
    };
    for rounds in 0..=3 {
        let all = letters_of_polygons(&triangle, rounds);
        assert_eq!(all[..7], *"VVVSSSS");
        assert_eq!([count(&all, 'V'), count(&all, 'S')], [3, 4]);
    }
}

/// The tables of a call, filled, with a letter table of this length.
fn tables(refined_faces: usize, with_letters: bool, letters: usize) -> Tables {
    let least = Capacity::for_refined_faces(refined_faces);
    Tables {
        vertices: vec![-77; least.vertices],
        faces: vec![77; least.faces],
        marks: vec![7; least.marks],
        with_letters,
        letters: vec![99; letters],
        workspace: vec![777; least.workspace],
    }
}

fn call(tally: u64, net: &Net, rounds: u32, tables: &mut Tables) -> Outcome {
    refine_control(&mut { tally }, net, &[], 1, rounds, tables)
}

#[test]
fn a_call_that_asks_fills_letters_from_the_front() {
    for length in [16, 17, 40] {
        let mut after = tables(4, true, length);
        let Outcome::Refined { letters, .. } = call(0, &square(), 1, &mut after) else {
            panic!("accepted");
        };
        assert_eq!(letters.as_deref(), Some(&b"VVVVAAAAE"[..]));
        assert_eq!(after.letters[..9], *b"VVVVAAAAE");
        assert_eq!(after.letters[9..], vec![99; length - 9]);
    }
}

#[test]
fn a_call_that_does_not_ask_leaves_any_letter_table() {
    let mut with = tables(4, true, 16);
    call(0, &square(), 1, &mut with);
    for length in [0, 1, 15, 16, 50] {
        let mut after = tables(4, false, length);
        let outcome = call(0, &square(), 1, &mut after);
        assert!(matches!(outcome, Outcome::Refined { letters: None, .. }));
        assert_eq!(after.letters, vec![99; length]);
        let others = Tables {
            with_letters: true,
            letters: with.letters.clone(),
            ..after
        };
        assert_eq!(others, with);
    }
}

#[test]
fn a_short_letter_table_counts_among_the_outputs_of_4() {
    for length in [0, 1, 15] {
        let before = tables(4, true, length);
        let mut after = before.clone();
        let outcome = call(0, &square(), 1, &mut after);
        let refused = Outcome::Refused {
            reason: 4,
            place: 0,
        };
        assert_eq!(outcome, refused);
        assert_eq!(after, before);
    }
    // Without faces none are needed.
    let mut none = tables(0, true, 0);
    let outcome = call(0, &Net::default(), 6, &mut none);
    assert!(
        matches!(outcome, Outcome::Refined { letters: Some(letters), .. } if letters.is_empty())
    );
}

#[test]
fn refusals_leave_the_letters() {
    let mut marked_inside = grid(2, 2);
    marked_inside.marks[4] = 1;
    for (tally, net, reason) in [
        (u64::MAX, square(), 15),
        (0, marked_inside, 12),
        (0, unmarked(&[[1_048_577; 3]], &[]), 5),
    ] {
        let faces = 4 * net.faces.len();
        let mut after = tables(faces, true, 4 * faces);
        let outcome = call(tally, &net, 1, &mut after);
        assert!(matches!(outcome, Outcome::Refused { reason: given, .. } if given == reason));
        assert_eq!(after.letters, vec![99; 4 * faces]);
    }
}

/// 4 is tested after 1, 2, 14 and 3, and before 16 and 5.
#[test]
fn a_short_letter_table_has_its_place_in_the_order() {
    let [bad_vertex, sound] = [1_048_577, 0];
    for (rounds, marks, sides, first, due) in [
        (7, 3, &[9][..], bad_vertex, 1),
        (1, 3, &[9], bad_vertex, 14),
        (1, 3, &[4], bad_vertex, 2),
        (1, 4, &[4], bad_vertex, 4),
        (1, 4, &[], bad_vertex, 4),
        (1, 4, &[], sound, 4),
    ] {
        let mut vertices = square().vertex_table();
        vertices[0] = first;
        let outcome = refine(&Call {
            tally: u64::MAX,
            rounds,
            net: NetRecord {
                vertices: &vertices,
                faces: &[0, 1, 2, 3],
                sides,
                marks: &vec![0; marks],
                tension: 5,
            },
            capacity: Capacity::for_refined_faces(99).asking_for_letters(15),
        });
        let refused = Outcome::Refused {
            reason: due,
            place: 0,
        };
        assert_eq!(outcome, refused);
    }
}

#[test]
fn the_program_prints_a_last_column_if_the_first_line_asks() {
    let text = SAMPLE_TEXT.replacen("rounds\n", "rounds rule\n", 1);
    let due = "vertices faces\n9 4\nx y z corner rule\n0 0 0 1 V\n16 0 0 1 V\n16 16 0 1 V\n\
        0 16 0 1 V\n8 0 0 0 M\n16 8 0 0 M\n8 16 0 0 M\n0 8 0 0 M\n8 8 0 0 E\na b c d\n\
        0 4 8 7\n1 5 8 4\n2 6 8 5\n3 7 8 6\n";
    assert_eq!(answer(text.as_bytes()), due);
    let empty = "vertices faces rounds rule\n0 0 3\nx y z\na b c d\n";
    let due = "vertices faces\n0 0\nx y z corner rule\na b c d\n";
    assert_eq!(answer(empty.as_bytes()), due);
    // Refusals print as before.
    let rounds = text.replacen("4 1 1\n", "4 1 7\n", 1);
    assert_eq!(answer(rounds.as_bytes()), "refusal place\n1 0\n");
}

/// Each point of a net is what its letter says, in every round.
fn assert_by_letters(start: &Net, tension: Tension, control: usize, rounds: u32) {
    let mut before = start.clone();
    for k in 0..=rounds {
        let (net, letters) = refine_with_letters(start.clone(), tension, control, k);
        let letters = letter_table(&letters);
        let front = start.points.len();
        let [points, named] = [&net.points[..front], &start.points];
        assert_eq!(points, named);
        assert!(start_is_by_letters(
            start,
            control,
            points,
            &letters[..front]
        ));
        if k > 0 {
            assert!(round_is_by_letters(&before, tension, &net.points, &letters));
        }
        before = net;
    }
}

#[test]
fn the_rule_that_a_letter_names_gives_the_point() {
    let mut bent = with_marks(grid(5, 4), &[0, 5, 24, 29, 3]);
    bent.points = scattered(30);
    for net in [square(), cube(), grid(5, 5), bent] {
        for tension in Tension::ALL {
            assert_by_letters(&net, tension, net.points.len(), 3);
            let control = PolygonNet::from(&net);
            assert_by_letters(&split(&control), tension, control.points.len(), 2);
        }
    }
}

/// Points on no common curve of low degree.
fn rugged(count: i64) -> Vec<Point> {
    let coordinate = |i: i64, prime: i64| (i * i % 1999 * i % 1999) * prime % 20_011 - 10_005;
    (1..=count)
        .map(|i| [7919, 104_729, 48_271].map(|p| i32::try_from(coordinate(i, p)).expect("small")))
        .collect()
}

/// The letters of a round in whose place another one names the same point.
fn exchangeable(net: &Net, tension: Tension) -> BTreeSet<(char, char)> {
    let (refined, letters) = refine_with_letters(net.clone(), tension, net.points.len(), 1);
    let right = letter_table(&letters);
    let is_by = |letters: &[u8]| round_is_by_letters(net, tension, &refined.points, letters);
    assert!(is_by(&right));
    let mut same = BTreeSet::new();
    for vertex in net.points.len()..right.len() {
        for other in Letter::ALL.map(Letter::byte) {
            let mut wrong = right.clone();
            wrong[vertex] = other;
            if other != right[vertex] && is_by(&wrong) {
                same.insert((char::from(right[vertex]), char::from(other)));
            }
        }
    }
    same
}

#[test]
fn the_rules_of_another_tension_give_other_points() {
    for mut net in [grid(5, 5), cube(), wheel(5), square()] {
        net.points = rugged(i64::try_from(net.points.len()).expect("few"));
        for tension in Tension::ALL {
            let (refined, letters) = refine_with_letters(net.clone(), tension, 0, 1);
            let letters = letter_table(&letters);
            for other in Tension::ALL {
                let is_by = round_is_by_letters(&net, other, &refined.points, &letters);
                assert_eq!(is_by, other == tension);
            }
        }
    }
}

/// Every other letter names another point, but for D and E where both
/// directions of a face agree, as on every regular grid, or where both have
/// four inner edges.
#[test]
fn another_letter_names_another_point() {
    let mut grid = with_marks(grid(5, 5), &[0, 5, 30, 35, 2]);
    grid.points = rugged(36);
    let mut wheel = with_marks(wheel(5), &[1, 2]);
    wheel.points = rugged(11);
    let mut cube = cube();
    cube.points = rugged(8);
    for tension in &Tension::ALL[1..] {
        let of_grid = exchangeable(&grid, *tension);
        assert_eq!(of_grid, [('D', 'E'), ('E', 'D')].into());
        assert_eq!(exchangeable(&wheel, *tension), [].into());
        assert_eq!(exchangeable(&cube, *tension), [('D', 'E')].into());
    }
    // At tension 0 all rules of edges give the midpoint, both of faces the mean.
    let of_wheel = exchangeable(&wheel, Tension::ALL[0]);
    assert!(of_wheel.contains(&('C', 'M')) && of_wheel.contains(&('E', 'D')));
}

/// On this net a face with one direction alone differs from the mean.
#[test]
fn e_in_the_place_of_a_d_with_one_direction_is_found_out() {
    let mut net = bent_grid();
    net.points = rugged(i64::try_from(net.points.len()).expect("few"));
    let tension = Tension::OLD;
    let (refined, letters) = refine_with_letters(net.clone(), tension, net.points.len(), 1);
    let right = letter_table(&letters);
    let found = (net.points.len()..right.len()).filter(|&vertex| {
        let mut wrong = right.clone();
        wrong[vertex] = b'E';
        right[vertex] == b'D' && !round_is_by_letters(&net, tension, &refined.points, &wrong)
    });
    assert!(found.count() > 0);
}

#[test]
fn letters_that_are_too_few_or_at_the_wrong_place_are_found_out() {
    let net = square();
    let tension = Tension::OLD;
    let (refined, letters) = refine_with_letters(net.clone(), tension, 4, 1);
    let right = letter_table(&letters);
    for few in [&right[1..], &right[..8]] {
        assert!(!round_is_by_letters(&net, tension, &refined.points, few));
    }
    assert!(start_is_by_letters(&net, 4, &net.points, b"VVVV"));
    assert!(!start_is_by_letters(&net, 4, &net.points, b"VVVS"));
    assert!(!start_is_by_letters(&net, 3, &net.points, b"VVVV"));
    assert!(start_is_by_letters(&net, 3, &net.points, b"VVVS"));
    assert!(!start_is_by_letters(&net, 4, &net.points, b"VVVVV"));
}
