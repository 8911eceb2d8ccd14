//! OBJ texts: which are read, as which net, and refusal 13 with its line.

use crate::common::{SAMPLE_TEXT, assert_bad_line, cube, document, grid, refusal, with_line};
use reference::net::Net;
use reference::text::{Document, MAX_BYTES, answer, parse};

/// The scope paper's square, without marks.
const SQUARE: &str = "# rounds 1\nv 0 0 0\nv 16 0 0\nv 16 16 0\nv 0 16 0\nf 1 2 3 4\n";

const SQUARE_ANSWER: &str = "vertices faces\n9 4\nx y z corner\n0 0 0 0\n16 0 0 0\n\
    16 16 0 0\n0 16 0 0\n8 -2 0 0\n18 8 0 0\n8 18 0 0\n-2 8 0 0\n8 8 0 0\na b c d\n\
    0 4 8 7\n1 5 8 4\n2 6 8 5\n3 7 8 6\n";

const EMPTY_ANSWER: &str = "vertices faces\n0 0\nx y z corner\na b c d\n";

fn square_with(number: usize, replacement: &str) -> String {
    with_line(SQUARE, number, replacement)
}

#[track_caller]
fn assert_square(text: &[u8]) {
    assert_eq!(answer(text), SQUARE_ANSWER);
}

#[track_caller]
fn assert_refused(text: &str, reason: u32, place: u32) {
    assert_eq!(answer(text.as_bytes()), refusal(reason, place));
}

/// So many `v` lines of the same point.
fn points(count: usize) -> String {
    "v 0 0 0\n".repeat(count)
}

/// So many `f` lines of the same face.
fn faces(count: usize) -> String {
    "f 1 2 3 4\n".repeat(count)
}

/// The text with a comment behind it, `length` bytes in all.
fn padded(text: &str, length: usize) -> String {
    let padding = "x".repeat(length - text.len() - 2);
    format!("{text}#{padding}\n")
}

#[test]
fn the_square_is_refined_without_marks() {
    assert_square(SQUARE.as_bytes());
}

#[test]
fn the_first_byte_decides_the_form() {
    assert_bad_line(b"", 1);
    assert_bad_line(SAMPLE_TEXT.replacen('v', "#", 1).as_bytes(), 1);
    assert_bad_line(format!(" {SQUARE}").as_bytes(), 1);
    assert_bad_line(format!("\u{feff}{SQUARE}").as_bytes(), 1);
    assert_bad_line(&SQUARE.as_bytes()["# rounds 1\n".len()..], 1);
    assert_bad_line(format!("{SAMPLE_TEXT}# rounds 1\n").as_bytes(), 10);
}

#[test]
fn the_first_line_has_the_rounds_and_nothing_else() {
    for line in [
        "#\n",
        "# \n",
        "# a comment\n",
        "# rounds\n",
        "# rounds \n",
        "# round 1\n",
        "# Rounds 1\n",
        "#rounds 1\n",
        "#  rounds 1\n",
        "# rounds  1\n",
        "# rounds1\n",
        "#\trounds 1\n",
        "# rounds\t1\n",
        "## rounds 1\n",
        "# rounds 1 \n",
        "# rounds 1\r\n",
        "# rounds 1 1\n",
        "# rounds 1 rule\n",
        "# rounds 1# one\n",
        "# rounds 1/1\n",
        "# rounds 01\n",
        "# rounds +1\n",
        "# rounds -1\n",
        "# rounds -0\n",
        "# rounds 1.0\n",
        "# rounds 2147483648\n",
        "# rounds 18446744073709551617\n",
        "# comment\n# rounds 1\n",
    ] {
        assert_bad_line(square_with(1, line).as_bytes(), 1);
    }
    for text in ["#", "# rounds", "# rounds 1"] {
        assert_bad_line(text.as_bytes(), 1);
    }
}

#[test]
fn the_first_line_alone_is_the_empty_net() {
    assert_eq!(answer(b"# rounds 0\n"), EMPTY_ANSWER);
    assert_eq!(answer(b"# rounds 6\n"), EMPTY_ANSWER);
    assert_refused("# rounds 7\n", 1, 0);
    assert_refused("# rounds 2147483647\n", 1, 0);
}

#[test]
fn vertex_lines_have_three_coordinates() {
    for line in [
        "v 0 0\n",
        "v 0 0 0 0\n",
        "v 0 0 0 1.0\n",
        "v\n",
        "v \n",
        "v0 0 0\n",
        "v  0 0 0\n",
        "v 0  0 0\n",
        "v 0 0 0 \n",
        " v 0 0 0\n",
        "v\t0 0 0\n",
        "v 0\t0 0\n",
        "v 0 0 0\r\n",
        "v 0 0 0\0\n",
        "v 0 0 0 # first\n",
        "v 0 0 0/1\n",
        "v 0.0 0 0\n",
        "v 1e3 0 0\n",
        "v +1 0 0\n",
        "v 00 0 0\n",
        "v -0 0 0\n",
        "v -01 0 0\n",
        "v - 0 0\n",
        "v 2147483648 0 0\n",
        "v 0 0 -2147483649\n",
        "V 0 0 0\n",
    ] {
        assert_bad_line(square_with(2, line).as_bytes(), 2);
    }
    assert_refused(&square_with(3, "v -2147483648 2147483647 0\n"), 5, 1);
}

#[test]
fn face_lines_have_four_numbers_from_1() {
    for line in [
        "f 1 2 3\n",
        "f 1 2 3 4 5\n",
        "f 1 2 3 4 1\n",
        "f\n",
        "f1 2 3 4\n",
        "f  1 2 3 4\n",
        "f 1 2  3 4\n",
        "f 1 2 3 4 \n",
        " f 1 2 3 4\n",
        "f\t1 2 3 4\n",
        "f 1 2\t3 4\n",
        "f 1 2 3 4\r\n",
        "f 1 2 3 4# whole\n",
        "f 0 1 2 3\n",
        "f 0/1 1 2 3\n",
        "f 1 2 3 -1\n",
        "f 1 2 3 -0\n",
        "f 1 2 3 +4\n",
        "f 1 2 3 04\n",
        "f 1 2 3 4.0\n",
        "f 1 2 3 2147483648\n",
        "f 1 2 3 4294967297\n",
        "f 1 2 3 4294967300/4\n",
        "F 1 2 3 4\n",
    ] {
        assert_bad_line(square_with(6, line).as_bytes(), 6);
    }
}

#[test]
fn a_number_above_the_vertices_is_a_corner_not_below_them() {
    for number in ["5", "2147483647", "2147483647/5"] {
        let text = format!("{SQUARE}f 1 2 3 {number}\n");
        assert_refused(&text, 7, 1);
    }
}

#[test]
fn whatever_follows_a_slash_is_skipped() {
    for line in [
        "f 1/ 2 3 4\n",
        "f 1/1 2/2 3/3 4/4\n",
        "f 1//1 2//1 3//1 4//1\n",
        "f 1/1/1 2/2/1 3/3/1 4/4/1\n",
        "f 1/// 2/-1 3/x 4/0\n",
        "f 1/\t 2/\t3 3/#4 4/\r\n",
        "f 1 2 3 4/\0\n",
        "f 1/99999999999 2/+0 3/1.5 4/f\n",
        "f 1/\u{e9} 2/\u{20ac} 3 4/\u{a0}\n",
    ] {
        assert_square(square_with(6, line).as_bytes());
    }
    for byte in (0..=255).filter(|byte| !b" \n".contains(byte)) {
        let skipped = [b"f 1/", &[byte][..], b" 2 3 4/", &[byte], b"\n"].concat();
        let text = [square_with(6, "").as_bytes(), &skipped].concat();
        assert_square(&text);
    }
}

#[test]
fn a_number_stands_before_the_slash_and_a_blank_ends_the_skipped_part() {
    for line in [
        "f /1 2 3 4\n",
        "f 1 / 3 4\n",
        "f //1 2 3 4\n",
        "f 1 /1 2 3 4\n",
        "f 1/ 1 2 3 4\n",
        "f 1/1 2 3 4/1 \n",
        "f 1\t/1 2 3 4\n",
        "f 1\\1 2 3 4\n",
        "f 1/2/3/4\n",
    ] {
        assert_bad_line(square_with(6, line).as_bytes(), 6);
    }
}

#[test]
fn comments_have_any_bytes_but_newlines() {
    for byte in (0..=255).filter(|&byte| byte != b'\n') {
        for comment in [&[b'#', byte, b'\n'][..], &[b'#', b' ', byte, byte, b'\n']] {
            assert_square(&[SQUARE.as_bytes(), comment].concat());
        }
    }
    for line in [" # late\n", "\t#\n", "\r# late\n"] {
        assert_bad_line(format!("{SQUARE}#\n{line}").as_bytes(), 8);
    }
}

#[test]
fn later_lines_say_nothing_of_rounds() {
    for comment in [
        "# rounds 3\n",
        "# rounds 7\n",
        "# rounds  3\n",
        "# rounds 3 4\n",
    ] {
        for at in 2..=6 {
            let line = SQUARE.split_inclusive('\n').nth(at - 1).expect("six lines");
            assert_square(square_with(at, &format!("{comment}{line}")).as_bytes());
        }
    }
}

#[test]
fn lines_come_in_any_order() {
    let faces_first = "# rounds 1\nf 1 2 3 4\nv 0 0 0\nv 16 0 0\n#\nv 16 16 0\nv 0 16 0\n";
    assert_square(faces_first.as_bytes());
    let between = "# rounds 1\nv 0 0 0\nv 16 0 0\nf 1/1 2/2 3/3 4/4\nv 16 16 0\nv 0 16 0\n";
    assert_square(between.as_bytes());
}

#[test]
fn vertices_and_faces_are_numbered_by_their_own_lines() {
    let text = "# rounds 2\nf 6 5 4 3\n# one\nv 1 2 3\nv -4 5 -6\nf 1/9 2//9 3 4\nv 7 8 9\n";
    let expected = Document {
        rounds: 2,
        with_letters: false,
        vertices: vec![1, 2, 3, -4, 5, -6, 7, 8, 9],
        faces: vec![5, 4, 3, 2, 0, 1, 2, 3],
        marks: vec![0; 3],
    };
    assert_eq!(parse(text.as_bytes()), Ok(expected));
}

#[test]
fn other_lines_are_bad() {
    for line in [
        "\n",
        " \n",
        "\r\n",
        "vn 0 0 1\n",
        "vt 0 0\n",
        "vp 0 0 0\n",
        "o panel\n",
        "g\n",
        "s off\n",
        "usemtl steel\n",
        "l 1 2\n",
        "vertices faces rounds\n",
        "0 0 0\n",
        "\0",
    ] {
        for at in 2..=6 {
            assert_bad_line(square_with(at, line).as_bytes(), at as u32);
        }
        assert_bad_line(format!("{SQUARE}{line}").as_bytes(), 7);
    }
}

#[test]
fn an_unfinished_last_line_is_bad_at_its_own_number() {
    let text = format!("{SQUARE}# end\n");
    for length in 0..text.len() {
        let cut = &text.as_bytes()[..length];
        let finished = cut.iter().filter(|&&byte| byte == b'\n').count();
        if cut.ends_with(b"\n") {
            assert!(parse(cut).is_ok());
        } else {
            assert_bad_line(cut, finished as u32 + 1);
        }
    }
}

#[test]
fn the_first_bad_line_counts() {
    let text = square_with(3, "v 16 0\n");
    assert_bad_line(with_line(&text, 6, "f 0 1 2 3\n").as_bytes(), 3);
    assert_bad_line(with_line(&text, 2, "\n").as_bytes(), 2);
    assert_bad_line(with_line(&text, 1, "# rounds\n").as_bytes(), 1);
}

#[test]
fn length_goes_first() {
    let longest = padded(SQUARE, MAX_BYTES);
    assert_eq!(longest.len(), MAX_BYTES);
    assert_square(longest.as_bytes());
    assert_bad_line(padded(SQUARE, MAX_BYTES + 1).as_bytes(), 0);
    let bad = padded(&square_with(1, "# rounds\n"), MAX_BYTES);
    assert_bad_line(bad.as_bytes(), 1);
    assert_bad_line(format!("{bad}#").as_bytes(), 0);
}

#[test]
fn the_form_is_checked_before_the_rounds() {
    let many = square_with(1, "# rounds 7\n");
    assert_refused(&many, 1, 0);
    assert_bad_line(format!("{many}\n").as_bytes(), 7);
}

#[test]
fn rounds_and_counts_come_before_the_net() {
    let beyond = "v 1048577 0 0\n";
    for (rounds, more_points, more_faces, reason) in [
        (7, 1_100, 257, 1),
        (6, 1_100, 65, 3),
        (6, 0, 64, 4),
        (0, 1_024, 1, 4),
        (0, 0, 257, 4),
        (4, 0, 2, 4),
    ] {
        let (points, faces) = (points(more_points), faces(more_faces));
        let text = format!("# rounds {rounds}\n{beyond}{points}{faces}");
        assert_refused(&text, reason, 0);
        assert_bad_line(
            format!("{text}v\n").as_bytes(),
            3 + to_u32(more_points + more_faces),
        );
    }
    assert_refused(&format!("# rounds 0\n{beyond}{}", faces(256)), 5, 0);
}

fn to_u32(count: usize) -> u32 {
    u32::try_from(count).expect("few lines")
}

#[test]
fn the_program_serves_256_refined_faces_and_1024_vertices() {
    let answer_to = |net: &Net, rounds: u32| {
        let text = document(net, rounds).to_obj_text();
        answer(text.as_bytes())
    };
    assert!(answer_to(&grid(16, 16), 0).starts_with("vertices faces\n289 256\n"));
    assert!(answer_to(&grid(1, 1), 4).starts_with("vertices faces\n289 256\n"));
    assert_eq!(answer_to(&grid(257, 1), 0), refusal(4, 0));
    assert_eq!(answer_to(&grid(1, 1), 5), refusal(4, 0));
    assert_eq!(answer_to(&grid(13, 5), 6), refusal(3, 0));
    assert_refused(&format!("{SQUARE}{}", points(1_020)), 8, 4);
    assert_refused(&format!("{SQUARE}{}", points(1_021)), 4, 0);
}

/// Below 8,192 and 4,096, so that 3 comes from the refined faces alone.
#[test]
fn the_longest_text_holds_4094_vertices_or_3275_faces() {
    for (most, line) in [(4_094, "v 0 0 0\n"), (3_275, "f 1 2 3 4\n")] {
        let text = format!("# rounds 0\n{}", line.repeat(most));
        assert!(text.len() <= MAX_BYTES);
        assert_refused(&text, 4, 0);
        assert_refused(&format!("{text}{line}"), 13, 0);
    }
}

#[test]
fn documents_survive_printing_and_parsing() {
    for net in [Net::default(), grid(3, 2), cube()] {
        let document = document(&net, 1);
        let text = document.to_obj_text();
        assert_eq!(parse(text.as_bytes()), Ok(document.clone()));
        assert_eq!(
            answer(text.as_bytes()),
            answer(document.to_text().as_bytes())
        );
    }
}
