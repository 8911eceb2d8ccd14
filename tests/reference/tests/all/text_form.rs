//! The text form: refusal 13 with its line, and the program's own limits.

use crate::common::{SAMPLE_TEXT, assert_bad_line, document, grid, refusal, with_line};
use reference::refusal::Refusal;
use reference::text::{Document, MAX_BYTES, answer, parse};

fn sample_with(number: usize, replacement: &str) -> String {
    with_line(SAMPLE_TEXT, number, replacement)
}

#[test]
fn names_are_literal() {
    for (number, names) in [
        (1, "vertices faces round\n"),
        (1, "vertices  faces rounds\n"),
        (1, "Vertices faces rounds\n"),
        (1, "vertices faces rounds \n"),
        (1, "vertices faces rounds rules\n"),
        (1, "vertices faces rounds  rule\n"),
        (1, "vertices faces rounds rule \n"),
        (1, "vertices faces rounds Rule\n"),
        (1, "vertices faces rounds rul\n"),
        (1, "vertices faces rule\n"),
        (1, "vertices faces rule rounds\n"),
        (1, "rule\n"),
        (1, "\n"),
        (3, "x y z corners\n"),
        (3, "x y z corner rule\n"),
        (3, "x y z rule\n"),
        (3, "x y z \n"),
        (3, "x y z corner\r\n"),
        (8, "a b c\n"),
        (8, " a b c d\n"),
    ] {
        assert_bad_line(sample_with(number, names).as_bytes(), number as u32);
    }
}

#[test]
fn numbers_have_one_form() {
    for (number, line) in [
        (2, "4 1\n"),
        (2, "4 1 1 1\n"),
        (2, "04 1 1\n"),
        (2, "+4 1 1\n"),
        (2, "4 1 -1\n"),
        (2, "4 1 -0\n"),
        (2, "4 1 2147483648\n"),
        (2, "4 1 \n"),
        (2, "4\t1 1\n"),
        (4, "0 0 00 1\n"),
        (4, "-0 0 0 1\n"),
        (4, "- 0 0 1\n"),
        (4, "--1 0 0 1\n"),
        (4, "-01 0 0 1\n"),
        (4, "0 0  0 1\n"),
        (4, "0 0 0 1 \n"),
        (4, " 0 0 0 1\n"),
        (4, "0 0 0 256\n"),
        (4, "0 0 0 -1\n"),
        (4, "0 0 0\n"),
        (4, "0 0 0 0 1\n"),
        (4, "2147483648 0 0 1\n"),
        (4, "-2147483649 0 0 1\n"),
        (4, "99999999999999999999999999 0 0 1\n"),
        (4, "1.0 0 0 1\n"),
        (4, "0 0 0 1\r\n"),
        (4, "0\0 0 0 1\n"),
        (9, "0 1 2 2147483648\n"),
        (9, "0 1 2 -3\n"),
        (9, "0 1 2 3"),
        (9, "0 1 2\n"),
        (9, "0 1 2 3 4\n"),
    ] {
        assert_bad_line(sample_with(number, line).as_bytes(), number as u32);
    }
}

#[test]
fn numbers_within_signed_32_bits_are_read() {
    let wide = sample_with(4, "-2147483648 2147483647 0 255\n");
    assert_eq!(answer(wide.as_bytes()), refusal(5, 0));
    let corner = sample_with(9, "0 1 2 2147483647\n");
    assert_eq!(answer(corner.as_bytes()), refusal(7, 0));
    let mark = sample_with(5, "16 0 0 255\n");
    assert_eq!(answer(mark.as_bytes()), refusal(6, 1));
    let rounds = sample_with(2, "4 1 2147483647\n");
    assert_eq!(answer(rounds.as_bytes()), refusal(1, 0));
}

/// The sample text with a first line that asks for letters.
fn sample_with_rule() -> String {
    sample_with(1, "vertices faces rounds rule\n")
}

#[test]
fn every_cut_of_a_text_is_bad_at_the_line_it_ends_in() {
    for sample in [SAMPLE_TEXT.to_owned(), sample_with_rule()] {
        for length in 0..sample.len() {
            let text = &sample.as_bytes()[..length];
            let finished = text.iter().filter(|&&byte| byte == b'\n').count();
            assert_bad_line(text, finished as u32 + 1);
        }
    }
}

/// "the second line keeps its three numbers", and no other line has the word.
#[test]
fn the_word_rule_stands_in_the_first_line_alone() {
    let asked = sample_with_rule();
    for (old, new, line) in [
        ("4 1 1\n", "4 1 1 rule\n", 2),
        ("4 1 1\n", "4 1 1 1\n", 2),
        ("4 1 1\n", "4 1 1 0\n", 2),
        ("4 1 1\n", "4 1 rule\n", 2),
        ("4 1 1\n", "rule\n4 1 1\n", 2),
        ("x y z corner\n", "x y z corner rule\n", 3),
        ("x y z corner\n", "x y z rule\n", 3),
        ("0 0 0 1\n", "0 0 0 1 V\n", 4),
        ("0 0 0 1\n", "0 0 0 V\n", 4),
        ("a b c d\n", "a b c d rule\n", 8),
    ] {
        let text = asked.replacen(old, new, 1);
        assert_ne!(text, asked);
        assert_bad_line(text.as_bytes(), line);
        let plain = SAMPLE_TEXT.replacen(old, new, 1);
        assert_bad_line(plain.as_bytes(), line);
    }
}

#[test]
fn surplus_bytes_are_a_surplus_line() {
    for surplus in ["\n", " ", "0 1 2 3\n", "x", "\0"] {
        assert_bad_line(format!("{SAMPLE_TEXT}{surplus}").as_bytes(), 10);
    }
}

#[test]
fn missing_lines_are_named_by_the_number_they_would_have_had() {
    assert_bad_line(sample_with(7, "").as_bytes(), 7);
    assert_bad_line(sample_with(9, "").as_bytes(), 9);
    assert_bad_line(sample_with(2, "2147483647 1 1\n").as_bytes(), 8);
    assert_bad_line(sample_with(2, "4 2147483647 1\n").as_bytes(), 10);
    assert_bad_line(sample_with(2, "3 1 1\n").as_bytes(), 7);
}

#[test]
fn the_mark_column_may_be_missing() {
    let text =
        "vertices faces rounds\n4 1 0\nx y z\n0 0 0\n16 0 0\n16 16 0\n0 16 0\na b c d\n0 1 2 3\n";
    let document = parse(text.as_bytes()).expect("well formed");
    assert_eq!(document.marks, [0; 4]);
    let printed = answer(text.as_bytes());
    assert!(printed.contains("x y z corner\n0 0 0 0\n"));
    let mixed = text.replace("16 16 0\n", "16 16 0 0\n");
    assert_bad_line(mixed.as_bytes(), 6);
}

#[test]
fn length_goes_first() {
    let mut text = b"x".repeat(MAX_BYTES);
    assert_bad_line(&text, 1);
    text.push(b'x');
    assert_bad_line(&text, 0);
}

#[test]
fn a_text_of_32_768_bytes_is_read_to_its_end() {
    let mut document = text_of(1, 1, 0);
    document.vertices.resize(3 * 4_000, 0);
    document.marks.resize(4_000, 0);
    let shorter = document.to_text().len();
    // Each digit more in a coordinate is one byte more.
    let digits = document.vertices[12..].iter_mut();
    for coordinate in digits.take(MAX_BYTES - shorter) {
        *coordinate = 10;
    }
    let text = document.to_text();
    assert_eq!(text.len(), MAX_BYTES);
    assert_eq!(answer(text.as_bytes()), refusal(4, 0));
    assert_bad_line(format!("{text}\n").as_bytes(), 0);
    assert_bad_line(&text.as_bytes()[..MAX_BYTES - 1], 4 + 4_000 + 1);
}

#[test]
fn an_empty_net_has_a_text() {
    let text = "vertices faces rounds\n0 0 6\nx y z\na b c d\n";
    let empty = "vertices faces\n0 0\nx y z corner\na b c d\n";
    assert_eq!(answer(text.as_bytes()), empty);
}

fn text_of(columns: u32, rows: u32, rounds: u32) -> Document {
    document(&grid(columns, rows), rounds)
}

#[test]
fn the_program_serves_256_refined_faces_and_1024_vertices() {
    let answer_to = |document: &Document| answer(document.to_text().as_bytes());
    assert!(answer_to(&text_of(16, 16, 0)).starts_with("vertices faces\n289 256\n"));
    assert!(answer_to(&text_of(1, 1, 4)).starts_with("vertices faces\n289 256\n"));
    assert_eq!(answer_to(&text_of(257, 1, 0)), refusal(4, 0));
    assert_eq!(answer_to(&text_of(1, 1, 5)), refusal(4, 0));
    assert_eq!(answer_to(&text_of(13, 5, 6)), refusal(3, 0));
    assert_eq!(answer_to(&text_of(13, 5, 7)), refusal(1, 0));
    let mut many = text_of(1, 1, 0);
    many.vertices.resize(3 * 1024, 0);
    many.marks.resize(1024, 0);
    assert_eq!(answer_to(&many), refusal(8, 4));
    many.vertices.resize(3 * 1025, 0);
    many.marks.resize(1025, 0);
    assert_eq!(answer_to(&many), refusal(4, 0));
}

#[test]
fn the_form_is_checked_before_the_limits() {
    let text = text_of(13, 5, 7).to_text();
    let cut = &text.as_bytes()[..text.len() - 1];
    let lines = text.lines().count();
    assert_bad_line(cut, lines as u32);
}

#[test]
fn documents_survive_printing_and_parsing() {
    for with_letters in [false, true] {
        let document = Document {
            with_letters,
            ..text_of(3, 2, 1)
        };
        assert_eq!(parse(document.to_text().as_bytes()), Ok(document.clone()));
        assert_eq!(parse(document.to_unmarked_text().as_bytes()), Ok(document));
    }
    assert_eq!(parse(b""), Err(Refusal::new(13, 1)));
}
