//! OBJ texts of the generator are read as the nets that they were made from,
//! and have all that the form allows.

use std::collections::BTreeSet;

use nets::accepted::{Shape, Size, accepted};
use nets::case::Expected;
use nets::obj::{OBJ_REASONS, ObjKind, obj_text, unmarked_document};
use nets::rng::Rng;
use reference::text::{answer, parse};

#[test]
fn the_net_read_is_the_one_written() {
    for shape in Shape::ALL {
        for seed in 0..10 {
            let rng = &mut Rng::new(seed);
            let document = unmarked_document(&accepted(shape, Size::Medium, rng), rng);
            let text = obj_text(&document, rng);
            assert_eq!(answer(&text), answer(document.to_text().as_bytes()));
            assert_eq!(parse(&text), Ok(document));
        }
    }
}

/// Things that OBJ texts may have, by name.
fn features(text: &[u8]) -> BTreeSet<&'static str> {
    let lines: Vec<&[u8]> = text.split(|&byte| byte == b'\n').collect();
    let position = |word: &[u8]| lines.iter().position(|line| line.starts_with(word));
    let last = |word: &[u8]| lines.iter().rposition(|line| line.starts_with(word));
    let lies_in = |word: u8, is_such: fn(&u8) -> bool| {
        let mut lines = lines.iter().filter(|line| line.first() == Some(&word));
        lines.any(|line| line.iter().any(is_such))
    };
    let later_rounds = lines[1..].iter().any(|line| line.starts_with(b"# rounds "));
    let met = [
        ("a face before a vertex", position(b"f") < last(b"v")),
        (
            "a face before all vertices",
            position(b"f") < position(b"v"),
        ),
        ("a vertex behind all faces", last(b"f") < last(b"v")),
        ("a comment at the end", last(b"#") == Some(lines.len() - 2)),
        ("later rounds", later_rounds),
        ("a high byte in a comment", lies_in(b'#', |&b| b > 127)),
        ("a zero byte in a comment", lies_in(b'#', |&b| b == 0)),
        ("a high byte that is skipped", lies_in(b'f', |&b| b > 127)),
        ("a zero byte that is skipped", lies_in(b'f', |&b| b == 0)),
        ("a tab that is skipped", lies_in(b'f', |&b| b == b'\t')),
        (
            "a carriage return that is skipped",
            lies_in(b'f', |&b| b == b'\r'),
        ),
        ("no slashes", !lies_in(b'f', |&b| b == b'/')),
    ];
    let met = met.into_iter().filter(|(_, is_met)| *is_met);
    met.map(|(name, _)| name).collect()
}

#[test]
fn accepted_texts_have_all_that_the_form_allows() {
    let mut met = BTreeSet::new();
    for seed in 0..60 {
        let case = ObjKind::Accepted(Shape::Grid).make(&mut Rng::new(seed));
        assert!(case.text.starts_with(b"# rounds "));
        met.extend(features(&case.text));
    }
    assert_eq!(met.len(), 12, "{met:?}");
}

/// The reasons that texts of this kind are to be refused for, 0 for those
/// accepted.
fn reasons(kind: ObjKind) -> BTreeSet<u32> {
    let reason = |seed| match kind.make(&mut Rng::new(seed)).expected {
        Expected::Accepted => 0,
        Expected::Refused(refusal) => refusal.reason,
        Expected::Unknown => panic!("the answer is known"),
    };
    (0..60).map(reason).collect()
}

#[test]
fn kinds_have_their_reasons() {
    for reason in OBJ_REASONS {
        assert_eq!(reasons(ObjKind::Refused(reason)), [reason].into());
        assert_eq!(reasons(ObjKind::DamagedAnd(reason)), [13].into());
    }
    assert_eq!(reasons(ObjKind::Longest), [0, 13].into());
    assert_eq!(reasons(ObjKind::Many), [1, 3, 4, 8, 13].into());
}
