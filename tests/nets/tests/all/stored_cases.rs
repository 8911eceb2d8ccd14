//! Every stored text gets its stored answer.

use std::collections::BTreeSet;
use std::fs;
use std::path::{Path, PathBuf};

use reference::text::answer;

/// The stored files with this extension.
fn stored(extension: &str) -> Vec<PathBuf> {
    let folder = Path::new(env!("CARGO_MANIFEST_DIR")).join("cases");
    let entries = fs::read_dir(folder).expect("the folder of cases");
    let paths = entries.map(|entry| entry.expect("a readable entry").path());
    paths
        .filter(|path| path.extension().is_some_and(|e| e == extension))
        .collect()
}

#[test]
fn stored_texts_get_their_stored_answers() {
    let texts = stored("txt");
    assert!(texts.len() >= 330);
    assert_eq!(texts.len(), stored("out").len());
    for path in texts {
        let text = fs::read(&path).expect("a stored text");
        let expected = fs::read_to_string(path.with_extension("out")).expect("a stored answer");
        assert_eq!(answer(&text), expected, "{}", path.display());
    }
}

/// The reason in a stored answer that is a refusal.
fn reason(path: &Path) -> Option<u32> {
    let text = fs::read_to_string(path).expect("a stored answer");
    let numbers = text.strip_prefix("refusal place\n")?;
    let (reason, _) = numbers.split_once(' ').expect("two numbers");
    Some(reason.parse().expect("a number"))
}

/// All but reason 2, which no text can have.
#[test]
fn stored_answers_cover_every_refusal_of_a_text() {
    let reasons: BTreeSet<u32> = stored("out")
        .iter()
        .filter_map(|path| reason(path))
        .collect();
    let expected = (1..=13).filter(|&reason| reason != 2);
    assert_eq!(reasons, expected.collect());
}

/// Names of OBJ texts begin with `obj-`. All but the refusals that marks can
/// cause, and 2.
#[test]
fn stored_obj_texts_get_every_answer_that_they_can_get() {
    let mut met = BTreeSet::new();
    for path in stored("txt") {
        let text = fs::read(&path).expect("a stored text");
        if text.starts_with(b"#") {
            let name = path.file_name().and_then(|name| name.to_str());
            assert!(name.is_some_and(|name| name.starts_with("obj-")));
            met.insert(reason(&path.with_extension("out")));
        }
    }
    let refusals = [1, 3, 4, 5, 7, 8, 9, 10, 11, 13].map(Some);
    assert_eq!(met, [&[None], &refusals[..]].concat().into_iter().collect());
}

/// Answers to texts that ask for letters have all letters but S, which needs
/// side counts, and no others have any.
#[test]
fn stored_answers_have_letters_where_they_are_asked_for() {
    let mut met = BTreeSet::new();
    for path in stored("txt") {
        let text = fs::read(&path).expect("a stored text");
        let answer = fs::read_to_string(path.with_extension("out")).expect("a stored answer");
        let is_net = answer.starts_with("vertices faces\n");
        let is_asked = text.starts_with(b"vertices faces rounds rule\n");
        let has_letters = answer.contains("\nx y z corner rule\n");
        assert_eq!(has_letters, is_net && is_asked, "{}", path.display());
        if has_letters {
            let lines = answer.lines().skip(3).take_while(|line| *line != "a b c d");
            met.extend(lines.filter_map(|line| line.chars().last()));
        }
    }
    assert!(met.into_iter().eq("ABCDEMV".chars()));
}
