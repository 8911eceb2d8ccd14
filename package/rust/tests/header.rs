//! Version, constants, reasons and texts are those of `gedrovit.h`, which stands in the repository.

use gedrovit::Letter;
use gedrovit::Reason::{self, *};

#[cfg(repository)]
const HEADER: &str = include_str!("../../include/gedrovit.h");
#[cfg(not(repository))]
const HEADER: &str = "";

const REASONS: [Reason; 17] = [
    TooManyRounds,
    InvalidLengths,
    NetTooLarge,
    TableTooShort,
    CoordinateOutOfRange,
    InvalidMark,
    InvalidCorner,
    IsolatedVertex,
    RepeatedHalfEdge,
    NonManifoldVertex,
    ValenceOutOfRange,
    MarkedInteriorVertex,
    InvalidSideCounts,
    TallyLimit,
    TensionOutOfRange,
    InvalidStart,
    SeamMismatch,
];

/// What stands between two texts, wherever they stand in one line of the header.
fn between<'a>(before: &'a str, after: &'a str) -> impl Iterator<Item = &'a str> {
    HEADER
        .lines()
        .filter_map(move |line| line.split_once(before)?.1.split_once(after))
        .map(|(text, _)| text)
}

/// A constant of the header.
fn constant(name: &str) -> u64 {
    let line = format!("#define GEDROVIT_{name} ");
    let words: Vec<_> = HEADER
        .lines()
        .filter_map(|text| text.strip_prefix(&line))
        .collect();
    assert_eq!(words.len(), 1, "{name}");
    words[0].parse().unwrap()
}

/// `TooManyRounds` is `TOO_MANY_ROUNDS` there.
fn name(case: impl std::fmt::Debug) -> String {
    let camel = format!("{case:?}");
    let words = camel.split_inclusive(|letter: char| letter.is_ascii_lowercase());
    let spaced = words.fold(String::new(), |mut all, part| {
        if all.ends_with(|letter: char| letter.is_ascii_lowercase())
            && part.starts_with(|letter: char| letter.is_ascii_uppercase())
        {
            all.push('_');
        }
        all + part
    });
    spaced.to_ascii_uppercase()
}

#[test]
#[cfg_attr(not(repository), ignore = "needs gedrovit.h of the repository")]
fn constants_are_the_headers() {
    let constants = [
        ("MAX_ROUNDS", u64::from(gedrovit::MAX_ROUNDS)),
        ("MAX_VERTICES", gedrovit::MAX_VERTICES as u64),
        ("MAX_FACES", gedrovit::MAX_FACES as u64),
        ("MAX_REFINED_FACES", gedrovit::MAX_REFINED_FACES as u64),
        ("MAX_COORDINATE", gedrovit::MAX_COORDINATE as u64),
        ("MAX_RING", gedrovit::MAX_RING as u64),
        ("MAX_FAN", gedrovit::MAX_FAN as u64),
        ("MIN_SIDES", gedrovit::MIN_SIDES.into()),
        ("MAX_SIDES", gedrovit::MAX_SIDES.into()),
        ("MAX_TENSION", gedrovit::MAX_TENSION.into()),
        ("DEFAULT_TENSION", gedrovit::DEFAULT_TENSION.into()),
        ("MAX_TALLY", gedrovit::MAX_TALLY),
        (
            "MAX_REFINED_COORDINATE",
            gedrovit::MAX_REFINED_COORDINATE as u64,
        ),
        ("STACK_BYTES", gedrovit::STACK_BYTES as u64),
    ];
    for (name, value) in constants {
        assert_eq!(constant(name), value, "{name}");
    }
    let all = ["MAX_", "MIN_", "DEFAULT_", "STACK_"]
        .map(|word| between(&format!("#define GEDROVIT_{word}"), " ").count());
    assert_eq!(
        all.iter().sum::<usize>(),
        constants.len(),
        "the header has other limits"
    );
}

#[test]
#[cfg_attr(not(repository), ignore = "needs gedrovit.h of the repository")]
fn reasons_are_the_headers() {
    let names = between("    GEDROVIT_", " = ");
    let numbers: Vec<_> = names.filter(|name| !name.starts_with("LETTER_")).collect();
    assert_eq!(numbers.len(), REASONS.len() + 1);
    for (index, reason) in REASONS.into_iter().enumerate() {
        let name = name(reason);
        assert_eq!(numbers[index + 1], name);
        let number = format!("    GEDROVIT_{name} = {}", reason.number());
        assert!(
            HEADER
                .lines()
                .any(|line| line.trim_end_matches(',') == number),
            "{number}"
        );
        let text = between("    case GEDROVIT_", ";")
            .find_map(|case| case.strip_prefix(&format!("{name}: return ")))
            .unwrap();
        assert_eq!(text, format!("{:?}", reason.text()));
    }
    assert!(HEADER.contains(&format!("default: return {:?};", Unknown(99).text())));
}

#[test]
#[cfg_attr(not(repository), ignore = "needs gedrovit.h of the repository")]
fn letters_are_the_headers() {
    let known = (0..=255).map(Letter::from);
    let known: Vec<Letter> = known
        .filter(|letter| !matches!(letter, Letter::Unknown(_)))
        .collect();
    let names: Vec<_> = between("    GEDROVIT_LETTER_", " = ").collect();
    assert_eq!(names.len(), known.len());
    for letter in known {
        let name = name(letter);
        let line = format!("    GEDROVIT_LETTER_{name} = '");
        let byte = between(&line, "'").next().map(str::to_owned);
        assert_eq!(byte, Some(letter.to_string()), "{name}");
        let text = between("    case GEDROVIT_LETTER_", ";")
            .find_map(|case| case.strip_prefix(&format!("{name}: return ")))
            .unwrap();
        assert_eq!(text, format!("{:?}", letter.text()));
    }
    assert!(HEADER.contains(&format!(
        "default: return {:?};",
        Letter::Unknown(99).text()
    )));
}

#[test]
#[cfg_attr(not(repository), ignore = "needs gedrovit.h of the repository")]
fn the_version_is_the_headers_and_the_archives() {
    let [major, minor, patch] =
        ["MAJOR", "MINOR", "PATCH"].map(|n| constant(&format!("VERSION_{n}")));
    assert_eq!(
        env!("CARGO_PKG_VERSION"),
        format!("{major}.{minor}.{patch}")
    );
    assert_eq!(
        u64::from(gedrovit::version()),
        1_000_000 * major + 1_000 * minor + patch
    );
}
