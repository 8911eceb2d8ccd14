//! Whether calls ask for letters, and the tables that they provide for them.
//! Paper 02: "The lent letter table has 4G bytes; a shorter one counts among the
//! outputs of 4."

use reference::refusal::{Capacity, Refusal};

use crate::case::{Case, Expected};
use crate::rng::Rng;

named_cases! {
    /// A wish and the length of the letter table, where 4G bytes are due.
    pub enum LetterTable {
        NotAskedEmpty = "not asked for, no bytes",
        NotAskedShort = "not asked for, fewer than 4G bytes",
        NotAskedLong = "not asked for, 4G bytes or more",
        Exact = "4G bytes",
        OneMore = "4G + 1 bytes",
        Longer = "more than 4G + 1 bytes",
        OneShort = "4G - 1 bytes",
        Shorter = "fewer than 4G - 1 bytes",
        Empty = "no bytes",
        NoFaces = "any bytes, G is 0",
    }
}

impl LetterTable {
    const NOT_ASKED: [Self; 3] = [Self::NotAskedEmpty, Self::NotAskedShort, Self::NotAskedLong];
    const SERVING: [Self; 4] = [Self::Exact, Self::Exact, Self::OneMore, Self::Longer];
    const SHORT: [Self; 3] = [Self::OneShort, Self::Shorter, Self::Empty];

    pub fn is_asked(self) -> bool {
        !Self::NOT_ASKED.contains(&self)
    }

    /// Whether it is too short for letters that are asked for.
    pub fn is_short(self) -> bool {
        Self::SHORT.contains(&self)
    }

    /// The length of such a table where so many bytes are due.
    fn length(self, due: usize, rng: &mut Rng) -> usize {
        match self {
            Self::NotAskedEmpty | Self::Empty => 0,
            Self::NotAskedShort => rng.below(due.max(1)),
            Self::NotAskedLong | Self::NoFaces => due + rng.pick(&[0, 1, 9]),
            Self::Exact => due,
            Self::OneMore => due + 1,
            Self::Longer => due + rng.pick(&[2, 7, 100]),
            Self::OneShort => due.saturating_sub(1),
            Self::Shorter => rng.below(due.saturating_sub(1).max(1)),
        }
    }

    /// What the letter table is to a call with at most 6 rounds.
    pub fn of(case: &Case) -> Self {
        let (due, length) = (4 * case.served_faces(), case.capacity.letters);
        match case.capacity.with_letters {
            false if length == 0 => Self::NotAskedEmpty,
            false if length < due => Self::NotAskedShort,
            false => Self::NotAskedLong,
            true if due == 0 => Self::NoFaces,
            true if length == 0 => Self::Empty,
            true if length == due => Self::Exact,
            true if length == due + 1 => Self::OneMore,
            true if length + 1 == due => Self::OneShort,
            true if length < due => Self::Shorter,
            true => Self::Longer,
        }
    }
}

/// The call with such a letter table.
pub fn with_letter_table(mut case: Case, table: LetterTable, rng: &mut Rng) -> Case {
    let due = 4 * served_faces(&case);
    let (with_letters, letters) = (table.is_asked(), table.length(due, rng));
    case.capacity = Capacity {
        with_letters,
        letters,
        ..case.capacity
    };
    if table.is_short() && due > 0 {
        case.expected = with_short_table(case.expected);
    }
    case
}

/// The refined faces of a call. Where it is refused before any table for the
/// results is measured, they are taken to be few.
fn served_faces(case: &Case) -> usize {
    match case.expected {
        Expected::Refused(Refusal {
            reason: 1..=3 | 14, ..
        }) => case.served_faces().min(64),
        _ => case.served_faces(),
    }
}

/// What is known of the answer if a table is too short.
fn with_short_table(expected: Expected) -> Expected {
    match expected {
        Expected::Accepted
        | Expected::Refused(Refusal {
            reason: 4..=12 | 15 | 16,
            ..
        }) => Expected::Refused(Refusal::new(4, 0)),
        Expected::Refused(_) | Expected::Unknown => expected,
    }
}

/// The call with letters asked for or not, half of the time each, in a table
/// that leaves its answer as it is.
pub fn fit_letters(case: Case, rng: &mut Rng) -> Case {
    let tables: &[LetterTable] = if rng.one_in(2) {
        &LetterTable::SERVING
    } else {
        &LetterTable::NOT_ASKED
    };
    let table = rng.pick(tables);
    with_letter_table(case, table, rng)
}

/// The call with any letter table, unless it has one. One in sixteen is too
/// short for letters that are asked for.
pub fn any_letters(case: Case, rng: &mut Rng) -> Case {
    if case.capacity.with_letters || case.capacity.letters > 0 {
        case
    } else if rng.one_in(16) {
        let table = rng.pick(&LetterTable::SHORT);
        with_letter_table(case, table, rng)
    } else {
        fit_letters(case, rng)
    }
}
