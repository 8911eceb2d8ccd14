//! Why a call was refused.

use std::error::Error;
use std::fmt;

/// The reason of a refusal. Later versions add reasons.
#[derive(Clone, Copy, Debug, PartialEq, Eq, PartialOrd, Ord, Hash)]
#[non_exhaustive]
pub enum Reason {
    /// Rounds above 6.
    TooManyRounds,
    /// The vertex table is no multiple of 3 long, without side counts the face table none of 4, or
    /// the marks are not one for each vertex.
    InvalidLengths,
    /// More than 8,192 vertices, 4,096 faces (with side counts, corners) or 262,144 refined faces.
    NetTooLarge,
    /// An output or the work table is shorter than [`lengths`](crate::lengths) says, or the letters
    /// where they are asked for.
    TableTooShort,
    /// A coordinate outside -1,048,576 to 1,048,576. The place is the vertex.
    CoordinateOutOfRange,
    /// A mark above 1. The place is the vertex.
    InvalidMark,
    /// A corner that is no vertex, or two equal corners. The place is the face.
    InvalidCorner,
    /// A vertex in no face. The place is the vertex.
    IsolatedVertex,
    /// A side that runs from one vertex to another as a side of an earlier face does. The place is
    /// the later face.
    RepeatedHalfEdge,
    /// The faces at a vertex form neither one full ring nor one open fan. The place is the vertex.
    NonManifoldVertex,
    /// A ring of fewer than 3 or more than 8 faces, or a fan of more than 6. The place is the
    /// vertex.
    ValenceOutOfRange,
    /// Mark 1 on a vertex with a full ring. The place is the vertex.
    MarkedInteriorVertex,
    /// A side count outside 3 to 8, or counts that do not add up to the length of the face table.
    InvalidSideCounts,
    /// The record of new points would be above 4,000,000,000 after the call, even if nothing is added.
    TallyLimit,
    /// Tension above 4.
    TensionOutOfRange,
    /// A start of the seam test that is no marked vertex. The place is 1 for that of the first net, 2
    /// for that of the second.
    InvalidStart,
    /// The segments of the seam test or the tensions differ, or only one net has side counts. The
    /// place is 0 if the tensions differ or only one net has side counts, else the first step that
    /// differs, from 0.
    SeamMismatch,
    /// A number that this version does not know.
    Unknown(u32),
}

use Reason::*;

/// The known reasons with their numbers.
const ALL: [(u32, Reason); 17] = [
    (1, TooManyRounds),
    (2, InvalidLengths),
    (3, NetTooLarge),
    (4, TableTooShort),
    (5, CoordinateOutOfRange),
    (6, InvalidMark),
    (7, InvalidCorner),
    (8, IsolatedVertex),
    (9, RepeatedHalfEdge),
    (10, NonManifoldVertex),
    (11, ValenceOutOfRange),
    (12, MarkedInteriorVertex),
    (14, InvalidSideCounts),
    (15, TallyLimit),
    (16, TensionOutOfRange),
    (17, InvalidStart),
    (18, SeamMismatch),
];

impl Reason {
    /// The reason's number, as in `gedrovit.h`.
    #[must_use]
    pub fn number(self) -> u32 {
        match self {
            Unknown(number) => number,
            _ => ALL
                .into_iter()
                .find_map(|(number, reason)| (reason == self).then_some(number))
                .unwrap_or(0),
        }
    }

    /// The reason of a number that is not 0.
    fn of(number: u32) -> Reason {
        ALL.into_iter()
            .find_map(|(known, reason)| (known == number).then_some(reason))
            .unwrap_or(Unknown(number))
    }

    /// What the reason says, as `gedrovit_reason_text` does.
    #[must_use]
    pub fn text(self) -> &'static str {
        match self {
            TooManyRounds => "more than 6 rounds",
            InvalidLengths => "the tables of the net do not fit each other",
            NetTooLarge => "the net is too large",
            TableTooShort => "an output or the work table is too short",
            CoordinateOutOfRange => "a coordinate is outside -1,048,576 to 1,048,576",
            InvalidMark => "the mark is neither 0 nor 1",
            InvalidCorner => "a corner is no vertex, or two corners are equal",
            IsolatedVertex => "the vertex is in no face",
            RepeatedHalfEdge => "a side runs as a side of an earlier face does",
            NonManifoldVertex => {
                "the faces at the vertex form neither one full ring nor one open fan"
            }
            ValenceOutOfRange => "the ring is not of 3 to 8 faces, or the fan is of more than 6",
            MarkedInteriorVertex => "the vertex is marked and not on the boundary",
            InvalidSideCounts => {
                "a side count is not from 3 to 8, or the counts do not add up to the corners"
            }
            TallyLimit => "the record of new points would be above 4,000,000,000",
            TensionOutOfRange => "the tension is above 4",
            InvalidStart => "the start is no marked vertex",
            SeamMismatch => "the segments or the tensions differ, or only one net has side counts",
            Unknown(_) => "a reason that this version does not know",
        }
    }
}

/// A call that was refused: the first reason that holds, in the order of `gedrovit.h`, and where.
#[derive(Clone, Copy, Debug, PartialEq, Eq, Hash)]
pub struct Refusal {
    /// Why.
    pub reason: Reason,
    /// The lowest vertex or face number concerned, from 0; 0 for reasons 1 to 4 and 14 to 16; for 17
    /// the net, 1 or 2, and for 18 a step of the segments.
    pub place: usize,
}

impl Refusal {
    /// `Ok` for the number 0.
    pub(crate) fn accept(number: u32, place: u64) -> Result<(), Refusal> {
        if number == 0 {
            return Ok(());
        }
        Err(Refusal {
            reason: Reason::of(number),
            place: place as usize,
        })
    }

    /// What the place is the number of, if it is one. Step 0 is not told: it stands for the tensions
    /// and side counts too.
    fn subject(&self) -> Option<&'static str> {
        match self.reason {
            TooManyRounds | InvalidLengths | NetTooLarge | TableTooShort | InvalidSideCounts
            | TallyLimit | TensionOutOfRange | Unknown(_) => None,
            InvalidCorner | RepeatedHalfEdge => Some("face"),
            InvalidStart => Some("net"),
            SeamMismatch => (self.place > 0).then_some("step"),
            _ => Some("vertex"),
        }
    }
}

impl fmt::Display for Refusal {
    fn fmt(&self, f: &mut fmt::Formatter<'_>) -> fmt::Result {
        write!(f, "refusal {}", self.reason.number())?;
        if let Some(subject) = self.subject() {
            write!(f, " at {subject} {}", self.place)?;
        }
        write!(f, ": {}", self.reason.text())
    }
}

impl Error for Refusal {}

#[cfg(test)]
mod tests {
    use super::*;

    #[test]
    fn numbers_go_there_and_back() {
        for number in 1..100 {
            assert_eq!(Reason::of(number).number(), number);
        }
    }

    #[test]
    fn an_unknown_number_is_an_error() {
        for number in [13, 19, u32::MAX] {
            let refusal = Refusal::accept(number, 5).unwrap_err();
            assert_eq!(refusal.reason, Unknown(number));
            assert!(refusal
                .to_string()
                .starts_with(&format!("refusal {number}: ")));
        }
    }

    #[test]
    fn display_says_number_place_and_reason() {
        let refusal = Refusal::accept(7, 3).unwrap_err();
        assert_eq!(
            refusal.to_string(),
            "refusal 7 at face 3: a corner is no vertex, or two corners are equal"
        );
        let refusal = Refusal::accept(1, 0).unwrap_err();
        assert_eq!(refusal.to_string(), "refusal 1: more than 6 rounds");
        let refusal = Refusal::accept(14, 0).unwrap_err();
        assert!(refusal.to_string().starts_with("refusal 14: a side count"));
        let refusal = Refusal::accept(17, 2).unwrap_err();
        assert_eq!(
            refusal.to_string(),
            "refusal 17 at net 2: the start is no marked vertex"
        );
        for (place, told) in [
            (0, "refusal 18: the seg"),
            (3, "refusal 18 at step 3: the seg"),
        ] {
            let refusal = Refusal::accept(18, place).unwrap_err();
            assert!(refusal.to_string().starts_with(told));
        }
    }
}
