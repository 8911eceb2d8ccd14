//! How a refined point was made.

use std::fmt;

/// The letter beside a refined vertex, which tells how its point was made. Later versions may add
/// letters.
#[derive(Clone, Copy, Debug, PartialEq, Eq, PartialOrd, Ord, Hash)]
#[non_exhaustive]
pub enum Letter {
    /// `V`: drawn, that is a vertex of the control net.
    ControlVertex,
    /// `A`: on a boundary edge, both ends unmarked: inside an open segment, or anywhere on a closed
    /// one.
    InsideSegment,
    /// `B`: on a boundary edge with one marked end: an end edge of an open segment.
    EndEdge,
    /// `M`: on a boundary edge with two marked ends: a segment of one edge.
    OneEdgeSegment,
    /// `S`: made by the split, on an edge or in a face.
    Split,
    /// `C`: on an inner edge, that is an edge of two faces.
    InnerEdge,
    /// `D`: in a face one or both of whose directions have four inner edges.
    FaceFourInner,
    /// `E`: in any other face.
    OtherFace,
    /// A byte that this version does not know as a letter.
    Unknown(u8),
}

use Letter::*;

/// The known letters with their bytes.
const ALL: [(u8, Letter); 8] = [
    (b'V', ControlVertex),
    (b'A', InsideSegment),
    (b'B', EndEdge),
    (b'M', OneEdgeSegment),
    (b'S', Split),
    (b'C', InnerEdge),
    (b'D', FaceFourInner),
    (b'E', OtherFace),
];

impl Letter {
    /// The letter's byte, as in `gedrovit.h`.
    #[must_use]
    pub fn byte(self) -> u8 {
        match self {
            Unknown(byte) => byte,
            _ => ALL
                .into_iter()
                .find_map(|(byte, letter)| (letter == self).then_some(byte))
                .unwrap_or(0),
        }
    }

    /// What the letter says, as `gedrovit_letter_text` does.
    #[must_use]
    pub fn text(self) -> &'static str {
        match self {
            ControlVertex => "drawn",
            InsideSegment => "on a boundary edge inside a segment or on a closed one",
            EndEdge => "on an end edge of a boundary segment",
            OneEdgeSegment => "on a boundary segment of one edge",
            Split => "made by the split",
            InnerEdge => "on an inner edge",
            FaceFourInner => "in a face with four inner edges in one direction or both",
            OtherFace => "in a face without four inner edges in either direction",
            Unknown(_) => "a letter that this version does not know",
        }
    }
}

impl From<u8> for Letter {
    fn from(byte: u8) -> Self {
        ALL.into_iter()
            .find_map(|(known, letter)| (known == byte).then_some(letter))
            .unwrap_or(Unknown(byte))
    }
}

impl From<Letter> for u8 {
    fn from(letter: Letter) -> Self {
        letter.byte()
    }
}

/// The letter itself, as the program prints it.
impl fmt::Display for Letter {
    fn fmt(&self, f: &mut fmt::Formatter<'_>) -> fmt::Result {
        write!(f, "{}", char::from(self.byte()).escape_default())
    }
}

#[cfg(test)]
mod tests {
    use super::*;

    #[test]
    fn bytes_go_there_and_back() {
        for byte in 0..=255 {
            assert_eq!(u8::from(Letter::from(byte)), byte);
            let is_known = b"VABMSCDE".contains(&byte);
            assert_eq!(Letter::from(byte) != Unknown(byte), is_known);
        }
    }

    #[test]
    fn display_is_the_letter() {
        let shown: String = ALL.iter().map(|(_, letter)| letter.to_string()).collect();
        assert_eq!(shown, "VABMSCDE");
        assert_eq!(Unknown(0).to_string(), "\\u{0}");
    }
}
