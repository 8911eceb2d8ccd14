//! The letter beside each refined point. Paper 02: "Which rule made this
//! point."

use crate::net::Net;
use crate::rules::Tension;
use crate::step::{Directions, Rule, refine_once};

/// What made a point, in paper 02's words.
#[derive(Clone, Copy, Debug, PartialEq, Eq, Hash, PartialOrd, Ord)]
pub enum Letter {
    /// "V drawn".
    ControlVertex,
    /// "A within a stretch or round an unmarked loop".
    InsideSegment,
    /// "B end edge".
    EndEdge,
    /// "M one-edge stretch".
    OneEdge,
    /// "S made by P1's split".
    Split,
    /// "C inner edge".
    InnerEdge,
    /// "D one direction with four inner edges or both": one or both directions
    /// of the face have four inner edges.
    FaceFourInner,
    /// "E any other face point": neither direction has them.
    OtherFace,
}

impl Letter {
    pub const ALL: [Self; 8] = [
        Self::ControlVertex,
        Self::InsideSegment,
        Self::EndEdge,
        Self::OneEdge,
        Self::Split,
        Self::InnerEdge,
        Self::FaceFourInner,
        Self::OtherFace,
    ];

    pub fn byte(self) -> u8 {
        match self {
            Self::ControlVertex => b'V',
            Self::InsideSegment => b'A',
            Self::EndEdge => b'B',
            Self::OneEdge => b'M',
            Self::Split => b'S',
            Self::InnerEdge => b'C',
            Self::FaceFourInner => b'D',
            Self::OtherFace => b'E',
        }
    }

    /// The letter of a byte, if it is one.
    pub fn of_byte(byte: u8) -> Option<Self> {
        Self::ALL.into_iter().find(|letter| letter.byte() == byte)
    }
}

impl From<Rule> for Letter {
    fn from(rule: Rule) -> Self {
        match rule {
            Rule::BoundaryInside => Self::InsideSegment,
            Rule::EndEdge => Self::EndEdge,
            Rule::OneEdge => Self::OneEdge,
            Rule::InnerEdge => Self::InnerEdge,
            Rule::Face {
                four_inner: Directions::Neither,
                ..
            } => Self::OtherFace,
            Rule::Face { .. } => Self::FaceFourInner,
        }
    }
}

/// The letters where refining begins, with so many vertices, of which so many
/// are drawn.
pub fn start_letters(vertices: usize, control: usize) -> Vec<Letter> {
    let mut letters = vec![Letter::ControlVertex; control];
    letters.resize(vertices, Letter::Split);
    letters
}

/// The net after `rounds` refinement steps from a net with so many drawn
/// vertices, and its letters. "Points kept from an earlier round keep the
/// letter they were made with."
pub fn refine_with_letters(
    start: Net,
    tension: Tension,
    control: usize,
    rounds: u32,
) -> (Net, Vec<Letter>) {
    let letters = start_letters(start.points.len(), control);
    (0..rounds).fold((start, letters), |(net, mut letters), _| {
        let step = refine_once(&net, tension);
        letters.extend(step.made.iter().map(|new| Letter::from(new.rule)));
        (step.net, letters)
    })
}

/// The letters as a table of bytes.
pub fn letter_table(letters: &[Letter]) -> Vec<u8> {
    letters.iter().map(|letter| letter.byte()).collect()
}
