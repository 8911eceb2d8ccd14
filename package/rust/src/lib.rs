//! Refines nets of quadrilateral faces by Kobbelt's interpolatory subdivision, at a tension that the
//! caller may choose, with exact arithmetic and one rounding for each new coordinate, halves upward.
//! Nets with faces of 3 to 8 sides are first split into quadrilaterals. Two nets that share a boundary
//! segment where refining begins, after the split if there is one, share it afterwards, point for
//! point, if their tensions are equal and both are refined by versions with the same rounding, this
//! one since 0.3.0. A net that is moved by whole numbers gives its refined net moved by the same, if
//! the coordinates of both are in range.
//!
//! The work is done by proved code in the archive `libgedrovit.a`. The header `gedrovit.h` has the
//! whole contract; what it says of tables, numbering and limits holds here too.
//!
//! ```
//! let square = gedrovit::Net::new(
//!     vec![0, 0, 0, 16, 0, 0, 16, 16, 0, 0, 16, 0],
//!     vec![0, 1, 2, 3],
//!     vec![1, 1, 1, 1],
//! );
//! let mut tally = gedrovit::Tally::new();
//! let refined = square.refined(&mut tally, 1)?;
//! assert_eq!(refined.faces.len() / 4, 4);
//! assert_eq!(refined.vertices[24..], [8, 8, 0]);
//! assert_eq!(tally.points(), 5);
//! # Ok::<(), gedrovit::Refusal>(())
//! ```
//!
//! Every refining call takes a [`Tally`], the record of new points that makers pay by: an accepted
//! call adds the number of refined vertices minus the number of drawn ones, a refused one nothing.
//!
//! Other faces than quadrilaterals come with side counts; zero rounds give the split net:
//!
//! ```
//! let triangle = gedrovit::Net::new(vec![0, 0, 0, 6, 0, 0, 0, 6, 0], vec![0, 1, 2], vec![0; 3])
//!     .with_sides(vec![3]);
//! let split = triangle.refined(&mut gedrovit::Tally::new(), 0)?;
//! assert_eq!(split.vertices[9..], [3, 0, 0, 3, 3, 0, 0, 3, 0, 2, 2, 0]);
//! assert_eq!(split.faces, [0, 3, 6, 5, 1, 4, 6, 3, 2, 5, 6, 4]);
//! # Ok::<(), gedrovit::Refusal>(())
//! ```
//!
//! [`Net::traced`] gives a [`Letter`] beside each refined vertex, which tells how its point was made:
//!
//! ```
//! use gedrovit::Letter;
//!
//! let square = gedrovit::Net::new(
//!     vec![0, 0, 0, 16, 0, 0, 16, 16, 0, 0, 16, 0],
//!     vec![0, 1, 2, 3],
//!     vec![1, 1, 1, 0],
//! );
//! let traced = square.traced(&mut gedrovit::Tally::new(), 1)?;
//! let letters: String = traced.letters.iter().map(Letter::to_string).collect();
//! assert_eq!(letters, "VVVVMMBBE");
//! assert_eq!(traced.letters[4].text(), "on a boundary segment of one edge");
//! let drawn = traced.letters.iter().filter(|&&letter| letter == Letter::ControlVertex);
//! assert_eq!(drawn.count(), 4);
//! # Ok::<(), gedrovit::Refusal>(())
//! ```
//!
//! A net has a tension from 0 to 4, and 4 unless [`Net::with_tension`] sets it. A lower one
//! overshoots less; 0 gives plain midpoints on edges. This square has no marks, so that its boundary
//! is one closed curve:
//!
//! ```
//! let square = gedrovit::Net::new(
//!     vec![0, 0, 0, 16, 0, 0, 16, 16, 0, 0, 16, 0],
//!     vec![0, 1, 2, 3],
//!     vec![0; 4],
//! );
//! let mut tally = gedrovit::Tally::new();
//! assert_eq!(square.refined(&mut tally, 1)?.vertices[12..15], [8, -2, 0]);
//! let softer = square.clone().with_tension(2);
//! assert_eq!(softer.refined(&mut tally, 1)?.vertices[12..15], [8, -1, 0]);
//! let plain = square.with_tension(0);
//! assert_eq!(plain.refined(&mut tally, 1)?.vertices[12..15], [8, 0, 0]);
//! # Ok::<(), gedrovit::Refusal>(())
//! ```
//!
//! [`Net::shares_with`] tests whether two nets share a segment, before either is refined. It is read
//! from a marked vertex of each, with the sides of the first net and against those of the second:
//!
//! ```
//! let left = gedrovit::Net::new(
//!     vec![0, 0, 0, 16, 0, 0, 16, 16, 0, 0, 16, 0],
//!     vec![0, 1, 2, 3],
//!     vec![1, 1, 1, 1],
//! );
//! let right = gedrovit::Net::new(
//!     vec![16, 0, 0, 40, 0, 5, 40, 16, 5, 16, 16, 0],
//!     vec![0, 1, 2, 3],
//!     vec![1, 1, 1, 1],
//! );
//! assert_eq!(left.shares_with(1, &right, 0), Ok(1));
//! let refused = left.shares_with(1, &right.with_tension(3), 0).unwrap_err();
//! assert_eq!(refused.reason, gedrovit::Reason::SeamMismatch);
//! ```
//!
//! The build takes the archive from the folder that the environment variable `GEDROVIT_LIB_DIR`
//! names; without it, from where `pkg-config` finds this version of the package, or else from the
//! repository that this crate is part of.

mod call;
mod foreign;
mod letter;
mod limits;
mod net;
mod refusal;
mod tally;

pub use call::{check, lengths, refine, share_seam, version, Counts, Lengths};
pub use foreign::Tally;
pub use letter::Letter;
pub use limits::*;
pub use net::{Net, NetView, Tables, Traced};
pub use refusal::{Reason, Refusal};
