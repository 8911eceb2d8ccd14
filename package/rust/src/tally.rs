//! The record of new points.

use crate::foreign::Tally;

impl Tally {
    /// A fresh record, with no points.
    #[must_use]
    pub const fn new() -> Self {
        Self::with_points(0)
    }

    /// A record with these points, as one that was stored. Any number may stand there; a call that
    /// would leave more than [`MAX_TALLY`](crate::MAX_TALLY) is refused.
    #[must_use]
    pub const fn with_points(points: u64) -> Self {
        Self { points }
    }

    /// The points so far: the bill.
    #[must_use]
    pub const fn points(&self) -> u64 {
        self.points
    }
}
