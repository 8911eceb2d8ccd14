//! The limits of a call, and what calls stay within, as in `gedrovit.h`.

/// The most refinement steps.
pub const MAX_ROUNDS: u32 = 6;
/// The most vertices of a net.
pub const MAX_VERTICES: usize = 8_192;
/// The most faces of a net; with side counts, the most corners.
pub const MAX_FACES: usize = 4_096;
/// The most faces of a refined net.
pub const MAX_REFINED_FACES: usize = 262_144;
/// The largest coordinate of a net, in absolute value.
pub const MAX_COORDINATE: i32 = 1_048_576;
/// The most faces round an inner vertex.
pub const MAX_RING: usize = 8;
/// The most faces at a boundary vertex.
pub const MAX_FAN: usize = 6;
/// The fewest sides of a face.
pub const MIN_SIDES: u8 = 3;
/// The most sides of a face.
pub const MAX_SIDES: u8 = 8;
/// The largest tension.
pub const MAX_TENSION: u32 = 4;
/// The tension of a net that sets none.
pub const DEFAULT_TENSION: u32 = 4;
/// The most points in the record after an accepted call.
pub const MAX_TALLY: u64 = 4_000_000_000;
/// What refined coordinates stay within, in absolute value.
pub const MAX_REFINED_COORDINATE: i32 = 268_435_456;
/// A call uses less stack than this; measured, not proved.
pub const STACK_BYTES: usize = 8_192;
