//! The tensions of calls. Paper 02: "The net record gains a tension t, 0 to 4";
//! "16, t above 4, place 0, nothing touched, tested after 4."

use reference::refusal::{MAX_TENSION, Refusal};
use reference::rules::Tension;

use crate::case::{Case, Expected};
use crate::rng::Rng;

/// Tensions above 4: the first ones, some whose low bits are a tension, those
/// that are negative as signed numbers, the largest.
pub const TOO_LARGE: [u32; 10] = [
    5,
    6,
    8,
    255,
    256,
    260,
    65_540,
    1 << 31,
    (1 << 31) + 4,
    u32::MAX,
];

pub fn some_tension(rng: &mut Rng) -> Tension {
    rng.pick(&Tension::ALL)
}

/// The call at this tension, which may be a reason for 16.
pub fn with_tension(mut case: Case, tension: u32) -> Case {
    case.tension = tension;
    if tension > MAX_TENSION {
        case.expected = with_reason_16(case.expected);
    }
    case
}

/// What is known of the answer if 16 holds.
fn with_reason_16(expected: Expected) -> Expected {
    match expected {
        Expected::Accepted
        | Expected::Refused(Refusal {
            reason: 5..=12 | 15,
            ..
        }) => Expected::Refused(Refusal::new(16, 0)),
        Expected::Refused(_) | Expected::Unknown => expected,
    }
}

/// The call with a tension that is a reason for 16.
pub fn refused_tension(case: Case, rng: &mut Rng) -> Case {
    with_tension(case, rng.pick(&TOO_LARGE))
}

/// The call with a tension from 0 to 4, unless its own is a reason for 16.
pub fn fit_tension(case: Case, rng: &mut Rng) -> Case {
    if case.tension > MAX_TENSION {
        case
    } else {
        with_tension(case, some_tension(rng).number())
    }
}

/// The call with any tension, unless its own is a reason for 16. One in sixteen
/// is.
pub fn any_tension(case: Case, rng: &mut Rng) -> Case {
    if rng.one_in(16) {
        refused_tension(case, rng)
    } else {
        fit_tension(case, rng)
    }
}
