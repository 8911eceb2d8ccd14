//! Second implementation of the surface refiner, for comparison.
//!
//! Written from the scope paper, paper 02 and Kobbelt's paper only. Topology is
//! kept in maps from vertex pairs; points are exact fractions until they are
//! rounded once. Clarity goes before speed.

#![forbid(unsafe_code)]

pub mod call;
pub mod curve;
pub mod fraction;
pub mod letter;
pub mod net;
pub mod obj;
pub mod point;
pub mod refusal;
pub mod retrace;
pub mod rules;
pub mod seam;
pub mod seamtest;
pub mod step;
pub mod text;
pub mod topology;
