//! Seeded nets and texts for testing the refiner.
//!
//! - [`accepted`]: nets that a call accepts, of every kind and size.
//! - [`polygons`]: the same with side counts, so with faces of 3 to 8 sides.
//! - [`refused`]: calls and texts with one or more reasons for a refusal.
//! - [`valences`]: calls with a vertex in many faces.
//! - [`damaged`]: texts that lost their form, and damaged tables.
//! - [`obj`]: OBJ texts, accepted, refused and damaged.
//! - [`pairs`]: pairs of nets that share a boundary segment.
//! - [`seamtest`]: seam tests of two nets, that match or are spoiled.
//! - [`tally`]: what calls find in the record of new points.
//! - [`tension`]: the tensions of calls.
//! - [`letters`]: whether calls ask for letters, and the tables for them.
//! - [`moved`]: calls and the same calls on the moved net.
//! - [`named`]: small nets for the cases of the rules, one by one.
//! - [`features`]: the cases of the rules that a net meets.
//! - [`facts`]: small calls with all that the reference says of them.
//! - [`stored`]: the stored form of calls.
//! - [`kind`]: all kinds by name, small nets, and a mixed series of calls.

#![forbid(unsafe_code)]

/// Defines an enum with the list of its cases and a name for each.
macro_rules! named_cases {
    (
        $(#[$about:meta])*
        pub enum $kind:ident { $($(#[$note:meta])* $case:ident = $name:literal,)+ }
    ) => {
        $(#[$about])*
        #[derive(Clone, Copy, Debug, PartialEq, Eq, PartialOrd, Ord)]
        pub enum $kind { $($(#[$note])* $case,)+ }

        impl $kind {
            pub const ALL: [Self; [$($name),+].len()] = [$(Self::$case),+];

            pub fn name(self) -> &'static str {
                match self { $(Self::$case => $name,)+ }
            }
        }
    };
}

pub mod accepted;
pub mod build;
pub mod case;
pub mod change;
pub mod coordinates;
pub mod damaged;
pub mod facts;
pub mod features;
pub mod kind;
pub mod letters;
pub mod moved;
pub mod named;
pub mod obj;
pub mod pairs;
pub mod polygons;
pub mod refused;
pub mod remodel;
pub mod rng;
pub mod seamtest;
pub mod shapes;
pub mod solids;
pub mod stored;
pub mod tally;
pub mod tension;
pub mod valences;
