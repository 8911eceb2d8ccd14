//! What the program is asked to do.

use std::path::PathBuf;

use nets::stored::stored_calls;

use crate::huge;
use crate::named::CROWD_COUNT;
use crate::valences;

pub const USAGE: &str = "usage: differential [--nets N] [--seed S] [--here] [MODE]

Compares N seeded nets (20000), one with side counts for every 3 of them,
moved nets, series of calls over one record, pairs with seams, seam tests, named
nets with every number of rounds and at every tension, crowds of them, calls with
a vertex in many faces, the stored calls, and calls with huge lengths. A second
process does it, so that the call is known if that dies; with --here this one.
MODE is one of
  --net I          compares only net I of the series
  --polygons I     compares only net I with side counts
  --moved I        compares only net I of those that are moved, and its copy
  --moved-polygons I
                   the same with side counts
  --series I       compares only series I of calls over one record
  --pair I         compares only pair I
  --polygon-pair I compares only pair I with side counts in one net or both
  --seam-test I    compares only seam test I
  --named I        compares only net I of the named ones
  --crowd I        compares only net I of those made of many named ones
  --valence I      compares only call I with a vertex in many faces
  --stored I       compares only stored call I
  --huge I         compares only call I with a huge length
  --prove-guards   only shows that stray accesses are seen
  --dump FILE      compares nothing, but writes the calls into FILE
  --dump-seam-tests FILE
                   the same with the seam tests";

pub struct Options {
    pub nets: u64,
    pub seed: u64,
    pub here: bool,
    pub mode: Mode,
}

pub enum Mode {
    Compare,
    One(What, u64),
    ProveGuards,
    /// One of the accesses of `ProveGuards`.
    Stray(u64),
    Dump(PathBuf),
    DumpSeamTests(PathBuf),
}

/// A sort of comparison.
#[derive(Clone, Copy, Debug)]
pub enum What {
    Net,
    Polygons,
    Moved,
    MovedPolygons,
    Series,
    Pair,
    PolygonPair,
    SeamTest,
    Named,
    Crowd,
    Valence,
    Stored,
    Huge,
}

impl What {
    pub const ALL: [Self; 13] = [
        Self::Net,
        Self::Polygons,
        Self::Moved,
        Self::MovedPolygons,
        Self::Series,
        Self::Pair,
        Self::PolygonPair,
        Self::SeamTest,
        Self::Named,
        Self::Crowd,
        Self::Valence,
        Self::Stored,
        Self::Huge,
    ];

    pub fn name(self) -> &'static str {
        match self {
            What::Net => "net",
            What::Polygons => "polygons",
            What::Moved => "moved",
            What::MovedPolygons => "moved-polygons",
            What::Series => "series",
            What::Pair => "pair",
            What::PolygonPair => "polygon-pair",
            What::SeamTest => "seam-test",
            What::Named => "named",
            What::Crowd => "crowd",
            What::Valence => "valence",
            What::Stored => "stored",
            What::Huge => "huge",
        }
    }

    /// The sort of comparison that an option names.
    fn of(option: &str) -> Option<Self> {
        let name = option.strip_prefix("--")?;
        Self::ALL.into_iter().find(|what| what.name() == name)
    }

    /// How many there are for so many nets.
    pub fn count(self, nets: u64) -> u64 {
        match self {
            What::Net => nets,
            What::Polygons => nets.div_ceil(3),
            What::Moved | What::SeamTest | What::Named => nets.div_ceil(10),
            What::MovedPolygons | What::Pair => nets.div_ceil(20),
            What::Series => nets.div_ceil(40),
            What::PolygonPair => nets.div_ceil(60),
            What::Crowd => CROWD_COUNT,
            What::Valence => valences::count(nets),
            What::Stored => stored_calls().len() as u64,
            What::Huge => huge::COUNT,
        }
    }
}

impl Options {
    /// What the arguments say, if they are well-formed.
    pub fn parse(arguments: &[String]) -> Option<Self> {
        let mut options = Self {
            nets: 20_000,
            seed: 20_261_115,
            here: false,
            mode: Mode::Compare,
        };
        let mut arguments = arguments.iter();
        while let Some(name) = arguments.next() {
            let mut number = || arguments.next()?.parse().ok();
            match name.as_str() {
                "--nets" => options.nets = number()?,
                "--seed" => options.seed = number()?,
                "--here" => options.here = true,
                "--prove-guards" => options.mode = Mode::ProveGuards,
                "--stray" => options.mode = Mode::Stray(number()?),
                "--dump" => options.mode = Mode::Dump(arguments.next()?.into()),
                "--dump-seam-tests" => {
                    options.mode = Mode::DumpSeamTests(arguments.next()?.into());
                }
                _ => options.mode = Mode::One(What::of(name)?, number()?),
            }
        }
        Some(options)
    }
}
