//! Compares the refiner with the second implementation through its C
//! interface, with every table of a call between zones without access.

mod capi;
mod compare;
mod counts;
mod coverage;
mod draw;
mod dump;
mod guarded;
mod guards;
mod huge;
mod lengths;
mod moves;
mod named;
mod options;
mod polygons;
mod retrace;
mod run;
mod seams;
mod seamtests;
mod series;
mod valences;

use std::path::Path;
use std::process::ExitCode;

use compare::Known;
use dump::Dump;
use options::{Mode, Options, USAGE, What};
use run::{Run, generated, rng};
use seamtests::KnownTest;

/// Calls with longer work tables are not dumped.
const DUMPED_WORK: usize = 20_000;

fn main() -> ExitCode {
    let arguments: Vec<String> = std::env::args().skip(1).collect();
    let Some(options) = Options::parse(&arguments) else {
        eprintln!("{USAGE}");
        return ExitCode::from(2);
    };
    match answer(&options, &arguments) {
        Ok(text) => {
            println!("{text}");
            ExitCode::SUCCESS
        }
        Err(text) => {
            println!("{text}");
            ExitCode::FAILURE
        }
    }
}

fn answer(options: &Options, arguments: &[String]) -> Result<String, String> {
    match &options.mode {
        Mode::Stray(trial) => guards::stray(*trial),
        Mode::ProveGuards => guards::prove(),
        Mode::Dump(path) => dump(options, path),
        Mode::DumpSeamTests(path) => dump_seam_tests(options, path),
        Mode::Compare if !options.here => {
            println!("{}", guards::prove()?);
            guards::supervise(arguments)
        }
        Mode::Compare => Run::new(options.seed).all(options.nets),
        Mode::One(what, number) if options.here => Run::new(options.seed).one(*what, *number),
        Mode::One(..) => guards::supervise(arguments),
    }
}

/// Writes the calls of a series without comparing them.
fn dump(options: &Options, path: &Path) -> Result<String, String> {
    let mut dump = Dump::new(path).map_err(|error| error.to_string())?;
    let mut dumped = 0;
    for what in [What::Net, What::Polygons, What::Named, What::Valence] {
        for number in 0..what.count(options.nets) {
            let rng = &mut rng(options.seed, number);
            let case = generated(what, number, rng).1;
            if case.capacity.workspace <= DUMPED_WORK {
                let known = Known::new(case, rng)?;
                dump.add(&known).map_err(|error| error.to_string())?;
                dumped += 1;
            }
        }
    }
    dump.finish().map_err(|error| error.to_string())?;
    Ok(format!("{dumped} calls written"))
}

/// The same with the seam tests.
fn dump_seam_tests(options: &Options, path: &Path) -> Result<String, String> {
    let mut dump = Dump::new(path).map_err(|error| error.to_string())?;
    let mut dumped = 0;
    for number in 0..What::SeamTest.count(options.nets) {
        let rng = &mut rng(options.seed, number);
        let known = KnownTest::draw(number, rng)?;
        if known.found.len() <= DUMPED_WORK {
            dump.add_seam_test(&known)
                .map_err(|error| error.to_string())?;
            dumped += 1;
        }
    }
    dump.finish().map_err(|error| error.to_string())?;
    Ok(format!("{dumped} seam tests written"))
}
