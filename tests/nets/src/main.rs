//! Prints generated texts.
//!
//! - `nets list` names the kinds.
//! - `nets make KIND SEED` prints one text.
//! - `nets batch --seed S --count N --dir D` writes N texts of all kinds in
//!   rotation into the folder D, and a file `list` with their paths.
//! - `nets named --seed S --dir D` writes the texts of all named nets that the
//!   program serves in the same way.
//! - `nets facts --seed S --count N` prints N accepted nets, small named nets
//!   and all refusals with what the reference says of them, a line of JSON
//!   each.
//! - `nets calls list` names the kinds of calls with side counts.
//! - `nets calls make KIND SEED` prints one of them.
//! - `nets calls answer FILE ..` answers stored calls, each into the same path
//!   with the extension `out`.
//! - `nets seams list` names the kinds of seam tests.
//! - `nets seams make KIND SEED` prints one of them with its answer, as a line of
//!   JSON.

#![forbid(unsafe_code)]

use std::error::Error;
use std::fs;
use std::io::{self, Write};
use std::path::Path;
use std::process::ExitCode;

use nets::facts;
use nets::kind::{CallKind, Kind, named_texts};
use nets::seamtest::SeamKind;
use nets::stored;
use reference::text::print;

const USAGE: &str = "usage: nets list | nets make KIND SEED | \
    nets batch --seed S --count N --dir D | nets named --seed S --dir D | \
    nets facts --seed S --count N | nets calls list | nets calls make KIND SEED | \
    nets calls answer FILE .. | nets seams list | nets seams make KIND SEED";

fn main() -> ExitCode {
    let arguments: Vec<String> = std::env::args().skip(1).collect();
    let arguments: Vec<&str> = arguments.iter().map(String::as_str).collect();
    match run(&arguments) {
        Ok(()) => ExitCode::SUCCESS,
        Err(error) => {
            eprintln!("nets: {error}");
            ExitCode::FAILURE
        }
    }
}

fn run(arguments: &[&str]) -> Result<(), Box<dyn Error>> {
    match *arguments {
        ["list"] => {
            for kind in Kind::all() {
                println!("{}", kind.name());
            }
            Ok(())
        }
        ["make", kind, seed] => {
            let kind = Kind::named(kind).ok_or("no such kind; see nets list")?;
            io::stdout().write_all(&kind.make(seed.parse()?).text)?;
            Ok(())
        }
        ["batch", "--seed", seed, "--count", count, "--dir", folder] => {
            write_texts(Path::new(folder), batch(seed.parse()?, count.parse()?))
        }
        ["named", "--seed", seed, "--dir", folder] => {
            let texts = named_texts(seed.parse()?).into_iter();
            write_texts(
                Path::new(folder),
                texts.map(|(name, case)| (name, case.text)),
            )
        }
        ["facts", "--seed", seed, "--count", count] => {
            let lines = facts::lines(seed.parse()?, count.parse()?);
            io::stdout().write_all(lines.join("\n").as_bytes())?;
            println!();
            Ok(())
        }
        ["calls", ref others @ ..] => calls(others),
        ["seams", ref others @ ..] => seams(others),
        _ => Err(USAGE.into()),
    }
}

fn calls(arguments: &[&str]) -> Result<(), Box<dyn Error>> {
    match *arguments {
        ["list"] => {
            for kind in CallKind::all() {
                println!("{}", kind.name());
            }
        }
        ["make", kind, seed] => {
            let kind = CallKind::named(kind).ok_or("no such kind; see nets calls list")?;
            print!("{}", stored::to_text(&kind.make(seed.parse()?)));
        }
        ["answer", ref files @ ..] if !files.is_empty() => {
            for file in files {
                let case = stored::from_text(&fs::read_to_string(file)?);
                let case = case.ok_or_else(|| format!("{file} is no call"))?;
                fs::write(
                    Path::new(file).with_extension("out"),
                    print(&case.outcome()),
                )?;
            }
        }
        _ => return Err(USAGE.into()),
    }
    Ok(())
}

fn seams(arguments: &[&str]) -> Result<(), Box<dyn Error>> {
    match *arguments {
        ["list"] => {
            for kind in SeamKind::all() {
                println!("{}", kind.name());
            }
        }
        ["make", kind, seed] => {
            let kind = SeamKind::named(kind).ok_or("no such kind; see nets seams list")?;
            let case = kind.make(seed.parse()?);
            println!("{}", facts::seam_line(&kind.name(), &case));
        }
        _ => return Err(USAGE.into()),
    }
    Ok(())
}

/// Texts of all kinds in rotation, with their names.
fn batch(seed: u64, count: u64) -> impl Iterator<Item = (String, Vec<u8>)> {
    let kinds = (0..count).zip(Kind::all().into_iter().cycle());
    kinds.map(move |(number, kind)| {
        let name = format!("{number:05}-{}", kind.name());
        (name, kind.make(seed.wrapping_add(number)).text)
    })
}

/// Writes texts into a folder, and their paths into the file `list` there.
fn write_texts(
    folder: &Path,
    texts: impl Iterator<Item = (String, Vec<u8>)>,
) -> Result<(), Box<dyn Error>> {
    fs::create_dir_all(folder)?;
    let mut list = String::new();
    for (name, text) in texts {
        let path = folder.join(format!("{name}.txt"));
        fs::write(&path, text)?;
        list += &format!("{}\n", path.display());
    }
    fs::write(folder.join("list"), list)?;
    Ok(())
}
