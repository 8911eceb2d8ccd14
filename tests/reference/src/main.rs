//! The text program: a net on standard input, the answer on standard output.
//!
//! `reference --batch LIST` instead answers every text named in the file
//! LIST, one path per line, and writes each answer beside its text with the
//! extension `out`.

#![forbid(unsafe_code)]

use std::fs;
use std::io::{self, Read, Write};
use std::path::Path;
use std::process::ExitCode;

use reference::text::answer;

fn main() -> ExitCode {
    let arguments: Vec<String> = std::env::args().skip(1).collect();
    let arguments: Vec<&str> = arguments.iter().map(String::as_str).collect();
    let result = match arguments[..] {
        [] => answer_input(),
        ["--batch", list] => answer_list(Path::new(list)),
        _ => {
            eprintln!("usage: reference [--batch LIST]");
            return ExitCode::from(2);
        }
    };
    match result {
        Ok(()) => ExitCode::SUCCESS,
        Err(error) => {
            eprintln!("reference: {error}");
            ExitCode::FAILURE
        }
    }
}

fn answer_input() -> io::Result<()> {
    let mut text = Vec::new();
    io::stdin().read_to_end(&mut text)?;
    io::stdout().write_all(answer(&text).as_bytes())
}

fn answer_list(list: &Path) -> io::Result<()> {
    for name in fs::read_to_string(list)?.lines() {
        let path = Path::new(name);
        fs::write(path.with_extension("out"), answer(&fs::read(path)?))?;
    }
    Ok(())
}
