//! Refines the net that a text file writes and prints the answer, both in the text form of `./refine`: refine_text FILE.
//! It serves all that the call does, up to 262,144 refined faces.

use gedrovit::{Net, Tally};
use std::error::Error;
use std::io::{self, BufWriter, Write};
use std::process::ExitCode;
use std::str::FromStr;
use std::{env, fs};

/// The numbers of a line.
fn numbers<T: FromStr>(line: Option<&str>) -> Result<Vec<T>, Box<dyn Error>>
where
    T::Err: Error + 'static,
{
    let words = line.ok_or("a line is missing")?.split(' ');
    words.map(|word| Ok(word.parse()?)).collect()
}

/// The rounds and the net: a line of names stands before the counts, before the vertices and before the faces.
fn read(text: &str) -> Result<(u32, Net), Box<dyn Error>> {
    let mut lines = text.lines().skip(1);
    let [vertices, _, rounds] = numbers::<u32>(lines.next())?[..] else {
        return Err("vertices, faces and rounds are wanted in line 2".into());
    };
    lines.next();
    let rows: Result<Vec<Vec<i32>>, _> = (0..vertices).map(|_| numbers(lines.next())).collect();
    let rows = rows?;
    lines.next();
    let faces: Result<Vec<Vec<u32>>, _> = lines.map(|line| numbers(Some(line))).collect();
    let points = rows.iter().flat_map(|row| row.iter().take(3).copied());
    let marks = rows.iter().map(|row| u8::from(row.get(3) == Some(&1)));
    Ok((
        rounds,
        Net::new(points.collect(), faces?.concat(), marks.collect()),
    ))
}

fn print(net: &Net) -> io::Result<()> {
    let mut out = BufWriter::new(io::stdout().lock());
    writeln!(
        out,
        "vertices faces\n{} {}",
        net.marks.len(),
        net.faces.len() / 4
    )?;
    writeln!(out, "x y z corner")?;
    for (point, mark) in net.vertices.chunks(3).zip(&net.marks) {
        writeln!(out, "{} {} {} {mark}", point[0], point[1], point[2])?;
    }
    writeln!(out, "a b c d")?;
    for face in net.faces.chunks(4) {
        writeln!(out, "{} {} {} {}", face[0], face[1], face[2], face[3])?;
    }
    out.flush()
}

fn refine() -> Result<(), Box<dyn Error>> {
    let file = env::args().nth(1).ok_or("usage: refine_text FILE")?;
    let (rounds, net) = read(&fs::read_to_string(file)?)?;
    print(&net.refined(&mut Tally::new(), rounds)?)?;
    Ok(())
}

fn main() -> ExitCode {
    match refine() {
        Ok(()) => ExitCode::SUCCESS,
        Err(error) => {
            eprintln!("refine_text: {error}");
            ExitCode::FAILURE
        }
    }
}
