//! Processes that this program starts: one that compares, and those that
//! show that a stray access is seen.

use std::env;
use std::io::{self, BufRead, BufReader};
use std::os::unix::process::ExitStatusExt;
use std::process::{Child, Command, ExitStatus, Stdio};

use crate::guarded::{Guarded, Side};
use crate::options::What;

/// Begins a line that announces the next comparison by the arguments that
/// repeat it.
const AT: &str = "at ";

const SEGMENTATION_FAULT: i32 = 11;

/// Announces the next comparison.
pub fn announce(seed: u64, what: What, number: u64) {
    println!("{AT}--seed {seed} --{} {number}", what.name());
}

/// Compares in another process, and tells where it was if it dies.
pub fn supervise(arguments: &[String]) -> Result<String, String> {
    let (status, last) = watch(arguments).map_err(|error| error.to_string())?;
    match status.code() {
        Some(0) => Ok("all agree".to_owned()),
        Some(1) => Err("not all agree".to_owned()),
        _ => Err(format!(
            "{status}; to repeat it: differential --here {last}"
        )),
    }
}

/// Shows what another process says; returns its end and its last announcement.
fn watch(arguments: &[String]) -> io::Result<(ExitStatus, String)> {
    let here = [arguments, &["--here".to_owned()]].concat();
    let mut child = start(&here, Stdio::piped())?;
    let mut last = String::new();
    if let Some(lines) = child.stdout.take() {
        for line in BufReader::new(lines).lines() {
            let line = line?;
            match line.strip_prefix(AT) {
                Some(at) => at.clone_into(&mut last),
                None => println!("{line}"),
            }
        }
    }
    Ok((child.wait()?, last))
}

fn start(arguments: &[String], output: Stdio) -> io::Result<Child> {
    Command::new(env::current_exe()?)
        .args(arguments)
        .stdout(output)
        .spawn()
}

/// A trial access to a table of zeros: its name, the table's length and zone,
/// the entry, the access, and what must come of it.
type Trial = (&'static str, usize, Side, isize, Access, Seen);

#[derive(Clone, Copy, Debug, PartialEq, Eq)]
enum Access {
    Read,
    Write,
    /// Write where a call may only read.
    Overwrite,
}

#[derive(Clone, Copy, Debug, PartialEq, Eq)]
enum Seen {
    Nothing,
    Difference,
    Death,
}

const TRIALS: [Trial; 11] = {
    use Access::{Overwrite, Read, Write};
    use Seen::{Death, Difference, Nothing};
    use Side::{After, Before};
    [
        ("read within a table", 9, After, 8, Read, Nothing),
        ("write within a table", 9, After, 8, Write, Difference),
        (
            "write in a page, after its table",
            9,
            Before,
            9,
            Write,
            Difference,
        ),
        (
            "write in a page, before its table",
            9,
            After,
            -1,
            Write,
            Difference,
        ),
        ("read after a table", 9, After, 9, Read, Death),
        ("write after a table", 9, After, 9, Write, Death),
        ("read before a table", 9, Before, -1, Read, Death),
        ("write before a table", 9, Before, -1, Write, Death),
        ("read far after a table", 9, Before, 1 << 33, Read, Death),
        ("read at an empty table", 0, Before, 0, Read, Death),
        ("write to a read-only table", 9, Before, 0, Overwrite, Death),
    ]
};

/// Makes each access in a process of its own and sees what comes of it.
pub fn prove() -> Result<String, String> {
    for (number, (name, .., due)) in TRIALS.iter().enumerate() {
        let trial = ["--stray".to_owned(), number.to_string()];
        let ended = start(&trial, Stdio::null()).and_then(|mut child| child.wait());
        let status = ended.map_err(|error| error.to_string())?;
        if seen(status) != Some(*due) {
            return Err(format!("{name}: {status}, but {due:?} is due"));
        }
    }
    let deaths = TRIALS.iter().filter(|(.., due)| *due == Seen::Death);
    let (deaths, all) = (deaths.count(), TRIALS.len());
    Ok(format!(
        "{all} trial accesses end as they must, {deaths} of them by death"
    ))
}

fn seen(status: ExitStatus) -> Option<Seen> {
    match (status.code(), status.signal()) {
        (Some(0), _) => Some(Seen::Nothing),
        (Some(1), _) => Some(Seen::Difference),
        (_, Some(SEGMENTATION_FAULT)) => Some(Seen::Death),
        _ => None,
    }
}

/// Makes one access; an error is a difference that it made.
pub fn stray(number: u64) -> Result<String, String> {
    let trial = usize::try_from(number).ok().and_then(|at| TRIALS.get(at));
    let Some(&(name, length, side, entry, access, _)) = trial else {
        return Ok("no such trial".to_owned());
    };
    let zeros = vec![0_u32; length];
    let table = match access {
        Access::Overwrite => Guarded::read_only(&zeros, side),
        Access::Read | Access::Write => Guarded::new(&zeros, side),
    };
    table.touch(entry, access != Access::Read);
    table
        .difference("table", &zeros)
        .map_or(Ok(name.to_owned()), Err)
}
