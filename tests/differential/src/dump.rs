//! Calls and what the reference says of them, written for a harness in C.
//!
//! A call is 18 numbers of 64 bits (rounds, tension, the lengths of its nine
//! tables, whether letters are asked for, reason, place, both counts, the record
//! before and after), the tables of the net, those for the results as found, and those
//! for the results as left; all in the machine's order.
//!
//! A seam test is 16 such numbers (of either net the lengths of its four tables,
//! tension and start; the length of the work table, reason, place and edges), the
//! tables of both nets, the work table as found, and the same as left.

use std::fs::File;
use std::io::{self, BufWriter, Write};
use std::path::Path;

use nets::case::Case;
use reference::call::Tables;

use crate::compare::Known;
use crate::seamtests::KnownTest;

/// A file of calls in the making.
pub struct Dump {
    file: BufWriter<File>,
}

impl Dump {
    pub fn new(path: &Path) -> io::Result<Self> {
        let file = BufWriter::new(File::create(path)?);
        Ok(Self { file })
    }

    pub fn add(&mut self, known: &Known) -> io::Result<()> {
        let Known { case, report, .. } = known;
        let room = [
            case.capacity.vertices,
            case.capacity.faces,
            case.capacity.marks,
            case.capacity.letters,
            case.capacity.workspace,
        ];
        self.numbers([case.rounds, case.tension].map(u64::from))?;
        self.numbers(net_lengths(case))?;
        self.numbers(room.map(|length| length as u64))?;
        self.numbers([
            u64::from(case.capacity.with_letters),
            u64::from(report.reason),
            report.place,
            report.vertices,
            report.faces,
            case.tally,
            known.tally,
        ])?;
        self.net(case)?;
        self.tables(&known.found)?;
        self.tables(&known.left)
    }

    pub fn add_seam_test(&mut self, known: &KnownTest) -> io::Result<()> {
        let KnownTest { case, report, .. } = known;
        for (net, start) in case.nets.iter().zip(case.starts) {
            self.numbers(net_lengths(net))?;
            self.numbers([net.tension, start].map(u64::from))?;
        }
        let work = known.found.len() as u64;
        self.numbers([work, u64::from(report.reason), report.place, report.edges])?;
        case.nets.iter().try_for_each(|net| self.net(net))?;
        self.words(&known.found)?;
        self.words(&known.left)
    }

    /// The tables of a net.
    fn net(&mut self, case: &Case) -> io::Result<()> {
        self.bytes(case.vertices.iter().map(|entry| entry.to_ne_bytes()))?;
        self.words(&case.faces)?;
        self.file.write_all(&case.sides)?;
        self.file.write_all(&case.marks)
    }

    pub fn finish(mut self) -> io::Result<()> {
        self.file.flush()
    }

    fn tables(&mut self, tables: &Tables) -> io::Result<()> {
        self.bytes(tables.vertices.iter().map(|entry| entry.to_ne_bytes()))?;
        self.words(&tables.faces)?;
        self.file.write_all(&tables.marks)?;
        self.file.write_all(&tables.letters)?;
        self.words(&tables.workspace)
    }

    fn words(&mut self, table: &[u32]) -> io::Result<()> {
        self.bytes(table.iter().map(|entry| entry.to_ne_bytes()))
    }

    fn numbers<const N: usize>(&mut self, numbers: [u64; N]) -> io::Result<()> {
        self.bytes(numbers.iter().map(|number| number.to_ne_bytes()))
    }

    fn bytes<const N: usize>(&mut self, entries: impl Iterator<Item = [u8; N]>) -> io::Result<()> {
        for entry in entries {
            self.file.write_all(&entry)?;
        }
        Ok(())
    }
}

/// The lengths of the tables of a net.
fn net_lengths(case: &Case) -> [u64; 4] {
    let lengths = [
        case.vertices.len(),
        case.faces.len(),
        case.sides.len(),
        case.marks.len(),
    ];
    lengths.map(|length| length as u64)
}
