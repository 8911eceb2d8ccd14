//! The stored form of a call: its rounds, the tables of its net and the
//! lengths of the tables for its results, a line each. Before them stands a
//! line with what the record of new points holds, unless that is 0, and one with
//! the tension, unless that is 4. After them stands a line with 1 if letters are
//! asked for, or 0, and the length of their table, unless both are 0.

use std::fmt::Display;
use std::fs;
use std::path::{Path, PathBuf};
use std::str::FromStr;

use reference::refusal::Capacity;
use reference::rules::Tension;

use crate::case::{Case, Expected};

const TALLY: &str = "tally";
const TENSION: &str = "tension";
const LETTERS: &str = "letters";
const NAMES: [&str; 6] = ["rounds", "vertices", "faces", "sides", "marks", "room"];

/// What missing lines stand for.
const NO_TALLY: u64 = 0;
const OLD_TENSION: u32 = Tension::OLD.number();

/// The text of a call.
pub fn to_text(case: &Case) -> String {
    let room = case.capacity;
    let letters = match (room.with_letters, room.letters) {
        (false, 0) => String::new(),
        (asked, length) => line(LETTERS, &[usize::from(asked), length]),
    };
    let room = [room.vertices, room.faces, room.marks, room.workspace];
    [
        optional(TALLY, case.tally, NO_TALLY),
        optional(TENSION, case.tension, OLD_TENSION),
        line(NAMES[0], &[case.rounds]),
        line(NAMES[1], &case.vertices),
        line(NAMES[2], &case.faces),
        line(NAMES[3], &case.sides),
        line(NAMES[4], &case.marks),
        line(NAMES[5], &room),
        letters,
    ]
    .concat()
}

/// The line of a value, unless it is the one that a missing line stands for.
fn optional<T: Display + PartialEq>(name: &str, value: T, missing: T) -> String {
    if value == missing {
        String::new()
    } else {
        line(name, &[value])
    }
}

fn line<T: Display>(name: &str, values: &[T]) -> String {
    let values = values.iter().map(|value| format!(" {value}"));
    format!("{name}{}\n", values.collect::<String>())
}

/// The call of a text, if it has this form.
pub fn from_text(text: &str) -> Option<Case> {
    let (tally, others) = value_before(text, TALLY, NO_TALLY)?;
    let (tension, text_of_net) = value_before(others, TENSION, OLD_TENSION)?;
    let letters = match text_of_net.lines().nth(NAMES.len()) {
        Some(last) => numbers((last, LETTERS))?,
        None => vec![0, 0],
    };
    let mut lines = text_of_net.lines().zip(NAMES);
    let [rounds] = numbers(lines.next()?)?.try_into().ok()?;
    let case = Case {
        tally,
        rounds,
        vertices: numbers(lines.next()?)?,
        faces: numbers(lines.next()?)?,
        sides: numbers(lines.next()?)?,
        marks: numbers(lines.next()?)?,
        tension,
        capacity: capacity(&numbers(lines.next()?)?, &letters)?,
        expected: Expected::Unknown,
    };
    (to_text(&case) == text).then_some(case)
}

/// The value in the first line, if the line has this name, and the other lines.
fn value_before<'a, T: FromStr>(text: &'a str, name: &str, missing: T) -> Option<(T, &'a str)> {
    let (first, others) = text.split_once('\n')?;
    if !first.starts_with(name) {
        return Some((missing, text));
    }
    let [value] = numbers((first, name))?.try_into().ok()?;
    Some((value, others))
}

fn numbers<T: FromStr>((line, name): (&str, &str)) -> Option<Vec<T>> {
    let values = line.strip_prefix(name)?.split_whitespace();
    values.map(|value| value.parse().ok()).collect()
}

fn capacity(room: &[usize], letters: &[usize]) -> Option<Capacity> {
    let (&[vertices, faces, marks, workspace], &[asked, letters]) = (room, letters) else {
        return None;
    };
    Some(Capacity {
        vertices,
        faces,
        marks,
        with_letters: asked == 1,
        letters,
        workspace,
    })
}

/// The files of all stored calls, in the order of their names.
pub fn stored_calls() -> Vec<PathBuf> {
    let folder = Path::new(env!("CARGO_MANIFEST_DIR")).join("calls");
    let entries = fs::read_dir(folder).expect("the folder of calls");
    let paths = entries.map(|entry| entry.expect("a readable entry").path());
    let is_call = |path: &PathBuf| path.extension().is_some_and(|e| e == "txt");
    let mut calls: Vec<PathBuf> = paths.filter(is_call).collect();
    calls.sort();
    calls
}
