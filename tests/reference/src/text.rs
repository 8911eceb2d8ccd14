//! The text form of nets and answers, which has no side counts and no tension.
//! Nets may also come as OBJ texts.

use crate::call::{Call, Outcome, refine};
use crate::net::NetRecord;
use crate::obj;
use crate::refusal::{Capacity, Refusal, check_limits, check_rounds, refined_faces};
use crate::rules::Tension;

pub const MAX_BYTES: usize = 32_768;
/// The program's own tables serve nets up to these sizes.
pub const PROGRAM_REFINED_FACES: usize = 256;
pub const PROGRAM_VERTICES: usize = 1_024;

const COUNT_NAMES: &str = "vertices faces rounds";
/// The first line of a text that asks for letters.
const RULE_NAMES: &str = "vertices faces rounds rule";
const MARKED_NAMES: &str = "x y z corner";
/// The third line of an answer with letters; no text has it.
const LETTERED_NAMES: &str = "x y z corner rule";
const UNMARKED_NAMES: &str = "x y z";
const CORNER_NAMES: &str = "a b c d";

/// A net and its rounds, as a text states them, and whether it asks for letters.
#[derive(Clone, Debug, Default, PartialEq, Eq)]
pub struct Document {
    pub rounds: u32,
    pub with_letters: bool,
    pub vertices: Vec<i32>,
    pub faces: Vec<u32>,
    pub marks: Vec<u8>,
}

impl Document {
    /// The text of this document, with the mark column.
    pub fn to_text(&self) -> String {
        self.text_with(Some(&self.marks))
    }

    /// The text without the mark column, which stands for marks that are all 0.
    pub fn to_unmarked_text(&self) -> String {
        self.text_with(None)
    }

    fn text_with(&self, marks: Option<&[u8]>) -> String {
        let (vertices, faces) = (self.vertices.len() / 3, self.faces.len() / 4);
        let names = if self.with_letters {
            RULE_NAMES
        } else {
            COUNT_NAMES
        };
        let counts = format!("{vertices} {faces} {}", self.rounds);
        let lines = net_lines(&self.vertices, &self.faces, marks, None);
        format!("{names}\n{counts}\n{lines}")
    }
}

/// The whole program: the answer to a text.
pub fn answer(text: &[u8]) -> String {
    let outcome = match parse(text) {
        Ok(document) => refine_document(&document),
        Err(refusal) => refusal.into(),
    };
    print(&outcome)
}

/// Refines a document within the program's own tables, with a record of its
/// own from zero.
pub fn refine_document(document: &Document) -> Outcome {
    if let Err(refusal) = check_program(document) {
        return refusal.into();
    }
    let room = Capacity::for_refined_faces(PROGRAM_REFINED_FACES);
    let capacity = if document.with_letters {
        room.asking_for_letters(4 * PROGRAM_REFINED_FACES)
    } else {
        room
    };
    refine(&Call {
        tally: 0,
        rounds: document.rounds,
        net: NetRecord {
            vertices: &document.vertices,
            faces: &document.faces,
            sides: &[],
            marks: &document.marks,
            tension: Tension::OLD.number(),
        },
        capacity,
    })
}

/// Refusals 1, 3 and 4 from the counts alone.
fn check_program(document: &Document) -> Result<(), Refusal> {
    let (vertices, faces) = (document.vertices.len() / 3, document.faces.len() / 4);
    check_rounds(document.rounds)?;
    check_limits(document.rounds, vertices, faces)?;
    let refined = refined_faces(faces, document.rounds);
    if refined > PROGRAM_REFINED_FACES as u128 || vertices > PROGRAM_VERTICES {
        return Err(Refusal::new(4, 0));
    }
    Ok(())
}

/// The answer as the program prints it.
pub fn print(outcome: &Outcome) -> String {
    match outcome {
        Outcome::Refined {
            vertices,
            faces,
            marks,
            letters,
        } => {
            let counts = format!("{} {}", vertices.len() / 3, faces.len() / 4);
            let lines = net_lines(vertices, faces, Some(marks), letters.as_deref());
            format!("vertices faces\n{counts}\n{lines}")
        }
        Outcome::Refused { reason, place } => format!("refusal place\n{reason} {place}\n"),
    }
}

/// The lines of the vertices and of the faces. Only answers have letters, and
/// they always have marks.
fn net_lines(
    vertices: &[i32],
    faces: &[u32],
    marks: Option<&[u8]>,
    letters: Option<&[u8]>,
) -> String {
    let names = match (marks, letters) {
        (_, Some(_)) => LETTERED_NAMES,
        (Some(_), None) => MARKED_NAMES,
        (None, None) => UNMARKED_NAMES,
    };
    let mut text = format!("{names}\n");
    for (vertex, [x, y, z]) in vertices.as_chunks().0.iter().enumerate() {
        let mark = marks.map_or(String::new(), |marks| format!(" {}", marks[vertex]));
        let letter = letters.map_or(String::new(), |letters| {
            format!(" {}", char::from(letters[vertex]))
        });
        text += &format!("{x} {y} {z}{mark}{letter}\n");
    }
    text += &format!("{CORNER_NAMES}\n");
    for [a, b, c, d] in faces.as_chunks().0 {
        text += &format!("{a} {b} {c} {d}\n");
    }
    text
}

/// The document in a text of either form, or refusal 13 with its first bad
/// line; the length goes first.
pub fn parse(text: &[u8]) -> Result<Document, Refusal> {
    if text.len() > MAX_BYTES {
        Err(Refusal::new(13, 0))
    } else if obj::is_obj(text) {
        obj::parse(text)
    } else {
        parse_named(text)
    }
}

/// The document in a text with lines of names.
fn parse_named(text: &[u8]) -> Result<Document, Refusal> {
    let mut lines = Lines {
        rest: text,
        number: 0,
    };
    let with_letters = lines.expect_names(&[COUNT_NAMES, RULE_NAMES])? == RULE_NAMES;
    let [vertices, faces, rounds] = lines.expect_values(natural)?;
    let has_marks = lines.expect_names(&[MARKED_NAMES, UNMARKED_NAMES])? == MARKED_NAMES;
    let mut document = Document {
        rounds,
        with_letters,
        ..Document::default()
    };
    for _ in 0..vertices {
        let (point, mark) = if has_marks {
            lines.expect(marked_point)?
        } else {
            (lines.expect_values(coordinate)?, 0)
        };
        document.vertices.extend(point);
        document.marks.push(mark);
    }
    lines.expect_names(&[CORNER_NAMES])?;
    for _ in 0..faces {
        let corners: [u32; 4] = lines.expect_values(natural)?;
        document.faces.extend(corners);
    }
    lines.expect_end()?;
    Ok(document)
}

/// Reads lines one by one and knows the number of the last one taken.
struct Lines<'a> {
    rest: &'a [u8],
    number: u32,
}

impl<'a> Lines<'a> {
    /// What `read` makes of the next line; a missing or unfinished line is bad.
    fn expect<T>(&mut self, read: impl Fn(&'a [u8]) -> Option<T>) -> Result<T, Refusal> {
        self.number += 1;
        let end = self.rest.iter().position(|&byte| byte == b'\n');
        let value = end.and_then(|end| {
            let line = &self.rest[..end];
            self.rest = &self.rest[end + 1..];
            read(line)
        });
        value.ok_or(Refusal::new(13, self.number))
    }

    fn expect_names(&mut self, allowed: &[&'static str]) -> Result<&'static str, Refusal> {
        self.expect(|line| {
            let names = allowed.iter().copied();
            names.into_iter().find(|name| name.as_bytes() == line)
        })
    }

    fn expect_values<T, const N: usize>(
        &mut self,
        value: impl Fn(&[u8]) -> Option<T>,
    ) -> Result<[T; N], Refusal> {
        self.expect(|line| values(line, &value))
    }

    fn expect_end(&self) -> Result<(), Refusal> {
        if self.rest.is_empty() {
            Ok(())
        } else {
            Err(Refusal::new(13, self.number + 1))
        }
    }
}

/// Exactly `N` values with one blank between.
pub(crate) fn values<T, const N: usize>(
    line: &[u8],
    value: impl Fn(&[u8]) -> Option<T>,
) -> Option<[T; N]> {
    let fields: Option<Vec<T>> = line.split(|&byte| byte == b' ').map(value).collect();
    fields?.try_into().ok()
}

/// Three coordinates and a mark.
fn marked_point(line: &[u8]) -> Option<([i32; 3], u8)> {
    let last_blank = line.iter().rposition(|&byte| byte == b' ')?;
    let point = values(&line[..last_blank], coordinate)?;
    let mark = natural(&line[last_blank + 1..])?;
    Some((point, u8::try_from(mark).ok()?))
}

/// A decimal from 0 within signed 32 bits, without sign or leading zero.
pub(crate) fn natural(field: &[u8]) -> Option<u32> {
    let value = i32::try_from(magnitude(field)?).ok()?;
    u32::try_from(value).ok()
}

/// A decimal within signed 32 bits; a minus only before a number that is not 0.
pub(crate) fn coordinate(field: &[u8]) -> Option<i32> {
    let value = match field.strip_prefix(b"-") {
        Some(digits) => -magnitude(digits).filter(|&value| value != 0)?,
        None => magnitude(field)?,
    };
    i32::try_from(value).ok()
}

/// Decimal digits without a leading zero, short enough to fit.
fn magnitude(digits: &[u8]) -> Option<i64> {
    let well_formed = match digits {
        [b'0'] => true,
        [b'1'..=b'9', rest @ ..] => rest.len() < 10 && rest.iter().all(u8::is_ascii_digit),
        _ => false,
    };
    well_formed.then(|| {
        digits
            .iter()
            .fold(0, |value, digit| 10 * value + i64::from(digit - b'0'))
    })
}
