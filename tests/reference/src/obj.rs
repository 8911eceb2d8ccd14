//! OBJ texts. They have no marks, no side counts and no wish for letters.

use crate::refusal::Refusal;
use crate::text::{Document, coordinate, natural, values};

/// What the first line says before its number.
const ROUNDS: &str = "# rounds ";

/// What a line says.
enum Statement {
    Rounds(u32),
    Vertex([i32; 3]),
    Face([u32; 4]),
    Comment,
}

/// Whether a text is read as OBJ: its first byte decides.
pub fn is_obj(text: &[u8]) -> bool {
    text.starts_with(b"#")
}

/// The document in an OBJ text, or refusal 13 with its first bad line. The
/// length of the text is not tested here.
pub(crate) fn parse(text: &[u8]) -> Result<Document, Refusal> {
    let lines = text.split_inclusive(|&byte| byte == b'\n');
    let statements = (1..).zip(lines).map(|(number, line)| {
        let read = if number == 1 { rounds } else { statement };
        let finished = line.strip_suffix(b"\n");
        finished.and_then(read).ok_or(Refusal::new(13, number))
    });
    let statements = statements.collect::<Result<Vec<Statement>, Refusal>>()?;
    Ok(document(&statements))
}

/// Vertices and faces are numbered each by their own lines.
fn document(statements: &[Statement]) -> Document {
    let mut document = Document::default();
    for statement in statements {
        match statement {
            Statement::Rounds(rounds) => document.rounds = *rounds,
            Statement::Vertex(point) => document.vertices.extend(point),
            Statement::Face(corners) => document.faces.extend(corners),
            Statement::Comment => {}
        }
    }
    document.marks = vec![0; document.vertices.len() / 3];
    document
}

/// The first line.
fn rounds(line: &[u8]) -> Option<Statement> {
    let number = line.strip_prefix(ROUNDS.as_bytes())?;
    natural(number).map(Statement::Rounds)
}

/// Any other line.
fn statement(line: &[u8]) -> Option<Statement> {
    match line {
        [b'#', ..] => Some(Statement::Comment),
        [b'v', b' ', fields @ ..] => values(fields, coordinate).map(Statement::Vertex),
        [b'f', b' ', fields @ ..] => values(fields, corner).map(Statement::Face),
        _ => None,
    }
}

/// The vertex that a field names, from 0; the field has it from 1. Whatever
/// follows a slash is skipped.
fn corner(field: &[u8]) -> Option<u32> {
    let number = field.split(|&byte| byte == b'/').next()?;
    natural(number)?.checked_sub(1)
}

impl Document {
    /// The OBJ text of this document, vertices first. Its marks and its wish
    /// for letters are lost.
    pub fn to_obj_text(&self) -> String {
        let mut text = format!("{ROUNDS}{}\n", self.rounds);
        for [x, y, z] in self.vertices.as_chunks().0 {
            text += &format!("v {x} {y} {z}\n");
        }
        for corners in self.faces.as_chunks().0 {
            let [a, b, c, d] = corners.map(|corner: u32| corner + 1);
            text += &format!("f {a} {b} {c} {d}\n");
        }
        text
    }
}
