//! Texts and tables damaged in known or random ways.

use reference::net::Net;
use reference::refusal::{Capacity, Refusal};
use reference::rules::Tension;
use reference::text::MAX_BYTES;

use crate::accepted::{Shape, Size, accepted};
use crate::build::to_u32;
use crate::case::{Case, Expected, TextCase, document};
use crate::polygons::{PolygonShape, accepted_polygons, some_sizes};
use crate::refused::{base, break_sides};
use crate::rng::Rng;

named_cases! {
    /// Ways to damage a text so that it no longer has its form.
    pub enum Damage {
        Empty = "empty",
        TooLong = "too-long",
        WrongName = "wrong-name",
        CapitalName = "capital-name",
        PlusSign = "plus-sign",
        LeadingZero = "leading-zero",
        MinusZero = "minus-zero",
        LoneMinus = "lone-minus",
        MinusOnCount = "minus-on-count",
        DoubleBlank = "double-blank",
        LeadingBlank = "leading-blank",
        TrailingBlank = "trailing-blank",
        Tab = "tab",
        CarriageReturn = "carriage-return",
        ZeroByte = "zero-byte",
        Letter = "letter",
        Beyond32Bits = "beyond-32-bits",
        Mark256 = "mark-256",
        MissingValue = "missing-value",
        SurplusValue = "surplus-value",
        /// The names line lacks `corner`, the vertex lines have marks.
        MissingMarkName = "missing-mark-name",
        /// `rules` for `rule` in the first line.
        RulesForRule = "rules-for-rule",
        /// Two blanks before `rule` in the first line.
        BlanksBeforeRule = "blanks-before-rule",
        /// `rule` alone in the first line.
        RuleAlone = "rule-alone",
        /// `rule` in the second line.
        RuleBesideCounts = "rule-beside-counts",
        /// A fourth number in the second line.
        FourthCount = "fourth-count",
        /// `x y z corner rule`, as in answers.
        RuleBesideCorner = "rule-beside-corner",
        MissingLine = "missing-line",
        SurplusLine = "surplus-line",
        SurplusByte = "surplus-byte",
        BlankLine = "blank-line",
        NoLastNewline = "no-last-newline",
        HugeVertexCount = "huge-vertex-count",
        HugeFaceCount = "huge-face-count",
        /// Some bytes changed at random; the answer is not known beforehand.
        RandomBytes = "random-bytes",
        /// Cut at random.
        Cut = "cut",
    }
}

/// A text as lines without their newlines.
struct Lines {
    lines: Vec<String>,
    vertices: usize,
}

impl Lines {
    fn new(text: &[u8]) -> Self {
        let text = std::str::from_utf8(text).expect("texts are plain");
        let lines: Vec<String> = text.lines().map(str::to_owned).collect();
        let corners = lines.iter().position(|line| line == "a b c d");
        Self {
            vertices: corners.expect("a well-formed text") - 3,
            lines,
        }
    }

    fn text(&self) -> Vec<u8> {
        let lines = self.lines.iter();
        lines
            .flat_map(|line| [line, "\n"])
            .collect::<String>()
            .into_bytes()
    }

    /// A random line of names.
    fn names(&self, rng: &mut Rng) -> usize {
        rng.pick(&[0, 2, 3 + self.vertices])
    }

    /// A random vertex line.
    fn vertex(&self, rng: &mut Rng) -> usize {
        3 + rng.below(self.vertices)
    }

    /// A random line of values.
    fn values(&self, rng: &mut Rng) -> usize {
        loop {
            let line = rng.below(self.lines.len());
            if self.lines[line].bytes().any(|byte| byte.is_ascii_digit()) {
                return line;
            }
        }
    }
}

/// A line with one of its fields, from number `first` on, replaced by what
/// `change` makes of it.
pub(crate) fn change_field(
    line: &str,
    first: usize,
    change: impl Fn(&str) -> String,
    rng: &mut Rng,
) -> String {
    let mut fields: Vec<String> = line.split(' ').map(str::to_owned).collect();
    let field = first + rng.below(fields.len() - first);
    fields[field] = change(&fields[field]);
    fields.join(" ")
}

/// A sound text with at least one face, which the form of texts allows.
fn sound_text(rng: &mut Rng) -> Vec<u8> {
    let net = base(rng);
    let rounds = to_u32(rng.below(3));
    document(&net, rounds, rng).to_text().into_bytes()
}

/// A text damaged in this way, from a sound one.
pub fn damaged_text(damage: Damage, rng: &mut Rng) -> TextCase {
    let text = sound_text(rng);
    damage_text(&text, damage, rng)
}

/// Damages a text that has its form.
pub fn damage_text(text: &[u8], damage: Damage, rng: &mut Rng) -> TextCase {
    let mut lines = Lines::new(text);
    let line = match damage {
        Damage::RandomBytes => return random_bytes(text, rng),
        Damage::Cut => return cut(text, rng),
        Damage::TooLong => return too_long(text),
        Damage::Empty => return bad_line(Vec::new(), 1),
        Damage::NoLastNewline => return no_last_newline(text),
        Damage::SurplusByte => {
            let surplus = rng.pick(&[b' ', b'0', b'\r', 0]);
            return bad_line([text, &[surplus]].concat(), lines.lines.len() + 1);
        }
        Damage::RulesForRule
        | Damage::BlanksBeforeRule
        | Damage::RuleAlone
        | Damage::RuleBesideCounts
        | Damage::FourthCount
        | Damage::RuleBesideCorner => damage_rule(&mut lines, damage),
        Damage::MissingLine
        | Damage::SurplusLine
        | Damage::MissingMarkName
        | Damage::BlankLine
        | Damage::HugeVertexCount
        | Damage::HugeFaceCount => damage_structure(&mut lines, damage, rng),
        _ => damage_line(&mut lines, damage, rng),
    };
    bad_line(lines.text(), line + 1)
}

/// Damages one line and returns its index.
fn damage_line(lines: &mut Lines, damage: Damage, rng: &mut Rng) -> usize {
    let line = match damage {
        Damage::WrongName | Damage::CapitalName => lines.names(rng),
        Damage::MinusZero | Damage::LoneMinus | Damage::Mark256 => lines.vertex(rng),
        Damage::MinusOnCount => rng.pick(&[1, lines.lines.len() - 1]),
        Damage::DoubleBlank | Damage::LeadingBlank | Damage::TrailingBlank => {
            rng.below(lines.lines.len())
        }
        Damage::Tab | Damage::CarriageReturn | Damage::ZeroByte => rng.below(lines.lines.len()),
        _ => lines.values(rng),
    };
    let old = &lines.lines[line];
    let new = damage_whole_line(old, damage)
        .unwrap_or_else(|| change_field(old, 0, |field| damage_field(field, damage), rng));
    lines.lines[line] = new;
    line
}

/// The line without regard to its fields, if this damage is such a one.
pub(crate) fn damage_whole_line(old: &str, damage: Damage) -> Option<String> {
    match damage {
        Damage::WrongName => Some(old.replace(' ', " q")),
        Damage::CapitalName => Some(old.to_uppercase()),
        Damage::DoubleBlank => Some(old.replacen(' ', "  ", 1)),
        Damage::LeadingBlank => Some(format!(" {old}")),
        Damage::TrailingBlank => Some(format!("{old} ")),
        Damage::Tab => Some(old.replacen(' ', "\t", 1)),
        Damage::CarriageReturn => Some(format!("{old}\r")),
        Damage::ZeroByte => Some(format!("{old}\0")),
        Damage::MissingValue => old.rsplit_once(' ').map(|(rest, _)| rest.to_owned()),
        Damage::SurplusValue => Some(format!("{old} 0")),
        Damage::Mark256 => old.rsplit_once(' ').map(|(rest, _)| format!("{rest} 256")),
        _ => None,
    }
}

pub(crate) fn damage_field(field: &str, damage: Damage) -> String {
    let digits = field.trim_start_matches('-');
    match damage {
        Damage::PlusSign => format!("+{digits}"),
        Damage::LeadingZero if field.starts_with('-') => format!("-0{digits}"),
        Damage::LeadingZero => format!("0{digits}"),
        Damage::MinusZero => "-0".to_owned(),
        Damage::LoneMinus => "-".to_owned(),
        Damage::MinusOnCount => format!("-{digits}"),
        Damage::Letter => format!("{field}e"),
        Damage::Beyond32Bits => "2147483648".to_owned(),
        _ => panic!("{damage:?} does not change a field"),
    }
}

/// Puts what is nearly the wish for letters into one of the first three lines
/// and returns its index.
fn damage_rule(lines: &mut Lines, damage: Damage) -> usize {
    let counts = "vertices faces rounds";
    let (line, new) = match damage {
        Damage::RulesForRule => (0, format!("{counts} rules")),
        Damage::BlanksBeforeRule => (0, format!("{counts}  rule")),
        Damage::RuleAlone => (0, "rule".to_owned()),
        Damage::RuleBesideCounts => (1, format!("{} rule", lines.lines[1])),
        Damage::FourthCount => (1, format!("{} 1", lines.lines[1])),
        Damage::RuleBesideCorner => (2, format!("{} rule", lines.lines[2])),
        _ => panic!("{damage:?} has no wish for letters"),
    };
    lines.lines[line] = new;
    line
}

/// Damages the row of lines and returns the index of the first bad one.
fn damage_structure(lines: &mut Lines, damage: Damage, rng: &mut Rng) -> usize {
    match damage {
        Damage::MissingLine => {
            lines.lines.pop();
            lines.lines.len()
        }
        Damage::SurplusLine => {
            let last = lines.lines[lines.lines.len() - 1].clone();
            lines.lines.push(last);
            lines.lines.len() - 1
        }
        Damage::MissingMarkName => {
            lines.lines[2] = "x y z".to_owned();
            3
        }
        Damage::BlankLine => {
            let line = rng.below(lines.lines.len() + 1);
            lines.lines.insert(line, String::new());
            line
        }
        Damage::HugeVertexCount => {
            lines.lines[1] = "2147483647 1 0".to_owned();
            3 + lines.vertices
        }
        Damage::HugeFaceCount => {
            lines.lines[1] = format!("{} 2147483647 0", lines.vertices);
            lines.lines.len()
        }
        _ => panic!("{damage:?} does not change the row of lines"),
    }
}

/// A text that is bad at this line, counted from 1.
pub(crate) fn bad_line(text: Vec<u8>, line: usize) -> TextCase {
    TextCase {
        text,
        expected: Expected::Refused(Refusal::new(13, to_u32(line))),
    }
}

pub(crate) fn too_long(text: &[u8]) -> TextCase {
    let mut text = text.to_vec();
    text.resize(MAX_BYTES + 1, b'\n');
    bad_line(text, 0)
}

pub(crate) fn no_last_newline(text: &[u8]) -> TextCase {
    bad_at_end(&text[..text.len() - 1])
}

pub(crate) fn cut(text: &[u8], rng: &mut Rng) -> TextCase {
    bad_at_end(&text[..rng.below(text.len())])
}

/// A text that is bad at the line it ends in.
fn bad_at_end(text: &[u8]) -> TextCase {
    let finished = text.iter().filter(|&&byte| byte == b'\n').count();
    bad_line(text.to_vec(), finished + 1)
}

pub(crate) fn random_bytes(text: &[u8], rng: &mut Rng) -> TextCase {
    let mut text = text.to_vec();
    for _ in 0..rng.between(1, 3) {
        let at = rng.below(text.len());
        match rng.below(4) {
            0 => text[at] = rng.pick(b"0123456789- \n"),
            1 => text[at] = rng.next_u64().to_le_bytes()[0],
            2 => text.insert(at, rng.pick(b"0123456789- \n+\r\t")),
            _ => {
                text.remove(at);
            }
        }
    }
    TextCase {
        text,
        expected: Expected::Unknown,
    }
}

/// A call with a sound net changed at random: some entries, some lengths.
pub fn damaged_tables(size: Size, rng: &mut Rng) -> Case {
    let net = accepted(rng.pick(&Shape::ALL), size, rng);
    damaged_call(&net, rng)
}

/// The same with this net.
pub fn damaged_call(net: &Net, rng: &mut Rng) -> Case {
    damaged(Case::new(net, to_u32(rng.below(3)), Expected::Unknown), rng)
}

/// A call with side counts and a sound net, changed at random.
pub fn damaged_polygons(shape: PolygonShape, size: Size, rng: &mut Rng) -> Case {
    let net = accepted_polygons(shape, size, rng);
    let mut case = Case::with_sides(&net, to_u32(rng.below(3)), Expected::Unknown);
    if rng.one_in(2) {
        move_sides(&mut case, rng);
    }
    if rng.one_in(8) {
        break_sides(&mut case, rng);
    }
    damaged(case, rng)
}

/// Exchanges two counts, or moves sides from one face to another; the sum
/// stays.
fn move_sides(case: &mut Case, rng: &mut Rng) {
    let [one, other] = [(); 2].map(|()| rng.below(case.sides.len()));
    case.sides.swap(one, other);
    let moved = rng.pick(&[0, 1, 2]);
    if one != other && rng.one_in(2) && case.sides[one] >= moved {
        case.sides[one] -= moved;
        case.sides[other] += moved;
    }
}

/// Changes some entries, sometimes lengths.
fn damaged(mut case: Case, rng: &mut Rng) -> Case {
    for _ in 0..rng.between(1, 3) {
        damage_entry(&mut case, rng);
    }
    if rng.one_in(4) {
        damage_lengths(&mut case, rng);
    }
    case
}

fn damage_entry(case: &mut Case, rng: &mut Rng) {
    let vertices = to_u32(case.marks.len());
    match rng.below(3) {
        0 if !case.vertices.is_empty() => {
            let at = rng.below(case.vertices.len());
            case.vertices[at] = rng.pick(&[1_048_577, -1_048_577, i32::MIN, 1_048_576, 0]);
        }
        1 if !case.marks.is_empty() => {
            let at = rng.below(case.marks.len());
            case.marks[at] = rng.pick(&[0, 1, 1, 2, 255]);
        }
        _ if !case.faces.is_empty() => {
            let (at, from) = (rng.below(case.faces.len()), rng.below(case.faces.len()));
            let beyond = rng.pick(&[vertices, u32::MAX]);
            case.faces[at] = rng.pick(&[case.faces[from], case.faces[from], beyond]);
        }
        _ => case.rounds = rng.pick(&[0, 6, 7, u32::MAX]),
    }
}

fn damage_lengths(case: &mut Case, rng: &mut Rng) {
    let near = |length: usize, rng: &mut Rng| match rng.below(4) {
        0 => length.saturating_sub(1),
        1 => length + 1,
        2 => rng.below(length + 2),
        _ => length,
    };
    let length = near(case.vertices.len(), rng);
    case.vertices.resize(length, 0);
    let length = near(case.faces.len(), rng);
    case.faces.resize(length, 0);
    let length = near(case.marks.len(), rng);
    case.marks.resize(length, 0);
    if !case.sides.is_empty() {
        let length = near(case.sides.len(), rng);
        case.sides.resize(length, 3);
    }
    case.capacity = Capacity {
        vertices: near(case.capacity.vertices, rng),
        faces: near(case.capacity.faces, rng),
        marks: near(case.capacity.marks, rng),
        workspace: near(case.capacity.workspace, rng),
        ..case.capacity
    };
}

/// A call whose tables have random lengths and random contents.
pub fn random_tables(rng: &mut Rng) -> Case {
    let vertices = rng.below(8);
    let faces = rng.below(5);
    let mut case = Case {
        tally: 0,
        rounds: to_u32(rng.below(3)),
        vertices: (0..3 * vertices).map(|_| rng.between(-99, 99)).collect(),
        faces: (0..4 * faces)
            .map(|_| to_u32(rng.below(vertices + 1)))
            .collect(),
        sides: vec![],
        marks: (0..vertices).map(|_| u8::from(rng.one_in(4))).collect(),
        tension: Tension::OLD.number(),
        capacity: Capacity::for_refined_faces(16 * faces),
        expected: Expected::Unknown,
    };
    if rng.one_in(3) {
        damage_lengths(&mut case, rng);
    }
    case
}

/// The same with random side counts, whose sum is mostly the corners.
pub fn random_polygons(rng: &mut Rng) -> Case {
    let vertices = rng.below(8);
    let count = rng.between(0, 5);
    let sizes = some_sizes(count, rng).into_iter();
    let sides: Vec<u8> = sizes.map(|size| size.to_le_bytes()[0]).collect();
    let corners = sides.iter().map(|&size| usize::from(size)).sum();
    let mut case = Case {
        tally: 0,
        rounds: to_u32(rng.below(3)),
        vertices: (0..3 * vertices).map(|_| rng.between(-99, 99)).collect(),
        faces: (0..corners)
            .map(|_| to_u32(rng.below(vertices + 1)))
            .collect(),
        sides,
        marks: (0..vertices).map(|_| u8::from(rng.one_in(4))).collect(),
        tension: Tension::OLD.number(),
        capacity: Capacity::for_refined_faces(16 * corners),
        expected: Expected::Unknown,
    };
    if rng.one_in(3) {
        damage_lengths(&mut case, rng);
    }
    case
}
