//! OBJ texts: nets written in every way that the form allows, texts with a
//! reason for a refusal, and damaged ones.

use reference::net::Net;
use reference::refusal::Refusal;
use reference::text::{Document, MAX_BYTES, PROGRAM_REFINED_FACES, PROGRAM_VERTICES};

use crate::accepted::{Shape, Size, accepted};
use crate::case::{Expected, TextCase, served_rounds};
use crate::damaged::{
    Damage, bad_line, change_field, cut, damage_field, damage_whole_line, no_last_newline,
    random_bytes, too_long,
};
use crate::refused::{base, refused_document};
use crate::rng::Rng;

/// Reasons that a well-formed OBJ text can have. Those of marks are missing.
pub const OBJ_REASONS: [u32; 9] = [1, 3, 4, 5, 7, 8, 9, 10, 11];

/// A kind of OBJ text.
#[derive(Clone, Copy, Debug, PartialEq, Eq)]
pub enum ObjKind {
    /// Accepted, as large as the program serves.
    Accepted(Shape),
    /// As long as a text may be, or one byte longer.
    Longest,
    /// Many lines for vertices and faces, as many as the program's tables hold
    /// or more; some with a bad line behind them.
    Many,
    /// Well-formed with this reason for a refusal, and some with a later one.
    Refused(u32),
    /// Damaged, otherwise sound.
    Damaged(ObjDamage),
    /// Damaged, with this reason for a refusal.
    DamagedAnd(u32),
}

impl ObjKind {
    pub fn all() -> Vec<ObjKind> {
        let mut kinds: Vec<ObjKind> = Shape::ALL.map(ObjKind::Accepted).to_vec();
        kinds.extend([ObjKind::Longest, ObjKind::Many]);
        kinds.extend(OBJ_REASONS.map(ObjKind::Refused));
        kinds.extend(ObjDamage::all().into_iter().map(ObjKind::Damaged));
        kinds.extend(OBJ_REASONS.map(ObjKind::DamagedAnd));
        kinds
    }

    pub fn name(self) -> String {
        match self {
            ObjKind::Accepted(shape) => shape.name().to_owned(),
            ObjKind::Longest => "longest".to_owned(),
            ObjKind::Many => "many".to_owned(),
            ObjKind::Refused(reason) => format!("refused-{reason:02}"),
            ObjKind::Damaged(damage) => format!("damaged-{}", damage.name()),
            ObjKind::DamagedAnd(reason) => format!("damaged-and-{reason:02}"),
        }
    }

    pub fn make(self, rng: &mut Rng) -> TextCase {
        match self {
            ObjKind::Accepted(shape) => {
                let size = rng.pick(&[Size::Small, Size::Medium]);
                let net = accepted(shape, size, rng);
                let document = unmarked_document(&net, rng);
                TextCase {
                    text: obj_text(&document, rng),
                    expected: Expected::Accepted,
                }
            }
            ObjKind::Longest => longest(rng),
            ObjKind::Many => many(rng),
            ObjKind::Refused(reason) => {
                let (lines, expected) = refused_lines(reason, rng);
                let text = text(&lines);
                TextCase { text, expected }
            }
            ObjKind::Damaged(damage) => {
                let lines = sound_lines(rng);
                damage.put(lines, rng)
            }
            ObjKind::DamagedAnd(reason) => {
                let (lines, _) = refused_lines(reason, rng);
                rng.pick(&BAD_LINES).put(lines, rng)
            }
        }
    }
}

/// The document of a net without its marks, with rounds that the program
/// serves.
pub fn unmarked_document(net: &Net, rng: &mut Rng) -> Document {
    Document {
        rounds: served_rounds(net.faces.len(), rng),
        with_letters: false,
        vertices: net.vertex_table(),
        faces: net.face_table(),
        marks: vec![0; net.points.len()],
    }
}

/// An OBJ text of a document, written in one of many ways.
pub fn obj_text(document: &Document, rng: &mut Rng) -> Vec<u8> {
    text(&any_lines(document, rng))
}

/// The text of lines without their newlines. Each character of a line is one
/// byte.
fn text(lines: &[String]) -> Vec<u8> {
    let byte = |character| u8::try_from(character).expect("characters up to 255");
    let ended = lines.iter().flat_map(|line| line.chars().chain(['\n']));
    ended.map(byte).collect()
}

/// The lines of a document: vertices and faces in any order that keeps their
/// numbers, comments anywhere after the first line, parts to be skipped.
fn any_lines(document: &Document, rng: &mut Rng) -> Vec<String> {
    let mut lines = mixed_lines(document, rng);
    skip_parts(&mut lines[1..], rng);
    for _ in 0..rng.pick(&[0, 1, 4, 12]) {
        let at = 1 + rng.below(lines.len());
        lines.insert(at, comment(rng));
    }
    lines
}

/// The lines of a document without comments and parts to be skipped: vertices
/// first, faces first or mixed.
fn mixed_lines(document: &Document, rng: &mut Rng) -> Vec<String> {
    let plain = document.to_obj_text();
    let mut lines: Vec<String> = plain.lines().map(str::to_owned).collect();
    let mut others = lines.split_off(1);
    let first_face = document.vertices.len() / 3;
    let faces = others.split_off(first_face);
    let mut is_face = [vec![false; others.len()], vec![true; faces.len()]].concat();
    match rng.below(4) {
        0 => {}
        1 => is_face.reverse(),
        _ => rng.shuffle(&mut is_face),
    }
    let (mut vertices, mut faces) = (others.into_iter(), faces.into_iter());
    lines.extend(is_face.into_iter().filter_map(|is_face| {
        if is_face {
            faces.next()
        } else {
            vertices.next()
        }
    }));
    lines
}

/// What may follow the number in a field of a face.
const SKIPPED: [&str; 14] = [
    "",
    "/",
    "/1",
    "//1",
    "/1/1",
    "/1/",
    "///",
    "/-1",
    "/0",
    "/\t1",
    "/1\r",
    "/v#",
    "/2147483648",
    "/\0\u{80}\u{ff}",
];

/// Puts parts to be skipped into no fields of faces, into all of them the same,
/// or into each another.
fn skip_parts(lines: &mut [String], rng: &mut Rng) {
    let (manner, same) = (rng.below(3), rng.pick(&SKIPPED));
    for line in lines.iter_mut().filter(|line| line.starts_with('f')) {
        let mut fields = line.split(' ');
        let mut longer = fields.next().unwrap_or_default().to_owned();
        for number in fields {
            let skipped = match manner {
                0 => "",
                1 => same,
                _ => rng.pick(&SKIPPED),
            };
            longer += &format!(" {number}{skipped}");
        }
        *line = longer;
    }
}

/// Comments that look like something else.
const COMMENTS: [&str; 9] = [
    "#",
    "##",
    "# rounds 3",
    "# rounds 7",
    "#v 0 0 0",
    "# f 1 2 3 4",
    "#\r",
    "# \t",
    "#vertices faces rounds",
];

/// A comment, often with random bytes.
fn comment(rng: &mut Rng) -> String {
    if rng.one_in(3) {
        return rng.pick(&COMMENTS).to_owned();
    }
    let length = rng.below(60);
    let byte = |_| char::from(rng.next_u64().to_le_bytes()[0]);
    let bytes: String = (0..length).map(byte).collect();
    format!("#{}", bytes.replace('\n', " "))
}

/// A sound text with a long line somewhere, 32,768 or 32,769 bytes in all.
fn longest(rng: &mut Rng) -> TextCase {
    let mut lines = sound_lines(rng);
    let at = open_end(&mut lines, rng);
    let surplus = rng.below(2);
    let missing = MAX_BYTES + surplus - text(&lines).len();
    lines[at] += &rng.pick(&["x", "\0", "\u{ff}", "#"]).repeat(missing);
    let text = text(&lines);
    if surplus > 0 {
        return bad_line(text, 0);
    }
    TextCase {
        text,
        expected: Expected::Accepted,
    }
}

/// Makes a line that can go on with any bytes but blanks and newlines, a new
/// comment or a face with a slash behind it, and returns its index.
fn open_end(lines: &mut Vec<String>, rng: &mut Rng) -> usize {
    if rng.one_in(2) {
        let at = 1 + rng.below(lines.len());
        lines.insert(at, "#".to_owned());
        return at;
    }
    let is_face = |&at: &usize| lines[at].starts_with('f');
    let at = rng.pick(&(1..lines.len()).filter(is_face).collect::<Vec<_>>());
    lines[at].push('/');
    at
}

/// Five vertices or many, one face as often as it fits.
fn many(rng: &mut Rng) -> TextCase {
    let vertices = rng.pick(&[5, 1_023, 1_024, 1_025, 1_100, 2_000]);
    let faces = rng.pick(&[1, 255, 256, 257, 300, 1_000]);
    let document = Document {
        rounds: rng.pick(&[0, 0, 0, 1, 4, 6, 7]),
        with_letters: false,
        vertices: vec![1; 3 * vertices],
        faces: [0, 1, 2, 3].repeat(faces),
        marks: vec![0; vertices],
    };
    let lines = mixed_lines(&document, rng);
    if rng.one_in(3) {
        return BAD_LINE_BEHIND.put(lines, rng);
    }
    TextCase {
        text: text(&lines),
        expected: Expected::Refused(refusal_of_many(document.rounds, vertices, faces)),
    }
}

/// The fifth vertex is in no face.
fn refusal_of_many(rounds: u32, vertices: usize, faces: usize) -> Refusal {
    let refined = faces << (2 * rounds);
    if rounds > 6 {
        Refusal::new(1, 0)
    } else if refined > 262_144 {
        Refusal::new(3, 0)
    } else if refined > PROGRAM_REFINED_FACES || vertices > PROGRAM_VERTICES {
        Refusal::new(4, 0)
    } else {
        Refusal::new(8, 4)
    }
}

/// The lines of a sound text with at least one face.
fn sound_lines(rng: &mut Rng) -> Vec<String> {
    let net = base(rng);
    let document = unmarked_document(&net, rng);
    any_lines(&document, rng)
}

/// The lines of a well-formed text with this reason, half of the time also with
/// another that is not earlier, and what is expected of it.
fn refused_lines(reason: u32, rng: &mut Rng) -> (Vec<String>, Expected) {
    let later = OBJ_REASONS.iter().copied().filter(|&other| other >= reason);
    let reasons = [reason, rng.pick(&later.collect::<Vec<_>>())];
    let count = 1 + rng.below(2);
    let (mut document, expected) = refused_document(&reasons[..count], rng);
    for corner in &mut document.faces {
        *corner = (*corner).min(LAST_CORNER);
    }
    (any_lines(&document, rng), expected)
}

/// The last corner that a field can name.
const LAST_CORNER: u32 = 2_147_483_646;

/// A way to damage an OBJ text so that it no longer has its form.
#[derive(Clone, Copy, Debug, PartialEq, Eq)]
pub enum ObjDamage {
    /// As other texts are damaged.
    Shared(Damage),
    /// With one of these lines.
    Line(&'static BadLines),
}

/// Damage that lines of numbers can have in either form, then damage to whole
/// texts.
const SHARED: [Damage; 19] = [
    Damage::PlusSign,
    Damage::LeadingZero,
    Damage::MinusZero,
    Damage::LoneMinus,
    Damage::MinusOnCount,
    Damage::DoubleBlank,
    Damage::LeadingBlank,
    Damage::TrailingBlank,
    Damage::Tab,
    Damage::CarriageReturn,
    Damage::ZeroByte,
    Damage::Letter,
    Damage::Beyond32Bits,
    Damage::MissingValue,
    Damage::SurplusValue,
    Damage::NoLastNewline,
    Damage::Cut,
    Damage::RandomBytes,
    Damage::TooLong,
];

impl ObjDamage {
    pub fn all() -> Vec<ObjDamage> {
        let mut damages: Vec<ObjDamage> = SHARED.map(ObjDamage::Shared).to_vec();
        damages.extend(BAD_LINES.iter().map(ObjDamage::Line));
        damages
    }

    pub fn name(self) -> &'static str {
        match self {
            ObjDamage::Shared(damage) => damage.name(),
            ObjDamage::Line(bad) => bad.name,
        }
    }

    fn put(self, lines: Vec<String>, rng: &mut Rng) -> TextCase {
        match self {
            ObjDamage::Shared(damage) => damage_lines(lines, damage, rng),
            ObjDamage::Line(bad) => bad.put(lines, rng),
        }
    }
}

fn damage_lines(mut lines: Vec<String>, damage: Damage, rng: &mut Rng) -> TextCase {
    let sound = text(&lines);
    match damage {
        Damage::NoLastNewline => no_last_newline(&sound),
        Damage::TooLong => too_long(&sound),
        Damage::RandomBytes => random_bytes(&sound, rng),
        Damage::Cut => cut_anywhere(&sound, rng),
        _ => {
            let line = damage_line(&mut lines, damage, rng);
            bad_line(text(&lines), line + 1)
        }
    }
}

/// Cut behind a line, a text keeps its form and gets another net.
fn cut_anywhere(text: &[u8], rng: &mut Rng) -> TextCase {
    let case = cut(text, rng);
    let expected = if case.text.ends_with(b"\n") {
        Expected::Unknown
    } else {
        case.expected
    };
    TextCase { expected, ..case }
}

/// Damages a line and returns its index.
fn damage_line(lines: &mut [String], damage: Damage, rng: &mut Rng) -> usize {
    let takes = |&at: &usize| {
        let is_comment = at > 0 && lines[at].starts_with('#');
        !is_comment && can_take(&lines[at], damage)
    };
    let line = rng.pick(&(0..lines.len()).filter(takes).collect::<Vec<_>>());
    let old = &lines[line];
    let first = if line == 0 { 2 } else { 1 };
    let new = damage_whole_line(old, damage)
        .unwrap_or_else(|| change_field(old, first, |field| damage_number(field, damage), rng));
    lines[line] = new;
    line
}

/// Whether a line is bad after this damage: coordinates may have a minus, and a
/// part that is skipped at the line's end any byte.
fn can_take(line: &str, damage: Damage) -> bool {
    match damage {
        Damage::MinusOnCount => !line.starts_with('v'),
        Damage::CarriageReturn | Damage::ZeroByte => {
            let last = line.rsplit(' ').next();
            last.is_some_and(|field| !field.contains('/'))
        }
        _ => true,
    }
}

/// Damages the number of a field, before a slash if there is one.
fn damage_number(field: &str, damage: Damage) -> String {
    let (number, skipped) = field.split_at(field.find('/').unwrap_or(field.len()));
    format!("{}{skipped}", damage_field(number, damage))
}

/// Where a bad line stands.
#[derive(Clone, Copy, Debug, PartialEq, Eq)]
enum Place {
    /// In place of the first line.
    First,
    /// Anywhere after it.
    Later,
    /// At the end.
    End,
    /// At the end, without a newline.
    Unfinished,
}

/// Bad lines of one sort.
#[derive(Clone, Copy, Debug, PartialEq, Eq)]
pub struct BadLines {
    name: &'static str,
    place: Place,
    lines: &'static [&'static str],
}

impl BadLines {
    /// A text with one of these lines.
    fn put(&self, mut lines: Vec<String>, rng: &mut Rng) -> TextCase {
        let at = match self.place {
            Place::First => 0,
            Place::Later => 1 + rng.below(lines.len()),
            Place::End | Place::Unfinished => lines.len(),
        };
        if self.place == Place::First {
            lines.remove(0);
        }
        lines.insert(at, rng.pick(self.lines).to_owned());
        let mut text = text(&lines);
        if self.place == Place::Unfinished {
            text.pop();
        }
        bad_line(text, at + 1)
    }
}

const BAD_LINE_BEHIND: BadLines = BadLines {
    name: "behind",
    place: Place::End,
    lines: &["", "v 0 0", "f 0 1 2 3", "o"],
};

static BAD_LINES: [BadLines; 14] = [
    BadLines {
        name: "no-rounds",
        place: Place::First,
        lines: &["#", "# ", "# rounds", "# rounds ", "# 1", "# comment"],
    },
    BadLines {
        name: "rounds-name",
        place: Place::First,
        lines: &[
            "# round 1",
            "# Rounds 1",
            "#rounds 1",
            "# rounds1",
            "## rounds 1",
            "#\0rounds 1",
            "# rounds: 1",
        ],
    },
    BadLines {
        name: "rounds-blanks",
        place: Place::First,
        lines: &[
            "#  rounds 1",
            "# rounds  1",
            "# rounds 1 ",
            "#\trounds 1",
            "# rounds\t1",
            "# rounds 1\t",
            "# rounds 1\r",
        ],
    },
    BadLines {
        name: "rounds-number",
        place: Place::First,
        lines: &[
            "# rounds 01",
            "# rounds 00",
            "# rounds +1",
            "# rounds -1",
            "# rounds -0",
            "# rounds 1.0",
            "# rounds one",
            "# rounds 2147483648",
            "# rounds 4294967296",
            "# rounds 18446744073709551616",
        ],
    },
    BadLines {
        name: "rounds-surplus",
        place: Place::First,
        lines: &[
            "# rounds 1 1",
            "# rounds 1 rule",
            "# rounds 1 # one",
            "# rounds 1/1",
            "# rounds 1\0",
        ],
    },
    BadLines {
        name: "unknown-word",
        place: Place::Later,
        lines: &[
            "vn 0 0 1",
            "vt 0 0",
            "vp 0 0 0",
            "o",
            "o panel",
            "g panel",
            "s off",
            "s 1",
            "l 1 2",
            "p 1",
            "usemtl steel",
            "V 0 0 0",
            "F 1 2 3 4",
            "0 0 0",
            "1 2 3 4",
            "vertices faces rounds",
            "\u{ef}\u{bb}\u{bf}v 0 0 0",
        ],
    },
    BadLines {
        name: "empty-line",
        place: Place::Later,
        lines: &["", " ", "\t", "\r", "\0"],
    },
    BadLines {
        name: "word-alone",
        place: Place::Later,
        lines: &["v", "f", "v ", "f ", "v0 0 0", "f1 2 3 4", "v\r", "f/1"],
    },
    BadLines {
        name: "comment-behind",
        place: Place::Later,
        lines: &[
            " # comment",
            "\t# comment",
            "v 0 0 0 # origin",
            "v 0 0 0#",
            "f 1 2 3 4 # face",
            "f 1 2 3 4#",
            "v # 0 0 0",
        ],
    },
    BadLines {
        name: "coordinate",
        place: Place::Later,
        lines: &[
            "v 0.0 0 0",
            "v 1e3 0 0",
            "v 0 -0 0",
            "v 0 0 -",
            "v 0 0 --1",
            "v 0 0 0/1",
            "v 0 0 -01",
            "v 2147483648 0 0",
            "v 0 -2147483649 0",
            "v 0 0 4294967296",
            "v 18446744073709551616 0 0",
        ],
    },
    BadLines {
        name: "coordinates",
        place: Place::Later,
        lines: &[
            "v 0",
            "v 0 0",
            "v 0 0 ",
            "v 0 0 0 0",
            "v 0 0 0 1.0",
            "v 0 0 0 1 1 1",
        ],
    },
    BadLines {
        name: "field",
        place: Place::Later,
        lines: &[
            "f 0 1 2 3",
            "f 0/1 1 2 3",
            "f 1 2 3 -1",
            "f 1 2 -1/1 4",
            "f /1 2 3 4",
            "f 1 2 3 /",
            "f 1 //1 2 3",
            "f 1 2 2147483648 3",
            "f 4294967297 2 3 4",
            "f 1 2 3 18446744073709551617/1",
            "f 1\\1 2 3 4",
            "f 1\t/1 2 3 4",
        ],
    },
    BadLines {
        name: "fields",
        place: Place::Later,
        lines: &[
            "f 1",
            "f 1 2 3",
            "f 1/1 2/2 3/3",
            "f 1/2/3/4",
            "f 1 2 3 4 5",
            "f 1/1 2/2 3/3 4/4 5/5",
            "f 1/ 1 2 3 4",
            "f 1 /1 2 3 4",
            "f 1/1 2/2 3/3 4/4 ",
        ],
    },
    BadLines {
        name: "unfinished",
        place: Place::Unfinished,
        lines: &[
            "#",
            "# comment",
            "# rounds 3",
            "v 0 0 0",
            "f 1 2 3 4",
            "f 1 2 3 4/",
            "v",
            " ",
            "\r",
            "\0",
        ],
    },
];
