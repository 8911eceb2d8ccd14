//! The kinds of texts and of calls with side counts by name, and mixed series
//! of nets and calls.

use reference::net::Net;
use reference::refusal::Capacity;
use reference::rules::Tension;
use reference::text::PROGRAM_REFINED_FACES;

use crate::accepted::{Shape, Size, accepted};
use crate::build::to_u32;
use crate::case::{Case, ControlNet, Expected, TextCase, document, most_rounds, served_rounds};
use crate::damaged::{
    Damage, damage_text, damaged_polygons, damaged_tables, damaged_text, random_polygons,
    random_tables,
};
use crate::letters::any_letters;
use crate::named::{NAMED, by_turns};
use crate::obj::ObjKind;
use crate::polygons::{PolygonShape, accepted_polygons};
use crate::refused::{
    PLAIN_REASONS, POLYGON_REASONS, TEXT_REASONS, refused_call, refused_polygons, refused_text,
};
use crate::rng::Rng;
use crate::tally::any_tally;
use crate::tension::{any_tension, fit_tension};

/// A kind of text.
#[derive(Clone, Debug, PartialEq, Eq)]
pub enum Kind {
    /// Accepted, as large as the program serves.
    Accepted(Shape),
    /// Accepted, at most 12 faces, one or two rounds.
    Small(Shape),
    /// Well-formed with these reasons for a refusal.
    Refused(Vec<u32>),
    /// Damaged, otherwise sound.
    Damaged(Damage),
    /// Damaged, with another reason for a refusal.
    DamagedAnd(u32),
    /// An OBJ text.
    Obj(ObjKind),
}

impl Kind {
    pub fn all() -> Vec<Kind> {
        let mut kinds: Vec<Kind> = Shape::ALL.map(Kind::Accepted).to_vec();
        kinds.extend(Shape::ALL.map(Kind::Small));
        for (at, &first) in TEXT_REASONS.iter().enumerate() {
            kinds.push(Kind::Refused(vec![first]));
            for &second in &TEXT_REASONS[at + 1..] {
                kinds.push(Kind::Refused(vec![first, second]));
            }
        }
        kinds.extend(Damage::ALL.map(Kind::Damaged));
        kinds.extend(TEXT_REASONS.map(Kind::DamagedAnd));
        kinds.extend(ObjKind::all().into_iter().map(Kind::Obj));
        kinds
    }

    pub fn named(name: &str) -> Option<Kind> {
        Kind::all().into_iter().find(|kind| kind.name() == name)
    }

    pub fn name(&self) -> String {
        match self {
            Kind::Accepted(shape) => shape.name().to_owned(),
            Kind::Small(shape) => format!("small-{}", shape.name()),
            Kind::Refused(reasons) => refused_name(reasons),
            Kind::Damaged(damage) => format!("damaged-{}", damage.name()),
            Kind::DamagedAnd(reason) => format!("damaged-and-{reason:02}"),
            Kind::Obj(kind) => format!("obj-{}", kind.name()),
        }
    }

    pub fn make(&self, seed: u64) -> TextCase {
        let rng = &mut Rng::new(seed);
        match self {
            Kind::Accepted(shape) => {
                let net = accepted(*shape, Size::Medium, rng);
                let rounds = served_rounds(net.faces.len(), rng);
                accepted_text(&net, rounds, rng)
            }
            Kind::Small(shape) => {
                let net = accepted(*shape, Size::Small, rng);
                let rounds = rng.pick(&[1, 2]);
                accepted_text(&net, rounds, rng)
            }
            Kind::Refused(reasons) => refused_text(reasons, rng),
            Kind::Damaged(damage) => damaged_text(*damage, rng),
            Kind::DamagedAnd(reason) => {
                let sound = refused_text(&[*reason], rng).text;
                let damage = rng.pick(&[Damage::NoLastNewline, Damage::Tab, Damage::MissingLine]);
                damage_text(&sound, damage, rng)
            }
            Kind::Obj(kind) => kind.make(rng),
        }
    }
}

/// A kind of call with side counts.
#[derive(Clone, Debug, PartialEq, Eq)]
pub enum CallKind {
    /// Accepted, at most 60 corners, up to two rounds.
    Accepted(PolygonShape),
    /// With these reasons for a refusal.
    Refused(Vec<u32>),
    /// A sound net changed at random.
    Damaged,
    /// Small random tables.
    Random,
}

impl CallKind {
    pub fn all() -> Vec<CallKind> {
        let mut kinds: Vec<CallKind> = PolygonShape::ALL.map(CallKind::Accepted).to_vec();
        for (at, &first) in POLYGON_REASONS.iter().enumerate() {
            kinds.push(CallKind::Refused(vec![first]));
            for &second in &POLYGON_REASONS[at + 1..] {
                kinds.push(CallKind::Refused(vec![first, second]));
            }
        }
        kinds.extend([CallKind::Damaged, CallKind::Random]);
        kinds
    }

    pub fn named(name: &str) -> Option<CallKind> {
        let mut kinds = CallKind::all().into_iter();
        kinds.find(|kind| kind.name() == name)
    }

    pub fn name(&self) -> String {
        match self {
            CallKind::Accepted(shape) => shape.name().to_owned(),
            CallKind::Refused(reasons) => refused_name(reasons),
            CallKind::Damaged => "damaged".to_owned(),
            CallKind::Random => "random".to_owned(),
        }
    }

    pub fn make(&self, seed: u64) -> Case {
        let rng = &mut Rng::new(seed);
        let case = match self {
            CallKind::Accepted(shape) => {
                let net = accepted_polygons(*shape, Size::Small, rng);
                let rounds = to_u32(rng.below(3));
                Case::with_sides(&net, rounds, Expected::Accepted)
            }
            CallKind::Refused(reasons) => refused_polygons(reasons, rng),
            CallKind::Damaged => damaged_polygons(rng.pick(&PolygonShape::ALL), Size::Small, rng),
            CallKind::Random => random_polygons(rng),
        };
        fit_tension(case, rng)
    }
}

fn refused_name(reasons: &[u32]) -> String {
    let numbers: Vec<String> = reasons.iter().map(|r| format!("{r:02}")).collect();
    format!("refused-{}", numbers.join("-"))
}

/// The text of an accepted net, with or without letters; the mark column may be
/// missing if all marks are 0.
fn accepted_text(net: &Net, rounds: u32, rng: &mut Rng) -> TextCase {
    let document = document(net, rounds, rng);
    let is_unmarked = net.marks.iter().all(|&mark| mark == 0);
    let text = if is_unmarked && rng.one_in(2) {
        document.to_unmarked_text()
    } else {
        document.to_text()
    };
    TextCase {
        text: text.into_bytes(),
        expected: Expected::Accepted,
    }
}

/// The texts of all named nets without side counts that the program serves
/// with a round or more, with as many rounds as it serves.
pub fn named_texts(seed: u64) -> Vec<(String, TextCase)> {
    let mut texts = Vec::new();
    for number in 0..NAMED.len() {
        let (named, dressing, _) = by_turns(number);
        let rounds = most_rounds(named.control.quadrilaterals(), PROGRAM_REFINED_FACES);
        let rng = &mut Rng::new(seed.wrapping_add(number as u64));
        if let (ControlNet::Plain(net), 1..) = (named.dressed(dressing, Tension::OLD, rng), rounds)
        {
            let name = format!("named-{}-{}", named.name, dressing.name());
            texts.push((name, accepted_text(&net, rounds, rng)));
        }
    }
    texts
}

/// `number` different accepted nets of at most 12 faces and 40 vertices, of
/// all kinds in rotation, with one or two rounds each.
pub fn small_nets(seed: u64, number: usize) -> Vec<(Net, u32)> {
    let mut rng = Rng::new(seed);
    let mut chosen: Vec<(Net, u32)> = Vec::new();
    for shape in Shape::ALL.into_iter().cycle() {
        if chosen.len() == number {
            break;
        }
        let net = accepted(shape, Size::Small, &mut rng);
        if chosen.iter().all(|(other, _)| *other != net) {
            let rounds = rng.pick(&[1, 2]);
            chosen.push((net, rounds));
        }
    }
    chosen
}

/// A call of any kind: accepted nets of all sizes, one to three reasons for a
/// refusal, damaged and random tables, with tables often longer than needed, with
/// any figure in the record of new points, any letter table and any tension.
pub fn call(seed: u64) -> Case {
    let rng = &mut Rng::new(seed);
    let mut case = match seed % 8 {
        0..=3 => accepted_call(rng),
        4 | 5 => {
            let reasons: Vec<u32> = (0..rng.between(1, 3))
                .map(|_| rng.pick(&PLAIN_REASONS))
                .collect();
            refused_call(&reasons, rng)
        }
        6 => damaged_tables(Size::Medium, rng),
        _ => random_tables(rng),
    };
    lengthen(&mut case, rng);
    completed(case, rng)
}

/// The same with side counts.
pub fn polygon_call(seed: u64) -> Case {
    let rng = &mut Rng::new(seed);
    let mut case = match seed % 8 {
        0..=3 => accepted_polygon_call(rng),
        4 | 5 => {
            let reasons: Vec<u32> = (0..rng.between(1, 3))
                .map(|_| rng.pick(&POLYGON_REASONS))
                .collect();
            refused_polygons(&reasons, rng)
        }
        6 => damaged_polygons(rng.pick(&PolygonShape::ALL), Size::Small, rng),
        _ => random_polygons(rng),
    };
    lengthen(&mut case, rng);
    completed(case, rng)
}

/// The call with any figure in its record, any letter table and any tension,
/// unless it has such.
pub fn completed(case: Case, rng: &mut Rng) -> Case {
    let case = any_letters(any_tally(case, rng), rng);
    any_tension(case, rng)
}

/// Makes some of the tables of an accepted call longer.
fn lengthen(case: &mut Case, rng: &mut Rng) {
    if case.expected == Expected::Accepted {
        let surplus = |rng: &mut Rng| rng.pick(&[0, 0, 1, 7]);
        case.capacity = Capacity {
            vertices: case.capacity.vertices + surplus(rng),
            faces: case.capacity.faces + surplus(rng),
            marks: case.capacity.marks + surplus(rng),
            workspace: case.capacity.workspace + surplus(rng),
            ..case.capacity
        };
    }
}

/// An accepted call, rarely with many faces.
fn accepted_call(rng: &mut Rng) -> Case {
    let (size, faces) = match rng.below(200) {
        0 => (Size::Large, 16_384),
        1..=9 => (Size::Medium, 4_096),
        10..=99 => (Size::Medium, 256),
        _ => (Size::Small, 256),
    };
    let net = accepted(rng.pick(&Shape::ALL), size, rng);
    let most = most_rounds(net.faces.len(), faces) as usize;
    Case::new(&net, to_u32(rng.below(most + 1)), Expected::Accepted)
}

/// An accepted call with side counts.
fn accepted_polygon_call(rng: &mut Rng) -> Case {
    let (size, faces) = match rng.below(100) {
        0..=9 => (Size::Medium, 1_024),
        _ => (Size::Small, 256),
    };
    let net = accepted_polygons(rng.pick(&PolygonShape::ALL), size, rng);
    let most = most_rounds(net.corners().count(), faces) as usize;
    Case::with_sides(&net, to_u32(rng.below(most + 1)), Expected::Accepted)
}
