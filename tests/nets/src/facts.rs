//! Small calls with all that the reference says of them, as lines of JSON.
//!
//! The check of the definitions reads these lines. Tables are flat lists of
//! numbers; a net is its vertex, face and mark table.

use std::collections::{BTreeMap, BTreeSet};
use std::fmt::Display;
use std::fs;

use reference::call::{Outcome, Tables, start_net};
use reference::curve::{Form, exact_curve, rounded_curve};
use reference::letter::{Letter, letter_table, refine_with_letters};
use reference::net::{Net, PolygonNet, edge};
use reference::point::ExactPoint;
use reference::refusal::{Capacity, Refusal, check_call};
use reference::rules::Tension;
use reference::seam::{Boundary, Reading, Way};
use reference::step::{Directions, Rule, Step, Surface, refine_once, split, trace};
use reference::text::parse;
use reference::topology::Topology;

use crate::accepted::{Shape, Size, accepted};
use crate::build::to_u32;
use crate::case::{Case, ControlNet, Expected};
use crate::change::{Placing, boundary_loops, mark, place, renumber};
use crate::damaged::{damaged_polygons, damaged_tables, random_polygons, random_tables};
use crate::features::{Feature, Met};
use crate::kind::CallKind;
use crate::letters::any_letters;
use crate::moved::MovedPair;
use crate::named::{Dressing, Family, NAMED, Named};
use crate::obj::ObjKind;
use crate::polygons::{PolygonShape, accepted_polygons};
use crate::refused::{PLAIN_REASONS, POLYGON_REASONS, refused_call, refused_polygons};
use crate::rng::Rng;
use crate::seamtest::{SeamCase, SeamKind};
use crate::shapes;
use crate::stored::{from_text, stored_calls};
use crate::tally::any_tally;
use crate::tension::{any_tension, some_tension};

/// Faces of the nets that are preferred, since the definitions are slow.
const FEW_FACES: usize = 6;
/// Most faces of the named nets, but for a few that are there in any case.
const NAMED_FACES: usize = 12;
/// Most faces of a net whose second round is told.
const TWO_ROUNDS: usize = 2;
/// Most corners and vertices of a net whose tables are told; of others only the
/// lengths and the side counts.
const MOST_CORNERS: usize = 200;
/// Most work numbers of a call whose lent tables are told.
const MOST_WORK: usize = 81;
/// The same with side counts: a triangle and one round, or 12 corners.
const MOST_POLYGON_WORK: usize = 193;
/// Most letters of a call whose lent tables are told.
const MOST_LETTERS: usize = 200;
/// Corners of the nets with side counts that are preferred.
const FEW_CORNERS: usize = 14;
/// Most rounds for which the definitions can work out the number of faces.
const MOST_ROUNDS: u32 = 100;
/// Calls for each refusal alone.
const ALONE: usize = 4;
/// Most bytes of an OBJ text that is told.
const MOST_BYTES: usize = 240;
/// Most corners and vertices of each net of a seam test.
const SEAM_CORNERS: usize = 32;
/// Seam tests that are drawn until one has small nets.
const SEAM_TRIES: usize = 40;
/// Steps of the curves that are told.
const CURVE_STEPS: u32 = 2;

/// All facts: `count` accepted nets; every refusal alone and in pairs; calls
/// that are damaged, random or near the limits, a quarter of `count` each;
/// calls with side counts; named nets; OBJ texts; about 2 × `count` seam tests.
pub fn lines(seed: u64, count: usize) -> Vec<String> {
    let rng = &mut Rng::new(seed);
    let mut lines: Vec<String> = accepted_nets(count, rng)
        .iter()
        .map(|(kind, net)| accepted_line(kind, net, some_tension(rng), rng))
        .collect();
    for (at, &first) in PLAIN_REASONS.iter().enumerate() {
        lines.extend((0..ALONE).map(|_| refused_line(&[first], rng)));
        for &second in &PLAIN_REASONS[at + 1..] {
            lines.push(refused_line(&[first, second], rng));
        }
    }
    for _ in 0..count / 4 {
        let damaged = served(|rng| damaged_tables(Size::Small, rng), rng);
        let random = any_wishes(random_tables(rng), rng);
        lines.push(call_line("damaged", &damaged, &[]));
        lines.push(call_line("random", &random, &[]));
        lines.push(call_line("limits", &near_limits(rng), &[]));
    }
    lines.extend(polygon_lines(count, rng));
    lines.extend(named_lines(seed));
    lines.extend(obj_lines(seed));
    lines.extend(seam_lines(seed, 2 * count));
    lines
}

/// The facts of calls with side counts: a quarter of `count` accepted nets;
/// every refusal alone and in pairs with 14; calls that are damaged, random or
/// near the limits, a sixteenth of `count` each; the stored calls.
fn polygon_lines(count: usize, rng: &mut Rng) -> Vec<String> {
    let shapes = PolygonShape::ALL.into_iter().cycle().take(count / 4);
    let mut lines: Vec<String> = shapes
        .enumerate()
        .map(|(at, shape)| {
            let tries = if at % 8 == 7 { 2 } else { 40 };
            let net = generated_polygons(shape, tries, rng);
            let kind = format!("polygons-{}", shape.name());
            accepted_polygon_line(&kind, &net, some_tension(rng), rng)
        })
        .collect();
    for reason in POLYGON_REASONS {
        lines.extend((0..ALONE).map(|_| refused_polygon_line(&[reason], rng)));
        lines.push(refused_polygon_line(&[reason, 14], rng));
    }
    for _ in 0..count / 16 {
        let shape = rng.pick(&PolygonShape::ALL);
        let damaged = served(|rng| damaged_polygons(shape, Size::Small, rng), rng);
        let random = any_wishes(random_polygons(rng), rng);
        lines.push(call_line("polygons-damaged", &damaged, &[]));
        lines.push(call_line("polygons-random", &random, &[]));
        lines.push(call_line("polygons-limits", &near_polygon_limits(rng), &[]));
    }
    lines.extend(stored_lines());
    lines
}

/// Short OBJ texts of every kind that has them: the bytes, and what the form
/// makes of them or the first bad line.
fn obj_lines(seed: u64) -> Vec<String> {
    let rng = &mut Rng::new(seed);
    let short = |kind: ObjKind, rng: &mut Rng| {
        let mut texts = (0..60).map(|_| kind.make(rng).text);
        texts.find(|text| text.starts_with(b"#") && text.len() <= MOST_BYTES)
    };
    ObjKind::all()
        .into_iter()
        .filter_map(|kind| Some(obj_line(&kind.name(), &short(kind, rng)?)))
        .collect()
}

fn obj_line(kind: &str, text: &[u8]) -> String {
    let mut fields = vec![
        ("kind", quoted(format!("obj-{kind}"))),
        ("traits", list([])),
        ("bytes", numbers(text)),
    ];
    match parse(text) {
        Ok(document) => fields.extend([
            ("rounds", document.rounds.to_string()),
            ("vertices", numbers(&document.vertices)),
            ("faces", numbers(&document.faces)),
        ]),
        Err(refusal) => fields.push(("bad_line", refusal.place.to_string())),
    }
    object(&fields)
}

/// Seam tests of small nets, of every kind that has them in turn.
fn seam_lines(seed: u64, count: usize) -> Vec<String> {
    let rng = &mut Rng::new(seed);
    let is_small = |net: &Case| net.faces.len().max(net.marks.len()) <= SEAM_CORNERS;
    let kinds = SeamKind::rotation().into_iter().cycle().take(count);
    let small = |kind: SeamKind| {
        let mut cases = (0..SEAM_TRIES).map(|_| kind.draw(rng));
        let case = cases.find(|case| case.nets.iter().all(is_small))?;
        Some(seam_line(&kind.name(), &case))
    };
    kinds.filter_map(small).collect()
}

/// A seam test: its tables, the work table before and after it, and the
/// reference's answer.
pub fn seam_line(kind: &str, case: &SeamCase) -> String {
    let before = case.work_table(&mut Rng::new(0));
    let mut after = before.clone();
    let answer = case.outcome_in(&mut after);
    let tensions = case.nets.each_ref().map(|net| net.tension);
    let seam = object(&[
        ("nets", list(case.nets.each_ref().map(tables_of))),
        (
            "sides",
            list(case.nets.each_ref().map(|net| numbers(&net.sides))),
        ),
        ("tensions", numbers(&tensions)),
        ("starts", numbers(&case.starts)),
        ("given", numbers(&before)),
        ("left", numbers(&after)),
        ("verdict", numbers(&told(answer.map(drop)))),
        ("edges", answer.unwrap_or(0).to_string()),
    ]);
    object(&[
        ("kind", quoted(format!("seam-{kind}"))),
        ("traits", list([])),
        ("seam", seam),
    ])
}

/// The facts of some named nets, in all dressings and at all tensions by turns.
fn named_lines(seed: u64) -> Vec<String> {
    let rng = &mut Rng::new(seed);
    let turns = Dressing::ALL.into_iter().cycle();
    let turns = turns.zip(Tension::ALL.into_iter().cycle());
    let dressed = chosen_named().into_iter().zip(turns);
    let told = dressed.map(|(named, (dressing, tension))| {
        let kind = format!("named-{}", named.family.name());
        match named.dressed(dressing, tension, rng) {
            ControlNet::Plain(net) => accepted_line(&kind, &net, tension, rng),
            ControlNet::WithSides(net) => accepted_polygon_line(&kind, &net, tension, rng),
        }
    });
    told.collect()
}

/// Of the named nets with few faces every second, or every fifth where they
/// differ in their marks alone; those with 6 and with 8 faces at every vertex;
/// the smallest that meets each feature.
fn chosen_named() -> Vec<&'static Named> {
    let of = |family: fn(Family) -> bool| NAMED.iter().filter(move |named| family(named.family));
    let few = |named: &&Named| named.control.quadrilaterals() <= NAMED_FACES;
    let marked = of(Family::has_marks).filter(few).step_by(5);
    let others = of(|family| !family.has_marks()).filter(few).step_by(2);
    let regular = of(|family| family == Family::Bipartite).filter(|named| !few(named));
    let mut chosen: Vec<&Named> = marked.chain(others).chain(regular).collect();
    for feature in Feature::ALL {
        let has_it = |named: &&Named| Met::of(&named.control.start()).features.contains(&feature);
        if !chosen.iter().any(has_it) {
            let nets = NAMED.iter().filter(has_it);
            chosen.extend(nets.min_by_key(|named| named.control.quadrilaterals()));
        }
    }
    chosen
}

/// The stored calls that are of no seeded kind.
fn stored_lines() -> Vec<String> {
    let mut lines = Vec::new();
    for path in stored_calls() {
        let name = path.file_stem().unwrap_or_default().to_string_lossy();
        if CallKind::named(&name).is_none() {
            let text = fs::read_to_string(&path).expect("a stored call");
            let case = from_text(&text).expect("the form of stored calls");
            let kind = format!("polygons-stored-{name}");
            lines.push(call_line(&kind, &case, &[]));
        }
    }
    lines
}

/// The first of several nets with few corners, or the last.
fn generated_polygons(shape: PolygonShape, tries: usize, rng: &mut Rng) -> PolygonNet {
    let mut net = accepted_polygons(shape, Size::Small, rng);
    for _ in 1..tries {
        if net.corners().count() <= FEW_CORNERS {
            break;
        }
        net = accepted_polygons(shape, Size::Small, rng);
    }
    net
}

/// An accepted net with side counts: its split, and the net after one round.
fn accepted_polygon_line(kind: &str, net: &PolygonNet, tension: Tension, rng: &mut Rng) -> String {
    let control = ControlNet::WithSides(net.clone());
    let case = control.accepted_case(tension, to_u32(rng.below(2)));
    let case = any_letters(any_tally(case, rng), rng);
    let start = split(net);
    let refined = refine_once(&start, tension).net;
    let sizes: BTreeSet<usize> = net.faces.iter().map(Vec::len).collect();
    let traits = sizes.iter().map(|n| format!("face of {n} sides"));
    object(&[
        ("kind", quoted(kind)),
        ("call", call_text(&case, true)),
        ("net", tables_of(&case)),
        ("moved", moved_text(&case)),
        ("sides", numbers(&case.sides)),
        ("split", list([&start, &refined].map(net_text))),
        (
            "letters",
            letters_text(&start, tension, net.points.len(), 0..=1),
        ),
        ("traits", list(traits.map(quoted))),
    ])
}

/// A call with side counts and these reasons against it.
fn refused_polygon_line(reasons: &[u32], rng: &mut Rng) -> String {
    let case = served(|rng| refused_polygons(reasons, rng), rng);
    let names: Vec<String> = reasons.iter().map(|r| format!("{r:02}")).collect();
    let kind = format!("polygons-refused-{}", names.join("-"));
    call_line(&kind, &case, reasons)
}

/// A call with side counts of which only these and the lengths matter.
fn near_polygon_limits(rng: &mut Rng) -> Case {
    let vertices = rng.pick(&[0, 4, 8_192, 8_193]);
    let (count, times) = rng.pick(&[(8, 8), (5, 13), (4, 16), (3, 22), (8, 32), (3, 342)]);
    let rounds = rng.pick(&[0, 4, 5, 6, 7]);
    let mut case = Case {
        tally: 0,
        rounds,
        vertices: vec![0; 3 * vertices],
        faces: vec![0; count * times],
        sides: vec![u8::try_from(count).expect("small"); times],
        marks: vec![0; vertices],
        tension: Tension::OLD.number(),
        capacity: Capacity::for_refined_faces(0),
        expected: Expected::Unknown,
    };
    if rng.one_in(4) {
        let at = rng.below(times);
        case.sides[at] = rng.pick(&[2, 3, 8, 9]);
    }
    case.capacity = Capacity::for_refined_faces(case.served_faces());
    if rng.one_in(3) {
        case.capacity.workspace -= 1;
    }
    any_wishes(case, rng)
}

/// Different accepted nets with their names: every ring and every fan, then
/// all shapes in rotation, of which every fourth has any small size.
fn accepted_nets(count: usize, rng: &mut Rng) -> Vec<(&'static str, Net)> {
    let mut chosen = stars(rng);
    chosen.truncate(count);
    for (at, shape) in Shape::ALL.into_iter().cycle().enumerate() {
        if chosen.len() == count {
            break;
        }
        let tries = if at % 4 == 3 { 1 } else { 20 };
        let net = generated(shape, tries, rng);
        if chosen.iter().all(|(_, other)| *other != net) {
            chosen.push((shape.name(), net));
        }
    }
    chosen
}

/// The faces round one vertex: full rings of 3 to 8, open fans of 1 to 6.
fn stars(rng: &mut Rng) -> Vec<(&'static str, Net)> {
    let rings = (3..=8).map(|n| ("ring", shapes::sectors(n, 1, true)));
    let fans = (1..=6).map(|n| ("fan", shapes::sectors(n, 1, false)));
    let mut stars: Vec<(&'static str, Net)> = rings.chain(fans).collect();
    for (_, net) in &mut stars {
        place(net, Placing::Scattered, rng);
        mark(net, rng);
        *net = renumber(net, rng).0;
    }
    stars
}

/// The first of several nets with few faces, or the last.
fn generated(shape: Shape, tries: usize, rng: &mut Rng) -> Net {
    let mut net = accepted(shape, Size::Small, rng);
    for _ in 1..tries {
        if net.faces.len() <= FEW_FACES {
            break;
        }
        net = accepted(shape, Size::Small, rng);
    }
    net
}

fn accepted_line(kind: &str, net: &Net, tension: Tension, rng: &mut Rng) -> String {
    let rounds = if net.faces.len() <= TWO_ROUNDS { 2 } else { 1 };
    let control = ControlNet::Plain(net.clone());
    let case = control.accepted_case(tension, to_u32(rng.below(3)));
    let case = any_letters(any_tally(case, rng), rng);
    let steps = trace(net, tension, rounds);
    let mut nets: Vec<&Net> = vec![net];
    nets.extend(steps.iter().map(|step| &step.net));
    object(&[
        ("kind", quoted(kind)),
        ("call", call_text(&case, true)),
        ("net", net_text(net)),
        ("moved", moved_text(&case)),
        ("steps", list(nets[1..].iter().map(|net| net_text(net)))),
        (
            "letters",
            letters_text(net, tension, net.points.len(), 0..=rounds),
        ),
        ("words", list(words(net, tension).iter().map(word_text))),
        (
            "readings",
            list(
                readings(net)
                    .iter()
                    .map(|r| reading_text(&nets, tension, *r)),
            ),
        ),
        ("traits", list(traits(net, &steps).iter().map(quoted))),
    ])
}

/// A call with these reasons against it.
fn refused_line(reasons: &[u32], rng: &mut Rng) -> String {
    let case = served(|rng| refused_call(reasons, rng), rng);
    let names: Vec<String> = reasons.iter().map(|r| format!("{r:02}")).collect();
    let kind = format!("refused-{}", names.join("-"));
    call_line(&kind, &case, reasons)
}

/// The call with any letter table and any tension.
fn any_wishes(case: Case, rng: &mut Rng) -> Case {
    any_tension(any_letters(case, rng), rng)
}

/// The first call with few enough rounds, with any letter table and any tension.
fn served(make: impl Fn(&mut Rng) -> Case, rng: &mut Rng) -> Case {
    loop {
        let case = make(rng);
        if case.rounds <= MOST_ROUNDS {
            return any_wishes(case, rng);
        }
    }
}

/// A call of which only the lengths matter, near the limits 1 to 4.
fn near_limits(rng: &mut Rng) -> Case {
    let vertices = rng.pick(&[0, 4, 8_191, 8_192, 8_193]);
    let faces = rng.pick(&[0, 1, 64, 65, 1_024, 1_025, 4_096, 4_097]);
    let rounds = rng.pick(&[0, 1, 2, 3, 4, 5, 6, 7]);
    let mut room = Capacity::for_refined_faces(faces << (2 * rounds));
    for length in [
        &mut room.vertices,
        &mut room.faces,
        &mut room.marks,
        &mut room.workspace,
    ] {
        if rng.one_in(10) {
            *length = length.saturating_sub(1);
        }
    }
    let case = Case {
        tally: 0,
        rounds,
        vertices: vec![0; 3 * vertices],
        faces: vec![0; 4 * faces],
        sides: vec![],
        marks: vec![0; vertices],
        tension: Tension::OLD.number(),
        capacity: room,
        expected: Expected::Unknown,
    };
    any_wishes(case, rng)
}

/// A call with its tables, or with their lengths alone if they are long.
fn call_line(kind: &str, case: &Case, reasons: &[u32]) -> String {
    let most = case.faces.len().max(case.marks.len());
    let is_short = !kind.ends_with("limits") && most <= MOST_CORNERS;
    let mut fields = vec![("kind", quoted(kind)), ("call", call_text(case, is_short))];
    if is_short {
        fields.push(("net", tables_of(case)));
        fields.push(("moved", moved_text(case)));
    }
    if !case.sides.is_empty() {
        fields.push(("sides", numbers(&case.sides)));
    }
    let traits = reasons.iter().map(|reason| format!("reason {reason}"));
    fields.push(("traits", list(traits.map(quoted))));
    object(&fields)
}

/// The vertex, face and mark table of a call.
fn tables_of(case: &Case) -> String {
    list([
        numbers(&case.vertices),
        numbers(&case.faces),
        numbers(&case.marks),
    ])
}

/// A shift, drawn for the vertex table alone, and the table moved by it.
fn moved_text(case: &Case) -> String {
    let mix = |seed: u64, value: &i32| {
        seed.wrapping_mul(31)
            .wrapping_add(value.unsigned_abs().into())
    };
    let seed = case.vertices.iter().fold(0, mix);
    let pair = MovedPair::draw(case.clone(), &mut Rng::new(seed));
    list([numbers(&pair.shift), numbers(&pair.moved.vertices)])
}

/// Whether the lengths of the tables and the side counts fit.
fn is_whole(case: &Case) -> bool {
    let enough = Capacity::for_refined_faces(case.quadrilaterals());
    let checked = check_call(0, &case.net(), &enough);
    !checked.is_err_and(|refusal| matches!(refusal.reason, 2 | 14))
}

/// Rounds, tension, lengths of the three tables, room, and the reference's
/// verdicts on the call but for 15, of its lengths alone unless `with_net`, and on
/// its net if the table lengths fit: nothing, or a number and a place.
fn call_text(case: &Case, with_net: bool) -> String {
    let lengths = [case.vertices.len(), case.faces.len(), case.marks.len()];
    let room = case.capacity;
    let verdict = match with_net.then(|| case.outcome()) {
        Some(Outcome::Refined { .. } | Outcome::Refused { reason: 15, .. }) => vec![],
        Some(Outcome::Refused { reason, place }) => vec![reason, place],
        None => told(check_call(case.rounds, &case.net(), &room)),
    };
    let mut fields = vec![
        ("rounds", case.rounds.to_string()),
        ("tension", case.tension.to_string()),
        ("lengths", numbers(&lengths)),
        (
            "room",
            numbers(&[room.vertices, room.faces, room.marks, room.workspace]),
        ),
        ("asked", room.with_letters.to_string()),
        ("letters", room.letters.to_string()),
        ("verdict", numbers(&verdict)),
    ];
    if with_net && is_whole(case) {
        let start = start_net(&case.net());
        fields.push(("net_verdict", numbers(&told(start.map(drop)))));
    }
    let most_work = if case.sides.is_empty() {
        MOST_WORK
    } else {
        MOST_POLYGON_WORK
    };
    if with_net && room.workspace <= most_work && room.letters <= MOST_LETTERS {
        fields.extend(given_fields(case));
    }
    object(&fields)
}

/// The lent tables, with the letters by themselves, and the record of new points
/// before the call and after it, and what the call reports: the counts of
/// vertices and faces of an accepted net, or number and place of the refusal.
fn given_fields(case: &Case) -> [(&'static str, String); 7] {
    let before = case.tables(&mut Rng::new(0));
    let mut after = before.clone();
    let (outcome, tally) = case.outcome_in(&mut after);
    let (counts, refusal) = match outcome {
        Outcome::Refined { faces, marks, .. } => (vec![marks.len(), faces.len() / 4], vec![]),
        Outcome::Refused { reason, place } => (vec![], vec![reason, place]),
    };
    [
        ("given", tables_text(&before)),
        ("left", tables_text(&after)),
        ("given_letters", numbers(&before.letters)),
        ("left_letters", numbers(&after.letters)),
        ("tally", numbers(&[case.tally, tally])),
        ("counts", numbers(&counts)),
        ("refusal", numbers(&refusal)),
    ]
}

fn tables_text(tables: &Tables) -> String {
    list([
        numbers(&tables.vertices),
        numbers(&tables.faces),
        numbers(&tables.marks),
        numbers(&tables.workspace),
    ])
}

fn told(verdict: Result<(), Refusal>) -> Vec<u32> {
    verdict.map_or_else(|refusal| vec![refusal.reason, refusal.place], |()| vec![])
}

fn net_text(net: &Net) -> String {
    list([
        numbers(&net.vertex_table()),
        numbers(&net.face_table()),
        numbers(&net.marks),
    ])
}

/// The letters after each of these numbers of rounds, from a net with so many
/// drawn vertices.
fn letters_text(
    start: &Net,
    tension: Tension,
    control: usize,
    rounds: impl Iterator<Item = u32>,
) -> String {
    list(rounds.map(|k| {
        let (_, letters) = refine_with_letters(start.clone(), tension, control, k);
        numbers(&letter_table(&letters))
    }))
}

/// A new vertex of a round, a letter, and the point that the rule of this letter
/// gives there.
type Word = (usize, Letter, ExactPoint);

/// For each new vertex of a round the points that other letters than its own
/// name, and its own.
fn words(net: &Net, tension: Tension) -> Vec<Word> {
    let surface = Surface::new(net, tension);
    let edges = Topology::edges_in_order(&net.faces);
    let exact = |&(a, b): &(u32, u32)| (edge(a, b), surface.edge_point(a, b).exact);
    let edge_points: BTreeMap<_, _> = edges.iter().map(exact).collect();
    let old = net.points.len();
    let mut words = Vec::new();
    for (vertex, &(from, to)) in (old..).zip(&edges) {
        let letters: &[Letter] = if surface.topology().is_inner(from, to) {
            &[Letter::OneEdge, Letter::InnerEdge]
        } else {
            &[Letter::InsideSegment, Letter::EndEdge, Letter::OneEdge]
        };
        for &letter in letters {
            let point = surface.edge_point_by(letter, from, to);
            words.extend(point.map(|point| (vertex, letter, point)));
        }
    }
    for (vertex, &face) in (old + edges.len()..).zip(&net.faces) {
        for letter in [Letter::FaceFourInner, Letter::OtherFace] {
            let point = surface.face_point_by(letter, face, &edge_points);
            words.extend(point.map(|point| (vertex, letter, point)));
        }
    }
    words
}

/// Vertex, byte and rounded coordinates.
fn word_text((vertex, letter, point): &Word) -> String {
    let [x, y, z] = point.round().map(i64::from);
    let byte = i64::from(letter.byte());
    let vertex = i64::try_from(*vertex).expect("a small net");
    numbers(&[vertex, byte, x, y, z])
}

/// Every segment from each end and every unmarked loop from its lowest
/// vertex, both ways.
fn readings(net: &Net) -> Vec<Reading> {
    let boundary = Boundary::new(net);
    let is_kept = |reading: &Reading| {
        let vertices = boundary.vertices(*reading).expect("a listed reading");
        reading.form == Form::Open || vertices.iter().all(|&v| reading.start <= v)
    };
    boundary.readings().into_iter().filter(is_kept).collect()
}

/// A reading: its vertices in each of the nets, its points, and the rounded
/// and the exact curve after 1, 2, .. steps.
fn reading_text(nets: &[&Net], tension: Tension, reading: Reading) -> String {
    let read = |net: &&Net| {
        Boundary::new(net)
            .vertices(reading)
            .expect("a reading stays")
    };
    let points = Boundary::new(nets[0])
        .read(reading)
        .expect("a listed reading");
    let rounded = (1..=CURVE_STEPS).map(|k| rounded_curve(tension, reading.form, &points, k));
    let exact = (1..=CURVE_STEPS).map(|k| exact_curve(tension, reading.form, &points, k));
    object(&[
        ("start", reading.start.to_string()),
        ("with", (reading.way == Way::With).to_string()),
        ("open", (reading.form == Form::Open).to_string()),
        ("vertices", list(nets.iter().map(|net| numbers(&read(net))))),
        ("points", numbers(points.as_flattened())),
        (
            "rounded",
            list(rounded.map(|curve| numbers(curve.as_flattened()))),
        ),
        (
            "exact",
            list(exact.map(|curve| numbers(curve.as_flattened()))),
        ),
    ])
}

/// What the net and the rules used on it cover.
fn traits(net: &Net, steps: &[Step]) -> BTreeSet<String> {
    let mut traits = loop_traits(net);
    let topology = Topology::new(&net.faces).expect("an accepted net");
    for vertex in 0..to_u32(net.points.len()) {
        let star = topology.star(vertex).expect("an accepted net");
        let form = if star.is_ring() { "ring" } else { "fan" };
        traits.insert(format!("{form} {}", star.face_count()));
    }
    traits.extend(Met::of(net).features.iter().map(Feature::to_string));
    for point in steps.iter().take(1).flat_map(|step| &step.made) {
        traits.extend(rule_traits(point.rule));
    }
    traits
}

/// The boundary loops by their number of marks.
fn loop_traits(net: &Net) -> BTreeSet<String> {
    let loops = boundary_loops(net);
    let marks = |rim: &Vec<u32>| rim.iter().filter(|&&v| net.is_marked(v)).count();
    loops
        .iter()
        .map(|rim| match marks(rim) {
            0 => "loop without marks".to_owned(),
            1 => "loop with one mark".to_owned(),
            _ => "loop with two marks or more".to_owned(),
        })
        .collect()
}

fn rule_traits(rule: Rule) -> Vec<String> {
    match rule {
        Rule::BoundaryInside => vec!["edge inside a segment".to_owned()],
        Rule::EndEdge => vec!["end edge".to_owned()],
        Rule::OneEdge => vec!["segment of one edge".to_owned()],
        Rule::InnerEdge => vec!["inner edge".to_owned()],
        Rule::Face {
            neighbours,
            four_inner,
        } => {
            let used = match four_inner {
                Directions::First => "first direction alone",
                Directions::Second => "second direction alone",
                Directions::Both => "mean of two directions with four inner edges",
                Directions::Neither => "mean of two directions without four inner edges",
            };
            let direction = |n: &u8| format!("direction with {n} neighbours");
            let mut traits: Vec<String> = neighbours.iter().map(direction).collect();
            traits.push(used.to_owned());
            traits
        }
    }
}

fn object(fields: &[(&str, String)]) -> String {
    let fields: Vec<String> = fields
        .iter()
        .map(|(name, value)| format!("\"{name}\":{value}"))
        .collect();
    format!("{{{}}}", fields.join(","))
}

fn list(items: impl IntoIterator<Item = String>) -> String {
    format!("[{}]", items.into_iter().collect::<Vec<_>>().join(","))
}

fn numbers<T: Display>(values: &[T]) -> String {
    list(values.iter().map(T::to_string))
}

/// A text without quotes or escapes in it.
fn quoted(text: impl Display) -> String {
    format!("\"{text}\"")
}
