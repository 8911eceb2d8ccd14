//! The calls to compare, by kind.

use nets::accepted::{Shape, Size, accepted};
use nets::build::to_u32;
use nets::case::{Case, Expected};
use nets::change::{PLACINGS, mark, place, renumber};
use nets::damaged::{damaged_call, damaged_tables, random_tables};
use nets::kind::completed;
use nets::letters::{LetterTable, with_letter_table};
use nets::refused::{PLAIN_REASONS, refused_call};
use nets::rng::Rng;
use nets::shapes;
use nets::tally::{Figure, with_figure};
use nets::tension::fit_tension;
use reference::net::Net;
use reference::refusal::{Capacity, MAX_ROUNDS, Refusal};

use crate::lengths::{Table, brink, noise, other_lengths};

/// One net as large as a call allows for so many nets.
const NETS_PER_LARGEST: u64 = 10_000;

/// The rounds of the largest nets, in turn.
const LARGEST_ROUNDS: [u32; 4] = [6, 3, 4, 5];

/// Shapes that are drawn fast with up to 4,096 faces.
const LARGE: [Shape; 4] = [Shape::Grid, Shape::Holes, Shape::Annulus, Shape::Torus];

/// A kind of call.
#[derive(Clone, Copy, Debug)]
pub enum Kind {
    /// Accepted, with 262,144 refined faces after this many rounds.
    Largest(u32),
    /// Accepted, up to 3 rounds.
    Accepted(Shape, Size),
    /// Accepted, up to 4,096 faces.
    Large,
    /// Accepted, 4 to 6 rounds.
    Deep,
    /// Accepted but for one table, which is one entry short.
    Short(Table),
    /// With this reason for a refusal.
    Refused(u32),
    /// With a tension above 4 and another reason for a refusal.
    TensionAnd,
    /// With two or three reasons for a refusal.
    RefusedTwice,
    /// A sound net changed at random.
    Damaged,
    /// The same with up to 4,096 faces.
    DamagedLarge,
    /// A sound net with tables of other lengths.
    Lengths,
    /// Small random tables, up to 9 rounds.
    Random,
    /// Any lengths, any numbers.
    Noise,
    /// Counts at the limits or just beyond, any numbers.
    Brink,
}

impl Kind {
    /// The kind of a net in a series.
    pub fn of(number: u64) -> Kind {
        let at = |count: u64, length: usize| {
            usize::try_from(count % length as u64).expect("below a length")
        };
        if number.is_multiple_of(NETS_PER_LARGEST) {
            let turn = at(number / NETS_PER_LARGEST, LARGEST_ROUNDS.len());
            return Kind::Largest(LARGEST_ROUNDS[turn]);
        }
        let kinds = Kind::rotation();
        kinds[at(number, kinds.len())]
    }

    fn rotation() -> Vec<Kind> {
        let mut kinds = vec![Kind::Deep];
        for size in [Size::Small, Size::Medium] {
            kinds.extend(Shape::ALL.map(|shape| Kind::Accepted(shape, size)));
        }
        kinds.extend(Table::RESULTS.map(Kind::Short));
        kinds.push(Kind::Short(Table::Letters));
        kinds.extend(PLAIN_REASONS.map(Kind::Refused));
        kinds.extend([Kind::Large, Kind::Large, Kind::DamagedLarge, Kind::Brink]);
        kinds.extend([Kind::TensionAnd; 2]);
        kinds.extend([Kind::RefusedTwice, Kind::Damaged, Kind::Random].repeat(6));
        kinds.extend([Kind::Lengths, Kind::Noise].repeat(11));
        kinds
    }

    pub fn draw(self, rng: &mut Rng) -> Case {
        let case = self.draw_net(rng);
        match self {
            Kind::Largest(_) => with_all(case, rng),
            _ => completed(case, rng),
        }
    }

    fn draw_net(self, rng: &mut Rng) -> Case {
        let mut case = match self {
            Kind::Largest(rounds) => Case::new(&largest(rounds, rng), rounds, Expected::Accepted),
            Kind::Accepted(shape, size) => refined(&accepted(shape, size, rng), 1_024, rng),
            Kind::Large => refined(&accepted(rng.pick(&LARGE), Size::Large, rng), 4_096, rng),
            Kind::Deep => deep(rng),
            Kind::Short(table) => return short(sound_call(rng), table, rng),
            Kind::Refused(reason) => refused_call(&[reason], rng),
            Kind::TensionAnd => refused_call(&[16, rng.pick(&PLAIN_REASONS)], rng),
            Kind::RefusedTwice => {
                let reasons: Vec<u32> = (0..rng.between(2, 3))
                    .map(|_| rng.pick(&PLAIN_REASONS))
                    .collect();
                refused_call(&reasons, rng)
            }
            Kind::Damaged => damaged_tables(Size::Medium, rng),
            Kind::DamagedLarge => damaged_large(rng),
            Kind::Lengths => return other_lengths(sound_call(rng), rng),
            Kind::Random => random(random_tables(rng), rng),
            Kind::Noise => return noise(rng),
            Kind::Brink => return brink(rng),
        };
        fit_room(&mut case, rng);
        case
    }
}

/// A call up to the limit of the record, with letters, at any tension from 0 to 4.
pub fn with_all(case: Case, rng: &mut Rng) -> Case {
    let case = with_figure(case, Figure::ToLimit, rng);
    let case = with_letter_table(case, LetterTable::Exact, rng);
    fit_tension(case, rng)
}

/// Other lengths for the results that leave the answer as it is.
pub fn fit_room(case: &mut Case, rng: &mut Rng) {
    match case.expected {
        Expected::Refused(Refusal { reason: 4, .. }) => {}
        // given before the tables for the results are measured
        Expected::Refused(Refusal {
            reason: 1..=3 | 14, ..
        }) => {
            case.capacity = Capacity::for_refined_faces(rng.below(64));
        }
        _ => lengthen(case, rng),
    }
}

/// An accepted call, up to 3 rounds and this many refined faces.
fn refined(net: &Net, faces: usize, rng: &mut Rng) -> Case {
    let rounds = rng.below(most_rounds(net.faces.len(), 3, faces) as usize + 1);
    Case::new(net, to_u32(rounds), Expected::Accepted)
}

/// The most rounds, up to `most`, after which so many quadrilaterals have
/// become at most `faces`.
pub fn most_rounds(quadrilaterals: usize, most: u32, faces: usize) -> u32 {
    let fits = |rounds: &u32| quadrilaterals << (2 * rounds) <= faces;
    (0..=most).rev().find(fits).unwrap_or(0)
}

/// As many faces as this many rounds allow; with 3 rounds also as many
/// vertices as a call may have.
fn largest(rounds: u32, rng: &mut Rng) -> Net {
    let side = 512 >> rounds;
    let faces = side * side;
    let mut net = match rng.below(4) {
        _ if rounds == 3 => shapes::annulus(faces, 1),
        0 => shapes::grid(side, side),
        1 => shapes::skew_torus(faces, rng.between(2, (faces - 1) / 2)),
        2 => shapes::sectors(4, side / 2, false),
        _ => shapes::annulus(side, side),
    };
    place(&mut net, rng.pick(&PLACINGS), rng);
    mark(&mut net, rng);
    renumber(&net, rng).0
}

/// A net with few faces and many rounds.
fn deep(rng: &mut Rng) -> Case {
    let rounds = rng.pick(&[4, 4, 4, 5, 5, 6]);
    loop {
        let net = sound_net(rng);
        if most_rounds(net.faces.len(), MAX_ROUNDS, 4_096) >= rounds {
            return Case::new(&net, rounds, Expected::Accepted);
        }
    }
}

/// A small accepted net of one face or more.
fn sound_net(rng: &mut Rng) -> Net {
    loop {
        let net = accepted(rng.pick(&Shape::ALL), Size::Small, rng);
        if !net.faces.is_empty() {
            return net;
        }
    }
}

/// A call with such a net, up to 2 rounds.
fn sound_call(rng: &mut Rng) -> Case {
    let net = sound_net(rng);
    Case::new(&net, rng.between(0, 2).unsigned_abs(), Expected::Accepted)
}

/// The same with one table too short for it, of which letters are asked for.
pub fn short(mut case: Case, table: Table, rng: &mut Rng) -> Case {
    if table == Table::Letters {
        case = with_letter_table(case, LetterTable::Exact, rng);
    }
    let least = table.length(&case);
    lengthen(&mut case, rng);
    table.resize(&mut case, least - 1);
    case.expected = Expected::Refused(Refusal::new(4, 0));
    case
}

/// A large sound net changed at random and not refined.
fn damaged_large(rng: &mut Rng) -> Case {
    let net = accepted(rng.pick(&LARGE), Size::Large, rng);
    let mut case = damaged_call(&net, rng);
    case.rounds = 0;
    case.capacity = Capacity::for_refined_faces(case.faces.len().div_ceil(4));
    case
}

/// Random tables with up to 9 rounds; those for the results serve them half of
/// the time.
pub fn random(mut case: Case, rng: &mut Rng) -> Case {
    case.rounds = rng.between(0, 9).unsigned_abs();
    if case.rounds <= MAX_ROUNDS && rng.one_in(2) {
        case.capacity = Capacity::for_refined_faces(case.served_faces());
    }
    case
}

/// Makes some of the tables for the results longer.
fn lengthen(case: &mut Case, rng: &mut Rng) {
    for table in Table::RESULTS {
        let length = table.length(case) + rng.pick(&[0, 0, 1, 7, 100, 2_000]);
        table.resize(case, length);
    }
}
