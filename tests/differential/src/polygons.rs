//! The calls with side counts to compare, by kind.

use nets::accepted::{Size, dressed};
use nets::build::to_u32;
use nets::case::{Case, Expected};
use nets::change::PLACINGS;
use nets::damaged::{damaged_polygons, random_polygons};
use nets::kind::completed;
use nets::polygons::{PolygonShape, accepted_polygons, some_size};
use nets::refused::{POLYGON_REASONS, refused_polygons};
use nets::rng::Rng;
use nets::shapes::union;
use nets::solids;
use reference::refusal::{Capacity, MAX_ROUNDS};

use crate::draw::{fit_room, most_rounds, random, short, with_all};
use crate::lengths::{Table, other_lengths, polygon_brink, polygon_noise};

/// One net as large as a call allows for so many nets with side counts.
const NETS_PER_LARGEST: u64 = 5_000;

/// The rounds of the largest nets, in turn.
const LARGEST_ROUNDS: [u32; 4] = [3, 6, 5, 4];

/// Shapes with more than a few corners.
const LARGE: [PolygonShape; 4] = {
    use PolygonShape::{Cut, Merged, Quads, Remodelled};
    [Cut, Merged, Quads, Remodelled]
};

/// A kind of call with side counts.
#[derive(Clone, Copy, Debug)]
pub enum PolygonKind {
    /// Accepted, with 262,144 refined faces after this many rounds.
    Largest(u32),
    /// Accepted, up to 3 rounds.
    Accepted(PolygonShape, Size),
    /// Accepted, up to 4,096 corners.
    Large,
    /// Accepted, 4 or 5 rounds.
    Deep,
    /// Accepted but for one table, which is one entry short.
    Short(Table),
    /// With this reason for a refusal.
    Refused(u32),
    /// With bad side counts and this reason for a refusal.
    BadSidesAnd(u32),
    /// With a tension above 4 and another reason for a refusal.
    TensionAnd,
    /// With two or three reasons for a refusal.
    RefusedTwice,
    /// A sound net changed at random.
    Damaged,
    /// The same with up to 4,096 corners.
    DamagedLarge,
    /// A sound net with tables of other lengths.
    Lengths,
    /// Small random tables, up to 9 rounds.
    Random,
    /// Any lengths, any numbers.
    Noise,
    /// Counts at the limits or just beyond, any numbers.
    Brink,
}

impl PolygonKind {
    /// The kind of a net in a series.
    pub fn of(number: u64) -> PolygonKind {
        let at = |count: u64, length: usize| {
            usize::try_from(count % length as u64).expect("below a length")
        };
        if number.is_multiple_of(NETS_PER_LARGEST) {
            let turn = at(number / NETS_PER_LARGEST, LARGEST_ROUNDS.len());
            return PolygonKind::Largest(LARGEST_ROUNDS[turn]);
        }
        let kinds = PolygonKind::rotation();
        kinds[at(number, kinds.len())]
    }

    fn rotation() -> Vec<PolygonKind> {
        use PolygonKind::{
            Accepted, BadSidesAnd, Brink, Damaged, DamagedLarge, Deep, Large, Lengths, Noise,
            Random, Refused, RefusedTwice, Short, TensionAnd,
        };
        let mut kinds = vec![Deep, Large, DamagedLarge, Brink, Brink];
        for size in [Size::Small, Size::Medium] {
            kinds.extend(PolygonShape::ALL.map(|shape| Accepted(shape, size)));
        }
        kinds.extend(Table::RESULTS.map(Short));
        kinds.push(Short(Table::Letters));
        kinds.extend(POLYGON_REASONS.map(Refused));
        kinds.extend([1, 2, 2, 3, 4].map(BadSidesAnd));
        kinds.extend([TensionAnd; 3]);
        kinds.extend([RefusedTwice, Damaged, Random].repeat(6));
        kinds.extend([Lengths, Noise].repeat(8));
        kinds
    }

    pub fn draw(self, rng: &mut Rng) -> Case {
        let case = self.draw_net(rng);
        match self {
            PolygonKind::Largest(_) => with_all(case, rng),
            _ => completed(case, rng),
        }
    }

    fn draw_net(self, rng: &mut Rng) -> Case {
        let mut case = match self {
            PolygonKind::Largest(rounds) => largest(rounds, rng),
            PolygonKind::Accepted(shape, size) => accepted(shape, size, 1_024, rng),
            PolygonKind::Large => accepted(rng.pick(&LARGE), Size::Large, 4_096, rng),
            PolygonKind::Deep => deep(rng),
            PolygonKind::Short(table) => return short(sound_call(rng), table, rng),
            PolygonKind::Refused(reason) => refused_polygons(&[reason], rng),
            PolygonKind::BadSidesAnd(reason) => refused_polygons(&[reason, 14], rng),
            PolygonKind::TensionAnd => refused_polygons(&[16, rng.pick(&POLYGON_REASONS)], rng),
            PolygonKind::RefusedTwice => {
                let reasons: Vec<u32> = (0..rng.between(2, 3))
                    .map(|_| rng.pick(&POLYGON_REASONS))
                    .collect();
                refused_polygons(&reasons, rng)
            }
            PolygonKind::Damaged => {
                damaged_polygons(rng.pick(&PolygonShape::ALL), Size::Small, rng)
            }
            PolygonKind::DamagedLarge => damaged_large(rng),
            PolygonKind::Lengths => return other_lengths(sound_call(rng), rng),
            PolygonKind::Random => random(random_polygons(rng), rng),
            PolygonKind::Noise => return polygon_noise(rng),
            PolygonKind::Brink => return polygon_brink(rng),
        };
        fit_room(&mut case, rng);
        case
    }
}

/// An accepted call, up to 3 rounds and this many refined faces.
fn accepted(shape: PolygonShape, size: Size, faces: usize, rng: &mut Rng) -> Case {
    let net = accepted_polygons(shape, size, rng);
    let most = most_rounds(net.corners().count(), 3, faces) as usize;
    Case::with_sides(&net, to_u32(rng.below(most + 1)), Expected::Accepted)
}

/// A call with a small net, up to 1 round.
fn sound_call(rng: &mut Rng) -> Case {
    let net = accepted_polygons(rng.pick(&PolygonShape::ALL), Size::Small, rng);
    Case::with_sides(&net, to_u32(rng.below(2)), Expected::Accepted)
}

/// A net with few corners and many rounds.
fn deep(rng: &mut Rng) -> Case {
    let rounds = rng.pick(&[4, 4, 5]);
    loop {
        let net = accepted_polygons(rng.pick(&PolygonShape::ALL), Size::Small, rng);
        if most_rounds(net.corners().count(), MAX_ROUNDS, 5_120) >= rounds {
            return Case::with_sides(&net, rounds, Expected::Accepted);
        }
    }
}

/// As many corners as this many rounds allow, in separate faces and in a prism.
fn largest(rounds: u32, rng: &mut Rng) -> Case {
    let corners: u32 = 262_144 >> (2 * rounds);
    let prism = solids::prism(8);
    let mut left = corners - to_u32(prism.corners().count());
    let mut sizes = Vec::new();
    while left > 0 {
        let size = match left {
            3..=8 => left,
            _ => some_size(rng).min(left - 3),
        };
        sizes.push(size);
        left -= size;
    }
    let net = union(prism, &solids::separate(&sizes));
    let net = dressed(net, rng.pick(&PLACINGS), rng);
    Case::with_sides(&net, rounds, Expected::Accepted)
}

/// A large sound net changed at random and not refined.
fn damaged_large(rng: &mut Rng) -> Case {
    let mut case = damaged_polygons(rng.pick(&LARGE), Size::Large, rng);
    case.rounds = 0;
    case.capacity = Capacity::for_refined_faces(case.served_faces());
    case
}
