//! Seam tests: two nets with a start each and a work table, that match or are
//! spoiled at one place.

use reference::curve::Form;
use reference::net::PolygonNet;
use reference::refusal::Refusal;
use reference::rules::Tension;
use reference::seamtest::{SeamSide, test_seam};

use crate::build::to_u32;
use crate::case::{Case, ControlNet, Expected, filled_words};
use crate::change::{LIMIT, boundary_loops};
use crate::damaged::{random_polygons, random_tables};
use crate::pairs::{MatchingPair, mirror, remodelled, segment, some_points};
use crate::refused::{PLAIN_REASONS, POLYGON_REASONS, refused_call, refused_polygons};
use crate::rng::Rng;
use crate::tension::{TOO_LARGE, some_tension};
use crate::{shapes, solids};

/// What the maker of a seam test knows of its answer.
#[derive(Clone, Copy, Debug, PartialEq, Eq)]
pub enum SeamExpected {
    /// So many edges match.
    Matches(usize),
    Refused(Refusal),
    Unknown,
}

impl SeamExpected {
    pub fn agrees_with(self, answer: Result<usize, Refusal>) -> bool {
        match self {
            SeamExpected::Matches(edges) => answer == Ok(edges),
            SeamExpected::Refused(refusal) => answer == Err(refusal),
            SeamExpected::Unknown => true,
        }
    }
}

fn refused(reason: u32, place: usize) -> SeamExpected {
    SeamExpected::Refused(Refusal::new(reason, to_u32(place)))
}

/// A seam test with all its tables; the work table is given by its length.
#[derive(Clone, Debug)]
pub struct SeamCase {
    /// The two nets with their tensions, as calls of zero rounds.
    pub nets: [Case; 2],
    pub starts: [u32; 2],
    pub workspace: usize,
    pub expected: SeamExpected,
}

impl SeamCase {
    /// A work table with random contents.
    pub fn work_table(&self, rng: &mut Rng) -> Vec<u32> {
        filled_words(self.workspace, rng)
    }

    /// The reference's answer, and in `workspace` the final state of the work
    /// table.
    pub fn outcome_in(&self, workspace: &mut Vec<u32>) -> Result<usize, Refusal> {
        let [first, second] = [0, 1].map(|at| SeamSide {
            net: self.nets[at].net(),
            start: self.starts[at],
        });
        test_seam(&first, &second, workspace)
    }

    /// The least work table that serves each of the nets.
    pub fn least_work(&self) -> [usize; 2] {
        self.nets.each_ref().map(|net| 16 * net.quadrilaterals())
    }

    /// Lengthens the work table until it serves both nets, or a little more.
    fn with_room(mut self, rng: &mut Rng) -> Self {
        let [first, second] = self.least_work();
        self.workspace = first.max(second) + rng.pick(&[0, 0, 1, 7, 100]);
        self
    }
}

named_cases! {
    /// One of the two nets.
    pub enum Which {
        First = "first",
        Second = "second",
    }
}

named_cases! {
    /// Pairs that match.
    pub enum Match {
        /// Without side counts.
        Plain = "plain",
        /// With side counts in both nets, and other faces behind the segment.
        Counts = "counts",
        OneEdge = "one-edge",
        /// One mark on each loop.
        Round = "round",
        /// The same with side counts.
        RoundCounts = "round-counts",
        /// One mark on the loop of one net, two on that of the other.
        RoundAgainstPart = "round-against-part",
        /// The same net twice, which reads the same both ways.
        Mirrored = "mirrored",
        /// Hundreds or thousands of edges.
        Long = "long",
    }
}

named_cases! {
    /// A step of a segment.
    pub enum Step {
        First = "first",
        Middle = "middle",
        Last = "last",
    }
}

named_cases! {
    /// What is done to the marks of one net.
    pub enum MarkChange {
        /// The last is taken away, so that the segment is longer.
        Missing = "missing",
        /// One is put between the ends.
        Early = "early",
        /// Both.
        Moved = "moved",
    }
}

named_cases! {
    /// Starts that are no marked vertex.
    pub enum BadStart {
        AtEnd = "at-v",
        Largest = "largest",
        /// On a loop that has marks.
        Unmarked = "unmarked",
        Inside = "inside",
        OnUnmarkedLoop = "on-unmarked-loop",
    }
}

named_cases! {
    /// Tensions that are not equal, or too large.
    pub enum Tensions {
        Different = "different",
        /// The segments differ too.
        DifferentAndStep = "different-and-step",
        DifferentAndStart = "different-and-start",
        TooLargeFirst = "too-large-first",
        TooLargeSecond = "too-large-second",
        TooLargeAndStart = "too-large-and-start",
    }
}

named_cases! {
    /// Nets that have side counts.
    pub enum Counts {
        FirstOnly = "first-only",
        SecondOnly = "second-only",
        /// All fours in the first net, none in the second.
        FoursFirst = "fours-first",
        FoursSecond = "fours-second",
        /// All fours in both.
        FoursBoth = "fours-both",
    }
}

named_cases! {
    /// Work tables that are too short.
    pub enum ShortWork {
        /// One number too short for the larger net, which is the first.
        LargerFirst = "larger-first",
        LargerSecond = "larger-second",
        /// One number too short for the smaller net.
        Smaller = "smaller",
        /// One number too short for nets of one size.
        Equal = "equal",
        Empty = "empty",
    }
}

named_cases! {
    /// Pairs that are not spoiled at one place.
    pub enum Other {
        EmptyFirst = "empty-first",
        EmptySecond = "empty-second",
        EmptyBoth = "empty-both",
        /// The same net twice, from one start.
        SameNet = "same-net",
        /// The same net twice, from both ends of a segment.
        SameSegment = "same-segment",
        BothStarts = "both-starts",
        /// Both nets refused, the first with the higher number.
        HigherFirst = "refused-higher-first",
        LowerFirst = "refused-lower-first",
        /// A pair that matches, changed at random.
        Damaged = "damaged",
        /// Small random tables.
        Random = "random",
    }
}

/// A kind of seam test.
#[derive(Clone, Copy, Debug, PartialEq, Eq)]
pub enum SeamKind {
    Match(Match),
    /// One coordinate off by one, on this axis.
    Coordinate(Which, Step, usize),
    Mark(Which, MarkChange),
    Start(Which, BadStart),
    Tensions(Tensions),
    Counts(Counts),
    ShortWork(ShortWork),
    /// One net with this reason for a refusal, with side counts or without.
    Refused(Which, u32, bool),
    Other(Other),
}

impl SeamKind {
    pub fn all() -> Vec<SeamKind> {
        let mut kinds = Match::ALL.map(SeamKind::Match).to_vec();
        for which in Which::ALL {
            for step in Step::ALL {
                kinds.extend([0, 1, 2].map(|axis| SeamKind::Coordinate(which, step, axis)));
            }
            kinds.extend(MarkChange::ALL.map(|change| SeamKind::Mark(which, change)));
            kinds.extend(BadStart::ALL.map(|start| SeamKind::Start(which, start)));
            let kind = |reason, with_sides| SeamKind::Refused(which, reason, with_sides);
            kinds.extend(alone(&PLAIN_REASONS).map(|reason| kind(reason, false)));
            kinds.extend(alone(&POLYGON_REASONS).map(|reason| kind(reason, true)));
        }
        kinds.extend(Tensions::ALL.map(SeamKind::Tensions));
        kinds.extend(Counts::ALL.map(SeamKind::Counts));
        kinds.extend(ShortWork::ALL.map(SeamKind::ShortWork));
        kinds.extend(Other::ALL.map(SeamKind::Other));
        kinds
    }

    /// All kinds; those that match, but for the longest, come more often.
    pub fn rotation() -> Vec<SeamKind> {
        let often = Match::ALL.into_iter().filter(|&kind| kind != Match::Long);
        let often: Vec<SeamKind> = often.map(SeamKind::Match).collect();
        [SeamKind::all(), often.repeat(2)].concat()
    }

    pub fn named(name: &str) -> Option<SeamKind> {
        let mut kinds = SeamKind::all().into_iter();
        kinds.find(|kind| kind.name() == name)
    }

    pub fn name(self) -> String {
        match self {
            SeamKind::Match(kind) => format!("match-{}", kind.name()),
            SeamKind::Coordinate(which, step, axis) => {
                format!("coordinate-{}-{}-{axis}", which.name(), step.name())
            }
            SeamKind::Mark(which, change) => format!("mark-{}-{}", which.name(), change.name()),
            SeamKind::Start(which, start) => format!("start-{}-{}", which.name(), start.name()),
            SeamKind::Tensions(tensions) => format!("tensions-{}", tensions.name()),
            SeamKind::Counts(counts) => format!("counts-{}", counts.name()),
            SeamKind::ShortWork(work) => format!("short-work-{}", work.name()),
            SeamKind::Refused(which, reason, with_sides) => {
                let sides = if with_sides { "-counts" } else { "" };
                format!("refused-{}-{reason:02}{sides}", which.name())
            }
            SeamKind::Other(other) => other.name().to_owned(),
        }
    }

    pub fn make(self, seed: u64) -> SeamCase {
        self.draw(&mut Rng::new(seed))
    }

    pub fn draw(self, rng: &mut Rng) -> SeamCase {
        match self {
            SeamKind::Match(kind) => matching(kind, rng).case,
            SeamKind::Coordinate(which, step, axis) => coordinate(which, step, axis, rng),
            SeamKind::Mark(which, change) => mark_changed(which, change, rng),
            SeamKind::Start(which, start) => bad_start(which, start, rng),
            SeamKind::Tensions(tensions) => with_tensions(tensions, rng),
            SeamKind::Counts(counts) => with_counts(counts, rng),
            SeamKind::ShortWork(work) => short_work(work, rng),
            SeamKind::Refused(which, reason, with_sides) => {
                refused_net(which, reason, with_sides, rng)
            }
            SeamKind::Other(other) => other_case(other, rng),
        }
    }
}

/// The reasons of a call of zero rounds that are not the work table's; 1 and 15
/// cannot come.
fn alone(reasons: &[u32]) -> impl Iterator<Item = u32> {
    let others = reasons.iter().copied();
    others.filter(|reason| ![1, 4, 15].contains(reason))
}

/// A pair that matches, to be spoiled.
struct Draft {
    nets: [PolygonNet; 2],
    /// The vertices of the segment in each net.
    segments: [Vec<u32>; 2],
    case: SeamCase,
}

impl Draft {
    fn new(pair: MatchingPair, rng: &mut Rng) -> Self {
        let tension = some_tension(rng);
        let edges = pair.segments[0].len() - 1;
        let case = SeamCase {
            nets: (pair.nets.each_ref()).map(|net| net.accepted_case(tension, 0)),
            starts: pair.segments.each_ref().map(|segment| segment[0]),
            workspace: 0,
            expected: SeamExpected::Matches(edges),
        };
        Self {
            nets: pair.nets.each_ref().map(ControlNet::polygons),
            segments: pair.segments,
            case: case.with_room(rng),
        }
    }

    /// A random pair, with side counts in both nets or in none.
    fn any(rng: &mut Rng) -> Self {
        let with_sides = rng.one_in(3);
        Self::of_nets([with_sides; 2], rng)
    }

    fn of_nets(with_sides: [bool; 2], rng: &mut Rng) -> Self {
        let points = segment(Form::Open, rng);
        Self::new(MatchingPair::draw(&points, with_sides, rng), rng)
    }

    fn edges(&self) -> usize {
        self.segments[0].len() - 1
    }

    /// Whether the segment has steps between its ends, which are two vertices in
    /// this net.
    fn has_middle(&self, which: Which) -> bool {
        let segment = &self.segments[which as usize];
        self.edges() > 1 && segment[0] != segment[self.edges()]
    }

    fn some_middle(&self, rng: &mut Rng) -> usize {
        1 + rng.below(self.edges() - 1)
    }

    fn set_mark(&mut self, which: Which, step: usize, mark: u8) {
        let vertex = self.segments[which as usize][step];
        self.case.nets[which as usize].marks[vertex as usize] = mark;
    }

    /// Moves the point of a step by one count, within the limit.
    fn move_step(&mut self, which: Which, step: usize, axis: usize, rng: &mut Rng) {
        let vertex = self.segments[which as usize][step] as usize;
        let value = &mut self.case.nets[which as usize].vertices[3 * vertex + axis];
        *value += match *value {
            LIMIT => -1,
            low if low == -LIMIT => 1,
            _ => rng.pick(&[-1, 1]),
        };
    }
}

/// The first draft for which this holds.
fn until(draw: impl Fn(&mut Rng) -> Draft, holds: impl Fn(&Draft) -> bool, rng: &mut Rng) -> Draft {
    loop {
        let draft = draw(rng);
        if holds(&draft) {
            return draft;
        }
    }
}

fn matching(kind: Match, rng: &mut Rng) -> Draft {
    let pair = match kind {
        Match::Plain => return Draft::of_nets([false; 2], rng),
        Match::Counts => return Draft::of_nets([true; 2], rng),
        Match::OneEdge => {
            let with_sides = rng.one_in(2);
            MatchingPair::draw(&some_points(2, rng), [with_sides; 2], rng)
        }
        Match::Round | Match::RoundCounts => round(kind == Match::RoundCounts, rng),
        Match::RoundAgainstPart => {
            let one_mark = |draft: &Draft, at: usize| {
                draft.segments[at][0] == draft.segments[at][draft.edges()]
            };
            let is_wanted = |draft: &Draft| one_mark(draft, 0) != one_mark(draft, 1);
            return until(Draft::any, is_wanted, rng);
        }
        Match::Mirrored => return mirrored(rng),
        Match::Long => long(rng),
    };
    Draft::new(pair, rng)
}

/// So many points from one to itself again.
fn round_points(edges: usize, rng: &mut Rng) -> Vec<[i32; 3]> {
    let mut points = some_points(edges, rng);
    points.push(points[0]);
    points
}

/// Nets with one mark on the loop of the segment: bands, strips, single faces.
fn round(with_sides: bool, rng: &mut Rng) -> MatchingPair {
    if with_sides {
        let edges = rng.between(3, 8);
        let points = round_points(edges.unsigned_abs() as usize, rng);
        let nets = [(); 2].map(|()| match rng.below(2) {
            0 => solids::separate(&[edges.unsigned_abs()]),
            _ => remodelled(&shapes::annulus(edges, rng.between(1, 2)), rng),
        });
        return MatchingPair::round(nets, &points, rng);
    }
    let half = rng.between(2, 6);
    let points = round_points(2 * half.unsigned_abs() as usize, rng);
    let nets = [(); 2].map(|()| match rng.below(2) {
        0 => shapes::grid(half - 1, 1),
        _ => shapes::annulus(2 * half, rng.between(1, 2)),
    });
    MatchingPair::round(nets, &points, rng)
}

/// As long as nets of up to 4,096 faces and 8,192 vertices allow, with side
/// counts of up to 4,096 corners, or a part of that.
fn long(rng: &mut Rng) -> MatchingPair {
    let (with_sides, most): (bool, i32) =
        rng.pick(&[(false, 8_192), (false, 4_096), (true, 2_048), (true, 1_024)]);
    let edges = most / rng.pick(&[1, 1, 2, 16]);
    let points = round_points(edges.unsigned_abs() as usize, rng);
    let strip = shapes::grid(edges / 2 - 1, 1);
    let most_around = if with_sides { 1_024 } else { 4_096 };
    let second = if edges <= most_around {
        shapes::annulus(edges, 1)
    } else {
        strip.clone()
    };
    let mut nets = [strip, second];
    rng.shuffle(&mut nets);
    if with_sides {
        MatchingPair::round(nets.map(|net| PolygonNet::from(&net)), &points, rng)
    } else {
        MatchingPair::round(nets, &points, rng)
    }
}

/// One net as both, with one mark on the loop and points that are the same both
/// ways.
fn mirrored(rng: &mut Rng) -> Draft {
    let mut points = round_points(rng.between(4, 9).unsigned_abs() as usize, rng);
    mirror(&mut points);
    let edges = i32::try_from(points.len() - 1).expect("few");
    let pair = if rng.one_in(2) {
        let net = remodelled(&shapes::annulus(edges, 1), rng);
        MatchingPair::round([net.clone(), net], &points, rng)
    } else {
        let net = shapes::annulus(edges, rng.between(1, 2));
        MatchingPair::round([net.clone(), net], &points, rng)
    };
    same_twice(Draft::new(pair, rng))
}

/// The first net as both, from the same start.
fn same_twice(mut draft: Draft) -> Draft {
    let case = &mut draft.case;
    case.nets[1] = case.nets[0].clone();
    case.starts[1] = case.starts[0];
    draft
}

fn coordinate(which: Which, step: Step, axis: usize, rng: &mut Rng) -> SeamCase {
    let mut draft = until(Draft::any, |draft| draft.has_middle(which), rng);
    let step = match step {
        Step::First => 0,
        Step::Middle => draft.some_middle(rng),
        Step::Last => draft.edges(),
    };
    draft.move_step(which, step, axis, rng);
    draft.case.expected = refused(18, step);
    draft.case
}

fn mark_changed(which: Which, change: MarkChange, rng: &mut Rng) -> SeamCase {
    let mut draft = until(Draft::any, |draft| draft.has_middle(which), rng);
    let (middle, last) = (draft.some_middle(rng), draft.edges());
    if change != MarkChange::Early {
        draft.set_mark(which, last, 0);
    }
    if change != MarkChange::Missing {
        draft.set_mark(which, middle, 1);
    }
    let is_longer = change == MarkChange::Missing;
    draft.case.expected = refused(18, if is_longer { last } else { middle });
    draft.case
}

/// A start of this sort in the net, if there is one.
fn start_in(net: &PolygonNet, start: BadStart, rng: &mut Rng) -> Option<u32> {
    let rims = boundary_loops(net);
    let has_marks = |rim: &&Vec<u32>| rim.iter().any(|&vertex| net.is_marked(vertex));
    let vertices = to_u32(net.points.len());
    let starts: Vec<u32> = match start {
        BadStart::AtEnd => vec![vertices],
        BadStart::Largest => vec![u32::MAX],
        BadStart::Unmarked => {
            let on_rims = rims.iter().filter(has_marks).flatten().copied();
            on_rims.filter(|&vertex| !net.is_marked(vertex)).collect()
        }
        BadStart::Inside => {
            let is_inside = |vertex: &u32| !rims.iter().any(|rim| rim.contains(vertex));
            (0..vertices).filter(is_inside).collect()
        }
        BadStart::OnUnmarkedLoop => {
            let unmarked = rims.iter().filter(|rim| !has_marks(rim));
            unmarked.flatten().copied().collect()
        }
    };
    (!starts.is_empty()).then(|| rng.pick(&starts))
}

fn bad_start(which: Which, start: BadStart, rng: &mut Rng) -> SeamCase {
    loop {
        let mut draft = Draft::any(rng);
        if let Some(start) = start_in(&draft.nets[which as usize], start, rng) {
            draft.case.starts[which as usize] = start;
            draft.case.expected = refused(17, which as usize + 1);
            return draft.case;
        }
    }
}

/// A start beyond the vertices of the first net.
fn spoil_start(draft: &mut Draft, rng: &mut Rng) {
    let beyond = to_u32(rng.below(9));
    draft.case.starts[0] = to_u32(draft.nets[0].points.len()) + beyond;
}

fn with_tensions(tensions: Tensions, rng: &mut Rng) -> SeamCase {
    let mut draft = Draft::any(rng);
    let first = some_tension(rng).number();
    let other = (first + 1 + to_u32(rng.below(4))) % 5;
    let too_large = rng.pick(&TOO_LARGE);
    let (values, expected) = match tensions {
        Tensions::Different => ([first, other], refused(18, 0)),
        Tensions::DifferentAndStep => {
            let last = draft.edges();
            draft.move_step(Which::Second, last, 0, rng);
            (rng.pick(&[[3, 4], [4, 3], [first, other]]), refused(18, 0))
        }
        Tensions::DifferentAndStart => {
            spoil_start(&mut draft, rng);
            ([first, other], refused(17, 1))
        }
        Tensions::TooLargeFirst => ([too_large, first], refused(16, 0)),
        Tensions::TooLargeSecond => ([first, too_large], refused(16, 0)),
        Tensions::TooLargeAndStart => {
            spoil_start(&mut draft, rng);
            (rng.pick(&[[first, 5], [5, first], [5, 5]]), refused(16, 0))
        }
    };
    for (net, tension) in draft.case.nets.iter_mut().zip(values) {
        net.tension = tension;
    }
    draft.case.expected = expected;
    draft.case
}

fn with_counts(counts: Counts, rng: &mut Rng) -> SeamCase {
    let with_sides = [counts == Counts::FirstOnly, counts == Counts::SecondOnly];
    let mut draft = Draft::of_nets(with_sides, rng);
    let fours = match counts {
        Counts::FoursFirst => [true, false],
        Counts::FoursSecond => [false, true],
        _ => [counts == Counts::FoursBoth; 2],
    };
    for (net, has_fours) in draft.case.nets.iter_mut().zip(fours) {
        if has_fours {
            net.sides = vec![4; net.faces.len() / 4];
        }
    }
    if counts != Counts::FoursBoth {
        draft.case.expected = refused(18, 0);
    }
    draft.case.with_room(rng)
}

fn short_work(work: ShortWork, rng: &mut Rng) -> SeamCase {
    let is_wanted = |draft: &Draft| {
        let [first, second] = draft.case.least_work();
        match work {
            ShortWork::LargerFirst => first > second,
            ShortWork::LargerSecond => first < second,
            ShortWork::Smaller => first != second,
            ShortWork::Equal => first == second,
            ShortWork::Empty => true,
        }
    };
    let mut case = until(Draft::any, is_wanted, rng).case;
    let [first, second] = case.least_work();
    case.workspace = match work {
        ShortWork::LargerFirst | ShortWork::LargerSecond => first.max(second) - 1,
        ShortWork::Smaller | ShortWork::Equal => first.min(second) - 1,
        ShortWork::Empty => 0,
    };
    case.expected = refused(4, 0);
    case
}

/// A net by itself with this reason for a refusal, as a call of zero rounds.
fn refused_alone(reason: u32, with_sides: bool, rng: &mut Rng) -> Case {
    loop {
        let case = if with_sides {
            refused_polygons(&[reason], rng)
        } else {
            refused_call(&[reason], rng)
        };
        // after rounds there may be too many faces, which is not looked for here
        if reason != 3 || case.rounds == 0 {
            return Case { rounds: 0, ..case };
        }
    }
}

/// What is known of a test with this net as the first that is refused.
fn as_refused(case: &Case) -> SeamExpected {
    match case.expected {
        Expected::Refused(refusal) => SeamExpected::Refused(refusal),
        _ => SeamExpected::Unknown,
    }
}

fn refused_net(which: Which, reason: u32, with_sides: bool, rng: &mut Rng) -> SeamCase {
    let mut case = Draft::any(rng).case;
    let bad = refused_alone(reason, with_sides, rng);
    case.expected = as_refused(&bad);
    case.starts[which as usize] = to_u32(rng.below(9));
    case.nets[which as usize] = bad;
    case.with_room(rng)
}

/// Both nets refused, with different numbers.
fn refused_nets(is_higher_first: bool, rng: &mut Rng) -> SeamCase {
    let reasons: Vec<(u32, bool)> = alone(&PLAIN_REASONS)
        .map(|reason| (reason, false))
        .chain(alone(&POLYGON_REASONS).map(|reason| (reason, true)))
        .collect();
    loop {
        let [first, second] = [(); 2].map(|()| rng.pick(&reasons));
        if first.0 != second.0 && (first.0 > second.0) == is_higher_first {
            let nets = [first, second].map(|(reason, sides)| refused_alone(reason, sides, rng));
            let case = SeamCase {
                expected: as_refused(&nets[0]),
                nets,
                starts: [0; 2],
                workspace: 0,
            };
            return case.with_room(rng);
        }
    }
}

fn other_case(other: Other, rng: &mut Rng) -> SeamCase {
    match other {
        Other::EmptyFirst => with_empty([true, false], rng),
        Other::EmptySecond => with_empty([false, true], rng),
        Other::EmptyBoth => with_empty([true; 2], rng),
        Other::SameNet => {
            let mut case = same_twice(Draft::any(rng)).case;
            case.expected = SeamExpected::Unknown;
            case.with_room(rng)
        }
        Other::SameSegment => same_segment(rng),
        Other::BothStarts => {
            let mut case = bad_start(Which::Second, rng.pick(&BadStart::ALL), rng);
            let vertices = to_u32(case.nets[0].marks.len());
            case.starts[0] = rng.pick(&[vertices, vertices + 1, u32::MAX]);
            case.expected = refused(17, 1);
            case
        }
        Other::HigherFirst => refused_nets(true, rng),
        Other::LowerFirst => refused_nets(false, rng),
        Other::Damaged => damaged(rng),
        Other::Random => random(rng),
    }
}

/// One net as both, the segment from its start and from its end.
fn same_segment(rng: &mut Rng) -> SeamCase {
    let mut draft = same_twice(until(
        Draft::any,
        |draft| draft.has_middle(Which::First),
        rng,
    ));
    let segment = &draft.segments[0];
    let point = |step: usize| draft.nets[0].point(segment[step]);
    let last = draft.edges();
    let differing = (0..=last).find(|&step| point(step) != point(last - step));
    draft.case.starts[1] = segment[last];
    draft.case.expected = match differing {
        Some(step) => refused(18, step),
        None => SeamExpected::Matches(last),
    };
    draft.case.with_room(rng)
}

fn with_empty(is_empty: [bool; 2], rng: &mut Rng) -> SeamCase {
    let mut case = Draft::any(rng).case;
    for (net, is_empty) in case.nets.iter_mut().zip(is_empty) {
        if is_empty {
            net.vertices.clear();
            net.faces.clear();
            net.sides.clear();
            net.marks.clear();
        }
    }
    case.expected = refused(17, if is_empty[0] { 1 } else { 2 });
    case.with_room(rng)
}

/// Changes one to three numbers, anywhere.
fn damaged(rng: &mut Rng) -> SeamCase {
    let mut case = Draft::any(rng).case;
    for _ in 0..rng.between(1, 3) {
        let at = rng.below(2);
        let net = &mut case.nets[at];
        match rng.below(8) {
            0 => change(&mut net.vertices, |value| value - 1, rng),
            1 => change(&mut net.vertices, |_| LIMIT + 1, rng),
            2 => change(&mut net.faces, |corner| corner + 1, rng),
            3 => change(&mut net.sides, |count| count + 1, rng),
            4 => change(&mut net.marks, |mark| 1 - mark.min(1), rng),
            5 => net.tension = rng.pick(&[0, 1, 2, 3, 4, 5]),
            6 => case.starts[at] = to_u32(rng.below(net.marks.len() + 1)),
            _ => case.workspace = case.workspace.saturating_sub(rng.pick(&[1, 16, 64])),
        }
    }
    case.expected = SeamExpected::Unknown;
    case
}

fn change<T: Copy>(table: &mut [T], by: impl Fn(T) -> T, rng: &mut Rng) {
    if !table.is_empty() {
        let at = rng.below(table.len());
        table[at] = by(table[at]);
    }
}

fn random(rng: &mut Rng) -> SeamCase {
    let nets = [(); 2].map(|()| {
        let case = match rng.below(2) {
            0 => random_tables(rng),
            _ => random_polygons(rng),
        };
        Case {
            rounds: 0,
            tension: Tension::OLD.number(),
            ..case
        }
    });
    let case = SeamCase {
        nets,
        starts: [(); 2].map(|()| to_u32(rng.below(6))),
        workspace: 0,
        expected: SeamExpected::Unknown,
    };
    case.with_room(rng)
}
