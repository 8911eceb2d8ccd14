//! The seam test through the safe functions: answers, their order, and what is left in the work table.

use gedrovit::{lengths, share_seam, Net, Reason, Refusal, MAX_TENSION};

/// What the work table holds before a call.
const FILL: u32 = 0xA5A5_A5A5;

/// A sheet of squares with its four corners marked. Its vertices of one row, the first or the last, lie on the seam.
fn sheet(columns: u32, rows: u32, seam: u32) -> Net {
    let across = columns + 1;
    let points = (0..across * (rows + 1)).flat_map(|v| {
        let (x, off) = ((v % across) as i32, (v / across) as i32 - seam as i32);
        [10 * x, 10 * off, 7 * x % 5 + 3 * off]
    });
    let first = (0..rows).flat_map(|y| (0..columns).map(move |x| y * across + x));
    let corners = first.flat_map(|v| [v, v + 1, v + across + 1, v + across]);
    let mut marks = vec![0; (across * (rows + 1)) as usize];
    for corner in [0, columns, across * rows, across * rows + columns] {
        marks[corner as usize] = 1;
    }
    Net::new(points.collect(), corners.collect(), marks)
}

/// Two nets on both sides of a seam, with their starts.
#[derive(Clone, Debug)]
struct Pair {
    a: Net,
    start_a: u32,
    b: Net,
    start_b: u32,
}

impl Pair {
    /// With a seam of this many edges: the first row of the first net, the last of the second, which has two rows of faces.
    fn new(edges: u32) -> Self {
        Self {
            a: sheet(edges, 1, 0),
            start_a: 0,
            b: sheet(edges, 2, 2),
            start_b: 2 * (edges + 1),
        }
    }

    /// The answer, by the call that allocates and by the other.
    fn answer(&self) -> Result<usize, Refusal> {
        let answer = self.a.shares_with(self.start_a, &self.b, self.start_b);
        assert_eq!(self.answer_by(&mut vec![FILL; 4096]), answer);
        answer
    }

    fn answer_by(&self, work: &mut [u32]) -> Result<usize, Refusal> {
        let (a, b) = (self.a.view(), self.b.view());
        share_seam(a, self.start_a, b, self.start_b, work)
    }
}

fn refused(reason: Reason, place: usize) -> Result<usize, Refusal> {
    Err(Refusal { reason, place })
}

type Change = fn(&mut Pair);

/// The pair with a change.
fn changed(edges: u32, change: impl Fn(&mut Pair)) -> Pair {
    let mut pair = Pair::new(edges);
    change(&mut pair);
    pair
}

#[test]
fn a_yes_tells_the_edges() {
    for edges in 1..=9 {
        assert_eq!(Pair::new(edges).answer(), Ok(edges as usize));
    }
}

#[test]
fn side_counts_on_both_nets_leave_the_edges_as_drawn() {
    let pair = changed(4, |pair| {
        pair.a.sides = vec![4; 4];
        pair.b.sides = vec![4; 8];
    });
    assert_eq!(pair.answer(), Ok(4));
}

#[test]
fn with_one_mark_the_segment_runs_round_the_loop() {
    // A square and the same square turned over.
    let square = Net::new(
        vec![0, 0, 0, 16, 0, 0, 16, 16, 0, 0, 16, 0],
        vec![0, 1, 2, 3],
        vec![1, 0, 0, 0],
    );
    let mut turned = square.clone();
    turned.faces.reverse();
    assert_eq!(square.shares_with(0, &turned, 0), Ok(4));
    assert_eq!(
        square.shares_with(0, &square, 0),
        refused(Reason::SeamMismatch, 1)
    );
}

#[test]
fn a_start_is_a_marked_vertex() {
    // Unmarked, inside, the number of vertices, the largest.
    let bad = [(1, 1), (3, 6), (10, 15), (u32::MAX, u32::MAX)];
    for (start_a, start_b) in bad {
        let first = changed(4, |pair| pair.start_a = start_a);
        let both = changed(4, |pair| (pair.start_a, pair.start_b) = (start_a, start_b));
        for pair in [first, both] {
            assert_eq!(pair.answer(), refused(Reason::InvalidStart, 1));
        }
        let second = changed(4, |pair| pair.start_b = start_b);
        assert_eq!(second.answer(), refused(Reason::InvalidStart, 2));
    }
    let none = Net::default();
    assert_eq!(
        none.shares_with(0, &none, 0),
        refused(Reason::InvalidStart, 1)
    );
}

#[test]
fn the_first_differing_step_is_told() {
    for step in 0..=4 {
        for axis in 0..3 {
            let pair = changed(4, |pair| pair.b.vertices[3 * (10 + step) + axis] += 1);
            assert_eq!(pair.answer(), refused(Reason::SeamMismatch, step));
        }
    }
    for step in 1..4 {
        let early = changed(4, |pair| pair.a.marks[step] = 1);
        assert_eq!(early.answer(), refused(Reason::SeamMismatch, step));
        let late = changed(4, |pair| pair.b.marks[10 + step] = 1);
        assert_eq!(late.answer(), refused(Reason::SeamMismatch, step));
        let both = changed(4, |pair| {
            pair.a.marks[step] = 1;
            pair.b.marks[10 + step] = 1;
        });
        assert_eq!(both.answer(), Ok(step));
    }
    let missing = changed(4, |pair| pair.b.marks[14] = 0);
    assert_eq!(missing.answer(), refused(Reason::SeamMismatch, 4));
}

#[test]
fn the_second_net_is_read_against_its_sides() {
    let pair = Pair::new(1);
    assert_eq!(
        pair.b.shares_with(pair.start_b, &pair.a, pair.start_a),
        refused(Reason::SeamMismatch, 1)
    );
    assert_eq!(pair.b.shares_with(pair.start_b + 1, &pair.a, 1), Ok(1));
}

#[test]
fn tensions_and_side_counts_are_compared_before_the_steps() {
    let differing = refused(Reason::SeamMismatch, 0);
    for tension in 0..MAX_TENSION {
        let pair = changed(4, |pair| pair.b.tension = tension);
        assert_eq!(pair.answer(), differing);
        let both = changed(4, |pair| {
            pair.a.tension = tension;
            pair.b.tension = tension;
        });
        assert_eq!(both.answer(), Ok(4));
    }
    assert_eq!(
        changed(4, |pair| pair.a.sides = vec![4; 4]).answer(),
        differing
    );
    let also_at_a_step = changed(4, |pair| {
        pair.b.sides = vec![4; 8];
        pair.b.vertices[3 * 12] += 1;
    });
    assert_eq!(also_at_a_step.answer(), differing);
}

/// What the numbers of the work table are after a call: 0 up to some place, and as before from there on.
fn cleared(pair: &Pair, length: usize) -> usize {
    let mut work = vec![FILL; length];
    let _ = pair.answer_by(&mut work);
    let zeros = work.iter().take_while(|&&number| number == 0).count();
    assert!(work[zeros..].iter().all(|&number| number == FILL));
    zeros
}

#[test]
fn the_work_table_is_left_as_the_checks_leave_it() {
    let needed = |net: &Net| lengths(0, net.view()).unwrap().work;
    let (small, large) = (needed(&Pair::new(4).a), needed(&Pair::new(4).b));
    assert_eq!((small, large), (16 * 4, 16 * 8));
    let cases: [(Change, usize); 8] = [
        (|_| (), large),
        (|pair| pair.start_b = 1, large),
        (|pair| pair.b.tension = 0, large),
        (|pair| pair.a.tension = 5, 0),
        (|pair| pair.a.marks[3] = 2, small),
        (|pair| pair.b.tension = 5, small),
        (|pair| pair.b.marks[3] = 2, large),
        (|pair| std::mem::swap(&mut pair.a, &mut pair.b), large),
    ];
    for (change, zeros) in cases {
        assert_eq!(cleared(&changed(4, change), large + 9), zeros);
    }
    let too_short = refused(Reason::TableTooShort, 0);
    for (length, answer, zeros) in [
        (large, Ok(4), large),
        (large - 1, too_short, small),
        (small - 1, too_short, 0),
    ] {
        let pair = Pair::new(4);
        assert_eq!(pair.answer_by(&mut vec![FILL; length]), answer);
        assert_eq!(cleared(&pair, length), zeros);
    }
}

#[test]
fn all_refusals_of_the_first_net_go_first() {
    let pair = changed(4, |pair| {
        pair.a.marks[3] = 2;
        pair.b.faces.pop();
        pair.start_a = u32::MAX;
    });
    assert_eq!(pair.answer(), refused(Reason::InvalidMark, 3));
    let pair = changed(4, |pair| {
        pair.b.tension = MAX_TENSION + 1;
        pair.start_a = u32::MAX;
    });
    assert_eq!(pair.answer(), refused(Reason::TensionOutOfRange, 0));
    let pair = changed(4, |pair| {
        pair.b.vertices.pop();
        pair.start_b = u32::MAX;
    });
    assert_eq!(pair.answer(), refused(Reason::InvalidLengths, 0));
    let pair = changed(4, |pair| {
        pair.a.sides = vec![2];
        pair.b.sides = vec![9];
    });
    assert_eq!(pair.answer(), refused(Reason::InvalidSideCounts, 0));
    let pair = changed(4, |pair| {
        pair.start_b = u32::MAX;
        pair.b.tension = 0;
    });
    assert_eq!(pair.answer(), refused(Reason::InvalidStart, 2));
}
