//! Calls told of tables longer than 32 bits can count. No memory stands
//! behind the surplus: whoever looks at it ends the process.

use nets::case::{Case, Expected};
use nets::change::flip;
use nets::letters::fit_letters;
use nets::rng::Rng;
use nets::seamtest::{SeamCase, SeamExpected};
use nets::shapes;
use nets::tension::{fit_tension, refused_tension};
use reference::call::Tables;
use reference::net::{Net, PolygonNet};
use reference::refusal::Capacity;

use crate::capi::{
    Finding, Inputs, Outputs, Report, SeamReport, Zones, check, record, refine, share_seam,
    sizes_for,
};
use crate::compare::{Known, agree, as_expected, no_sizes, sizes};

const BEYOND: usize = 1 << 32;

type Claim = fn(&mut Inputs, &mut Outputs);

/// The tables of a square told too long, and the reasons given then, without
/// side counts and with them; 16 may hold where there is none. After the one count that there is come bytes that
/// make the sum too large, so nothing beyond is looked at.
const CLAIMS: [(&str, [Option<u32>; 2], Claim); 11] = [
    ("vertices", [Some(2); 2], |inputs, _| {
        inputs.vertices.claim(3 * (BEYOND + 4));
    }),
    ("marks", [Some(2); 2], |inputs, _| {
        inputs.marks.claim(BEYOND + 4);
    }),
    ("vertices and marks", [Some(3); 2], |inputs, _| {
        inputs.vertices.claim(3 * (BEYOND + 4));
        inputs.marks.claim(BEYOND + 4);
    }),
    ("faces", [Some(3), Some(14)], |inputs, _| {
        inputs.faces.claim(4 * (BEYOND + 1));
    }),
    ("sides", [None, Some(14)], |inputs, _| {
        inputs.sides.claim(BEYOND + 1);
    }),
    ("out vertices", [Some(0); 2], |_, outputs| {
        outputs.vertices.claim(BEYOND);
    }),
    ("out faces", [Some(0); 2], |_, outputs| {
        outputs.faces.claim(BEYOND);
    }),
    ("out marks", [Some(0); 2], |_, outputs| {
        outputs.marks.claim(BEYOND);
    }),
    ("letters", [Some(0); 2], |_, outputs| {
        outputs.letters.claim(BEYOND);
    }),
    ("work", [Some(0); 2], |_, outputs| {
        outputs.work.claim(BEYOND)
    }),
    ("all results", [Some(0); 2], |_, outputs| {
        outputs.vertices.claim(BEYOND + 1);
        outputs.faces.claim(BEYOND + 1);
        outputs.marks.claim(BEYOND + 1);
        outputs.letters.claim(BEYOND + 1);
        outputs.work.claim(BEYOND + 1);
    }),
];

const MOST: usize = usize::MAX;

/// Rounds, lengths of the vertices, faces and marks up to the largest number,
/// and the reasons given without side counts and with one count of 4.
const LONGEST: [(u32, [usize; 3], [u32; 2]); 7] = [
    (6, [MOST, MOST, MOST], [2, 14]),
    (6, [MOST, MOST - 3, MOST / 3], [3, 14]),
    (0, [MOST, 4, MOST / 3], [3, 3]),
    (6, [12, MOST - 3, 4], [3, 14]),
    (6, [12, 1 << 52, 4], [3, 14]),
    (6, [MOST - 1, MOST - 3, 4], [2, 2]),
    (MOST as u32, [12, MOST - 3, 4], [1, 1]),
];

/// Every table touches the zone before it.
const BEFORE: Zones = Zones(0);

pub const COUNT: u64 = 2 * CLAIMS.len() as u64;

/// Compares one of them, counted round.
pub fn compare(number: u64, rng: &mut Rng) -> Result<(), String> {
    let at = usize::try_from(number % COUNT).expect("below a length");
    let (name, reasons, claim) = CLAIMS[at / 2];
    let with_sides = !at.is_multiple_of(2);
    let case = fit_letters(call(&shapes::grid(1, 1), with_sides, 1), rng);
    let case = if rng.one_in(3) {
        refused_tension(case, rng)
    } else {
        fit_tension(case, rng)
    };
    let known = Known::new(case, rng)?;
    let Some(reason) = reasons[at % 2] else {
        return Ok(());
    };
    let fault = |fault| format!("{name}: {fault}");
    compare_claim(&known, reason, claim).map_err(fault)?;
    (0..2)
        .try_for_each(|which| compare_seam_claim(with_sides, which, reason, claim, rng))
        .map_err(fault)
}

/// The call with this net, with a side count for each face or none.
fn call(net: &Net, with_sides: bool, rounds: u32) -> Case {
    if with_sides {
        Case::with_sides(&PolygonNet::from(net), rounds, Expected::Accepted)
    } else {
        Case::new(net, rounds, Expected::Accepted)
    }
}

fn compare_claim(known: &Known, reason: u32, claim: Claim) -> Result<(), String> {
    let (report, left, tally) = if reason == 0 {
        (known.report, &known.left, known.tally)
    } else {
        let refused = Report {
            reason,
            place: 0,
            vertices: 0,
            faces: 0,
        };
        (refused, &known.found, known.case.tally)
    };
    let mut inputs = Inputs::new(&known.case, BEFORE);
    let [mut checked, mut refined] = [(); 2].map(|()| {
        let mut outputs = Outputs::new(&known.found, BEFORE);
        claim(&mut inputs, &mut outputs);
        outputs
    });
    let room = Capacity {
        vertices: usize::MAX,
        faces: usize::MAX - 1,
        marks: usize::MAX - 2,
        with_letters: checked.with_letters,
        letters: usize::MAX - 3,
        workspace: checked.work.length(),
    };
    let due = if reason == 0 {
        sizes(known.case.served_faces())
    } else {
        no_sizes(reason)
    };
    let given = sizes_for(inputs.rounds, inputs.lengths(), &inputs.sides);
    agree("sizes", &given, &due)?;
    if inputs.sides.length() == known.case.sides.len() {
        for (rounds, lengths, reasons) in LONGEST {
            let given = sizes_for(rounds, lengths, &inputs.sides);
            agree("sizes", &given, &no_sizes(reasons[inputs.sides.length()]))?;
        }
    }
    let finding = check(&inputs, &room, &mut checked.work);
    let due = Finding {
        reason: report.reason,
        place: 0,
    };
    agree("check", &finding, &due)?;
    as_expected("check", checked.work.difference("work", &left.workspace))?;
    let mut record = record(known.case.tally, BEFORE);
    let given = refine(&mut record, &inputs, &mut refined);
    agree("refine", &given, &report)?;
    as_expected("refine", record.difference("record", &[tally]))?;
    as_expected("refine", inputs.differences(&known.case))?;
    as_expected("refine", refined.differences(left))
}

/// A square with one mark against itself turned over, where the claim is made for
/// one of the two. There are no outputs but the work table.
fn compare_seam_claim(
    with_sides: bool,
    which: usize,
    reason: u32,
    claim: Claim,
    rng: &mut Rng,
) -> Result<(), String> {
    let mut square = shapes::grid(1, 1);
    square.marks[0] = 1;
    let mut turned = square.clone();
    flip(&mut turned);
    let nets = [square, turned].map(|net| call(&net, with_sides, 0));
    let case = SeamCase {
        workspace: nets[0].capacity.workspace + 3,
        nets,
        starts: [0; 2],
        expected: SeamExpected::Matches(4),
    };
    let found = case.work_table(rng);
    let mut left = found.clone();
    if !case.expected.agrees_with(case.outcome_in(&mut left)) {
        return Err("the squares do not match".to_owned());
    }
    // the first check is made before the second net is looked at
    let left = if reason > 0 && which == 0 {
        &found
    } else {
        &left
    };
    let due = SeamReport {
        reason,
        place: 0,
        edges: if reason == 0 { 4 } else { 0 },
    };
    let mut inputs = case.nets.each_ref().map(|net| Inputs::new(net, BEFORE));
    let mut outputs = Outputs::new(&work_alone(&found), BEFORE);
    claim(&mut inputs[which], &mut outputs);
    let given = share_seam(inputs.each_ref(), case.starts, &mut outputs.work);
    agree("share_seam", &given, &due)?;
    for (inputs, net) in inputs.iter().zip(&case.nets) {
        as_expected("share_seam", inputs.differences(net))?;
    }
    as_expected("share_seam", outputs.differences(&work_alone(left)))
}

/// A work table without outputs.
fn work_alone(workspace: &[u32]) -> Tables {
    Tables {
        vertices: vec![],
        faces: vec![],
        marks: vec![],
        with_letters: false,
        letters: vec![],
        workspace: workspace.to_vec(),
    }
}
