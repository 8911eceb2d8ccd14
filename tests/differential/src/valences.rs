//! Nets with a vertex in many faces, through the C interface.

use std::sync::LazyLock;

use nets::case::Case;
use nets::letters::fit_letters;
use nets::rng::Rng;
use nets::tally::any_tally;
use nets::tension::fit_tension;
use nets::valences::{ROWS, Row, any_call, row_call};

use crate::draw::fit_room;

/// One drawn call for so many nets.
const NETS_PER_GENERATED: u64 = 500;

/// The rows, each with its rounds.
static CALLS: LazyLock<Vec<(Row, u32)>> = LazyLock::new(|| {
    let calls = ROWS.into_iter().flat_map(|row| {
        let (.., rounds, _) = row;
        rounds.iter().map(move |&rounds| (row, rounds))
    });
    calls.collect()
});

/// How many calls there are for so many nets: those of the rows, then drawn
/// ones.
pub fn count(nets: u64) -> u64 {
    CALLS.len() as u64 + nets.div_ceil(NETS_PER_GENERATED)
}

/// One of these calls with its name.
pub fn valence_call(number: u64, rng: &mut Rng) -> (String, Case) {
    let at = usize::try_from(number).expect("a number in memory");
    let (name, mut case) = match CALLS.get(at) {
        Some(&(row, rounds)) => (format!("{row:?}"), row_call(row, rounds, rng)),
        None => ("drawn".to_owned(), any_call(rng)),
    };
    fit_room(&mut case, rng);
    let case = fit_letters(any_tally(case, rng), rng);
    (name, fit_tension(case, rng))
}
