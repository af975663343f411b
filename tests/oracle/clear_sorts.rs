//! Sorts of claims by whether they are clear (order 9), so that the gate can tell
//! whether each was met.

use crate::clear::Standing;
use crate::model::Verdict;
use crate::orders::{Missing, Orders};

const SORTS: [&str; 8] = [
    "clear and true",
    "clear and false",
    "clear in a ring of plain literals",
    "clear though leading through ten negations",
    "undefined by a ring alone",
    "not clear and yet true",
    "not clear and yet false",
    "undefined by a missing record alone",
];

/// So many negations on a path are many.
const MANY: usize = 10;

pub type Met = [usize; 8];

/// The sorts that can be met: without order 2 all but the last.
pub fn sorts(orders: Orders) -> &'static [&'static str] {
    &SORTS[..SORTS.len() - usize::from(orders.missing == Missing::Off)]
}

/// Counts the claims of a job by its model.
pub fn count_model(standings: &[Standing], model: &[Verdict], met: &mut Met) {
    for (standing, &value) in standings.iter().zip(model) {
        let (clear, undefined) = (standing.clear(), value == Verdict::Undefined);
        met[0] += usize::from(clear && value == Verdict::True);
        met[1] += usize::from(clear && value == Verdict::False);
        met[2] += usize::from(clear && standing.ring);
        met[3] += usize::from(clear && standing.negations >= MANY);
        met[4] += usize::from(undefined && standing.negated_ring && !standing.missing_record);
        met[5] += usize::from(!clear && value == Verdict::True);
        met[6] += usize::from(!clear && value == Verdict::False);
        met[7] += usize::from(undefined && standing.missing_record && !standing.negated_ring);
    }
}
