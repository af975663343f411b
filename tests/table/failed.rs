//! What turns meet of rules that have failed (order 5).

use oracle::orders::Skip;
use oracle::turns::Kind;

use crate::met::Made;

/// What is counted, on lists from a start and on tables that no run made.
pub const SORTS: [&str; 9] = [
    "skip behind a plain literal",
    "skip behind a negated literal",
    "skip of one literal",
    "skip of several literals",
    "skip with a rule left",
    "literal behind a false one that would have led",
    "takeover that leaves what such a one would have led to",
    "negated literal of a false claim",
    "skip with literals between",
];

/// The last sort is met on tables that no run made alone.
pub const SORTS_OF_LISTS: usize = 8;

pub type Counts = [usize; 9];

/// Counts what a turn met.
pub fn count(made: &Made, met: &mut Counts) {
    if made.after.orders.skip == Skip::Off {
        return;
    }
    if made.kind == Kind::Passed {
        count_skip(made, met);
    }
    let would_lead = made.is_another(|table| table.orders.skip = Skip::StillLeading);
    met[5] += usize::from(would_lead);
    met[6] += usize::from(would_lead && made.kind == Kind::Took);
    met[7] += usize::from(made.is_another(|table| table.orders.skip = Skip::ByClaim));
}

/// Counts the turn if it passed the rest of a failed rule.
fn count_skip(made: &Made, met: &mut Counts) {
    let (before, after) = (made.before, made.after);
    let moved = before.claims().find(|&claim| before.cursor(claim) < after.cursor(claim));
    let Some((rule, next)) = moved.and_then(|claim| before.next_literal(claim)) else { return };
    let read = &before.job.literals[rule.start..next];
    let Some(failed) = read.iter().rposition(|literal| before.fails(literal)) else { return };
    met[usize::from(read[failed].negated)] += 1;
    met[2 + usize::from(rule.end - next > 1)] += 1;
    met[4] += usize::from(after.literals_left(rule.head));
    met[8] += usize::from(failed + 1 < read.len());
}
