//! What turns meet of workers' newest claims (order 3), and which third words are
//! refused.

use oracle::orders::Newest;
use oracle::table::Table;
use oracle::turns::Kind;

use crate::met::Made;

/// What is counted, on lists from a start and on tables that no run made.
pub const SORTS: [&str; 17] = [
    "takeover that leaves a loser nothing",
    "takeover that leaves a loser an older claim",
    "takeover from several losers",
    "takeover that leaves one loser nothing, another an older claim",
    "takeover after which a claim taken is the newest",
    "takeover after which an own claim is the newest",
    "opening of the newest claim",
    "completion that leaves nothing",
    "completion that leaves an older claim",
    "completion that leaves a claim of equal number",
    "takeover that leaves a loser its newest claim",
    "opening beside a claim of higher number",
    "opening beside a claim of equal number, which is higher",
    "opening beside a claim of equal number, which is lower",
    "takeover that leaves a loser a newest claim by equal numbers",
    "takeover after which the newest claim is so by equal numbers",
    "completion that leaves a newest claim by equal numbers",
];

/// The later sorts are met on tables that no run made alone.
pub const SORTS_OF_LISTS: usize = 9;

pub type Counts = [usize; 17];

/// What is wrong with a third word that is refused.
pub const CAUSES: [&str; 8] = [
    "too large",
    "0 with a claim owned",
    "a claim with none owned",
    "a fresh claim",
    "a complete claim",
    "another's claim",
    "an own claim of lower number",
    "an own claim of equal number",
];

pub type Causes = [usize; 8];

/// Counts what a turn met.
pub fn count(made: &Made, met: &mut Counts) {
    if made.after.orders.newest == Newest::Off {
        return;
    }
    match made.kind {
        Kind::Took => count_takeover(made, met),
        Kind::Opened => count_opening(made, met),
        Kind::Completed => count_completion(made, met),
        _ => {}
    }
}

/// Another claim of the worker has the opening number of its newest.
fn is_equalled(table: &Table, worker: u32) -> bool {
    table.newest_found(worker).is_some_and(|newest| {
        let mut others = table.claims().filter(|&claim| claim != newest && table.owner(claim) == Some(worker));
        others.any(|claim| table.opening(claim) == table.opening(newest))
    })
}

fn count_takeover(made: &Made, met: &mut Counts) {
    let (before, after) = (made.before, made.after);
    let lost = |worker: u32, claim: u32| before.owner(claim) == Some(worker) && after.owner(claim) == Some(made.worker);
    let is_loser = |&worker: &u32| worker != made.worker && before.claims().any(|claim| lost(worker, claim));
    let mut left = [0; 3];
    for loser in before.workers().filter(is_loser) {
        let words = (before.newest_word(loser), after.newest_word(loser));
        met[14] += usize::from(is_equalled(after, loser));
        left[if words.1 == 0 { 0 } else { 1 + usize::from(words.0 == words.1) }] += 1;
    }
    met[0] += left[0];
    met[1] += left[1];
    met[2] += usize::from(left.iter().sum::<usize>() > 1);
    met[3] += usize::from(left[0] > 0 && left[1] > 0);
    met[10] += left[2];
    met[15] += usize::from(is_equalled(after, made.worker));
    let newest = after.newest_word(made.worker) - 1;
    met[4 + usize::from(before.owner(newest) == Some(made.worker))] += 1;
}

fn count_opening(made: &Made, met: &mut Counts) {
    let (before, after) = (made.before, made.after);
    let opened = after.claims().find(|&claim| before.mark(claim) == 0 && after.mark(claim) != 0);
    let opened = opened.expect("a claim was opened");
    let Some(other) = before.newest_found(made.worker) else {
        met[6] += 1;
        return;
    };
    let (number, highest) = (after.opening(opened), after.opening(other));
    let sort = match number.cmp(&highest) {
        std::cmp::Ordering::Greater => 6,
        std::cmp::Ordering::Less => 11,
        std::cmp::Ordering::Equal => 12 + usize::from(opened > other),
    };
    met[sort] += 1;
}

fn count_completion(made: &Made, met: &mut Counts) {
    let (before, after) = (made.before, made.after);
    met[16] += usize::from(is_equalled(after, made.worker));
    let word = after.newest_word(made.worker);
    let sort = match word {
        0 => 7,
        _ => 8 + usize::from(after.opening(word - 1) == before.opening(before.newest_word(made.worker) - 1)),
    };
    met[sort] += 1;
}

/// Which of `CAUSES` the worker's third word has.
pub fn cause(table: &Table, worker: u32) -> usize {
    let word = table.newest_word(worker);
    let Some(found) = table.newest_found(worker) else {
        return if word as usize > table.job.claims { 0 } else { 2 };
    };
    if word == 0 || word as usize > table.job.claims {
        return usize::from(word == 0);
    }
    let claim = word - 1;
    match table.owner(claim) {
        None => 3 + usize::from(table.complete(claim)),
        Some(owner) if owner != worker => 5,
        Some(_) => 6 + usize::from(table.opening(claim) == table.opening(found)),
    }
}
