//! All jobs of a family of small ones: three claims, at most one rule a claim,
//! a body of at most two literals in either order, or under order 2 a missing
//! record; each of two or three workers asks one claim.

use crate::draft::{not, plain, Draft};
use crate::explore::{explore_job, turn_as_worded, Met};
use crate::orders::{Missing, Orders};

pub const CLAIMS: usize = 3;

/// A claim's bodies: the empty one, one literal, two.
fn bodies() -> Vec<Vec<u16>> {
    let literals: Vec<u16> = (0..CLAIMS).flat_map(|claim| [plain(claim), not(claim)]).collect();
    let mut bodies = vec![Vec::new()];
    bodies.extend(literals.iter().map(|&literal| vec![literal]));
    bodies.extend(literals.iter().flat_map(|&first| literals.iter().map(move |&second| vec![first, second])));
    bodies
}

/// A claim's choices: no rule, one of the bodies, or a missing record.
fn choices(orders: Orders) -> usize {
    bodies().len() + if orders.missing == Missing::Off { 1 } else { 2 }
}

/// How many jobs the family has for one number of workers.
pub fn family_size(orders: Orders) -> u64 {
    choices(orders).pow(CLAIMS as u32) as u64
}

/// The family's job of this number.
pub fn family_job(number: u64, workers: usize, orders: Orders) -> Draft {
    let (bodies, choices) = (bodies(), choices(orders));
    let mut draft = Draft::new(CLAIMS, workers);
    let mut rest = number as usize;
    for claim in 0..CLAIMS {
        match rest % choices {
            0 => {}
            choice if choice <= bodies.len() => draft.rule(claim, &bodies[choice - 1]),
            _ => draft.missing(claim),
        }
        rest /= choices;
    }
    for worker in 0..workers {
        draft.ask(worker, worker);
    }
    draft
}

/// Explores the family's job of this number with two and with three workers.
pub fn explore_family(number: u64, orders: Orders, met: &mut Met) -> Result<(), String> {
    for workers in [2, 3] {
        let bytes = family_job(number, workers, orders).job_bytes();
        explore_job(&bytes, orders, turn_as_worded, 40_000, met)?;
    }
    Ok(())
}
