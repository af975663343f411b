//! Order 12: of all small rule sets, how many make claim 0 true, false and undefined, and
//! which needs most turns.

use std::ops::RangeInclusive;

use crate::checks::{refuse, Job, Refusal};
use crate::draft::{not, plain, Draft};
use crate::model::{well_founded, Program, Verdict};
use crate::orders::Orders;
use crate::turns::{run_listing, Kind};

/// The sizes of the table, in claims.
pub const SIZES: RangeInclusive<usize> = 1..=3;

/// How many sets make claim 0 true, false and undefined; the place of the first set that
/// needs most turns, and those turns.
pub type Line = [u64; 5];

/// So many digits of a number, the leading one first.
pub fn digits(number: usize, base: usize, count: usize) -> Vec<usize> {
    (0..count as u32).rev().map(|place| number / base.pow(place) % base).collect()
}

/// A claim's choices: no rule, or one with one of the bodies.
pub fn choices(size: usize) -> usize {
    1 + 3usize.pow(size as u32)
}

/// How many rule sets there are.
pub fn set_count(size: usize) -> usize {
    choices(size).pow(size as u32)
}

/// The body of this number to base 3: claims absent, plain, negated.
fn body(number: usize, size: usize) -> Vec<u16> {
    let literal = |(claim, digit): (usize, usize)| match digit {
        0 => None,
        1 => Some(plain(claim)),
        _ => Some(not(claim)),
    };
    digits(number, 3, size).into_iter().enumerate().filter_map(literal).collect()
}

/// The rule set met at this place; one worker asks every claim in rising number.
pub fn rule_set(place: usize, size: usize) -> Draft {
    let mut draft = Draft::new(size, 1);
    for (claim, choice) in digits(place, choices(size), size).into_iter().enumerate() {
        if choice > 0 {
            draft.rule(claim, &body(choice - 1, size));
        }
        draft.ask(0, claim);
    }
    draft
}

/// What is counted of a rule set.
#[derive(Clone, Debug, PartialEq, Eq)]
pub struct Outcome {
    /// The model's, by claim.
    pub verdicts: Vec<Verdict>,
    /// Changing turns until all is answered.
    pub turns: u64,
}

pub fn outcome(draft: &Draft, orders: Orders) -> Outcome {
    let job = Job::check(&draft.job_bytes(), orders).expect("a small rule set is accepted");
    let (_, tally) = run_listing(&job, orders, &[], false, |_, _, _| {});
    let turns = tally.iter().sum::<u64>() - tally[Kind::Idle as usize];
    Outcome { verdicts: well_founded(&Program::of_job(&job)), turns }
}

/// The outcomes of all rule sets of a size, in the order met.
pub fn outcomes(size: usize, orders: Orders) -> Vec<Outcome> {
    (0..set_count(size)).map(|place| outcome(&rule_set(place, size), orders)).collect()
}

/// How many sets make a claim true, false and undefined.
pub fn counts(outcomes: &[Outcome], claim: usize) -> [u64; 3] {
    let count = |verdict| outcomes.iter().filter(|outcome| outcome.verdicts[claim] == verdict).count() as u64;
    [Verdict::True, Verdict::False, Verdict::Undefined].map(count)
}

pub fn line(outcomes: &[Outcome]) -> Line {
    let most = outcomes.iter().map(|outcome| outcome.turns).max().expect("there are rule sets");
    let first = outcomes.iter().position(|outcome| outcome.turns == most).expect("one needs most");
    let [trues, falses, undefined] = counts(outcomes, 0);
    [trues, falses, undefined, first as u64, most]
}

/// Check 26, and the line of a size.
pub fn census(size: usize, orders: Orders) -> Result<Line, Refusal> {
    if !SIZES.contains(&size) {
        return refuse(26, size);
    }
    Ok(line(&outcomes(size, orders)))
}

pub fn line_text(line: Line) -> String {
    line.map(|number| number.to_string()).join(" ") + "\n"
}

/// The table as it is printed.
pub fn table(orders: Orders) -> String {
    SIZES.map(|size| line_text(census(size, orders).expect("a size of the table"))).collect()
}
