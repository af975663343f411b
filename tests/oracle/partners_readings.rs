//! Wrong readings of order 8: which questions each lets a worker put.

use crate::checks::{Job, Literal};
use crate::partners::{led_to, may_ask, open_to, PUBLIC};

/// A job, the claims' groups, the worker's group, the claim asked.
pub type Reading = fn(&Job, &[u8], u8, u32) -> bool;

fn direct_literals(job: &Job, groups: &[u8], group: u8, claim: u32) -> bool {
    let near = job.literals_of(claim).iter().map(|literal| literal.claim);
    near.chain([claim]).all(|near| open_to(groups[near as usize], group))
}

/// The claims that a claim leads to, the literals being those for which `taken` says so.
fn led_by(job: &Job, claim: u32, taken: fn(bool) -> bool) -> Vec<u32> {
    let (mut found, mut next) = (vec![claim], 0);
    while next < found.len() {
        for literal in job.literals_of(found[next]) {
            if taken(literal.negated) && !found.contains(&literal.claim) {
                found.push(literal.claim);
            }
        }
        next += 1;
    }
    found
}

fn plain_literals(job: &Job, groups: &[u8], group: u8, claim: u32) -> bool {
    led_by(job, claim, |negated| !negated).iter().all(|&led| open_to(groups[led as usize], group))
}

fn itself_left_out(job: &Job, groups: &[u8], group: u8, claim: u32) -> bool {
    let open = |literal: &Literal| may_ask(job, groups, group, literal.claim);
    job.literals_of(claim).iter().all(open)
}

fn group_zero_sees_all(job: &Job, groups: &[u8], group: u8, claim: u32) -> bool {
    group == PUBLIC || may_ask(job, groups, group, claim)
}

fn itself_alone(_: &Job, groups: &[u8], group: u8, claim: u32) -> bool {
    open_to(groups[claim as usize], group)
}

/// One group beside public claims, whichever it is.
fn any_one_group(job: &Job, groups: &[u8], _: u8, claim: u32) -> bool {
    let led = led_to(job, claim);
    let mut met: Vec<u8> = led.iter().zip(groups).filter(|(&led, _)| led).map(|(_, &group)| group).collect();
    met.retain(|&group| group != PUBLIC);
    met.sort_unstable();
    met.dedup();
    met.len() < 2
}

fn seven_bits(job: &Job, groups: &[u8], group: u8, claim: u32) -> bool {
    let cut: Vec<u8> = groups.iter().map(|group| group & 127).collect();
    may_ask(job, &cut, group & 127, claim)
}

pub const PARTNERS_READINGS: [(&str, Reading); 7] = [
    ("direct literals alone", direct_literals),
    ("plain literals alone", plain_literals),
    ("the claim asked isn't counted", itself_left_out),
    ("the claim asked alone", itself_alone),
    ("group 0 sees all", group_zero_sees_all),
    ("any one group", any_one_group),
    ("groups of seven bits", seven_bits),
];

/// How many jobs show each wrong reading.
pub type Shown = [usize; PARTNERS_READINGS.len()];

/// Counts the readings that let a worker put another set of this job's questions.
pub fn count_shown(job: &Job, claim_groups: &[u8], worker_groups: &[u8], shown: &mut Shown) {
    let asked = |reading: Reading| -> Vec<bool> {
        let may = |&(worker, claim): &(u32, u32)| reading(job, claim_groups, worker_groups[worker as usize], claim);
        job.questions.iter().map(may).collect()
    };
    let right = asked(may_ask);
    for (count, (_, reading)) in shown.iter_mut().zip(PARTNERS_READINGS) {
        *count += usize::from(asked(reading) != right);
    }
}
