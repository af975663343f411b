//! Order 2: missing records.  A rule record with body length 65,535 has no
//! literals; its head counts as having one more rule, whose only literal is
//! undefined.

use crate::checks::{Job, Literal, Rule, MAX_CLAIMS, MAX_LITERALS, MAX_RULES};
use crate::draft::{not, plain, Body, Draft};
use crate::model::Program;
use crate::orders::{Missing, Orders};

/// The body length of a missing record.
pub const MISSING: u16 = 65_535;

/// Whether a record with this body length is a missing record.
pub fn is_missing_record(body_length: u16, orders: Orders) -> bool {
    !matches!(orders.missing, Missing::Off | Missing::CountedInSum) && body_length == MISSING
}

/// The rules that a reading of the order makes of the records.
pub fn as_read(mut rules: Vec<Rule>, reading: Missing) -> Vec<Rule> {
    match reading {
        Missing::Off | Missing::AsWorded | Missing::CountedInSum | Missing::KeptAtExchange => {}
        Missing::EmptyBody => rules.iter_mut().for_each(|rule| rule.missing = false),
        Missing::NoRule => rules.retain(|rule| !rule.missing),
        Missing::LostBesideRules => {
            let heads: Vec<u32> = rules.iter().filter(|rule| !rule.missing).map(|rule| rule.head).collect();
            rules.retain(|rule| !rule.missing || heads.binary_search(&rule.head).is_err());
        }
    }
    rules
}

impl Job {
    pub fn has_missing_record(&self, claim: u32) -> bool {
        self.rules_of(claim).iter().any(|rule| rule.missing)
    }

    pub fn missing_records(&self) -> usize {
        self.rules.iter().filter(|rule| rule.missing).count()
    }
}

impl Program {
    /// One more rule for `atom`, whose only literal is undefined.  In the terms
    /// of W: T never uses it, no unfounded set holds its head.
    pub fn add_missing(&mut self, atom: u32) {
        self.missing[atom as usize] = true;
    }

    /// A rule of the job, or what its missing record stands for.
    pub fn add_record(&mut self, job: &Job, rule: &Rule, head: u32) {
        if rule.missing {
            self.add_missing(head);
        } else {
            self.add_rule(head, job.body(rule).iter().copied());
        }
    }
}

/// The job so extended: one more atom u, the last, with `u if not u`, and
/// `h if u` for each missing record.
pub fn extension(job: &Job) -> Program {
    let undefined = job.claims as u32;
    let mut program = Program::new(job.claims + 1);
    program.add_undefined(undefined);
    for rule in &job.rules {
        if rule.missing {
            program.add_rule(rule.head, [Literal { claim: undefined, negated: false }]);
        } else {
            program.add_rule(rule.head, job.body(rule).iter().copied());
        }
    }
    program
}

/// The extension as a job of its own, without missing records, where it stays
/// within the limits.  Rules keep their places; that of u comes last.
pub fn extended_job(job: &Job) -> Option<Draft> {
    let undefined = job.claims;
    let mut extended = Draft::of_job(job);
    extended.claims += 1;
    for (_, body) in &mut extended.rules {
        if *body == Body::Missing {
            *body = Body::Literals(vec![plain(undefined)]);
        }
    }
    extended.rule(undefined, &[not(undefined)]);
    let within = extended.claims <= MAX_CLAIMS as usize
        && extended.rules.len() <= MAX_RULES as usize
        && extended.literal_sum() <= MAX_LITERALS as usize;
    within.then_some(extended)
}
