//! The values of claims that are completed together.

use crate::checks::Literal;
use crate::model::{well_founded, Program, Verdict};
use crate::orders::Missing;
use crate::table::Table;

impl Table<'_> {
    /// The values of `claims` in the model of the whole job with the rules of
    /// complete claims exchanged, their missing records too.
    pub fn values_by_text(&self, claims: &[u32]) -> Vec<Verdict> {
        let mut program = Program::new(self.job.claims);
        for claim in self.claims() {
            match self.value(claim) {
                Some(Verdict::True) => program.add_rule(claim, []),
                Some(Verdict::False) => {}
                Some(Verdict::Undefined) => program.add_undefined(claim),
                None => {
                    for rule in self.job.rules_of(claim) {
                        program.add_record(self.job, rule, claim);
                    }
                }
            }
            if self.orders.missing == Missing::KeptAtExchange && self.job.has_missing_record(claim) {
                program.add_missing(claim);
            }
        }
        let model = well_founded(&program);
        claims.iter().map(|&claim| model[claim as usize]).collect()
    }

    /// The same values from the rules of `claims` alone: each either has a
    /// complete false literal or mentions only `claims` and complete claims, so
    /// nothing else bears on them.  The last atom of the small program is
    /// undefined and stands for all complete undefined claims.
    pub fn values_local(&mut self, claims: &[u32]) -> Vec<Verdict> {
        for (i, &claim) in claims.iter().enumerate() {
            self.local[claim as usize] = i as u32;
        }
        let local = &self.local;
        let undefined = claims.len() as u32;
        let mut program = Program::new(claims.len() + 1);
        program.add_undefined(undefined);
        for &claim in claims {
            for rule in self.job.rules_of(claim) {
                if rule.missing {
                    program.add_missing(local[claim as usize]);
                    continue;
                }
                let body = self.job.body(rule);
                if body.iter().any(|literal| self.fails(literal)) {
                    continue;
                }
                let kept = body.iter().filter_map(|literal| match self.value(literal.claim) {
                    None => Some(Literal { claim: local[literal.claim as usize], negated: literal.negated }),
                    Some(Verdict::Undefined) => Some(Literal { claim: undefined, negated: literal.negated }),
                    Some(_) => None,
                });
                program.add_rule(local[claim as usize], kept);
            }
        }
        let mut model = well_founded(&program);
        model.truncate(claims.len());
        model
    }
}
