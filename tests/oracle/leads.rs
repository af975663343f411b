//! Which literals lead on, and what is reached by them.

use crate::checks::{Literal, Rule};
use crate::model::Verdict;
use crate::orders::Skip;
use crate::table::Table;

impl<'a> Table<'a> {
    /// The literal is complete and false: plain, and its claim is marked false;
    /// negated, and its claim is marked true.
    pub fn fails(&self, literal: &Literal) -> bool {
        self.value(literal.claim) == Some(if literal.negated { Verdict::True } else { Verdict::False })
    }

    /// The same as order 5 is read.
    pub fn stops(&self, literal: &Literal) -> bool {
        match self.orders.skip {
            Skip::ByClaim => self.value(literal.claim) == Some(Verdict::False),
            _ => self.fails(literal),
        }
    }

    /// The literals that a rule has passed, the cursor being at `passed_to`.
    pub fn passed_literals(&self, rule: &Rule, passed_to: usize) -> &'a [Literal] {
        &self.job.literals[rule.start..rule.end.min(passed_to).max(rule.start)]
    }

    /// Those of them that lead on if their claims aren't complete: under order 5
    /// none behind a complete false one.
    fn leading_literals(&self, rule: &Rule, passed_to: usize) -> &'a [Literal] {
        let passed = self.passed_literals(rule, passed_to);
        match self.orders.skip {
            Skip::Off | Skip::StillLeading => passed,
            Skip::AsWorded | Skip::ByClaim => {
                let failed = passed.iter().position(|literal| self.stops(literal));
                &passed[..failed.unwrap_or(passed.len())]
            }
        }
    }

    /// Visits the claims that a claim leads to.
    pub fn for_each_lead(&self, claim: u32, mut visit: impl FnMut(u32)) {
        let passed_to = self.job.first[claim as usize] + self.cursor(claim);
        for rule in self.job.rules_of(claim) {
            if rule.start >= passed_to {
                break;
            }
            for literal in self.leading_literals(rule, passed_to) {
                if !self.complete(literal.claim) {
                    visit(literal.claim);
                }
            }
        }
    }

    /// The claims that a claim leads to.
    pub fn leads(&self, claim: u32) -> Vec<u32> {
        let mut leads = Vec::new();
        self.for_each_lead(claim, |met| leads.push(met));
        leads
    }

    /// All claims reached from `start`, `start` first.
    pub fn reached(&mut self, start: u32) -> Vec<u32> {
        self.stamp += 1;
        let stamp = self.stamp;
        let mut stamps = std::mem::take(&mut self.stamps);
        stamps[start as usize] = stamp;
        let mut found = vec![start];
        let mut next = 0;
        while next < found.len() {
            self.for_each_lead(found[next], |claim| {
                if std::mem::replace(&mut stamps[claim as usize], stamp) != stamp {
                    found.push(claim);
                }
            });
            next += 1;
        }
        self.stamps = stamps;
        found
    }
}
