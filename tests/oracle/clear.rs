//! Order 9: a claim is clear if, among itself and all that it leads to through any
//! literals, none leads back to itself through a negation and none has a missing
//! record.  A clear claim is not undefined.

use crate::checks::Job;
use crate::groups::{groups, Groups};

/// How a claim stands to what it leads to.
#[derive(Clone, Copy, Default)]
pub struct Standing {
    /// It leads back to itself.
    pub ring: bool,
    /// It is, or leads to, a claim that leads back to itself through a negation.
    pub negated_ring: bool,
    /// It has, or leads to a claim that has, a missing record.
    pub missing_record: bool,
    /// Of a clear claim: the most negations on a path from it.
    pub negations: usize,
}

impl Standing {
    pub fn clear(&self) -> bool {
        !self.negated_ring && !self.missing_record
    }

    /// A literal leads to a claim of another group, which stands so.
    fn lead_to(&mut self, below: &Standing, negated: bool) {
        self.negated_ring |= below.negated_ring;
        self.missing_record |= below.missing_record;
        self.negations = self.negations.max(below.negations + usize::from(negated));
    }
}

/// How the claims of a group stand, those of the groups before it being known.  All
/// its claims lead to each other, so each leads back to itself through every
/// literal that stays in the group.
fn standing_of(job: &Job, groups: &Groups, group: usize, known: &[Standing]) -> Standing {
    let mut standing = Standing::default();
    for &claim in &groups.members[group] {
        standing.missing_record |= job.has_missing_record(claim);
        for literal in job.literals_of(claim) {
            let to = literal.claim as usize;
            if groups.of[to] == group {
                standing.ring = true;
                standing.negated_ring |= literal.negated;
            } else {
                standing.lead_to(&known[to], literal.negated);
            }
        }
    }
    standing
}

/// How each claim stands, in time linear in the job.
pub fn standings(job: &Job) -> Vec<Standing> {
    let groups = groups(job);
    let mut standings = vec![Standing::default(); job.claims];
    for (group, members) in groups.members.iter().enumerate() {
        let standing = standing_of(job, &groups, group, &standings);
        for &claim in members {
            standings[claim as usize] = standing;
        }
    }
    standings
}
