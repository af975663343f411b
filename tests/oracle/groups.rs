//! Groups of claims that lead to each other through any literals: Tarjan's
//! strongly connected components.

use crate::checks::Job;

pub struct Groups {
    /// Per claim the number of its group.
    pub of: Vec<usize>,
    /// Each group's claims.  A group leads to itself and to groups before it only.
    pub members: Vec<Vec<u32>>,
}

/// A claim that is not in a group yet.
const NONE: usize = usize::MAX;

struct Search<'a> {
    job: &'a Job,
    /// Claims met so far.
    met: usize,
    /// Per claim: when it was met, from 1; 0 if it wasn't.
    number: Vec<usize>,
    /// Per claim: the first met that it is known to lead to and that has no group yet.
    lowest: Vec<usize>,
    /// The claims being gone through, each with its next literal's position.
    path: Vec<(u32, usize)>,
    /// Claims met that have no group yet.
    waiting: Vec<u32>,
    groups: Groups,
}

impl Search<'_> {
    fn enter(&mut self, claim: u32) {
        self.met += 1;
        self.number[claim as usize] = self.met;
        self.lowest[claim as usize] = self.met;
        self.path.push((claim, self.job.first[claim as usize]));
        self.waiting.push(claim);
    }

    fn lower(&mut self, claim: u32, to: usize) {
        let lowest = &mut self.lowest[claim as usize];
        *lowest = to.min(*lowest);
    }

    /// All literals of the path's last claim were gone through.
    fn leave(&mut self, claim: u32) {
        self.path.pop();
        let lowest = self.lowest[claim as usize];
        if lowest == self.number[claim as usize] {
            let from = self.waiting.iter().rposition(|&waiting| waiting == claim).expect("the claim has no group yet");
            let members = self.waiting.split_off(from);
            for &member in &members {
                self.groups.of[member as usize] = self.groups.members.len();
            }
            self.groups.members.push(members);
        } else if let Some(&(before, _)) = self.path.last() {
            self.lower(before, lowest);
        }
    }

    fn run(&mut self, start: u32) {
        self.enter(start);
        while let Some(&mut (claim, ref mut at)) = self.path.last_mut() {
            if *at == self.job.first[claim as usize + 1] {
                self.leave(claim);
                continue;
            }
            let next = self.job.literals[*at].claim;
            *at += 1;
            if self.number[next as usize] == 0 {
                self.enter(next);
            } else if self.groups.of[next as usize] == NONE {
                self.lower(claim, self.number[next as usize]);
            }
        }
    }
}

pub fn groups(job: &Job) -> Groups {
    let claims = job.claims;
    let mut search = Search {
        job,
        met: 0,
        number: vec![0; claims],
        lowest: vec![0; claims],
        path: Vec::new(),
        waiting: Vec::new(),
        groups: Groups { of: vec![NONE; claims], members: Vec::new() },
    };
    for claim in 0..claims as u32 {
        if search.number[claim as usize] == 0 {
            search.run(claim);
        }
    }
    search.groups
}
