//! The calls of a list that make no turn: readings, empty runs, refused calls.

use oracle::checks::{Job, Refusal};
use oracle::draft::Random;
use oracle::orders::Orders;

use crate::calls::Call;
use crate::lists::List;

/// Workers and claims that are too large: just so, and so that fewer bits of
/// them would be in range.
pub fn too_large(random: &mut Random, limit: usize) -> usize {
    let inside = random.below(limit.max(1));
    let above = [limit, limit + 1, limit + 7, 256 * limit.max(1), 65_536 + inside, (1 << 32) + inside];
    random.pick(&above).max(random.pick(&[limit, usize::MAX]))
}

/// A value for a word of a table: near its old one, or at an edge of some range.
pub fn edge_value(random: &mut Random, old: u32, job: &Job) -> u32 {
    let (claims, workers) = (job.claims as u32, job.workers as u32);
    let near = [old.wrapping_add(1), old.wrapping_sub(1), old.wrapping_add(256), old.wrapping_add(65_536)];
    let edges = [0, 1, 3, 4, claims, claims + 1, workers, workers + 1, 33, 255, 256, 258, 259, 1 << 31, u32::MAX];
    if random.percent(40) {
        random.pick(&near)
    } else {
        random.pick(&edges)
    }
}

/// A schedule of known workers.
pub fn some_turns(random: &mut Random, workers: usize, most: usize) -> Vec<u8> {
    (0..random.within(0, most)).map(|_| random.below(workers) as u8).collect()
}

/// A schedule in which at least one byte names no worker.
pub fn bad_turns(random: &mut Random, workers: usize) -> Vec<u8> {
    let mut turns = some_turns(random, workers, 30);
    for _ in 0..random.within(1, 2) {
        let at = random.below(turns.len() + 1);
        turns.insert(at, random.pick(&[workers as u8, workers as u8 + 1, 128, 255]));
    }
    turns
}

/// A turn, run or reading that the last check refuses.
pub fn bad_call(random: &mut Random, job: &Job) -> Call {
    match random.below(3) {
        0 => Call::Turn(too_large(random, job.workers)),
        1 => Call::Run(bad_turns(random, job.workers)),
        _ => Call::Read(too_large(random, job.claims)),
    }
}

/// A turn, run or reading, good or bad.
pub fn any_call(random: &mut Random, job: &Job) -> Call {
    match random.below(4) {
        0 => bad_call(random, job),
        1 => Call::Run(some_turns(random, job.workers, 10)),
        2 if job.claims > 0 => Call::Read(random.below(job.claims)),
        _ => Call::Turn(random.below(job.workers)),
    }
}

/// The job with a byte changed or its end cut off, where that is refused.
fn damaged_job(random: &mut Random, bytes: &[u8]) -> Option<(Vec<u8>, Refusal)> {
    let mut damaged = bytes.to_vec();
    let at = random.below(bytes.len());
    match random.below(4) {
        0 => damaged.truncate(at),
        _ => damaged[at] = damaged[at].wrapping_add(random.within(1, 255) as u8),
    }
    let refusal = Job::check(&damaged, Orders::in_force()).err()?;
    Some((damaged, refusal))
}

impl List<'_> {
    /// One call that makes no turn.
    pub fn other_call(&mut self) {
        match self.random.below(8) {
            0..=2 if self.job.claims > 0 => {
                let claim = self.random.below(self.job.claims);
                self.beside.make(&Call::Read(claim));
            }
            3 => _ = self.beside.make(&Call::Run(Vec::new())),
            4 => {
                let call = bad_call(&mut self.random, self.job);
                self.beside.make(&call);
            }
            5 => self.short_call(),
            6 => self.damaged_word_call(),
            _ => self.damaged_job_call(),
        }
    }

    fn short_call(&mut self) {
        let used = self.beside.table.layout.used;
        let length = if self.random.percent(50) { used - 1 } else { self.random.below(used) };
        let call = if self.random.percent(20) { Call::Start } else { any_call(&mut self.random, self.job) };
        self.beside.make_short(&call, length);
    }

    fn damaged_word_call(&mut self) {
        let at = self.random.below(self.beside.table.layout.used);
        let value = edge_value(&mut self.random, self.beside.table.words[at], self.job);
        let call = any_call(&mut self.random, self.job);
        self.beside.make_damaged(&call, at, value);
    }

    fn damaged_job_call(&mut self) {
        if let Some((bytes, refusal)) = damaged_job(&mut self.random, self.bytes) {
            let call = if self.random.percent(20) { Call::Start } else { any_call(&mut self.random, self.job) };
            self.beside.make_with(&call, &bytes, refusal);
        }
    }
}
