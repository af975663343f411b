//! The words of a shared table: where they stand, how they start, checks 9 and
//! 10, and what they say.

use std::collections::BinaryHeap;

use crate::checks::{refuse, Job, Refusal};
use crate::model::Verdict;
use crate::orders::Orders;

pub const OPENED_COUNT: usize = 7;
pub const CLAIM_WORDS: usize = 3;

/// Where the table's words stand.
#[derive(Clone, Copy)]
pub struct Layout {
    pub claims_at: usize,
    pub workers_at: usize,
    pub questions_at: usize,
    pub used: usize,
}

impl Layout {
    pub fn of_job(job: &Job, orders: Orders) -> Layout {
        let claims_at = 8;
        let workers_at = claims_at + CLAIM_WORDS * job.claims;
        let questions_at = workers_at + orders.worker_words() * job.workers;
        Layout { claims_at, workers_at, questions_at, used: questions_at + job.questions.len() }
    }
}

#[derive(Clone)]
pub struct Table<'a> {
    pub job: &'a Job,
    pub orders: Orders,
    pub layout: Layout,
    pub words: Vec<u32>,
    /// Follow the specification's text step by step, without the shortcuts below.
    pub by_text: bool,
    /// Shortcut: per worker (opening number, claim) of claims it owns or once
    /// owned; entries whose mark has moved on are dropped when met.
    pub newest: Vec<BinaryHeap<(u32, u32)>>,
    /// Shortcut: visited stamps for `reached`.
    pub stamps: Vec<u32>,
    pub stamp: u32,
    /// Shortcut: a claim's number in the small program of `values_local`.
    pub local: Vec<u32>,
    /// Shortcut: what was last found from a worker's newest claim, as long as
    /// no turn since can have changed it.
    pub found: Option<Found>,
}

/// What is reached from a worker's newest claim.
#[derive(Clone)]
pub struct Found {
    pub worker: u32,
    pub newest: u32,
    pub members: Vec<u32>,
    /// (opening number, claim) of the worker's members with a literal left, and
    /// of some that have none left by now.
    pub unread: BinaryHeap<(u32, u32)>,
    /// Some member is not the worker's.
    pub foreign: bool,
}

impl<'a> Table<'a> {
    pub fn start(job: &'a Job, orders: Orders, by_text: bool) -> Table<'a> {
        let layout = Layout::of_job(job, orders);
        let mut words = vec![0; layout.used];
        let header = [
            layout.used,
            job.claims,
            job.workers,
            job.questions.len(),
            layout.claims_at,
            layout.workers_at,
            layout.questions_at,
            0,
        ];
        for (word, value) in words.iter_mut().zip(header) {
            *word = value as u32;
        }
        Table {
            job,
            orders,
            layout,
            words,
            by_text,
            newest: vec![BinaryHeap::new(); job.workers],
            stamps: vec![0; job.claims],
            stamp: 0,
            local: vec![0; job.claims],
            found: None,
        }
    }

    /// Starting on lent words: check 9.  Words past those used stay.
    pub fn start_lent(job: &'a Job, orders: Orders, by_text: bool, words: Vec<u32>) -> Result<Table<'a>, Refusal> {
        let mut table = Table::start(job, orders, by_text);
        let used = table.layout.used;
        if words.len() < used {
            return refuse(9, used);
        }
        let started = std::mem::replace(&mut table.words, words);
        table.words[..used].copy_from_slice(&started);
        Ok(table)
    }

    /// A lent table: checks 9 and 10.  It follows the text without shortcuts,
    /// since no run need have made it.
    pub fn from_words(job: &'a Job, orders: Orders, words: Vec<u32>) -> Result<Table<'a>, Refusal> {
        let mut table = Table::start(job, orders, true);
        let used = table.layout.used;
        if words.len() < used {
            return refuse(9, used);
        }
        let header = table.words[..OPENED_COUNT].to_vec();
        table.words = words;
        match (0..used).find(|&at| !table.word_in_range(&header, at)) {
            Some(at) => refuse(10, at),
            None => Ok(table),
        }
    }

    /// Check 10 for one word.
    pub fn word_in_range(&self, header: &[u32], at: usize) -> bool {
        let (word, layout, job) = (self.words[at] as usize, self.layout, self.job);
        if at < OPENED_COUNT {
            return self.words[at] == header[at];
        }
        if at == OPENED_COUNT {
            return word == self.claims().filter(|&claim| self.mark(claim) != 0).count();
        }
        if at < layout.workers_at {
            let claim = ((at - layout.claims_at) / CLAIM_WORDS) as u32;
            let fresh = self.mark(claim) == 0;
            return match (at - layout.claims_at) % CLAIM_WORDS {
                0 => word <= job.workers || (256..=258).contains(&word),
                1 => word <= if fresh { 0 } else { job.literal_count(claim) },
                _ => (word == 0) == fresh && word <= job.claims,
            };
        }
        if at < layout.questions_at {
            let worker = (at - layout.workers_at) / self.orders.worker_words();
            return match (at - layout.workers_at) % self.orders.worker_words() {
                0 => word <= job.claims,
                1 => word <= job.asked[worker].len(),
                _ => self.is_newest_word(worker as u32),
            };
        }
        word <= 3
    }

    pub fn claims(&self) -> std::ops::Range<u32> {
        0..self.job.claims as u32
    }

    pub fn workers(&self) -> std::ops::Range<u32> {
        0..self.job.workers as u32
    }

    pub fn claim_at(&self, claim: u32) -> usize {
        self.layout.claims_at + CLAIM_WORDS * claim as usize
    }

    pub fn worker_at(&self, worker: u32) -> usize {
        self.layout.workers_at + self.orders.worker_words() * worker as usize
    }

    pub fn mark(&self, claim: u32) -> u32 {
        self.words[self.claim_at(claim)]
    }

    pub fn cursor(&self, claim: u32) -> usize {
        self.words[self.claim_at(claim) + 1] as usize
    }

    pub fn opening(&self, claim: u32) -> u32 {
        self.words[self.claim_at(claim) + 2]
    }

    pub fn value(&self, claim: u32) -> Option<Verdict> {
        Verdict::of_mark(self.mark(claim))
    }

    pub fn complete(&self, claim: u32) -> bool {
        self.value(claim).is_some()
    }

    pub fn owner(&self, claim: u32) -> Option<u32> {
        let mark = self.mark(claim);
        (1..256).contains(&mark).then(|| mark - 1)
    }

    pub fn awaited(&self, worker: u32) -> Option<u32> {
        self.words[self.worker_at(worker)].checked_sub(1)
    }

    pub fn answered(&self, worker: u32) -> usize {
        self.words[self.worker_at(worker) + 1] as usize
    }

    pub fn answer(&self, question: usize) -> u32 {
        self.words[self.layout.questions_at + question]
    }

    pub fn all_answered(&self) -> bool {
        self.workers().all(|worker| self.answered(worker) == self.job.asked[worker as usize].len())
    }

    pub fn literals_left(&self, claim: u32) -> bool {
        self.cursor(claim) < self.job.literal_count(claim)
    }

    /// The newest of some claims: highest opening number, then highest claim.
    pub fn newest_of(&self, claims: impl Iterator<Item = u32>) -> Option<u32> {
        claims.max_by_key(|&claim| (self.opening(claim), claim))
    }

    /// The worker's newest open claim, by search.
    pub fn newest_found(&self, worker: u32) -> Option<u32> {
        self.newest_of(self.claims().filter(|&claim| self.owner(claim) == Some(worker)))
    }
}
