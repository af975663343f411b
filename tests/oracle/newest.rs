//! The third word of a worker (order 3): its newest open claim + 1, or 0.

use std::cmp::Reverse;

use crate::orders::Newest;
use crate::table::Table;
use crate::turns::Kind;

impl Table<'_> {
    /// The worker's third word.
    pub fn newest_word(&self, worker: u32) -> u32 {
        self.words[self.worker_at(worker) + 2]
    }

    /// Check 10 for it: the claims are searched for this worker's newest.
    pub fn is_newest_word(&self, worker: u32) -> bool {
        let word = self.newest_word(worker);
        let own = self.claims().filter(|&claim| self.owner(claim) == Some(worker));
        let found = match self.orders.newest {
            Newest::RangeOnly => return word as usize <= self.job.claims,
            Newest::LowestOfEqual => own.max_by_key(|&claim| (self.opening(claim), Reverse(claim))),
            _ => self.newest_found(worker),
        };
        word == found.map_or(0, |claim| claim + 1)
    }

    /// What a search over all claims finds for every worker.  A mark out of range
    /// is nobody's.
    fn newest_words_found(&self) -> Vec<u32> {
        let mut newest: Vec<Option<(u32, u32)>> = vec![None; self.job.workers];
        for claim in self.claims() {
            let owner = self.owner(claim).map_or(usize::MAX, |owner| owner as usize);
            let (Some(place), number) = (newest.get_mut(owner), self.opening(claim)) else { continue };
            let newer = match self.orders.newest {
                Newest::LowestOfEqual => place.map_or(true, |(highest, _)| number > highest),
                _ => place.map_or(true, |(highest, _)| number >= highest),
            };
            if newer {
                *place = Some((number, claim));
            }
        }
        newest.into_iter().map(|found| found.map_or(0, |(_, claim)| claim + 1)).collect()
    }

    pub fn put_newest_word(&mut self, worker: u32, word: u32) {
        let at = self.worker_at(worker) + 2;
        self.words[at] = word;
    }

    /// Makes every third word what a search finds.
    pub fn put_newest_words(&mut self) {
        if self.orders.newest != Newest::Off {
            let found = self.newest_words_found();
            self.workers().zip(found).for_each(|(worker, word)| self.put_newest_word(worker, word));
        }
    }

    /// Shortcut: after a turn of this worker and kind, by the heaps of the claims of
    /// the workers that it touched.
    pub fn put_words_of_heaps(&mut self, worker: u32, kind: Kind) {
        let touched = match kind {
            Kind::Opened | Kind::Completed => worker..worker + 1,
            Kind::Took => 0..self.job.workers as u32,
            _ => 0..0,
        };
        for worker in touched {
            let word = self.newest_open(worker).map_or(0, |claim| claim + 1);
            self.put_newest_word(worker, word);
        }
    }

    /// The same after a turn of this worker and kind, as order 3 is read.
    pub fn renew_newest_words(&mut self, worker: u32, kind: Kind) {
        match (self.orders.newest, kind) {
            (Newest::LastOpened, Kind::Opened) | (Newest::KeptAtCompletion, Kind::Completed) => {}
            (Newest::LosersKept, Kind::Took) => {
                let found = self.newest_words_found();
                self.put_newest_word(worker, found[worker as usize]);
            }
            _ => self.put_newest_words(),
        }
    }
}
