//! Kind `words`: tables in range of small jobs, then with words out of range and
//! too short ones.

use oracle::checks::{part_input, word_at, Job};
use oracle::draft::Random;
use oracle::jobs::generate;
use oracle::orders::{Newest, Orders};
use oracle::table::{Layout, Table, OPENED_COUNT};

use crate::calls::Call;
use crate::others::{any_call, bad_call, edge_value};
use crate::single::Single;
use crate::totals::Totals;

/// A table in range of a small job: one that turns made, or one that none did.
fn table_in_range(seed: u64, random: &mut Random) -> (Vec<u8>, Vec<u32>) {
    let kind = random.pick(&["tiny", "tiny", "small", "table"]);
    let input = generate(kind, seed, Orders::in_force()).expect("the kind is known");
    let (bytes, rest) = part_input(&input);
    let job = Job::check(bytes, Orders::in_force()).expect("a made job is accepted");
    if kind == "table" {
        let words = rest.chunks_exact(4).map(|word| word_at(word, 0)).collect();
        if let Ok(table) = Table::from_words(&job, Orders::in_force(), words) {
            return (bytes.to_vec(), table.words);
        }
    }
    let mut table = Table::start(&job, Orders::in_force(), true);
    for _ in 0..random.within(0, 5 * job.claims) {
        table.turn(random.below(job.workers) as u32);
    }
    table.words.extend((0..random.within(0, 3)).map(|_| random.next() as u32));
    (bytes.to_vec(), table.words)
}

/// All values worth trying in a word; in a third one (order 3) every claim's.
fn all_values(old: u32, job: &Job, third: bool) -> Vec<u32> {
    let (claims, workers) = (job.claims as u32, job.workers as u32);
    let mut values = vec![0, 1, 2, 3, 4, 5, 32, 33, 254, 255, 256, 257, 258, 259, 65_535, 65_536, 1 << 31, u32::MAX];
    values.extend([claims, claims + 1, workers, workers + 1]);
    values.extend([1, 2, 256, 65_536, u32::MAX].map(|more| old.wrapping_add(more)));
    values.extend((1..=claims).filter(|_| third));
    values.sort_unstable();
    values.dedup();
    values.retain(|&value| value != old);
    values
}

/// A small job's table, of which others are made.
struct Words<'a> {
    single: Single<'a>,
    job: &'a Job,
    words: &'a [u32],
    layout: Layout,
    random: Random,
}

impl Words<'_> {
    fn any_call_on(&mut self, totals: &mut Totals, how: &str, words: &[u32]) {
        let call = any_call(&mut self.random, self.job);
        self.single.make(totals, how, words, &call);
    }

    /// The word is a worker's third one.
    fn is_third(&self, at: usize) -> bool {
        let workers = self.layout.workers_at..self.layout.questions_at;
        workers.contains(&at) && (at - workers.start) % Orders::in_force().worker_words() == 2
    }

    fn every_word(&mut self, totals: &mut Totals) {
        for at in 0..self.layout.used {
            for value in all_values(self.words[at], self.job, self.is_third(at)) {
                let mut damaged = self.words.to_vec();
                damaged[at] = value;
                self.any_call_on(totals, &format!("word {at} at {value}"), &damaged);
            }
        }
    }

    fn pairs(&mut self, totals: &mut Totals) {
        for _ in 0..self.layout.used {
            let mut damaged = self.words.to_vec();
            let places = [self.random.below(self.layout.used), self.random.below(self.layout.used)];
            for at in places {
                damaged[at] = edge_value(&mut self.random, self.words[at], self.job);
            }
            self.any_call_on(totals, &format!("words {places:?} changed"), &damaged);
        }
    }

    /// A claim's mark or opening number at another value, in range or not, and third
    /// words as they were, as a search finds them then, or one of them at any.
    fn pair_with_third_words(&mut self, totals: &mut Totals) {
        for _ in 0..if self.job.claims > 0 { 2 * self.layout.used } else { 0 } {
            let mut table = Table::start(self.job, Orders::in_force(), true);
            table.words = self.words.to_vec();
            let at = self.change_claim(&mut table);
            let value = table.words[at];
            match self.random.below(3) {
                0 => {}
                1 => table.put_newest_words(),
                _ => {
                    let worker = self.random.below(self.job.workers) as u32;
                    table.put_newest_word(worker, self.random.within(0, self.job.claims + 1) as u32);
                }
            }
            self.any_call_on(totals, &format!("word {at} at {value}, third words too"), &table.words);
        }
    }

    /// Changes a mark or an opening number, and mostly puts the opened count right.
    /// Answers where.
    fn change_claim(&mut self, table: &mut Table) -> usize {
        let (random, job) = (&mut self.random, self.job);
        let (part, worker) = (random.pick(&[0, 2]), random.within(1, job.workers));
        let at = table.claim_at(random.below(job.claims) as u32) + part;
        table.words[at] = match (random.percent(60), part) {
            (true, 0) => random.pick(&[1, worker, worker, 256, 257, 258]) as u32,
            (true, _) => random.within(1, job.claims) as u32,
            (false, _) => edge_value(random, self.words[at], job),
        };
        if random.percent(70) {
            table.words[OPENED_COUNT] = table.claims().filter(|&claim| table.mark(claim) != 0).count() as u32;
        }
        at
    }

    fn short_tables(&mut self, totals: &mut Totals) {
        for length in 0..self.layout.used {
            for call in [Call::Start, any_call(&mut self.random, self.job), bad_call(&mut self.random, self.job)] {
                self.single.make(totals, &format!("{length} words"), &self.words[..length], &call);
            }
        }
    }
}

/// Every word of a table at every value worth it, pairs of words, and every
/// length that is too short.
pub fn compare_words(totals: &mut Totals, name: &str, seed: u64) {
    totals.jobs += 1;
    let mut random = Random::new(name, 3);
    let (bytes, words) = table_in_range(seed, &mut random);
    let job = Job::check(&bytes, Orders::in_force()).expect("a made job is accepted");
    totals.count_job(&job);
    let layout = Layout::of_job(&job, Orders::in_force());
    let mut words = Words { single: Single::new(name, &bytes), job: &job, words: &words, layout, random };
    words.every_word(totals);
    words.pairs(totals);
    if Orders::in_force().newest != Newest::Off {
        words.pair_with_third_words(totals);
    }
    words.short_tables(totals);
}
