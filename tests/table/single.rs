//! Single calls on any job and any words: refused jobs, tables that no run
//! made, edge cases of the orders.

use oracle::checks::{part_input, word_at, Job, Refusal};
use oracle::draft::Random;
use oracle::order_edges::{order_edges, EdgeCall};
use oracle::orders::Orders;
use oracle::table::Layout;

use crate::calls::Call;
use crate::lent::Lent;
use crate::others::{any_call, bad_turns, some_turns, too_large};
use crate::totals::Totals;

/// Turns of each worker on a table in which many verdicts are known.
const KNOWN_TURNS: usize = 40;

/// A job with words that may be a table of it.
pub struct Single<'a> {
    name: &'a str,
    bytes: &'a [u8],
    job: Result<Job, Refusal>,
    layout: Option<Layout>,
}

impl Single<'_> {
    pub fn new<'a>(name: &'a str, bytes: &'a [u8]) -> Single<'a> {
        let job = Job::check(bytes, Orders::in_force());
        let layout = job.as_ref().ok().map(|job| Layout::of_job(job, Orders::in_force()));
        Single { name, bytes, job, layout }
    }

    /// Both make the call on these words.  Answers the words it must leave.
    pub fn make(&self, totals: &mut Totals, how: &str, words: &[u32], call: &Call) -> Vec<u32> {
        let mut after = words.to_vec();
        let expected = call.on_words(&self.job, &mut after, &mut totals.on_tables);
        totals.count(call, &expected, self.layout.as_ref());
        if let Ok(job) = &self.job {
            totals.count_bad_word(job, words, &expected);
        }
        let mut lent = Lent::new(words);
        let given = call.by_library(self.bytes, lent.table(words.len()));
        if given != expected {
            totals.differ(self.name, &format!("{how}: {call} gives {given}, expected {expected}"));
        }
        if let Some(word) = lent.difference(&after) {
            totals.differ(self.name, &format!("{how}: {call}: {word}"));
        }
        after
    }
}

/// Every call refuses a bad job as the check of jobs does, whatever else is lent.
pub fn compare_refused_job(totals: &mut Totals, name: &str, bytes: &[u8], random: &mut Random) {
    let single = Single::new(name, bytes);
    let words: Vec<u32> = (0..random.within(0, 60)).map(|_| random.next() as u32).collect();
    let calls = [Call::Start, Call::Turn(0), Call::Turn(99), Call::Run(vec![0, 77]), Call::Read(0), Call::Read(5000)];
    for call in &calls {
        single.make(totals, "a refused job", &words, call);
    }
}

/// A job with a table that no run need have made: every call on it, and turns
/// that go on from it.
pub fn compare_table(totals: &mut Totals, name: &str, input: &[u8]) {
    totals.jobs += 1;
    let (bytes, rest) = part_input(input);
    let mut words: Vec<u32> = rest.chunks_exact(4).map(|word| word_at(word, 0)).collect();
    let single = Single::new(name, bytes);
    let job = single.job.as_ref().expect("a job with a table is accepted");
    totals.count_job(job);
    let random = &mut Random::new(name, 2);
    let mut calls: Vec<Call> = (0..job.workers).map(Call::Turn).collect();
    calls.extend((0..job.claims).map(Call::Read));
    calls.push(Call::Start);
    calls.push(Call::Turn(too_large(random, job.workers)));
    calls.push(Call::Read(too_large(random, job.claims)));
    calls.push(Call::Run(bad_turns(random, job.workers)));
    calls.push(Call::Run(some_turns(random, job.workers, 60)));
    for call in &calls {
        single.make(totals, "the table as it is", &words, call);
    }
    for step in 0..random.within(0, 40) {
        let call = any_call(random, job);
        words = single.make(totals, &format!("step {step}"), &words, &call);
    }
}

/// A large job with a table in which many verdicts are known: a run of every
/// worker on it, as long as their next completion is likely to need.
pub fn compare_known(totals: &mut Totals, name: &str, input: &[u8]) {
    totals.jobs += 1;
    let (bytes, rest) = part_input(input);
    let words: Vec<u32> = rest.chunks_exact(4).map(|word| word_at(word, 0)).collect();
    let single = Single::new(name, bytes);
    let job = single.job.as_ref().expect("a job with a table is accepted");
    totals.count_job(job);
    for worker in 0..job.workers {
        single.make(totals, "the table as it is", &words, &Call::Run(vec![worker as u8; KNOWN_TURNS]));
    }
}

/// The edge cases of the orders in force, each a call on a table.
pub fn compare_order_edges(totals: &mut Totals) {
    for edge in order_edges(Orders::in_force()) {
        totals.jobs += 1;
        let call = match edge.call {
            EdgeCall::Start => Call::Start,
            EdgeCall::Turn(worker) => Call::Turn(worker as usize),
            EdgeCall::Run(schedule) => Call::Run(schedule),
            EdgeCall::Read(claim) => Call::Read(claim as usize),
        };
        Single::new(&edge.name, &edge.job).make(totals, "the edge case", &edge.table, &call);
    }
}
