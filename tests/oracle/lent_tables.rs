//! Jobs followed by the words of a table that no run need have made.

use crate::checks::Job;
use crate::draft::{Draft, Random};
use crate::failing::make_failing;
use crate::jobs::{make_small, make_tiny, make_tower};
use crate::missing_jobs::add_missing;
use crate::model::Verdict;
use crate::orders::{Newest, Orders};
use crate::table::{Table, OPENED_COUNT};
use crate::takeover_tables::make_takeover;

fn make_draft(random: &mut Random) -> Draft {
    match random.below(6) {
        0 => make_tiny(random),
        1 => make_tower(random),
        2 | 3 => make_failing(random, 12),
        _ => make_small(random),
    }
}

/// A job with the words of a table, for `oracle turn`: a table that turns made,
/// changed in some words within their ranges, or random within them, with third
/// words that a search finds; now and then one word is damaged or the table cut
/// short.  Some are made for a takeover.
pub fn make_table(random: &mut Random, seed: u64, orders: Orders) -> Vec<u8> {
    if random.percent(8) {
        return make_takeover(random, orders);
    }
    let mut draft = make_draft(random);
    add_missing(&mut draft, seed, orders);
    let mut bytes = draft.job_bytes();
    let job = Job::check(&bytes, orders).expect("a draft is accepted");
    let mut table = Table::start(&job, orders, true);
    for _ in 0..random.within(0, 6 * job.claims) {
        let worker = random.below(job.workers) as u32;
        table.turn(worker);
    }
    let complete = random.pick(&[25, 25, 60, 90]);
    for _ in 0..random.pick(&[0, 1, 3, 10, 4 * job.claims]) {
        if job.claims > 0 && random.percent(75) {
            put_claim(&mut table, random, complete);
        } else {
            put_worker(&mut table, random);
        }
    }
    if job.missing_records() > 0 {
        put_missing_false(&mut table, random);
    }
    if random.percent(30) {
        put_numbers(&mut table, random);
    }
    table.words[OPENED_COUNT] = table.claims().filter(|&claim| table.mark(claim) != 0).count() as u32;
    table.put_newest_words();
    damage_words(&mut table, random);
    bytes.extend(table.words.iter().flat_map(|word| word.to_le_bytes()));
    bytes
}

/// A claim's record put to another in range; of a hundred so many are complete.
fn put_claim(table: &mut Table, random: &mut Random, complete: usize) {
    let (claims, workers) = (table.job.claims, table.job.workers);
    let claim = random.below(claims) as u32;
    let at = table.claim_at(claim);
    let literals = table.job.literal_count(claim);
    let mark = match random.percent(complete) {
        true => random.within(256, 258),
        false if random.percent(30) => 0,
        false => random.within(1, workers),
    };
    let cursor = if random.percent(60) { literals } else { random.within(0, literals) };
    let record = if mark == 0 { [0, 0, 0] } else { [mark, cursor, random.within(1, claims)] };
    for (word, value) in table.words[at..].iter_mut().zip(record) {
        *word = value as u32;
    }
}

/// Gives some open claims other opening numbers: equal ones, low ones, and such that
/// pass the opened count by one or more.
pub fn put_numbers(table: &mut Table, random: &mut Random) {
    let (chance, low, claims) = (random.pick(&[5, 30, 90]), random.percent(40), table.job.claims);
    let open: Vec<u32> = table.claims().filter(|&claim| table.owner(claim).is_some()).collect();
    let opened = table.claims().filter(|&claim| table.mark(claim) != 0).count();
    for &claim in &open {
        let (at, other) = (table.claim_at(claim), table.opening(random.pick(&open)) as usize);
        let high = [other, opened, opened + 1, opened + 2, claims, random.within(1, claims)];
        let number = if low { random.within(1, 2) } else { random.pick(&high) };
        if random.percent(chance) {
            table.words[at + 2] = number.min(claims) as u32;
        }
    }
}

/// Marks claims with missing records false, as no run does, in half of the tables.
pub fn put_missing_false(table: &mut Table, random: &mut Random) {
    let chance = random.pick(&[0, 0, 40, 90]);
    for claim in table.claims().filter(|&claim| table.job.has_missing_record(claim)) {
        if random.percent(chance) {
            let (at, claims) = (table.claim_at(claim), table.job.claims);
            table.words[at] = Verdict::False.mark();
            table.words[at + 2] = random.within(1, claims) as u32;
        }
    }
}

fn put_worker(table: &mut Table, random: &mut Random) {
    let worker = random.below(table.job.workers);
    let at = table.worker_at(worker as u32);
    table.words[at] = if random.percent(60) { 0 } else { random.within(0, table.job.claims) as u32 };
    table.words[at + 1] = random.within(0, table.job.asked[worker].len()) as u32;
}

/// Now and then the table is cut short, a word put out of range, or words added.
fn damage_words(table: &mut Table, random: &mut Random) {
    let (words, used) = (&mut table.words, table.layout.used);
    match random.below(20) {
        0 => words.truncate(random.below(used)),
        1 | 2 => {
            let at = random.below(used);
            words[at] = random.pick(&[words[at] + 1, words[at].wrapping_sub(1), 33, 255, 259, 4, u32::MAX, 0]);
        }
        3 | 4 => words.extend((0..random.within(1, 5)).map(|_| random.next() as u32).collect::<Vec<u32>>()),
        5 if table.orders.newest != Newest::Off => {
            let worker = random.below(table.job.workers) as u32;
            table.put_newest_word(worker, random.within(0, table.job.claims + 1) as u32);
        }
        _ => {}
    }
}
