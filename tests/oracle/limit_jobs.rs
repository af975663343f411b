//! Made jobs near all limits that are damaged, or lent with a table in which
//! verdicts are known.

use crate::checks::Job;
use crate::damage::damage;
use crate::draft::{Draft, Random};
use crate::large::make_large;
use crate::lent_tables::{put_missing_false, put_numbers};
use crate::missing_jobs::add_missing;
use crate::orders::Orders;
use crate::table::{Table, OPENED_COUNT};

fn make_draft(random: &mut Random, seed: u64, orders: Orders) -> Draft {
    let mut draft = make_large(random, seed);
    add_missing(&mut draft, seed, orders);
    draft
}

/// A large job with one to three bytes, fields or lengths damaged.
pub fn make_marred(random: &mut Random, seed: u64, orders: Orders) -> Vec<u8> {
    let draft = make_draft(random, seed, orders);
    let mut bytes = draft.job_bytes();
    for _ in 0..random.within(1, 3) {
        damage(random, &mut bytes, &draft);
    }
    bytes
}

/// A large job with the words of a table that no run need have made: some turns,
/// then many claims complete with any verdict, so that a worker's next turns soon
/// evaluate the job with these verdicts known, and in half of them other opening
/// numbers.
pub fn make_known(random: &mut Random, seed: u64, orders: Orders) -> Vec<u8> {
    let mut bytes = make_draft(random, seed, orders).job_bytes();
    let job = Job::check(&bytes, orders).expect("a draft is accepted");
    let mut table = Table::start(&job, orders, false);
    for _ in 0..random.within(40, 2000) {
        table.turn(random.below(job.workers) as u32);
    }
    let share = random.pick(&[30, 60, 80, 90]);
    for claim in table.claims() {
        if random.percent(share) {
            complete(&mut table, random, claim);
        }
    }
    if job.missing_records() > 0 {
        put_missing_false(&mut table, random);
    }
    if random.percent(50) {
        put_numbers(&mut table, random);
    }
    table.words[OPENED_COUNT] = table.claims().filter(|&claim| table.mark(claim) != 0).count() as u32;
    table.put_newest_words();
    bytes.extend(table.words.iter().flat_map(|word| word.to_le_bytes()));
    bytes
}

/// Makes a claim complete with any verdict.
fn complete(table: &mut Table, random: &mut Random, claim: u32) {
    let (at, literals) = (table.claim_at(claim), table.job.literal_count(claim));
    let record = [random.within(256, 258), random.within(0, literals), random.within(1, table.job.claims)];
    for (word, value) in table.words[at..].iter_mut().zip(record) {
        *word = value as u32;
    }
}
