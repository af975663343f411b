//! Small dense jobs with tables that no run made, from which a worker has many turns
//! on what one newest claim reaches: it has passed its literals, while claims below
//! it, of any opening numbers, have some left.

use crate::between_tables::make_between;
use crate::checks::Job;
use crate::draft::{random_literal, signed, Draft, Random};
use crate::lent_tables::put_missing_false;
use crate::missing_jobs::add_missing;
use crate::model::Verdict;
use crate::orders::Orders;
use crate::table::{Table, OPENED_COUNT};

/// Most claims have rules, with literals of any claims.  `cut`, where there is one,
/// stands in many bodies and is complete in the table.
fn make_draft(random: &mut Random, cut: Option<usize>) -> Draft {
    let claims = if random.percent(8) { random.within(13, 30) } else { random.within(4, 12) };
    let mut draft = Draft::new(claims, random.pick(&[2, 3, 3, 4]));
    let (negated, longest, cuts) = (random.pick(&[0, 20, 50]), random.within(2, 4), random.pick(&[20, 60]));
    for head in 0..claims {
        for _ in 0..random.pick(&[0, 1, 1, 1, 2, 2, 2, 3]) {
            let length = if random.percent(4) { 0 } else { random.within(1, longest) };
            let mut body: Vec<u16> = (0..length).map(|_| random_literal(random, claims, negated)).collect();
            if let (Some(cut), true) = (cut, random.percent(cuts)) {
                let at = random.below(length + 1);
                body.insert(at, signed(random, cut, 30));
            }
            draft.rule(head, &body);
        }
    }
    let asks = random.within(1, 8);
    draft.ask_randomly(random, asks);
    draft
}

/// How the records of a table are chosen; of a hundred claims so many are complete,
/// of the others so many fresh, of the open ones so many the first worker's.
struct Shares {
    complete: usize,
    fresh: usize,
    own: usize,
    /// Of a hundred open claims, so many have passed all literals or none.
    passed: usize,
    unread: usize,
    /// Opening numbers lie between these.
    numbers: (usize, usize),
    /// Of a hundred other workers, so many await a claim.
    waiting: usize,
}

impl Shares {
    fn pick(random: &mut Random, claims: usize) -> Shares {
        let numbers = [(1, claims), (1, claims), (1, 2), (1, 1), (1, claims / 2), (claims - 1, claims)];
        Shares {
            complete: random.pick(&[0, 0, 10, 30]),
            fresh: random.pick(&[0, 15, 30, 50]),
            own: random.pick(&[20, 40, 70, 95]),
            passed: random.pick(&[5, 20, 40]),
            unread: random.pick(&[20, 50]),
            numbers: random.pick(&numbers),
            waiting: random.pick(&[0, 75, 90]),
        }
    }
}

/// A claim's record; `first` is the worker that has most of the open ones.
fn put_claim(table: &mut Table, random: &mut Random, shares: &Shares, first: u32, claim: u32) {
    let (at, literals) = (table.claim_at(claim), table.job.literal_count(claim));
    let mark = match random.percent(shares.complete) {
        true => random.within(256, 258),
        false if random.percent(shares.fresh) => 0,
        false if random.percent(shares.own) => first as usize + 1,
        false => random.within(1, table.job.workers),
    };
    let cursor = match random.below(100) {
        part if part < shares.passed => literals,
        part if part < shares.passed + shares.unread => 0,
        _ => random.within(0, literals),
    };
    let number = random.within(shares.numbers.0, shares.numbers.1);
    let record = if mark == 0 { [0, 0, 0] } else { [mark, cursor, number] };
    for (word, value) in table.words[at..].iter_mut().zip(record) {
        *word = value as u32;
    }
}

/// Makes a claim complete, mostly so that its plain or negated literals are false.
fn put_cut(table: &mut Table, random: &mut Random, claim: u32) {
    let (at, claims) = (table.claim_at(claim), table.job.claims);
    table.words[at] = random.pick(&[Verdict::False, Verdict::False, Verdict::True, Verdict::Undefined]).mark();
    table.words[at + 2] = random.within(1, claims) as u32;
}

/// Of a hundred newest claims of a worker so many have passed their literals, and most
/// have the highest number, so that they stay the newest when others are opened.
fn put_newest(table: &mut Table, random: &mut Random, ended: usize, worker: u32) {
    let Some(newest) = table.newest_found(worker) else { return };
    let at = table.claim_at(newest);
    if random.percent(ended) {
        table.words[at + 1] = table.job.literal_count(newest) as u32;
    }
    if random.percent(60) {
        table.words[at + 2] = table.job.claims as u32;
    }
}

/// A worker's words; of a hundred so many await a claim of another, half of them one of
/// `first`.
fn put_worker(table: &mut Table, random: &mut Random, waiting: usize, first: u32, worker: u32) {
    let at = table.worker_at(worker);
    let owned = |by: &dyn Fn(u32) -> bool| -> Vec<u32> {
        table.claims().filter(|&claim| table.owner(claim).is_some_and(by)).collect()
    };
    let (firsts, others) = (owned(&|owner| owner == first), owned(&|owner| owner != worker));
    let awaited = if random.percent(50) && worker != first { firsts } else { others };
    table.words[at] = match random.below(100) {
        part if part < waiting && !awaited.is_empty() => random.pick(&awaited) + 1,
        part if part < waiting + 4 => random.within(0, table.job.claims) as u32,
        _ => 0,
    };
    table.words[at + 1] = random.within(0, table.job.asked[worker as usize].len()) as u32;
}

/// What claims of a set are to meet.
#[derive(Clone, Copy)]
enum Wanted {
    Fresh,
    Others,
    Anything,
}

impl Wanted {
    fn fits(self, table: &Table, worker: u32, met: u32) -> bool {
        match self {
            Wanted::Fresh => table.mark(met) == 0,
            Wanted::Others => table.owner(met).is_some_and(|owner| owner != worker),
            Wanted::Anything => true,
        }
    }
}

/// Whether two claims of the worker at least, of what its newest one reaches, which
/// has passed its literals, have literals left, some of them of wanted claims.
fn is_promising(table: &mut Table, worker: u32, wanted: Wanted) -> bool {
    let newest = match (table.awaited(worker), table.newest_found(worker)) {
        (None, Some(newest)) if !table.literals_left(newest) => newest,
        _ => return false,
    };
    let mut members = table.reached(newest);
    members.retain(|&claim| table.owner(claim) == Some(worker) && table.literals_left(claim));
    let (job, first) = (table.job, |claim: u32| table.job.first[claim as usize]);
    let left = |claim: u32| &job.literals[first(claim) + table.cursor(claim)..first(claim + 1)];
    let mut literals = members.iter().flat_map(|&claim| left(claim));
    members.len() >= 2 && literals.any(|literal| wanted.fits(table, worker, literal.claim))
}

/// A table in range; `cut` is complete in it, and `first` has most of the open claims.
fn make_words(table: &mut Table, random: &mut Random, cut: Option<usize>, first: u32) {
    let shares = Shares::pick(random, table.job.claims);
    for claim in table.claims() {
        put_claim(table, random, &shares, first, claim);
    }
    if let Some(cut) = cut {
        put_cut(table, random, cut as u32);
    }
    if table.job.missing_records() > 0 {
        put_missing_false(table, random);
    }
    for worker in table.workers() {
        let (ended, waiting) = if worker == first { (95, 2) } else { (50, shares.waiting) };
        put_newest(table, random, ended, worker);
        put_worker(table, random, waiting, first, worker);
    }
    for at in table.layout.questions_at..table.layout.used {
        table.words[at] = random.below(4) as u32;
    }
    table.words[OPENED_COUNT] = table.claims().filter(|&claim| table.mark(claim) != 0).count() as u32;
    table.put_newest_words();
}

/// A job and the words of a table of it, which is in range, where that is promising;
/// now and then further words follow.
fn make_promising(random: &mut Random, seed: u64, orders: Orders, wanted: Wanted) -> Option<Vec<u8>> {
    let cut = random.percent(50).then(|| random.below(4));
    let mut draft = make_draft(random, cut);
    add_missing(&mut draft, seed, orders);
    let mut bytes = draft.job_bytes();
    let job = Job::check(&bytes, orders).expect("a draft is accepted");
    let mut table = Table::start(&job, orders, true);
    let first = random.below(job.workers) as u32;
    make_words(&mut table, random, cut, first);
    let more = random.pick(&[0, 0, 0, 0, 0, 1, 3]);
    table.words.extend((0..more).map(|_| random.next() as u32));
    bytes.extend(table.words.iter().flat_map(|word| word.to_le_bytes()));
    is_promising(&mut table, first, wanted).then_some(bytes)
}

/// The same, tried again until it is promising; some are made for others' turns between.
pub fn make_dense(random: &mut Random, seed: u64, orders: Orders) -> Vec<u8> {
    if random.percent(3) {
        return make_between(random, seed, orders);
    }
    let wanted = random.pick(&[Wanted::Fresh, Wanted::Fresh, Wanted::Others, Wanted::Others, Wanted::Anything]);
    loop {
        if let Some(bytes) = make_promising(random, seed, orders, wanted) {
            return bytes;
        }
    }
}
