//! Made jobs with groups, and pairs of them that differ only in rules of claims foreign to
//! one worker.

use crate::checks::{Job, MAX_LITERALS, MAX_QUESTIONS, MAX_RULES, NEGATED};
use crate::draft::{random_literal, Body, Draft, Random};
use crate::missing_jobs::insert_missing;
use crate::orders::{Missing, Orders};
use crate::partners::{may_ask, open_to, PUBLIC};

/// A job with the lists lent beside it.
#[derive(Clone)]
pub struct Shared {
    pub draft: Draft,
    pub claim_groups: Vec<u8>,
    pub worker_groups: Vec<u8>,
}

/// The most questions of a small job.
const QUESTIONS: usize = 12;

/// The most rules of a large job for a pair: the other one has some more.
const RULES_OF_PAIRS: usize = 5000;

/// A rule for `head` whose literals are mostly open to the head's group.
fn add_rule(random: &mut Random, shared: &mut Shared, head: usize, leaks: usize) {
    let claims = shared.draft.claims;
    let group = shared.claim_groups[head];
    let mut literals = Vec::new();
    for _ in 0..random.pick(&[0, 1, 1, 2, 2, 3]) {
        let literal = random_literal(random, claims, 40);
        let open = open_to(shared.claim_groups[usize::from(literal & !NEGATED)], group);
        if open || random.percent(leaks) {
            literals.push(literal);
        }
    }
    shared.draft.rule(head, &literals);
}

fn add_rules(random: &mut Random, shared: &mut Shared, orders: Orders) {
    let leaks = random.pick(&[0, 0, 5, 20]);
    for _ in 0..random.within(0, 2 * shared.draft.claims) {
        let head = random.below(shared.draft.claims);
        add_rule(random, shared, head, leaks);
    }
    shared.draft.sort_by_head();
    while orders.missing != Missing::Off && random.percent(30) {
        let head = random.below(shared.draft.claims);
        insert_missing(&mut shared.draft, random, head);
    }
}

fn random_groups(random: &mut Random, count: usize, public: usize) -> Vec<u8> {
    let groups = random.pick(&[&[1, 2][..], &[1, 2, 3], &[7], &[255, 1, 128]]);
    (0..count).map(|_| if random.percent(public) { PUBLIC } else { random.pick(groups) }).collect()
}

/// A job with groups, still without questions.
fn make_unasked(random: &mut Random, orders: Orders) -> Shared {
    let claims = random.within(1, 14) * random.pick(&[1, 1, 1, 4]);
    let workers = random.within(1, 5);
    let public = random.pick(&[20, 40, 60]);
    let (claim_groups, worker_groups) = (random_groups(random, claims, public), random_groups(random, workers, 20));
    let mut shared = Shared { draft: Draft::new(claims, workers), claim_groups, worker_groups };
    add_rules(random, &mut shared, orders);
    shared
}

/// Adds up to `most` questions that are allowed in all the given jobs, with `strays` in a
/// hundred added whether or not.
fn add_questions(random: &mut Random, jobs: &mut [Shared], most: usize, strays: usize, orders: Orders) {
    let check = |shared: &Shared| Job::check(&shared.draft.job_bytes(), orders).expect("a made job is accepted");
    let checked: Vec<Job> = jobs.iter().map(check).collect();
    for _ in 0..random.within(1, most) {
        let (worker, claim) = (random.below(jobs[0].draft.workers), random.below(jobs[0].draft.claims));
        let allowed = |(shared, job): (&Shared, &Job)| {
            may_ask(job, &shared.claim_groups, shared.worker_groups[worker], claim as u32)
        };
        if random.percent(strays) || jobs.iter().zip(&checked).all(allowed) {
            jobs.iter_mut().for_each(|shared| shared.draft.ask(worker, claim));
        }
    }
}

/// A job with groups; most are admitted.
pub fn make_shared(random: &mut Random, orders: Orders) -> Shared {
    let mut jobs = [make_unasked(random, orders)];
    let strays = random.pick(&[0, 0, 10]);
    add_questions(random, &mut jobs, QUESTIONS, strays, orders);
    let [mut shared] = jobs;
    if random.percent(8) {
        let length = random.below(2 * shared.draft.claims + 1);
        shared.claim_groups.resize(length, 1);
    }
    if random.percent(8) {
        let length = random.below(2 * shared.draft.workers + 1);
        shared.worker_groups.resize(length, 1);
    }
    shared
}

/// A job up to the limits, of up to `rules` rules and with up to 255 groups, still without
/// questions; its rules lead on within the group of their head, but for `leaks` literals in
/// 10,000.
fn make_wide_unasked(random: &mut Random, rules: usize) -> Shared {
    let (claims, workers, leaks) = (random.pick(&[50, 500, 4096]), random.within(1, 32), random.pick(&[0, 0, 5, 200]));
    let most = random.pick(&[1, 2, 5, 32, 255]);
    let claim_groups: Vec<u8> =
        (0..claims).map(|_| if random.percent(60) { PUBLIC } else { random.within(1, most) as u8 }).collect();
    let worker_groups: Vec<u8> = (0..workers).map(|_| random.within(0, most) as u8).collect();
    let mut shared = Shared { draft: Draft::new(claims, workers), claim_groups, worker_groups };
    let mut left = MAX_LITERALS as usize;
    for _ in 0..random.within(0, rules) {
        let head = random.below(claims);
        let mut body: Vec<u16> = (0..random.within(0, 4)).map(|_| random_literal(random, claims, 40)).collect();
        let within = |literal: u16| shared.claim_groups[usize::from(literal & !NEGATED)] == shared.claim_groups[head];
        body.retain(|&literal| within(literal) || random.below(10_000) < leaks);
        body.truncate(left);
        left -= body.len();
        shared.draft.rule(head, &body);
    }
    shared
}

/// A job up to the limits, with up to 255 groups.
pub fn make_wide_shared(random: &mut Random) -> Shared {
    let mut shared = make_wide_unasked(random, MAX_RULES as usize);
    for _ in 0..random.within(0, MAX_QUESTIONS as usize) {
        let (worker, claim) = (random.below(shared.draft.workers), random.below(shared.draft.claims));
        if open_to(shared.claim_groups[claim], shared.worker_groups[worker]) || random.below(2000) == 0 {
            shared.draft.ask(worker, claim);
        }
    }
    shared
}

/// Other rules for claims foreign to `group`; all else stays.
fn exchange_foreign_rules(random: &mut Random, shared: &Shared, group: u8, orders: Orders) -> Shared {
    let foreign = |head: usize| !open_to(shared.claim_groups[head], group);
    let mut other = shared.clone();
    other.draft.rules.retain(|(head, _)| !foreign(usize::from(*head)) || random.percent(30));
    let leaks = random.pick(&[0, 20, 100]);
    for head in (0..shared.draft.claims).filter(|&head| foreign(head)) {
        for _ in 0..random.within(0, 2) {
            add_rule(random, &mut other, head, leaks);
        }
        if orders.missing != Missing::Off && random.percent(15) {
            other.draft.rules.push((head as u16, Body::Missing));
        }
    }
    other.draft.sort_by_head();
    other
}

/// Two jobs that differ only in rules headed by claims foreign to the worker.
pub struct Pair {
    pub one: Shared,
    pub other: Shared,
    pub worker: usize,
}

impl Pair {
    /// Whether the jobs differ only in rules headed by claims that are neither
    /// public nor of the worker's group.
    pub fn fits(&self) -> bool {
        let group = self.one.worker_groups[self.worker];
        let seen = |shared: &Shared| {
            let mut draft = shared.draft.clone();
            draft.rules.retain(|(head, _)| open_to(shared.claim_groups[usize::from(*head)], group));
            (draft.job_bytes(), shared.claim_groups.clone(), shared.worker_groups.clone())
        };
        seen(&self.one) == seen(&self.other)
    }

    /// How many questions are the worker's.
    pub fn own_questions(&self) -> usize {
        self.one.draft.questions.iter().filter(|(asker, _)| usize::from(*asker) == self.worker).count()
    }

    /// Whether some answer of the worker, or of the others, differs.
    pub fn differ(&self, answers: &[Vec<u32>; 2], own: bool) -> bool {
        let asked = |&(_, &(asker, _)): &(usize, &(u16, u16))| (usize::from(asker) == self.worker) == own;
        let mut questions = self.one.draft.questions.iter().enumerate().filter(asked);
        questions.any(|(question, _)| answers[0][question] != answers[1][question])
    }
}

/// A pair of this job, which has no questions, and of one with other rules for claims foreign
/// to a worker; the same questions, at most so many, in both.
fn pair_of(random: &mut Random, one: Shared, questions: usize, orders: Orders) -> Pair {
    let worker = random.below(one.draft.workers);
    let group = one.worker_groups[worker];
    let other = exchange_foreign_rules(random, &one, group, orders);
    let mut jobs = [one, other];
    let strays = random.pick(&[0, 0, 0, 30]);
    add_questions(random, &mut jobs, questions, strays, orders);
    let [one, other] = jobs;
    Pair { one, other, worker }
}

pub fn make_pair(random: &mut Random, orders: Orders) -> Pair {
    let one = make_unasked(random, orders);
    pair_of(random, one, QUESTIONS, orders)
}

/// A pair up to the limits, with up to 32 workers and 255 groups.
pub fn make_wide_pair(random: &mut Random, orders: Orders) -> Pair {
    let one = make_wide_unasked(random, RULES_OF_PAIRS);
    pair_of(random, one, MAX_QUESTIONS as usize, orders)
}
