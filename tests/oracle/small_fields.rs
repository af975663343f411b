//! Small made fields: rings through several workers, and rules that fail at an
//! early literal.

use crate::draft::{plain, random_literal, signed, Draft, Random};

/// Rings of rules, some of whose bodies have other literals before and behind
/// the ring's.
fn add_small_rings(draft: &mut Draft, random: &mut Random, negated: usize) {
    for _ in 0..random.within(0, 2) {
        let mut ring: Vec<usize> = (0..draft.claims).collect();
        random.shuffle(&mut ring);
        ring.truncate(random.within(1, draft.claims));
        for (i, &claim) in ring.iter().enumerate() {
            let mut body = vec![signed(random, ring[(i + 1) % ring.len()], negated)];
            while body.len() < 3 && random.percent(35) {
                let at = random.below(body.len() + 1);
                let field = random_literal(random, draft.claims, negated);
                body.insert(at, field);
            }
            draft.rule(claim, &body);
        }
    }
}

/// Rules whose first literal names a claim that is likely to be decided early
/// and false.
fn add_failing_rules(draft: &mut Draft, random: &mut Random, negated: usize) {
    let claims = draft.claims;
    let void = random.below(claims);
    for _ in 0..random.within(0, 3) {
        let mut body = vec![plain(void)];
        for _ in 0..random.within(1, 2) {
            body.push(random_literal(random, claims, negated));
        }
        if random.percent(30) {
            random.shuffle(&mut body);
        }
        let head = random.below(claims);
        draft.rule(head, &body);
    }
}

fn add_random_rules(draft: &mut Draft, random: &mut Random, most: usize, longest: usize, negated: usize) {
    for _ in 0..random.within(0, most) {
        let length = random.within(0, longest);
        let body: Vec<u16> = (0..length).map(|_| random_literal(random, draft.claims, negated)).collect();
        let head = random.below(draft.claims);
        draft.rule(head, &body);
    }
}

fn ask_apart(draft: &mut Draft, random: &mut Random) {
    for worker in 0..draft.workers {
        if random.percent(85) {
            let claim = random.below(draft.claims);
            draft.ask(worker, claim);
        }
    }
    let more = random.pick(&[0, 0, 0, 1, 2]);
    draft.ask_randomly(random, more);
}

/// One to `most_claims` claims and one to `most_workers` workers.
pub fn make_small_field(random: &mut Random, most_claims: usize, most_workers: usize) -> Draft {
    let claims = random.within(1, most_claims);
    let workers = random.within(1, most_workers).max(random.within(1, most_workers));
    let mut draft = Draft::new(claims, workers);
    let negated = random.pick(&[0, 15, 30, 50]);
    add_small_rings(&mut draft, random, negated);
    add_failing_rules(&mut draft, random, negated);
    add_random_rules(&mut draft, random, claims, 3, negated);
    random.shuffle(&mut draft.rules);
    ask_apart(&mut draft, random);
    draft
}
