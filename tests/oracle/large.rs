//! Made jobs near all limits, in eight shapes.

use crate::checks::{MAX_CLAIMS, MAX_INPUT_BYTES, MAX_LITERALS, MAX_QUESTIONS, MAX_RULES, MAX_WORKERS};
use crate::draft::{plain, signed, Draft, Random};
use crate::shapes::{add_bodies, add_chain, add_clusters, add_negative_loops, add_ring, add_stratified, add_tower};

/// Near all limits; every fourth seed exactly at all of them.  The seed also
/// chooses the shape, in turn.
pub fn make_large(random: &mut Random, seed: u64) -> Draft {
    let exact = seed % 4 == 0;
    let near = |random: &mut Random, limit: u32, slack: usize| {
        if exact {
            limit as usize
        } else {
            limit as usize - random.below(slack)
        }
    };
    let claims = near(random, MAX_CLAIMS, 64);
    let rules = near(random, MAX_RULES, 100);
    let literals = near(random, MAX_LITERALS, 300);
    let workers = near(random, MAX_WORKERS, 4);
    let questions = near(random, MAX_QUESTIONS, 30);
    let mut draft = Draft::new(claims, workers);
    let void = claims - 1;
    // Every shape leaves the last claim without a rule unless it tops up freely.
    match (seed / 4 + seed) % 8 {
        0 => {
            let negated = random.pick(&[5, 20, 35, 50, 80]);
            if random.percent(50) {
                add_bodies(&mut draft, random, negated);
                while draft.rules.len() > rules - 1 || draft.literal_sum() > literals {
                    let extra = random.below(draft.rules.len());
                    draft.rules.swap_remove(extra);
                }
            }
            draft.top_up(random, rules, literals, None, negated);
        }
        1 => {
            // One ring through all claims and all workers.
            let ring: Vec<usize> = (0..claims - 1).collect();
            add_ring(&mut draft, random, &ring, 0, 20);
            draft.top_up(random, rules, literals, None, 20);
        }
        2 => {
            let length = (claims - 1) / 3;
            for chain in 0..3 {
                add_chain(&mut draft, random, chain * length, length, 0);
            }
            draft.top_up(random, rules, literals, Some(void), 30);
        }
        3 => {
            add_negative_loops(&mut draft, random, 0, claims - 1, 10);
            draft.rules.truncate(rules - 100);
            draft.top_up(random, rules, literals, Some(void), 50);
        }
        4 => {
            add_clusters(&mut draft, random, 40, 30);
            draft.rules.truncate(rules - 100);
            draft.top_up(random, rules, literals, Some(void), 50);
        }
        5 => {
            add_tower(&mut draft, claims - 2);
            draft.rules.truncate(rules - 1);
            draft.top_up(random, rules, literals, Some(void), 30);
        }
        6 => {
            // A ring whose members have many literals left when it closes.
            let ring: Vec<usize> = (0..claims - 1).collect();
            for (i, &claim) in ring.iter().enumerate() {
                let mut body = vec![plain(ring[(i + 1) % ring.len()])];
                for _ in 0..2 {
                    let other = random.pick(&ring);
                    body.push(signed(random, other, 1));
                }
                draft.rule(claim, &body);
            }
            draft.top_up(random, rules, literals, Some(void), 30);
        }
        _ => {
            add_stratified(&mut draft, random, rules - 100, 12, 3);
            while draft.literal_sum() > literals - 100 {
                draft.rules.pop();
            }
            draft.top_up(random, rules, literals, Some(void), 50);
        }
    }
    if random.percent(30) {
        draft.permute_claims(random);
    }
    draft.questions.truncate(questions);
    let asks = questions - draft.questions.len();
    draft.ask_randomly(random, asks);
    let most = MAX_INPUT_BYTES - draft.job_bytes().len();
    draft.schedule_randomly(random, most);
    if exact && random.percent(50) {
        draft.schedule = (0..most).map(|_| random.below(workers) as u8).collect();
    }
    draft
}

/// The largest job: all counts at their limits.
pub fn largest_job() -> Draft {
    let mut draft = Draft::new(4096, 32);
    for rule in 0..6144usize {
        let head = rule * 2 / 3;
        let length = if rule < 4096 { 3 } else { 2 };
        let body: Vec<u16> = (0..length).map(|i| plain((head + i) % 4096)).collect();
        draft.rule(head, &body);
    }
    for question in 0..1024 {
        draft.ask(question % 32, question * 4 + 3);
    }
    draft
}
