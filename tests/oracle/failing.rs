//! Made jobs in which most rules fail at an early literal.

use std::ops::Range;

use crate::draft::{not, plain, random_literal, signed, Draft, Random};

/// Adds the rules of a claim that others ask for first, and mostly in vain.
/// Answers the literal of it that is likely to be false.
fn add_cut(draft: &mut Draft, random: &mut Random, cut: usize) -> u16 {
    match random.below(9) {
        0..=2 => {}
        3 => {
            draft.rule(cut, &[]);
            return not(cut);
        }
        4 => draft.rule(cut, &[plain(cut)]),
        5 => draft.rule(cut, &[not(cut)]),
        6 => draft.rule(cut, &[not(random.below(cut + 1))]),
        7 => draft.rule(cut, &[plain(random.below(cut + 1))]),
        _ => {
            let field = random_literal(random, draft.claims, 30);
            draft.rule(cut, &[field]);
            return signed(random, cut, 50);
        }
    }
    plain(cut)
}

/// Adds a rule with literals behind one of `cuts`, now and then before it too.
fn add_failing_rule(draft: &mut Draft, random: &mut Random, head: usize, cuts: &[u16], negated: usize) {
    let length = random.within(0, 4);
    let mut body: Vec<u16> = (0..length).map(|_| random_literal(random, draft.claims, negated)).collect();
    let at = if random.percent(75) { 0 } else { random.below(length + 1) };
    match random.below(20) {
        0 => body.clear(),
        1 | 2 => {}
        _ => body.insert(at, random.pick(cuts)),
    }
    draft.rule(head, &body);
}

/// Adds a ring over some records behind their other rules, asked by the workers at
/// evenly spaced places, so that claims are taken over whose rules have failed.
fn add_ring_behind(draft: &mut Draft, random: &mut Random, records: Range<usize>) {
    let mut ring: Vec<usize> = records.collect();
    random.shuffle(&mut ring);
    ring.truncate(random.within(1, 8));
    for (i, &claim) in ring.iter().enumerate() {
        let field = signed(random, ring[(i + 1) % ring.len()], 10);
        draft.rule(claim, &[field]);
    }
    for worker in 0..draft.workers {
        draft.ask(worker, ring[worker * ring.len() / draft.workers]);
    }
}

/// Records that each hang on a cut which most of them fail.
pub fn make_failing(random: &mut Random, most: usize) -> Draft {
    let claims = random.within(3, most);
    let mut draft = Draft::new(claims, random.within(1, 6));
    let records = random.within(1, 1 + claims / 3)..claims;
    let cuts: Vec<u16> = (0..records.start).map(|cut| add_cut(&mut draft, random, cut)).collect();
    let negated = random.pick(&[0, 20, 50]);
    for head in records.clone() {
        for _ in 0..random.pick(&[0, 1, 1, 2, 4]) {
            add_failing_rule(&mut draft, random, head, &cuts, negated);
        }
    }
    if random.percent(40) {
        add_ring_behind(&mut draft, random, records);
    }
    if random.percent(60) {
        draft.permute_claims(random);
    }
    let asks = random.within(1, 3 + claims / 4);
    draft.ask_randomly(random, asks);
    draft.schedule_randomly(random, 6 * claims);
    draft
}
