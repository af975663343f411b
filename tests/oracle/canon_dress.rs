//! Pairs of made jobs that say the same in different dress, or nearly so (order 7).

use crate::checks::{part_input, Job, MAX_CLAIMS, MAX_LITERALS, MAX_RULES, MAX_WORKERS, NEGATED};
use crate::draft::{random_literal, Body, Draft, Random};
use crate::jobs::generate;
use crate::missing_jobs::insert_missing;
use crate::orders::{Missing, Orders};

fn within_limits(draft: &Draft) -> bool {
    draft.rules.len() <= MAX_RULES as usize && draft.literal_sum() <= MAX_LITERALS as usize
}

/// The same literals in another order, some of them repeated with this chance.
fn dress_literals(random: &mut Random, literals: &[u16], repeats: usize) -> Vec<u16> {
    let mut dressed = literals.to_vec();
    while !literals.is_empty() && random.percent(repeats) {
        dressed.push(random.pick(literals));
    }
    random.shuffle(&mut dressed);
    dressed
}

fn dress_body(random: &mut Random, body: &Body, repeats: usize) -> Body {
    match body {
        Body::Literals(literals) => Body::Literals(dress_literals(random, literals, repeats)),
        Body::Missing => Body::Missing,
    }
}

/// The same rule set in another order, some of it repeated with these chances: of a
/// literal, of a rule.
fn dress_with(random: &mut Random, draft: &Draft, (of_literal, of_rule): (usize, usize)) -> Draft {
    let mut dressed = Draft { rules: Vec::new(), ..draft.clone() };
    for (head, body) in &draft.rules {
        loop {
            let body = dress_body(random, body, of_literal);
            dressed.rules.push((*head, body));
            if !random.percent(of_rule) {
                break;
            }
        }
    }
    random.shuffle(&mut dressed.rules);
    dressed.sort_by_head();
    dressed
}

/// The same rule set in other dress; without repeats where these pass the limits.
fn dress(random: &mut Random, draft: &Draft) -> Draft {
    let dressed = dress_with(random, draft, (30, 15));
    if within_limits(&dressed) {
        dressed
    } else {
        dress_with(random, draft, (0, 0))
    }
}

/// Changes one literal of some rule, or gives it one more or one less.
fn change_body(random: &mut Random, draft: &mut Draft) {
    let claims = draft.claims;
    let rule = random.below(draft.rules.len());
    if let Body::Literals(literals) = &mut draft.rules[rule].1 {
        let at = random.below(literals.len().max(1));
        match random.below(4) {
            0 if !literals.is_empty() => literals[at] ^= NEGATED,
            1 if !literals.is_empty() => literals[at] = random_literal(random, claims, 50),
            2 if !literals.is_empty() => drop(literals.remove(at)),
            _ => literals.push(random_literal(random, claims, 50)),
        }
    }
}

/// One small change; the rule set may be the same all the same.
fn change(random: &mut Random, draft: &mut Draft, orders: Orders) {
    match random.below(9) {
        0..=2 if !draft.rules.is_empty() => change_body(random, draft),
        3 if !draft.rules.is_empty() => drop(draft.rules.remove(random.below(draft.rules.len()))),
        4 if draft.claims > 0 && orders.missing != Missing::Off => {
            let head = random.below(draft.claims);
            insert_missing(draft, random, head);
        }
        5 if draft.questions.len() > 1 => {
            let (one, other) = (random.below(draft.questions.len()), random.below(draft.questions.len()));
            draft.questions.swap(one, other);
        }
        6 if !draft.rules.is_empty() && draft.claims > 1 => {
            let rule = random.below(draft.rules.len());
            draft.rules[rule].0 = random.below(draft.claims) as u16;
            draft.sort_by_head();
        }
        7 if draft.claims < MAX_CLAIMS as usize => draft.claims += 1,
        _ if draft.workers < MAX_WORKERS as usize => draft.workers += 1,
        _ => {}
    }
}

/// A made job, where it is accepted.
pub fn made_draft(kind: &str, seed: u64, orders: Orders) -> Option<Draft> {
    let input = generate(kind, seed, orders)?;
    Some(Draft::of_job(&Job::check(part_input(&input).0, orders).ok()?))
}

/// The job in other dress, with no, one or two changes; none where these pass a
/// limit.
pub fn partner(random: &mut Random, draft: &Draft, orders: Orders) -> Option<Draft> {
    let mut other = dress(random, draft);
    for _ in 0..random.pick(&[0, 1, 1, 2]) {
        change(random, &mut other, orders);
    }
    let other = dress(random, &other);
    within_limits(&other).then_some(other)
}

/// Two jobs, the second the first's partner.
pub fn made_pair(kind: &str, seed: u64, orders: Orders) -> Option<(Draft, Draft)> {
    let one = made_draft(kind, seed, orders)?;
    let other = partner(&mut Random::new("canon", seed), &one, orders)?;
    Some((one, other))
}
