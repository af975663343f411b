//! Kind `wide`: few heads with long bodies or with many, nearly equal ones, for what
//! sorts bodies (order 7).

use crate::checks::{MAX_LITERALS, MAX_RULES, NEGATED};
use crate::draft::{random_literal, signed, Draft, Random};

/// Lengths at which a count of 8 bits starts anew, and larger ones.
const LENGTHS: [usize; 10] = [200, 255, 256, 257, 258, 511, 512, 513, 1024, 3000];

/// So many different literals over some claims, in any order.
fn different_literals(random: &mut Random, claims: usize, count: usize) -> Vec<u16> {
    let mut literals: Vec<u16> = (0..claims as u16).flat_map(|claim| [claim, claim | NEGATED]).collect();
    random.shuffle(&mut literals);
    literals.truncate(count);
    literals
}

/// A body like this one: in another order, one literal more, less or negated, or two
/// alike.
fn like(random: &mut Random, claims: usize, body: &[u16]) -> Vec<u16> {
    let mut other = body.to_vec();
    let at = random.below(body.len());
    match random.below(5) {
        0 => random.shuffle(&mut other),
        1 => drop(other.remove(at)),
        2 => other.push(random_literal(random, claims, 50)),
        3 => other[at] ^= NEGATED,
        _ => other[at] = other[0],
    }
    other
}

/// Some heads, each with a few long bodies that are nearly equal.
fn add_long_bodies(draft: &mut Draft, random: &mut Random) {
    let claims = draft.claims;
    for _ in 0..random.within(1, 4) {
        let head = random.below(claims);
        let length = random.pick(&LENGTHS).min(2 * claims);
        let mut body = different_literals(random, claims, length);
        for _ in 0..random.within(1, 6) {
            if draft.literal_sum() + body.len() <= MAX_LITERALS as usize {
                draft.rule(head, &body);
            }
            body = like(random, claims, &body);
        }
    }
}

/// One or two heads with very many short bodies, of few claims or of all.
fn add_many_bodies(draft: &mut Draft, random: &mut Random) {
    let claims = if random.percent(50) { random.within(2, 20) } else { draft.claims };
    let (heads, rules) = (random.within(1, 2), random.pick(&[300, 2000, MAX_RULES as usize]));
    for _ in 0..rules {
        let length = random.within(0, 5);
        let body: Vec<u16> = (0..length).map(|_| random_literal(random, claims, 30)).collect();
        if draft.literal_sum() + length <= MAX_LITERALS as usize {
            draft.rule(random.below(heads), &body);
        }
    }
}

/// One body of all literals there may be: rising, falling, in any order or of a few
/// claims.
fn add_longest_body(draft: &mut Draft, random: &mut Random) {
    let (claims, shape) = (draft.claims, random.below(4));
    let literal = |at: usize| ((at * 2 * claims / MAX_LITERALS as usize / 2) as u16) | (at as u16 & 1) << 15;
    let mut body: Vec<u16> = (0..MAX_LITERALS as usize).map(literal).collect();
    match shape {
        0 => body.sort_unstable(),
        1 => body.sort_unstable_by(|one, other| other.cmp(one)),
        2 => random.shuffle(&mut body),
        _ => body.iter_mut().for_each(|literal| *literal %= 7),
    }
    draft.rule(claims - 1, &body);
}

pub fn make_wide(random: &mut Random) -> Draft {
    let mut draft = Draft::new(random.pick(&[300, 1000, 4096]), random.within(1, 4));
    match random.below(5) {
        0 => add_longest_body(&mut draft, random),
        1 => add_many_bodies(&mut draft, random),
        _ => add_long_bodies(&mut draft, random),
    }
    for claim in 0..random.within(0, 3) {
        let field = signed(random, claim, 50);
        if draft.literal_sum() < MAX_LITERALS as usize && draft.rules.len() < MAX_RULES as usize {
            draft.rule(claim, &[field]);
        }
    }
    let asks = random.within(0, 20);
    draft.ask_randomly(random, asks);
    draft.schedule_randomly(random, 40);
    draft
}
