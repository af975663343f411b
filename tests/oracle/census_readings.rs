//! Wrong readings of order 12, each as the line that it gives a size.

use crate::census::{choices, counts, digits, line, outcome, rule_set, set_count, Line, Outcome};
use crate::checks::NEGATED;
use crate::draft::Draft;
use crate::orders::{Orders, Skip};

/// All rule sets of a size, as the order is worded.
pub struct Met {
    pub size: usize,
    pub orders: Orders,
    pub outcomes: Vec<Outcome>,
}

pub type Reading = fn(&Met) -> Line;

/// The number of these digits, the leading one first.
fn number(digits: &[usize], base: usize) -> usize {
    digits.iter().fold(0, |number, digit| base * number + digit)
}

/// The same sets met in another order: at each place the one of these choices.
fn met_by(met: &Met, choices_met: usize, set: impl Fn(Vec<usize>) -> Vec<usize>) -> Line {
    let size = met.size;
    let at = |place| number(&set(digits(place, choices_met, size)), choices(size));
    let outcomes: Vec<Outcome> =
        (0..choices_met.pow(size as u32)).map(|place| met.outcomes[at(place)].clone()).collect();
    line(&outcomes)
}

/// The same with every claim's choice exchanged for another.
fn met_by_choice(met: &Met, choices_met: usize, choice: impl Fn(usize) -> usize) -> Line {
    met_by(met, choices_met, |set| set.into_iter().map(&choice).collect())
}

/// The same with every body exchanged for another.
fn met_by_body(met: &Met, body: impl Fn(Vec<usize>) -> Vec<usize>) -> Line {
    met_by_choice(met, choices(met.size), |choice| match choice {
        0 => 0,
        _ => 1 + number(&body(digits(choice - 1, 3, met.size)), 3),
    })
}

fn fastest(met: &Met) -> Line {
    met_by(met, choices(met.size), |set| set.into_iter().rev().collect())
}

fn last_digit(met: &Met) -> Line {
    met_by_body(met, |body| body.into_iter().rev().collect())
}

fn negated_before_plain(met: &Met) -> Line {
    met_by_body(met, |body| body.into_iter().map(|digit| [0, 2, 1][digit]).collect())
}

fn absent_last(met: &Met) -> Line {
    met_by_body(met, |body| body.into_iter().map(|digit| [1, 2, 0][digit]).collect())
}

fn no_rule_last(met: &Met) -> Line {
    let choices = choices(met.size);
    met_by_choice(met, choices, |choice| (choice + 1) % choices)
}

fn empty_body_left_out(met: &Met) -> Line {
    met_by_choice(met, choices(met.size) - 1, |choice| if choice == 0 { 0 } else { choice + 1 })
}

fn empty_body_as_no_rule(met: &Met) -> Line {
    met_by_choice(met, choices(met.size), |choice| if choice == 1 { 0 } else { choice })
}

fn no_rule_left_out(met: &Met) -> Line {
    met_by_choice(met, choices(met.size) - 1, |choice| choice + 1)
}

/// The right line, changed.
fn changed(met: &Met, change: impl Fn(&mut Line)) -> Line {
    let mut line = line(&met.outcomes);
    change(&mut line);
    line
}

fn last_of_most(met: &Met) -> Line {
    let last = |most| met.outcomes.iter().rposition(|outcome| outcome.turns == most).expect("one needs most");
    changed(met, |line| line[3] = last(line[4]) as u64)
}

fn place_from_one(met: &Met) -> Line {
    changed(met, |line| line[3] += 1)
}

fn turns_before_place(met: &Met) -> Line {
    changed(met, |line| line.swap(3, 4))
}

fn turn_that_finds_all_answered(met: &Met) -> Line {
    changed(met, |line| line[4] += 1)
}

fn answers_not_counted(met: &Met) -> Line {
    changed(met, |line| line[4] -= met.size as u64)
}

fn all_claims_counted(met: &Met) -> Line {
    let of_claims: Vec<[u64; 3]> = (0..met.size).map(|claim| counts(&met.outcomes, claim)).collect();
    changed(met, |line| (0..3).for_each(|at| line[at] = of_claims.iter().map(|counts| counts[at]).sum()))
}

fn undefined_first(met: &Met) -> Line {
    changed(met, |line| line.swap(0, 2))
}

fn false_first(met: &Met) -> Line {
    changed(met, |line| line.swap(0, 1))
}

fn undefined_as_false(met: &Met) -> Line {
    changed(met, |line| {
        line[1] += line[2];
        line[2] = 0;
    })
}

/// The line of the right sets, each changed before it is run.
fn run_as(met: &Met, orders: Orders, change: impl Fn(&mut Draft)) -> Line {
    let outcomes: Vec<Outcome> = (0..set_count(met.size))
        .map(|place| {
            let mut draft = rule_set(place, met.size);
            change(&mut draft);
            outcome(&draft, orders)
        })
        .collect();
    line(&outcomes)
}

fn literals_by<K: Ord>(met: &Met, key: fn(u16) -> K) -> Line {
    run_as(met, met.orders, |draft| {
        for (_, body) in &mut draft.rules {
            body.literals_mut().sort_by_key(|&literal| key(literal));
        }
    })
}

fn literals_falling(met: &Met) -> Line {
    literals_by(met, |literal| std::cmp::Reverse(literal & !NEGATED))
}

fn plain_literals_first(met: &Met) -> Line {
    literals_by(met, |literal| literal)
}

fn negated_literals_first(met: &Met) -> Line {
    literals_by(met, |literal| (literal & NEGATED == 0, literal))
}

fn questions_falling(met: &Met) -> Line {
    run_as(met, met.orders, |draft| draft.questions.reverse())
}

fn claim_0_asked_alone(met: &Met) -> Line {
    run_as(met, met.orders, |draft| draft.questions.truncate(1))
}

fn worker_a_claim(met: &Met) -> Line {
    run_as(met, met.orders, |draft| {
        draft.workers = met.size;
        draft.questions = (0..met.size as u16).map(|claim| (claim, claim)).collect();
    })
}

fn failed_rules_read_on(met: &Met) -> Line {
    run_as(met, Orders { skip: Skip::Off, ..met.orders }, |_| {})
}

pub const CENSUS_READINGS: [(&str, Reading); 24] = [
    ("claim 0's choice turns fastest", fastest),
    ("claim 0 is the last digit of a body", last_digit),
    ("negated 1, plain 2", negated_before_plain),
    ("plain 0, negated 1, absent 2", absent_last),
    ("no rule last", no_rule_last),
    ("the empty body is left out", empty_body_left_out),
    ("the empty body is no rule", empty_body_as_no_rule),
    ("every claim has a rule", no_rule_left_out),
    ("the last of the sets that need most turns", last_of_most),
    ("the place from 1", place_from_one),
    ("the turns before the place", turns_before_place),
    ("the turn that finds all answered is counted", turn_that_finds_all_answered),
    ("turns that answer aren't counted", answers_not_counted),
    ("all claims are counted", all_claims_counted),
    ("undefined, false, true", undefined_first),
    ("false, true, undefined", false_first),
    ("undefined counts as false", undefined_as_false),
    ("literals fall by claim", literals_falling),
    ("plain literals before negated ones", plain_literals_first),
    ("negated literals before plain ones", negated_literals_first),
    ("questions fall by claim", questions_falling),
    ("claim 0 is asked alone", claim_0_asked_alone),
    ("a worker a claim", worker_a_claim),
    ("failed rules are read on", failed_rules_read_on),
];
