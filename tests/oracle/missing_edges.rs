//! Edge cases of order 2, with and without it in force.

use crate::draft::{not, plain, Draft};
use crate::edges::{with_half, with_words, Edges};
use crate::missing::MISSING;
use crate::order_edges::{table_of, turn_on, OrderEdge};
use crate::orders::Orders;

/// Rules of one worker's field: None is a missing record.
type Rules<'a> = &'a [(usize, Option<&'a [u16]>)];

fn field(claims: usize, rules: Rules, asks: &[usize]) -> Draft {
    let mut draft = Draft::new(claims, 1);
    for &(head, body) in rules {
        match body {
            Some(literals) => draft.rule(head, literals),
            None => draft.missing(head),
        }
    }
    asks.iter().for_each(|&claim| draft.ask(0, claim));
    draft
}

/// Every claim is asked for; verdicts by their first letters.
fn verdicts(edges: &mut Edges, name: &str, rules: Rules, letters: &str) {
    let asks: Vec<usize> = (0..letters.len()).collect();
    edges.verdicts(&format!("missing: {name}"), &field(letters.len(), rules, &asks), letters);
}

fn models_of_one(edges: &mut Edges) {
    verdicts(edges, "alone", &[(0, None)], "u");
    verdicts(edges, "twice", &[(0, None), (0, None)], "u");
    verdicts(edges, "and a rule that holds", &[(0, None), (0, Some(&[]))], "t");
    verdicts(edges, "behind a rule that holds", &[(0, Some(&[])), (0, None)], "t");
    verdicts(edges, "behind a rule that fails", &[(0, Some(&[plain(1)])), (0, None)], "uf");
    verdicts(edges, "and 0 if 0", &[(0, Some(&[plain(0)])), (0, None)], "u");
    verdicts(edges, "and 0 if not 0", &[(0, Some(&[not(0)])), (0, None)], "u");
    verdicts(edges, "the claim beside stays false", &[(0, None)], "uf");
}

fn models_of_several(edges: &mut Edges) {
    verdicts(edges, "what rests on it", &[(0, None), (1, Some(&[plain(0)])), (2, Some(&[not(0)]))], "uuuf");
    let both: Rules = &[(0, None), (1, Some(&[plain(0), not(0)])), (2, Some(&[not(1)]))];
    verdicts(edges, "with its own negation", both, "uuu");
    let ring: Rules = &[(0, Some(&[plain(1)])), (0, None), (1, Some(&[plain(0)]))];
    verdicts(edges, "one of a ring", ring, "uu");
    let even: Rules = &[(0, Some(&[not(1)])), (0, None), (1, Some(&[not(0)]))];
    verdicts(edges, "0 of 0 if not 1, 1 if not 0", even, "uu");
    let held: Rules = &[(0, Some(&[plain(1)])), (0, None), (1, Some(&[plain(0)])), (1, Some(&[not(2)]))];
    verdicts(edges, "one of a ring that is held up from outside", held, "ttf");
    let fails: Rules = &[(0, None), (1, Some(&[plain(0), plain(2)])), (3, Some(&[not(1)]))];
    verdicts(edges, "beside a false literal", fails, "ufft");
    let late: Rules = &[(0, None), (0, Some(&[not(1)])), (2, Some(&[not(0)]))];
    verdicts(edges, "true after a step of the other kind", late, "tff");
    let p5: Rules =
        &[(0, Some(&[not(1)])), (1, Some(&[not(0)])), (2, None), (2, Some(&[plain(0)])), (3, Some(&[not(2)]))];
    verdicts(edges, "beside P5", p5, "uuuu");
}

/// Exact listings: missing records cost no turn.
fn listings(edges: &mut Edges) {
    let text = "claims 1\n0 undefined\nquestions 1\n0 0 undefined\ntally 0 0 1 0 0 0 1 1\n";
    edges.whole("missing: alone, no turn more", field(1, &[(0, None)], &[0]).bytes(), text);
    edges.whole("missing: 6,144 records", field(1, &[(0, None); 6144], &[0]).bytes(), text);
    let between: Rules = &[(0, None), (0, Some(&[plain(1)])), (0, None), (0, Some(&[not(1)])), (0, None)];
    // opened 0, opened 1, completed 1, passed, completed 0, answered.
    let text = "claims 2\n0 true\n1 false\nquestions 1\n0 0 true\ntally 0 0 2 0 0 1 2 1\n";
    edges.whole("missing: records between rules", field(2, between, &[0]).bytes(), text);
    let full = field(2, &[(0, None), (0, Some(&[not(1); 16_384])), (1, None)], &[0]);
    let text = "claims 2\n0 undefined\n1 undefined\nquestions 1\n0 0 undefined\ntally 0 0 2 0 0 16383 2 1\n";
    edges.whole("missing: records beside 16,384 literals", full.bytes(), text);
    let unasked = field(3, &[(1, None), (2, Some(&[plain(0)]))], &[2]);
    let text = "claims 3\n0 false\n1 unopened\n2 false\nquestions 1\n0 2 false\ntally 0 0 2 0 0 0 2 1\n";
    edges.whole("missing: an unasked claim stays unopened", unasked.bytes(), text);
}

/// Three claims, rules 0 missing; 0 if 1; 1 missing; 2 if not 0; one question.
/// Records at 36, 40, 44, 48; literals at 52, 54; the question at 56; 60 bytes.
pub fn missing_base() -> Draft {
    field(3, &[(0, None), (0, Some(&[plain(1)])), (1, None), (2, Some(&[not(0)]))], &[2])
}

fn checks(edges: &mut Edges) {
    let bytes = missing_base().bytes();
    edges.begins("missing: accepted", bytes.clone(), "claims 3\n0 undefined\n1 undefined\n2 undefined\n");
    let fact = "claims 3\n0 true\n1 undefined\n2 false\n";
    edges.begins("missing: accepted, length 0 instead", with_half(&bytes, 38, 0), fact);
    for (name, at, value, number, place) in [
        ("5: missing head is A", 44, 3, 5, 44),
        ("5: missing head 65,535", 44, 65_535, 5, 44),
        ("5: missing head falls", 40, 2, 5, 44),
        ("5: a head falls behind a missing record", 36, 1, 5, 40),
        ("6: length 65,534", 46, MISSING - 1, 6, 44),
        ("6: length 65,534 first", 38, MISSING - 1, 6, 36),
        ("6: lengths pass L behind a missing record", 50, 2, 6, 48),
        ("6: lengths pass L by a record no longer missing", 38, 1, 6, 48),
        ("6: lengths end short behind a missing record", 50, 0, 6, 52),
        ("6: a missing record leaves its literal over", 42, MISSING, 6, 52),
        ("6: the last record leaves its literal over", 50, MISSING, 6, 52),
        ("7: first literal is A, a missing record before", 52, 3, 7, 52),
        ("7: last literal 65,535, a missing record before", 54, 65_535, 7, 54),
        ("8: claim is A, a missing record before", 58, 3, 8, 56),
        ("8: worker 65,535, a missing record before", 56, 65_535, 8, 56),
    ] {
        edges.refused(name, with_half(&bytes, at, value), number, place);
    }
    edges.refused("3: L 65,535", with_words(&bytes, &[(3, 65_535)]), 3, 12);
    edges.refused("4: L 3, where offsets are those of 2", with_words(&bytes, &[(3, 3)]), 4, 32);
    edges.refused("3: 6,145 missing records", field(1, &[(0, None); 6145], &[]).bytes(), 3, 8);
}

pub fn edges_of_missing(edges: &mut Edges) {
    models_of_one(edges);
    models_of_several(edges);
    listings(edges);
    checks(edges);
}

/// The same bytes before order 2 is in force.
pub fn edges_before_missing(edges: &mut Edges) {
    let bytes = missing_base().bytes();
    edges.refused("6: body length 65,535", bytes.clone(), 6, 36);
    edges.refused("6: the second one", with_half(&bytes, 38, 0), 6, 44);
    edges.refused("5: before 6, body length 65,535", with_half(&bytes, 44, 3), 5, 44);
    edges.refused("6: body length 65,535 alone", field(1, &[(0, None)], &[]).bytes(), 6, 36);
}

/// Worker 0 completes claim 1, which has passed all its literals, beside claim 0
/// of any mark, whose rules are exchanged, missing records too.
pub fn edges_of_exchange(orders: Orders) -> Vec<OrderEdge> {
    let negated: Rules = &[(0, None), (1, Some(&[not(0)]))];
    let fact: Rules = &[(0, Some(&[])), (0, None), (1, Some(&[not(0)]))];
    let open: Rules = &[(0, None), (1, None), (1, Some(&[plain(0)]))];
    let holds: Rules = &[(0, None), (1, Some(&[not(0)])), (1, None)];
    let completed = |&(name, rules, mark, value): &(&str, Rules, u32, u32)| {
        let draft = field(2, rules, &[]);
        // Claim 1 has one literal, claim 0 none.
        let table = |second: u32| table_of(orders, &draft, &[(0, [mark, 0, 1]), (1, [second, 1, 2])], &[]);
        turn_on(2, name, &draft, table(1), "completed", Some(table(value)))
    };
    let cases = [
        ("a missing claim marked false", negated, 257, 256),
        ("a missing claim marked true", negated, 256, 257),
        ("a missing claim marked undefined", negated, 258, 258),
        ("a missing fact marked undefined", fact, 258, 258),
        ("a missing fact marked false", fact, 257, 256),
        ("an open missing claim beside a false one", open, 257, 258),
        ("an open missing claim beside a true one", open, 256, 256),
        ("an open missing claim whose rule holds", holds, 257, 256),
        ("an open missing claim whose rule fails", holds, 256, 258),
    ];
    cases.iter().map(completed).collect()
}
