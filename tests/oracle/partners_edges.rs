//! Edge cases of order 8, worked out by hand: a job, its lists, and what the order makes
//! of them.

use crate::checks::{refuse, Refusal};
use crate::draft::{not, plain, Draft};
use crate::edges::{with_half, with_words};
use crate::orders::{Missing, Orders};

pub struct PartnersEdge {
    pub name: String,
    pub job: Vec<u8>,
    pub claims: Vec<u8>,
    pub workers: Vec<u8>,
    pub expected: Result<(), Refusal>,
}

struct Edges {
    cases: Vec<PartnersEdge>,
}

impl Edges {
    fn add(&mut self, name: &str, job: Vec<u8>, claims: &[u8], workers: &[u8], expected: Result<(), Refusal>) {
        let (claims, workers) = (claims.to_vec(), workers.to_vec());
        self.cases.push(PartnersEdge { name: name.to_string(), job, claims, workers, expected });
    }

    fn admitted(&mut self, name: &str, draft: &Draft, claims: &[u8], workers: &[u8]) {
        self.add(&format!("admitted: {name}"), draft.job_bytes(), claims, workers, Ok(()));
    }

    /// Refused by 20, with this length.
    fn wrong_length(&mut self, name: &str, draft: &Draft, claims: &[u8], workers: &[u8], length: usize) {
        self.add(&format!("20: {name}"), draft.job_bytes(), claims, workers, refuse(20, length));
    }

    /// Refused by 21, with the byte of this question.
    fn foreign(&mut self, name: &str, draft: &Draft, claims: &[u8], workers: &[u8], byte: usize) {
        self.add(&format!("21: {name}"), draft.job_bytes(), claims, workers, refuse(21, byte));
    }
}

/// Four claims, rules 0 if 1, not 2; 1 if not 3; 2; two workers.  Rules at 36,
/// 40, 44; literals at 48, 50, 52; questions from 54 on.
fn base(questions: &[(usize, usize)]) -> Draft {
    let mut draft = Draft::new(4, 2);
    draft.rule(0, &[plain(1), not(2)]);
    draft.rule(1, &[not(3)]);
    draft.rule(2, &[]);
    questions.iter().for_each(|&(worker, claim)| draft.ask(worker, claim));
    draft
}

fn groups(edges: &mut Edges) {
    let draft = base(&[(0, 0), (1, 0)]);
    for (name, claims, workers) in [
        ("all public, workers of group 0", [0, 0, 0, 0], [0, 0]),
        ("all public, workers of groups", [0, 0, 0, 0], [1, 255]),
        ("all of one group", [5, 5, 5, 5], [5, 5]),
        ("public and of one group", [0, 255, 0, 255], [255, 255]),
    ] {
        edges.admitted(name, &draft, &claims, &workers);
    }
    for (name, claims, workers, byte) in [
        ("the claim itself", [1, 0, 0, 0], [2, 1], 54),
        ("a plain literal", [0, 1, 0, 0], [2, 1], 54),
        ("a negated literal", [0, 0, 1, 0], [2, 1], 54),
        ("a literal of a literal", [0, 0, 0, 1], [2, 1], 54),
        ("the second question", [0, 0, 0, 1], [1, 2], 58),
        ("both questions", [0, 0, 0, 1], [2, 3], 54),
        ("groups of claims differ", [0, 1, 2, 0], [1, 2], 54),
        ("a worker of group 0", [0, 0, 0, 1], [1, 0], 58),
        ("a worker of group 0 and group 255", [0, 255, 0, 0], [255, 0], 58),
        ("group 128 is not public", [128, 0, 0, 0], [128, 0], 58),
    ] {
        edges.foreign(name, &draft, &claims, &workers, byte);
    }
}

fn ways(edges: &mut Edges) {
    let middle = base(&[(0, 1), (0, 2), (0, 3), (1, 0)]);
    edges.admitted("only what is led to counts", &middle, &[2, 0, 0, 0], &[1, 2]);
    edges.foreign("the last of four questions", &middle, &[1, 0, 0, 0], &[1, 2], 66);
    edges.admitted("a foreign claim that nobody asks", &base(&[(0, 2)]), &[9, 9, 0, 9], &[1, 1]);
    edges.admitted("no question", &base(&[]), &[1, 2, 3, 4], &[5, 6]);
    edges.admitted("a worker without questions", &base(&[(0, 0)]), &[1, 1, 1, 1], &[1, 2]);
    let mut ring = Draft::new(3, 1);
    ring.rule(0, &[plain(1)]);
    ring.rule(1, &[plain(0), not(1)]);
    ring.ask(0, 0);
    edges.admitted("a ring", &ring, &[1, 0, 2], &[1]);
    edges.foreign("a ring", &ring, &[0, 1, 0], &[0], 50);
    let mut failed = Draft::new(3, 1);
    failed.rule(0, &[plain(1), plain(2)]);
    failed.ask(0, 0);
    edges.foreign("behind a literal that is false", &failed, &[0, 0, 1], &[0], 44);
    let mut second = Draft::new(3, 1);
    second.rule(0, &[]);
    second.rule(0, &[plain(1)]);
    second.ask(0, 0);
    edges.foreign("in a rule that isn't needed", &second, &[0, 1, 0], &[0], 46);
}

/// One claim asked by workers of several groups, one after the other.  Questions from 50
/// on.
fn shared_claims(edges: &mut Edges) {
    let mut draft = Draft::new(4, 3);
    draft.rule(0, &[plain(1), not(2)]);
    draft.rule(1, &[plain(0)]);
    for (worker, claim) in [(0, 0), (1, 1), (2, 0), (1, 3), (0, 2)] {
        draft.ask(worker, claim);
    }
    edges.admitted("public claims, three groups", &draft, &[0, 0, 0, 2], &[1, 2, 0]);
    edges.foreign("seen by its group first", &draft, &[0, 0, 1, 0], &[1, 2, 0], 54);
    edges.foreign("seen by its group twice, then by another", &draft, &[0, 0, 1, 0], &[1, 1, 2], 58);
    edges.foreign("the claim of two groups' questions is one's", &draft, &[2, 0, 0, 0], &[2, 1, 0], 54);
}

fn limits(edges: &mut Edges) {
    let mut chain = Draft::new(4096, 1);
    (0..4095).for_each(|claim| chain.rule(claim, &[not(claim + 1)]));
    chain.ask(0, 4095);
    chain.ask(0, 0);
    let mut groups = vec![0; 4096];
    edges.admitted("a chain of 4,096", &chain, &groups, &[0]);
    groups[4094] = 1;
    // 36 + 4 * 4095 + 2 * 4095, and a question before it.
    edges.foreign("far down a chain", &chain, &groups, &[0], 24_610);
    edges.admitted("far down a chain, its group", &chain, &groups, &[1]);
    groups[4095] = 2;
    edges.foreign("the last claim of 4,096", &chain, &groups, &[1], 24_606);
    let mut dense = Draft::new(4096, 32);
    (0..6144)
        .for_each(|rule| dense.rule(rule * 4096 / 6144, &[plain((rule * 7 + 1) % 4096), not((rule * 13 + 5) % 4096)]));
    (0..1024).for_each(|question| dense.ask(question % 32, question * 4));
    edges.admitted("near all limits", &dense, &[0; 4096], &[0; 32]);
    // 36 + 4 * 6144 + 2 * 12288, and 1023 questions before it, none of worker 31's.
    dense.questions.iter_mut().for_each(|(worker, _)| *worker %= 31);
    dense.questions[1023].0 = 31;
    let (mut groups, mut workers) = ([0; 4096], [7; 32]);
    (groups[4092], workers[31]) = (7, 0);
    edges.foreign("the last of 1,024 questions", &dense, &groups, &workers, 53_280);
}

fn lengths(edges: &mut Edges) {
    let draft = base(&[(0, 0)]);
    for length in [0, 1, 3, 5, 6, 4096] {
        edges.wrong_length(&format!("{length} claim bytes for 4"), &draft, &vec![0; length], &[0, 0], length);
    }
    for length in [0, 1, 3, 4, 32] {
        edges.wrong_length(&format!("{length} worker bytes for 2"), &draft, &[0; 4], &vec![0; length], length);
    }
    edges.wrong_length("both wrong, the claims' first", &draft, &[0; 5], &[0; 3], 5);
    edges.wrong_length("lists exchanged", &draft, &[0; 2], &[0; 4], 2);
    edges.wrong_length("before 21", &draft, &[1; 4], &[0; 3], 3);
    edges.admitted("no claim", &Draft::new(0, 1), &[], &[1]);
    edges.wrong_length("a claim byte where A is 0", &Draft::new(0, 1), &[0], &[1], 1);
    edges.wrong_length("no worker byte", &Draft::new(0, 1), &[], &[], 0);
}

fn rows_of_the_job(edges: &mut Edges) {
    let job = base(&[(0, 0), (1, 3)]).job_bytes(); // 62 bytes.
    for (name, job, number, place) in [
        ("1", job[..35].to_vec(), 1, 35),
        ("1 of no bytes", Vec::new(), 1, 0),
        ("2", with_words(&job, &[(0, 63)]), 2, 0),
        ("3", with_words(&job, &[(1, 4097)]), 3, 4),
        ("4", with_words(&job, &[(8, 55)]), 4, 32),
        ("5", with_half(&job, 40, 4), 5, 40),
        ("6", with_half(&job, 46, 1), 6, 44),
        ("7", with_half(&job, 52, 4), 7, 52),
        ("8", with_half(&job, 58, 2), 8, 58),
    ] {
        edges.add(&format!("{name} before 20"), job, &[1; 9], &[], refuse(number, place));
    }
}

fn with_missing_records(edges: &mut Edges) {
    let mut draft = Draft::new(2, 1);
    draft.rule(0, &[plain(1)]);
    draft.missing(0);
    draft.missing(1);
    draft.ask(0, 0);
    edges.admitted("missing records lead nowhere", &draft, &[3, 0], &[3]);
    edges.foreign("a foreign missing claim", &draft, &[0, 3], &[2], 50);
}

pub fn partners_edges(orders: Orders) -> Vec<PartnersEdge> {
    let mut edges = Edges { cases: Vec::new() };
    groups(&mut edges);
    ways(&mut edges);
    shared_claims(&mut edges);
    limits(&mut edges);
    lengths(&mut edges);
    rows_of_the_job(&mut edges);
    if orders.missing != Missing::Off {
        with_missing_records(&mut edges);
    }
    edges.cases
}
