//! Edge cases of order 7: a job, how long the output is, and what 02 makes of it.

use crate::checks::{refuse, Refusal};
use crate::draft::{not, plain, Body, Draft};
use crate::edges::{with_half, with_words};
use crate::orders::{Missing, Orders};

pub struct CanonEdge {
    pub name: String,
    pub job: Vec<u8>,
    pub output: usize,
    /// The form, or the refusal.
    pub expected: Result<Vec<u8>, Refusal>,
}

struct Edges {
    cases: Vec<CanonEdge>,
}

impl Edges {
    fn refused(&mut self, name: &str, job: Vec<u8>, output: usize, number: u32, place: usize) {
        self.cases.push(CanonEdge { name: name.to_string(), job, output, expected: refuse(number, place) });
    }

    fn gives(&mut self, name: &str, job: Vec<u8>, output: usize, form: Vec<u8>) {
        self.cases.push(CanonEdge { name: name.to_string(), job, output, expected: Ok(form) });
    }

    /// The draft's form is `form`, rules as they stand there.
    fn becomes(&mut self, name: &str, draft: &Draft, form: &Draft) {
        let (job, again) = (draft.job_bytes(), form.job_bytes());
        let (output, output_again) = (job.len(), again.len());
        self.gives(name, job, output, again.clone());
        self.gives(&format!("{name}, again"), again.clone(), output_again, again);
    }
}

fn drafts<const N: usize, const M: usize>(
    claims: usize,
    from: [(usize, Option<&[u16]>); N],
    to: [(usize, Option<&[u16]>); M],
) -> (Draft, Draft) {
    let make = |rules: &[(usize, Option<&[u16]>)]| {
        let mut draft = Draft::new(claims, 2);
        for (head, body) in rules {
            match body {
                Some(literals) => draft.rule(*head, literals),
                None => draft.missing(*head),
            }
        }
        draft.ask(1, 0);
        draft.ask(0, 0);
        draft.ask(1, 0);
        draft
    };
    (make(&from), make(&to))
}

fn forms_of_bodies(edges: &mut Edges) {
    let mut check = |name: &str, (draft, form): (Draft, Draft)| edges.becomes(name, &draft, &form);
    let (a, b, c) = (plain(0), plain(1), plain(2));
    let (na, nb) = (not(0), not(1));
    check("literals rise", drafts(3, [(0, Some(&[c, a, b]))], [(0, Some(&[a, b, c]))]));
    check("negated ones last", drafts(3, [(0, Some(&[na, c, nb, a]))], [(0, Some(&[a, c, na, nb]))]));
    check("repeated literals", drafts(3, [(0, Some(&[b, a, b, a, b]))], [(0, Some(&[a, b]))]));
    check("a literal and its negation stay", drafts(3, [(0, Some(&[na, a]))], [(0, Some(&[a, na]))]));
    let shorter = [(0, Some(&[][..])), (0, Some(&[na])), (0, Some(&[a, b]))];
    check("bodies by length", drafts(3, [(0, Some(&[a, b])), (0, Some(&[na])), (0, Some(&[]))], shorter));
    let by_literals = [(0, Some(&[a, c][..])), (0, Some(&[b, c])), (0, Some(&[b, na]))];
    check("then by literals", drafts(3, [(0, Some(&[na, b])), (0, Some(&[c, b])), (0, Some(&[c, a]))], by_literals));
    check(
        "length without repeats counts",
        drafts(3, [(0, Some(&[b, b, b])), (0, Some(&[a, c]))], [(0, Some(&[b])), (0, Some(&[a, c]))]),
    );
    check("bodies equal once written", drafts(3, [(0, Some(&[a, b])), (0, Some(&[b, a, a]))], [(0, Some(&[a, b]))]));
    check("equal empty bodies", drafts(3, [(0, Some(&[])), (0, Some(&[]))], [(0, Some(&[]))]));
    check("heads stay apart", drafts(3, [(0, Some(&[b])), (1, Some(&[b]))], [(0, Some(&[b])), (1, Some(&[b]))]));
    check(
        "a body that holds another stays",
        drafts(3, [(0, Some(&[a, b])), (0, Some(&[a]))], [(0, Some(&[a])), (0, Some(&[a, b]))]),
    );
    check("no rules", drafts(3, [], []));
    let wide = [(0, Some(&[plain(255)][..])), (0, Some(&[plain(256)])), (0, Some(&[not(1)]))];
    check(
        "by number, not by byte",
        drafts(300, [(0, Some(&[not(1)])), (0, Some(&[plain(256)])), (0, Some(&[plain(255)]))], wide),
    );
    check(
        "literals by number, not by byte",
        drafts(300, [(0, Some(&[not(1), plain(256), plain(255)]))], [(0, Some(&[plain(255), plain(256), not(1)]))]),
    );
    edges.becomes("no claim", &Draft::new(0, 1), &Draft::new(0, 1));
}

fn forms_with_missing(edges: &mut Edges) {
    let mut check = |name: &str, (draft, form): (Draft, Draft)| edges.becomes(name, &draft, &form);
    let a = plain(0);
    check("missing once", drafts(2, [(0, None), (0, None)], [(0, None)]));
    check("missing last of its head", drafts(2, [(0, None), (0, Some(&[a]))], [(0, Some(&[a])), (0, None)]));
    let between = [(0, None), (0, Some(&[a][..])), (0, None), (0, Some(&[])), (1, Some(&[a])), (1, None)];
    let form = [(0, Some(&[][..])), (0, Some(&[a])), (0, None), (1, Some(&[a])), (1, None)];
    check("missing between, of two heads", drafts(2, between, form));
    check("missing beside an empty body", drafts(2, [(0, None), (0, Some(&[]))], [(0, Some(&[])), (0, None)]));
    check(
        "missing takes no literal of the next",
        drafts(2, [(0, None), (1, Some(&[a, a]))], [(0, None), (1, Some(&[a]))]),
    );
    let mut missing = Draft::new(1, 1);
    (0..6_144).for_each(|_| missing.missing(0));
    let mut once = Draft::new(1, 1);
    once.missing(0);
    edges.becomes("6,144 missing records", &missing, &once);
}

fn limits(edges: &mut Edges) {
    let mut full = Draft::new(4096, 32);
    (0..6_143).for_each(|_| full.rule(7, &[]));
    full.rules.insert(0, (7, Body::Literals(vec![not(4095); 16_384])));
    (0..1_024).for_each(|question| full.ask(question % 32, 4095));
    let mut form = Draft::new(4096, 32);
    form.rule(7, &[]);
    form.rule(7, &[not(4095)]);
    form.questions = full.questions.clone();
    edges.becomes("the largest job", &full, &form);
    edges.refused("19: one byte below the largest job", full.job_bytes(), 61_475, 19, 61_476);
    edges.refused("19: the form would fit", full.job_bytes(), form.job_bytes().len(), 19, 61_476);
}

fn refusals(edges: &mut Edges, orders: Orders) {
    let empty: Option<&[u16]> = if orders.missing == Missing::Off { Some(&[]) } else { None };
    let (draft, form) = drafts(3, [(0, Some(&[plain(2), plain(2)])), (1, empty)], [(0, Some(&[plain(2)])), (1, empty)]);
    let job = draft.job_bytes(); // Rules at 36, 40; literals at 44, 46; questions at 48, 52, 56; 60 bytes.
    for output in [0, 35, 36, 58, 59] {
        edges.refused(&format!("19: {output} bytes; the form has 58"), job.clone(), output, 19, 60);
    }
    for output in [60, 61, 100_000] {
        edges.gives(&format!("{output} bytes suffice"), job.clone(), output, form.job_bytes());
    }
    for (name, job, number, place) in [
        ("1", job[..35].to_vec(), 1, 35),
        ("1 of no bytes", Vec::new(), 1, 0),
        ("2", with_words(&job, &[(0, 61)]), 2, 0),
        ("3", with_words(&job, &[(4, 0)]), 3, 16),
        ("4", with_words(&job, &[(7, 45)]), 4, 28),
        ("5", with_half(&job, 40, 3), 5, 40),
        ("6", with_half(&job, 38, 3), 6, 36),
        ("7", with_half(&job, 46, 3), 7, 46),
        ("8", with_half(&job, 56, 2), 8, 56),
    ] {
        edges.refused(&format!("{name} before 19"), job, 0, number, place);
    }
}

/// The edge cases, with missing records where order 2 is in force.
pub fn canon_edges(orders: Orders) -> Vec<CanonEdge> {
    let mut edges = Edges { cases: Vec::new() };
    forms_of_bodies(&mut edges);
    if orders.missing != Missing::Off {
        forms_with_missing(&mut edges);
    }
    limits(&mut edges);
    refusals(&mut edges, orders);
    edges.cases
}
