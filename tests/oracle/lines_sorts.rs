//! Sorts of texts by what order 1 makes of them, so that the gate can tell whether
//! each was met.

use crate::checks::{Refusal, MAX_CLAIMS, MAX_LITERALS, MAX_QUESTIONS, MAX_RULES, MAX_WORKERS};
use crate::lines::{fitting_lines, lines_of, read_line, value, Counts, Digits, Line};

/// By 14 and 15 the first line with a fault decides.
#[derive(Clone, Copy, Debug, PartialEq, Eq)]
pub enum Sort {
    InOrder,
    Sorted,
    NoLines,
    NoSuchLine,
    NotEnded,
    OutOfOrder,
    Claims,
    NoWorkers,
    Workers,
    Rules,
    Literals,
    Questions,
    Head,
    BodyClaim,
    Asker,
    AskedClaim,
    SeveralCauses,
    Short,
}

/// Their names.
pub const SORTS: [&str; 18] = [
    "accepted, heads as they come out",
    "accepted, rules sorted by head",
    "14: no lines",
    "14: no such line",
    "14: no line feed",
    "14: a line out of order",
    "15: claims past the limit",
    "15: no workers",
    "15: workers past the limit",
    "15: rules past the limit",
    "15: literals past the limit",
    "15: questions past the limit",
    "15: a head",
    "15: a claim of a body",
    "15: a worker that asks",
    "15: a claim asked",
    "15: several causes in a line",
    "16",
];

pub type Met = [usize; 18];

/// What check 15 finds in a line, once the counts have taken it.
pub fn causes(line: &Line, counts: &Counts) -> Vec<Sort> {
    let past = |count: u64, limit: u32| count > u64::from(limit);
    let unknown = |claim: Digits| value(claim) >= counts.claims;
    let found = match line {
        Line::Counts(..) => vec![
            (Sort::Claims, past(counts.claims, MAX_CLAIMS)),
            (Sort::NoWorkers, counts.workers == 0),
            (Sort::Workers, past(counts.workers, MAX_WORKERS)),
        ],
        Line::Rule(head, body) => vec![
            (Sort::Rules, past(counts.rules, MAX_RULES)),
            (Sort::Literals, past(counts.literals, MAX_LITERALS)),
            (Sort::Head, unknown(head)),
            (Sort::BodyClaim, body.iter().any(|(_, claim)| unknown(claim))),
        ],
        Line::Ask(worker, claim) => vec![
            (Sort::Questions, past(counts.questions, MAX_QUESTIONS)),
            (Sort::Asker, value(worker) >= counts.workers),
            (Sort::AskedClaim, unknown(claim)),
        ],
    };
    found.into_iter().filter(|(_, found)| *found).map(|(sort, _)| sort).collect()
}

fn sort_of_misfit(text: &[u8], place: usize) -> Sort {
    match lines_of(text).nth(place - 1) {
        None => Sort::NoLines,
        Some((line, _)) if read_line(line).is_none() => Sort::NoSuchLine,
        Some((_, false)) => Sort::NotEnded,
        Some(_) => Sort::OutOfOrder,
    }
}

fn sort_of_number(lines: &[Line], place: usize) -> Sort {
    let mut counts = Counts::default();
    lines[..place].iter().for_each(|line| _ = counts.take(line));
    match causes(&lines[place - 1], &counts).as_slice() {
        [cause] => *cause,
        _ => Sort::SeveralCauses,
    }
}

fn sort_of_accepted(lines: &[Line]) -> Sort {
    let heads = lines.iter().filter_map(|line| match line {
        Line::Rule(head, _) => Some(value(head)),
        _ => None,
    });
    match heads.is_sorted() {
        true => Sort::InOrder,
        false => Sort::Sorted,
    }
}

/// The sort of a text by the answer it has.
pub fn sort_of<T>(text: &[u8], answer: &Result<T, Refusal>) -> Sort {
    let lines = || fitting_lines(text).expect("check 14 comes before all else");
    match answer {
        Ok(_) => sort_of_accepted(&lines()),
        Err(Refusal { number: 14, place }) => sort_of_misfit(text, *place),
        Err(Refusal { number: 15, place }) => sort_of_number(&lines(), *place),
        Err(_) => Sort::Short,
    }
}
