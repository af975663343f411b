//! The example of two partners (examples/fields/partners.txt): admission and answers are
//! what its text says.

use oracle::checks::{refuse, Refusal};
use oracle::lines::job_of_text;
use oracle::partners_edges::PartnersEdge;

use crate::beside::compare_edge;
use crate::running::Running;
use crate::totals::Totals;

const FIELDS: &str = "examples/fields";
const CLAIMS: [u8; 8] = [0, 0, 0, 0, 1, 1, 2, 2];
const WORKERS: [u8; 3] = [0, 1, 2];

const TRUE: u32 = 1;
const FALSE: u32 = 2;

/// The lines of a field.
fn lines_of(name: &str) -> String {
    std::fs::read_to_string(format!("{FIELDS}/{name}.rules")).expect("the example is there")
}

/// These lines with one of them, or some, exchanged.
fn changed(lines: &str, from: &str, to: &str) -> String {
    assert!(lines.contains(from), "the example has no line {from}");
    lines.replacen(from, to, 1)
}

fn case(name: &str, lines: &str, claims: &[u8], expected: Result<(), Refusal>) -> PartnersEdge {
    let job = job_of_text(lines.as_bytes()).expect("the example's lines fit");
    PartnersEdge { name: name.to_string(), job, claims: claims.to_vec(), workers: WORKERS.to_vec(), expected }
}

/// What is admitted and what is refused, by the text.
fn cases() -> Vec<PartnersEdge> {
    let lines = lines_of("partners");
    let resting = changed(&lines, "0 if 1, not 2.\n", "0 if 1, not 2, not 6.\n");
    let own_alone = changed(&resting, "ask 0 0\nask 1 0\nask 1 5\n", "");
    vec![
        case("as it is", &lines, &CLAIMS, Ok(())),
        case("later", &lines_of("partners_later"), &CLAIMS, Ok(())),
        case("partner 1 asks for 6", &changed(&lines, "ask 1 5\n", "ask 1 6\n"), &CLAIMS, refuse(21, 80)),
        case("0 rests on 6", &resting, &CLAIMS, refuse(21, 74)),
        case("0 rests on 6, published alone", &resting, &[0, 0, 0, 0, 1, 1, 0, 2], refuse(21, 74)),
        case("0 rests on 6, published with 7", &resting, &[0, 0, 0, 0, 1, 1, 0, 0], Ok(())),
        case("0 rests on 6, only partner 2 asks for it", &own_alone, &CLAIMS, Ok(())),
        case("0 rests on 6, partner 2 asks for 5", &(own_alone + "ask 2 5\n"), &CLAIMS, refuse(21, 82)),
        case("a list of seven bytes", &lines, &CLAIMS[..7], refuse(20, 7)),
    ]
}

/// The answers to `ask 0 0`, `ask 1 0`, `ask 1 5`, `ask 2 0` and `ask 2 6`, in the end.
fn compare_answers(totals: &mut Totals, name: &str, expected: [u32; 5]) {
    let job = job_of_text(lines_of(name).as_bytes()).expect("the example's lines fit");
    let answers = Running::start(&job).and_then(Running::finish);
    if answers.as_deref() != Ok(&expected) {
        totals.differ(&format!("example {name}"), &job, &format!("{answers:?}, expected {expected:?}"));
    }
}

pub fn compare_example(totals: &mut Totals) {
    for (number, case) in cases().iter().enumerate() {
        compare_edge(totals, &format!("example {number}"), case);
    }
    compare_answers(totals, "partners", [TRUE, TRUE, TRUE, TRUE, TRUE]);
    compare_answers(totals, "partners_later", [TRUE, TRUE, TRUE, TRUE, FALSE]);
}
