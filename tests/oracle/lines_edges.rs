//! Edge cases of order 1: a text, how long the output is, and what 02 makes of it.

use crate::checks::{refuse, Refusal, MAX_JOB_BYTES};
use crate::draft::{not, plain, Draft};
use crate::lines_misfits::{BAD_COUNTS, BAD_LINES};

/// The text, for an output of that many bytes.
pub struct Call {
    pub text: Vec<u8>,
    pub output: usize,
}

pub struct LinesEdge {
    pub name: String,
    pub call: Call,
    /// The job, or the refusal.
    pub expected: Result<Vec<u8>, Refusal>,
}

struct Edges {
    cases: Vec<LinesEdge>,
}

impl Edges {
    fn refused(&mut self, name: &str, call: Call, number: u32, place: usize) {
        self.cases.push(LinesEdge { name: name.to_string(), call, expected: refuse(number, place) });
    }

    fn gives(&mut self, name: &str, call: Call, job: impl AsRef<[u8]>) {
        self.cases.push(LinesEdge { name: name.to_string(), call, expected: Ok(job.as_ref().to_vec()) });
    }
}

const COUNTS: &str = "claims 3 workers 2\n";

fn lines(text: impl AsRef<[u8]>) -> Call {
    Call { text: text.as_ref().to_vec(), output: MAX_JOB_BYTES }
}

/// Some lines behind `claims 3 workers 2`.
fn behind_counts(rest: &str) -> Call {
    lines([COUNTS, rest].concat())
}

fn good_texts(edges: &mut Edges) {
    edges.gives("no claim, no rule", lines("claims 0 workers 1\n"), Draft::new(0, 1).job_bytes());
    edges.gives("most claims and workers", lines("claims 4096 workers 32\n"), Draft::new(4096, 32).job_bytes());
    let mut pair = Draft::new(2, 2);
    pair.rule(0, &[plain(1)]);
    pair.rule(1, &[plain(0)]);
    pair.ask(0, 0);
    pair.ask(1, 1);
    let text = "claims 2 workers 2\n0 if 1.\n1 if 0.\nask 0 0\nask 1 1\n";
    edges.gives("01's listing example", lines(text), pair.job_bytes());
    let mut sorted = Draft::new(3, 2);
    sorted.rule(0, &[not(2), plain(1)]);
    sorted.rule(0, &[]);
    sorted.rule(1, &[plain(1)]);
    sorted.rule(2, &[not(0), not(0)]);
    sorted.rule(2, &[]);
    sorted.rule(2, &[]);
    sorted.ask(1, 2);
    sorted.ask(0, 0);
    sorted.ask(1, 2);
    sorted.ask(0, 1);
    let text = "2 if not 0, not 0.\n0 if not 2, 1.\n2.\n1 if 1.\n2.\n0.\nask 1 2\nask 0 0\nask 1 2\nask 0 1\n";
    edges.gives(
        "sorted by head, a head's rules and the questions in line order",
        behind_counts(text),
        sorted.job_bytes(),
    );
    let mut last = Draft::new(4096, 32);
    last.rule(4095, &[not(4095), plain(4095)]);
    last.ask(31, 4095);
    let text = "claims 4096 workers 32\n4095 if not 4095, 4095.\nask 31 4095\n";
    edges.gives("claim 4,095 and worker 31", lines(text), last.job_bytes());
}

fn largest() -> (String, Draft) {
    let mut draft = Draft::new(4096, 32);
    let mut text = "claims 4096 workers 32\n".to_string();
    for rule in 0..6144 {
        let head = rule % 4096;
        let body = if rule < 2 { 8192 } else { 0 };
        draft.rule(head, &vec![not(4095); body]);
        text += &match body {
            0 => format!("{head}.\n"),
            _ => format!("{head} if {}.\n", vec!["not 4095"; body].join(", ")),
        };
    }
    for question in 0..1024 {
        draft.ask(question % 32, question);
        text += &format!("ask {} {question}\n", question % 32);
    }
    (text, draft)
}

fn limits(edges: &mut Edges) {
    let (text, draft) = largest();
    let job = draft.job_bytes();
    edges.gives("all counts at their limits", lines(&text), &job);
    edges.refused("16: largest job", Call { text: text.clone().into_bytes(), output: 61_475 }, 16, 61_476);
    edges.refused("15: question 1,025", lines(text.clone() + "ask 0 0\n"), 15, 1 + 6144 + 1025);
    edges.refused("15: rule 6,145", lines(text.replacen("ask", "0.\nask", 1)), 15, 1 + 6145);
    edges.refused("15: literal 16,385, last rule", lines(text.replacen("2047.\nask", "2047 if 0.\nask", 1)), 15, 6145);
    edges.refused("15: literal 16,385, second rule", lines(text.replacen("\n1 if", "\n1 if 0,", 1)), 15, 3);
    let early = text.replacen("\n5.\n", "\n4096.\n", 1) + "ask 0 0\n";
    edges.refused("15: a claim before a count", lines(&early), 15, 7);
    let late = text.replacen("ask", "0.\n4096.\nask", 1);
    edges.refused("15: a count before a claim", lines(&late), 15, 6146);
    edges.refused("15: both in one line", lines(text.replacen("ask", "4096.\nask", 1)), 15, 6146);
    edges.refused("14: before all of these", lines(text.clone() + "ask 0 0\nask 0 4096\nask 0 0"), 14, 7172);
    let one = vec!["0"; 16_384].join(", ");
    let mut single = Draft::new(1, 1);
    single.rule(0, &vec![plain(0); 16_384]);
    edges.gives("16,384 literals in a rule", lines(format!("claims 1 workers 1\n0 if {one}.\n")), single.job_bytes());
    edges.refused("15: 16,385 in a rule", lines(format!("claims 1 workers 1\n0 if {one}, 0.\n")), 15, 2);
    edges.refused("15: one more in the next", lines(format!("claims 1 workers 1\n0 if {one}.\n0 if 0.\n")), 15, 3);
    let many = vec!["0"; 65_535].join(", ");
    edges.refused(
        "15: 65,535 in a rule, no missing record",
        lines(format!("claims 1 workers 1\n0 if {many}.\n")),
        15,
        2,
    );
    let wraps = vec!["0"; 65_536].join(", ");
    edges.refused("15: 65,536 in a rule", lines(format!("claims 1 workers 1\n0 if {wraps}.\n")), 15, 2);
}

fn misfits(edges: &mut Edges) {
    for text in BAD_COUNTS {
        edges.refused(&format!("14: first line {text:?}"), lines(text), 14, 1);
    }
    for line in BAD_LINES {
        edges.refused(&format!("14: second line {line:?}"), behind_counts(line), 14, 2);
        edges.refused(&format!("14: fourth line {line:?}"), behind_counts(&format!("2.\n1 if 2.\n{line}")), 14, 4);
        edges.refused(
            &format!("14: {line:?} behind a third line that doesn't fit"),
            behind_counts(&format!("2.\n1 if.\n{line}")),
            14,
            3,
        );
        edges.refused(&format!("14: {line:?} behind a question"), behind_counts(&format!("ask 1 1\n{line}")), 14, 3);
    }
    let zeros = "0".repeat(5000);
    edges.refused("14: 5,000 zeros", behind_counts(&format!("{zeros}.\n")), 14, 2);
    let leading = format!("0{}", "9".repeat(5000));
    edges.refused("14: a zero before 5,000 digits", behind_counts(&format!("ask {leading} 0\n")), 14, 2);
    edges.refused("14: byte 255", lines(b"claims 3 workers 2\n0.\xff\n"), 14, 2);
    edges.refused("14: byte 255 alone", lines(b"\xff"), 14, 1);
    edges.refused("14: byte 128 in a number", lines(b"claims 3 workers 2\n\xb0.\n"), 14, 2);
}

fn order_of_lines(edges: &mut Edges) {
    for (name, rest, place) in [
        ("a rule behind a question", "ask 0 0\n0.\n", 3),
        ("a rule between questions", "0.\nask 0 0\n0 if 1.\nask 0 0\n", 4),
        ("counts behind a rule", "0.\nclaims 3 workers 2\n", 3),
        ("counts behind a question", "ask 0 0\nclaims 3 workers 2\n", 3),
        ("a blank line at the end", "0.\nask 0 0\n\n", 4),
        ("a blank line between", "0.\n\nask 0 0\n", 3),
        ("no line feed at the end", "0.\nask 0 0", 3),
        ("no line feed, and an earlier line", "0\nask 0 0", 2),
        ("a space at the end", "0.\n ", 3),
        ("the first of two", "0.\n1\n2\n", 3),
        ("before 15 in an earlier line", "3.\n1\n", 3),
        ("before 15 in the same line", "0.\n3 if 01.\n", 3),
        ("before 15 in a later line", "1\n3.\n", 2),
        ("a claim past A in a line out of order", "ask 0 0\n3.\n", 3),
    ] {
        edges.refused(&format!("14: {name}"), behind_counts(rest), 14, place);
    }
    edges.refused("14: before T 0", lines("claims 1 workers 0\n0"), 14, 2);
    edges.refused("14: before huge counts", lines("claims 99999999999999999999 workers 0\n\n"), 14, 2);
}

fn numbers(edges: &mut Edges) {
    for huge in ["4097", "32768", "65535", "65536", "4294967296", "18446744073709551616", "18446744073709551617"] {
        edges.refused(&format!("15: claims {huge}"), lines(format!("claims {huge} workers 1\n")), 15, 1);
        edges.refused(&format!("15: workers {huge}"), lines(format!("claims 1 workers {huge}\n")), 15, 1);
    }
    for (name, text) in
        [("T 0", "claims 3 workers 0\n"), ("T 33", "claims 3 workers 33\n"), ("A 0, T 0", "claims 0 workers 0\n")]
    {
        edges.refused(&format!("15: {name}"), lines(text), 15, 1);
    }
    let long = "7".repeat(5000);
    for number in ["3", "4", "4096", "32767", "32768", "32769", "65535", "65536", "4294967296", "4294967297"]
        .into_iter()
        .chain(["18446744073709551616", "340282366920938463463374607431768211456", long.as_str()])
    {
        let short = &number[..number.len().min(40)];
        for rest in ["N.\n", "N if 0.\n", "0 if N.\n", "0 if not N.\n", "0 if 1, not 2, N.\n", "ask 0 N\n", "ask N 0\n"]
        {
            let second = behind_counts(&rest.replace('N', number));
            edges.refused(&format!("15: {short} in {rest:?}"), second, 15, 2);
        }
        let fourth = behind_counts(&format!("0.\n1 if 2.\n0 if {number}.\n3.\nask 2 3\n"));
        edges.refused(&format!("15: {short} in line 4, the first of three"), fourth, 15, 4);
    }
    edges.refused("15: worker 2 of two", behind_counts("ask 2 0\n"), 15, 2);
    edges.refused("15: the head of a later line comes first", behind_counts("2.\n0 if 3.\n3.\n"), 15, 3);
    edges.refused("15: a rule where A is 0", lines("claims 0 workers 1\n0.\n"), 15, 2);
    edges.refused("15: a question where A is 0", lines("claims 0 workers 1\nask 0 0\n"), 15, 2);
    edges.refused("15: T 0 before a claim", lines("claims 0 workers 0\n0.\n"), 15, 1);
}

fn outputs(edges: &mut Edges) {
    let text = b"claims 3 workers 2\n1 if 0, not 2.\n0.\nask 1 2\n".to_vec();
    let mut draft = Draft::new(3, 2);
    draft.rule(0, &[]);
    draft.rule(1, &[plain(0), not(2)]);
    draft.ask(1, 2);
    let job = draft.job_bytes();
    for output in [0, 1, 35, 36, 51] {
        edges.refused(&format!("16: {output} bytes"), Call { text: text.clone(), output }, 16, 52);
    }
    for output in [52, 53, 61_476, 100_000] {
        edges.gives(&format!("{output} bytes suffice"), Call { text: text.clone(), output }, &job);
    }
    let empty = b"claims 0 workers 1\n".to_vec();
    edges.refused("16: 35 bytes for an empty job", Call { text: empty.clone(), output: 35 }, 16, 36);
    edges.gives("36 bytes for an empty job", Call { text: empty, output: 36 }, Draft::new(0, 1).job_bytes());
    edges.refused("15: before 16", Call { text: b"claims 1 workers 1\n1.\n".to_vec(), output: 0 }, 15, 2);
    edges.refused("14: before 16", Call { text: Vec::new(), output: 0 }, 14, 1);
}

pub fn lines_edges() -> Vec<LinesEdge> {
    let mut edges = Edges { cases: Vec::new() };
    good_texts(&mut edges);
    limits(&mut edges);
    misfits(&mut edges);
    order_of_lines(&mut edges);
    numbers(&mut edges);
    outputs(&mut edges);
    edges.cases
}
