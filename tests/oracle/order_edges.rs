//! Edge cases of the change orders on tables, with the answers that the papers
//! give them, worked out by hand.

use crate::checks::{check_schedule, refuse, Job, Refusal};
use crate::draft::{not, plain, Draft};
use crate::missing_edges::edges_of_exchange;
use crate::newest_edges::{edges_before_newest, edges_of_newest};
use crate::orders::{Missing, Newest, Orders, Skip};
use crate::table::{Table, OPENED_COUNT};
use crate::turns::Tally;

/// The call that is made on the table.
#[derive(Clone)]
pub enum EdgeCall {
    Start,
    Turn(u32),
    Run(Vec<u8>),
    Read(u32),
}

#[derive(Clone)]
pub struct OrderEdge {
    pub name: String,
    pub job: Vec<u8>,
    pub table: Vec<u32>,
    pub call: EdgeCall,
    /// `started`, the kind of the turn, the tally, the mark read, or the refusal.
    pub answer: String,
    /// The words that it leaves, where they are written out.
    pub leaves: Option<Vec<u32>>,
}

/// What is found wrong with an edge case of these orders.
pub fn edge_fault(edge: &OrderEdge, orders: Orders) -> Option<String> {
    let mut words = edge.table.clone();
    let found = match answer_on(edge, orders, &mut words) {
        Ok(answer) => answer,
        Err(refusal) => format!("refused {} {}", refusal.number, refusal.place),
    };
    if found != edge.answer {
        return Some(format!("{}: {found}, not {}", edge.name, edge.answer));
    }
    let left = edge.leaves.as_ref().map_or(true, |leaves| words == *leaves);
    (!left).then(|| format!("{}: leaves {words:?}", edge.name))
}

/// The call by the text, with all checks.
fn answer_on(edge: &OrderEdge, orders: Orders, words: &mut Vec<u32>) -> Result<String, Refusal> {
    let job = Job::check(&edge.job, orders)?;
    if let EdgeCall::Start = edge.call {
        *words = Table::start_lent(&job, orders, true, words.clone())?.words;
        return Ok("started".to_string());
    }
    let mut table = Table::from_words(&job, orders, words.clone())?;
    let answer = match &edge.call {
        EdgeCall::Turn(worker) if *worker as usize >= job.workers => return refuse(11, 0),
        EdgeCall::Turn(worker) => table.turn(*worker).name().to_string(),
        EdgeCall::Run(schedule) => check_schedule(&job, schedule).map(|()| tally_text(table.run(schedule)))?,
        EdgeCall::Read(claim) if *claim as usize >= job.claims => return refuse(12, 0),
        EdgeCall::Read(claim) => table.mark(*claim).to_string(),
        EdgeCall::Start => unreachable!(),
    };
    *words = table.words;
    Ok(answer)
}

fn tally_text(tally: Tally) -> String {
    format!("tally {}", tally.map(|count| count.to_string()).join(" "))
}

pub fn field(claims: usize, workers: usize, rules: &[(usize, &[u16])], asks: &[(usize, usize)]) -> Draft {
    let mut draft = Draft::new(claims, workers);
    for &(head, body) in rules {
        draft.rule(head, body);
    }
    for &(worker, claim) in asks {
        draft.ask(worker, claim);
    }
    draft
}

/// A table in range that no run need have made: claims that aren't fresh with
/// their mark, cursor and opening number; workers with the claim they await.
pub fn table_of(orders: Orders, draft: &Draft, claims: &[(u32, [u32; 3])], waits: &[(u32, u32)]) -> Vec<u32> {
    let bytes = draft.job_bytes();
    let job = Job::check(&bytes, orders).expect("an edge case's job is accepted");
    let mut table = Table::start(&job, orders, true);
    table.words[OPENED_COUNT] = claims.len() as u32;
    for &(claim, record) in claims {
        let at = table.claim_at(claim);
        table.words[at..at + 3].copy_from_slice(&record);
    }
    for &(worker, claim) in waits {
        let at = table.worker_at(worker);
        table.words[at] = claim + 1;
    }
    table.put_newest_words();
    table.words
}

/// Turns of worker 0 from a started table.
fn turns_from_start(orders: Orders, name: &str, draft: &Draft, turns: usize, answer: &str) -> OrderEdge {
    let (job, table, call) = (draft.job_bytes(), table_of(orders, draft, &[], &[]), EdgeCall::Run(vec![0; turns]));
    OrderEdge { name: format!("order 5, {name}"), job, table, call, answer: answer.to_string(), leaves: None }
}

/// A turn of worker 0, and what it leaves.
pub fn turn_on(
    order: u32,
    name: &str,
    draft: &Draft,
    table: Vec<u32>,
    answer: &str,
    leaves: Option<Vec<u32>>,
) -> OrderEdge {
    let (name, job, call) = (format!("order {order}, {name}"), draft.job_bytes(), EdgeCall::Turn(0));
    OrderEdge { name, job, table, call, answer: answer.to_string(), leaves }
}

fn failing_first() -> Draft {
    field(3, 1, &[(0, &[plain(1), plain(2)])], &[(0, 0)])
}

/// Seven turns of one worker: name, job, tally.
fn failing_rules() -> Vec<(&'static str, Draft, &'static str)> {
    vec![
        ("0 if 1, 2", failing_first(), "tally 1 0 2 0 0 1 2 1"),
        (
            "0 if not 1, 2 with 1 true",
            field(3, 1, &[(0, &[not(1), plain(2)]), (1, &[])], &[(0, 0)]),
            "tally 1 0 2 0 0 1 2 1",
        ),
        (
            "0 if not 1, 2 with 1 false: read on",
            field(3, 1, &[(0, &[not(1), plain(2)])], &[(0, 0)]),
            "tally 0 0 3 0 0 0 3 1",
        ),
        (
            "0 if 1, 2 with 1 undefined: read on",
            field(3, 1, &[(0, &[plain(1), plain(2)]), (1, &[not(1)])], &[(0, 0)]),
            "tally 0 0 3 0 0 1 3 0",
        ),
        (
            "the last literal false: nothing to pass",
            field(3, 1, &[(0, &[plain(2), plain(1)]), (2, &[])], &[(0, 0)]),
            "tally 0 0 3 0 0 0 3 1",
        ),
        (
            "met twice: the second is passed with the rest",
            field(3, 1, &[(0, &[plain(1), plain(1), plain(2)])], &[(0, 0)]),
            "tally 1 0 2 0 0 1 2 1",
        ),
        (
            "one rule's false literal stops no other rule",
            field(3, 1, &[(0, &[plain(1)]), (0, &[plain(2)])], &[(0, 0)]),
            "tally 0 0 3 0 0 0 3 1",
        ),
        (
            "an own open claim is not false",
            field(3, 1, &[(0, &[plain(0), plain(1)]), (0, &[plain(2)])], &[(0, 0)]),
            "tally 0 0 3 0 0 1 3 0",
        ),
    ]
}

fn edges_from_start(orders: Orders) -> Vec<OrderEdge> {
    let mut edges: Vec<OrderEdge> =
        failing_rules().iter().map(|(name, draft, text)| turns_from_start(orders, name, draft, 7, text)).collect();
    let next_rule =
        field(4, 1, &[(0, &[plain(1), plain(2), plain(2), plain(2)]), (0, &[]), (0, &[plain(3)])], &[(0, 0)]);
    let name = "to the rule's end, over an empty body, on to the next";
    edges.push(turns_from_start(orders, name, &next_rule, 9, "tally 1 0 3 0 0 1 3 1"));
    edges
}

/// Tables in range that no run made.
fn edges_on_tables(orders: Orders) -> Vec<OrderEdge> {
    let long = field(4, 1, &[(0, &[plain(1), plain(2), plain(3)])], &[(0, 0)]);
    // 0 open, cursor 2; 1 false; 2 and 3 fresh.
    let inside = |cursor: u32| table_of(orders, &long, &[(0, [1, cursor, 1]), (1, [257, 0, 2])], &[]);
    let mut two = failing_first();
    two.workers = 2;
    // 0 open and passed; 2 open to worker 1.
    let behind = |mark: u32| table_of(orders, &two, &[(0, [1, 2, 1]), (1, [mark, 0, 2]), (2, [2, 0, 3])], &[]);
    let ring = field(4, 2, &[(0, &[plain(3)]), (3, &[plain(1), plain(2)])], &[(0, 0)]);
    // 0 is worker 0's; 3 (passed) and 2 are worker 1's, which awaits 0; 1 false.
    let taking = |cursor: u32, owner: u32| {
        let claims = [(0, [1, cursor, 1]), (1, [257, 0, 2]), (2, [2, 0, 3]), (3, [owner, 2, 4])];
        table_of(orders, &ring, &claims, &[(1, 0)])
    };
    vec![
        turn_on(5, "a cursor inside a failed rule", &long, inside(2), "passed", Some(inside(3))),
        turn_on(5, "another's claim behind a false one isn't reached", &two, behind(257), "completed", None),
        turn_on(5, "behind an undefined one it is", &two, behind(258), "idle", Some(behind(258))),
        turn_on(5, "no takeover behind a false one", &ring, taking(0, 2), "took", Some(taking(1, 1))),
    ]
}

/// More such tables: which literals count as earlier, and how far the skip goes.
fn edges_of_cursors(orders: Orders) -> Vec<OrderEdge> {
    let long = field(5, 1, &[(0, &[plain(1), not(2), plain(3), plain(4)]), (0, &[plain(3)])], &[(0, 0)]);
    // 0 open; 1 undefined; 2 with this mark; 3 and 4 fresh.
    let at = |cursor: u32, mark: u32| {
        table_of(orders, &long, &[(0, [1, cursor, 1]), (1, [258, 0, 2]), (2, [mark, 0, 3])], &[])
    };
    let opened = table_of(orders, &long, &[(0, [1, 5, 1]), (1, [258, 0, 2]), (2, [256, 0, 3]), (3, [1, 0, 4])], &[]);
    let two = field(3, 1, &[(0, &[plain(1), plain(2)]), (2, &[plain(1)])], &[(0, 0)]);
    // 0, the newest, open and passed; 1 false; 2 open with a literal left.
    let own = |mark: u32| table_of(orders, &two, &[(0, [mark, 2, 3]), (1, [257, 0, 1]), (2, [1, 0, 2])], &[]);
    vec![
        turn_on(5, "a false literal at the cursor is met", &long, at(1, 256), "passed", Some(at(2, 256))),
        turn_on(5, "the rest of its rule is passed then", &long, at(2, 256), "passed", Some(at(4, 256))),
        turn_on(5, "the last literal is passed alone", &long, at(3, 256), "passed", Some(at(4, 256))),
        turn_on(5, "the next rule is read", &long, at(4, 256), "opened", Some(opened)),
        turn_on(5, "an own claim behind a false one isn't C", &two, own(1), "completed", Some(own(257))),
    ]
}

/// The edge cases with these orders in force.
pub fn order_edges(orders: Orders) -> Vec<OrderEdge> {
    let mut edges = match orders.skip {
        Skip::Off => {
            let name = "not in force: 0 if 1, 2";
            vec![turns_from_start(orders, name, &failing_first(), 7, "tally 0 0 3 0 0 0 3 1")]
        }
        _ => [edges_from_start(orders), edges_on_tables(orders), edges_of_cursors(orders)].concat(),
    };
    if orders.missing != Missing::Off {
        edges.extend(edges_of_exchange(orders));
    }
    edges.extend(if orders.newest == Newest::Off { edges_before_newest() } else { edges_of_newest() });
    edges
}
