//! One call at a time beside the oracle's: the code, the tally, every word of the table,
//! every byte of the buffer, and what may not change.

use oracle::orders::Orders;
use oracle::record::{perform, Answer, Call, Lent};
use oracle::record_edges::RecordEdge;

use crate::codes::{code_of_check, said};
use crate::lent::{Input, Output};
use crate::library;
use crate::totals::Totals;
use crate::words::Lent as Words;

/// What a tally holds before, and the counts around it.
const UNCOUNTED: u64 = 0xdead_beef;

/// Bytes around what is lent for reading, which would be turns of workers.
fn lend(bytes: &[u8]) -> Input {
    Input::between(&[0; 64], bytes, &[0; 64])
}

/// What the library wrote of the bytes lent for writing: a recorded run the record, where
/// it was accepted.
fn written(call: Call, answer: &Answer, left: &Lent) -> Vec<u8> {
    match (call, answer.check) {
        (Call::RecordedRun, Ok(())) => left.bytes[..2 * left.schedule.len()].to_vec(),
        _ => Vec::new(),
    }
}

/// The library's call on copies of what is lent; what differs from this answer and what
/// is left.
fn fault_of(call: Call, lent: &Lent, answer: &Answer, left: &Lent) -> Option<String> {
    let [job, schedule, record] = [&lent.job, &lent.schedule, &lent.bytes].map(|bytes| lend(bytes));
    let (mut words, mut buffer) = (Words::new(&lent.table), Output::new(lent.bytes.len()));
    let mut counts = [UNCOUNTED; 10];
    let tally = (&mut counts[1..9]).try_into().expect("eight counts");
    let (table, out) = (words.table(lent.table.len()), buffer.lend(lent.bytes.len()));
    let code = match call {
        Call::RecordedRun => library::record(job.bytes(), table, schedule.bytes(), out, tally),
        Call::Replay => library::replay(job.bytes(), table, record.bytes(), tally),
    };
    let right = code_of_check(&answer.check);
    if code != right {
        return Some(format!("{}, expected {}", said(code), said(right)));
    }
    if counts[1..9] != answer.tally || [counts[0], counts[9]] != [UNCOUNTED; 2] {
        return Some(format!("the tally is {:?}, expected {:?}", &counts[1..9], answer.tally));
    }
    if [job, schedule, record].iter().any(Input::altered) {
        return Some("job, schedule or record was altered".to_string());
    }
    let byte = buffer.difference(lent.bytes.len(), &written(call, answer, left));
    words.difference(&left.table).or(byte.map(|byte| format!("of the buffer {byte}")))
}

/// One call beside the oracle; what the oracle's answers and leaves.
pub fn compare(totals: &mut Totals, name: &str, call: Call, lent: &Lent) -> (Answer, Lent) {
    let mut left = lent.clone();
    let answer = perform(call, &mut left, Orders::in_force());
    totals.count(call, lent, &answer, &left);
    if let Some(fault) = fault_of(call, lent, &answer, &left) {
        totals.differ(name, call, lent, &fault);
    }
    (answer, left)
}

/// An edge case, beside the oracle and beside what is written down for it.
pub fn compare_edge(totals: &mut Totals, name: &str, edge: &RecordEdge) {
    compare(totals, name, edge.call, &edge.lent);
    if let Some(fault) = fault_of(edge.call, &edge.lent, &edge.answer, &edge.left) {
        totals.differ(name, edge.call, &edge.lent, &format!("{}: {fault}", edge.name));
    }
}
