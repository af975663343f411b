//! Turns with faults seen in rule engines, to show that the exploration finds
//! such faults.

use crate::table::Table;
use crate::turns::Kind;

/// The claims that a takeover took from other workers, with their old marks.
fn taken(before: &Table, after: &Table) -> Vec<(u32, u32)> {
    let changed = before.claims().filter(|&claim| before.mark(claim) != after.mark(claim));
    changed.map(|claim| (claim, before.mark(claim))).collect()
}

/// Losers are woken at takeover.
pub fn losers_woken(table: &mut Table, worker: u32) -> Kind {
    let before = table.clone();
    let kind = table.turn(worker);
    if kind == Kind::Took {
        for (_, mark) in taken(&before, table) {
            let at = table.worker_at(mark - 1);
            table.words[at] = 0;
        }
    }
    kind
}

/// Only awaited claims are taken over; the rest stay with waiting workers.
pub fn awaited_only_taken(table: &mut Table, worker: u32) -> Kind {
    let before = table.clone();
    let kind = table.turn(worker);
    if kind == Kind::Took {
        let awaited: Vec<u32> = before.workers().filter_map(|other| before.awaited(other)).collect();
        for (claim, mark) in taken(&before, table) {
            if !awaited.contains(&claim) {
                let at = table.claim_at(claim);
                table.words[at] = mark;
            }
        }
        table.put_newest_words();
    }
    kind
}

/// A worker that meets another's claim waits and never takes over.
pub fn never_taken(table: &mut Table, worker: u32) -> Kind {
    let before = table.clone();
    let kind = table.turn(worker);
    if kind != Kind::Took {
        return kind;
    }
    let moved = before.claims().find(|&claim| before.cursor(claim) != table.cursor(claim)).expect("C passes a literal");
    let met = before.job.literals[before.job.first[moved as usize] + before.cursor(moved)].claim;
    let cursor = table.cursor(moved);
    table.words = before.words;
    let (cursor_at, worker_at) = (table.claim_at(moved) + 1, table.worker_at(worker));
    table.words[cursor_at] = cursor as u32;
    table.words[worker_at] = met + 1;
    Kind::Waits
}
