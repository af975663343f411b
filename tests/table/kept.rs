//! What a run may keep from turn to turn, and what can make it wrong: what a
//! worker's newest claim reaches, and the claim of that which moved on last.  By the
//! oracle's tables alone.

use oracle::table::Table;
use oracle::turns::Kind;

/// Sorts of turns in a run.  A set is what is reached from a newest claim that has
/// passed its literals; C is the claim that moves on.
pub const SORTS: [&str; 18] = [
    "newest claim with a literal left",
    "set anew",
    "set as in the turn before it",
    "set as before others' turns",
    "set grown",
    "set with the same C",
    "C opened since, the last one having a literal left",
    "C taken since, the last one having a literal left",
    "C reached since, the last one having a literal left",
    "C by equal numbers",
    "C newer outside the set",
    "idle at another's claim",
    "idle at a fresh claim",
    "completed set that grew",
    "completed after a completion",
    BEHIND,
    "completed by an undefined literal",
    "completed with a true literal",
];

/// Met under order 5 alone.
pub const BEHIND: &str = "completed with a claim left open behind a false literal";

pub type Counts = [usize; 18];

/// A worker's last turn on what its newest claim reaches.
struct Set {
    worker: u32,
    newest: u32,
    members: Vec<u32>,
    next: Option<u32>,
    words: Vec<u32>,
    /// It has grown since it was first found.
    grown: bool,
    /// Others have had turns since that weren't idle.
    others: bool,
}

#[derive(Default)]
pub struct Watch {
    set: Option<Set>,
    completed: bool,
}

/// The own claims of a set with a literal left.
fn unread<'a>(table: &'a Table, members: &'a [u32], worker: u32) -> impl Iterator<Item = u32> + 'a {
    let own = members.iter().copied().filter(move |&claim| table.owner(claim) == Some(worker));
    own.filter(|&claim| table.literals_left(claim))
}

impl Watch {
    /// Counts what a turn begins with.
    pub fn before(&mut self, table: &mut Table, worker: u32, met: &mut Counts) {
        let newest = match (table.awaited(worker), table.newest_found(worker)) {
            (None, Some(newest)) => newest,
            _ => return,
        };
        if table.literals_left(newest) {
            met[0] += 1;
            return;
        }
        let members = table.reached(newest);
        let next = table.newest_of(unread(table, &members, worker));
        let mut set = Set { worker, newest, members, next, words: table.words.clone(), grown: false, others: false };
        match self.set.take().filter(|last| last.worker == worker && last.newest == newest) {
            None => met[1] += 1,
            Some(last) => set.count_kept(table, &last, met),
        }
        set.count_choice(table, met);
        self.set = Some(set);
    }

    /// Counts what it was.
    pub fn after(&mut self, table: &Table, worker: u32, kind: Kind, met: &mut Counts) {
        match kind {
            Kind::Completed => {
                met[14] += usize::from(std::mem::replace(&mut self.completed, true));
                let set = self.set.take().expect("a completion is of a set");
                set.count_completion(table, met);
            }
            Kind::Idle => {}
            _ => self.set.iter_mut().for_each(|set| set.others |= set.worker != worker),
        }
    }
}

impl Set {
    /// Counts a set of which the last turn on one had the same newest claim.
    fn count_kept(&mut self, table: &Table, last: &Set, met: &mut Counts) {
        met[2 + usize::from(last.others)] += 1;
        let grown = self.members.len() > last.members.len();
        met[4] += usize::from(grown);
        self.grown = last.grown || grown;
        let (Some(next), Some(past)) = (self.next, last.next) else { return };
        met[5] += usize::from(next == past);
        if next != past && table.owner(past) == Some(self.worker) && table.literals_left(past) {
            let mark = last.words[table.claim_at(next)];
            let sort = match mark {
                _ if !last.members.contains(&next) => 8,
                0 => 6,
                _ => 7,
            };
            met[sort] += 1;
        }
    }

    /// Counts how C is chosen, or why there is none.
    fn count_choice(&self, table: &Table, met: &mut Counts) {
        let number = |claim: u32| (table.opening(claim), claim);
        match self.next {
            Some(next) => {
                let equal = |claim: u32| claim != next && table.opening(claim) == table.opening(next);
                met[9] += usize::from(unread(table, &self.members, self.worker).any(equal));
                let all: Vec<u32> = table.claims().collect();
                met[10] += usize::from(unread(table, &all, self.worker).any(|claim| number(claim) > number(next)));
            }
            None => {
                let other = |&claim: &u32| table.owner(claim).is_some_and(|owner| owner != self.worker);
                met[11] += usize::from(self.members.iter().any(other));
                met[12] += usize::from(self.members.iter().any(|&claim| table.mark(claim) == 0));
            }
        }
    }

    /// Counts the set's completion; the words are those before it.
    fn count_completion(&self, after: &Table, met: &mut Counts) {
        let mut table = after.clone();
        table.words = self.words.clone();
        met[13] += usize::from(self.grown);
        let mut sorts = [false; 3];
        let is_out = |claim: u32| !table.complete(claim) && !self.members.contains(&claim);
        for rule in self.members.iter().flat_map(|&claim| table.job.rules_of(claim)) {
            let body = table.job.body(rule);
            let failed = body.iter().any(|literal| table.fails(literal));
            sorts[0] |= body.iter().any(|literal| is_out(literal.claim));
            let marked = |mark: u32| body.iter().any(|literal| table.mark(literal.claim) == mark);
            sorts[1] |= !failed && marked(258);
            sorts[2] |= !failed && (marked(256) || marked(257));
        }
        (0..3).for_each(|sort| met[15 + sort] += usize::from(sorts[sort]));
    }
}
