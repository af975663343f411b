//! All tables that turns can make of a small job: every schedule at once, with
//! demands 2 and 3 checked on each table and each turn.

use std::collections::HashMap;

use crate::checks::Job;
use crate::lines::in_words;
use crate::model::{well_founded, Program, Verdict};
use crate::orders::{Orders, Skip};
use crate::promises::{check_end, check_values, ensure};
use crate::table::Table;
use crate::turns::Kind;

/// What an exploration met; sums over jobs.
#[derive(Default, Clone, Debug)]
pub struct Met {
    pub jobs: u64,
    /// Jobs with too many tables to go through all of them.
    pub cut_short: u64,
    pub tables: u64,
    pub turns: u64,
    pub kinds: [u64; 8],
    /// Turns that passed the rest of a failed rule.
    pub skips: u64,
    /// Jobs with missing records.
    pub missing: u64,
    /// Idle turns of a worker that awaits nothing and owns an open claim.
    pub idle_owners: u64,
    /// Literals of a claim still open, met (not skipped), that stopped leading
    /// to an open claim when an earlier one completed false.
    pub cut_leads: u64,
    /// Literals met behind one whose claim is incomplete and doesn't reach the
    /// rule's head.
    pub loose_reads: u64,
    /// Jobs where all answered tables have different complete claims.
    pub different_ends: u64,
    /// Largest changes / promised rounds, and rounds / promised rounds, in percent.
    pub most_changes: u64,
    pub most_rounds: u64,
    pub rounds_jobs: u64,
}

pub type TurnOf = fn(&mut Table, u32) -> Kind;

pub fn turn_as_worded(table: &mut Table, worker: u32) -> Kind {
    table.turn(worker)
}

pub struct Explorer<'a> {
    pub job: &'a Job,
    pub orders: Orders,
    pub turn: TurnOf,
    pub model: Vec<Verdict>,
    pub closure: Vec<bool>,
    pub tables: Vec<Vec<u32>>,
    /// Per table and worker: the table its turn makes; none if idle.
    pub next: Vec<Vec<Option<u32>>>,
    pub index: HashMap<Vec<u32>, u32>,
    pub all_through: bool,
}

/// Literals met that led from a claim still open to an incomplete claim before
/// the turn and, the claim still incomplete, no longer do.
fn count_cut_leads(before: &Table, after: &Table) -> u64 {
    let open = after.claims().filter(|&claim| after.owner(claim).is_some());
    open.map(|claim| {
        let now = after.leads(claim);
        let gone = before.leads(claim).into_iter().filter(|&met| !after.complete(met) && !now.contains(&met));
        gone.count() as u64
    })
    .sum()
}

/// Literals of open claims' rules, met behind a literal whose claim is
/// incomplete and doesn't reach the rule's head.
fn count_loose_reads(table: &mut Table) -> u64 {
    let job = table.job;
    let mut count = 0;
    for head in table.claims().filter(|&claim| table.owner(claim).is_some()).collect::<Vec<u32>>() {
        let passed_to = job.first[head as usize] + table.cursor(head);
        for rule in job.rules_of(head) {
            let passed = table.passed_literals(rule, passed_to);
            let failed = passed.iter().position(|literal| table.fails(literal)).unwrap_or(passed.len());
            for literal in &passed[..failed.saturating_sub(1)] {
                let loose = !table.complete(literal.claim) && !table.reached(literal.claim).contains(&head);
                count += u64::from(loose);
            }
        }
    }
    count
}

impl<'a> Explorer<'a> {
    pub fn new(job: &'a Job, orders: Orders, turn: TurnOf, model: Vec<Verdict>) -> Explorer<'a> {
        let mut explorer = Explorer {
            job,
            orders,
            turn,
            model,
            closure: job.asked_closure(),
            tables: Vec::new(),
            next: Vec::new(),
            index: HashMap::new(),
            all_through: true,
        };
        explorer.find(Table::start(job, orders, true).words);
        explorer
    }

    fn find(&mut self, words: Vec<u32>) -> u32 {
        if let Some(&number) = self.index.get(&words) {
            return number;
        }
        let number = self.tables.len() as u32;
        self.index.insert(words.clone(), number);
        self.tables.push(words);
        number
    }

    fn table(&self, words: Vec<u32>) -> Table<'a> {
        let mut table = Table::start(self.job, self.orders, true);
        table.words = words;
        table
    }

    /// Goes through the tables that turns make, at most `most` of them.
    pub fn explore(&mut self, most: usize, met: &mut Met) -> Result<(), String> {
        let mut at = 0;
        while at < self.tables.len() && at < most {
            let mut table = self.table(self.tables[at].clone());
            self.check_table(&table)?;
            met.loose_reads += count_loose_reads(&mut table);
            let next = table.workers().map(|worker| self.make_turn(&table, worker, met)).collect::<Result<_, _>>()?;
            self.next.push(next);
            self.check_rest(at, &table)?;
            at += 1;
        }
        self.all_through = at == self.tables.len();
        met.jobs += 1;
        met.missing += u64::from(self.job.missing_records() > 0);
        met.cut_short += u64::from(!self.all_through);
        met.tables += at as u64;
        met.different_ends += u64::from(self.ends_differ());
        Ok(())
    }

    /// Order 5: different schedules complete different claims.
    fn ends_differ(&self) -> bool {
        let ends = self.next.iter().zip(&self.tables).filter(|(next, _)| next.iter().all(Option::is_none));
        let mut complete = ends.map(|(_, words)| {
            let table = self.table(words.clone());
            table.claims().map(|claim| table.complete(claim)).collect::<Vec<bool>>()
        });
        let first = complete.next();
        complete.any(|other| Some(other) != first)
    }

    fn check_table(&self, table: &Table) -> Result<(), String> {
        check_values(table, &self.model)?;
        let again = Table::from_words(self.job, self.orders, table.words.clone());
        ensure(again.is_ok(), "check 10 refuses a table that turns made")?;
        if table.all_answered() {
            check_end(table, &self.closure)?;
        }
        Ok(())
    }

    /// All is answered exactly when no next turn changes anything.
    fn check_rest(&self, at: usize, table: &Table) -> Result<(), String> {
        let at_rest = self.next[at].iter().all(Option::is_none);
        ensure(!at_rest || table.all_answered(), "no turn changes anything, and not all is answered")?;
        ensure(at_rest || !table.all_answered(), "all is answered, and a turn changes something")
    }

    fn make_turn(&mut self, before: &Table, worker: u32, met: &mut Met) -> Result<Option<u32>, String> {
        let mut after = before.clone();
        let kind = (self.turn)(&mut after, worker);
        met.turns += 1;
        met.kinds[kind as usize] += 1;
        let changed = after.words != before.words;
        ensure(changed == (kind != Kind::Idle), "a turn changes something exactly when it isn't idle")?;
        if kind == Kind::Idle {
            let owner = before.awaited(worker).is_none() && before.newest_found(worker).is_some();
            met.idle_owners += u64::from(owner);
            return Ok(None);
        }
        if kind == Kind::Completed {
            met.cut_leads += count_cut_leads(before, &after);
        }
        let may_skip = kind == Kind::Passed && self.orders.skip != Skip::Off;
        met.skips += u64::from(may_skip && skipped(before, &after));
        Ok(Some(self.find(after.words)))
    }

    /// The most changing turns from each table on, by the tables it leads to.
    pub fn most_changes(&self) -> u64 {
        let mut known = vec![None; self.tables.len()];
        self.changes_from(0, &mut known)
    }

    fn changes_from(&self, at: u32, known: &mut Vec<Option<u64>>) -> u64 {
        if let Some(most) = known[at as usize] {
            return most;
        }
        let next: Vec<u32> = self.next[at as usize].iter().copied().flatten().collect();
        let most = next.into_iter().map(|next| 1 + self.changes_from(next, known)).max().unwrap_or(0);
        known[at as usize] = Some(most);
        most
    }

    /// The most rounds that a list of turns can hold while not all is answered.
    pub fn most_rounds(&self) -> u64 {
        let mut known = HashMap::new();
        self.rounds_from(0, 0, &mut known)
    }

    /// The same from a table on, the workers in `named` having been named in
    /// the round under way.
    fn rounds_from(&self, at: u32, named: u32, known: &mut HashMap<(u32, u32), u64>) -> u64 {
        if self.next[at as usize].iter().all(Option::is_none) {
            return 0;
        }
        if let Some(&most) = known.get(&(at, named)) {
            return most;
        }
        let everyone = (1u32 << self.job.workers) - 1;
        let mut most = 0;
        for (worker, &next) in self.next[at as usize].iter().enumerate() {
            let names = named | 1 << worker;
            let after = next.unwrap_or(at);
            let still_open = self.next[after as usize].iter().any(Option::is_some);
            if (after, names) == (at, named) || !still_open {
                continue;
            }
            let (whole, names) = if names == everyone { (1, 0) } else { (0, names) };
            most = most.max(whole + self.rounds_from(after, names, known));
        }
        known.insert((at, named), most);
        most
    }

    /// Changes and rounds keep to 2L + A + 3Q, whatever the schedule.
    pub fn check_rounds(&self, met: &mut Met) -> Result<(), String> {
        if !self.all_through {
            return Ok(());
        }
        let promised = self.job.promised_rounds() as u64;
        let changes = self.most_changes();
        ensure(changes <= promised, "more changing turns than 2L + A + 3Q")?;
        if promised == 0 {
            return Ok(());
        }
        met.most_changes = met.most_changes.max(100 * changes / promised);
        if self.job.workers <= 3 && !self.job.questions.is_empty() {
            let rounds = self.most_rounds();
            ensure(rounds < promised, "2L + A + 3Q rounds and not all is answered")?;
            met.most_rounds = met.most_rounds.max(100 * (rounds + 1) / promised);
            met.rounds_jobs += 1;
        }
        Ok(())
    }
}

/// Between the two tables a cursor moved, and the literal it stood at is behind
/// a complete false one.
pub fn skipped(before: &Table, after: &Table) -> bool {
    before.claims().filter(|&claim| before.cursor(claim) < after.cursor(claim)).any(|claim| {
        before.next_literal(claim).is_some_and(|(rule, next)| {
            before.job.literals[rule.start..next].iter().any(|literal| before.fails(literal))
        })
    })
}

/// Explores one job to the full, its turns by a reading of the orders, its model by
/// their wording; the fault with the job in words.
pub fn explore_job(bytes: &[u8], orders: Orders, turn: TurnOf, most: usize, met: &mut Met) -> Result<(), String> {
    let checked = |orders: Orders| Job::check(bytes, orders).map_err(|refusal| format!("it is refused: {refusal:?}"));
    let (job, worded) = (checked(orders)?, checked(orders.as_worded())?);
    let mut explorer = Explorer::new(&job, orders, turn, well_founded(&Program::of_job(&worded)));
    let found = explorer.explore(most, met).and_then(|()| explorer.check_rounds(met));
    found.map_err(|fault| format!("{fault}: {}", in_words(&worded)))
}
