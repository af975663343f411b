//! What turns meet of failed rules, of missing records and of newest claims, so
//! that the gate can tell whether each sort was met.

use oracle::table::Table;
use oracle::turns::Kind;

use crate::counts::add;
use crate::{failed, missing, newest};

#[derive(Clone, Default)]
pub struct Met {
    pub failed: failed::Counts,
    pub missing: missing::Counts,
    pub newest: newest::Counts,
}

/// On larger jobs a turn is only made.
const MOST_CLAIMS: usize = 60;

/// A turn that was made.
pub struct Made<'a, 'b> {
    pub before: &'a Table<'b>,
    pub after: &'a Table<'b>,
    pub worker: u32,
    pub kind: Kind,
}

impl Made<'_, '_> {
    /// Whether the turn, made again on a table changed before, is another.
    pub fn is_another(&self, change: impl FnOnce(&mut Table)) -> bool {
        let mut other = self.before.clone();
        other.by_text = true;
        change(&mut other);
        other.turn(self.worker) != self.kind || other.words != self.after.words
    }
}

impl Met {
    /// Makes a turn and counts what it meets.
    pub fn turn(&mut self, table: &mut Table, worker: u32) -> Kind {
        if table.job.claims > MOST_CLAIMS {
            return table.turn(worker);
        }
        let before = table.clone();
        let kind = table.turn(worker);
        let made = Made { before: &before, after: table, worker, kind };
        failed::count(&made, &mut self.failed);
        missing::count(&made, &mut self.missing);
        newest::count(&made, &mut self.newest);
        kind
    }

    pub fn add(&mut self, other: &Met) {
        add(&mut self.failed, &other.failed);
        self.missing.add(&other.missing);
        add(&mut self.newest, &other.newest);
    }
}
