//! What turns meet of missing records (order 2).

use oracle::missing_sorts;
use oracle::orders::Missing;
use oracle::turns::Kind;

use crate::counts::add;
use crate::met::Made;

#[derive(Clone, Default)]
pub struct Counts {
    /// Claims completed.
    pub sorts: missing_sorts::Met,
    /// Turns that would have been others if complete false claims kept their
    /// missing records; on tables that no run made alone.
    pub exchanged: usize,
}

impl Counts {
    pub fn add(&mut self, other: &Counts) {
        add(&mut self.sorts, &other.sorts);
        self.exchanged += other.exchanged;
    }
}

/// Counts what a turn met.
pub fn count(made: &Made, met: &mut Counts) {
    let (before, after, job) = (made.before, made.after, made.after.job);
    if made.kind != Kind::Completed || job.missing_records() == 0 {
        return;
    }
    for claim in before.claims().filter(|&claim| !before.complete(claim)) {
        if let Some(value) = after.value(claim) {
            missing_sorts::count(job, claim, value, &mut met.sorts);
        }
    }
    met.exchanged += usize::from(made.is_another(|table| table.orders.missing = Missing::KeptAtExchange));
}
