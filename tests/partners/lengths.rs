//! Jobs and lists of 4 GiB and more, in memory of which a few pages are touched.

use oracle::checks::refuse;
use oracle::draft::Draft;

use crate::beside::said;
use crate::codes::code_of_check;
use crate::library;
use crate::mapped::Mapped;
use crate::totals::Totals;

const FOUR_GIB: usize = 1 << 32;

/// Lengths that would be right modulo 2^32.
pub fn long_lent(totals: &mut Totals) {
    let mut draft = Draft::new(2, 1);
    draft.ask(0, 1);
    let job = draft.job_bytes();
    for more in [FOUR_GIB, 1 << 40] {
        let (mut long_job, mut long_list) = (Mapped::new(more + job.len()), Mapped::new(more + 2));
        let (long_job, long_list) = (long_job.bytes(), long_list.bytes());
        long_job[..job.len()].copy_from_slice(&job);
        let calls = [
            (library::admit(long_job, &[0, 0], &[0]), 1, more + job.len()),
            (library::admit(&job, long_list, &[0]), 20, more + 2),
            (library::admit(&job, &[0, 0], &long_list[..more + 1]), 20, more + 1),
        ];
        totals.calls += calls.len();
        for (code, number, place) in calls {
            let right = code_of_check(&refuse(number, place));
            if code != right {
                totals.differ("a long job or list", &job, &format!("{}, expected {}", said(code), said(right)));
            }
        }
    }
}
