//! Lengths of 4 GiB and more, in memory of which a few pages are touched.

use oracle::edges::edge_base;

use crate::compare::Totals;
use crate::library;
use crate::mapped::Mapped;

const FOUR_GIB: usize = 1 << 32;

/// Jobs so long that their length modulo 2^32 would be a good one.
pub fn long_jobs(totals: &mut Totals) {
    let base = edge_base().job_bytes();
    let near = [FOUR_GIB - 1, FOUR_GIB, FOUR_GIB + 36, FOUR_GIB + base.len(), FOUR_GIB + 61_476];
    for length in near.into_iter().chain([2 * FOUR_GIB + base.len(), (1 << 40) + base.len()]) {
        let mut mapped = Mapped::new(length);
        let job = mapped.bytes();
        job[..base.len()].copy_from_slice(&base);
        let name = format!("the edge job in {length} bytes");
        let refused = (1 << 63) + length as u64;
        totals.expect(&name, "check", refused, library::check_code(job));
        let mut verdicts = [0x90u8; 8];
        totals.expect(&name, "evaluate", refused, library::evaluate_code(job, &mut verdicts));
        if verdicts != [0x90; 8] {
            totals.differ(&name, "verdicts were written");
        }
        totals.jobs += 1;
        totals.refused[1] += 1;
    }
}

/// Outputs so long that their length modulo 2^32 would be too short.
pub fn long_outputs(totals: &mut Totals) {
    let base = edge_base().job_bytes();
    for length in [FOUR_GIB, FOUR_GIB + 2] {
        let mut mapped = Mapped::new(length);
        let verdicts = mapped.bytes();
        let name = format!("the edge job into {length} bytes");
        totals.expect(&name, "evaluate", 3, library::evaluate_code(&base, verdicts));
        // Claim 1 always holds; 0 if 1, not 2 and 2 if not 0 leave each other open.
        if verdicts[..3] != [3, 1, 3] {
            totals.differ(&name, &format!("the verdicts are {:?}", &verdicts[..3]));
        }
        let untouched = |part: &[u8]| part.iter().all(|&byte| byte == 0);
        if !untouched(&verdicts[3..8192]) || !untouched(&verdicts[length - 4096..]) {
            totals.differ(&name, "bytes past the verdicts were written");
        }
        totals.jobs += 1;
        totals.accepted += 1;
    }
}
