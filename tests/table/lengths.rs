//! Lengths of 4 GiB and more, in memory of which a few pages are touched.

use oracle::checks::{Job, Refusal};
use oracle::edges::edge_base;
use oracle::orders::Orders;

use crate::calls::{Call, Given};
use crate::mapped::Mapped;
use crate::totals::Totals;

const FOUR_GIB: usize = 1 << 32;

fn expect(totals: &mut Totals, name: &str, call: &Call, expected: Given, given: Given) {
    totals.count(call, &expected, None);
    if given != expected {
        totals.differ(name, &format!("{call} gives {given}, expected {expected}"));
    }
}

/// Jobs so long that their length modulo 2^32 would be a good one.
pub fn long_jobs(totals: &mut Totals) {
    let base = edge_base().job_bytes();
    for length in [FOUR_GIB + base.len(), FOUR_GIB + 61_476, 2 * FOUR_GIB + base.len()] {
        let mut mapped = Mapped::new(length);
        mapped.bytes()[..base.len()].copy_from_slice(&base);
        let name = format!("the edge job in {length} bytes");
        let refused = Given::refused(Refusal { number: 1, place: length });
        for call in [Call::Start, Call::Turn(0), Call::Run(vec![0]), Call::Read(0)] {
            let mut table = [7; 40];
            let given = call.by_library(mapped.bytes(), &mut table);
            expect(totals, &name, &call, refused, given);
            if table != [7; 40] {
                totals.differ(&name, &format!("{call} changed the table"));
            }
        }
        totals.jobs += 1;
    }
}

/// Tables so long that their number of words modulo 2^32 would be too few.
pub fn long_tables(totals: &mut Totals) {
    let base = edge_base().job_bytes();
    let job = Job::check(&base, Orders::in_force());
    for length in [FOUR_GIB, FOUR_GIB + 5] {
        let mut mapped = Mapped::new(4 * length);
        // SAFETY: every word may hold any bits; the mapping begins at a page.
        let table = unsafe { mapped.bytes().align_to_mut::<u32>().1 };
        let name = format!("the edge job's table in {length} words");
        let mut words = vec![0; 2048];
        for call in [Call::Start, Call::Turn(0), Call::Run(vec![1, 0, 0, 1]), Call::Read(0), Call::Turn(2)] {
            let expected = call.on_words(&job, &mut words, &mut totals.on_tables);
            let given = call.by_library(&base, table);
            expect(totals, &name, &call, expected, given);
            if table[..2048] != words || table[length - 1024..].iter().any(|&word| word != 0) {
                totals.differ(&name, &format!("{call} leaves other words"));
            }
        }
        totals.jobs += 1;
    }
}
