//! Small jobs with every single fault and every pair of faults that their fields
//! can show, so that each row of the table of refusals meets each other.

use oracle::edges::edge_base;
use oracle::missing_edges::missing_base;
use oracle::orders::{Missing, Orders};

use crate::compare::Totals;

/// Values that lie at an edge of some check of a 16-bit field.
const VALUES: [u16; 13] = [0, 1, 2, 3, 4, 5, 33, 255, 4096, 32_767, 32_768, 65_534, 65_535];

/// The edge job and, under order 2, one with missing records.
fn small_jobs() -> Vec<(&'static str, Vec<u8>)> {
    let mut jobs = vec![("the edge job", edge_base().job_bytes())];
    if Orders::in_force().missing != Missing::Off {
        jobs.push(("the job with missing records", missing_base().job_bytes()));
    }
    jobs
}

/// Every byte of a job at every value, every shorter and some longer lengths.
pub fn single_faults(totals: &mut Totals) {
    for (job, base) in small_jobs() {
        for at in 0..base.len() {
            for value in 0..=255 {
                let mut bytes = base.clone();
                bytes[at] = value;
                totals.compare(&format!("{job} with byte {at} at {value}"), &bytes);
            }
        }
        for length in 0..=2 * base.len() {
            let mut bytes = base.clone();
            bytes.resize(length, 0);
            totals.compare(&format!("{job} in {length} bytes"), &bytes);
            if length >= 4 {
                bytes[..4].copy_from_slice(&(length as u32).to_le_bytes());
                totals.compare(&format!("{job} in {length} bytes, total put right"), &bytes);
            }
        }
    }
}

/// A job with two 16-bit fields at every two of `VALUES`.
fn two_fields(totals: &mut Totals, job: &str, base: &[u8], first: usize, second: usize) {
    for one in VALUES {
        for other in VALUES {
            let mut bytes = base.to_vec();
            bytes[2 * first..2 * first + 2].copy_from_slice(&one.to_le_bytes());
            bytes[2 * second..2 * second + 2].copy_from_slice(&other.to_le_bytes());
            totals.compare(&format!("{job} with field {first} at {one} and {second} at {other}"), &bytes);
        }
    }
}

/// Every two fields.
pub fn double_faults(totals: &mut Totals) {
    for (job, base) in small_jobs() {
        for second in 0..base.len() / 2 {
            for first in 0..second {
                two_fields(totals, job, &base, first, second);
            }
        }
    }
}
