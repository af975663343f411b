//! The calls on a table behind safe functions.  Link with the folder of
//! libtable_calls.a, a library that is made for these tests alone.
//!
//! Each answers one code: accepted, what the function says; refused, 2^63 plus
//! the job's length for number 1, else the number times 2^32 plus the place.

#[link(name = "table_calls", kind = "static")]
extern "C" {
    fn table_start(job: *const u8, job_length: usize, table: *mut u32, table_words: usize) -> u64;
    fn table_turn(job: *const u8, job_length: usize, table: *mut u32, table_words: usize, worker: usize) -> u64;
    fn table_run(
        job: *const u8,
        job_length: usize,
        table: *mut u32,
        table_words: usize,
        schedule: *const u8,
        schedule_length: usize,
        tally: *mut u64,
        tally_length: usize,
    ) -> u64;
    fn table_read(job: *const u8, job_length: usize, table: *const u32, table_words: usize, claim: usize) -> u64;
}

/// Writes a new table.  Accepted: 0.
pub fn start(job: &[u8], table: &mut [u32]) -> u64 {
    // SAFETY: pointers and lengths are those of two slices; since one is lent
    // for writing, they don't overlap.
    unsafe { table_start(job.as_ptr(), job.len(), table.as_mut_ptr(), table.len()) }
}

/// One turn of a worker.  Accepted: the number of its kind, 0 to 7.
pub fn turn(job: &[u8], table: &mut [u32], worker: usize) -> u64 {
    // SAFETY: as for `start`.
    unsafe { table_turn(job.as_ptr(), job.len(), table.as_mut_ptr(), table.len(), worker) }
}

/// The turns that a schedule names, a byte each.  Accepted: 0, and `tally`
/// counts the kinds; refused, it holds zeros.
pub fn run(job: &[u8], table: &mut [u32], schedule: &[u8], tally: &mut [u64; 8]) -> u64 {
    // SAFETY: pointers and lengths are those of four slices; no other overlaps
    // the two lent for writing.
    unsafe {
        table_run(
            job.as_ptr(),
            job.len(),
            table.as_mut_ptr(),
            table.len(),
            schedule.as_ptr(),
            schedule.len(),
            tally.as_mut_ptr(),
            tally.len(),
        )
    }
}

/// Reads a claim.  Accepted: 0 fresh, 1 true, 2 false, 3 undefined, 4 open.
pub fn read(job: &[u8], table: &[u32], claim: usize) -> u64 {
    // SAFETY: pointers and lengths are those of two slices, which are only read.
    unsafe { table_read(job.as_ptr(), job.len(), table.as_ptr(), table.len(), claim) }
}
