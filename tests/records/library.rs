//! The calls of a recorded run and of a replay behind safe functions.  Link with the
//! folder of libtable_calls.a, a library that is made for these tests alone.
//!
//! Each answers one code: accepted, 0; refused, 2^63 plus the number times 2^56 plus the
//! place.

use oracle::turns::Tally;

#[link(name = "table_calls", kind = "static")]
extern "C" {
    fn table_record(
        job: *const u8,
        job_length: usize,
        table: *mut u32,
        table_words: usize,
        schedule: *const u8,
        schedule_length: usize,
        buffer: *mut u8,
        buffer_length: usize,
        tally: *mut u64,
        tally_length: usize,
    ) -> u64;
    fn table_replay(
        job: *const u8,
        job_length: usize,
        table: *mut u32,
        table_words: usize,
        record: *const u8,
        record_length: usize,
        tally: *mut u64,
        tally_length: usize,
    ) -> u64;
}

/// A run that starts its table and writes worker and kind of each turn to the buffer;
/// `tally` counts the kinds, refused it holds zeros.
pub fn record(job: &[u8], table: &mut [u32], schedule: &[u8], buffer: &mut [u8], tally: &mut Tally) -> u64 {
    // SAFETY: pointers and lengths are those of five slices; no other overlaps
    // the three lent for writing.
    unsafe {
        table_record(
            job.as_ptr(),
            job.len(),
            table.as_mut_ptr(),
            table.len(),
            schedule.as_ptr(),
            schedule.len(),
            buffer.as_mut_ptr(),
            buffer.len(),
            tally.as_mut_ptr(),
            tally.len(),
        )
    }
}

/// The turns of a record on a table that it starts; `tally` counts those that the table
/// holds then.
pub fn replay(job: &[u8], table: &mut [u32], record: &[u8], tally: &mut Tally) -> u64 {
    // SAFETY: pointers and lengths are those of four slices; no other overlaps
    // the two lent for writing.
    unsafe {
        table_replay(
            job.as_ptr(),
            job.len(),
            table.as_mut_ptr(),
            table.len(),
            record.as_ptr(),
            record.len(),
            tally.as_mut_ptr(),
            tally.len(),
        )
    }
}
