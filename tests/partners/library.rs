//! The call that admits a job behind a safe function.  Link with the folder of
//! libgroup_calls.a, a library that is made for these tests alone.

#[link(name = "group_calls", kind = "static")]
extern "C" {
    fn group_admit(
        job: *const u8,
        job_length: usize,
        groups: *const u8,
        groups_length: usize,
        workers: *const u8,
        workers_length: usize,
    ) -> u64;
}

/// Admits a job with one byte a claim and one a worker.  Answers one code: admitted, 0;
/// refused, 2^63 plus the number times 2^56 plus the place.
pub fn admit(job: &[u8], groups: &[u8], workers: &[u8]) -> u64 {
    // SAFETY: pointers and lengths are those of three slices, which are only read.
    unsafe { group_admit(job.as_ptr(), job.len(), groups.as_ptr(), groups.len(), workers.as_ptr(), workers.len()) }
}
