//! The calls on forms behind safe functions.  Link with the folder of
//! libform_calls.a, a library that is made for these tests alone.

use std::cmp::Ordering;

#[link(name = "form_calls", kind = "static")]
extern "C" {
    fn form_job(job: *const u8, job_length: usize, out: *mut u8, out_length: usize) -> u64;
    fn form_compare(s: *const u8, s_length: usize, t: *const u8, t_length: usize) -> u64;
}

/// Writes the form of a job to `out`, from its first byte.  Answers one code:
/// accepted, the form's length; refused, 2^63 plus the number times 2^56 plus the
/// place.
pub fn form_of_job(job: &[u8], out: &mut [u8]) -> u64 {
    // SAFETY: pointers and lengths are those of two slices; since one is lent
    // for writing, they don't overlap.
    unsafe { form_job(job.as_ptr(), job.len(), out.as_mut_ptr(), out.len()) }
}

/// The code of an order: 0 earlier, 1 equal, 2 later.
pub fn code_of_order(order: Ordering) -> u64 {
    match order {
        Ordering::Less => 0,
        Ordering::Equal => 1,
        Ordering::Greater => 2,
    }
}

/// Which of two byte strings comes first, as such a code.
pub fn compare_code(s: &[u8], t: &[u8]) -> u64 {
    // SAFETY: pointers and lengths are those of two slices, which are only read.
    unsafe { form_compare(s.as_ptr(), s.len(), t.as_ptr(), t.len()) }
}
