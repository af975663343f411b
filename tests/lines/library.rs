//! The call on typed lines behind a safe function.  Link with the folder of
//! libline_calls.a, a library that is made for these tests alone.

#[link(name = "line_calls", kind = "static")]
extern "C" {
    fn lines_job(text: *const u8, text_length: usize, out: *mut u8, out_length: usize) -> u64;
}

/// Writes the job of a text to `out`, from its first byte.  Answers one code:
/// accepted, the job's length; refused, 2^63 plus the number times 2^56 plus the
/// place.
pub fn job_of_lines(text: &[u8], out: &mut [u8]) -> u64 {
    // SAFETY: pointers and lengths are those of two slices; since one is lent
    // for writing, they don't overlap.
    unsafe { lines_job(text.as_ptr(), text.len(), out.as_mut_ptr(), out.len()) }
}
