//! How to call libzestchintz.a from Rust: its two functions behind safe ones.
//!
//! Link with `-L target/staticlib`; this file needs nothing but std.

/// Why a job was refused: the number of the check and the place it names.
#[derive(Clone, Copy, Debug, PartialEq, Eq)]
pub struct Refusal {
    pub number: u32,
    pub place: u64,
}

#[link(name = "zestchintz", kind = "static")]
extern "C" {
    fn zestchintz_check(job: *const u8, job_length: usize) -> u64;
    fn zestchintz_evaluate(job: *const u8, job_length: usize, verdicts: *mut u8, verdicts_length: usize) -> u64;
}

/// From here on a code is a refusal of the job's length: this plus the length.
const LENGTH_REFUSED: u64 = 1 << 63;

/// The code of a check: the number of claims, or a refusal packed in one word.
pub fn check_code(job: &[u8]) -> u64 {
    // SAFETY: pointer and length are those of a slice, which is only read.
    unsafe { zestchintz_check(job.as_ptr(), job.len()) }
}

/// The code of an evaluation, which writes the verdicts if it is accepted.
pub fn evaluate_code(job: &[u8], verdicts: &mut [u8]) -> u64 {
    // SAFETY: pointers and lengths are those of two slices; since one is lent
    // for writing, they don't overlap.
    unsafe { zestchintz_evaluate(job.as_ptr(), job.len(), verdicts.as_mut_ptr(), verdicts.len()) }
}

/// What a code says.
pub fn answer(code: u64) -> Result<usize, Refusal> {
    if code >= LENGTH_REFUSED {
        return Err(Refusal { number: 1, place: code - LENGTH_REFUSED });
    }
    match code >> 32 {
        0 => Ok(code as usize),
        number => Err(Refusal { number: number as u32, place: code & 0xffff_ffff }),
    }
}

/// Checks a job.  Answers its number of claims.
pub fn check(job: &[u8]) -> Result<usize, Refusal> {
    answer(check_code(job))
}

/// Checks a job and writes the verdict of claim c to byte c: 1 true, 2 false,
/// 3 undefined.  Answers the number of claims; bytes after these stay as they
/// were, and all bytes do where it refuses.
pub fn evaluate(job: &[u8], verdicts: &mut [u8]) -> Result<usize, Refusal> {
    answer(evaluate_code(job, verdicts))
}
