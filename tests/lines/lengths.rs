//! Texts and outputs of 4 GiB and more, in memory of which a few pages are touched.

use crate::library;
use crate::mapped::Mapped;
use crate::totals::Totals;

const FOUR_GIB: usize = 1 << 32;

const TEXT: &[u8] = b"claims 2 workers 1\n1 if not 0.\nask 0 1\n";
/// 36 bytes of header, a rule, a literal, a question.
const JOB_BYTES: usize = 46;

/// Texts so long that their length modulo 2^32 would be that of a good one.  What
/// follows it are zeros: line 4 doesn't fit.
pub fn long_texts(totals: &mut Totals) {
    for length in [FOUR_GIB + TEXT.len(), 2 * FOUR_GIB + TEXT.len(), (1 << 40) + TEXT.len()] {
        let mut mapped = Mapped::new(length);
        let text = mapped.bytes();
        text[..TEXT.len()].copy_from_slice(TEXT);
        let mut out = [0x90; 64];
        let code = library::job_of_lines(text, &mut out);
        totals.calls += 1;
        if code != (1 << 63) + (14 << 56) + 4 || out != [0x90; 64] {
            totals.differ("a long text", TEXT, &format!("{length} bytes: {code:#x}, or bytes were written"));
        }
    }
}

/// Outputs so long that their length modulo 2^32 would be too short.
pub fn long_outputs(totals: &mut Totals) {
    for length in [FOUR_GIB, FOUR_GIB + JOB_BYTES - 1, (1 << 40) + 1] {
        let mut mapped = Mapped::new(length);
        let out = mapped.bytes();
        let code = library::job_of_lines(TEXT, out);
        totals.calls += 1;
        let untouched = |part: &[u8]| part.iter().all(|&byte| byte == 0);
        let stays = untouched(&out[JOB_BYTES..8192]) && untouched(&out[length - 4096..]);
        let job = oracle::lines::job_of_text(TEXT);
        if code != JOB_BYTES as u64 || !stays || job.as_deref() != Ok(&out[..JOB_BYTES]) {
            totals.differ("a long output", TEXT, &format!("{length} bytes: {code:#x}, or not the job alone"));
        }
    }
}
