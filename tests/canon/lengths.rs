//! Jobs, outputs and strings of 4 GiB and more, in memory of which a few pages are
//! touched.

use oracle::draft::{plain, Draft};

use crate::beside::form_of;
use crate::library;
use crate::mapped::Mapped;
use crate::totals::Totals;

const FOUR_GIB: usize = 1 << 32;

fn small_job() -> Vec<u8> {
    let mut draft = Draft::new(2, 1);
    draft.rule(0, &[plain(1), plain(0), plain(1)]);
    draft.rule(0, &[]);
    draft.ask(0, 1);
    draft.job_bytes()
}

/// Jobs so long that their length modulo 2^32 would be that of a good one.
pub fn long_jobs(totals: &mut Totals) {
    let small = small_job();
    for length in [FOUR_GIB + small.len(), 2 * FOUR_GIB + small.len(), (1 << 40) + small.len()] {
        let mut mapped = Mapped::new(length);
        let job = mapped.bytes();
        job[..small.len()].copy_from_slice(&small);
        let mut out = [0x90; 128];
        let code = library::form_of_job(job, &mut out);
        totals.count_call(0);
        if code != (1 << 63) + (1 << 56) + length as u64 || out != [0x90; 128] {
            totals.differ("a long job", &small, &format!("{length} bytes: {code:#x}, or bytes were written"));
        }
    }
}

/// Outputs so long that their length modulo 2^32 would be too short.
pub fn long_outputs(totals: &mut Totals) {
    let job = small_job();
    let form = form_of(&job).expect("a small job is accepted");
    for length in [FOUR_GIB, FOUR_GIB + job.len() - 1, (1 << 40) + 1] {
        let mut mapped = Mapped::new(length);
        let out = mapped.bytes();
        let code = library::form_of_job(&job, out);
        totals.calls += 1;
        let untouched = |part: &[u8]| part.iter().all(|&byte| byte == 0);
        let stays = untouched(&out[form.len()..8192]) && untouched(&out[length - 4096..]);
        if code != form.len() as u64 || !stays || out[..form.len()] != form[..] {
            totals.differ("a long output", &job, &format!("{length} bytes: {code:#x}, or not the form alone"));
        }
    }
}

/// Strings so long that their length modulo 2^32 would end them earlier.
pub fn long_strings(totals: &mut Totals) {
    for length in [FOUR_GIB, FOUR_GIB + 1, (1 << 40) + 2] {
        let mut mapped = Mapped::new(length);
        let long: &[u8] = mapped.bytes();
        for short in [&[][..], &[0], &[0, 0], &[0, 0, 0]] {
            let codes = [library::compare_code(long, short), library::compare_code(short, long)];
            totals.calls += 2;
            if codes != [2, 0] {
                totals.differ("a long string", short, &format!("{length} bytes of 0: {codes:?}, expected [2, 0]"));
            }
        }
    }
}
