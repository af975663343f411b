//! One job run to its end by the library's calls on a table.

use oracle::checks::Job;
use oracle::orders::Orders;
use oracle::table::Layout;

use crate::table;

/// So many rounds are one call, which checks the job and the table once.
const ROUNDS: usize = 16;

pub struct Running<'a> {
    bytes: &'a [u8],
    job: Job,
    layout: Layout,
    words: Vec<u32>,
}

/// A code that isn't above those of accepted calls.
fn accepted(call: &str, code: u64, most: u64) -> Result<(), String> {
    if code > most {
        return Err(format!("{call} is refused: {code:#x}"));
    }
    Ok(())
}

impl<'a> Running<'a> {
    /// A started table of as many words as are used.
    pub fn start(bytes: &'a [u8]) -> Result<Running<'a>, String> {
        let orders = Orders::in_force();
        let job = Job::check(bytes, orders).expect("a job that is run is accepted");
        let layout = Layout::of_job(&job, orders);
        let mut words = vec![0; layout.used];
        accepted("the start", table::start(bytes, &mut words), 0)?;
        Ok(Running { bytes, job, layout, words })
    }

    pub fn turn(&mut self, worker: u8) -> Result<(), String> {
        accepted("a turn", table::turn(self.bytes, &mut self.words, usize::from(worker)), 7)
    }

    pub fn run(&mut self, schedule: &[u8]) -> Result<(), String> {
        accepted("a run", table::run(self.bytes, &mut self.words, schedule, &mut [0; 8]), 0)
    }

    /// Rounds until all is answered; the answers.
    pub fn finish(mut self) -> Result<Vec<u32>, String> {
        let rounds = (0..self.job.workers as u8).collect::<Vec<u8>>().repeat(ROUNDS);
        for _ in 0..=self.job.promised_rounds().div_ceil(ROUNDS) {
            let answers = &self.words[self.layout.questions_at..];
            if !answers.contains(&0) {
                return Ok(answers.to_vec());
            }
            self.run(&rounds)?;
        }
        Err("not all is answered after 2L + A + 3Q rounds".to_string())
    }
}
