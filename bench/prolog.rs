//! SWI-Prolog's time for a job: the CPU seconds that its evaluation takes
//! inside its process, as the program made for it prints them.

use std::io::Read;
use std::process::{Command, Stdio};
use std::time::{Duration, Instant};

use oracle::checks::Job;
use oracle::prolog::prolog_program;

use crate::times::median;

/// The time is the median of so many runs.
const RUNS: usize = 3;

/// A run that takes longer is given up.
const LIMIT: Duration = Duration::from_secs(20);

/// Below this its clock, of 0.1 ms, says nothing.
const LEAST: f64 = 0.001;

const PROGRAM: &str = "target/tests/bench.pl";

/// The seconds, or why there are none.
pub fn seconds(job: &Job) -> Result<f64, &'static str> {
    std::fs::write(PROGRAM, prolog_program(job, false, &vec![None; job.claims])).map_err(|_| "no file")?;
    let times = (0..RUNS).map(|_| run_once()).collect::<Result<Vec<f64>, _>>()?;
    let seconds = median(times);
    if seconds < LEAST {
        return Err("< 1");
    }
    Ok(seconds)
}

fn run_once() -> Result<f64, &'static str> {
    let mut child = Command::new("swipl")
        .args(["--stack-limit=8g", PROGRAM])
        .stdin(Stdio::null())
        .stdout(Stdio::null())
        .stderr(Stdio::piped())
        .spawn()
        .map_err(|_| "no swipl")?;
    let start = Instant::now();
    while child.try_wait().map_err(|_| "failed")?.is_none() {
        if start.elapsed() > LIMIT {
            let _ = child.kill();
            let _ = child.wait();
            return Err("> 20 s");
        }
        std::thread::sleep(Duration::from_millis(2));
    }
    let mut text = String::new();
    child.stderr.take().expect("it was piped").read_to_string(&mut text).map_err(|_| "failed")?;
    let printed = text.lines().find_map(|line| line.strip_prefix("cpu "));
    printed.and_then(|number| number.parse().ok()).ok_or("failed")
}
