//! Programs as processes; makejob and verdicts.

use std::io::Write;
use std::process::{exit, Child, Command, Output, Stdio};

use oracle::checks::Refusal;

/// A program that takes longer than so many seconds is ended.
const SECONDS: &str = "120";

pub struct Programs {
    makejob: String,
    verdicts: String,
}

/// The program that a variable names, or the built one.
pub fn path_of(variable: &str, built: &str) -> String {
    let path = std::env::var(variable).unwrap_or(built.to_string());
    if !std::path::Path::new(&path).exists() {
        eprintln!("there is no {path}");
        exit(2);
    }
    path
}

pub fn spawn(path: &str, input: impl Into<Stdio>, output: impl Into<Stdio>) -> Child {
    let mut timed = Command::new("timeout");
    timed.arg(SECONDS).arg(path).stdin(input).stdout(output).stderr(Stdio::piped());
    timed.spawn().unwrap_or_else(|error| {
        eprintln!("{path} can't be run: {error}");
        exit(2);
    })
}

/// Writes an input to the first of two programs, or the only one, and gives what each
/// writes.
pub fn outputs<const N: usize>(bytes: &[u8], mut programs: [Child; N]) -> [Output; N] {
    let mut input = programs[0].stdin.take().expect("standard input is a pipe");
    std::thread::scope(|scope| {
        // It need not read on once it has seen too much: a broken pipe is no fault.
        scope.spawn(move || drop(input.write_all(bytes)));
        programs.map(|program| program.wait_with_output().expect("a program ends"))
    })
}

/// What two programs write, the first being given an input and the second its output.
pub fn piped(bytes: &[u8], first: &str, second: &str) -> [Output; 2] {
    let mut one = spawn(first, Stdio::piped(), Stdio::piped());
    let between = one.stdout.take().expect("standard output is a pipe");
    let other = spawn(second, between, Stdio::piped());
    outputs(bytes, [one, other])
}

/// Exactly one line of a program's words.
pub fn is_one_line(program: &str, said: &str) -> bool {
    said.ends_with('\n') && said.matches('\n').count() == 1 && said.starts_with(&format!("{program}: "))
}

/// One line that names the check and ends with the place.
pub fn says_check(program: &str, said: &str, number: u32, place: usize) -> bool {
    let start = format!("{program}: refused by check {number}: ");
    is_one_line(program, said) && said.starts_with(&start) && said.ends_with(&format!(" {place}\n"))
}

/// What is wrong with what a program wrote, where `answer` is right and `says` tells
/// whether words say a refusal.
pub fn fault_of_output(
    answer: &Result<Vec<u8>, Refusal>,
    output: &Output,
    says: impl FnOnce(&str, &Refusal) -> bool,
) -> Option<String> {
    let said = String::from_utf8_lossy(&output.stderr);
    match answer {
        _ if !output.status.success() => Some(format!("it ended with {}", output.status)),
        Ok(right) if output.stdout != *right => {
            let at = right.iter().zip(&output.stdout).take_while(|(right, byte)| right == byte).count();
            Some(format!("{} bytes instead of {}, byte {at} differs; {said:?}", output.stdout.len(), right.len()))
        }
        Ok(_) => (!said.is_empty()).then(|| format!("on standard error it writes {said:?}")),
        Err(_) if !output.stdout.is_empty() => Some(format!("refused, it writes {} bytes", output.stdout.len())),
        Err(refusal) => (!says(&said, refusal)).then(|| format!("it says {said:?}, expected {refusal:?} in one line")),
    }
}

impl Programs {
    pub fn find() -> Programs {
        Programs {
            makejob: path_of("ZESTCHINTZ_MAKEJOB", "target/bin/makejob"),
            verdicts: path_of("ZESTCHINTZ_VERDICTS", "target/bin/verdicts"),
        }
    }

    /// What makejob writes for a text; its standard output may go elsewhere.
    pub fn run(&self, text: &[u8], output: impl Into<Stdio>) -> Output {
        let [output] = outputs(text, [spawn(&self.makejob, Stdio::piped(), output)]);
        output
    }

    /// What verdicts writes for the job that makejob writes.
    pub fn list(&self, text: &[u8]) -> Output {
        let [_, listing] = piped(text, &self.makejob, &self.verdicts);
        listing
    }
}
