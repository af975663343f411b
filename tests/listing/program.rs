//! The listing program as a process.

use std::io::{Error, Write};
use std::process::{exit, Command, Output, Stdio};

pub struct Program {
    pub path: String,
}

/// A listing that takes longer is a difference.
const SECONDS: &str = "20";

impl Program {
    /// The built one, or the one that ZESTCHINTZ_VERDICTS names.
    pub fn find() -> Program {
        let path = std::env::var("ZESTCHINTZ_VERDICTS").unwrap_or("target/bin/verdicts".to_string());
        if !std::path::Path::new(&path).exists() {
            eprintln!("listing: there is no {path}");
            exit(2);
        }
        Program { path }
    }

    /// What it writes for this standard input, and its exit status.
    pub fn list(&self, input: &[u8]) -> Result<Output, Error> {
        let mut timed = Command::new("timeout");
        timed.arg(SECONDS).arg(&self.path).stdin(Stdio::piped()).stdout(Stdio::piped()).stderr(Stdio::piped());
        let mut child = timed.spawn()?;
        let mut stdin = child.stdin.take().expect("standard input is a pipe");
        std::thread::scope(|scope| {
            // It need not read on once it has seen too much: a broken pipe is no fault.
            scope.spawn(move || drop(stdin.write_all(input)));
            child.wait_with_output()
        })
    }
}
