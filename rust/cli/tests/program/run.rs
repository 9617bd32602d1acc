//! Runs of the program.

use std::io::Write;
use std::process::{Command, Output, Stdio};

/// The records of five subjects, and what the program `focei` prints of them.
pub const COHORT: &str = concat!(env!("CARGO_MANIFEST_DIR"), "/../../examples/cohort.bin");
pub const COHORT_TEXT: &str = include_str!("../../../../examples/cohort.out");

/// What a run came to.
#[derive(Debug, PartialEq)]
pub struct Ran {
    pub status: i32,
    pub output: String,
    pub errors: String,
}

impl Ran {
    pub fn of(output: Output) -> Ran {
        Ran {
            status: output.status.code().expect("it ends by itself"),
            output: String::from_utf8(output.stdout).unwrap(),
            errors: String::from_utf8(output.stderr).unwrap(),
        }
    }

    /// What is printed, where it is answered and nothing is said beside it.
    pub fn answer(self) -> String {
        assert_eq!((self.status, self.errors.as_str()), (0, ""));
        self.output
    }

    /// What standard error is told, one line, where nothing is printed.
    pub fn line(self, status: i32) -> String {
        assert_eq!((self.status, self.output.as_str()), (status, ""));
        assert_eq!(self.errors.lines().count(), 1, "{}", self.errors);
        assert!(self.errors.ends_with('\n'), "{}", self.errors);
        let line = self.errors.trim_end().strip_prefix("curlewstand: ");
        line.expect("the program says who speaks").into()
    }
}

pub fn command(words: &[&str]) -> Command {
    let mut command = Command::new(env!("CARGO_BIN_EXE_curlewstand"));
    command.args(words);
    command
}

/// With nothing to read.
pub fn run(words: &[&str]) -> Ran {
    let mut command = command(words);
    Ran::of(command.stdin(Stdio::null()).output().unwrap())
}

/// With these bytes on standard input.
pub fn fed(words: &[&str], input: &[u8]) -> Ran {
    let mut command = command(words);
    let piped = command
        .stdin(Stdio::piped())
        .stdout(Stdio::piped())
        .stderr(Stdio::piped());
    let mut child = piped.spawn().unwrap();
    child.stdin.take().unwrap().write_all(input).unwrap();
    Ran::of(child.wait_with_output().unwrap())
}

/// By a shell, with its streams redirected as the shell's language says it.
pub fn redirected(words: &[&str], redirection: &str) -> Ran {
    let script = format!("exec \"$0\" \"$@\" {redirection}");
    let mut command = Command::new("sh");
    let command = command.args(["-c", &script, env!("CARGO_BIN_EXE_curlewstand")]);
    let command = command.args(words).stdin(Stdio::null());
    Ran::of(command.output().unwrap())
}

/// A record: value, additive and proportional deviation, base and slope.
pub fn record(subject: u32, floats: [f64; 5]) -> Vec<u8> {
    let words = [subject.to_le_bytes(), 0u32.to_le_bytes()].concat();
    let floats = floats.map(f64::to_le_bytes);
    [words, floats.concat()].concat()
}
