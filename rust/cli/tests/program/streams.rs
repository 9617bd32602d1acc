//! Input that cannot be read, output that cannot be written, and terminals.

use crate::run::{COHORT, Ran, command, record, redirected, run};
use std::ffi::{CStr, OsStr, c_char, c_int};
use std::fs::File;
use std::io::Write;
use std::os::fd::AsRawFd;
use std::os::unix::ffi::OsStrExt;
use std::os::unix::fs::OpenOptionsExt;
use std::process::{Command, Stdio};

#[test]
fn files_that_cannot_be_read() {
    let directory = env!("CARGO_MANIFEST_DIR");
    let missing = format!("{directory}/nothing is here");
    for format in ["--hex", "--format=text", "--format=csv", "--format=json"] {
        let line = run(&["fit", &missing, format]).line(3);
        assert!(
            line.starts_with(&format!("'{missing}' cannot be read: No such file")),
            "{line}"
        );
        let line = run(&["fit", directory, format]).line(3);
        assert!(
            line.starts_with(&format!("'{directory}' cannot be read: Is a directory")),
            "{line}"
        );
    }
    let line = run(&["fit", ""]).line(3);
    assert!(line.starts_with("'' cannot be read: "), "{line}");
}

#[test]
fn a_standard_input_that_cannot_be_read() {
    let closed = redirected(&["fit"], "<&-").line(3);
    assert_eq!(closed, "standard input cannot be read: it is closed");
    assert_eq!(redirected(&["fit", "-", "--hex"], "<&-").line(3), closed);
    let line = redirected(&["fit"], "</").line(3);
    assert!(
        line.starts_with("standard input cannot be read: Is a directory"),
        "{line}"
    );
    let line = redirected(&["fit"], "0>/dev/null").line(3);
    assert!(
        line.starts_with("standard input cannot be read: Bad file descriptor"),
        "{line}"
    );
    // what is not read may be closed
    let output = redirected(&["fit", COHORT], "<&-").answer();
    assert!(output.starts_with("objective"), "{output}");
    // and what is empty is no failure, however it is opened
    for null in ["</dev/null", "0<>/dev/null"] {
        let ran = redirected(&["fit", "--hex"], null);
        assert_eq!((ran.status, ran.output.as_str()), (1, "R 1 - -\n"));
    }
}

/// Everything that is printed: an answer, a refusal, help and version.
const PRINTED: [&[&str]; 8] = [
    &["fit", COHORT],
    &["fit", COHORT, "--hex"],
    &["fit", COHORT, "--format=json"],
    &["fit", "/dev/null"],
    &["explain", "13"],
    &["--help"],
    &["fit", "--help"],
    &["--version"],
];

#[test]
fn a_standard_output_that_cannot_be_written() {
    for words in PRINTED {
        let full = File::options().write(true).open("/dev/full").unwrap();
        let ran = Ran::of(command(words).stdout(full).output().unwrap());
        let line = ran.line(3);
        let expected = "standard output cannot be written: No space left on device";
        assert!(line.starts_with(expected), "{words:?}: {line}");

        let line = redirected(words, ">&-").line(3);
        assert_eq!(
            line, "standard output cannot be written: it is closed",
            "{words:?}"
        );
        let line = redirected(words, "1</dev/null").line(3);
        let expected = "standard output cannot be written: Bad file descriptor";
        assert!(line.starts_with(expected), "{words:?}: {line}");
    }
}

/// Whoever reads has gone: there is no panic, and nothing is said.
#[test]
fn a_pipe_that_nobody_reads() {
    let beyond = record(0, [1000., 1., 0., 0., 1.]);
    for records in [&std::fs::read(COHORT).unwrap()[..], &beyond] {
        let mut command = command(&["fit"]);
        let piped = command
            .stdin(Stdio::piped())
            .stdout(Stdio::piped())
            .stderr(Stdio::piped());
        let mut child = piped.spawn().unwrap();
        drop(child.stdout.take());
        child.stdin.take().unwrap().write_all(records).unwrap();
        let ran = Ran::of(child.wait_with_output().unwrap());
        assert_eq!((ran.status, ran.errors.as_str()), (3, ""));
    }
}

#[test]
fn a_standard_error_that_cannot_be_written_changes_nothing() {
    let cases = [
        ("/dev/null", 1, "R 1 - -\n"),
        ("--wrong", 2, ""),
        ("/dev/null/none", 3, ""),
    ];
    for (word, status, output) in cases {
        for errors in ["2>/dev/full", "2>&-"] {
            let ran = redirected(&["fit", "--hex", word], errors);
            let expected = Ran {
                status,
                output: output.into(),
                errors: String::new(),
            };
            assert_eq!(ran, expected, "{word} {errors}");
        }
    }
}

unsafe extern "C" {
    fn unlockpt(master: c_int) -> c_int;
    fn ptsname(master: c_int) -> *const c_char;
}

/// A terminal: the side of the person, and the side of the program.
fn terminal() -> (File, File) {
    const NOT_CONTROLLING: i32 = 0o400;
    let mut options = File::options();
    let options = options.read(true).write(true).custom_flags(NOT_CONTROLLING);
    let master = options.open("/dev/ptmx").unwrap();
    // SAFETY: the descriptor is a terminal's, and no other thread asks for a name
    let name = unsafe {
        assert_eq!(unlockpt(master.as_raw_fd()), 0);
        CStr::from_ptr(ptsname(master.as_raw_fd()))
    };
    let program = options.open(OsStr::from_bytes(name.to_bytes())).unwrap();
    (master, program)
}

/// A run whose standard input is a terminal, at which a person types Ctrl-D.
fn typed(command: &mut Command) -> Ran {
    let (mut person, program) = terminal();
    let piped = command
        .stdin(program)
        .stdout(Stdio::piped())
        .stderr(Stdio::piped());
    let child = piped.spawn().unwrap();
    person.write_all(b"\x04").unwrap();
    Ran::of(child.wait_with_output().unwrap())
}

#[test]
fn a_person_at_a_terminal_is_told_what_is_awaited() {
    let ran = typed(&mut command(&["fit", "--hex"]));
    assert_eq!((ran.status, ran.output.as_str()), (1, "R 1 - -\n"));
    let lines: Vec<&str> = ran.errors.lines().collect();
    assert_eq!(lines.len(), 2, "{lines:?}");
    assert!(lines[0].starts_with("curlewstand: records are awaited on standard input"));
    assert!(lines[1].starts_with("curlewstand: refused with 1: "));

    // a file is not awaited from a person
    let ran = typed(&mut command(&["fit", COHORT]));
    assert_eq!((ran.status, ran.errors.as_str()), (0, ""));
}
