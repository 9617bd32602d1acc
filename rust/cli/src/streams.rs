//! Files, standard input and standard output, with every failure seen.
//!
//! The standard library puts /dev/null in the place of a standard stream that is closed,
//! and takes one that cannot be read for an empty one. A fit would then answer for records
//! that nobody gave, and an answer would be lost with nothing said. So closed streams are
//! noted before that, and the streams are used as the files that they are.

use crate::stop::Stop;
use std::ffi::{OsStr, c_int};
use std::fs::File;
use std::io::{self, ErrorKind, IsTerminal, Read, Write};
use std::os::fd::AsFd;
use std::sync::atomic::{AtomicBool, Ordering};

/// Whether standard input and standard output were closed when the program began.
static CLOSED: [AtomicBool; 2] = [AtomicBool::new(false), AtomicBool::new(false)];
const INPUT: usize = 0;
const OUTPUT: usize = 1;

unsafe extern "C" {
    fn fcntl(descriptor: c_int, command: c_int, ...) -> c_int;
}

/// `fcntl`'s command that asks for a descriptor's flags, and fails where it is closed.
const F_GETFD: c_int = 1;

/// Functions of this section are called before the standard library is set up.
#[used]
#[unsafe(link_section = ".init_array")]
static AT_START: extern "C" fn() = note_closed;

extern "C" fn note_closed() {
    for (descriptor, closed) in CLOSED.iter().enumerate() {
        // SAFETY: the command has no further argument, and any descriptor may be asked for
        let flags = unsafe { fcntl(descriptor as c_int, F_GETFD) };
        closed.store(flags == -1, Ordering::Relaxed);
    }
}

/// A standard stream as a file, whose errors are all reported.
fn standard(stream: impl AsFd, number: usize) -> io::Result<File> {
    if CLOSED[number].load(Ordering::Relaxed) {
        return Err(io::Error::other("it is closed"));
    }
    Ok(stream.as_fd().try_clone_to_owned()?.into())
}

/// The bytes of the named file, or of standard input where the name is `-` or there is
/// none, but at most so many. A person at a terminal is told what is awaited.
pub fn read(name: Option<&OsStr>, most: u64, awaited: &str) -> Result<Vec<u8>, Stop> {
    let (shown, file) = match name.filter(|name| *name != "-") {
        Some(name) => (format!("'{}'", name.display()), File::open(name)),
        None => {
            if io::stdin().is_terminal() {
                tell(awaited);
            }
            ("standard input".into(), standard(io::stdin(), INPUT))
        }
    };
    let mut bytes = Vec::new();
    let read = file.and_then(|file| file.take(most).read_to_end(&mut bytes));
    match read {
        Ok(_) => Ok(bytes),
        Err(error) => Err(Stop::Failed(format!("{shown} cannot be read: {error}"))),
    }
}

/// Writes to standard output.
pub fn write(text: &str) -> Result<(), Stop> {
    let written =
        standard(io::stdout(), OUTPUT).and_then(|mut file| file.write_all(text.as_bytes()));
    written.map_err(|error| match error.kind() {
        ErrorKind::BrokenPipe => Stop::Unread,
        _ => Stop::Failed(format!("standard output cannot be written: {error}")),
    })
}

/// Writes a line to standard error. Where that cannot be done there is nobody to tell.
pub fn tell(line: &str) {
    let _ = writeln!(io::stderr(), "curlewstand: {line}");
}
