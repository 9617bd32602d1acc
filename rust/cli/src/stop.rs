//! How the program ends where it has no answer, or a refusal for one.

use curlewstand::Refusal;

/// Why the exit status is not 0.
#[derive(Debug, PartialEq)]
pub enum Stop {
    /// The answer is a refusal. It has been written to standard output.
    Refused(Refusal),
    /// The command line is not understood; nothing was read or written.
    Usage {
        /// What is wrong with it.
        what: String,
        /// The command that says how it is to be.
        see: String,
    },
    /// Input cannot be read, or output cannot be written.
    Failed(String),
    /// Standard output is a pipe that nobody reads any more. Whoever closed it knows, so
    /// there is nothing to say.
    Unread,
}

impl Stop {
    /// The command line is not understood.
    pub fn usage(what: String) -> Stop {
        let see = "curlewstand --help".into();
        Stop::Usage { what, see }
    }

    /// The same, where it is a subcommand's own words that are not understood.
    pub fn of(self, subcommand: &str) -> Stop {
        match self {
            Stop::Usage { what, .. } => {
                let see = format!("curlewstand {subcommand} --help");
                Stop::Usage { what, see }
            }
            stop => stop,
        }
    }

    /// The exit status.
    pub fn status(&self) -> u8 {
        match self {
            Stop::Refused(_) => 1,
            Stop::Usage { .. } => 2,
            Stop::Failed(_) | Stop::Unread => 3,
        }
    }

    /// What standard error is told.
    pub fn line(&self) -> Option<String> {
        match self {
            Stop::Refused(refusal) => Some(format!("refused with {refusal}")),
            Stop::Usage { what, see } => Some(format!("{what}; see {see}")),
            Stop::Failed(what) => Some(what.clone()),
            Stop::Unread => None,
        }
    }
}
