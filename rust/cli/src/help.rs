//! The help texts, of the program and of each subcommand.

use crate::arguments::too_many;
use crate::stop::Stop;
use crate::{SUBCOMMANDS, Subcommand, find, streams};
use std::ffi::OsString;

const ABOUT: &str = "\
curlewstand: population fits by FOCEI. The figures come from a library that is
proved to return on every input, and to compute what its definitions say.

usage: curlewstand SUBCOMMAND [...]

";

const MORE: &str = "
  curlewstand SUBCOMMAND --help   what a subcommand takes, and what it prints
  curlewstand --version           the version, the number of the library's
                                  interface, and its ceilings: the most
                                  evaluations that the search for one subject's
                                  mode asks for, with one random effect and two

Exit status: 0 answered; 1 refused, with number and sentence on standard error;
2 the command line is not understood; 3 input or output failed.
";

/// Shows the help of the program, or of the subcommand that is named.
pub fn show(words: &[OsString]) -> Result<(), Stop> {
    match words {
        [] => streams::write(&of_all()),
        [name] => streams::write(&of(find(name)?)),
        [_, more, ..] => Err(too_many(more)),
    }
}

fn of_all() -> String {
    let widest = SUBCOMMANDS.iter().map(|one| one.name.len()).max();
    let widest = widest.unwrap_or(0);
    let line = |one: &Subcommand| format!("  {:<widest$}   {}\n", one.name, one.summary);
    let list: String = SUBCOMMANDS.iter().map(line).collect();
    format!("{ABOUT}{list}{MORE}")
}

/// The help of a subcommand.
pub fn of(subcommand: &Subcommand) -> String {
    let Subcommand {
        name, usage, help, ..
    } = subcommand;
    format!("usage: curlewstand {name} {usage}\n\n{help}")
}
