//! `curlewstand`, the command line for people. The proved library decides everything;
//! the program reads what it is given, asks the library, and prints.
//!
//! A new subcommand is a file with a [`Subcommand`], and a line in [`SUBCOMMANDS`].

mod arguments;
mod csv;
mod explain;
mod fit;
mod help;
mod json;
mod refused;
mod report;
mod stop;
mod streams;
mod text;
mod version;

use arguments::{Accepts, Arguments};
use std::ffi::{OsStr, OsString};
use std::process::ExitCode;
use stop::Stop;

/// One of the things that the program does.
struct Subcommand {
    /// The word that calls it.
    name: &'static str,
    /// What may follow the name, as the help shows it.
    usage: &'static str,
    /// What it does, for the list of subcommands.
    summary: &'static str,
    /// The rest of its help.
    help: &'static str,
    /// What may follow the name, as it is read.
    accepts: Accepts,
    /// Writes the answer to standard output.
    run: fn(&Arguments) -> Result<(), Stop>,
}

const SUBCOMMANDS: &[Subcommand] = &[fit::SUBCOMMAND, explain::SUBCOMMAND];

fn main() -> ExitCode {
    let words: Vec<OsString> = std::env::args_os().skip(1).collect();
    match command(&words) {
        Ok(()) => ExitCode::SUCCESS,
        Err(stop) => {
            if let Some(line) = stop.line() {
                streams::tell(&line);
            }
            ExitCode::from(stop.status())
        }
    }
}

fn command(words: &[OsString]) -> Result<(), Stop> {
    let Some((first, rest)) = words.split_first() else {
        let usage = format!("usage: curlewstand {} [...]", names("|"));
        return Err(Stop::usage(usage));
    };
    match first.to_str() {
        Some("help" | "--help" | "-h") => help::show(rest),
        Some("--version" | "-V") => version::show(rest),
        _ => {
            let subcommand = find(first)?;
            called(subcommand, rest).map_err(|stop| stop.of(subcommand.name))
        }
    }
}

/// The subcommand with this name.
fn find(name: &OsStr) -> Result<&'static Subcommand, Stop> {
    let found = SUBCOMMANDS.iter().find(|one| name == one.name);
    found.ok_or_else(|| {
        let kind = match name.as_encoded_bytes() {
            [b'-', ..] => "option",
            _ => "subcommand",
        };
        let (name, names) = (name.display(), names(", "));
        let what = format!("there is no {kind} '{name}'; the subcommands are {names}");
        Stop::usage(what)
    })
}

/// The names of all subcommands.
fn names(between: &str) -> String {
    let names: Vec<&str> = SUBCOMMANDS.iter().map(|one| one.name).collect();
    names.join(between)
}

/// Runs a subcommand, or shows its help where that is asked for.
fn called(subcommand: &Subcommand, words: &[OsString]) -> Result<(), Stop> {
    let mut options = words.iter().take_while(|word| *word != "--");
    if options.any(|word| word == "--help" || word == "-h") {
        return streams::write(&help::of(subcommand));
    }
    (subcommand.run)(&subcommand.accepts.read(words)?)
}
