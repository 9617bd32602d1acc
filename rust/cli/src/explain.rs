//! `curlewstand explain`: what a refusal is, and what to do.

use crate::Subcommand;
use crate::arguments::{Accepts, Arguments};
use crate::report::{FORMAT, Format, Report, Table, Value};
use crate::stop::Stop;
use crate::{streams, text};
use curlewstand::Reason;
use std::ffi::OsStr;

pub const SUBCOMMAND: Subcommand = Subcommand {
    name: "explain",
    usage: "[NUMBER | all] [--format text|csv|json]",
    summary: "says what a refusal means, and what to do about it",
    help: HELP,
    accepts: Accepts {
        operands: 1,
        flags: &[],
        valued: &[FORMAT],
    },
    run,
};

const HELP: &str = "\
Says of the refusal with this number what was found, what its place names,
whether it ends an objective that is under way, and what to do. The numbers are
those that `curlewstand fit`, the C functions and the Rust crate give. With all,
or with no number, it lists the refusals.

  --format text   for people. The default
  --format csv    one table, with a row for each refusal
  --format json   one object: its member refusal is an object; in the list of
                  all, its member refusals is a list of such objects

Exit status: 0 explained; 2 the command line is not understood, or there is no
such number; 3 standard output cannot be written.
";

const COLUMNS: &[&str] = &["number", "sentence", "place", "ends_objective", "advice"];

fn run(arguments: &Arguments) -> Result<(), Stop> {
    let format = Format::of(arguments)?;
    let report = match arguments.operand(0).filter(|word| *word != "all") {
        None => all(),
        Some(word) => one(named(word)?),
    };
    streams::write(&report.shown(format))
}

/// The refusal with this number.
fn named(word: &OsStr) -> Result<Reason, Stop> {
    let number = word.to_str().and_then(|word| word.parse().ok());
    number.and_then(Reason::of).ok_or_else(|| {
        let numbers: Vec<String> = Reason::all()
            .map(|reason| (reason as u32).to_string())
            .collect();
        let (word, numbers) = (word.display(), numbers.join(", "));
        Stop::usage(format!("there is no refusal '{word}', they are: {numbers}"))
    })
}

fn row(reason: Reason) -> Vec<Value> {
    vec![
        Value::Whole(reason as u64),
        reason.sentence().into(),
        reason.place().into(),
        Value::Truth(reason.ends_objective()),
        reason.advice().into(),
    ]
}

/// What becomes of an objective.
fn effect(reason: Reason) -> &'static str {
    match reason {
        Reason::Records => "nothing is fitted: it is said before there is an objective",
        reason if reason.ends_objective() => "ends the objective",
        _ => "alters nothing: an objective that is under way stays so",
    }
}

fn one(reason: Reason) -> Report {
    let entries = [
        ("refusal", (reason as u32).to_string()),
        ("found", reason.sentence().into()),
        ("place", reason.place().into()),
        ("effect", effect(reason).into()),
        ("to do", reason.advice().into()),
    ];
    let text = text::labelled(&entries.map(|(label, words)| (label.into(), words)));
    let tables = vec![Table::one("refusal", COLUMNS, row(reason))];
    Report { text, tables }
}

fn all() -> Report {
    let entry = |reason: Reason| (format!("{:>2}", reason as u32), reason.sentence().into());
    let list = text::labelled(&Reason::all().map(entry).collect::<Vec<_>>());
    let text = format!("{list}\ncurlewstand explain NUMBER says what to do about one\n");
    let tables = vec![Table::many("refusals", COLUMNS, Reason::all().map(row))];
    Report { text, tables }
}
