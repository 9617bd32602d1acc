//! `curlewstand fit`: a file of records, fitted.

use crate::Subcommand;
use crate::arguments::{Accepts, Arguments};
use crate::report::{FORMAT, Format, Report, Table, Value};
use crate::stop::Stop;
use crate::{refused, streams, text};
use curlewstand::{
    FittedRecord, Reason, RecordsFit, Refusal, Setup, fit_records, fit_records_text, grouped,
};

const HEX: &str = "--hex";

pub const SUBCOMMAND: Subcommand = Subcommand {
    name: "fit",
    usage: "[FILE] [--hex | --format text|csv|json]",
    summary: "fits a file of records: objective, etas, predictions, shrinkage",
    help: HELP,
    accepts: Accepts {
        operands: 1,
        flags: &[HEX],
        valued: &[FORMAT],
    },
    run,
};

const HELP: &str = "\
Fits the records of FILE, or of standard input where FILE is - or missing, with
one random effect: searches each subject's eta, and prints the population
objective, the evaluations that it took, the etas, the predictions and the
shrinkage.

A record is 48 bytes, little-endian: subject and a reserved 0 (32-bit integers),
then value, additive deviation, proportional deviation, base and slope (64-bit
floats). Subjects are 0, 1, 2 and so on, all records of one together; there are
at most 256 records. The model predicts base + slope · exp(eta). Its settings
are fixed: theta 1, omega 1, eta from -4 to 4, at most 10,000 evaluations.

  --format text   for people: rounded and aligned, with words. The default
  --format csv    one table for spreadsheets, R and the like, with all digits.
                  The first column, `table`, says what a row is of: fit,
                  subjects or observations. What such a row does not have is
                  left empty, so that every other column has numbers alone, and
                  a filter on `table` is all that is needed
  --format json   one object with all digits: fit is an object, subjects and
                  observations are lists of objects
  --hex           the text that ./run prints, byte by byte: lines O (objective,
                  evaluations taken), S (subject, eta), F (subject, observation,
                  population and individual prediction) and H (shrinkage);
                  floats are the 16 hexadecimal digits of their bits

All digits are as many as it takes to read back the same bits. What is no number
is NaN, Infinity or -Infinity, and in JSON a string.

Where the fit is refused, the same format has the refusal: its number, subject
and observation, what was found and what to do; in CSV as a table of one row, in
JSON as the object refusal, and with --hex as the line R. `curlewstand explain`
lists the refusals.

Exit status: 0 fitted; 1 refused, with number and sentence on standard error;
2 the command line is not understood; 3 FILE or standard input cannot be read,
or standard output cannot be written.
";

/// The most bytes that are read. These are far more records than are fitted, and not whole
/// ones: where a longer file is cut here it is refused with 20, as it would be if it were
/// read to its end.
const MOST_BYTES: u64 = 1 << 20;

/// What a person at a terminal is told.
const AWAITED: &str = "records are awaited on standard input, 48 bytes each, \
    up to its end (Ctrl-D); with curlewstand fit FILE they come from a file";

fn run(arguments: &Arguments) -> Result<(), Stop> {
    let hex = arguments.has(HEX);
    if hex && arguments.has(FORMAT) {
        let what = format!("{HEX} and {FORMAT} cannot be given together");
        return Err(Stop::usage(what));
    }
    let format = Format::of(arguments)?;
    let records = streams::read(arguments.operand(0), MOST_BYTES, AWAITED)?;
    let found = fit_records(&records);
    streams::write(&match &found {
        _ if hex => fit_records_text(&records),
        Ok(fit) => fitted(fit).shown(format),
        Err(refusal) => refused::report(refusal, note(refusal, records.len())).shown(format),
    })?;
    found.map(|_| ()).map_err(Stop::Refused)
}

/// A fit that has an objective.
fn fitted(fit: &RecordsFit) -> Report {
    let booked = Setup::one_effect(0).booked(fit.etas.len());
    let (subjects, observations) = (subjects(fit), observations(fit));
    let text = [
        figures(fit, booked),
        "\neach subject's eta at its mode\n".into(),
        text::columns(&subjects),
        "\npredictions at eta zero (population) and at the mode (individual)\n".into(),
        text::columns(&observations),
    ];
    Report {
        text: text.concat(),
        tables: vec![whole(fit, booked), subjects, observations],
    }
}

/// The figures of the whole fit, for people.
fn figures(fit: &RecordsFit, booked: u64) -> String {
    let subjects = text::counted(fit.etas.len(), "subject");
    let ceiling = format!(
        "{} for each of {subjects}, never exceeded",
        Setup::one_effect(0).booked(1)
    );
    let [taken, booked] = [fit.taken.into(), booked].map(grouped);
    let [objective, shrinkage] = [fit.objective, fit.shrinkage].map(text::rounded);
    [
        text::figure(
            "objective",
            &objective,
            "-2 log likelihood without n·log 2π",
        ),
        text::figure("evaluations taken", &taken, "runs of the simulator"),
        text::figure("evaluations booked", &booked, &ceiling),
        text::figure("shrinkage", &shrinkage, "1 - (mean of eta²) / omega"),
    ]
    .concat()
}

/// The figures of the whole fit.
fn whole(fit: &RecordsFit, booked: u64) -> Table {
    let columns = &["objective", "taken", "booked", "shrinkage"];
    let row = vec![
        Value::Float(fit.objective),
        Value::Whole(fit.taken.into()),
        Value::Whole(booked),
        Value::Float(fit.shrinkage),
    ];
    Table::one("fit", columns, row)
}

fn subjects(fit: &RecordsFit) -> Table {
    let rows = fit.etas.iter().enumerate();
    let rows = rows.map(|(subject, eta)| vec![subject.into(), Value::Float(*eta)]);
    Table::many("subjects", &["subject", "eta"], rows)
}

fn observations(fit: &RecordsFit) -> Table {
    let columns = &["subject", "observation", "population", "individual"];
    let row = |record: &FittedRecord| {
        let predictions = [record.predictions.population, record.predictions.individual];
        let place = [record.subject, record.observation].map(Value::from);
        place
            .into_iter()
            .chain(predictions.map(Value::Float))
            .collect()
    };
    Table::many("observations", columns, fit.fitted.iter().map(row))
}

/// What else is said of a fit that was refused: what cannot be changed here although it may
/// help, or how much was read where that may be the fault.
fn note(refusal: &Refusal, bytes: usize) -> (String, String) {
    if refusal.reason().is_some_and(Reason::ends_objective) {
        let settings = "fixed for a file of records, see curlewstand fit --help";
        ("settings".into(), settings.into())
    } else {
        ("read".into(), text::counted(bytes, "byte"))
    }
}
