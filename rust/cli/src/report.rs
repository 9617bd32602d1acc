//! What a subcommand has found, to be shown in any format.

use crate::arguments::Arguments;
use crate::stop::Stop;
use crate::{csv, json};

/// How an answer is shown.
#[derive(Clone, Copy, Debug, PartialEq)]
pub enum Format {
    /// For people: rounded and aligned, with words.
    Text,
    /// One table for a spreadsheet, with all digits.
    Csv,
    /// One object for a program, with all digits.
    Json,
}

/// The option that names the format.
pub const FORMAT: &str = "--format";

impl Format {
    /// The format that is asked for, else text.
    pub fn of(arguments: &Arguments) -> Result<Format, Stop> {
        let Some(name) = arguments.value(FORMAT) else {
            return Ok(Format::Text);
        };
        match name.to_str() {
            Some("text") => Ok(Format::Text),
            Some("csv") => Ok(Format::Csv),
            Some("json") => Ok(Format::Json),
            _ => {
                let name = name.display();
                let what = format!("there is no format '{name}', they are: text, csv, json");
                Err(Stop::usage(what))
            }
        }
    }
}

/// A figure of an answer, or words.
#[derive(Clone, Debug, PartialEq)]
pub enum Value {
    /// There is none.
    Nothing,
    /// A number that counts something, or a place.
    Whole(u64),
    /// A computed figure: rounded in text, with all its digits in CSV and JSON.
    Float(f64),
    /// Whether something is so.
    Truth(bool),
    /// A sentence.
    Words(String),
}

impl From<usize> for Value {
    fn from(number: usize) -> Self {
        Value::Whole(number as u64)
    }
}

impl From<&str> for Value {
    fn from(words: &str) -> Self {
        Value::Words(words.into())
    }
}

/// A float with the fewest digits that read back as the same bits. What is no number is
/// `NaN`, `Infinity` or `-Infinity`.
pub fn digits(float: f64) -> String {
    match float {
        f64::INFINITY => "Infinity".into(),
        f64::NEG_INFINITY => "-Infinity".into(),
        float => format!("{float:?}"),
    }
}

/// A part of an answer: rows that have the same columns.
#[derive(Clone, Debug, PartialEq)]
pub struct Table {
    /// Its member in JSON, and what CSV calls its rows.
    pub name: &'static str,
    /// The names of the columns.
    pub columns: &'static [&'static str],
    /// Each with a value for every column.
    pub rows: Vec<Vec<Value>>,
    /// Whether it always has one row. In JSON it is an object then, and not a list.
    pub single: bool,
}

impl Table {
    /// With one row.
    pub fn one(name: &'static str, columns: &'static [&'static str], row: Vec<Value>) -> Table {
        let rows = vec![row];
        Table {
            name,
            columns,
            rows,
            single: true,
        }
    }

    /// With any number of rows.
    pub fn many(
        name: &'static str,
        columns: &'static [&'static str],
        rows: impl IntoIterator<Item = Vec<Value>>,
    ) -> Table {
        let rows = rows.into_iter().collect();
        Table {
            name,
            columns,
            rows,
            single: false,
        }
    }
}

/// An answer: for people as text, for all else as tables.
#[derive(Clone, Debug, PartialEq)]
pub struct Report {
    /// What a person reads.
    pub text: String,
    /// The same figures for CSV and JSON.
    pub tables: Vec<Table>,
}

impl Report {
    /// The answer in a format.
    pub fn shown(self, format: Format) -> String {
        match format {
            Format::Text => self.text,
            Format::Csv => csv::of(&self.tables),
            Format::Json => json::of(&self.tables),
        }
    }
}
