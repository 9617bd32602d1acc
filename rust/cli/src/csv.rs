//! Tables as comma-separated values, as RFC 4180 has them but with plain line feeds.

use crate::report::{Table, Value, digits};
use std::iter::once;

/// One table of all the tables. Its columns are all of theirs, each once, and a row leaves
/// those empty that its own table does not have. Where there are several, a first column
/// `table` names the one that a row is of.
pub fn of(tables: &[Table]) -> String {
    let mut columns: Vec<&str> = Vec::new();
    for column in tables.iter().flat_map(|table| table.columns) {
        if !columns.contains(column) {
            columns.push(column);
        }
    }
    let named = tables.len() > 1;
    let head = once("table")
        .filter(|_| named)
        .chain(columns.iter().copied());
    let mut text = line(head.map(quoted));
    for table in tables {
        for row in &table.rows {
            let cells = columns.iter().map(|column| cell(table, row, column));
            text += &line(once(table.name.into()).filter(|_| named).chain(cells));
        }
    }
    text
}

fn line(cells: impl Iterator<Item = String>) -> String {
    cells.collect::<Vec<_>>().join(",") + "\n"
}

/// What a row of a table has in a column.
fn cell(table: &Table, row: &[Value], column: &str) -> String {
    let at = table.columns.iter().position(|one| *one == column);
    match at.map_or(&Value::Nothing, |at| &row[at]) {
        Value::Nothing => String::new(),
        Value::Whole(number) => number.to_string(),
        Value::Float(float) => digits(*float),
        Value::Truth(truth) => truth.to_string(),
        Value::Words(words) => quoted(words),
    }
}

/// Words in quotes where that is needed.
fn quoted(words: &str) -> String {
    if words.contains(['"', ',', '\n', '\r']) {
        format!("\"{}\"", words.replace('"', "\"\""))
    } else {
        words.into()
    }
}

#[cfg(test)]
mod tests {
    use super::*;

    #[test]
    fn quotes_where_needed() {
        let shown = ["plain", "a, b", "say \"no\"", "two\nlines", ""].map(quoted);
        let expected = [
            "plain",
            "\"a, b\"",
            "\"say \"\"no\"\"\"",
            "\"two\nlines\"",
            "",
        ];
        assert_eq!(shown, expected);
    }

    #[test]
    fn several_tables_in_one() {
        let floats = [f64::NAN, f64::INFINITY, f64::NEG_INFINITY, -0., 1e300, 0.1];
        let first = Table::one("first", &["a", "b"], vec![1.into(), "x,y".into()]);
        let rows =
            floats.map(|float| vec![Value::Float(float), Value::Nothing, Value::Truth(true)]);
        let second = Table::many("second", &["b", "c", "d"], rows);
        let expected = "table,a,b,c,d\n\
                        first,1,\"x,y\",,\n\
                        second,,NaN,,true\n\
                        second,,Infinity,,true\n\
                        second,,-Infinity,,true\n\
                        second,,-0.0,,true\n\
                        second,,1e300,,true\n\
                        second,,0.1,,true\n";
        assert_eq!(of(&[first.clone(), second]), expected);
        assert_eq!(of(&[first]), "a,b\n1,\"x,y\"\n");
    }
}
