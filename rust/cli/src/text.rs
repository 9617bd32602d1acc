//! Figures and tables for people.

use crate::report::{Table, Value};
use curlewstand::grouped;

/// The most letters of a line.
const WIDTH: usize = 80;

/// A float with four decimals, or with a power of ten where these would show too little of
/// it, or too many digits before them.
pub fn rounded(float: f64) -> String {
    let size = float.abs();
    if size == 0. {
        "0.0000".into()
    } else if (0.01..1e7).contains(&size) {
        format!("{float:.4}")
    } else {
        format!("{float:.4e}")
    }
}

/// So many of something: 1 subject, 2 subjects.
pub fn counted(number: usize, what: &str) -> String {
    let plural = if number == 1 { "" } else { "s" };
    format!("{} {what}{plural}", grouped(number as u64))
}

/// A figure of an answer: its name, the figure, and what it is.
pub fn figure(name: &str, figure: &str, what: &str) -> String {
    format!("{name:<20}{figure:>12}   {what}\n")
}

/// A table under the names of its columns, each as wide as needed and flush right.
pub fn columns(table: &Table) -> String {
    let head = table
        .columns
        .iter()
        .map(|column| (*column).into())
        .collect();
    let rows = table.rows.iter().map(|row| row.iter().map(cell).collect());
    let lines: Vec<Vec<String>> = std::iter::once(head).chain(rows).collect();
    let width = |at: usize| lines.iter().map(|line| line[at].chars().count()).max();
    let widths: Vec<usize> = (0..table.columns.len()).filter_map(width).collect();
    let aligned = lines.iter().map(|line| {
        let cells = line
            .iter()
            .zip(&widths)
            .map(|(cell, width)| format!("{cell:>width$}"));
        cells.collect::<Vec<_>>().join("  ") + "\n"
    });
    aligned.collect()
}

fn cell(value: &Value) -> String {
    match value {
        Value::Nothing => "-".into(),
        Value::Whole(number) => number.to_string(),
        Value::Float(float) => rounded(*float),
        Value::Truth(true) => "yes".into(),
        Value::Truth(false) => "no".into(),
        Value::Words(words) => words.clone(),
    }
}

/// Words beside their labels, in lines of at most [`WIDTH`] letters where the words allow
/// it.
pub fn labelled(entries: &[(String, String)]) -> String {
    let widest = entries.iter().map(|(label, _)| label.chars().count()).max();
    let indent = widest.unwrap_or(0) + 2;
    let mut text = String::new();
    for (label, words) in entries {
        let mut line = format!("{label:<indent$}");
        let mut length = indent;
        for (at, word) in words.split(' ').enumerate() {
            let letters = word.chars().count();
            if at > 0 && length + 1 + letters > WIDTH {
                text += &format!("{line}\n");
                (line, length) = (" ".repeat(indent), indent);
            } else if at > 0 {
                line.push(' ');
                length += 1;
            }
            line += word;
            length += letters;
        }
        text += &format!("{line}\n");
    }
    text
}

#[cfg(test)]
mod tests {
    use super::*;

    #[test]
    fn floats_for_people() {
        let floats = [
            0.,
            -0.,
            0.01,
            -2.28164,
            9_999_999.,
            1e7,
            0.00999,
            -1e-300,
            f64::INFINITY,
        ];
        let expected = [
            "0.0000",
            "0.0000",
            "0.0100",
            "-2.2816",
            "9999999.0000",
            "1.0000e7",
            "9.9900e-3",
            "-1.0000e-300",
            "inf",
        ];
        assert_eq!(floats.map(rounded), expected);
    }

    #[test]
    fn one_and_many() {
        let bytes = [0, 1, 12_288].map(|number| counted(number, "byte"));
        assert_eq!(bytes, ["0 bytes", "1 byte", "12,288 bytes"]);
    }

    #[test]
    fn columns_flush_right() {
        let rows = [
            vec![9.into(), Value::Float(-12.5), Value::Nothing],
            vec![10.into(), Value::Float(0.25), Value::Truth(true)],
        ];
        let table = Table::many("table", &["n", "eta", "told"], rows);
        let expected = " n       eta  told\n 9  -12.5000     -\n10    0.2500   yes\n";
        assert_eq!(columns(&table), expected);
    }

    #[test]
    fn lines_are_broken_between_words() {
        let long = "seven ".repeat(20) + &"x".repeat(90);
        let entries = [
            ("a".into(), "few words".into()),
            ("bcd".into(), long.clone()),
        ];
        let text = labelled(&entries);
        let lines: Vec<&str> = text.lines().collect();
        assert_eq!(lines[0], "a    few words");
        assert_eq!(lines[1].len(), 5 + 12 * 6 - 1);
        assert!(lines[1].starts_with("bcd  seven seven"));
        assert!(lines[2].starts_with("     seven"));
        let words: Vec<&str> = text.split_whitespace().skip(4).collect();
        assert_eq!(words.join(" "), long);
    }
}
