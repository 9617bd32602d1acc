//! Tables as one JSON object.

use crate::report::{Table, Value, digits};

/// An object with a member for each table: an object of its columns where it is single,
/// else a list of such objects, a line for each.
pub fn of(tables: &[Table]) -> String {
    let members: Vec<String> = tables.iter().map(member).collect();
    format!("{{\n{}\n}}\n", members.join(",\n"))
}

fn member(table: &Table) -> String {
    let name = string(table.name);
    let objects: Vec<String> = table.rows.iter().map(|row| object(table, row)).collect();
    match table.single {
        true => format!("  {name}: {}", objects.concat()),
        false if objects.is_empty() => format!("  {name}: []"),
        false => format!("  {name}: [\n    {}\n  ]", objects.join(",\n    ")),
    }
}

fn object(table: &Table, row: &[Value]) -> String {
    let pairs = table.columns.iter().zip(row);
    let pairs = pairs.map(|(column, value)| format!("{}: {}", string(column), scalar(value)));
    format!("{{{}}}", pairs.collect::<Vec<_>>().join(", "))
}

/// JSON has no NaN and no infinities: they are strings.
fn scalar(value: &Value) -> String {
    match value {
        Value::Nothing => "null".into(),
        Value::Whole(number) => number.to_string(),
        Value::Float(float) if float.is_finite() => digits(*float),
        Value::Float(float) => string(&digits(*float)),
        Value::Truth(truth) => truth.to_string(),
        Value::Words(words) => string(words),
    }
}

/// Words in quotes, with what may not stand there escaped.
fn string(words: &str) -> String {
    let mut text = String::from("\"");
    for letter in words.chars() {
        match letter {
            '"' | '\\' => text.extend(['\\', letter]),
            '\u{0}'..='\u{1f}' => text += &format!("\\u{:04x}", letter as u32),
            _ => text.push(letter),
        }
    }
    text + "\""
}

#[cfg(test)]
mod tests {
    use super::*;

    #[test]
    fn escapes() {
        assert_eq!(string("n·log 2π"), "\"n·log 2π\"");
        assert_eq!(string("\"\\\n\u{1f}"), "\"\\\"\\\\\\u000a\\u001f\"");
    }

    #[test]
    fn every_value() {
        let floats = [
            f64::NAN,
            f64::INFINITY,
            f64::NEG_INFINITY,
            -0.,
            1e300,
            0.1,
            17.,
        ];
        let shown = floats.map(|float| scalar(&Value::Float(float)));
        let expected = [
            "\"NaN\"",
            "\"Infinity\"",
            "\"-Infinity\"",
            "-0.0",
            "1e300",
            "0.1",
            "17.0",
        ];
        assert_eq!(shown, expected);
        assert_eq!(scalar(&Value::Nothing), "null");
        assert_eq!(scalar(&Value::Whole(u64::MAX)), "18446744073709551615");
        assert_eq!(scalar(&Value::Truth(false)), "false");
    }

    #[test]
    fn single_tables_and_lists() {
        let one = Table::one("one", &["a", "b"], vec![1.into(), Value::Nothing]);
        let many = Table::many("many", &["c"], [vec![2.into()], vec!["x".into()]]);
        let none = Table::many("none", &["c"], []);
        let expected = "{\n  \"one\": {\"a\": 1, \"b\": null},\n  \"many\": [\n    \
                        {\"c\": 2},\n    {\"c\": \"x\"}\n  ],\n  \"none\": []\n}\n";
        assert_eq!(of(&[one, many, none]), expected);
    }
}
