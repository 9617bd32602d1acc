//! How floats, parameters and replies are written in a report.

use layer_comparison::session_words::{Call, Parameters};

/// A float with its word.
pub fn shown(word: u64) -> String {
    format!("{:?} ({word:016x})", f64::from_bits(word))
}

pub fn shown_float(x: f64) -> String {
    shown(x.to_bits())
}

pub fn words(words: &[u64]) -> String {
    let shown: Vec<String> = words.iter().map(|word| shown(*word)).collect();
    shown.join(", ")
}

pub fn list(floats: &[f64]) -> String {
    let shown: Vec<String> = floats.iter().map(|x| shown_float(*x)).collect();
    shown.join(", ")
}

/// What an objective is given and looks at.
pub fn given(parameters: &Parameters, effects: usize) -> String {
    let theta = list(&parameters.theta[..effects]);
    if effects == 2 && parameters.additive.is_none() {
        return format!("theta {theta}");
    }
    let additive = match parameters.additive {
        Some(additive) => shown_float(additive),
        None => "none".into(),
    };
    let omega = shown_float(parameters.omega);
    format!("theta {theta}, omega {omega}, override {additive}")
}

/// A call by its name.
pub fn name(call: &Call) -> &'static str {
    match call {
        Call::Setup => "setup",
        Call::Objective(_) => "new objective",
        Call::Reply(_) => "reply",
        Call::Failure => "failure",
    }
}

/// A reply's rows, a line each; a rest that is no whole row in a line too.
pub fn rows(words: &[u64], row_words: usize) -> String {
    if words.is_empty() {
        return "       reply: no rows".into();
    }
    let row = |(number, row): (usize, &[u64])| {
        let floats: Vec<f64> = row.iter().map(|word| f64::from_bits(*word)).collect();
        match (floats.first(), row.get(1), floats.get(2..)) {
            (Some(time), Some(side), Some(rest)) if row.len() == row_words => format!(
                "       row {number}: time {time:?}, side {side}, {}",
                list(rest)
            ),
            _ => format!("       no whole row: {row:x?}"),
        }
    };
    let rows: Vec<String> = words.chunks(row_words).enumerate().map(row).collect();
    rows.join("\n")
}
