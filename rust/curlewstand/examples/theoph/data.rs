//! R's data set Theoph, of which examples/README.md in the repository tells the origin
//! and the columns.

use curlewstand::Observation;

const THEOPH: &str = include_str!("../../../../examples/theoph.csv");

pub struct Subject {
    /// As the file has it, counted from 1.
    pub id: u32,
    /// In mg/kg. The weight itself does not matter: dose, clearance and volume are all
    /// for each kilogram.
    pub dose: f64,
    /// Of the measurements, in hours after the dose.
    pub times: Vec<f64>,
    /// The concentrations, in mg/L.
    pub measured: Vec<f64>,
}

impl Subject {
    /// As a session is lent them: row i of a reply predicts measurement i.
    pub fn observations(&self, additive: f64) -> Vec<Observation> {
        let observation = |(row, &value): (usize, &f64)| Observation {
            output: 0,
            row,
            value,
            additive,
            proportional: 0.,
        };
        self.measured.iter().enumerate().map(observation).collect()
    }
}

/// The subjects in the file's order, or the first line that is not as it should be.
pub fn theoph() -> Result<Vec<Subject>, String> {
    let mut subjects: Vec<Subject> = Vec::new();
    for line in THEOPH.lines().skip(1) {
        let (id, [dose, time, measured]) = fields(line).ok_or(format!("not a line: {line}"))?;
        if subjects.last().is_none_or(|last| last.id != id) {
            subjects.push(Subject {
                id,
                dose,
                times: Vec::new(),
                measured: Vec::new(),
            });
        }
        if let Some(subject) = subjects.last_mut() {
            subject.times.push(time);
            subject.measured.push(measured);
        }
    }
    Ok(subjects)
}

/// The subject, and its dose, a time and what was measured then.
fn fields(line: &str) -> Option<(u32, [f64; 3])> {
    let (id, rest) = line.split_once(',')?;
    let numbers: Result<Vec<f64>, _> = rest.split(',').map(str::parse).collect();
    let [_weight, dose, time, measured] = numbers.ok()?.try_into().ok()?;
    Some((id.parse().ok()?, [dose, time, measured]))
}
