//! The program `focei` over the original: records in, text out, as document 01
//! has it.

use crate::rules_evaluation::is_sound;
use curlewstand::Observation;
use oracle::session::{Objective, Observed, Question, Refusal, SensitivitySample, Settings};
use oracle::OneEffect;
use std::fmt::Write;

pub const RECORD: usize = 48;
pub const MOST_RECORDS: usize = 256;

/// A record's subject and reserved word, then value, additive, proportional,
/// base and slope.
#[derive(Clone, Copy, Debug, PartialEq)]
pub struct Record {
    pub subject: u32,
    pub reserved: u32,
    pub floats: [f64; 5],
}

impl Record {
    pub fn bytes(&self) -> [u8; RECORD] {
        let mut bytes = [0; RECORD];
        bytes[..4].copy_from_slice(&self.subject.to_le_bytes());
        bytes[4..8].copy_from_slice(&self.reserved.to_le_bytes());
        for (place, x) in bytes[8..].chunks_mut(8).zip(self.floats) {
            place.copy_from_slice(&x.to_le_bytes());
        }
        bytes
    }

    pub fn of(bytes: &[u8; RECORD]) -> Self {
        let word = |at: usize| bytes[at..at + 4].try_into().expect("four bytes");
        let float = |at: usize| bytes[at..at + 8].try_into().expect("eight bytes");
        Record {
            subject: u32::from_le_bytes(word(0)),
            reserved: u32::from_le_bytes(word(4)),
            floats: std::array::from_fn(|number| f64::from_le_bytes(float(8 + 8 * number))),
        }
    }
}

/// What the program prints, and how it ended.
pub struct Printed {
    pub text: String,
    pub end: Result<Objective, Refusal>,
    pub evaluations: usize,
}

pub fn focei(bytes: &[u8]) -> Printed {
    let mut evaluations = 0;
    let end = ended(bytes, &mut evaluations);
    let text = match &end {
        Ok(objective) => told(objective, evaluations),
        Err(refusal) => {
            let place = |at: Option<usize>| at.map_or("-".into(), |at| at.to_string());
            let [subject, observation] = [refusal.subject, refusal.observation].map(place);
            format!("R {} {subject} {observation}\n", refusal.number)
        }
    };
    Printed {
        text,
        end,
        evaluations,
    }
}

fn ended(bytes: &[u8], evaluations: &mut usize) -> Result<Objective, Refusal> {
    let subjects = grouped(bytes).ok_or(without_place(20))?;
    if subjects.is_empty() {
        return Err(without_place(1));
    }
    for (subject, records) in subjects.iter().enumerate() {
        let unsound = |(row, record)| !is_sound(&observation(row, record), 1);
        if let Some(observation) = records.iter().enumerate().position(unsound) {
            return Err(Refusal {
                number: 4,
                subject: Some(subject),
                observation: Some(observation),
            });
        }
    }
    let mut session = session(subjects);
    let end = session.population(1., 1., None);
    *evaluations = session.calls();
    end
}

/// The subjects' records, or nothing where the bytes are none: question 20.
fn grouped(bytes: &[u8]) -> Option<Vec<Vec<Record>>> {
    let (records, rest) = bytes.as_chunks::<RECORD>();
    if !rest.is_empty() || records.len() > MOST_RECORDS {
        return None;
    }
    let mut subjects: Vec<Vec<Record>> = Vec::new();
    for record in records.iter().map(Record::of) {
        let number = record.subject as usize;
        if number == subjects.len() {
            subjects.push(Vec::new());
        }
        // the first is of subject 0, each other of the same as before or the next
        if record.reserved != 0 || number + 1 != subjects.len() {
            return None;
        }
        subjects[number].push(record);
    }
    Some(subjects)
}

fn observation(row: usize, record: &Record) -> Observation {
    let [value, additive, proportional, ..] = record.floats;
    Observation {
        output: 0,
        row,
        value,
        additive,
        proportional,
    }
}

fn session(subjects: Vec<Vec<Record>>) -> OneEffect {
    let observed = |(row, record): (usize, &Record)| Observed {
        output: 0,
        row,
        value: record.floats[0],
        additive: record.floats[1],
        proportional: record.floats[2],
    };
    let cohort = subjects
        .iter()
        .map(|records| records.iter().enumerate().map(observed).collect());
    let settings = Settings {
        eta_bound: 4.,
        gradient_tolerance: 1e-4,
        max_evaluations: 10_000,
        kept_rows: 64,
        width: 1,
        output_budget: 10_000,
    };
    OneEffect::new(
        settings,
        cohort.collect(),
        Box::new(move |question: &Question| {
            let records = subjects[question.subject].iter();
            Some(records.map(|record| row(record, question)).collect())
        }),
    )
}

/// base + slope·individual.
fn row(record: &Record, question: &Question) -> SensitivitySample {
    let [.., base, slope] = record.floats;
    SensitivitySample {
        time: 0.,
        side: "pre",
        values: vec![base + slope * question.individual[0]],
        derivatives: vec![vec![slope]],
    }
}

fn told(objective: &Objective, evaluations: usize) -> String {
    let mut text = String::new();
    let mut line = |line: std::fmt::Arguments| writeln!(text, "{line}").unwrap();
    let hex = |x: f64| format!("{:016x}", x.to_bits());
    line(format_args!("O {} {evaluations}", hex(objective.value)));
    for (subject, one) in objective.subjects.iter().enumerate() {
        line(format_args!("S {subject} {}", hex(one.eta[0])));
    }
    for one in &objective.fitted {
        let predictions = [one.pred, one.ipred].map(hex).join(" ");
        line(format_args!(
            "F {} {} {predictions}",
            one.subject, one.observation
        ));
    }
    let squares = objective.subjects.iter().map(|one| one.eta[0] * one.eta[0]);
    let sum = squares.fold(0., |sum, square| sum + square);
    let shrinkage = 1. - sum / objective.subjects.len() as f64 / 1.;
    line(format_args!("H {}", hex(shrinkage)));
    text
}

fn without_place(number: u32) -> Refusal {
    Refusal {
        number,
        subject: None,
        observation: None,
    }
}
