//! Small sessions, and simulators for them.

// each test program uses some of these
#![allow(dead_code)]

use curlewstand::*;

/// A subject that was measured once, with deviation 1.
pub fn measured(value: f64) -> Vec<Observation> {
    vec![Observation {
        output: 0,
        row: 0,
        value,
        additive: 1.,
        proportional: 0.,
    }]
}

pub fn one_effect(max_evaluations: u32) -> Setup {
    Setup {
        kept_rows: 64,
        ..Setup::one_effect(max_evaluations)
    }
}

pub fn two_effects(omega: [[f64; 2]; 2], max_evaluations: u32) -> Setup {
    Setup {
        kept_rows: 64,
        ..Setup::two_effects(omega, max_evaluations)
    }
}

pub const PARAMETERS: OneEffect = OneEffect {
    theta: 1.,
    omega: 1.,
    additive: None,
};

pub const PARAMETERS_2D: TwoEffects = TwoEffects { theta: [1., 1.] };

pub fn refused(number: u32, place: Place) -> Refusal {
    Refusal { number, place }
}

/// The core's refusal of an objective.
pub fn unfinished<E>(number: u32, place: Place) -> Result<f64, Unfinished<E>> {
    Err(Unfinished::Refused(refused(number, place)))
}

/// The model predicts 0 at every eta.
pub fn flat(_: &Question, rows: &mut Rows) -> Result<(), WrongRow> {
    rows.push(0., Side::Pre, &[(0., [0.])])
}

/// The model predicts the individual value.
pub fn first_value(question: &Question, rows: &mut Rows) -> Result<(), WrongRow> {
    rows.push(0., Side::Pre, &[(question.individual[0], [1.])])
}

/// The same where the simulator goes, and else its own error.
pub fn first_value_if(
    goes: bool,
    question: &Question,
    rows: &mut Rows,
) -> Result<(), &'static str> {
    match goes {
        true => first_value(question, rows).map_err(|_| "a wrong row"),
        false => Err("the simulator's own error"),
    }
}

/// What comes of that error.
pub fn failed(subject: usize) -> Result<f64, Unfinished<&'static str>> {
    Err(Unfinished::Simulator {
        error: "the simulator's own error",
        refusal: refused(8, Place::Subject(subject)),
    })
}

/// The model predicts the product of both individual values.
pub fn both_values(question: &Question, rows: &mut Rows) -> Result<(), WrongRow> {
    let [a, b] = question.individual;
    rows.push(0., Side::Pre, &[(a * b, [b, a])])
}

/// All that can be read of a session.
#[derive(Debug, PartialEq)]
pub struct Seen {
    pub progress: Progress,
    pub estimates: Vec<Estimate>,
    pub fitted: Vec<Fitted>,
    pub shrinkage: Option<f64>,
    pub warm_starts: Vec<[f64; 2]>,
}

pub fn seen(session: &Session) -> Seen {
    Seen {
        progress: session.progress(),
        estimates: session.estimates().collect(),
        fitted: session.fitted().collect(),
        shrinkage: session.shrinkage(),
        warm_starts: (0..session.subjects())
            .map(|subject| session.warm_start(subject).unwrap())
            .collect(),
    }
}
