//! The original's `subject` with a simulator that hands back the rows of a
//! given reply.

use crate::cache_sessions;
use crate::evaluations::{Asked, Lent};
use oracle::session::{Observed, Point, SensitivitySample, Settings, Simulator};
use oracle::{OneEffect, TwoEffects};
use test_exports::evaluation::{Observation, RefusedEvaluation};

/// The original has a name for each output.
const MOST_OUTPUTS: usize = 1_000;

const UNIT: [[f64; 2]; 2] = [[1., 0.], [0., 1.]];

/// What the original finds, where it can be asked: with one effect or two,
/// individual values that it would simulate with, a reply of whole rows, and
/// outputs that the rows have. Eta is zero, so that theta is the individual
/// value itself.
pub fn ask(lent: &Lent) -> Option<Asked> {
    if !is_for_the_original(lent) {
        return None;
    }
    let given = &lent.question;
    let settings = settings(given.width, given.output_budget);
    let cohort = vec![lent.subject().iter().map(observed).collect()];
    let simulator = simulator(lent);
    let answer = if given.effects == 1 {
        let additive = given.has_additive.then_some(given.additive);
        OneEffect::new(settings, cohort, simulator).subject(0, given.individual, 0., additive)
    } else {
        let theta = [given.individual, given.individual_2];
        let session = TwoEffects::new(settings, UNIT, cohort, simulator);
        let mut session = session.expect("the unit matrix has an inverse");
        session.subject(0, theta, [0.; 2])
    };
    Some(asked(answer))
}

fn asked(answer: Result<Point, oracle::session::Refusal>) -> Asked {
    match answer {
        Ok(point) => Asked {
            end: Ok(cache_sessions::terms(&point).words()),
            rows: Some(cache_sessions::rows(&point)),
        },
        Err(refusal) => Asked {
            end: Err(RefusedEvaluation {
                number: refusal.number,
                observation: refusal.observation,
            }),
            rows: None,
        },
    }
}

/// K is 0, so that nothing is kept, and there is one evaluation.
fn settings(width: u32, output_budget: u32) -> Settings {
    Settings {
        eta_bound: 1.,
        gradient_tolerance: 1.,
        max_evaluations: 1,
        kept_rows: 0,
        width: width as usize,
        output_budget: output_budget as usize,
    }
}

fn is_for_the_original(lent: &Lent) -> bool {
    let given = &lent.question;
    let individual = [given.individual, given.individual_2];
    let width = given.width as usize;
    (1..=2).contains(&given.effects)
        && (1..=MOST_OUTPUTS).contains(&width)
        && given.from <= given.to
        && given.to <= lent.observations.len()
        && individual[..given.effects as usize]
            .iter()
            .all(|value| value.is_finite() && *value > 0.)
        && lent.reply().words_left_over() == 0
        && lent.subject().iter().all(|one| one.output < width)
}

fn observed(one: &Observation) -> Observed {
    Observed {
        output: one.output,
        row: one.row,
        value: one.value,
        additive: one.additive,
        proportional: one.proportional,
    }
}

/// What is not "pre" is after the dose, whatever its name.
const SIDES: [&str; 4] = ["post", "", "Pre", "pre "];

fn simulator(lent: &Lent) -> Simulator {
    let width = lent.question.width as usize;
    let row = |words: &[u64]| {
        let column = |words: &[u64]| words.iter().map(|word| f64::from_bits(*word)).collect();
        let mut columns = words[2..].chunks_exact(width).map(column);
        SensitivitySample {
            time: f64::from_bits(words[0]),
            side: match words[1] {
                0 => "pre",
                side => SIDES[side as usize % SIDES.len()],
            },
            values: columns.next().expect("a row has values"),
            derivatives: columns.collect(),
        }
    };
    let rows = lent.reply.chunks_exact(lent.reply().row_words).map(row);
    let mut reply = Some(rows.collect());
    Box::new(move |_| Some(reply.take().expect("one evaluation asks once")))
}
