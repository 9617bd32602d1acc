//! Ours and the original, each with the same cohort and model and a simulator
//! in its own form, whose time is taken.

use crate::cohort::{
    Cell, Measured, Model, ETA_BOUND, GRADIENT_TOLERANCE, MAX_EVALUATIONS, OMEGA, THETA,
};
use crate::stopwatch::Stopwatch;
use curlewstand::{Effects, Observation, Parameters, Rows, Session, Setup, WrongRow};
use oracle::session::{Objective, Observed, SensitivitySample, Settings, Simulator};
use oracle::{OneEffect, TwoEffects};
use std::rc::Rc;
use std::time::{Duration, Instant};

/// An objective, what it took in all, and of that the simulator.
pub struct Timed {
    pub objective: f64,
    pub whole: Duration,
    pub simulating: Duration,
    pub questions: u32,
}

pub trait Side {
    fn objective(&mut self) -> f64;
    fn stopwatch(&self) -> &Stopwatch;
    /// The evaluations so far, and the rows that are kept.
    fn tally(&self) -> (usize, usize);

    fn timed(&mut self) -> Timed {
        self.stopwatch().reset();
        let begun = Instant::now();
        let objective = self.objective();
        let whole = begun.elapsed();
        Timed {
            objective,
            whole,
            simulating: self.stopwatch().taken(),
            questions: self.stopwatch().runs(),
        }
    }
}

/// A session of `curlewstand`.
pub struct Ours {
    session: Session,
    model: Rc<Model>,
    effects: usize,
    stopwatch: Stopwatch,
}

impl Ours {
    pub fn new(cell: &Cell, model: &Rc<Model>, cohort: &[Vec<Measured>]) -> Self {
        let setup = Setup {
            effects: match cell.effects {
                1 => Effects::One {
                    gradient_tolerance: GRADIENT_TOLERANCE,
                },
                _ => Effects::Two { omega: OMEGA },
            },
            eta_bound: ETA_BOUND,
            width: 1,
            kept_rows: cell.k,
            output_budget: cell.output_budget() as u32,
            max_evaluations: MAX_EVALUATIONS,
        };
        let observation = |(row, one): (usize, &Measured)| Observation {
            output: 0,
            row,
            value: one.value,
            additive: one.additive,
            proportional: one.proportional,
        };
        let observations: Vec<Vec<Observation>> = cohort
            .iter()
            .map(|subject| subject.iter().enumerate().map(observation).collect())
            .collect();
        Ours {
            session: Session::new(setup, &observations).expect("the setup is within the domain"),
            model: Rc::clone(model),
            effects: cell.effects,
            stopwatch: Stopwatch::default(),
        }
    }

    pub fn session(&self) -> &Session {
        &self.session
    }
}

impl Side for Ours {
    fn objective(&mut self) -> f64 {
        let parameters: Parameters = match self.effects {
            1 => curlewstand::OneEffect::new(THETA[0], OMEGA[0][0]).into(),
            _ => curlewstand::TwoEffects { theta: THETA }.into(),
        };
        let effects = self.effects;
        let simulate = |individual, rows: &mut Rows| -> Result<(), WrongRow> {
            self.model
                .rows(individual)
                .try_for_each(|(row, prediction, by)| match effects {
                    1 => rows.push(row as f64, curlewstand::Side::Pre, &[(prediction, [by[0]])]),
                    _ => rows.push(row as f64, curlewstand::Side::Pre, &[(prediction, by)]),
                })
        };
        self.session
            .objective(parameters, |question, rows| {
                self.stopwatch.time(|| simulate(question.individual, rows))
            })
            .expect("no objective of the cohort is refused")
    }

    fn stopwatch(&self) -> &Stopwatch {
        &self.stopwatch
    }

    fn tally(&self) -> (usize, usize) {
        let tally = self.session.tally();
        (tally.calls as usize, tally.cached_rows)
    }
}

/// The original's evaluator.
pub struct Original {
    evaluator: Evaluator,
    stopwatch: Stopwatch,
}

enum Evaluator {
    One(OneEffect),
    Two(TwoEffects),
}

impl Original {
    /// K may be 0 here: then nothing is kept, and each evaluation asks.
    pub fn new(cell: &Cell, model: &Rc<Model>, cohort: &[Vec<Measured>]) -> Self {
        let settings = Settings {
            eta_bound: ETA_BOUND,
            gradient_tolerance: GRADIENT_TOLERANCE,
            max_evaluations: MAX_EVALUATIONS as usize,
            kept_rows: cell.k,
            width: 1,
            output_budget: cell.output_budget(),
        };
        let observed = |(row, one): (usize, &Measured)| Observed {
            output: 0,
            row,
            value: one.value,
            additive: one.additive,
            proportional: one.proportional,
        };
        let cohort = cohort
            .iter()
            .map(|subject| subject.iter().enumerate().map(observed).collect())
            .collect();
        let stopwatch = Stopwatch::default();
        let simulator = simulator(cell.effects, Rc::clone(model), stopwatch.clone());
        let evaluator = match cell.effects {
            1 => Evaluator::One(OneEffect::new(settings, cohort, simulator)),
            _ => {
                let two = TwoEffects::new(settings, OMEGA, cohort, simulator);
                Evaluator::Two(two.expect("omega has an inverse"))
            }
        };
        Original {
            evaluator,
            stopwatch,
        }
    }

    /// An objective with all that the original tells of it.
    pub fn population(&mut self) -> Objective {
        match &mut self.evaluator {
            Evaluator::One(one) => one.population(THETA[0], OMEGA[0][0], None),
            Evaluator::Two(two) => two.population(THETA),
        }
        .expect("no objective of the cohort is refused")
    }
}

impl Side for Original {
    fn objective(&mut self) -> f64 {
        match &mut self.evaluator {
            Evaluator::One(one) => one.ofv(THETA[0], OMEGA[0][0], None),
            Evaluator::Two(two) => two.ofv(THETA),
        }
        .expect("no objective of the cohort is refused")
    }

    fn stopwatch(&self) -> &Stopwatch {
        &self.stopwatch
    }

    fn tally(&self) -> (usize, usize) {
        match &self.evaluator {
            Evaluator::One(one) => (one.calls(), one.cached_rows()),
            Evaluator::Two(two) => (two.calls(), two.cached_rows()),
        }
    }
}

fn simulator(effects: usize, model: Rc<Model>, stopwatch: Stopwatch) -> Simulator {
    Box::new(move |question| Some(stopwatch.time(|| samples(effects, &model, question.individual))))
}

/// A reply as the original owns it.
pub fn samples(effects: usize, model: &Model, individual: [f64; 2]) -> Vec<SensitivitySample> {
    let sample = |(row, prediction, derivatives): (usize, f64, [f64; 2])| SensitivitySample {
        time: row as f64,
        side: "pre",
        values: vec![prediction],
        derivatives: derivatives[..effects].iter().map(|&by| vec![by]).collect(),
    };
    model.rows(individual).map(sample).collect()
}
