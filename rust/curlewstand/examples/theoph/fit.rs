//! The fit: clearance, volume, absorption rate, omega and the measurements' deviation,
//! with a random effect on clearance.

use super::data::Subject;
use super::model::{Kinetics, concentration};
use super::search::{Coordinate, Found, minimize};
use curlewstand::{
    Effects, Estimate, Ledger, OneEffect, Question, Refusal, Rows, Session, Setup, Side, WrongRow,
};
use std::error::Error;

/// The outer fit ends when its steps are below this part of the box.
const TOLERANCE: f64 = 1e-4;
/// How many objectives evaluations are booked for.
const BOOKED_OBJECTIVES: u32 = 400;

const fn within(start: f64, lower: f64, upper: f64) -> Coordinate {
    Coordinate {
        start,
        lower,
        upper,
    }
}

/// What is fitted, with its start and its box.
pub const FITTED: [(&str, Coordinate); 5] = [
    ("clearance, L/h/kg", within(0.05, 0.01, 0.1)),
    ("volume, L/kg", within(0.5, 0.2, 1.)),
    ("absorption rate, 1/h", within(0.8, 0.2, 4.)),
    ("omega", within(0.2, 0.01, 0.5)),
    ("deviation, mg/L", within(1., 0.2, 3.)),
];

/// What a fit found, and what it took of the simulator.
pub struct Fit {
    pub found: Found<5>,
    pub estimates: Vec<Estimate>,
    pub shrinkage: Option<f64>,
    pub ledger: Ledger,
    pub restarts: u32,
    /// How often the simulator ran for an objective.
    pub runs: u64,
}

/// What the simulator computes with beside clearance, the parameter that has the effect.
#[derive(Clone, Copy, PartialEq)]
struct Model {
    volume: f64,
    absorption: f64,
}

/// A row for each of the subject's times, with the derivative by clearance.
fn simulate(
    subject: &Subject,
    Model { volume, absorption }: Model,
    question: &Question,
    rows: &mut Rows,
) -> Result<(), WrongRow> {
    let kinetics = Kinetics {
        clearance: question.individual[0],
        volume,
        absorption,
    };
    subject.times.iter().try_for_each(|&time| {
        let (value, [by_clearance, _]) = concentration(subject.dose, kinetics, time);
        rows.push(time, Side::Post, &[(value, [by_clearance])])
    })
}

/// The trials of the outer fit: a session, with the model that its kept evaluations are
/// of. `restart` is [`Session::restart`].
pub struct Trials<'a, R> {
    subjects: &'a [Subject],
    session: Session,
    model: Model,
    restart: R,
    restarts: u32,
    runs: u64,
}

impl<'a, R: Fn(&mut Session) -> Result<(), Refusal>> Trials<'a, R> {
    /// Opens the session at the start of the fit, where the simulator's derivatives are
    /// compared with differences.
    pub fn open(subjects: &'a [Subject], restart: R) -> Result<Self, Box<dyn Error>> {
        let [clearance, volume, absorption, omega, additive] =
            FITTED.each_ref().map(|(_, coordinate)| coordinate.start);
        let booked = Setup::one_effect(0).booked(subjects.len()) as u32;
        let setup = Setup {
            effects: Effects::One {
                gradient_tolerance: TOLERANCE,
            },
            ..Setup::one_effect(BOOKED_OBJECTIVES * booked)
        };
        let lent = subjects.iter().map(|one| one.observations(additive));
        let session = Session::new(setup, &lent.collect::<Vec<_>>())?;
        let model = Model { volume, absorption };
        session.check_derivatives(OneEffect::new(clearance, omega), |question, rows| {
            simulate(&subjects[question.subject], model, question, rows)
        })?;
        Ok(Trials {
            subjects,
            session,
            model,
            restart,
            restarts: 0,
            runs: 0,
        })
    }

    /// The objective of a trial. Clearance, omega and the deviation may move within a
    /// session; volume and absorption rate are of the model, and where one of them has
    /// moved nothing that is kept may be found again.
    pub fn objective(&mut self, trial: [f64; 5]) -> Result<f64, Refusal> {
        let [clearance, volume, absorption, omega, additive] = trial;
        let model = Model { volume, absorption };
        if model != self.model {
            (self.restart)(&mut self.session)?;
            self.model = model;
            self.restarts += 1;
        }
        let parameters = OneEffect {
            theta: clearance,
            omega,
            additive: Some(additive),
        };
        let simulated = |question: &Question, rows: &mut Rows| {
            self.runs += 1;
            simulate(&self.subjects[question.subject], model, question, rows)
        };
        let objective = self.session.objective(parameters, simulated);
        objective.map_err(|unfinished| unfinished.refusal())
    }
}

/// Leads the outer fit, and then the best objective once more, for its modes: those that
/// can be read are of the objective that was begun last.
pub fn fit(
    subjects: &[Subject],
    restart: impl Fn(&mut Session) -> Result<(), Refusal>,
) -> Result<Fit, Box<dyn Error>> {
    let mut trials = Trials::open(subjects, restart)?;
    let coordinates = FITTED.each_ref().map(|(_, coordinate)| coordinate);
    let found = minimize(coordinates, TOLERANCE, |trial| trials.objective(trial))?;
    trials.objective(found.parameters)?;
    let session = trials.session;
    Ok(Fit {
        found,
        estimates: session.estimates().collect(),
        shrinkage: session.shrinkage(),
        ledger: session.ledger().clone(),
        restarts: trials.restarts,
        runs: trials.runs,
    })
}
