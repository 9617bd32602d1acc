//! Two fits of generated patients: one effect, on clearance, with its variance and the
//! measurements' deviation fitted too; and two effects, on clearance and volume, whose
//! omega and deviation are known.

use super::cohort::{Patient, SUBJECTS, TIMES, Truth, cohort, drawn};
use super::model::concentration;
use super::search::{Coordinate, Found, minimize};
use curlewstand::{
    Effects, Estimate, Ledger, OneEffect, Parameters, Progress, Question, Refusal, Rows, Session,
    Setup, Side, TwoEffects, WrongRow,
};
use std::ops::ControlFlow;

const SEED: u64 = 2015;
/// The outer fit ends when its steps are below this part of the box.
const TOLERANCE: f64 = 1e-3;
/// How many objectives solver time is booked for.
pub const BOOKED_OBJECTIVES: u32 = 200;

pub const ONE_EFFECT: Truth = Truth {
    theta: [3., 30.],
    omega: [0.09, 0.],
    additive: 0.15,
};

pub const TWO_EFFECTS: Truth = Truth {
    theta: [3., 30.],
    omega: [0.09, 0.04],
    additive: 0.15,
};

/// What a fit found, and what it took of the simulator.
pub struct Fit<const N: usize> {
    pub patients: Vec<Patient>,
    pub fitted: [Fitted; N],
    pub found: Found<N>,
    pub estimates: Vec<Estimate>,
    pub shrinkage: Option<f64>,
    pub ledger: Ledger,
    /// The most that one subject's search took, and the ceiling that is booked for it.
    pub dearest: (u32, u32),
}

/// The most evaluations that one subject's search took, as an observer sees it.
#[derive(Default)]
struct Dearest {
    taken: u32,
    subject: Option<usize>,
    of_subject: u32,
}

impl Dearest {
    fn observe(&mut self, progress: &Progress) -> ControlFlow<()> {
        if progress.subject != self.subject {
            self.subject = progress.subject;
            self.of_subject = 0;
        }
        if progress.subject.is_some() {
            self.of_subject += 1;
        }
        self.taken = self.taken.max(self.of_subject);
        ControlFlow::Continue(())
    }
}

/// A row for each time, with the derivatives by the individual values.
fn simulate(question: &Question, rows: &mut Rows) -> Result<(), WrongRow> {
    let effects = rows.shape().effects;
    let [clearance, volume] = match effects {
        1 => [question.individual[0], ONE_EFFECT.theta[1]],
        _ => question.individual,
    };
    TIMES.iter().try_for_each(|&time| {
        let at = concentration(clearance, volume, time);
        match effects {
            1 => rows.push(time, Side::Post, &[(at.value, [at.by_clearance])]),
            _ => rows.push(
                time,
                Side::Post,
                &[(at.value, [at.by_clearance, at.by_volume])],
            ),
        }
    })
}

/// A session over the patients, with the evaluations that are booked for it.
fn open(setup: Setup, patients: &[Patient], additive: f64) -> Result<Session, Refusal> {
    let setup = Setup {
        eta_bound: 2.,
        kept_rows: 100_000,
        max_evaluations: BOOKED_OBJECTIVES * setup.booked(SUBJECTS) as u32,
        ..setup
    };
    let lent = patients
        .iter()
        .map(|patient| patient.observations(additive));
    Session::new(setup, &lent.collect::<Vec<_>>())
}

/// Leads the outer fit, and then the best objective once more, for its modes: those
/// that can be read are of the objective that was begun last. Nothing moves but theta,
/// omega and the deviation, so that one session, with what it keeps, serves all trials.
fn fit<const N: usize>(
    patients: Vec<Patient>,
    mut session: Session,
    fitted: [Fitted; N],
    parameters: impl Fn([f64; N]) -> Parameters,
) -> Result<Fit<N>, Refusal> {
    let mut dearest = Dearest::default();
    let mut objective = |x: [f64; N]| {
        session
            .objective_with_progress(parameters(x), simulate, |progress| {
                dearest.observe(progress)
            })
            .map_err(|unfinished| unfinished.refusal())
    };
    let coordinates = fitted.each_ref().map(|parameter| &parameter.coordinate);
    let found = minimize(coordinates, TOLERANCE, &mut objective)?;
    objective(found.parameters)?;
    Ok(Fit {
        fitted,
        found,
        estimates: session.estimates().collect(),
        shrinkage: session.shrinkage(),
        ledger: session.ledger().clone(),
        dearest: (dearest.taken, (session.booked() / SUBJECTS as u64) as u32),
        patients,
    })
}

/// A fitted parameter: its name, the values that it should come to, and its box.
pub struct Fitted {
    pub name: &'static str,
    /// What the patients were made with.
    pub truth: f64,
    /// What these patients have.
    pub drawn: f64,
    pub coordinate: Coordinate,
}

fn fitted(name: &'static str, truth: f64, drawn: f64, [start, lower, upper]: [f64; 3]) -> Fitted {
    Fitted {
        name,
        truth,
        drawn,
        coordinate: Coordinate {
            start,
            lower,
            upper,
        },
    }
}

pub fn one_effect() -> Result<Fit<3>, Refusal> {
    let patients = cohort(&ONE_EFFECT, SEED);
    let (truth, drawn) = (&ONE_EFFECT, drawn(&ONE_EFFECT, &patients));
    let parameters = [
        fitted(
            "clearance, L/h",
            truth.theta[0],
            drawn.theta[0],
            [6., 0.5, 10.],
        ),
        fitted("omega", truth.omega[0], drawn.omega[0], [0.3, 0.01, 0.5]),
        fitted(
            "deviation, mg/L",
            truth.additive,
            drawn.additive,
            [0.5, 0.02, 1.],
        ),
    ];
    let additive = parameters[2].coordinate.start;
    let setup = Setup {
        effects: Effects::One {
            gradient_tolerance: TOLERANCE,
        },
        ..Setup::one_effect(0)
    };
    let session = open(setup, &patients, additive)?;
    fit(patients, session, parameters, |[theta, omega, additive]| {
        let additive = Some(additive);
        OneEffect {
            theta,
            omega,
            additive,
        }
        .into()
    })
}

pub fn two_effects() -> Result<Fit<2>, Refusal> {
    let patients = cohort(&TWO_EFFECTS, SEED);
    let (truth, drawn) = (&TWO_EFFECTS, drawn(&TWO_EFFECTS, &patients));
    let parameters = [
        fitted(
            "clearance, L/h",
            truth.theta[0],
            drawn.theta[0],
            [6., 0.5, 10.],
        ),
        fitted("volume, L", truth.theta[1], drawn.theta[1], [45., 10., 60.]),
    ];
    let [clearance, volume] = truth.omega;
    let omega = [[clearance, 0.], [0., volume]];
    let session = open(Setup::two_effects(omega, 0), &patients, truth.additive)?;
    fit(patients, session, parameters, |theta| {
        TwoEffects { theta }.into()
    })
}
