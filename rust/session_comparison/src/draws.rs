//! Random sessions: most of them small and of every kind, some with searches as
//! long as can be, some with cohorts of up to some hundreds of subjects or some
//! thousands of observations.

use crate::cohorts;
use layer_comparison::floats::power;
use layer_comparison::random::Random;
use layer_comparison::rules::grid_point;
use layer_comparison::session_draws;
use layer_comparison::session_memory::ROOM;
use layer_comparison::session_plan::{AnyModel, Clock, Objective, Plan, Step};
use layer_comparison::session_words::{Parameters, Setup};
use layer_comparison::simulators::{Kind, Model};
use layer_comparison::simulators_2d::Kind2;
use layer_comparison::{trials, trials_2d};
use oracle::session::Observed;

pub(crate) const AMPLE: u64 = u32::MAX as u64;

pub fn draw(random: &mut Random) -> Plan {
    match random.below(1_000) {
        0..6 => cohorts::draw(random, cohorts::LARGE),
        6..40 => cohorts::draw(random, cohorts::MIDDLING),
        40..55 => longest(random),
        55..75 => longest_2d(random),
        _ => small(random),
    }
}

/// One of the sessions that the program `test_sessions` is given too, with up
/// to four subjects, every kind of simulator and every fault. Where its limit
/// of evaluations was not fitted to it there is none, and K may be any.
fn small(random: &mut Random) -> Plan {
    let mut plan = session_draws::draw(random);
    if plan.setup.max_evaluations == session_draws::AMPLE {
        plan.setup.max_evaluations = AMPLE;
        if random.below(8) == 0 {
            plan.setup.k = any_k(random);
        }
    }
    plan
}

/// From 1 to 100,000, as many of each size, both ends now and then.
pub(crate) fn any_k(random: &mut Random) -> u64 {
    match random.below(16) {
        0 => 1,
        1 => 100_000,
        _ => random.magnitude(0, 16).min(100_000.) as u64,
    }
}

/// Scores that jump near the right end of a cell, from small to large, and a
/// warm start at its left end: each secant step takes off but a tenth.
fn longest(random: &mut Random) -> Plan {
    let mut trial = trials::draw(random, Kind::Step);
    trial.eta_bound = 16.;
    trial.omega = power(20);
    trial.gradient_tolerance = random.pick(&[1e-9, 1e-8, 1e-4]);
    trial.theta = 1.;
    let cell = random.below(16);
    let [left, right] = [cell, cell + 1].map(|at| grid_point(16., at));
    let jump = left + (right - left) * random.uniform(0.99, 1.);
    trial.model = Model {
        kind: Kind::Step,
        parameters: [random.magnitude(-4, 1), random.magnitude(30, 40), jump],
        seed: random.word(),
    };
    trial.observations = trials::score_observations(&[1.]);
    let subject = (AnyModel::One(trial.model), trial.observations.clone());
    let setup = setup(1, [trial.omega, 0., 0., 0.], trial.eta_bound);
    let given = Parameters {
        theta: [trial.theta, 0.],
        omega: trial.omega,
        additive: None,
    };
    let mut plan = alone(random, setup, subject, given);
    plan.setup.gradient_tolerance = trial.gradient_tolerance;
    if random.coin() {
        plan.steps.insert(1, Step::Warm(vec![left.next_up()]));
    }
    plan
}

/// Scripts that take up to all trials of all rounds from all six starts.
fn longest_2d(random: &mut Random) -> Plan {
    let trial = trials_2d::draw(random, Kind2::Stubborn);
    let [a, b, d] = trial.omega;
    let subject = (AnyModel::Two(trial.model), trial.observations.clone());
    let setup = setup(2, [a, b, b, d], trial.eta_bound);
    let given = Parameters {
        theta: trial.theta,
        omega: 1.,
        additive: None,
    };
    let mut plan = alone(random, setup, subject, given);
    if random.below(4) != 0 {
        plan.setup.max_evaluations = AMPLE;
    } else {
        plan.setup.max_evaluations = trial.max_evaluations as u64;
    }
    plan.steps.insert(1, Step::Warm(trial.warm.to_vec()));
    plan
}

/// A subject by itself, of whose evaluations mostly none is kept, so that each
/// is a question.
fn alone(
    random: &mut Random,
    setup: Setup,
    (model, observations): (AnyModel, Vec<Observed>),
    given: Parameters,
) -> Plan {
    let mut subject = session_draws::arranged(random, model, observations, 1);
    subject.observations.truncate(subject.known);
    subject.clock = Clock::Steady;
    subject.drift = 0.;
    let mut plan = empty(setup);
    plan.setup.k = match random.below(4) {
        0 => any_k(random),
        _ => random.pick(&[1, 2]),
    };
    plan.subjects.push(subject);
    plan.steps = vec![Step::Setup, Step::Objective(objective(given))];
    if random.coin() {
        plan.steps.push(Step::Objective(objective(given)));
    }
    plan
}

pub(crate) fn setup(effects: u64, omega: [f64; 4], eta_bound: f64) -> Setup {
    Setup {
        effects,
        omega,
        eta_bound,
        gradient_tolerance: 1e-4,
        width: 1,
        k: 1,
        additive: None,
        output_budget: u32::MAX as u64,
        max_evaluations: AMPLE,
    }
}

/// Without subjects and steps. Our `Session` lends as much as is wanted, so the
/// lengths are not looked at.
pub(crate) fn empty(setup: Setup) -> Plan {
    Plan {
        setup,
        lengths: ROOM,
        subjects: Vec::new(),
        steps: Vec::new(),
    }
}

/// With nothing that goes wrong.
pub(crate) fn objective(parameters: Parameters) -> Objective {
    Objective {
        parameters,
        strays: Vec::new(),
        faults: Vec::new(),
        left_at: None,
    }
}
