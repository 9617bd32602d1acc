//! Sessions with many subjects or many observations. Their subjects are such
//! that each comes to a mode by itself, so that an objective goes through all of
//! them; now and then one is of another kind.

use crate::draws::{any_k, empty, objective, setup, AMPLE};
use crate::pair;
use layer_comparison::random::Random;
use layer_comparison::searches::Trial;
use layer_comparison::searches_2d::Trial2;
use layer_comparison::session_draws::{self, arranged, fault, vary, warm};
use layer_comparison::session_original::Original;
use layer_comparison::session_plan::{AnyModel, Clock, Objective, Plan, Step, Stray, Subject};
use layer_comparison::session_strays::{self, unfit_parameters};
use layer_comparison::session_words::{Call, Change, Parameters};
use layer_comparison::simulators::{Kind, Model};
use layer_comparison::simulators_2d::{Kind2, Model2};
use layer_comparison::{trials, trials_2d};
use oracle::session::Observed;
use std::rc::Rc;

/// How many subjects, and how many observations each of them has, from one
/// number to the other.
#[derive(Clone, Copy)]
pub struct Size {
    subjects: [u64; 2],
    observations: [u64; 2],
}

pub const MIDDLING: [Size; 2] = [
    Size {
        subjects: [5, 60],
        observations: [1, 12],
    },
    Size {
        subjects: [5, 20],
        observations: [10, 60],
    },
];

pub const LARGE: [Size; 3] = [
    Size {
        subjects: [100, 600],
        observations: [1, 12],
    },
    Size {
        subjects: [20, 80],
        observations: [30, 120],
    },
    Size {
        subjects: [1, 5],
        observations: [500, 2_500],
    },
];

/// The settings that the subjects of a cohort share.
enum Settings {
    One(Trial),
    Two(Trial2),
}

/// A cohort of one of the sizes, with its objectives.
pub fn draw(random: &mut Random, sizes: impl AsRef<[Size]>) -> Plan {
    let size = random.pick(sizes.as_ref());
    let settings = match random.below(5) {
        0..3 => one_effect(random),
        _ => two_effects(random),
    };
    let given = settings.parameters();
    let mut plan = empty(settings.setup());
    plan.setup.gradient_tolerance = random.pick(&[1e-9, 1e-6, 1e-4, 1e-3]);
    plan.setup.width = random.pick(&[1, 1, 1, 2, 3, 8]);
    for _ in 0..between(random, size.subjects) {
        let subject = sound_subject(random, &plan, &settings, size);
        plan.subjects.push(subject);
    }
    unlike_others(random, &mut plan, &settings, size);
    plan.setup.k = kept_rows(random, &plan);
    plan.setup.output_budget = output_budget(random, &plan);
    plan.steps = steps(random, &plan, given);
    if random.below(5) == 0 {
        limit(random, &mut plan);
    }
    plan
}

fn between(random: &mut Random, [least, most]: [u64; 2]) -> u64 {
    least + random.below(most - least + 1)
}

fn one_effect(random: &mut Random) -> Settings {
    let mut trial = trials::draw(random, Kind::Line);
    let any_bound = random.uniform(1., 6.);
    trial.eta_bound = random.pick(&[1., 2., 3., 4., any_bound]);
    trial.omega = random.uniform(0.05, 2.);
    trial.theta = random.magnitude(-2, 1);
    trial.additive_sd = random.pick(&[None, None, None, None, None, Some(0.5)]);
    Settings::One(trial)
}

fn two_effects(random: &mut Random) -> Settings {
    let mut trial = trials_2d::draw(random, Kind2::Plane);
    let [a, d] = [0; 2].map(|_| random.uniform(0.02, 0.5));
    trial.eta_bound = random.pick(&[1., 2., 3., 4.]);
    trial.omega = [a, random.uniform(-0.9, 0.9) * (a * d).sqrt(), d];
    trial.theta = [0; 2].map(|_| random.magnitude(-2, 1));
    Settings::Two(trial)
}

impl Settings {
    fn parameters(&self) -> Parameters {
        match self {
            Settings::One(trial) => Parameters {
                theta: [trial.theta, 0.],
                omega: trial.omega,
                additive: trial.additive_sd,
            },
            Settings::Two(trial) => Parameters {
                theta: trial.theta,
                omega: 1.,
                additive: None,
            },
        }
    }

    fn setup(&self) -> layer_comparison::session_words::Setup {
        match self {
            Settings::One(trial) => setup(1, [trial.omega, 0., 0., 0.], trial.eta_bound),
            Settings::Two(trial) => {
                let [a, b, d] = trial.omega;
                setup(2, [a, b, b, d], trial.eta_bound)
            }
        }
    }

    /// A simulator and so many observations of its rows, at an eta well within
    /// the bound.
    fn observed(&self, random: &mut Random, count: u64) -> (AnyModel, Vec<Observed>) {
        let within = |random: &mut Random, bound: f64| random.uniform(-0.4, 0.4) * bound.min(2.);
        match self {
            Settings::One(trial) => {
                let kind = session_draws::kind(random, u64::MAX);
                let model = trials::another(random, kind, trial).model;
                let eta = within(random, trial.eta_bound);
                let individual = trial.theta * eta.exp();
                let row = |row| model.row(row, eta, individual)[0];
                (AnyModel::One(model), measured(random, count, row))
            }
            Settings::Two(trial) => {
                let kind = session_draws::kind_2d(random, u64::MAX);
                let model = trials_2d::another(random, kind, trial).model;
                let eta = [0; 2].map(|_| within(random, trial.eta_bound));
                let individual = [0, 1].map(|axis| trial.theta[axis] * eta[axis].exp());
                let row = |row| model.row(row, eta, individual)[0];
                (AnyModel::Two(model), measured(random, count, row))
            }
        }
    }

    /// A subject that may come to anything.
    fn any(&self, random: &mut Random) -> (AnyModel, Vec<Observed>) {
        match self {
            Settings::One(trial) => {
                let kind = session_draws::kind(random, 1);
                let other = trials::another(random, kind, trial);
                let observed = session_draws::observed(random, &other);
                (AnyModel::One(other.model), observed)
            }
            Settings::Two(trial) => {
                let kind = session_draws::kind_2d(random, 1);
                let other = trials_2d::another(random, kind, trial);
                (AnyModel::Two(other.model), other.observations)
            }
        }
    }

    /// Predicts the same wherever it is asked, so that the mode is zero.
    fn flat(&self) -> AnyModel {
        match self {
            Settings::One(_) => AnyModel::One(Model {
                kind: Kind::Flat,
                parameters: [1., 0., 0.],
                seed: 0,
            }),
            Settings::Two(_) => AnyModel::Two(Model2 {
                kind: Kind2::Flat,
                parameters: [1., 0., 0.],
                seed: 0,
            }),
        }
    }
}

/// Values about what is predicted for each row, by the size of their errors.
fn measured(random: &mut Random, count: u64, predicted: impl Fn(usize) -> f64) -> Vec<Observed> {
    let one = |row: u64| {
        let prediction = predicted(row as usize);
        let additive = random.uniform(0.05, 1.);
        let proportional = match random.coin() {
            true => 0.,
            false => random.uniform(0.01, 0.3),
        };
        let size = additive + proportional * prediction.abs();
        Observed {
            output: 0,
            row: row as usize,
            value: prediction + random.uniform(-1., 1.) * size,
            additive,
            proportional,
        }
    };
    let mut one = one;
    (0..count).map(&mut one).collect()
}

/// A subject that comes to a mode by itself. Some of its observations are of
/// rows of their own, the rest of the same rows.
fn sound_subject(random: &mut Random, plan: &Plan, settings: &Settings, size: Size) -> Subject {
    let width = plan.setup.width as usize;
    for _ in 0..12 {
        let count = between(random, size.observations);
        let rows = match random.below(4) {
            0 => count,
            _ => 1 + random.below(count.min(30)),
        };
        let (model, observations) = settings.observed(random, rows);
        let mut subject = arranged(random, model, observations, width);
        subject.observations.truncate(subject.known);
        while (subject.observations.len() as u64) < count {
            let mut more = random.pick(&subject.observations[..subject.known]);
            more.value += random.uniform(-0.5, 0.5) * more.additive;
            subject.observations.push(more);
        }
        calm(random, &mut subject);
        if is_sound(plan, settings, &subject) {
            return subject;
        }
    }
    let one = Observed {
        output: 0,
        row: 0,
        value: 1.,
        additive: 1.,
        proportional: 0.,
    };
    let mut subject = arranged(random, settings.flat(), vec![one], width);
    calm(random, &mut subject);
    subject
}

/// Replies that change next to nothing from question to question.
fn calm(random: &mut Random, subject: &mut Subject) {
    subject.clock = random.pick(&[Clock::Steady, Clock::Steady, Clock::Equal]);
    subject.drift = random.pick(&[0., 0., 0., 0., 0., 0., 0., 1e-13]);
}

fn is_sound(plan: &Plan, settings: &Settings, subject: &Subject) -> bool {
    let mut by_itself = plan.clone();
    by_itself.subjects = vec![subject.clone()];
    by_itself.setup.k = 100_000;
    let mut original = Original::new(&Rc::new(by_itself));
    let ran = original.run(&objective(settings.parameters()), 1);
    ran.end.is_ok()
}

/// In one cohort of three a subject is of another kind, or answers otherwise.
fn unlike_others(random: &mut Random, plan: &mut Plan, settings: &Settings, size: Size) {
    let width = plan.setup.width as usize;
    let number = random.below(plan.subjects.len() as u64) as usize;
    match random.below(12) {
        0 | 1 => {
            let (model, observations) = settings.any(random);
            plan.subjects[number] = arranged(random, model, observations, width);
        }
        2 => {
            let count = between(random, size.observations);
            let (model, observations) = settings.observed(random, count);
            plan.subjects[number] = arranged(random, model, observations, width);
        }
        3 => {
            let clocks = [Clock::Times, Clock::Sides, Clock::NoTime];
            plan.subjects[number].clock = random.pick(&clocks);
        }
        _ => {}
    }
}

/// Any number, or about what one objective has, so that some are found again
/// and some have made room.
fn kept_rows(random: &mut Random, plan: &Plan) -> u64 {
    let rows: u64 = plan.counts().iter().sum();
    let about = (rows as f64 * random.uniform(5., 80.)) as u64;
    match random.below(3) {
        0 => any_k(random),
        _ => about.clamp(1, 100_000),
    }
}

fn output_budget(random: &mut Random, plan: &Plan) -> u64 {
    let rows = plan.subjects.iter().map(|one| one.rows).max().unwrap_or(0);
    let exact = (rows * (plan.row_words() - 2)) as u64;
    match random.below(40) {
        0 => exact - 1,
        1..12 => exact,
        _ => AMPLE,
    }
}

/// Several objectives, many with the parameters of one before.
fn steps(random: &mut Random, plan: &Plan, given: Parameters) -> Vec<Step> {
    let mut steps = vec![Step::Setup];
    let mut earlier = vec![given];
    for number in 0..random.pick(&[1, 2, 2, 3, 3, 4, 6]) {
        if random.below(4) == 0 {
            steps.push(Step::Warm(warm(random, plan)));
        }
        if random.below(4) == 0 {
            steps.push(Step::Stray(stray(random, plan, given, false)));
        }
        let mut parameters = random.pick(&earlier);
        if number > 0 && random.coin() {
            vary(random, plan, &mut parameters);
        }
        earlier.push(parameters);
        let objective = disturbed(random, plan, parameters);
        let left = objective.left_at.is_some();
        steps.push(Step::Objective(objective));
        if left {
            steps.push(Step::Stray(stray(random, plan, given, true)));
            steps.push(Step::Setup);
        }
    }
    steps
}

/// An objective in which something may go wrong at any question.
fn disturbed(random: &mut Random, plan: &Plan, parameters: Parameters) -> Objective {
    let about = 40 * plan.subjects.len() as u64;
    let mut objective = objective(parameters);
    if random.below(8) == 0 {
        let at = random.below(about) as usize;
        objective.faults.push((at, fault(random)));
    }
    if random.below(3) == 0 {
        let at = random.below(about) as usize;
        let stray = stray(random, plan, parameters, true);
        objective.strays.push((at, stray));
    }
    objective.left_at = (random.below(20) == 0).then(|| random.below(about) as usize);
    objective
}

/// A call that is not due, or not with what it is given.
fn stray(random: &mut Random, plan: &Plan, given: Parameters, amid: bool) -> Stray {
    let due = |call| Stray {
        change: Change::Nothing,
        call,
    };
    match random.below(6) {
        0 => Stray {
            change: Change::Setup(session_strays::setup(random, plan)),
            call: Call::Setup,
        },
        1 => Stray {
            change: Change::Observations(session_strays::observations(random, plan)),
            call: Call::Setup,
        },
        2 => due(Call::Objective(unfit_parameters(random, given))),
        _ if amid => due(Call::Objective(given)),
        3 => due(Call::Failure),
        _ => due(Call::Reply(vec![0; plan.row_words()])),
    }
}

/// As many evaluations as an objective came to, or about as many.
fn limit(random: &mut Random, plan: &mut Plan) {
    let evaluations = pair::run(plan, None).evaluations;
    if evaluations.is_empty() {
        return;
    }
    let evaluations = random.pick(&evaluations) as u64;
    plan.setup.max_evaluations = match random.below(8) {
        0 => random.below(evaluations + 1),
        1 | 2 => evaluations.saturating_sub(1),
        3 => evaluations + 1,
        _ => evaluations,
    };
}
