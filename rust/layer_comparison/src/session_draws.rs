//! Random sessions: subjects with simulators of every kind, several objectives
//! that share evaluations, faults, hosts that break the rules, and limits about
//! what is needed.

use crate::plausible::stray as stray_float;
use crate::random::Random;
use crate::searches::Trial;
use crate::session_memory::ROOM;
use crate::session_model::tell;
use crate::session_plan::{AnyModel, Clock, Fault, Objective, Plan, Step, Subject};
use crate::session_strays::{stray, unfit_parameters};
use crate::session_words::{Lengths, Parameters, Setup};
use crate::simulators::Kind;
use crate::simulators_2d::Kind2;
use crate::trials;
use crate::trials_2d;
use oracle::session::Observed;

/// More than the sessions here come to, but no more than a session of one
/// effect can: with two effects some searches are cut short by it.
pub const AMPLE: u64 = 400;

/// What subjects and objectives start from.
struct Drawn {
    setup: Setup,
    subjects: Vec<(AnyModel, Vec<Observed>)>,
    parameters: Parameters,
}

pub fn draw(random: &mut Random) -> Plan {
    let drawn = match random.below(5) {
        0..3 => one_effect(random),
        _ => two_effects(random),
    };
    let mut setup = drawn.setup;
    setup.width = random.pick(&[1, 1, 1, 1, 1, 1, 1, 2, 3]);
    if random.below(400) == 0 {
        setup.width = 64;
    }
    let width = setup.width as usize;
    let subjects: Vec<Subject> = drawn
        .subjects
        .into_iter()
        .map(|(model, observations)| arranged(random, model, observations, width))
        .collect();
    setup.k = kept_rows(random, &subjects);
    setup.output_budget = output_budget(random, &setup, &subjects);
    let mut plan = Plan {
        lengths: ROOM,
        setup,
        subjects,
        steps: Vec::new(),
    };
    plan.lengths = lengths(random, &plan);
    plan.steps = steps(random, &plan, drawn.parameters);
    if random.below(5) == 0 {
        limit(random, &mut plan);
    }
    plan
}

/// Simulators with which most searches come to a mode.
const TAME: [Kind; 3] = [Kind::Line, Kind::Decay, Kind::Saturating];

const TAME_2D: [Kind2; 3] = [Kind2::Plane, Kind2::Decay, Kind2::Saturating];

const WILD: [Kind; 8] = [
    Kind::Flat,
    Kind::Wave,
    Kind::Step,
    Kind::Rough,
    Kind::Levels,
    Kind::Levels,
    Kind::Patches,
    Kind::Nonsense,
];

const WILD_2D: [Kind2; 8] = [
    Kind2::Flat,
    Kind2::Wave,
    Kind2::Slope,
    Kind2::Levels,
    Kind2::Levels,
    Kind2::Moody,
    Kind2::Rough,
    Kind2::Nonsense,
];

/// One subject in so many has a simulator of the other kinds.
fn wildness(random: &mut Random) -> u64 {
    random.pick(&[2, 20, 20, 20])
}

pub fn kind(random: &mut Random, wildness: u64) -> Kind {
    match random.below(wildness) {
        0 => random.pick(&WILD),
        _ => random.pick(&TAME),
    }
}

pub fn kind_2d(random: &mut Random, wildness: u64) -> Kind2 {
    match random.below(wildness) {
        0 => random.pick(&WILD_2D),
        _ => random.pick(&TAME_2D),
    }
}

fn number_of_subjects(random: &mut Random) -> usize {
    random.pick(&[1, 1, 1, 1, 1, 2, 2, 3, 4])
}

fn one_effect(random: &mut Random) -> Drawn {
    let wildness = wildness(random);
    let first_kind = kind(random, wildness);
    let random_bound = random.uniform(1., 6.);
    let mut first = trials::draw(random, first_kind);
    if random.below(4) != 0 {
        first.eta_bound = random.pick(&[1., 2., 3., 4., random_bound]);
        first.omega = random.uniform(0.05, 2.);
        first = trials::another(random, first_kind, &first);
    }
    let mut subjects = vec![(AnyModel::One(first.model), observed(random, &first))];
    for _ in 1..number_of_subjects(random) {
        let kind = kind(random, wildness);
        let other = trials::another(random, kind, &first);
        subjects.push((AnyModel::One(other.model), observed(random, &other)));
    }
    let any = [0; 3].map(|_| stray_float(random, 1.));
    Drawn {
        setup: Setup {
            effects: 1,
            omega: [first.omega, any[0], any[1], any[2]],
            eta_bound: first.eta_bound,
            gradient_tolerance: first.gradient_tolerance,
            width: 1,
            k: 1,
            additive: first.additive_sd,
            output_budget: 0,
            max_evaluations: AMPLE,
        },
        subjects,
        parameters: Parameters {
            theta: [first.theta, any[0]],
            omega: first.omega,
            additive: first.additive_sd,
        },
    }
}

/// Those of the trial, or others, whose eta is well within the bound.
pub fn observed(random: &mut Random, trial: &Trial) -> Vec<Observed> {
    let within = !trial.model.kind.lays_down_the_score() && random.below(4) != 0;
    if !within {
        return trial.observations.clone();
    }
    let eta = random.uniform(-0.4, 0.4) * trial.eta_bound.min(4.);
    let individual = trial.theta * eta.exp();
    let count = random.pick(&[1, 1, 1, 1, 1, 2, 2, 3, 6]);
    let predicted = |row| trial.model.row(row, eta, individual)[0];
    trials::observations(random, count, predicted)
}

fn two_effects(random: &mut Random) -> Drawn {
    let wildness = wildness(random);
    let first_kind = kind_2d(random, wildness);
    let mut first = trials_2d::draw(random, first_kind);
    if random.below(4) != 0 {
        let [a, d] = [0; 2].map(|_| random.uniform(0.02, 0.5));
        first.eta_bound = random.pick(&[1., 2., 3., 4.]);
        first.omega = [a, random.uniform(-0.9, 0.9) * (a * d).sqrt(), d];
        first.warm = [0.; 2];
        first = trials_2d::another(random, first_kind, &first);
    }
    let mut subjects = vec![(AnyModel::Two(first.model), first.observations.clone())];
    for _ in 1..number_of_subjects(random) {
        let kind = kind_2d(random, wildness);
        let other = trials_2d::another(random, kind, &first);
        subjects.push((AnyModel::Two(other.model), other.observations));
    }
    let [a, b, d] = first.omega;
    Drawn {
        setup: Setup {
            effects: 2,
            omega: [a, b, b, d],
            eta_bound: first.eta_bound,
            gradient_tolerance: random.magnitude(-1022, 1023),
            width: 1,
            k: 1,
            additive: None,
            output_budget: 0,
            max_evaluations: AMPLE,
        },
        subjects,
        parameters: Parameters {
            theta: first.theta,
            omega: stray_float(random, 1.),
            additive: None,
        },
    }
}

/// The observations get their rows and outputs, no two the same. Now and then
/// there are some more of the same rows.
pub fn arranged(
    random: &mut Random,
    model: AnyModel,
    mut observations: Vec<Observed>,
    width: usize,
) -> Subject {
    let known = observations.len();
    let in_one_row = width >= known && random.coin();
    let shift = random.below(known as u64) as usize;
    for (number, one) in observations.iter_mut().enumerate() {
        let place = (number + shift) % known;
        if in_one_row {
            (one.row, one.output) = (0, place);
        } else {
            (one.row, one.output) = (place, random.below(width as u64) as usize);
        }
    }
    for _ in 0..random.pick(&[0, 0, 0, 0, 0, 1, 2, 4]) {
        let mut more = random.pick(&observations[..known]);
        more.value += random.uniform(-0.5, 0.5) * more.additive;
        observations.push(more);
    }
    let last = observations.iter().map(|one| one.row).max().unwrap_or(0);
    Subject {
        model,
        observations,
        known,
        rows: last + 1 + random.pick(&[0, 0, 0, 0, 0, 1]),
        clock: clock(random),
        drift: random.pick(&[0., 0., 0., 0., 0., 0., 1e-12, 1e-7, 1e-2]),
        filler: random.pick(&[0., f64::NAN, 1e300]),
    }
}

fn clock(random: &mut Random) -> Clock {
    match random.below(40) {
        0..24 => Clock::Steady,
        24..35 => Clock::Equal,
        35..37 => Clock::Times,
        37..39 => Clock::Sides,
        _ => Clock::NoTime,
    }
}

/// Few, or enough for most of what an objective has.
fn kept_rows(random: &mut Random, subjects: &[Subject]) -> u64 {
    let rows: usize = subjects.iter().map(|one| one.observations.len()).sum();
    match random.below(8) {
        0 | 1 => random.pick(&[1, 2, 3, 5]),
        2..6 => 1 + random.below(30),
        _ => (30 * rows).min(ROOM.cache / 24) as u64,
    }
}

/// Just what the largest reply has, less, or plenty.
fn output_budget(random: &mut Random, setup: &Setup, subjects: &[Subject]) -> u64 {
    let rows = subjects.iter().map(|one| one.rows).max().unwrap_or(0) as u64;
    let exact = rows * setup.width * (1 + setup.effects);
    match random.below(80) {
        0 => exact - 1,
        1 => 0,
        2..20 => exact,
        20..30 => exact + 1,
        30..40 => u32::MAX as u64,
        _ => 10_000,
    }
}

/// Just enough, or more.
fn lengths(random: &mut Random, plan: &Plan) -> Lengths {
    let counts = plan.counts();
    let [total, largest] = [counts.iter().sum(), *counts.iter().max().unwrap_or(&0)];
    let subjects = counts.len();
    let least = Lengths {
        cache: 24 * plan.setup.k as usize,
        work: 12 * largest as usize,
        warm: plan.effects() * subjects,
        results: 2 * total as usize + 3 * subjects,
    };
    let mut more = |length: usize, room: usize| match random.below(3) {
        0 => length + random.below((room - length + 1).min(8) as u64) as usize,
        _ => length,
    };
    Lengths {
        cache: more(least.cache, ROOM.cache),
        work: more(least.work, ROOM.work),
        warm: more(least.warm, ROOM.warm),
        results: more(least.results, ROOM.results),
    }
}

fn steps(random: &mut Random, plan: &Plan, parameters: Parameters) -> Vec<Step> {
    let mut steps = Vec::new();
    for _ in 0..random.pick(&[0, 0, 0, 0, 1, 2]) {
        steps.push(Step::Stray(stray(random, plan, parameters, false)));
    }
    steps.push(Step::Setup);
    for number in 0..random.pick(&[1, 1, 1, 2, 2, 3]) {
        if random.below(5) == 0 {
            steps.push(Step::Warm(warm(random, plan)));
        }
        for _ in 0..random.pick(&[0, 0, 0, 1, 2]) {
            steps.push(Step::Stray(stray(random, plan, parameters, false)));
        }
        let objective = objective(random, plan, parameters, number);
        let left = objective.left_at.is_some();
        let given = objective.parameters;
        steps.push(Step::Objective(objective));
        for _ in 0..left as u64 * random.below(3) {
            steps.push(Step::Stray(stray(random, plan, given, true)));
        }
        if left && random.coin() || random.below(20) == 0 {
            steps.push(Step::Setup);
        }
    }
    steps
}

/// The same again, or with another omega, theta or override.
fn objective(random: &mut Random, plan: &Plan, base: Parameters, number: u64) -> Objective {
    let mut parameters = base;
    if number > 0 || random.below(4) == 0 {
        vary(random, plan, &mut parameters);
    }
    let mut strays = Vec::new();
    for _ in 0..random.pick(&[0, 0, 0, 0, 1, 2]) {
        let at = random.below(30) as usize;
        strays.push((at, stray(random, plan, parameters, true)));
    }
    let mut faults = Vec::new();
    if random.below(7) == 0 {
        let at = random.below(60) as usize;
        faults.push((at, fault(random)));
    }
    let left_at = (random.below(16) == 0).then(|| random.below(25) as usize);
    Objective {
        parameters,
        strays,
        faults,
        left_at,
    }
}

pub fn vary(random: &mut Random, plan: &Plan, parameters: &mut Parameters) {
    match random.below(8) {
        0 | 1 if plan.effects() == 1 => parameters.omega *= random.uniform(0.5, 1.),
        2 => parameters.theta[0] *= random.uniform(0.9, 1.1),
        3 if plan.effects() == 1 => {
            parameters.additive = random.pick(&[None, Some(0.), Some(-0.), Some(0.5), Some(1.)]);
        }
        4 if plan.effects() == 2 => parameters.theta[1] *= random.uniform(0.9, 1.1),
        5 if random.below(4) == 0 => *parameters = unfit_parameters(random, *parameters),
        6 if random.below(4) == 0 => {
            let axis = random.below(plan.setup.effects) as usize;
            let none = [0., -0., -1., f64::NAN, f64::INFINITY, 5e-324, 1e308];
            parameters.theta[axis] = random.pick(&none);
        }
        _ => {}
    }
}

pub fn fault(random: &mut Random) -> Fault {
    let number = random.below(6) as usize;
    let x = random.pick(&[
        f64::NAN,
        f64::INFINITY,
        f64::NEG_INFINITY,
        1e200,
        -1e160,
        0.,
        1e308,
    ]);
    random.pick(&[
        Fault::Failure,
        Fault::Cut,
        Fault::Longer,
        Fault::Empty,
        Fault::Short,
        Fault::Short,
        Fault::OverBudget,
        Fault::OverBudget,
        Fault::RowMore,
        Fault::Prediction(number, x),
        Fault::Prediction(number, x),
        Fault::Derivative(number, x),
        Fault::Derivative(number, x),
        Fault::Side(number, 1 << 63),
        Fault::Time(number, x),
    ])
}

/// Warm starts of any kind for some of the subjects.
pub fn warm(random: &mut Random, plan: &Plan) -> Vec<f64> {
    let bound = plan.setup.eta_bound;
    let words = plan.effects() * plan.subjects.len();
    let count = 1 + random.below(words as u64);
    let mut one = || match random.below(12) {
        0 => random.pick(&[f64::NAN, f64::INFINITY, f64::NEG_INFINITY]),
        1 => random.pick(&[-1., 1.]) * bound,
        2 => random.uniform(-3., 3.) * bound,
        3 => stray_float(random, bound),
        4 => random.pick(&[0., -0.]),
        _ => random.uniform(-0.5, 0.5) * bound,
    };
    (0..count).map(|_| one()).collect()
}

/// As many evaluations as an objective came to, or about as many.
fn limit(random: &mut Random, plan: &mut Plan) {
    let calls = tell(plan).calls;
    if calls.is_empty() {
        return;
    }
    let calls = random.pick(&calls) as u64;
    plan.setup.max_evaluations = match random.below(8) {
        0 => 0,
        1 => random.below(calls + 1),
        2 | 3 => calls.saturating_sub(1),
        4 => calls + 1,
        _ => calls,
    };
}
