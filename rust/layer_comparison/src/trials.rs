//! Random searches: settings over document 01's domain, every kind of
//! simulator, warm starts inside, at the ends of and outside the cell.

use crate::floats::{neighbours, power};
use crate::random::Random;
use crate::rules::grid_point;
use crate::searches::Trial;
use crate::simulators::{Kind, Model};
use oracle::session::Observed;

/// More than any search asks for.
const AMPLE: usize = 200;

pub fn draw(random: &mut Random, kind: Kind) -> Trial {
    let eta_bound = eta_bound(random);
    let mut trial = Trial {
        eta_bound,
        omega: omega(random, eta_bound),
        gradient_tolerance: gradient_tolerance(random),
        warm: 0.,
        theta: theta(random),
        additive_sd: None,
        max_evaluations: AMPLE,
        observations: Vec::new(),
        model: model(random, kind, eta_bound),
    };
    if random.below(32) == 0 {
        trial.max_evaluations = random.below(80) as usize;
    }
    trial.warm = warm(random, &trial);
    observe_either(random, &mut trial);
    trial
}

/// A subject more in the same settings, with a simulator of its own.
pub fn another(random: &mut Random, kind: Kind, settings: &Trial) -> Trial {
    let mut trial = settings.clone();
    trial.model = model(random, kind, trial.eta_bound);
    observe_either(random, &mut trial);
    trial
}

fn observe_either(random: &mut Random, trial: &mut Trial) {
    if trial.model.kind.lays_down_the_score() {
        observe_a_score(random, trial);
    } else {
        observe(random, trial);
    }
}

pub fn eta_bound(random: &mut Random) -> f64 {
    let edges = [power(-10), power(-10).next_up(), 16f64.next_down(), 16.];
    match random.below(4) {
        0 => random.pick(&edges),
        1 => random.pick(&[0.5, 1., 2., 4., 8.]),
        2 => random.magnitude(-10, 3),
        _ => random.uniform(0.5, 16.),
    }
}

/// A variance.
pub fn omega(random: &mut Random, eta_bound: f64) -> f64 {
    let omega = match random.below(4) {
        0 => random.pick(&[power(-20), power(20), 0.25, 0.5, 1., 2.]),
        1 => random.magnitude(-20, 19),
        _ => eta_bound * eta_bound * random.uniform(0.01, 1.),
    };
    omega.clamp(power(-20), power(20))
}

fn gradient_tolerance(random: &mut Random) -> f64 {
    match random.below(4) {
        0 => random.pick(&[5e-324, f64::MIN_POSITIVE, 1e-9, 1e-8, 1e-3, 1., f64::MAX]),
        1 => random.magnitude(-1022, 1023),
        2 => random.magnitude(-28, -12),
        _ => 1e-4,
    }
}

pub fn theta(random: &mut Random) -> f64 {
    match random.below(64) {
        0 => random.pick(&[0., -1., f64::NAN, f64::INFINITY, f64::MAX, 5e-324, 1e-300]),
        1..16 => random.magnitude(-4, 4),
        _ => 1.,
    }
}

fn model(random: &mut Random, kind: Kind, eta_bound: f64) -> Model {
    let jump = random.uniform(-1.05, 1.05) * eta_bound;
    let grid = grid_point(eta_bound, random.below(17));
    let wild = random.pick(&[0., 0.1, 0.5, 1.]);
    let parameters = match kind {
        Kind::Line | Kind::Broken => [random.uniform(-2., 2.), random.uniform(-3., 3.), 0.],
        Kind::Decay => [random.uniform(0.5, 9.), random.uniform(0.05, 2.), 0.],
        Kind::Saturating => [random.uniform(0.5, 9.), random.uniform(0.1, 5.), 0.],
        Kind::Flat => [random.uniform(-2., 2.), 0., 0.],
        Kind::Wave => [
            random.uniform(0.1, 5.),
            random.uniform(0., 12.) / eta_bound,
            random.uniform(0., 6.3),
        ],
        Kind::Nonsense => [random.pick(&[1., 4., 20., 100., 300., 1000.]), 0., 0.],
        Kind::Step => {
            let [a, b] = step(random);
            [a, b, jump]
        }
        Kind::Rough => [random.pick(&[1., 10., 60., 200., 400.]), wild, jump],
        Kind::Levels | Kind::Patches => [0., wild, random.pick(&[jump, grid])],
    };
    let seed = match kind {
        Kind::Patches => patches(random),
        _ => random.word(),
    };
    Model {
        kind,
        parameters,
        seed,
    }
}

/// The sizes of the score on both sides of a step: alike, unlike so that the
/// secant is held off an end each time, or of any size.
fn step(random: &mut Random) -> [f64; 2] {
    match random.below(8) {
        0 => [1., 1.],
        1 => [1., 1e10],
        2 => [1e10, 1.],
        3 => [0.8 * f64::MAX, 0.8 * f64::MAX],
        _ => [random.magnitude(-40, 40), random.magnitude(-40, 40)],
    }
}

/// A bit for each grid point, set from a place on, with up to three turned.
fn patches(random: &mut Random) -> u64 {
    let mut bits = !0 << random.below(17);
    for _ in 0..random.below(4) {
        bits ^= 1 << random.below(17);
    }
    bits & 0x1ffff
}

pub fn warm(random: &mut Random, trial: &Trial) -> f64 {
    let bound = trial.eta_bound;
    let grid = grid_point(bound, random.below(17));
    match random.below(8) {
        0 => 0.,
        1 => grid,
        2 => random.pick(&neighbours(grid)),
        3 => random.pick(&[-1., 1.]) * bound * random.uniform(1., 3.),
        4 => random.pick(&[f64::NAN, f64::INFINITY, f64::NEG_INFINITY, 1e300, -0.]),
        5 if trial.model.kind.lays_down_the_score() => {
            trial.model.parameters[2] + random.uniform(-0.05, 0.05) * bound
        }
        _ => random.uniform(-bound, bound),
    }
}

/// A subject whose values come from an eta of about the domain, with some
/// noise, so that many searches have a mode.
fn observe(random: &mut Random, trial: &mut Trial) {
    let eta = random.uniform(-1.2, 1.2) * trial.eta_bound;
    let count = random.pick(&[1, 1, 1, 2, 3]);
    trial.observations = observations(random, count, |row| {
        trial.model.row(row, eta, trial.theta * eta.exp())[0]
    });
    if random.below(8) == 0 {
        trial.additive_sd = Some(random.pick(&[0., 0.1, 1., 3.]));
    }
}

/// So many observations of what is predicted for each row, with some noise.
pub fn observations(
    random: &mut Random,
    count: usize,
    predicted: impl Fn(usize) -> f64,
) -> Vec<Observed> {
    let mut observations = Vec::new();
    for row in 0..count {
        let prediction = predicted(row);
        let additive = match random.below(4) {
            0 => 0.,
            1 => random.magnitude(-10, 2),
            _ => random.uniform(0.05, 1.),
        };
        let proportional = match random.below(3) {
            0 if additive > 0. => 0.,
            _ => random.uniform(0.01, 0.5),
        };
        let noise = random.uniform(-1., 1.) * (additive + proportional * prediction);
        let value = match random.below(16) {
            0 => random.uniform(-1000., 1000.),
            _ => prediction + noise,
        };
        observations.push(Observed {
            output: 0,
            row,
            value: if value.is_finite() { value } else { 1. },
            additive,
            proportional,
        });
    }
    observations
}

/// The larger the value, the less information comes with the score; the
/// largest scores there are want two large values, since likelihood and
/// information must stay finite.
fn observe_a_score(random: &mut Random, trial: &mut Trial) {
    let value = power(random.below(30) as i32);
    trial.observations = if trial.model.parameters[0] > 1e300 {
        score_observations(&[1.2e154; 2])
    } else {
        score_observations(&[value])
    };
}

/// The observations that a laid-down score wants: those of the values given
/// share it, then one for the information and one for the likelihood.
pub fn score_observations(values: &[f64]) -> Vec<Observed> {
    unit_observations(values.iter().copied().chain([0.; 2]))
}

/// Observations of these values, each with a variance of 1 throughout.
pub fn unit_observations(values: impl IntoIterator<Item = f64>) -> Vec<Observed> {
    let values = values.into_iter().enumerate();
    values
        .map(|(row, value)| Observed {
            output: 0,
            row,
            value,
            additive: 1.,
            proportional: 0.,
        })
        .collect()
}

/// The same search with a warm start in or about the cell of its mode.
pub fn warmed(random: &mut Random, trial: &Trial, mode: f64) -> Trial {
    let cell = ((mode + trial.eta_bound) * 8. / trial.eta_bound).floor() as u64;
    let [left, right] = [cell, cell + 1].map(|i| grid_point(trial.eta_bound, i));
    let warm = match random.below(8) {
        0 => mode,
        1 => random.pick(&neighbours(mode)),
        2 => random.pick(&neighbours(left)),
        3 => random.pick(&neighbours(right)),
        4 => mode + random.uniform(-1e-6, 1e-6) * trial.eta_bound,
        _ => random.uniform(left, right),
    };
    Trial {
        warm,
        ..trial.clone()
    }
}
