//! Random searches with two effects: settings over document 01's domain, every
//! kind of simulator, warm starts of any bits.

use crate::floats::{neighbours, power};
use crate::random::Random;
use crate::searches_2d::Trial2;
use crate::simulators_2d::{Kind2, Model2};
use crate::trials::{self, observations, unit_observations};
use oracle::session::Observed;

/// More than any search asks for.
pub const AMPLE: usize = 10_000;

/// A bound at which all six starts lie within 1e-3 of each other.
pub const NARROWEST: f64 = 1. / 1024.;

pub fn draw(random: &mut Random, kind: Kind2) -> Trial2 {
    if kind == Kind2::Stubborn {
        return stubborn(random);
    }
    let eta_bound = eta_bound(random, kind);
    let theta = [0; 2].map(|_| match random.coin() {
        true => 1.,
        false => trials::theta(random),
    });
    let mut trial = Trial2 {
        eta_bound,
        omega: omega(random, eta_bound),
        warm: warm(random, eta_bound),
        theta,
        max_evaluations: AMPLE,
        observations: Vec::new(),
        model: model(random, kind, eta_bound),
    };
    if random.below(32) == 0 {
        let most = random.pick(&[4, 40, 200]);
        trial.max_evaluations = random.below(most) as usize;
    }
    trial.observations = observe(random, &trial);
    trial
}

/// A subject more in the same settings, with a simulator of its own.
pub fn another(random: &mut Random, kind: Kind2, settings: &Trial2) -> Trial2 {
    let mut trial = settings.clone();
    trial.model = model(random, kind, trial.eta_bound);
    trial.observations = observe(random, &trial);
    trial
}

/// Where the starts are near each other, more of the searches go through all
/// six of them.
fn eta_bound(random: &mut Random, kind: Kind2) -> f64 {
    let near = if kind.lays_down() { 7 } else { 2 };
    if random.below(8) < near {
        random.pick(&[NARROWEST, NARROWEST, 0.0015, 0.00199, 0.003])
    } else {
        trials::eta_bound(random)
    }
}

/// Both variances and the covariance: none, some, or so much that the inverse
/// is nearly lost.
fn omega(random: &mut Random, eta_bound: f64) -> [f64; 3] {
    let [first, second] = match random.below(4) {
        0 => [power(20); 2],
        _ => [0; 2].map(|_| trials::omega(random, eta_bound)),
    };
    loop {
        let correlation = match random.below(4) {
            0 => random.pick(&[0., -0.]),
            1 | 2 => random.uniform(-0.99, 0.99),
            _ => {
                let short = random.magnitude(-42, -10);
                random.signed(1. - short)
            }
        };
        let covariance = correlation * (first * second).sqrt();
        let matrix = [[first, covariance], [covariance, second]];
        if oracle::inverse_positive(matrix).is_some() {
            return [first, covariance, second];
        }
    }
}

pub fn warm(random: &mut Random, eta_bound: f64) -> [f64; 2] {
    if random.coin() {
        return [0.; 2];
    }
    let wild = random.below(8) == 0;
    [0; 2].map(|_| match random.below(8) {
        0 => random.pick(&[0., -0., 5e-324, -1e-310]),
        1 => random.pick(&neighbours(eta_bound - 1e-6)),
        2 => random.pick(&[-1., 1.]) * eta_bound,
        3 => random.uniform(-3., 3.) * eta_bound,
        4 if wild => random.pick(&[f64::NAN, f64::INFINITY, f64::NEG_INFINITY]),
        5 if wild => f64::from_bits(random.word()),
        _ => random.uniform(-eta_bound, eta_bound),
    })
}

fn model(random: &mut Random, kind: Kind2, eta_bound: f64) -> Model2 {
    let parameters = match kind {
        Kind2::Plane | Kind2::Broken => [-2., -3., -3.].map(|least| random.uniform(least, -least)),
        Kind2::Decay => [random.uniform(0.5, 9.), random.uniform(0.05, 2.), 0.],
        Kind2::Saturating => [random.uniform(0.5, 9.), random.uniform(0.1, 5.), 0.],
        Kind2::Wave => [
            random.uniform(0.1, 5.),
            random.uniform(0., 6.) / eta_bound,
            random.uniform(0., 6.) / eta_bound,
        ],
        Kind2::Nonsense => [random.pick(&[1., 4., 20., 70., 300., 1000.]), 0., 0.],
        Kind2::Slope => [
            random.uniform(-2., 2.),
            random.magnitude(-20, 20),
            random.magnitude(-20, 20),
        ],
        Kind2::Rough => [random.pick(&[1., 10., 60., 200., 400.]), 0., 0.],
        Kind2::Moody => [0., random.pick(&[0.01, 0.1, 0.3, 1.]), 0.],
        _ => [random.uniform(-2., 2.), 0., 0.],
    };
    Model2 {
        kind,
        parameters,
        seed: random.word(),
    }
}

fn observe(random: &mut Random, trial: &Trial2) -> Vec<Observed> {
    if trial.model.kind.lays_down() {
        return laid_down_observations(power(random.below(20) as i32));
    }
    let eta = [0; 2].map(|_| random.uniform(-0.7, 0.7) * trial.eta_bound);
    let individual = [0, 1].map(|axis| trial.theta[axis] * eta[axis].exp());
    let count = random.pick(&[1, 2, 2, 3, 4]);
    observations(random, count, |row| {
        trial.model.row(row, eta, individual)[0]
    })
}

/// The observations for what is laid down: the larger the value, the less
/// information comes with the score.
pub fn laid_down_observations(value: f64) -> Vec<Observed> {
    unit_observations([value, 0., 0., 0.])
}

/// A script whose steps are so short that a start stays where it is, about.
pub fn scripted(reduction: u64, score: f64, step: f64, seed: u64) -> Trial2 {
    let information = score * power(-(reduction as i32)) / step;
    Trial2 {
        eta_bound: NARROWEST,
        omega: [power(20), 0., power(20)],
        warm: [0.; 2],
        theta: [1.; 2],
        max_evaluations: AMPLE,
        observations: laid_down_observations(1.),
        model: Model2 {
            kind: Kind2::Stubborn,
            parameters: [reduction as f64, score, information.sqrt()],
            seed,
        },
    }
}

fn stubborn(random: &mut Random) -> Trial2 {
    let reduction = random.below(22);
    let score = random.uniform(1.1e-5, 1e-3);
    let step = random.magnitude(-30, -17);
    let mut trial = scripted(reduction, score, step, random.word());
    trial.warm = [0; 2].map(|_| random.uniform(-1e-4, 1e-4));
    if random.below(4) == 0 {
        trial.omega = omega(random, trial.eta_bound);
    }
    if random.below(4) == 0 {
        trial.max_evaluations = random.below(6_400) as usize;
    }
    trial
}

/// The same search with a warm start at its mode or about it.
pub fn warmed(random: &mut Random, trial: &Trial2, mode: [f64; 2]) -> Trial2 {
    let warm = mode.map(|eta| match random.below(4) {
        0 => eta,
        1 => random.pick(&neighbours(eta)),
        2 => eta + random.uniform(-1e-4, 1e-4),
        _ => eta + random.uniform(-0.1, 0.1) * trial.eta_bound,
    });
    Trial2 {
        warm,
        ..trial.clone()
    }
}
