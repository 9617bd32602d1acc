//! Simulators for one subject with one effect. Each gives the same rows
//! whenever it is asked the same point, so that both sides of a comparison
//! meet the same values.

use crate::random::Random;
use crate::rules::grid_point;
use oracle::session::{Question, SensitivitySample};

/// What a simulator computes. Its parameters are called a, b and c here; row r
/// is taken at time t = r + 1. From `Step` on it is the score that is laid
/// down, the prior's share included, so that they say what the search meets.
#[derive(Clone, Copy, Debug, PartialEq, Eq, PartialOrd, Ord)]
pub enum Kind {
    /// a + b·t·individual.
    Line,
    /// a·exp(-b·t·individual).
    Decay,
    /// a·b·t/(individual + b·t).
    Saturating,
    /// a, wherever it is asked.
    Flat,
    /// a·sin(b·t·eta + c), which makes several modes.
    Wave,
    /// Any floats by point, of exponents from -a to a.
    Nonsense,
    /// A line without a reply at some points, with too few or too many rows at
    /// others.
    Broken,
    /// -a below c, b from there on.
    Step,
    /// Any size by point, of exponents from -a to a, below 0 left of c and
    /// above it to the right; between the grid points with the other sign in a
    /// share b of all points.
    Rough,
    /// The same with sizes 0, 1 and 2, so that zeros and ties are met.
    Levels,
    /// Sizes 0, 1 and 2; the sign about each grid point is a bit of the seed.
    Patches,
}

impl Kind {
    pub const ALL: [Kind; 11] = [
        Kind::Line,
        Kind::Decay,
        Kind::Saturating,
        Kind::Flat,
        Kind::Wave,
        Kind::Nonsense,
        Kind::Broken,
        Kind::Step,
        Kind::Rough,
        Kind::Levels,
        Kind::Patches,
    ];

    /// Whether the score is laid down. The subject's observations are then
    /// those that share the score, one for the information, one for the
    /// likelihood.
    pub fn lays_down_the_score(self) -> bool {
        self >= Kind::Step
    }
}

#[derive(Clone, Copy, Debug, PartialEq)]
pub struct Model<K = Kind> {
    pub kind: K,
    pub parameters: [f64; 3],
    pub seed: u64,
}

impl Model {
    /// The prediction of row r and its derivative by the individual value.
    pub fn row(&self, row: usize, eta: f64, individual: f64) -> [f64; 2] {
        let [a, b, c] = self.parameters;
        let b = b * (row + 1) as f64;
        match self.kind {
            Kind::Line | Kind::Broken => [a + b * individual, b],
            Kind::Decay => {
                let prediction = a * (-b * individual).exp();
                [prediction, -b * prediction]
            }
            Kind::Saturating => {
                let share = b / (individual + b);
                [a * share, -a * share / (individual + b)]
            }
            Kind::Wave => {
                let (sine, cosine) = (b * eta + c).sin_cos();
                [a * sine, a * b * cosine / individual]
            }
            Kind::Nonsense => {
                let mut random = by_point(self.seed, eta, row);
                [0; 2].map(|_| any_size(&mut random, a))
            }
            _ => [a, 0.],
        }
    }

    /// The score to be met at a point, with the prior's share.
    fn score(&self, eta: f64, eta_bound: f64) -> f64 {
        let [a, b, c] = self.parameters;
        let mut random = by_point(self.seed, eta, 0);
        match self.kind {
            Kind::Step if eta < c => -a,
            Kind::Step => b,
            Kind::Rough => {
                let size = any_size(&mut random, a).abs();
                size * self.side(eta, eta_bound, &mut random)
            }
            Kind::Levels => {
                let size = random.pick(&[0., 1., 1., 2.]);
                size * self.side(eta, eta_bound, &mut random)
            }
            _ => {
                let nearest = ((eta + eta_bound) * 8. / eta_bound).round() as u32;
                let above = self.seed >> nearest & 1 == 1;
                random.pick(&[0., 1., 1., 2.]) * if above { 1. } else { -1. }
            }
        }
    }

    /// The sign by the side of the jump, or now and then the other one.
    fn side(&self, eta: f64, eta_bound: f64, random: &mut Random) -> f64 {
        let [_, wild, jump] = self.parameters;
        let on_grid = (0..17).any(|i| grid_point(eta_bound, i) == eta);
        let turned = !on_grid && random.uniform(0., 1.) < wild;
        if (eta < jump) != turned {
            -1.
        } else {
            1.
        }
    }
}

/// The same numbers whenever it is the same point and row.
pub fn by_point(seed: u64, eta: f64, row: usize) -> Random {
    let word = eta.to_bits().wrapping_mul(0x9e3779b97f4a7c15 | 1);
    Random::new(seed ^ word.rotate_left(row as u32))
}

/// A float of either sign with an exponent from -span to span.
pub fn any_size(random: &mut Random, span: f64) -> f64 {
    let span = span.clamp(0., 1000.) as i32;
    let size = random.magnitude(-span, span);
    random.signed(size)
}

/// What a simulator knows of the search: laid-down scores need it.
#[derive(Clone, Copy)]
pub struct Surroundings<'a> {
    pub eta_bound: f64,
    pub omega: f64,
    pub values: &'a [f64],
}

impl Model {
    /// One row for each of the values that were observed, or no reply.
    pub fn reply(
        &self,
        question: &Question,
        surroundings: Surroundings,
    ) -> Option<Vec<SensitivitySample>> {
        let [eta, individual] = [question.eta[0], question.individual[0]];
        let mut rows = surroundings.values.len();
        if self.kind == Kind::Broken {
            rows = broken(&mut by_point(self.seed, eta, 0), rows)?;
        }
        if self.kind.lays_down_the_score() {
            return Some(self.laid_down(eta, individual, surroundings));
        }
        Some(
            (0..rows)
                .map(|row| {
                    let [prediction, derivative] = self.row(row, eta, individual);
                    sample(prediction, &[derivative])
                })
                .collect(),
        )
    }

    /// With additive deviation 1 and no proportional one, a row of prediction 0
    /// has score -value·f_eta and information f_eta². So the first rows give
    /// the score, the last but one nothing but information, the last nothing
    /// but likelihood.
    fn laid_down(&self, eta: f64, individual: f64, around: Surroundings) -> Vec<SensitivitySample> {
        let (sharing, _) = around.values.split_at(around.values.len() - 2);
        let score = self.score(eta, around.eta_bound) - eta / around.omega;
        let share = score / sharing.len() as f64;
        let mut random = by_point(self.seed, eta, 1);
        let information = match random.below(3) {
            0 => 0.,
            1 => random.uniform(0., 3.),
            _ => random.magnitude(-20, 20),
        };
        let mut rows: Vec<SensitivitySample> = sharing
            .iter()
            .map(|value| sample(0., &[divided(-share / value, individual)]))
            .collect();
        rows.push(sample(0., &[information / individual]));
        rows.push(sample(random.uniform(-9., 9.), &[0.]));
        rows
    }
}

/// How many rows a broken reply has, if there is one.
pub fn broken(random: &mut Random, rows: usize) -> Option<usize> {
    match random.below(200) {
        0 => None,
        1 => Some(rows - 1),
        2 => Some(1_000),
        _ => Some(rows),
    }
}

/// The quotient, or a neighbour of it that gives the product back exactly.
pub fn divided(product: f64, by: f64) -> f64 {
    let quotient = product / by;
    [quotient, quotient.next_up(), quotient.next_down()]
        .into_iter()
        .find(|trial| trial * by == product)
        .unwrap_or(quotient)
}

/// A row with one output and its derivative by each effect.
pub fn sample(prediction: f64, derivatives: &[f64]) -> SensitivitySample {
    SensitivitySample {
        time: 0.,
        side: "pre",
        values: vec![prediction],
        derivatives: derivatives.iter().map(|one| vec![*one]).collect(),
    }
}
