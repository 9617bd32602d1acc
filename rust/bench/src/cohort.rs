//! The sessions that are timed: a cohort, its model, and the parameters of its
//! objectives, the same for both sides.

use layer_comparison::random::Random;

/// Document 01's most observations of a cohort.
pub const MOST_OBSERVATIONS: usize = 100_000;

pub const THETA: [f64; 2] = [1., 1.];
pub const OMEGA: [[f64; 2]; 2] = [[0.09, 0.01], [0.01, 0.06]];
pub const ETA_BOUND: f64 = 2.;
pub const GRADIENT_TOLERANCE: f64 = 1e-4;
pub const MAX_EVALUATIONS: u32 = u32::MAX;

/// What is timed: so many subjects with so many observations each, every
/// observation with a row of its own, and at most `k` rows kept.
#[derive(Clone, Copy, Debug, PartialEq, Eq)]
pub struct Cell {
    pub effects: usize,
    pub rows: usize,
    pub subjects: usize,
    pub k: usize,
}

impl Cell {
    pub fn is_within_domain(&self) -> bool {
        self.rows * self.subjects <= MOST_OBSERVATIONS
    }

    /// The values and derivatives of a reply.
    pub fn output_budget(&self) -> usize {
        self.rows * (1 + self.effects)
    }
}

/// An observation's numbers; its row is its own position.
#[derive(Clone, Copy)]
pub struct Measured {
    pub value: f64,
    pub additive: f64,
    pub proportional: f64,
}

/// A model that is linear in the individual values, so that it takes next to
/// no time, with the slopes of each row.
pub struct Model {
    slopes: Vec<[f64; 2]>,
}

impl Model {
    pub fn new(cell: &Cell, random: &mut Random) -> Self {
        let second = if cell.effects == 2 { 1. } else { 0. };
        let slopes =
            (0..cell.rows).map(|_| [random.uniform(1., 3.), second * random.uniform(0.5, 2.)]);
        Model {
            slopes: slopes.collect(),
        }
    }

    /// Each row's number, prediction and derivatives.
    pub fn rows(&self, individual: [f64; 2]) -> impl Iterator<Item = (usize, f64, [f64; 2])> + '_ {
        let [x, y] = individual;
        self.slopes
            .iter()
            .enumerate()
            .map(move |(row, &[a, b])| (row, a * x + b * y, [a, b]))
    }
}

/// The subjects' observations: what the model predicts at each subject's own
/// effects, with noise.
pub fn observations(cell: &Cell, model: &Model, random: &mut Random) -> Vec<Vec<Measured>> {
    let mut subject = || {
        let own = [random.uniform(-0.5, 0.5), random.uniform(-0.4, 0.4)];
        let individual = own.map(f64::exp);
        model
            .rows(individual)
            .map(|(_, prediction, _)| Measured {
                value: prediction * random.uniform(0.9, 1.1) + random.uniform(-0.1, 0.1),
                additive: 0.2,
                proportional: 0.1,
            })
            .collect()
    };
    (0..cell.subjects).map(|_| subject()).collect()
}
