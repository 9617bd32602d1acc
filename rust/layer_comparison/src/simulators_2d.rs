//! Simulators for one subject with two effects. Most give the same rows
//! whenever they are asked the same point; the last two go by how often they
//! were asked, so that an equal question may get another answer.

use crate::random::Random;
use crate::simulators::{any_size, broken, by_point, divided, sample, Model};
use oracle::session::{Question, SensitivitySample};

/// What a simulator computes. Its parameters are called a, b and c here, the
/// individual values x and y; row r is taken at time t = r + 1. From `Rough` on
/// score, information and likelihood are laid down, the prior's share of the
/// score included, so that they say what the search meets.
#[derive(Clone, Copy, Debug, PartialEq, Eq, PartialOrd, Ord)]
pub enum Kind2 {
    /// a + b·x + c·t·y.
    Plane,
    /// a·x·exp(-b·t·y).
    Decay,
    /// a·t·x/(y + b·t).
    Saturating,
    /// a, wherever it is asked.
    Flat,
    /// a·sin(1 + b·t·eta + c·other eta), which makes several modes.
    Wave,
    /// Any floats by point, of exponents from -a to a.
    Nonsense,
    /// A plane without a reply at some points, with too few or too many rows at
    /// others.
    Broken,
    /// a, but said to rise by b with the first eta in even rows and by c with
    /// the second in odd ones.
    Slope,
    /// Scores of any size by point, of exponents from -a to a, and any
    /// likelihood.
    Rough,
    /// Scores about those that matter to the search, and few sizes of
    /// likelihood and information, so that ties are met.
    Levels,
    /// The same, but by the turn, while the likelihood falls by b each time.
    Moody,
    /// A script for a whole search: each round takes its trial of reduction a
    /// and no other. The score is b wherever that matters, the information c².
    Stubborn,
}

impl Kind2 {
    pub const ALL: [Kind2; 12] = [
        Kind2::Plane,
        Kind2::Decay,
        Kind2::Saturating,
        Kind2::Flat,
        Kind2::Wave,
        Kind2::Nonsense,
        Kind2::Broken,
        Kind2::Slope,
        Kind2::Rough,
        Kind2::Levels,
        Kind2::Moody,
        Kind2::Stubborn,
    ];

    /// Whether score, information and likelihood are laid down. The subject's
    /// observations are then four: one for the score, two for the information,
    /// one for the likelihood.
    pub fn lays_down(self) -> bool {
        self >= Kind2::Rough
    }
}

pub type Model2 = Model<Kind2>;

/// What a simulator knows of the search.
#[derive(Clone, Copy)]
pub struct Surroundings2<'a> {
    pub precision: [[f64; 2]; 2],
    pub values: &'a [f64],
    /// How often the simulator was asked before.
    pub turn: usize,
}

/// What is to be met at a point.
struct Laid {
    /// With the prior's share.
    score: [f64; 2],
    /// The sensitivities of the two rows that give nothing but information.
    sensitivities: [[f64; 2]; 2],
    /// The likelihood is half the square of it.
    residual: f64,
}

impl Model2 {
    /// One row for each of the values that were observed, or no reply.
    pub fn reply(
        &self,
        question: &Question,
        around: Surroundings2,
    ) -> Option<Vec<SensitivitySample>> {
        if self.kind.lays_down() {
            return Some(self.laid_down(question, around));
        }
        let mut rows = around.values.len();
        if self.kind == Kind2::Broken {
            rows = broken(&mut self.by_point(question.eta, 0), rows)?;
        }
        let row = |row| {
            let [prediction, first, second] = self.row(row, question.eta, question.individual);
            sample(prediction, &[first, second])
        };
        Some((0..rows).map(row).collect())
    }

    /// The prediction of row r and its derivatives by the individual values.
    pub fn row(&self, row: usize, eta: [f64; 2], [x, y]: [f64; 2]) -> [f64; 3] {
        let [a, b, c] = self.parameters;
        let t = (row + 1) as f64;
        match self.kind {
            Kind2::Plane | Kind2::Broken => [a + b * x + c * t * y, b, c * t],
            Kind2::Decay => {
                let share = a * (-b * t * y).exp();
                [share * x, share, -b * t * share * x]
            }
            Kind2::Saturating => {
                let share = a * t / (y + b * t);
                [share * x, share, -share * x / (y + b * t)]
            }
            Kind2::Wave => {
                let (sine, cosine) = (1. + b * t * eta[0] + c * eta[1]).sin_cos();
                [a * sine, a * b * t * cosine / x, a * c * cosine / y]
            }
            Kind2::Nonsense => {
                let mut random = self.by_point(eta, row);
                [0; 3].map(|_| any_size(&mut random, a))
            }
            Kind2::Slope if row % 2 == 1 => [a, 0., divided(c, y)],
            Kind2::Slope => [a, divided(b, x), 0.],
            _ => [a, 0., 0.],
        }
    }

    /// With additive deviation 1 and no proportional one, a row has score
    /// -residual·f_eta, the products of f_eta as information and half the
    /// square of the residual as likelihood. So the first row gives the score,
    /// the next two nothing but information, the last nothing but likelihood.
    fn laid_down(&self, question: &Question, around: Surroundings2) -> Vec<SensitivitySample> {
        let [x, y] = question.eta;
        let laid = self.laid(question.eta, around.turn);
        let [[a, b], [c, d]] = around.precision;
        let prior = [a * x + b * y, c * x + d * y];
        let by_eta = |f: [f64; 2]| {
            let by = question.individual;
            [divided(f[0], by[0]), divided(f[1], by[1])]
        };
        let value = around.values[0];
        let rising = [0, 1].map(|axis| (prior[axis] - laid.score[axis]) / value);
        vec![
            sample(0., &by_eta(rising)),
            sample(0., &by_eta(laid.sensitivities[0])),
            sample(0., &by_eta(laid.sensitivities[1])),
            sample(laid.residual, &[0.; 2]),
        ]
    }

    fn laid(&self, eta: [f64; 2], turn: usize) -> Laid {
        let [a, b, _] = self.parameters;
        let mut random = self.by_point(eta, 0);
        match self.kind {
            Kind2::Rough => {
                let score = [0; 2].map(|_| match random.below(4) {
                    0 => 0.,
                    _ => any_size(&mut random, a),
                });
                let span = random.pick(&[1., 10., 60.]);
                Laid {
                    score,
                    sensitivities: [[0; 2]; 2].map(|row| row.map(|_| any_size(&mut random, span))),
                    residual: random.uniform(0., 9.),
                }
            }
            Kind2::Levels => levels(&mut random),
            Kind2::Moody => {
                let mut laid = levels(&mut Random::new(self.seed ^ turn as u64));
                laid.residual += (20. - b * turn as f64).max(0.);
                laid
            }
            _ => self.scripted(turn),
        }
    }

    /// The first turn is the point zero; then each start has one turn for
    /// itself, and 48 rounds up to the reduction that is taken.
    fn scripted(&self, turn: usize) -> Laid {
        let [a, b, c] = self.parameters;
        let trials = a.clamp(0., 21.) as usize + 1;
        let place = turn.saturating_sub(1) % (1 + 48 * trials);
        let (round, trial) = (place.div_ceil(trials), place % trials);
        let mut random = Random::new(self.seed ^ turn as u64);
        // an odd seed refuses the last trial of all too
        let refused = trial != 0 || (round == 48 && self.seed % 2 == 1);
        Laid {
            score: [random.signed(b), random.signed(b)],
            sensitivities: [[c, 0.], [0., c]],
            residual: if refused {
                10.
            } else {
                9. - 0.1 * round as f64
            },
        }
    }

    fn by_point(&self, eta: [f64; 2], row: usize) -> Random {
        let first = by_point(self.seed, eta[0], row).word();
        by_point(first, eta[1], row)
    }
}

/// Scores about 1e-5, where rounds stop, and 1e-3, where a candidate is
/// refused; sensitivities up to such that hide the prior.
fn levels(random: &mut Random) -> Laid {
    let sizes = [0., 4e-6, 1e-5, 2e-5, 2e-5, 5e-4, 5e-4, 9e-4, 9e-4, 1.1e-3];
    let score = [0; 2].map(|_| {
        let size = random.pick(&sizes);
        random.signed(size)
    });
    let most = random.pick(&[3, 3, 4, 6]);
    let sensitivities =
        [[0; 2]; 2].map(|row| row.map(|_| random.pick(&[0., 0.01, 1., 30., 1e4, 1e9][..most])));
    Laid {
        score,
        sensitivities,
        residual: random.pick(&[0., 1., 2., 2., 3.]),
    }
}
