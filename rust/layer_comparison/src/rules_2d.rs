//! The rules of the two-effect search once more, in plain Rust from document
//! 01, for the searches that no run of the original comes to, like `rules` for
//! one effect. Where a NaN is met, the tests are the source's.

use crate::compare::word_of;
use crate::floats::{clamped, power};
use test_exports::mode_2d::{Conditional2, Request2, Settings2};
use test_exports::RefusedWith;

pub const ZERO: u64 = 0;
pub const START: u64 = 1;
pub const TRIAL: u64 = 2;
pub const FOUND: u64 = 3;
/// A search that was refused has this and the number of the refusal.
pub const HALTED: u64 = 4;
/// The numbers that a search refuses with.
pub const REFUSALS: [u64; 3] = [13, 14, 16];

/// Which of a search's words are whole numbers; the others are floats.
pub const WHOLE: [usize; 4] = [0, 1, 2, 3];

pub const ROUNDS: u64 = 48;
pub const REDUCTIONS: u64 = 22;
const STARTS: u64 = 6;

#[derive(Clone, Copy, Debug)]
pub struct Search2 {
    pub stage: u64,
    pub seed: u64,
    pub round: u64,
    pub reduction: u64,
    pub current: Conditional2,
    pub trial: [f64; 2],
    pub decrease: f64,
    pub best: Conditional2,
}

impl Search2 {
    /// None where the words are no search: a refusal by another number than a
    /// search's own, or a count of more than 32 bits.
    pub fn of_words(words: &[u64; 25]) -> Option<Search2> {
        let [stage, seed, round, reduction] = WHOLE.map(|at| words[at]);
        let refusals = REFUSALS.map(|number| HALTED + number);
        if stage >= HALTED && !refusals.contains(&stage) {
            return None;
        }
        let counts = [seed, round, reduction];
        if counts.iter().any(|count| *count > u32::MAX as u64) {
            return None;
        }
        Some(Search2 {
            stage,
            seed,
            round,
            reduction,
            current: point(&words[4..13]),
            trial: [13, 14].map(|at| f64::from_bits(words[at])),
            decrease: f64::from_bits(words[15]),
            best: point(&words[16..]),
        })
    }

    /// The words, with one and the same for every NaN.
    pub fn words(&self) -> [u64; 25] {
        let mut words = [0; 25];
        words[..4].copy_from_slice(&[self.stage, self.seed, self.round, self.reduction]);
        words[4..13].copy_from_slice(&point_words(&self.current));
        words[13..15].copy_from_slice(&self.trial.map(word_of));
        words[15] = word_of(self.decrease);
        words[16..].copy_from_slice(&point_words(&self.best));
        words
    }

    pub fn request(&self, settings: &Settings2) -> Request2 {
        match self.stage {
            ZERO => Request2::Point([0.; 2]),
            START => Request2::Point(start(settings, self.seed)),
            TRIAL => Request2::Point(self.trial),
            FOUND => Request2::Mode,
            stage => Request2::Refused(RefusedWith((stage - HALTED) as u32)),
        }
    }

    pub fn advance(&mut self, settings: &Settings2, at: Conditional2) {
        match self.stage {
            ZERO => {
                (self.current, self.best) = (at, at);
                self.leave_rounds(START, 0);
            }
            START => {
                (self.current, self.round) = (at, 0);
                self.begin_round(settings);
            }
            TRIAL => self.judge(settings, at),
            _ => {}
        }
    }

    fn judge(&mut self, settings: &Settings2, at: Conditional2) {
        let enough = joint(settings, &self.current) - 1e-4 * self.decrease;
        if joint(settings, &at) <= enough {
            self.current = at;
            self.round += 1;
            if self.round < ROUNDS {
                self.begin_round(settings);
            } else {
                self.finish(settings);
            }
        } else {
            self.try_from(settings, self.reduction + 1);
        }
    }

    fn begin_round(&mut self, settings: &Settings2) {
        if norm(settings, &self.current) <= 1e-5 {
            self.finish(settings);
        } else {
            self.try_from(settings, 0);
        }
    }

    /// Asks for the first trial from a reduction on that is not passed over.
    fn try_from(&mut self, settings: &Settings2, from: u64) {
        if from >= REDUCTIONS {
            return self.finish(settings);
        }
        let Some(step) = Step::at(settings, &self.current) else {
            return self.leave_rounds(HALTED + 16, self.seed);
        };
        for reduction in from..REDUCTIONS {
            let trial = step.trial(settings.eta_bound, reduction);
            if step.pass(trial).is_none() {
                self.stage = TRIAL;
                (self.reduction, self.trial) = (reduction, trial);
                self.decrease = step.fall(trial);
                return;
            }
        }
        self.finish(settings);
    }

    /// The rounds of a start are over, and the current point is its candidate.
    fn finish(&mut self, settings: &Settings2) {
        let first = self.seed == 0;
        if norm(settings, &self.current) > 1e-3 || reaches_bound(settings, &self.current) {
            return self.leave_rounds(HALTED + 13, self.seed);
        }
        if !first && distance(&self.current, &self.best) > 1e-3 {
            return self.leave_rounds(HALTED + 14, self.seed);
        }
        if first || joint(settings, &self.current) < joint(settings, &self.best) {
            self.best = self.current;
        }
        if self.seed < STARTS - 1 {
            self.leave_rounds(START, self.seed + 1);
        } else {
            self.leave_rounds(FOUND, STARTS);
        }
    }

    fn leave_rounds(&mut self, stage: u64, seed: u64) {
        (self.stage, self.seed) = (stage, seed);
        (self.round, self.reduction) = (0, 0);
        (self.trial, self.decrease) = ([0.; 2], 0.);
    }
}

/// Why a trial is passed over.
#[derive(Clone, Copy, Debug, PartialEq, Eq)]
pub enum Pass {
    /// It is the current point, though the sign of a zero may differ.
    Same,
    /// No fall is foreseen on the way there.
    NoFall,
}

/// The Newton step of a round.
pub struct Step {
    pub eta: [f64; 2],
    score: [f64; 2],
    direction: [f64; 2],
}

impl Step {
    /// None where the curvature has no inverse.
    pub fn at(settings: &Settings2, at: &Conditional2) -> Option<Step> {
        let [[a, b], [c, d]] = std::array::from_fn(|row| {
            std::array::from_fn(|column| {
                settings.precision[row][column] + at.information[row][column]
            })
        });
        let det: f64 = a * d - b * c;
        let finite = [a, b, c, d, det].iter().all(|x| x.is_finite());
        if !finite || a <= 0. || d <= 0. || det <= 1e-12 * a * d {
            return None;
        }
        let score = penalised_score(settings, at);
        let inverse = [[d / det, -b / det], [-c / det, a / det]];
        Some(Step {
            eta: at.eta,
            score,
            direction: product(inverse, score),
        })
    }

    pub fn trial(&self, eta_bound: f64, reduction: u64) -> [f64; 2] {
        let scale = power(-(reduction as i32));
        std::array::from_fn(|axis| {
            let eta = self.eta[axis] - scale * self.direction[axis];
            clamped(eta, -eta_bound, eta_bound)
        })
    }

    /// The fall of `joint` that is foreseen on the way to a trial.
    pub fn fall(&self, trial: [f64; 2]) -> f64 {
        dot(self.score, [self.eta[0] - trial[0], self.eta[1] - trial[1]])
    }

    pub fn pass(&self, trial: [f64; 2]) -> Option<Pass> {
        if trial == self.eta {
            Some(Pass::Same)
        } else if self.fall(trial) <= 0. {
            Some(Pass::NoFall)
        } else {
            None
        }
    }
}

fn start(settings: &Settings2, seed: u64) -> [f64; 2] {
    let half = 0.5 * settings.eta_bound;
    match seed {
        0 => settings.warm,
        1 => [0., 0.],
        2 => [half, 0.],
        3 => [-half, 0.],
        4 => [0., half],
        _ => [0., -half],
    }
}

/// The negative log likelihood with the prior.
pub fn joint(settings: &Settings2, at: &Conditional2) -> f64 {
    at.nll + 0.5 * dot(at.eta, product(settings.precision, at.eta))
}

fn penalised_score(settings: &Settings2, at: &Conditional2) -> [f64; 2] {
    let prior = product(settings.precision, at.eta);
    [at.score[0] + prior[0], at.score[1] + prior[1]]
}

/// The larger absolute score, the prior's share included. A NaN loses.
pub fn norm(settings: &Settings2, at: &Conditional2) -> f64 {
    largest(penalised_score(settings, at))
}

fn reaches_bound(settings: &Settings2, at: &Conditional2) -> bool {
    at.eta
        .iter()
        .any(|eta| eta.abs() >= settings.eta_bound - 1e-6)
}

pub fn distance(a: &Conditional2, b: &Conditional2) -> f64 {
    largest([a.eta[0] - b.eta[0], a.eta[1] - b.eta[1]])
}

fn largest([a, b]: [f64; 2]) -> f64 {
    a.abs().max(b.abs())
}

fn product([[a, b], [c, d]]: [[f64; 2]; 2], [x, y]: [f64; 2]) -> [f64; 2] {
    [a * x + b * y, c * x + d * y]
}

fn dot([a, b]: [f64; 2], [x, y]: [f64; 2]) -> f64 {
    a * x + b * y
}

fn point(words: &[u64]) -> Conditional2 {
    let [x, y, nll, s, t, a, b, c, d] = std::array::from_fn(|at| f64::from_bits(words[at]));
    Conditional2 {
        eta: [x, y],
        nll,
        score: [s, t],
        information: [[a, b], [c, d]],
    }
}

/// The words of an evaluated point, one and the same for every NaN.
pub fn point_words(point: &Conditional2) -> [u64; 9] {
    let [x, y] = point.eta;
    let [s, t] = point.score;
    let [[a, b], [c, d]] = point.information;
    [x, y, point.nll, s, t, a, b, c, d].map(word_of)
}
