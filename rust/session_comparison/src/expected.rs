//! What our side's tally and results are to be. The original says its tally at
//! the end of an objective; at each question it follows from document 01: one
//! evaluation more, and the rows of each reply that was taken are kept, the
//! oldest out first.

use curlewstand::{Session, Tally};
use layer_comparison::compare::word_of;
use oracle::session::{Mode, Objective};
use std::collections::VecDeque;

/// Each subject's eta, second eta and negative log likelihood, and each
/// observation's predictions, as words.
#[derive(Clone, Debug, Default, PartialEq, Eq)]
pub struct Results {
    pub estimates: Vec<[u64; 3]>,
    pub fitted: Vec<[u64; 2]>,
}

impl Results {
    /// All words of our side's, as they are lent to it.
    pub fn of(session: &Session) -> Self {
        let (estimates, fitted) = session.result_words().split_at(3 * session.subjects());
        let word = |word: u64| word_of(f64::from_bits(word));
        let estimates = estimates.chunks_exact(3);
        let fitted = fitted.chunks_exact(2);
        Results {
            estimates: estimates
                .map(|of| [of[0], of[1], of[2]].map(word))
                .collect(),
            fitted: fitted.map(|of| [of[0], of[1]].map(word)).collect(),
        }
    }

    /// Those that our side tells of the subjects that the objective came to.
    pub fn told(session: &Session) -> Self {
        let estimates = session.estimates().map(|estimate| {
            let [eta, other] = estimate.eta;
            [eta, other, estimate.negative_log_likelihood].map(word_of)
        });
        let fitted = session
            .fitted()
            .map(|fitted| [fitted.population, fitted.individual].map(word_of));
        Results {
            estimates: estimates.collect(),
            fitted: fitted.collect(),
        }
    }

    /// Those of the first subjects, which have so many observations.
    pub fn first(&self, subjects: usize, counts: &[u64]) -> Self {
        let observations: u64 = counts[..subjects].iter().sum();
        Results {
            estimates: self.estimates[..subjects].to_vec(),
            fitted: self.fitted[..observations as usize].to_vec(),
        }
    }

    fn zero(counts: &[u64]) -> Self {
        Results {
            estimates: vec![[0; 3]; counts.len()],
            fitted: vec![[0; 2]; counts.iter().sum::<u64>() as usize],
        }
    }
}

#[derive(Clone, Debug, Default)]
pub struct Expected {
    pub calls: usize,
    pub cached_rows: usize,
    /// The rows of each evaluation that is kept, the oldest first.
    kept: VecDeque<usize>,
    pub results: Results,
}

impl Expected {
    /// After an accepted setup.
    pub fn open(counts: &[u64]) -> Self {
        Expected {
            results: Results::zero(counts),
            ..Expected::default()
        }
    }

    pub fn tally(&self) -> Tally {
        Tally {
            calls: self.calls as u32,
            cached_rows: self.cached_rows,
        }
    }

    /// An evaluation of so many rows is kept, or not where they are more than
    /// K. Gives how many rows had to go.
    pub fn keep(&mut self, rows: usize, k: usize) -> usize {
        if rows > k {
            return 0;
        }
        let before = self.cached_rows;
        while self.cached_rows + rows > k {
            self.cached_rows -= self.kept.pop_front().expect("every row has its entry");
        }
        let gone = before - self.cached_rows;
        self.kept.push_back(rows);
        self.cached_rows += rows;
        gone
    }

    /// The results of a finished objective.
    pub fn finish(&mut self, objective: &Objective) {
        for (words, estimate) in self.results.estimates.iter_mut().zip(&objective.subjects) {
            let [eta, other] = estimate.eta;
            *words = [eta, other, estimate.negative_log_likelihood].map(word_of);
        }
        for (words, fitted) in self.results.fitted.iter_mut().zip(&objective.fitted) {
            *words = [fitted.pred, fitted.ipred].map(word_of);
        }
    }

    /// The results of the first subjects of an objective that was refused.
    pub fn pass(&mut self, modes: &[Mode]) {
        let mut fitted = self.results.fitted.iter_mut();
        for (words, mode) in self.results.estimates.iter_mut().zip(modes) {
            let [eta, other] = mode.best.eta;
            *words = [eta, other, mode.best.nll].map(word_of);
            let rows = mode.population_rows.iter().zip(&mode.best.rows);
            for ((pred, ipred), words) in rows.zip(&mut fitted) {
                *words = [pred.prediction, ipred.prediction].map(word_of);
            }
        }
    }
}
