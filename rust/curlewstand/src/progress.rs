//! How far an objective has come.

use crate::Tally;

/// How far the objective has come that was begun last: what
/// [`Session::progress`](crate::Session::progress) reads, and what
/// [`Session::objective_with_progress`](crate::Session::objective_with_progress)
/// hands to its observer.
///
///     use curlewstand::{Progress, Tally};
///
///     let progress = Progress {
///         subject: Some(3),
///         passed: 3,
///         subjects: 10,
///         taken: 75,
///         booked: 820,
///         tally: Tally { calls: 500, cached_rows: 64 },
///     };
///     assert_eq!(progress.fraction(), 0.3);
///     assert_eq!(progress.unused(), 745);
#[derive(Clone, Copy, Debug, PartialEq, Eq)]
pub struct Progress {
    /// The subject that is searched, counted from 0: the one that the question is
    /// of. None where no reply is awaited.
    pub subject: Option<usize>,
    /// How many subjects have their mode in this objective.
    pub passed: usize,
    /// How many subjects the session has.
    pub subjects: usize,
    /// The evaluations that this objective has taken, the awaited one among them.
    pub taken: u32,
    /// The most that it can take: the ceiling, 82 or 6,343, for each subject.
    pub booked: u64,
    /// The evaluations taken since the session was opened or restarted, and the rows
    /// that are kept.
    pub tally: Tally,
}

impl Progress {
    /// The share of the subjects that have their mode.
    ///
    ///     # use curlewstand::{Progress, Tally};
    ///     # let progress = Progress { subject: None, passed: 4, subjects: 4, taken: 90,
    ///     #     booked: 328, tally: Tally::default() };
    ///     assert_eq!(progress.fraction(), 1.);
    pub fn fraction(&self) -> f64 {
        self.passed as f64 / self.subjects as f64
    }

    /// The booked evaluations that this objective has not taken.
    ///
    ///     # use curlewstand::{Progress, Tally};
    ///     # let progress = Progress { subject: None, passed: 4, subjects: 4, taken: 90,
    ///     #     booked: 328, tally: Tally::default() };
    ///     assert_eq!(progress.unused(), 328 - 90);
    pub fn unused(&self) -> u64 {
        self.booked.saturating_sub(u64::from(self.taken))
    }
}
