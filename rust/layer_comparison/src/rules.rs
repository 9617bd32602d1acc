//! The rules of the one-effect search once more, in plain Rust from document
//! 01, for the searches that no run of the original comes to: whatever words
//! are lent, whatever stands at the points.
//!
//! Document 01's own tests and the source's are the same for numbers, and
//! scores are numbers wherever 12 was passed. For a NaN score the ends of the
//! grid follow the source: 13 is for a first score of 0 or above and for a
//! last one of 0 or below, so that a NaN passes. 14 follows document 01: it is
//! for a fall alone. The source also wants a single rise, which numbers with
//! such ends and no fall always have.

use crate::compare::word_of;
use crate::floats::clamped;
use test_exports::mode::{Conditional, Request, Settings};
use test_exports::RefusedWith;

pub const GRID: u64 = 0;
pub const WARM: u64 = 1;
pub const SECANT: u64 = 2;
pub const HALVING: u64 = 3;

/// Which of a search's words are whole numbers; the others are floats.
pub const WHOLE: [usize; 3] = [0, 1, 7];

/// The largest count that a search may have, by stage. One that its stage
/// never comes to is still a search's: that of a search which has asked all the
/// points of the stage. One of more than 32 bits is not.
const LARGEST_COUNT: [u64; 4] = [u32::MAX as u64; 4];

/// The number for words that are no search.
pub const NO_SEARCH: u32 = 19;

#[derive(Clone, Copy, Debug)]
pub struct Search {
    pub stage: u64,
    pub count: u64,
    pub first: f64,
    pub latest: Conditional,
    pub fall: bool,
    pub left: Conditional,
    pub right: Conditional,
    pub best: Conditional,
}

impl Search {
    /// None where the words are no search: an unknown stage, too large a
    /// count, a fall that is neither 0 nor 1.
    pub fn of_words(words: &[u64; 20]) -> Option<Search> {
        let [stage, count, fall] = WHOLE.map(|at| words[at]);
        if stage > HALVING || count > LARGEST_COUNT[stage as usize] || fall > 1 {
            return None;
        }
        Some(Search {
            stage,
            count,
            first: f64::from_bits(words[2]),
            latest: point(&words[3..7]),
            fall: fall == 1,
            left: point(&words[8..12]),
            right: point(&words[12..16]),
            best: point(&words[16..20]),
        })
    }

    /// The words, with one and the same for every NaN.
    pub fn words(&self) -> [u64; 20] {
        let mut words = [0; 20];
        words[..3].copy_from_slice(&[self.stage, self.count, word_of(self.first)]);
        words[3..7].copy_from_slice(&point_words(&self.latest));
        words[7] = self.fall as u64;
        words[8..12].copy_from_slice(&point_words(&self.left));
        words[12..16].copy_from_slice(&point_words(&self.right));
        words[16..].copy_from_slice(&point_words(&self.best));
        words
    }

    pub fn request(&self, settings: &Settings) -> Request {
        match self.stage {
            GRID if self.count < 17 => Request::Point(grid_point(settings.eta_bound, self.count)),
            GRID if self.reaches_its_bound() => Request::Refused(RefusedWith(13)),
            GRID => Request::Refused(RefusedWith(14)),
            WARM => Request::Point(settings.warm),
            _ if self.settled(settings) => Request::Mode,
            SECANT => Request::Point(self.secant_point()),
            _ if self.count < 48 => Request::Point(0.5 * (self.left.eta + self.right.eta)),
            _ => Request::Refused(RefusedWith(15)),
        }
    }

    pub fn advance(&mut self, settings: &Settings, at: Conditional) {
        match self.stage {
            GRID if self.count < 17 => self.screen(settings, at),
            WARM => {
                self.try_point(at);
                (self.stage, self.count) = (SECANT, 0);
            }
            SECANT => {
                self.try_point(at);
                self.count += 1;
                if self.count > 15 {
                    (self.stage, self.count) = (HALVING, 0);
                }
            }
            HALVING if self.count < 48 => {
                self.try_point(at);
                self.count += 1;
            }
            _ => {}
        }
    }

    fn screen(&mut self, settings: &Settings, at: Conditional) {
        if self.count == 0 {
            self.first = at.score;
        }
        if self.latest.score <= 0. && at.score > 0. {
            (self.left, self.right) = (self.latest, at);
        }
        if self.latest.score > 0. && at.score <= 0. {
            self.fall = true;
        }
        self.latest = at;
        self.count += 1;
        // A NaN score may hide every cell: then the right end is still the start's, not above 0.
        let has_cell = self.right.score > 0.;
        if self.count == 17 && !self.reaches_its_bound() && !self.fall && has_cell {
            self.enter(settings);
        }
    }

    fn reaches_its_bound(&self) -> bool {
        self.first >= 0. || self.latest.score <= 0.
    }

    fn enter(&mut self, settings: &Settings) {
        let left_is_closer = self.left.score.abs() < self.right.score.abs();
        self.best = if left_is_closer {
            self.left
        } else {
            self.right
        };
        let inside = self.left.eta < settings.warm && settings.warm < self.right.eta;
        self.stage = if inside { WARM } else { SECANT };
        self.count = 0;
    }

    fn try_point(&mut self, at: Conditional) {
        if at.score > 0. {
            self.right = at;
        } else {
            self.left = at;
        }
        if at.score.abs() < self.best.score.abs() {
            self.best = at;
        }
    }

    pub fn settled(&self, settings: &Settings) -> bool {
        self.settled_by_width(settings) || self.settled_by_score(settings)
    }

    pub fn settled_by_width(&self, settings: &Settings) -> bool {
        self.right.eta - self.left.eta <= settings.tolerance
    }

    pub fn settled_by_score(&self, settings: &Settings) -> bool {
        let curvature = 1. / settings.omega + self.best.information;
        self.best.score.abs() / curvature <= settings.tolerance
    }

    fn secant_point(&self) -> f64 {
        let (left, right) = (self.left, self.right);
        let width = right.eta - left.eta;
        let eta = left.eta - left.score * width / (right.score - left.score);
        clamped(eta, left.eta + 0.1 * width, right.eta - 0.1 * width)
    }
}

pub fn grid_point(eta_bound: f64, i: u64) -> f64 {
    -eta_bound + eta_bound * i as f64 / 8.
}

fn point(words: &[u64]) -> Conditional {
    Conditional {
        eta: f64::from_bits(words[0]),
        nll: f64::from_bits(words[1]),
        score: f64::from_bits(words[2]),
        information: f64::from_bits(words[3]),
    }
}

/// The words of an evaluated point, one and the same for every NaN.
pub fn point_words(point: &Conditional) -> [u64; 4] {
    [point.eta, point.nll, point.score, point.information].map(word_of)
}
