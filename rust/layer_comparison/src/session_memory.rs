//! What a session's calls do to the tally and to the lent words, as document 01
//! has it. Of work and kept words it says only when they are zero.

use crate::compare::word_of;
use crate::session_words::{Expected, Lengths, ANSWER, CACHE_IS_ZERO, CHANGED, WORK_IS_ZERO};
use oracle::session::Mode;
use std::collections::VecDeque;

/// What stands everywhere before the first setup.
const AT_FIRST: u64 = 7777777777777777;

/// The words that the program has to lend.
pub const ROOM: Lengths = Lengths {
    cache: 24 * 128,
    work: 12 * 128,
    warm: 64,
    results: 512,
};

/// What is known of a word that document 01 says little of.
#[derive(Clone, Copy, Debug, PartialEq, Eq)]
enum Known {
    Zero,
    NotZero,
    Nothing,
}

#[derive(Clone, Debug)]
pub struct Memory {
    pub warm: Vec<u64>,
    pub results: Vec<u64>,
    work: Vec<Known>,
    cache: Vec<Known>,
    pub calls: usize,
    pub cached_rows: usize,
    /// The rows of each evaluation that is kept, the oldest first.
    kept: VecDeque<usize>,
    kept_any: bool,
}

impl Memory {
    pub fn at_first() -> Self {
        Memory {
            warm: vec![AT_FIRST; ROOM.warm],
            results: vec![AT_FIRST; ROOM.results],
            work: vec![Known::NotZero; ROOM.work],
            cache: vec![Known::NotZero; ROOM.cache],
            calls: 77,
            cached_rows: 7,
            kept: VecDeque::new(),
            kept_any: false,
        }
    }

    pub fn tally(&self) -> [u64; 2] {
        [self.calls as u64, self.cached_rows as u64]
    }

    /// An accepted setup.
    pub fn open(&mut self, lengths: Lengths) {
        self.warm[..lengths.warm].fill(0);
        self.work[..lengths.work].fill(Known::Zero);
        self.cache[..lengths.cache].fill(Known::Zero);
        (self.calls, self.cached_rows) = (0, 0);
        self.kept.clear();
        self.kept_any = false;
    }

    /// A question is asked.
    pub fn ask(&mut self, lengths: Lengths) {
        self.calls += 1;
        self.work[..lengths.work].fill(Known::Nothing);
    }

    /// An evaluation of so many rows is kept, or not where they are more than
    /// K. Gives how many had to go.
    pub fn keep(&mut self, rows: usize, k: usize, lengths: Lengths) -> usize {
        if rows > k {
            return 0;
        }
        let mut gone = 0;
        while self.cached_rows + rows > k {
            self.cached_rows -= self.kept.pop_front().expect("every row has its entry");
            gone += 1;
        }
        self.kept.push_back(rows);
        self.cached_rows += rows;
        if !self.kept_any {
            self.cache[..lengths.cache].fill(Known::Nothing);
            self.kept_any = true;
        }
        gone
    }

    pub fn store_warm(&mut self, effects: usize, subject: usize, eta: [f64; 2]) {
        for (axis, eta) in eta.into_iter().take(effects).enumerate() {
            self.warm[effects * subject + axis] = eta.to_bits();
        }
    }

    /// The results of a subject that is past 17.
    pub fn store_results(&mut self, subjects: usize, subject: usize, first: usize, mode: &Mode) {
        let [eta, other] = mode.best.eta;
        let estimate = [eta, other, mode.best.nll].map(f64::to_bits);
        self.results[3 * subject..3 * subject + 3].copy_from_slice(&estimate);
        let rows = mode.population_rows.iter().zip(&mode.best.rows);
        for (number, (pred, ipred)) in rows.enumerate() {
            let at = 3 * subjects + 2 * (first + number);
            self.results[at] = pred.prediction.to_bits();
            self.results[at + 1] = ipred.prediction.to_bits();
        }
    }

    /// The objective is over.
    pub fn end(&mut self, lengths: Lengths) {
        self.work[..lengths.work].fill(Known::Zero);
    }

    /// The answer of a call that was served: an accepted setup, a question, an
    /// end. What of work and kept words it changed is not said.
    pub fn served(&self, words: [u64; 5], lengths: Lengths) -> Expected {
        let mut expected = self.answer(words, lengths, self.tally());
        let over = words[0] != 0;
        if over {
            expected.words[ANSWER - 1] |= WORK_IS_ZERO;
            expected.said |= WORK_IS_ZERO;
        }
        if !self.kept_any {
            expected.words[ANSWER - 1] |= CACHE_IS_ZERO;
            expected.said |= CACHE_IS_ZERO;
        }
        expected
    }

    /// The answer of a call that altered nothing.
    pub fn unaltered(&self, words: [u64; 5], lengths: Lengths, tally: [u64; 2]) -> Expected {
        let mut expected = self.answer(words, lengths, tally);
        expected.said |= CHANGED;
        let parts = [
            (&self.work[..lengths.work], WORK_IS_ZERO),
            (&self.cache[..lengths.cache], CACHE_IS_ZERO),
        ];
        for (known, bit) in parts {
            let is_zero = known.iter().all(|one| *one == Known::Zero);
            if is_zero {
                expected.words[ANSWER - 1] |= bit;
            }
            if is_zero || known.contains(&Known::NotZero) {
                expected.said |= bit;
            }
        }
        expected
    }

    fn answer(&self, told: [u64; 5], lengths: Lengths, tally: [u64; 2]) -> Expected {
        let mut words = [0; ANSWER];
        words[..5].copy_from_slice(&told);
        words[5..7].copy_from_slice(&tally);
        words[7] = digest(&self.warm[..lengths.warm]);
        words[8] = digest(&self.results[..lengths.results]);
        Expected { words, said: 0 }
    }
}

/// Of words, where any NaN counts as any other.
pub fn digest(words: &[u64]) -> u64 {
    let word = |word: &u64| word_of(f64::from_bits(*word));
    words
        .iter()
        .map(word)
        .fold(14695981039346656037, |h, word| {
            u64::wrapping_mul(u64::wrapping_add(h, word), 1099511628211)
        })
}
