//! Sessions one after the other, each from a seed of its own, until all are
//! through or one differs.

use crate::counts::Counts;
use crate::draws::draw;
use crate::pair::{self, Alter};
use layer_comparison::random::Random;
use layer_comparison::session_plan::Plan;
use oracle::session::Question;

/// A session on which the two sides part.
pub struct Found {
    pub seed: u64,
    pub plan: Plan,
}

/// Runs so many sessions from the seed on. After each, what was counted so far
/// is told.
pub fn run(
    seed: u64,
    sessions: u64,
    alter: Option<Alter>,
    counts: &mut Counts,
    mut tell: impl FnMut(&Counts),
) -> Result<(), Box<Found>> {
    for number in 0..sessions {
        let seed = seed.wrapping_add(number);
        let plan = draw(&mut Random::new(seed));
        let outcome = pair::run(&plan, alter);
        if outcome.difference.is_some() {
            return Err(Box::new(Found { seed, plan }));
        }
        counts.add(&outcome.counts);
        tell(counts);
    }
    Ok(())
}

/// From a session's second objective on, our side is told another lowest bit
/// of the first row's first value at each point above 0.
pub fn spoil(objective: usize, question: &Question, words: &mut [u64]) {
    if objective > 0 && question.eta[0] > 0. {
        if let Some(word) = words.get_mut(2) {
            *word ^= 1;
        }
    }
}
