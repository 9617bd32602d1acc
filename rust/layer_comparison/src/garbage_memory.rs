//! All that is lent to an exported call, as words between guards, and the calls
//! over it. Nothing here asks whether the words are right: any will do.

use crate::guarded::Guarded;
use curlewstand::ffi::{self, Observation, SessionParameters, SessionSetup, Tally};

/// What is lent, in the order of `NAMES`.
pub const OBSERVATIONS: usize = 0;
pub const COUNTS: usize = 1;
pub const REPLY: usize = 2;
pub const TALLY: usize = 3;
pub const STATE: usize = 4;
pub const ANSWER: usize = 5;
pub const CACHE: usize = 6;
pub const WORK: usize = 7;
pub const WARM: usize = 8;
pub const RESULTS: usize = 9;
pub const SHRINKAGE: usize = 10;
pub const LENT: usize = 11;

pub const NAMES: [&str; LENT] = [
    "observations",
    "counts",
    "reply",
    "tally",
    "state",
    "answer",
    "cache",
    "work",
    "warm",
    "results",
    "shrinkage",
];

/// The words of an observation: output, row, value, additive, proportional.
pub const OBSERVATION_WORDS: usize = 5;
const _: () = assert!(size_of::<Observation>() == 8 * OBSERVATION_WORDS);
/// The words of a tally: the evaluations, in half a word, and the kept rows.
pub const TALLY_WORDS: usize = 2;
const _: () = assert!(size_of::<Tally>() == 8 * TALLY_WORDS);

#[derive(Clone, Copy, Debug, PartialEq, Eq)]
pub enum Call {
    Setup,
    Objective,
    Reply,
    SubjectReply,
    Failure,
    Shrinkage,
}

pub const CALLS: [Call; 6] = [
    Call::Setup,
    Call::Objective,
    Call::Reply,
    Call::SubjectReply,
    Call::Failure,
    Call::Shrinkage,
];

impl Call {
    /// What it may write.
    pub fn writes(self) -> &'static [usize] {
        match self {
            Call::Setup => &[TALLY, STATE, ANSWER, CACHE, WORK, WARM],
            Call::Objective => &[TALLY, STATE, ANSWER, WORK, WARM, RESULTS],
            Call::Reply | Call::SubjectReply => &[TALLY, STATE, ANSWER, CACHE, WORK, WARM, RESULTS],
            Call::Failure => &[TALLY, STATE, ANSWER, WORK],
            Call::Shrinkage => &[SHRINKAGE],
        }
    }
}

#[derive(Clone, Debug)]
pub struct Memory {
    pub setup: SessionSetup,
    pub parameters: SessionParameters,
    pub lent: [Guarded; LENT],
}

impl Memory {
    /// The words of what is lent under this number.
    pub fn words(&self, at: usize) -> &[u64] {
        self.lent[at].words()
    }

    pub fn put(&mut self, at: usize, words: &[u64]) {
        self.lent[at] = Guarded::new(words);
    }

    /// The number of lent subjects.
    pub fn subjects(&self) -> usize {
        self.words(COUNTS).len()
    }

    pub fn observations(&self) -> usize {
        self.words(OBSERVATIONS).len() / OBSERVATION_WORDS
    }

    /// The tally's two numbers. The other half of its first word is nobody's.
    pub fn tally(&self) -> (u32, u64) {
        let words = self.words(TALLY);
        (words[0] as u32, words[1])
    }

    /// Becomes the other, in the memory that it has.
    pub fn copy_from(&mut self, other: &Memory) {
        self.setup = other.setup;
        self.parameters = other.parameters;
        for (own, others) in self.lent.iter_mut().zip(&other.lent) {
            own.copy_from(others);
        }
    }

    /// Makes a call, and gives its number.
    pub fn call(&mut self, call: Call) -> u32 {
        let (setup, parameters) = (self.setup, self.parameters);
        let mut lent = self.lent.each_mut().map(|one| {
            let words = one.lent();
            (words.as_mut_ptr(), words.len())
        });
        let observations = lent[OBSERVATIONS].0.cast::<Observation>();
        let n_observations = lent[OBSERVATIONS].1 / OBSERVATION_WORDS;
        let tally = lent[TALLY].0.cast::<Tally>();
        let [_, counts, reply, _, state, answer, cache, work, warm, results, shrinkage] = &mut lent;
        // each is memory of its own, aligned as words are, of so many words, and a
        // Vec's pointer is never null
        unsafe {
            match call {
                Call::Setup => ffi::curlewstand_setup(
                    setup,
                    observations,
                    n_observations,
                    counts.0,
                    counts.1,
                    tally,
                    state.0,
                    state.1,
                    answer.0,
                    answer.1,
                    cache.0,
                    cache.1,
                    work.0,
                    work.1,
                    warm.0,
                    warm.1,
                    results.0,
                    results.1,
                ),
                Call::Objective => ffi::curlewstand_objective(
                    setup,
                    parameters,
                    observations,
                    n_observations,
                    counts.0,
                    counts.1,
                    tally,
                    state.0,
                    state.1,
                    answer.0,
                    answer.1,
                    cache.0,
                    cache.1,
                    work.0,
                    work.1,
                    warm.0,
                    warm.1,
                    results.0,
                    results.1,
                ),
                Call::Reply | Call::SubjectReply => {
                    let replies = match call {
                        Call::Reply => ffi::curlewstand_reply,
                        _ => ffi::curlewstand_subject_reply,
                    };
                    replies(
                        setup,
                        observations,
                        n_observations,
                        counts.0,
                        counts.1,
                        reply.0,
                        reply.1,
                        tally,
                        state.0,
                        state.1,
                        answer.0,
                        answer.1,
                        cache.0,
                        cache.1,
                        work.0,
                        work.1,
                        warm.0,
                        warm.1,
                        results.0,
                        results.1,
                    )
                }
                Call::Failure => ffi::curlewstand_failure(
                    setup,
                    observations,
                    n_observations,
                    counts.0,
                    counts.1,
                    tally,
                    state.0,
                    state.1,
                    answer.0,
                    answer.1,
                    cache.0,
                    cache.1,
                    work.0,
                    work.1,
                    warm.0,
                    warm.1,
                    results.0,
                    results.1,
                ),
                Call::Shrinkage => ffi::curlewstand_shrinkage(
                    counts.0,
                    counts.1,
                    state.0,
                    state.1,
                    answer.0,
                    answer.1,
                    shrinkage.0.cast::<f64>(),
                ),
            }
        }
    }
}
