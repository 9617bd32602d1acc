//! A subject's evaluation at one point: the individual values to simulate with,
//! and the sums over the observations from the words of the simulator's reply.
//!
//! A reply is whole rows of words: time, side (0 pre, anything else post), the
//! row's `width` values, then `width` derivatives by each individual value.
//!
//!     use test_exports::evaluation::*;
//!     use test_exports::to_word;
//!
//!     // the subject's observation is the second of those lent
//!     let sound = Observation {
//!         output: 0,
//!         row: 0,
//!         value: 3.,
//!         additive: 1.,
//!         proportional: 0.,
//!     };
//!     let observations = [sound; 2];
//!     assert_eq!(check_observations(&observations, 1, &[1, 1]), Ok(()));
//!     let individual = individual_values([2., 0.], [0., 0.], 1).unwrap();
//!     let question = Question {
//!         observations: 1..2,
//!         individual,
//!         additive: None,
//!         width: 1,
//!         effects: 1,
//!         output_budget: 2,
//!         block: 0,
//!     };
//!     // a row at time 0.5 after the dose, which predicts 1 and rises by 1
//!     let reply = [to_word(0.5), 1, to_word(1.), to_word(1.)];
//!     let mut work = [0; 3];
//!     let sums = evaluate(&observations, &question, &reply, &mut work).unwrap();
//!     assert_eq!((sums.score[0], sums.information[0][0]), (-4., 4.));
//!     assert_eq!(work, [to_word(1.), to_word(0.5), 1]);

use crate::cache::CachedTerms;
use crate::ffi::{
    curlewstand_check_observations, curlewstand_evaluate, curlewstand_individual_values,
};
use curlewstand::Reason;
use std::error::Error;
use std::fmt;
use std::ops::Range;

pub use crate::Sums;
pub use crate::ffi::Observation;

/// The words that tell how an evaluation ended.
pub const OUT_WORDS: usize = 8;

/// Which of them tells the observation of a refusal.
pub const REFUSED_AT: usize = 7;

/// What a reply is an answer to, and where its rows go. See [the module](self) for
/// an example.
#[derive(Clone, Debug, PartialEq)]
pub struct Question {
    /// The subject's, among the observations that are lent. Where it begins
    /// after its end it is empty, and beyond the last there is none.
    pub observations: Range<usize>,
    /// The values that were simulated with. With one effect the second is not
    /// looked at.
    pub individual: [f64; 2],
    /// One additive deviation in place of each observation's own. With two
    /// effects it is not looked at.
    pub additive: Option<f64>,
    /// How many outputs a row has.
    pub width: u32,
    /// 1 or 2. Any other number makes rows of its length and counts as 1.
    pub effects: u32,
    /// The most values and derivatives that a reply may have.
    pub output_budget: u32,
    /// The work word at which the rows begin.
    pub block: usize,
}

impl Question {
    /// As the C face has it.
    ///
    ///     # use test_exports::evaluation::Question;
    ///     let question = Question {
    ///         observations: 2..5, individual: [1., 0.], additive: Some(0.5), width: 1,
    ///         effects: 1, output_budget: 6, block: 0,
    ///     };
    ///     let lent = question.lent();
    ///     assert_eq!((lent.from, lent.to, lent.has_additive), (2, 5, true));
    pub fn lent(&self) -> crate::ffi::Question {
        crate::ffi::Question {
            from: self.observations.start,
            to: self.observations.end,
            individual: self.individual[0],
            individual_2: self.individual[1],
            has_additive: self.additive.is_some(),
            additive: self.additive.unwrap_or(0.),
            width: self.width,
            effects: self.effects,
            output_budget: self.output_budget,
            block: self.block,
        }
    }
}

/// Why there are no individual values, or no sums.
///
///     use test_exports::evaluation::RefusedEvaluation;
///
///     let refusal = RefusedEvaluation { number: 10, observation: Some(2) };
///     assert_eq!(refusal.to_string(), "10, observation 2: the reply lacks the observation's row");
#[derive(Clone, Copy, Debug, PartialEq, Eq)]
pub struct RefusedEvaluation {
    /// 7 to 12.
    pub number: u32,
    /// For 10, 11 and a row's 12, which of the subject's observations it is.
    pub observation: Option<usize>,
}

impl fmt::Display for RefusedEvaluation {
    fn fmt(&self, f: &mut fmt::Formatter<'_>) -> fmt::Result {
        write!(f, "{}", self.number)?;
        if let Some(observation) = self.observation {
            write!(f, ", observation {observation}")?;
        }
        write!(
            f,
            ": {}",
            Reason::of(self.number).map_or("an unknown refusal", Reason::sentence)
        )
    }
}

impl Error for RefusedEvaluation {}

/// Where an observation stands, see [`check_observations`].
#[derive(Clone, Copy, Debug, PartialEq, Eq)]
pub struct Place {
    /// The number of its subject.
    pub subject: usize,
    /// Its number within its subject.
    pub observation: usize,
}

/// The values theta·exp(eta) that the simulator is run with, with one effect a
/// zero for the second; or 7 where one of them is not finite and above 0.
///
///     use test_exports::evaluation::individual_values;
///
///     assert_eq!(individual_values([2., 3.], [0., 0.], 2), Ok([2., 3.]));
///     assert_eq!(individual_values([-2., 0.], [0., 0.], 1).unwrap_err().number, 7);
pub fn individual_values(
    theta: [f64; 2],
    eta: [f64; 2],
    effects: u32,
) -> Result<[f64; 2], RefusedEvaluation> {
    let mut individual = [0.; 2];
    match unsafe { curlewstand_individual_values(&theta, &eta, effects, &mut individual) } {
        0 => Ok(individual),
        number => Err(RefusedEvaluation {
            number,
            observation: None,
        }),
    }
}

/// Whether every observation has an output below `width`, a finite value, and
/// deviations that are finite, not below 0 and not both 0; or the place of the
/// first that has not. `counts` are the subjects' numbers of observations.
///
///     use test_exports::evaluation::{Observation, Place, check_observations};
///
///     let sound = Observation { output: 0, row: 0, value: 3., additive: 1., proportional: 0. };
///     let unsound = Observation { additive: 0., ..sound };
///     let place = Place { subject: 1, observation: 0 };
///     assert_eq!(check_observations(&[sound, sound, unsound], 1, &[2, 1]), Err(place));
pub fn check_observations(
    observations: &[Observation],
    width: u32,
    counts: &[u64],
) -> Result<(), Place> {
    let mut place = [0; 2];
    let number = unsafe {
        curlewstand_check_observations(
            observations.as_ptr(),
            observations.len(),
            width,
            counts.as_ptr(),
            counts.len(),
            place.as_mut_ptr(),
            place.len(),
        )
    };
    let [subject, observation] = place.map(|word| word as usize);
    match number {
        0 => Ok(()),
        _ => Err(Place {
            subject,
            observation,
        }),
    }
}

/// A subject's sums, without the prior. To `work`, from word `block` on, go
/// prediction, time and side (0 pre, 1 post) of each observation whose row is
/// present, up to a refusal at it; nothing beyond the end.
///
///     use test_exports::evaluation::{Observation, Question, evaluate};
///
///     let observation = Observation { output: 0, row: 0, value: 3., additive: 1., proportional: 0. };
///     let question = Question {
///         observations: 0..1, individual: [1., 0.], additive: None, width: 1,
///         effects: 1, output_budget: 2, block: 0,
///     };
///     // no row at all
///     let refusal = evaluate(&[observation], &question, &[], &mut []).unwrap_err();
///     assert_eq!((refusal.number, refusal.observation), (10, Some(0)));
pub fn evaluate(
    observations: &[Observation],
    question: &Question,
    reply: &[u64],
    work: &mut [u64],
) -> Result<Sums, RefusedEvaluation> {
    let mut out = [0; OUT_WORDS];
    let number = unsafe {
        curlewstand_evaluate(
            observations.as_ptr(),
            observations.len(),
            question.lent(),
            reply.as_ptr(),
            reply.len(),
            work.as_mut_ptr(),
            work.len(),
            out.as_mut_ptr(),
            out.len(),
        )
    };
    if number != 0 {
        return Err(RefusedEvaluation {
            number,
            observation: out[REFUSED_AT].checked_sub(1).map(|n| n as usize),
        });
    }
    let sums = std::array::from_fn(|at| out[at]);
    Ok(CachedTerms::of_words(&sums).into())
}
