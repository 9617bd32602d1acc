//! What can be read of an objective.

use super::{ANSWER_WORDS, STATE_WORDS, Session};
use crate::ffi;

/// The words of a subject's results: eta, second eta, negative log likelihood.
pub(crate) const ESTIMATE_WORDS: usize = 3;
/// The words of an observation's: its predictions at eta zero and at the mode.
pub(crate) const FITTED_WORDS: usize = 2;

/// The words of all results.
pub(super) fn words(subjects: usize, observations: usize) -> usize {
    ESTIMATE_WORDS * subjects + FITTED_WORDS * observations
}

/// A subject's mode, see [`Session::estimates`].
#[derive(Clone, Copy, Debug, PartialEq)]
pub struct Estimate {
    /// The effects at the mode. With one effect the second is 0.
    pub eta: [f64; 2],
    /// Of the subject's observations there, without the effects' own term, and with half
    /// log 2π for each observation, which the objective has not.
    pub negative_log_likelihood: f64,
}

/// An observation's predictions, see [`Session::fitted`].
#[derive(Clone, Copy, Debug, PartialEq)]
pub struct Fitted {
    /// At eta zero.
    pub population: f64,
    /// At the mode.
    pub individual: f64,
}

impl Session {
    /// The mode of each subject that has one in the objective that was begun last,
    /// in order: of all subjects where it is finished, of none before the first.
    /// [The type's page](Session#what-is-to-be-read-and-when) tells what there is at
    /// other times.
    ///
    ///     # use curlewstand::*;
    ///     # let one = Observation { output: 0, row: 0, value: 1.2, additive: 1., proportional: 0. };
    ///     # let mut session = Session::new(Setup::one_effect(100), &[vec![one]]).unwrap();
    ///     assert_eq!(session.estimates().len(), 0);
    ///     # let simulate = |question: &Question, rows: &mut Rows| {
    ///     #     rows.push(0., Side::Post, &[(question.individual[0], [1.])])
    ///     # };
    ///     session.objective(OneEffect::new(1., 1.), simulate).unwrap();
    ///     let estimate = session.estimates().next().unwrap();
    ///     assert!(0. < estimate.eta[0] && estimate.eta[0] < 1.2f64.ln());
    pub fn estimates(&self) -> impl ExactSizeIterator<Item = Estimate> + '_ {
        self.results
            .chunks_exact(ESTIMATE_WORDS)
            .take(self.passed)
            .map(|words| Estimate {
                eta: [f64::from_bits(words[0]), f64::from_bits(words[1])],
                negative_log_likelihood: f64::from_bits(words[2]),
            })
    }

    /// The predictions of each observation of those subjects, subject after subject.
    ///
    ///     # use curlewstand::*;
    ///     # let one = Observation { output: 0, row: 0, value: 1.2, additive: 1., proportional: 0. };
    ///     # let mut session = Session::new(Setup::one_effect(100), &[vec![one]]).unwrap();
    ///     # let simulate = |question: &Question, rows: &mut Rows| {
    ///     #     rows.push(0., Side::Post, &[(question.individual[0], [1.])])
    ///     # };
    ///     session.objective(OneEffect::new(1., 1.), simulate).unwrap();
    ///     let fitted = session.fitted().next().unwrap();
    ///     assert_eq!(fitted.population, 1.);
    ///     assert!(fitted.individual > 1.);
    pub fn fitted(&self) -> impl ExactSizeIterator<Item = Fitted> + '_ {
        let observations = self.counts[..self.passed].iter().sum::<u64>() as usize;
        self.results[ESTIMATE_WORDS * self.counts.len()..]
            .chunks_exact(FITTED_WORDS)
            .take(observations)
            .map(|words| Fitted {
                population: f64::from_bits(words[0]),
                individual: f64::from_bits(words[1]),
            })
    }

    /// The words of all results as they are lent, those of earlier objectives among
    /// them: the comparison with the original looks at each.
    ///
    ///     # use curlewstand::*;
    ///     # let one = Observation { output: 0, row: 0, value: 1.2, additive: 1., proportional: 0. };
    ///     let session = Session::new(Setup::one_effect(100), &[vec![one, one]]).unwrap();
    ///     assert_eq!(session.result_words(), [0; 3 + 2 * 2]);
    #[doc(hidden)]
    pub fn result_words(&self) -> &[u64] {
        &self.results
    }

    /// With one effect, where the objective that was begun last is finished:
    /// 1 - ((sum of eta²) / n) / omega over n subjects.
    ///
    ///     # use curlewstand::*;
    ///     # let one = Observation { output: 0, row: 0, value: 1.2, additive: 1., proportional: 0. };
    ///     # let mut session = Session::new(Setup::one_effect(100), &[vec![one]]).unwrap();
    ///     assert_eq!(session.shrinkage(), None);
    ///     # let simulate = |question: &Question, rows: &mut Rows| {
    ///     #     rows.push(0., Side::Post, &[(question.individual[0], [1.])])
    ///     # };
    ///     session.objective(OneEffect::new(1., 0.5), simulate).unwrap();
    ///     let eta = session.estimates().next().unwrap().eta[0];
    ///     assert_eq!(session.shrinkage(), Some(1. - eta * eta / 0.5));
    pub fn shrinkage(&self) -> Option<f64> {
        self.shrinkage
    }

    /// The shrinkage as the latest call left it.
    pub(super) fn shrinkage_now(&self) -> Option<f64> {
        let mut shrinkage = 0.;
        let number = unsafe {
            ffi::curlewstand_shrinkage(
                self.counts.as_ptr(),
                self.counts.len(),
                self.state.as_ptr(),
                STATE_WORDS,
                self.answer.as_ptr(),
                ANSWER_WORDS,
                &mut shrinkage,
            )
        };
        (number == 0).then_some(shrinkage)
    }
}
