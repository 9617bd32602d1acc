//! Curlewstand for Rust: the proved core of FOCEI population fits, safe to use.
//!
//! A [`Session`] owns all its memory, asks the host's simulator for evaluations, and gives
//! the population objective, each subject's mode, the fitted rows and the shrinkage. The
//! work is done by a static library, `libcurlewstand.a`, that is proved to return on every
//! input and to compute what its definitions say.
//!
//!     use curlewstand::*;
//!
//!     // three subjects, each measured twice; the model predicts the individual value
//!     // and its double
//!     let measured = |row, value| Observation { output: 0, row, value, additive: 0.5, proportional: 0. };
//!     let cohort = [(1.1, 2.4), (0.8, 1.5), (1.9, 3.7)]
//!         .map(|(first, second)| vec![measured(0, first), measured(1, second)]);
//!     let setup = Setup::one_effect(1000);
//!
//!     // how much simulator time to book is known before the data are looked at
//!     assert_eq!(setup.booked(3), 246);
//!
//!     let mut session = Session::new(setup, &cohort)?;
//!     let objective = session.objective(OneEffect::new(1., 0.2), |question, rows| {
//!         let value = question.individual[0];
//!         rows.push(0., Side::Post, &[(value, [1.])])?;
//!         rows.push(1., Side::Post, &[(2. * value, [2.])])
//!     })?;
//!     assert!(objective.is_finite() && session.ledger().taken() <= 246);
//!     assert_eq!(session.estimates().len(), 3);
//!     # Ok::<(), Box<dyn std::error::Error>>(())
//!
//! # What to know first
//!
//! - **A session is for one model.** What it keeps of the simulator's replies is found
//!   again by subject, theta, eta and override. A fit that moves anything else, as a rate
//!   constant without an effect, calls [`Session::restart`] before the next objective;
//!   else it gets evaluations of the old model, and ends in the wrong place.
//! - **Derivatives are by the individual value**, theta · exp(eta), and not by eta.
//!   [`Session::check_derivatives`] compares them with differences.
//! - **The objective** is -2 log likelihood without n·log 2π, as NONMEM's OFV;
//!   [`Estimate::negative_log_likelihood`] has half log 2π for each observation.
//! - **Evaluations asked and taken.** A subject's search *asks* for at most 82 evaluations
//!   with one effect and 6,343 with two, whatever the data and the replies are; so many are
//!   *booked*. Those that are kept are not *taken* again: the tally and the [`Ledger`]
//!   count what was taken.
//! - **Every call returns.** What cannot be done is refused, with a [`Refusal`] that has
//!   document 01's number, a place and a sentence.

#![warn(missing_docs)]

mod derivatives;
#[doc(hidden)]
pub mod ffi;
#[cfg(test)]
mod header;
mod ledger;
mod progress;
mod records;
mod refusal;
mod rows;
mod session;
mod setup;

pub use derivatives::{WrongDerivative, WrongDerivatives};
pub use ffi::{Observation, Tally};
pub use ledger::{End, Entry, Ledger, grouped};
pub use progress::Progress;
pub use records::{FittedRecord, RecordsFit, fit_records, fit_records_text};
pub use refusal::{Place, Reason, Refusal};
pub use rows::{Rows, Shape, Side, WrongRow};
pub use session::{Estimate, Fitted, NotSet, Question, Session, Step, Unfinished};
pub use setup::{Effects, OneEffect, Parameters, Setup, TwoEffects};

/// The repository's README, so that its Rust is compiled and run with the other
/// examples.
#[cfg(doctest)]
#[doc = include_str!("../../../README.md")]
pub struct Readme;
