//! The parts of a session, each by itself, as `libtest_exports.a` has them: for the
//! comparison with the original and for nothing else. A host needs none of it, and
//! [`curlewstand`] does not link it.
//!
//! - [`mode`] and [`mode_2d`] are the searches for one subject's mode, [`evaluation`]
//!   is a subject's likelihood from a simulator's reply, [`cache`] the kept
//!   evaluations. The functions of this page are their leaves.
//! - [`ffi`] is the C face under all of it.

#![warn(missing_docs)]

pub mod cache;
pub mod evaluation;
pub mod ffi;
pub mod mode;
pub mod mode_2d;

use curlewstand::Reason;
use ffi::*;
use std::error::Error;
use std::fmt;

/// A row's share of the negative log likelihood, its score and its
/// information, one effect: see [`row_terms`].
#[derive(Clone, Copy, Debug, PartialEq)]
pub struct RowTerms {
    /// Of the negative log likelihood.
    pub nll: f64,
    /// Its derivative by eta.
    pub score: f64,
    /// The expected information.
    pub information: f64,
}

/// A subject's sums over its observations. With one effect the second score
/// and all of the information but its first entry are zero.
///
///     use test_exports::{Sums, add_row};
///
///     let mut sums = Sums::default();
///     add_row(3., 1., 0., 1., [2., 1.], &mut sums).unwrap();
///     assert_eq!(sums.score, [-4., -2.]);
#[derive(Clone, Copy, Debug, Default, PartialEq)]
pub struct Sums {
    /// The negative log likelihood.
    pub nll: f64,
    /// Its derivatives by the effects.
    pub score: [f64; 2],
    /// The expected information.
    pub information: [[f64; 2]; 2],
}

/// Why a row or a search was refused, by its number.
///
///     use test_exports::RefusedWith;
///
///     assert_eq!(RefusedWith(14).to_string(), "14: the subject has several modes");
#[derive(Clone, Copy, Debug, PartialEq, Eq)]
pub struct RefusedWith(
    /// Document 01's number, see [`Reason`].
    pub u32,
);

impl fmt::Display for RefusedWith {
    fn fmt(&self, f: &mut fmt::Formatter<'_>) -> fmt::Result {
        write!(
            f,
            "{}: {}",
            self.0,
            Reason::of(self.0).map_or("an unknown refusal", Reason::sentence)
        )
    }
}

impl Error for RefusedWith {}

/// The float of a word. Every pattern is accepted.
///
///     assert_eq!(test_exports::from_word(0x3ff0000000000000), 1.);
pub fn from_word(word: u64) -> f64 {
    unsafe { curlewstand_from_word(word) }
}

/// The word of a float, one and the same for every NaN.
///
///     assert_eq!(test_exports::to_word(-0.), 1 << 63);
///     assert_eq!(test_exports::to_word(-f64::NAN), 0x7ff8000000000000);
pub fn to_word(x: f64) -> u64 {
    unsafe { curlewstand_to_word(x) }
}

/// Whether it is neither a NaN nor infinite.
///
///     assert!(test_exports::is_finite(f64::MAX) && !test_exports::is_finite(f64::NAN));
pub fn is_finite(x: f64) -> bool {
    unsafe { curlewstand_is_finite(x) }
}

/// The absolute value.
///
///     assert_eq!(test_exports::abs(-2.5), 2.5);
pub fn abs(x: f64) -> f64 {
    unsafe { curlewstand_abs(x) }
}

/// The larger of the two; a NaN loses.
///
///     assert_eq!(test_exports::max(f64::NAN, 1.), 1.);
pub fn max(a: f64, b: f64) -> f64 {
    unsafe { curlewstand_max(a, b) }
}

/// `low` where `x` is below it, else `high` where `x` is above it, else `x`.
///
///     assert_eq!(test_exports::clamp(5., -1., 4.), 4.);
pub fn clamp(x: f64, low: f64, high: f64) -> f64 {
    unsafe { curlewstand_clamp(x, low, high) }
}

/// The natural logarithm, musl's. That of 0 is minus infinity, and a NaN below it.
///
///     assert_eq!(test_exports::log(1.), 0.);
pub fn log(x: f64) -> f64 {
    unsafe { curlewstand_log(x) }
}

/// The exponential, musl's; not a number outside -16..16.
///
///     assert_eq!(test_exports::exp(0.), 1.);
///     assert!(test_exports::exp(17.).is_nan());
pub fn exp(x: f64) -> f64 {
    unsafe { curlewstand_exp(x) }
}

/// The determinant.
///
///     assert_eq!(test_exports::determinant([[1., 2.], [3., 4.]]), -2.);
pub fn determinant(matrix: [[f64; 2]; 2]) -> f64 {
    unsafe { curlewstand_determinant(&matrix) }
}

/// Inverse and determinant. None where an entry or the determinant is not finite, a
/// diagonal entry not above 0, or the determinant not above 1e-12 of their product.
///
///     let (inverse, det) = test_exports::inverse_positive([[2., 0.], [0., 4.]]).unwrap();
///     assert_eq!((inverse, det), ([[0.5, 0.], [0., 0.25]], 8.));
///     assert_eq!(test_exports::inverse_positive([[1., 1.], [1., 1.]]), None);
pub fn inverse_positive(matrix: [[f64; 2]; 2]) -> Option<([[f64; 2]; 2], f64)> {
    let mut inverse = [[0.; 2]; 2];
    let mut det = 0.;
    let found = unsafe { curlewstand_inverse_positive(&matrix, &mut inverse, &mut det) };
    found.then_some((inverse, det))
}

/// The matrix times the vector.
///
///     assert_eq!(test_exports::product([[1., 2.], [3., 4.]], [5., 6.]), [17., 39.]);
pub fn product(matrix: [[f64; 2]; 2], vector: [f64; 2]) -> [f64; 2] {
    let mut product = [0.; 2];
    unsafe { curlewstand_product(&matrix, &vector, &mut product) };
    product
}

/// The scalar product.
///
///     assert_eq!(test_exports::dot([1., 2.], [3., 4.]), 11.);
pub fn dot(left: [f64; 2], right: [f64; 2]) -> f64 {
    unsafe { curlewstand_dot(&left, &right) }
}

/// The terms of one row, one effect: of what was measured, the proportional
/// deviation, the prediction with its derivative by eta, and the additive
/// deviation. Refused with 11 or 12.
///
///     use test_exports::{RefusedWith, row_terms};
///
///     let terms = row_terms(3., 0., 1., 2., 1.).unwrap();
///     assert_eq!((terms.score, terms.information), (-4., 4.));
///     // a proportional error alone has no variance at a prediction of 0
///     assert_eq!(row_terms(1., 1., 0., 1., 0.), Err(RefusedWith(11)));
pub fn row_terms(
    value: f64,
    proportional: f64,
    prediction: f64,
    f_eta: f64,
    additive: f64,
) -> Result<RowTerms, RefusedWith> {
    let mut terms = [0.; 3];
    let number = unsafe {
        curlewstand_row_terms(value, proportional, prediction, f_eta, additive, &mut terms)
    };
    let [nll, score, information] = terms;
    match number {
        0 => Ok(RowTerms {
            nll,
            score,
            information,
        }),
        number => Err(RefusedWith(number)),
    }
}

/// Adds one row to a subject's sums, two effects. A row refused with 11 leaves them
/// as they were; whether they are still finite is for the caller to ask.
///
///     use test_exports::{Sums, add_row};
///
///     let mut sums = Sums::default();
///     add_row(3., 1., 0., 1., [2., 1.], &mut sums).unwrap();
///     assert_eq!(sums.information, [[4., 2.], [2., 1.]]);
///     assert!(add_row(1., 0., 1., 0., [1., 1.], &mut sums).is_err());
pub fn add_row(
    value: f64,
    additive: f64,
    proportional: f64,
    prediction: f64,
    f_eta: [f64; 2],
    sums: &mut Sums,
) -> Result<(), RefusedWith> {
    let number = unsafe {
        curlewstand_add_row(
            value,
            additive,
            proportional,
            prediction,
            &f_eta,
            &mut sums.nll,
            &mut sums.score,
            &mut sums.information,
        )
    };
    match number {
        0 => Ok(()),
        number => Err(RefusedWith(number)),
    }
}
