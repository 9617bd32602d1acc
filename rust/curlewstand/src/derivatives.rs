//! The simulator's derivatives, compared with differences of its own values.

use crate::{Parameters, Question, Rows, Session};
use std::error::Error;
use std::fmt;

/// How far an individual value is moved, as a part of it: near enough for the difference
/// to be the derivative, and far enough for a solver's own error not to matter.
const STEP: f64 = 1e-3;
/// How far a derivative may be from the difference, as a part of the larger.
const NEAR: f64 = 1e-2;
/// What of the prediction's own size a solver's error may come to in a difference.
const NOISE: f64 = 1e-3;

/// What [`Session::check_derivatives`] found wrong.
///
///     use curlewstand::WrongDerivatives;
///
///     let failed = WrongDerivatives::Simulator("step size too small");
///     assert_eq!(failed.to_string(), "the simulator failed: step size too small");
#[derive(Clone, Copy, Debug, PartialEq)]
pub enum WrongDerivatives<E> {
    /// The simulator failed.
    Simulator(E),
    /// The parameters are of another number of effects than the session.
    Effects,
    /// The number of rows, a time or a side moves with the individual values.
    RowsMoved {
        /// Where that was found.
        question: Question,
    },
    /// A derivative is not near the difference.
    Derivative(WrongDerivative),
}

/// A derivative that is not near the central difference of the values.
///
///     use curlewstand::*;
///
///     let question = Question { subject: 3, eta: [0.5, 0.], individual: [2., 0.] };
///     let wrong = WrongDerivative { question, row: 4, output: 0, effect: 0, given: 6., difference: 3. };
///     assert!(wrong.is_by_eta());
///     assert_eq!(
///         wrong.to_string(),
///         "subject 3, row 4, output 0: the derivative by individual value 0 is 6, \
///          and the difference of the values is 3, at 2; it is the derivative by eta: \
///          divide it by the individual value"
///     );
#[derive(Clone, Copy, Debug, PartialEq)]
pub struct WrongDerivative {
    /// What the simulator was asked.
    pub question: Question,
    /// The row of its reply, counted from 0.
    pub row: usize,
    /// The output of the row, counted from 0.
    pub output: usize,
    /// The individual value by which the derivative is, counted from 0.
    pub effect: usize,
    /// What the simulator gave.
    pub given: f64,
    /// The central difference.
    pub difference: f64,
}

impl WrongDerivative {
    /// Whether it is near the derivative by eta, which is the one by the individual
    /// value times that value.
    ///
    ///     # use curlewstand::*;
    ///     # let question = Question { subject: 3, eta: [0.5, 0.], individual: [2., 0.] };
    ///     # let wrong = WrongDerivative { question, row: 4, output: 0, effect: 0, given: 6., difference: 3. };
    ///     assert!(wrong.is_by_eta());
    pub fn is_by_eta(&self) -> bool {
        let by_eta = self.difference * self.question.individual[self.effect];
        is_near(self.given, by_eta, 0.)
    }
}

impl fmt::Display for WrongDerivative {
    fn fmt(&self, f: &mut fmt::Formatter<'_>) -> fmt::Result {
        let WrongDerivative {
            question,
            row,
            output,
            effect,
            given,
            difference,
        } = self;
        let (subject, at) = (question.subject, question.individual[*effect]);
        write!(
            f,
            "subject {subject}, row {row}, output {output}: the derivative by individual value \
             {effect} is {given}, and the difference of the values is {difference}, at {at}"
        )?;
        if self.is_by_eta() {
            f.write_str("; it is the derivative by eta: divide it by the individual value")?;
        }
        Ok(())
    }
}

impl Error for WrongDerivative {}

impl<E: fmt::Display> fmt::Display for WrongDerivatives<E> {
    fn fmt(&self, f: &mut fmt::Formatter<'_>) -> fmt::Result {
        match self {
            WrongDerivatives::Simulator(error) => write!(f, "the simulator failed: {error}"),
            WrongDerivatives::Effects => {
                f.write_str("the parameters are of another number of effects than the session")
            }
            WrongDerivatives::RowsMoved { question } => write!(
                f,
                "subject {}: the number of rows, their times or sides move with the individual values",
                question.subject
            ),
            WrongDerivatives::Derivative(wrong) => wrong.fmt(f),
        }
    }
}

impl<E: fmt::Debug + fmt::Display> Error for WrongDerivatives<E> {}

fn is_near(given: f64, expected: f64, noise: f64) -> bool {
    (given - expected).abs() <= NEAR * given.abs().max(expected.abs()) + noise
}

impl Session {
    /// Compares the simulator's derivatives with central differences of its values, for
    /// each subject at three points about eta zero, before a fit is begun: a derivative by
    /// eta in place of the individual value, say, is a number like any other to the core,
    /// and leads to other modes. The core is not called, and nothing is counted; the
    /// simulator runs 9 times for each subject with one effect, and 15 with two.
    ///
    ///     # use curlewstand::*;
    ///     # let one = Observation { output: 0, row: 0, value: 1.2, additive: 1., proportional: 0. };
    ///     # let session = Session::new(Setup::one_effect(100), &[vec![one]]).unwrap();
    ///     let parameters = OneEffect::new(3., 0.1);
    ///     let right = session.check_derivatives(parameters, |question, rows| {
    ///         let x = question.individual[0];
    ///         rows.push(0., Side::Post, &[(x * x, [2. * x])])
    ///     });
    ///     assert_eq!(right, Ok(()));
    ///     let wrong = session.check_derivatives(parameters, |question, rows| {
    ///         let x = question.individual[0];
    ///         rows.push(0., Side::Post, &[(x * x, [2. * x * x])])
    ///     });
    ///     let Err(WrongDerivatives::Derivative(wrong)) = wrong else { panic!() };
    ///     assert!((wrong.row, wrong.output) == (0, 0) && wrong.is_by_eta());
    pub fn check_derivatives<E>(
        &self,
        parameters: impl Into<Parameters>,
        mut simulate: impl FnMut(&Question, &mut Rows) -> Result<(), E>,
    ) -> Result<(), WrongDerivatives<E>> {
        let parameters = parameters.into();
        let effects = self.shape().effects;
        if parameters.effects() as usize != effects {
            return Err(WrongDerivatives::Effects);
        }
        let mut simulated = |question: &Question| {
            let mut rows = self.rows();
            simulate(question, &mut rows).map(|()| rows)
        };
        for subject in 0..self.subjects() {
            for [first, second] in [[0., 0.], [0.5, -0.5], [-0.5, 0.5]] {
                let eta = [first, if effects == 1 { 0. } else { second }];
                let theta = parameters.theta();
                let question = Question {
                    subject,
                    eta,
                    individual: [0, 1].map(|effect| theta[effect] * f64::exp(eta[effect])),
                };
                check_at(&question, effects, &mut simulated)?;
            }
        }
        Ok(())
    }
}

/// The derivatives of one reply.
fn check_at<E>(
    question: &Question,
    effects: usize,
    simulated: &mut impl FnMut(&Question) -> Result<Rows, E>,
) -> Result<(), WrongDerivatives<E>> {
    let rows = simulated(question).map_err(WrongDerivatives::Simulator)?;
    for effect in 0..effects {
        let mut moved = |factor: f64| {
            let mut aside = *question;
            aside.individual[effect] *= factor;
            aside.eta[effect] += factor.ln();
            let rows = simulated(&aside).map_err(WrongDerivatives::Simulator)?;
            Ok((aside.individual[effect], rows))
        };
        let (below, above) = (moved(1. - STEP)?, moved(1. + STEP)?);
        if !is_same_grid(&rows, &below.1) || !is_same_grid(&rows, &above.1) {
            let question = *question;
            return Err(WrongDerivatives::RowsMoved { question });
        }
        check_effect(question, &rows, effect, &below, &above)
            .map_err(WrongDerivatives::Derivative)?;
    }
    Ok(())
}

fn is_same_grid(one: &Rows, other: &Rows) -> bool {
    one.len() == other.len() && (0..one.len()).all(|row| one.row(row) == other.row(row))
}

/// Holds each row's derivatives by one individual value to the difference of the values
/// below and above.
fn check_effect(
    question: &Question,
    rows: &Rows,
    effect: usize,
    (x_below, below): &(f64, Rows),
    (x_above, above): &(f64, Rows),
) -> Result<(), WrongDerivative> {
    let width = rows.shape().width;
    for (row, output) in (0..rows.len()).flat_map(|row| (0..width).map(move |o| (row, o))) {
        let given = rows.derivative(row, output, effect);
        let rise = above.value(row, output) - below.value(row, output);
        let difference = rise / (x_above - x_below);
        let size = (rows.value(row, output) / question.individual[effect]).abs();
        if !is_near(given, difference, NOISE * size) {
            return Err(WrongDerivative {
                question: *question,
                row,
                output,
                effect,
                given,
                difference,
            });
        }
    }
    Ok(())
}
