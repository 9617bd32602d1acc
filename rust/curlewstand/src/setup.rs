//! What a session is given: its setup, and the parameters of each objective.

use crate::ffi;

/// How many random effects there are, and what is given of them for the whole session.
///
///     use curlewstand::Effects;
///
///     assert_eq!(Effects::One { gradient_tolerance: 1e-4 }.count(), 1);
///     assert_eq!(Effects::Two { omega: [[0.09, 0.], [0., 0.04]] }.count(), 2);
#[derive(Clone, Copy, Debug, PartialEq)]
pub enum Effects {
    /// One effect. Its variance is a parameter of each objective: [`OneEffect::omega`].
    One {
        /// The outer fit's, finite and above 0. A mode is found to a ten thousandth of
        /// it, but no finer than 1e-12 and no coarser than 1e-8.
        gradient_tolerance: f64,
    },
    /// Two effects. Their search has tolerances of its own.
    Two {
        /// Their matrix, for all objectives: symmetric and with an inverse, its diagonal
        /// entries from 2^-20 to 2^20.
        omega: [[f64; 2]; 2],
    },
}

impl Effects {
    /// 1 or 2.
    ///
    ///     # use curlewstand::Effects;
    ///     assert_eq!(Effects::One { gradient_tolerance: 1e-4 }.count(), 1);
    pub fn count(&self) -> u32 {
        match self {
            Effects::One { .. } => 1,
            Effects::Two { .. } => 2,
        }
    }

    /// The most evaluations that one subject's search asks for within one objective,
    /// kept ones included. With one effect: 17 on the grid, the warm start, 16 secant
    /// steps and 48 halvings. With two: the point zero, and from each of six starts the
    /// start and 48 rounds of 22 trials. The number is the proved library's own.
    ///
    ///     # use curlewstand::Effects;
    ///     let one = Effects::One { gradient_tolerance: 1e-4 };
    ///     let two = Effects::Two { omega: [[1., 0.], [0., 1.]] };
    ///     assert_eq!(one.ceiling(), 17 + 1 + 16 + 48);
    ///     assert_eq!(two.ceiling(), 1 + 6 * (1 + 48 * 22));
    ///     assert_eq!((one.ceiling(), two.ceiling()), (82, 6_343));
    pub fn ceiling(&self) -> u32 {
        ffi::curlewstand_ceiling(self.count())
    }
}

/// What a session is given for all its objectives.
///
///     use curlewstand::Setup;
///
///     // two outputs to a row, and the rest as `one_effect` has it
///     let setup = Setup { width: 2, ..Setup::one_effect(50_000) };
///     assert_eq!((setup.eta_bound, setup.kept_rows), (4., 10_000));
#[derive(Clone, Copy, Debug, PartialEq)]
pub struct Setup {
    /// One effect or two.
    pub effects: Effects,
    /// The largest absolute eta, 2^-10 to 16.
    pub eta_bound: f64,
    /// How many outputs a row of a reply has, 1 to 64.
    pub width: u32,
    /// The most rows of evaluations that are kept, 1 to 100,000.
    pub kept_rows: usize,
    /// The most values and derivatives of a reply.
    pub output_budget: u32,
    /// The most evaluations that are taken, over all objectives and over every
    /// [`restart`](crate::Session::restart).
    pub max_evaluations: u32,
}

impl Setup {
    /// One effect, with common settings: eta within -4..4, gradient tolerance 1e-4, one
    /// output to a row, 10,000 kept rows, replies of any length.
    ///
    ///     # use curlewstand::Setup;
    ///     let setup = Setup::one_effect(50_000);
    ///     assert_eq!((setup.width, setup.max_evaluations), (1, 50_000));
    pub fn one_effect(max_evaluations: u32) -> Self {
        Setup {
            effects: Effects::One {
                gradient_tolerance: 1e-4,
            },
            eta_bound: 4.,
            width: 1,
            kept_rows: 10_000,
            output_budget: u32::MAX,
            max_evaluations,
        }
    }

    /// Two effects, with the same bound, width, kept rows and output budget.
    ///
    ///     # use curlewstand::Setup;
    ///     let setup = Setup::two_effects([[0.09, 0.], [0., 0.04]], 50_000);
    ///     assert_eq!((setup.effects.count(), setup.eta_bound), (2, 4.));
    pub fn two_effects(omega: [[f64; 2]; 2], max_evaluations: u32) -> Self {
        Setup {
            effects: Effects::Two { omega },
            ..Setup::one_effect(max_evaluations)
        }
    }

    /// The evaluations to book for one objective of so many subjects: no more are asked
    /// for, and so no more are taken. To be known before there is any data.
    ///
    ///     # use curlewstand::Setup;
    ///     assert_eq!(Setup::one_effect(50_000).booked(24), 24 * 82);
    pub fn booked(&self, subjects: usize) -> u64 {
        u64::from(self.effects.ceiling()).saturating_mul(subjects as u64)
    }

    /// The setup as the C interface has it. What is only tested there, and never used,
    /// is set to what passes: with one effect omega, which is each objective's own; with
    /// two the gradient tolerance; and the override.
    pub(crate) fn lent(&self) -> ffi::SessionSetup {
        let (omega, gradient_tolerance) = match self.effects {
            Effects::One { gradient_tolerance } => ([[1., 0.], [0., 0.]], gradient_tolerance),
            Effects::Two { omega } => (omega, 1.),
        };
        ffi::SessionSetup {
            effects: self.effects.count(),
            omega_00: omega[0][0],
            omega_01: omega[0][1],
            omega_10: omega[1][0],
            omega_11: omega[1][1],
            eta_bound: self.eta_bound,
            gradient_tolerance,
            width: self.width,
            k: self.kept_rows,
            has_additive: false,
            additive: 0.,
            output_budget: self.output_budget,
            max_evaluations: self.max_evaluations,
        }
    }
}

/// The parameters of an objective with one effect.
///
///     use curlewstand::OneEffect;
///
///     // a trial of the outer fit: typical value 3, variance 0.1, deviation 0.2
///     let trial = OneEffect { additive: Some(0.2), ..OneEffect::new(3., 0.1) };
///     assert_eq!(trial.theta, 3.);
#[derive(Clone, Copy, Debug, PartialEq)]
pub struct OneEffect {
    /// The typical value: the individual one is theta · exp(eta).
    pub theta: f64,
    /// The variance of eta, 2^-20 to 2^20.
    pub omega: f64,
    /// One additive deviation in place of each observation's own.
    pub additive: Option<f64>,
}

impl OneEffect {
    /// With each observation's own additive deviation.
    ///
    ///     # use curlewstand::OneEffect;
    ///     assert_eq!(OneEffect::new(3., 0.1).additive, None);
    pub fn new(theta: f64, omega: f64) -> Self {
        OneEffect {
            theta,
            omega,
            additive: None,
        }
    }
}

/// The parameters of an objective with two effects, whose omega is the [`Setup`]'s.
///
///     use curlewstand::TwoEffects;
///
///     let trial = TwoEffects { theta: [3., 30.] };
///     assert_eq!(trial.theta[1], 30.);
#[derive(Clone, Copy, Debug, PartialEq)]
pub struct TwoEffects {
    /// The typical values.
    pub theta: [f64; 2],
}

/// What may change with each objective: [`OneEffect`] or [`TwoEffects`], as the session
/// has. Those of the other kind are refused with 1.
///
///     use curlewstand::{OneEffect, Parameters, TwoEffects};
///
///     assert_eq!(Parameters::from(OneEffect::new(3., 0.1)).effects(), 1);
///     assert_eq!(Parameters::from(TwoEffects { theta: [3., 30.] }).effects(), 2);
#[derive(Clone, Copy, Debug, PartialEq)]
pub enum Parameters {
    /// Of one effect.
    One(OneEffect),
    /// Of two.
    Two(TwoEffects),
}

impl From<OneEffect> for Parameters {
    fn from(parameters: OneEffect) -> Self {
        Parameters::One(parameters)
    }
}

impl From<TwoEffects> for Parameters {
    fn from(parameters: TwoEffects) -> Self {
        Parameters::Two(parameters)
    }
}

impl Parameters {
    /// 1 or 2.
    ///
    ///     # use curlewstand::{OneEffect, Parameters};
    ///     assert_eq!(Parameters::One(OneEffect::new(3., 0.1)).effects(), 1);
    pub fn effects(&self) -> u32 {
        match self {
            Parameters::One(_) => 1,
            Parameters::Two(_) => 2,
        }
    }

    /// The typical values; of one effect the second is 0.
    pub(crate) fn theta(&self) -> [f64; 2] {
        match *self {
            Parameters::One(OneEffect { theta, .. }) => [theta, 0.],
            Parameters::Two(TwoEffects { theta }) => theta,
        }
    }

    /// The parameters as the C interface has them, with an omega of two effects that is
    /// not looked at.
    pub(crate) fn lent(&self) -> ffi::SessionParameters {
        let [theta, theta_2] = self.theta();
        let (omega, additive) = match *self {
            Parameters::One(OneEffect {
                omega, additive, ..
            }) => (omega, additive),
            Parameters::Two(_) => (1., None),
        };
        ffi::SessionParameters {
            theta,
            theta_2,
            omega,
            has_additive: additive.is_some(),
            additive: additive.unwrap_or(0.),
        }
    }
}
