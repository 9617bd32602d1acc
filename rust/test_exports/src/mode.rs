//! The search for one subject's mode with one effect, as a machine: it asks
//! for a point, is told what stands there, and asks again until it has a mode
//! or refuses. The evaluations are the caller's.
//!
//!     use test_exports::mode::*;
//!
//!     let settings = Settings {
//!         eta_bound: 4.,
//!         omega: 0.5,
//!         tolerance: eta_tolerance(1e-4),
//!         warm: 0.,
//!     };
//!     let mut search = Search::start();
//!     let mode = loop {
//!         match search.request(&settings) {
//!             // here the negative log likelihood is (eta - 1)²
//!             Request::Point(eta) => search.advance(
//!                 &settings,
//!                 &Conditional {
//!                     eta,
//!                     nll: (eta - 1.) * (eta - 1.),
//!                     score: 2. * (eta - 1.) + eta / settings.omega,
//!                     information: 2.,
//!                 },
//!             ),
//!             Request::Mode => break search.best(),
//!             Request::Refused(refusal) => panic!("{refusal:?}"),
//!         }
//!     };
//!     assert_eq!(mode.eta, 0.5);

use crate::RefusedWith;
use crate::ffi::*;

/// What a search is given, the same at each of its steps. See [the module](self)
/// for an example.
#[derive(Clone, Copy, Debug, PartialEq)]
pub struct Settings {
    /// The largest absolute eta.
    pub eta_bound: f64,
    /// The effect's variance.
    pub omega: f64,
    /// How near a mode must be, in eta: `eta_tolerance`.
    pub tolerance: f64,
    /// Where to start: the subject's mode in the last objective, zero at first.
    pub warm: f64,
}

/// An evaluated point. The prior's eta / omega is added to the score.
#[derive(Clone, Copy, Debug, PartialEq)]
pub struct Conditional {
    /// The effect.
    pub eta: f64,
    /// The negative log likelihood there.
    pub nll: f64,
    /// Its derivative by eta.
    pub score: f64,
    /// The expected information.
    pub information: f64,
}

/// What a search wants next, see [`Search::request`].
#[derive(Clone, Copy, Debug, PartialEq)]
pub enum Request {
    /// The point to evaluate.
    Point(f64),
    /// The search is done, its best point is the mode.
    Mode,
    /// 13, 14 or 15.
    Refused(RefusedWith),
}

/// The tolerance of a search's modes, in eta: a ten thousandth of the outer fit's,
/// from 1e-12 to 1e-8.
///
///     use test_exports::mode::eta_tolerance;
///
///     assert_eq!((eta_tolerance(1e-3), eta_tolerance(1e-9)), (1e-8, 1e-12));
pub fn eta_tolerance(gradient_tolerance: f64) -> f64 {
    unsafe { curlewstand_eta_tolerance(gradient_tolerance) }
}

/// A search between two evaluations. See [the module](self) for an example.
#[derive(Clone, Debug, PartialEq, Eq)]
pub struct Search {
    words: [u64; 20],
}

/// Where the best point begins among a search's words.
const BEST: usize = 16;

impl Search {
    /// A search that has asked nothing.
    ///
    ///     # use test_exports::mode::*;
    ///     assert_eq!(Search::start(), Search::start());
    pub fn start() -> Self {
        let mut words = [0; 20];
        unsafe { curlewstand_mode_start(&mut words) };
        Search { words }
    }

    /// What the search wants next. Asking changes nothing.
    ///
    ///     # use test_exports::mode::*;
    ///     # let settings = Settings { eta_bound: 4., omega: 1., tolerance: 1e-8, warm: 0. };
    ///     // the grid begins at the lower bound
    ///     assert_eq!(Search::start().request(&settings), Request::Point(-4.));
    pub fn request(&self, settings: &Settings) -> Request {
        let mut point = 0.;
        let number = unsafe {
            curlewstand_mode_request(
                settings.eta_bound,
                settings.omega,
                settings.tolerance,
                settings.warm,
                &self.words,
                &mut point,
            )
        };
        match number {
            0 => Request::Point(point),
            1 => Request::Mode,
            number => Request::Refused(RefusedWith(number)),
        }
    }

    /// Takes in what stands at the point that was asked for. A search that wants no
    /// point stays as it is.
    ///
    ///     # use test_exports::mode::*;
    ///     # let settings = Settings { eta_bound: 4., omega: 1., tolerance: 1e-8, warm: 0. };
    ///     let mut search = Search::start();
    ///     let mut asked = 0;
    ///     while let Request::Point(eta) = search.request(&settings) {
    ///         // nothing but the prior
    ///         search.advance(&settings, &Conditional { eta, nll: 0., score: eta, information: 0. });
    ///         asked += 1;
    ///     }
    ///     assert_eq!(asked, 17);
    pub fn advance(&mut self, settings: &Settings, at: &Conditional) {
        let number = unsafe {
            curlewstand_mode_advance(
                settings.eta_bound,
                settings.omega,
                settings.tolerance,
                settings.warm,
                &mut self.words,
                at.eta,
                at.nll,
                at.score,
                at.information,
            )
        };
        // The words come from `start` and from here, so they are a search.
        assert_eq!(number, 0);
    }

    /// The point of smallest absolute score in the bracket so far, which is
    /// the mode once that was the answer.
    ///
    ///     # use test_exports::mode::*;
    ///     # let settings = Settings { eta_bound: 4., omega: 1., tolerance: 1e-8, warm: 0. };
    ///     # let mut search = Search::start();
    ///     # while let Request::Point(eta) = search.request(&settings) {
    ///     #     search.advance(&settings, &Conditional { eta, nll: 0., score: eta, information: 0. });
    ///     # }
    ///     assert_eq!(search.request(&settings), Request::Mode);
    ///     assert_eq!(search.best().eta, 0.);
    pub fn best(&self) -> Conditional {
        let [eta, nll, score, information] =
            std::array::from_fn(|at| crate::from_word(self.words[BEST + at]));
        Conditional {
            eta,
            nll,
            score,
            information,
        }
    }

    /// The words as the C face has them, see [`curlewstand_mode_start`].
    ///
    ///     # use test_exports::mode::*;
    ///     assert_eq!(Search::start().words()[0], 0);
    pub fn words(&self) -> &[u64; 20] {
        &self.words
    }
}
