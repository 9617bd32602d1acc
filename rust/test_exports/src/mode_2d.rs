//! The search for one subject's mode with two effects, as a machine like that
//! of `mode`: the point zero, then Newton rounds from each of six starts.
//!
//!     use test_exports::mode_2d::*;
//!
//!     let settings = Settings2 {
//!         eta_bound: 4.,
//!         precision: [[2., 0.], [0., 2.]],
//!         warm: [0.; 2],
//!     };
//!     let mut search = Search2::start();
//!     let mode = loop {
//!         match search.request(&settings) {
//!             // here the negative log likelihood is the square of the way to (1, -2)
//!             Request2::Point(eta) => {
//!                 let way = [eta[0] - 1., eta[1] + 2.];
//!                 search.advance(
//!                     &settings,
//!                     &Conditional2 {
//!                         eta,
//!                         nll: way[0] * way[0] + way[1] * way[1],
//!                         score: [2. * way[0], 2. * way[1]],
//!                         information: [[2., 0.], [0., 2.]],
//!                     },
//!                 )
//!             }
//!             Request2::Mode => break search.best(),
//!             Request2::Refused(refusal) => panic!("{refusal:?}"),
//!         }
//!     };
//!     assert_eq!(mode.eta, [0.5, -1.]);

use crate::RefusedWith;
use crate::ffi::*;

/// What a search is given, the same at each of its steps. See [the module](self)
/// for an example.
#[derive(Clone, Copy, Debug, PartialEq)]
pub struct Settings2 {
    /// The largest absolute eta.
    pub eta_bound: f64,
    /// The inverse of omega: `inverse_positive`.
    pub precision: [[f64; 2]; 2],
    /// Where to start: the subject's mode in the last objective, zero at first.
    pub warm: [f64; 2],
}

/// An evaluated point. Nothing of the prior is added to the score.
#[derive(Clone, Copy, Debug, PartialEq)]
pub struct Conditional2 {
    /// The effects.
    pub eta: [f64; 2],
    /// The negative log likelihood there.
    pub nll: f64,
    /// Its derivatives by the effects.
    pub score: [f64; 2],
    /// The expected information.
    pub information: [[f64; 2]; 2],
}

/// What a search wants next, see [`Search2::request`].
#[derive(Clone, Copy, Debug, PartialEq)]
pub enum Request2 {
    /// The point to evaluate.
    Point([f64; 2]),
    /// The search is done, its best point is the mode.
    Mode,
    /// 13, 14 or 16.
    Refused(RefusedWith),
}

/// A search between two evaluations. See [the module](self) for an example.
#[derive(Clone, Debug, PartialEq, Eq)]
pub struct Search2 {
    words: [u64; 25],
}

/// Where the best point begins among a search's words.
const BEST: usize = 16;

impl Search2 {
    /// A search that has asked nothing.
    ///
    ///     # use test_exports::mode_2d::*;
    ///     assert_eq!(Search2::start(), Search2::start());
    pub fn start() -> Self {
        let mut words = [0; 25];
        unsafe { curlewstand_mode_2d_start(&mut words) };
        Search2 { words }
    }

    /// What the search wants next. Asking changes nothing.
    ///
    ///     # use test_exports::mode_2d::*;
    ///     # let settings = Settings2 {
    ///     #     eta_bound: 4., precision: [[1., 0.], [0., 1.]], warm: [0.; 2],
    ///     # };
    ///     // the point zero comes first
    ///     assert_eq!(Search2::start().request(&settings), Request2::Point([0.; 2]));
    pub fn request(&self, settings: &Settings2) -> Request2 {
        let mut point = [0.; 2];
        let number = unsafe {
            curlewstand_mode_2d_request(
                settings.eta_bound,
                &settings.precision,
                &settings.warm,
                &self.words,
                &mut point,
            )
        };
        match number {
            0 => Request2::Point(point),
            1 => Request2::Mode,
            number => Request2::Refused(RefusedWith(number)),
        }
    }

    /// Takes in what stands at the point that was asked for. A search that wants no
    /// point stays as it is.
    ///
    ///     # use test_exports::mode_2d::*;
    ///     # let settings = Settings2 {
    ///     #     eta_bound: 4., precision: [[1., 0.], [0., 1.]], warm: [0.; 2],
    ///     # };
    ///     let mut search = Search2::start();
    ///     let mut asked = 0;
    ///     while let Request2::Point(eta) = search.request(&settings) {
    ///         // nothing but the prior
    ///         search.advance(&settings, &Conditional2 { eta, nll: 0., score: [0.; 2], information: [[0.; 2]; 2] });
    ///         asked += 1;
    ///     }
    ///     assert_eq!(asked, 11);
    pub fn advance(&mut self, settings: &Settings2, at: &Conditional2) {
        let number = unsafe {
            curlewstand_mode_2d_advance(
                settings.eta_bound,
                &settings.precision,
                &settings.warm,
                &mut self.words,
                &at.eta,
                at.nll,
                &at.score,
                &at.information,
            )
        };
        // The words come from `start` and from here, so they are a search.
        assert_eq!(number, 0);
    }

    /// The best candidate of the starts so far, which is the mode once that
    /// was the answer.
    ///
    ///     # use test_exports::mode_2d::*;
    ///     # let settings = Settings2 {
    ///     #     eta_bound: 4., precision: [[1., 0.], [0., 1.]], warm: [0.; 2],
    ///     # };
    ///     # let mut search = Search2::start();
    ///     # while let Request2::Point(eta) = search.request(&settings) {
    ///     #     search.advance(&settings, &Conditional2 { eta, nll: 0., score: [0.; 2], information: [[0.; 2]; 2] });
    ///     # }
    ///     assert_eq!(search.request(&settings), Request2::Mode);
    ///     assert_eq!(search.best().eta, [0.; 2]);
    pub fn best(&self) -> Conditional2 {
        let [x, y, nll, s, t, a, b, c, d] =
            std::array::from_fn(|at| crate::from_word(self.words[BEST + at]));
        Conditional2 {
            eta: [x, y],
            nll,
            score: [s, t],
            information: [[a, b], [c, d]],
        }
    }

    /// The words as the C face has them, see [`curlewstand_mode_2d_start`].
    ///
    ///     # use test_exports::mode_2d::*;
    ///     assert_eq!(Search2::start().words()[0], 0);
    pub fn words(&self) -> &[u64; 25] {
        &self.words
    }
}
