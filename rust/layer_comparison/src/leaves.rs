//! Every leaf as a function from floats to an answer, on both sides.

use crate::compare::{word_of, Answer};
use crate::floats::clamped;
use crate::rules::{self, Search, NO_SEARCH};
use crate::rules_2d::{self, Search2};
use test_exports::mode::{Conditional, Request, Settings};
use test_exports::mode_2d::{Conditional2, Request2, Settings2};
use test_exports::RefusedWith;

/// The answer's code where a matrix has no inverse.
pub const NO_INVERSE: u32 = 1;

/// The answer's code where a search has its mode.
pub const MODE: u32 = 1;

/// Rust leaves the sign of the larger of two zeros free, so that a zero of
/// either sign will do there and only there.
fn larger(a: f64, b: f64, larger: f64) -> Answer {
    if a == 0. && b == 0. && a.to_bits() != b.to_bits() {
        Answer::floats(&[larger.abs()])
    } else {
        Answer::floats(&[larger])
    }
}

fn all_finite(nll: f64, score: [f64; 2], information: [[f64; 2]; 2]) -> bool {
    nll.is_finite()
        && score.iter().all(|x| x.is_finite())
        && information.iter().flatten().all(|x| x.is_finite())
}

fn sums(nll: f64, score: [f64; 2], information: [[f64; 2]; 2]) -> Answer {
    Answer::floats(&[
        nll,
        score[0],
        score[1],
        information[0][0],
        information[0][1],
        information[1][0],
        information[1][1],
    ])
}

fn inverted(found: Option<([[f64; 2]; 2], f64)>) -> Answer {
    match found {
        Some(([[a, b], [c, d]], det)) => Answer::floats(&[det, a, b, c, d]),
        None => Answer::refused(NO_INVERSE),
    }
}

fn requested(request: Request) -> Answer {
    match request {
        Request::Point(eta) => Answer::floats(&[eta]),
        Request::Mode => Answer::refused(MODE),
        Request::Refused(RefusedWith(number)) => Answer::refused(number),
    }
}

fn requested_2d(request: Request2) -> Answer {
    match request {
        Request2::Point(eta) => Answer::floats(&eta),
        Request2::Mode => Answer::refused(MODE),
        Request2::Refused(RefusedWith(number)) => Answer::refused(number),
    }
}

/// The words of a search out of floats, where those that are whole numbers
/// stand as such.
fn words<const N: usize>(input: &[f64], whole: &[usize]) -> [u64; N] {
    std::array::from_fn(|at| {
        if whole.contains(&at) {
            input[at] as u64
        } else {
            input[at].to_bits()
        }
    })
}

/// The settings and the words of a search, all as floats: eta_bound, omega,
/// tolerance, warm start, then the twenty words.
fn search(input: &[f64]) -> (Settings, [u64; 20]) {
    let settings = Settings {
        eta_bound: input[0],
        omega: input[1],
        tolerance: input[2],
        warm: input[3],
    };
    (settings, words(&input[4..], &rules::WHOLE))
}

/// An evaluated point after the settings and the words of a search.
fn evaluated(input: &[f64]) -> Conditional {
    Conditional {
        eta: input[24],
        nll: input[25],
        score: input[26],
        information: input[27],
    }
}

/// The same for two effects: eta_bound, the precision by rows, the warm start,
/// then the twenty-five words.
fn search_2d(input: &[f64]) -> (Settings2, [u64; 25]) {
    let settings = Settings2 {
        eta_bound: input[0],
        precision: [[input[1], input[2]], [input[3], input[4]]],
        warm: [input[5], input[6]],
    };
    (settings, words(&input[7..], &rules_2d::WHOLE))
}

/// An evaluated point after the settings and the words of a search.
fn evaluated_2d(input: &[f64]) -> Conditional2 {
    let at = &input[32..];
    Conditional2 {
        eta: [at[0], at[1]],
        nll: at[2],
        score: [at[3], at[4]],
        information: [[at[5], at[6]], [at[7], at[8]]],
    }
}

/// Theta, eta and the number of effects.
type Effects = ([f64; 2], [f64; 2], u32);

fn effects([theta, theta_2, eta, eta_2, effects]: [f64; 5]) -> Effects {
    ([theta, theta_2], [eta, eta_2], effects as u32)
}

/// Curlewstand's leaves. What a call writes is filled beforehand, to see that
/// a refusal leaves it alone.
pub mod ours {
    use super::*;
    use crate::compare::TOUCHED;
    use test_exports::ffi::*;

    const FILLED: f64 = -1.2345e67;

    fn touched<'a>(lent: impl IntoIterator<Item = &'a f64>) -> bool {
        lent.into_iter().any(|x| x.to_bits() != FILLED.to_bits())
    }

    pub fn word([x]: [f64; 1]) -> Answer {
        let read = test_exports::from_word(x.to_bits());
        Answer::words(&[word_of(read), test_exports::to_word(x)])
    }

    pub fn is_finite([x]: [f64; 1]) -> Answer {
        Answer::words(&[test_exports::is_finite(x) as u64])
    }

    pub fn abs([x]: [f64; 1]) -> Answer {
        Answer::floats(&[test_exports::abs(x)])
    }

    pub fn max([a, b]: [f64; 2]) -> Answer {
        larger(a, b, test_exports::max(a, b))
    }

    pub fn clamp([x, low, high]: [f64; 3]) -> Answer {
        Answer::floats(&[test_exports::clamp(x, low, high)])
    }

    pub fn log([x]: [f64; 1]) -> Answer {
        Answer::floats(&[test_exports::log(x)])
    }

    pub fn exp([x]: [f64; 1]) -> Answer {
        Answer::floats(&[test_exports::exp(x)])
    }

    pub fn determinant([a, b, c, d]: [f64; 4]) -> Answer {
        Answer::floats(&[test_exports::determinant([[a, b], [c, d]])])
    }

    pub fn inverse_positive([a, b, c, d]: [f64; 4]) -> Answer {
        let mut inverse = [[FILLED; 2]; 2];
        let mut det = FILLED;
        let found =
            unsafe { curlewstand_inverse_positive(&[[a, b], [c, d]], &mut inverse, &mut det) };
        if !found && (touched(inverse.iter().flatten()) || touched([&det])) {
            return Answer::refused(TOUCHED);
        }
        inverted(found.then_some((inverse, det)))
    }

    pub fn product([a, b, c, d, v, w]: [f64; 6]) -> Answer {
        Answer::floats(&test_exports::product([[a, b], [c, d]], [v, w]))
    }

    pub fn dot([a, b, c, d]: [f64; 4]) -> Answer {
        Answer::floats(&[test_exports::dot([a, b], [c, d])])
    }

    pub fn row_terms([value, proportional, prediction, f_eta, additive]: [f64; 5]) -> Answer {
        let mut terms = [FILLED; 3];
        let code = unsafe {
            curlewstand_row_terms(value, proportional, prediction, f_eta, additive, &mut terms)
        };
        match code {
            0 => Answer::floats(&terms),
            _ if touched(&terms) => Answer::refused(TOUCHED),
            code => Answer::refused(code),
        }
    }

    /// One row added to sums of zero. Whether sums are finite is asked after
    /// the last row, as the source does.
    pub fn add_row(row: [f64; 6]) -> Answer {
        let mut refused = ([[FILLED; 2]; 2], [FILLED; 2], FILLED);
        if add(row, &mut refused) != 0
            && (touched(refused.0.iter().flatten()) || touched(&refused.1) || touched([&refused.2]))
        {
            return Answer::refused(TOUCHED);
        }
        rows(&[row])
    }

    /// One row added, then another.
    pub fn add_two_rows(both: [f64; 12]) -> Answer {
        let (first, second) = both.split_at(6);
        rows(&[first.try_into().unwrap(), second.try_into().unwrap()])
    }

    type Lent = ([[f64; 2]; 2], [f64; 2], f64);

    fn rows(rows: &[[f64; 6]]) -> Answer {
        let mut lent: Lent = Default::default();
        for row in rows {
            let code = add(*row, &mut lent);
            if code != 0 {
                return Answer::refused(code);
            }
        }
        let (information, score, nll) = lent;
        if all_finite(nll, score, information) {
            sums(nll, score, information)
        } else {
            Answer::refused(12)
        }
    }

    pub fn eta_tolerance([gradient_tolerance]: [f64; 1]) -> Answer {
        Answer::floats(&[test_exports::mode::eta_tolerance(gradient_tolerance)])
    }

    pub fn mode_request(input: [f64; 24]) -> Answer {
        let (s, words) = search(&input);
        let mut point = FILLED;
        let code = unsafe {
            curlewstand_mode_request(
                s.eta_bound,
                s.omega,
                s.tolerance,
                s.warm,
                &words,
                &mut point,
            )
        };
        match code {
            0 => requested(Request::Point(point)),
            _ if touched([&point]) => Answer::refused(TOUCHED),
            code => Answer::refused(code),
        }
    }

    pub fn mode_advance(input: [f64; 28]) -> Answer<20> {
        let (s, mut words) = search(&input);
        let before = words;
        let at = evaluated(&input);
        let code = unsafe {
            curlewstand_mode_advance(
                s.eta_bound,
                s.omega,
                s.tolerance,
                s.warm,
                &mut words,
                at.eta,
                at.nll,
                at.score,
                at.information,
            )
        };
        match Search::of_words(&words) {
            _ if code != 0 && words != before => Answer::refused(TOUCHED),
            _ if code != 0 => Answer::refused(code),
            Some(search) => Answer::words(&search.words()),
            None => Answer::refused(NO_SEARCH),
        }
    }

    /// No refusal has the number 0, but words may: that of a point, which then
    /// must not be written.
    pub fn mode_2d_request(input: [f64; 32]) -> Answer {
        let (s, words) = search_2d(&input);
        let mut point = [FILLED; 2];
        let code = unsafe {
            curlewstand_mode_2d_request(s.eta_bound, &s.precision, &s.warm, &words, &mut point)
        };
        match code {
            _ if !touched(&point) => Answer::refused(code),
            0 => requested_2d(Request2::Point(point)),
            _ => Answer::refused(TOUCHED),
        }
    }

    pub fn mode_2d_advance(input: [f64; 41]) -> Answer<25> {
        let (s, mut words) = search_2d(&input);
        let before = words;
        let at = evaluated_2d(&input);
        let code = unsafe {
            curlewstand_mode_2d_advance(
                s.eta_bound,
                &s.precision,
                &s.warm,
                &mut words,
                &at.eta,
                at.nll,
                &at.score,
                &at.information,
            )
        };
        match Search2::of_words(&words) {
            _ if code != 0 && words != before => Answer::refused(TOUCHED),
            _ if code != 0 => Answer::refused(code),
            Some(search) => Answer::words(&search.words()),
            None => Answer::refused(NO_SEARCH),
        }
    }

    pub fn individual_values(input: [f64; 5]) -> Answer {
        let (theta, eta, effects) = effects(input);
        let mut individual = [FILLED; 2];
        let code = unsafe { curlewstand_individual_values(&theta, &eta, effects, &mut individual) };
        match code {
            0 => Answer::floats(&individual),
            _ if touched(&individual) => Answer::refused(TOUCHED),
            code => Answer::refused(code),
        }
    }

    fn add([value, additive, proportional, prediction, f, g]: [f64; 6], lent: &mut Lent) -> u32 {
        let (information, score, nll) = lent;
        unsafe {
            curlewstand_add_row(
                value,
                additive,
                proportional,
                prediction,
                &[f, g],
                nll,
                score,
                information,
            )
        }
    }
}

/// Rust's own functions on floats, and the stand-ins for `libm`.
pub mod rust {
    use super::*;

    pub fn word([x]: [f64; 1]) -> Answer {
        Answer::floats(&[x, x])
    }

    pub fn is_finite([x]: [f64; 1]) -> Answer {
        Answer::words(&[x.is_finite() as u64])
    }

    pub fn abs([x]: [f64; 1]) -> Answer {
        Answer::floats(&[x.abs()])
    }

    pub fn max([a, b]: [f64; 2]) -> Answer {
        larger(a, b, a.max(b))
    }

    pub fn clamp([x, low, high]: [f64; 3]) -> Answer {
        Answer::floats(&[clamped(x, low, high)])
    }

    pub fn log([x]: [f64; 1]) -> Answer {
        Answer::floats(&[oracle::libm::log(x)])
    }

    pub fn exp([x]: [f64; 1]) -> Answer {
        Answer::floats(&[oracle::libm::exp(x)])
    }

    /// As the source has it in the midst of `mode`.
    pub fn eta_tolerance([gradient_tolerance]: [f64; 1]) -> Answer {
        Answer::floats(&[(gradient_tolerance * 1e-4).clamp(1e-12, 1e-8)])
    }

    /// As the source has it at the beginning of `subject`, the second where
    /// there are two effects.
    pub fn individual_values(input: [f64; 5]) -> Answer {
        let (theta, eta, effects) = effects(input);
        let mut individual = [0.; 2];
        let axes = if effects == 2 { 2 } else { 1 };
        for axis in 0..axes {
            let value = theta[axis] * oracle::libm::exp(eta[axis]);
            if !value.is_finite() || value <= 0. {
                return Answer::refused(7);
            }
            individual[axis] = value;
        }
        Answer::floats(&individual)
    }
}

/// The steps of a search by the rules in plain Rust.
pub mod plain {
    use super::*;

    pub fn mode_request(input: [f64; 24]) -> Answer {
        let (settings, words) = search(&input);
        match Search::of_words(&words) {
            Some(search) => requested(search.request(&settings)),
            None => Answer::refused(NO_SEARCH),
        }
    }

    pub fn mode_advance(input: [f64; 28]) -> Answer<20> {
        let (settings, words) = search(&input);
        let Some(mut search) = Search::of_words(&words) else {
            return Answer::refused(NO_SEARCH);
        };
        search.advance(&settings, evaluated(&input));
        Answer::words(&search.words())
    }

    pub fn mode_2d_request(input: [f64; 32]) -> Answer {
        let (settings, words) = search_2d(&input);
        match Search2::of_words(&words) {
            Some(search) => requested_2d(search.request(&settings)),
            None => Answer::refused(NO_SEARCH),
        }
    }

    pub fn mode_2d_advance(input: [f64; 41]) -> Answer<25> {
        let (settings, words) = search_2d(&input);
        let Some(mut search) = Search2::of_words(&words) else {
            return Answer::refused(NO_SEARCH);
        };
        search.advance(&settings, evaluated_2d(&input));
        Answer::words(&search.words())
    }
}

/// The original's leaves.
#[cfg(source_at_hand)]
pub mod original {
    use super::*;
    use oracle::session::{Observed, Row2, Settings, Simulator};
    use oracle::{OneEffect, Rows2, TwoEffects};
    use std::cell::{Cell, RefCell};
    use std::rc::Rc;

    pub fn determinant([a, b, c, d]: [f64; 4]) -> Answer {
        Answer::floats(&[oracle::determinant([[a, b], [c, d]])])
    }

    pub fn inverse_positive([a, b, c, d]: [f64; 4]) -> Answer {
        inverted(oracle::inverse_positive([[a, b], [c, d]]))
    }

    pub fn product([a, b, c, d, v, w]: [f64; 6]) -> Answer {
        Answer::floats(&oracle::product([[a, b], [c, d]], [v, w]))
    }

    pub fn dot([a, b, c, d]: [f64; 4]) -> Answer {
        Answer::floats(&[oracle::dot([a, b], [c, d])])
    }

    pub fn row_terms([value, proportional, prediction, f_eta, additive]: [f64; 5]) -> Answer {
        match oracle::row_terms(value, proportional, prediction, f_eta, additive) {
            Ok(terms) => Answer::floats(&terms),
            Err(code) => Answer::refused(code),
        }
    }

    pub fn add_row(row: [f64; 6]) -> Answer {
        rows(&[row2(row)])
    }

    pub fn add_two_rows(both: [f64; 12]) -> Answer {
        let (first, second) = both.split_at(6);
        rows(&[
            row2(first.try_into().unwrap()),
            row2(second.try_into().unwrap()),
        ])
    }

    thread_local! {
        static ROWS: RefCell<Rows2> = RefCell::new(Rows2::new());
    }

    fn rows(rows: &[Row2]) -> Answer {
        match ROWS.with_borrow_mut(|original| original.sums(rows)) {
            Ok(sum) => {
                assert!(all_finite(sum.nll, sum.score, sum.information));
                sums(sum.nll, sum.score, sum.information)
            }
            Err(code) => Answer::refused(code),
        }
    }

    fn row2([value, additive, proportional, prediction, f, g]: [f64; 6]) -> Row2 {
        Row2 {
            value,
            additive,
            proportional,
            prediction,
            f_eta: [f, g],
        }
    }

    /// The original with a simulator that notes what it is asked and has no
    /// rows, so that an evaluation which comes to it ends with 10.
    struct Noting {
        one: OneEffect,
        two: TwoEffects,
        noted: Rc<Cell<Option<[f64; 2]>>>,
    }

    thread_local! {
        static NOTING: RefCell<Noting> = RefCell::new(Noting::new());
    }

    impl Noting {
        fn new() -> Self {
            let noted = Rc::new(Cell::new(None));
            let simulator = || -> Simulator {
                let noted = Rc::clone(&noted);
                Box::new(move |question| {
                    noted.set(Some(question.individual));
                    Some(Vec::new())
                })
            };
            let settings = Settings {
                eta_bound: 16.,
                gradient_tolerance: 1.,
                max_evaluations: usize::MAX,
                kept_rows: 0,
                width: 1,
                output_budget: 0,
            };
            let observed = Observed {
                output: 0,
                row: 0,
                value: 0.,
                additive: 1.,
                proportional: 0.,
            };
            let cohort = vec![vec![observed]];
            let unit = [[1., 0.], [0., 1.]];
            let two = TwoEffects::new(settings.clone(), unit, cohort.clone(), simulator());
            Noting {
                one: OneEffect::new(settings, cohort, simulator()),
                two: two.expect("the unit matrix has an inverse"),
                noted,
            }
        }
    }

    /// What the simulator is asked, or the 7 of an evaluation that does not come
    /// to it.
    pub fn individual_values(input: [f64; 5]) -> Answer {
        let (theta, eta, effects) = effects(input);
        NOTING.with_borrow_mut(|Noting { one, two, noted }| {
            noted.set(None);
            let refusal = match effects {
                2 => two.subject(0, theta, eta),
                _ => one.subject(0, theta[0], eta[0], None),
            };
            let number = refusal.expect_err("there is no row").number;
            match noted.get() {
                Some(individual) if number == 10 => Answer::floats(&individual),
                _ => Answer::refused(number),
            }
        })
    }
}
