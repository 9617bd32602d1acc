//! What the C interface tests of a setup and of parameters where the crate's types have no
//! place for it: with one effect the setup's omega, and with one or two its override and
//! an objective's.

use curlewstand::ffi::{self, SessionParameters, SessionSetup};
use curlewstand::{Observation, Tally};

mod common;
use common::measured;

const KEPT_ROWS: usize = 64;
const IDENTITY: [[f64; 2]; 2] = [[1., 0.], [0., 1.]];

/// A session of one subject that was measured once, with all that it lends.
struct Lent {
    setup: SessionSetup,
    observations: Vec<Observation>,
    tally: Tally,
    state: [u64; 44],
    answer: [u64; 5],
    cache: Vec<u64>,
    work: [u64; 12],
    warm: Vec<u64>,
    results: [u64; 5],
}

fn lent(effects: u32, omega: [[f64; 2]; 2], additive: Option<f64>, value: f64) -> Lent {
    Lent {
        setup: SessionSetup {
            effects,
            omega_00: omega[0][0],
            omega_01: omega[0][1],
            omega_10: omega[1][0],
            omega_11: omega[1][1],
            eta_bound: 4.,
            gradient_tolerance: 1e-4,
            width: 1,
            k: KEPT_ROWS,
            has_additive: additive.is_some(),
            additive: additive.unwrap_or(0.),
            output_budget: u32::MAX,
            max_evaluations: 1000,
        },
        observations: measured(value),
        tally: Tally::default(),
        state: [0; 44],
        answer: [0; 5],
        cache: vec![0; 24 * KEPT_ROWS],
        work: [0; 12],
        warm: vec![0; effects as usize],
        results: [0; 5],
    }
}

fn one(omega: f64, additive: Option<f64>, value: f64) -> Lent {
    lent(1, [[omega, 0.], [0., 0.]], additive, value)
}

fn parameters(omega: f64, additive: Option<f64>) -> SessionParameters {
    SessionParameters {
        theta: 1.,
        theta_2: 1.,
        omega,
        has_additive: additive.is_some(),
        additive: additive.unwrap_or(0.),
    }
}

impl Lent {
    fn open(&mut self) -> u32 {
        // what is lent is this struct's own, and no two parts of it overlap
        unsafe {
            ffi::curlewstand_setup(
                self.setup,
                self.observations.as_ptr(),
                self.observations.len(),
                [1].as_ptr(),
                1,
                &mut self.tally,
                self.state.as_mut_ptr(),
                self.state.len(),
                self.answer.as_mut_ptr(),
                self.answer.len(),
                self.cache.as_mut_ptr(),
                self.cache.len(),
                self.work.as_mut_ptr(),
                self.work.len(),
                self.warm.as_mut_ptr(),
                self.warm.len(),
                self.results.as_ptr(),
                self.results.len(),
            )
        }
    }

    fn begin(&mut self, parameters: SessionParameters) -> u32 {
        unsafe {
            ffi::curlewstand_objective(
                self.setup,
                parameters,
                self.observations.as_ptr(),
                self.observations.len(),
                [1].as_ptr(),
                1,
                &mut self.tally,
                self.state.as_mut_ptr(),
                self.state.len(),
                self.answer.as_mut_ptr(),
                self.answer.len(),
                self.cache.as_ptr(),
                self.cache.len(),
                self.work.as_mut_ptr(),
                self.work.len(),
                self.warm.as_mut_ptr(),
                self.warm.len(),
                self.results.as_mut_ptr(),
                self.results.len(),
            )
        }
    }

    fn reply(&mut self, words: &[u64]) -> u32 {
        unsafe {
            ffi::curlewstand_reply(
                self.setup,
                self.observations.as_ptr(),
                self.observations.len(),
                [1].as_ptr(),
                1,
                words.as_ptr(),
                words.len(),
                &mut self.tally,
                self.state.as_mut_ptr(),
                self.state.len(),
                self.answer.as_mut_ptr(),
                self.answer.len(),
                self.cache.as_mut_ptr(),
                self.cache.len(),
                self.work.as_mut_ptr(),
                self.work.len(),
                self.warm.as_mut_ptr(),
                self.warm.len(),
                self.results.as_mut_ptr(),
                self.results.len(),
            )
        }
    }
}

#[test]
fn omegas_of_one_effect_that_are_refused() {
    for omega in [0., f64::NAN] {
        assert_eq!(one(omega, None, 1.).open(), 2, "{omega}");
    }
}

#[test]
fn overrides_that_are_refused() {
    assert_eq!(one(1., Some(-1.), 1.).open(), 3);
    assert_eq!(lent(2, IDENTITY, Some(1.), 1.).open(), 3);
    assert_eq!(lent(2, IDENTITY, None, 1.).open(), 0);
}

/// With two effects there is none in an objective either, whatever it is; and what is
/// refused so alters nothing.
#[test]
fn an_objectives_override_with_two_effects() {
    let mut two = lent(2, IDENTITY, None, 1.);
    assert_eq!(two.open(), 0);
    for additive in [0., 1., -1., f64::NAN] {
        assert_eq!(two.begin(parameters(1., Some(additive))), 3, "{additive}");
        assert_eq!(two.tally, Tally::default());
    }
    assert_eq!(two.begin(parameters(1., None)), 0);
    assert_eq!((two.answer[0], two.tally.calls), (0, 1));
}

/// The setup's override is tested, and each objective says its own.
#[test]
fn an_override_is_the_objectives_own() {
    let plain = None;
    let with_override = Some(0.5);
    let objective = |setup: Option<f64>, additive: Option<f64>| {
        let mut session = one(1., setup, 1.2);
        assert_eq!(session.open(), 0);
        assert_eq!(session.begin(parameters(1., additive)), 0);
        while session.answer[0] == 0 {
            // the model predicts the individual value
            let row = [0, 0, session.answer[3], 1f64.to_bits()];
            assert_eq!(session.reply(&row), 0);
        }
        f64::from_bits(session.answer[1])
    };
    assert_eq!(objective(with_override, None), objective(plain, None));
    assert_eq!(objective(plain, Some(1.)), objective(plain, None));
    assert_ne!(objective(plain, Some(0.5)), objective(plain, None));
}
