//! The fit of R's data set Theoph: it ends where a second implementation of FOCEI does,
//! and would not if a session that is restarted kept its evaluations.

#[allow(dead_code)]
#[path = "../examples/theoph/main.rs"]
mod example;

use curlewstand::{Refusal, Session};
use example::data::theoph;
use example::fit::{FITTED, Fit, Trials, fit};

/// The second implementation's objective, clearance, volume and absorption rate.
const OBJECTIVE: f64 = 216.281;
const NEAR: [f64; 3] = [0.0392, 0.4731, 1.4374];

fn fitted(restart: fn(&mut Session) -> Result<(), Refusal>) -> Fit {
    fit(&theoph().unwrap(), restart).unwrap()
}

/// The objective, where a session that has kept nothing computes it.
fn anew(parameters: [f64; 5]) -> f64 {
    let subjects = theoph().unwrap();
    let mut trials = Trials::open(&subjects, Session::restart).unwrap();
    trials.objective(parameters).unwrap()
}

#[test]
fn the_data_are_those_of_twelve_subjects() {
    let subjects = theoph().unwrap();
    assert_eq!(subjects.len(), 12);
    for (number, subject) in subjects.iter().enumerate() {
        assert_eq!(subject.id as usize, number + 1);
        assert_eq!((subject.times.len(), subject.measured.len()), (11, 11));
        assert!(subject.times.is_sorted() && subject.times[0] == 0.);
        assert!((3. ..6.).contains(&subject.dose));
    }
    let last = &subjects[11];
    assert_eq!((last.times[10], last.measured[10]), (24.15, 1.17));
}

#[test]
fn the_fit_ends_where_a_second_implementation_does() {
    let fit = fitted(Session::restart);
    let found = &fit.found;
    assert!(found.converged);
    assert!(
        (found.objective - OBJECTIVE).abs() < 0.01,
        "{}",
        found.objective
    );
    for (estimate, near) in found.parameters.iter().zip(NEAR) {
        assert!(
            (estimate / near - 1.).abs() < 0.002,
            "{estimate}, not {near}"
        );
    }
    let anew = anew(found.parameters);
    assert!((found.objective - anew).abs() < 1e-6, "{anew}");
    assert_eq!(fit.estimates.len(), 12);
    let shrinkage = fit.shrinkage.unwrap();
    assert!((0.2..0.35).contains(&shrinkage), "{shrinkage}");
}

/// Clearance is in the key of a kept evaluation, volume and absorption rate are not: what
/// is kept answers each trial of another absorption rate as if it did not matter.
#[test]
fn without_a_restart_it_does_not() {
    let found = fitted(|_| Ok(())).found;
    assert!(found.converged);
    assert_eq!(found.parameters[2], FITTED[2].1.start);
    let anew = anew(found.parameters);
    for objective in [found.objective, anew] {
        assert!(objective > 230., "{objective}");
    }
}

#[test]
fn evaluations_add_up_over_restarts() {
    let fit = fitted(Session::restart);
    let objectives = fit.ledger.entries().len() as u64;
    assert!(fit.restarts > 50 && u64::from(fit.restarts) < objectives);
    assert_eq!(fit.ledger.taken(), fit.runs);
    assert_eq!(fit.ledger.booked(), objectives * 12 * 82);
    let total = fit.ledger.total();
    assert!(
        total.starts_with(&format!("{objectives} objectives, ")),
        "{total}"
    );
}
