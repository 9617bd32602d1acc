//! The example's fits: the values that its patients were made with are found again,
//! within what so many patients tell, and no more is asked than was booked.

#[allow(dead_code)]
#[path = "../examples/population_fit/main.rs"]
mod example;

use example::cohort::SUBJECTS;
use example::fits::{self, Fit};

/// Within so many parts of what these patients have, and of what they were made with.
fn assert_found<const N: usize>(fit: &Fit<N>, near: [(f64, f64); N]) {
    assert!(fit.found.converged);
    for ((parameter, estimate), (to_drawn, to_truth)) in
        fit.fitted.iter().zip(fit.found.parameters).zip(near)
    {
        let off = |from: f64| (estimate / from - 1.).abs();
        let name = parameter.name;
        assert!(off(parameter.drawn) < to_drawn, "{name}: {estimate}");
        assert!(off(parameter.truth) < to_truth, "{name}: {estimate}");
    }
}

/// The root of the mean square of what each eta is off, after `centre`, the log of the
/// estimate over the truth, is taken into account.
fn spread<const N: usize>(fit: &Fit<N>, effect: usize, centre: f64) -> f64 {
    let off = |(patient, estimate): (&example::cohort::Patient, &curlewstand::Estimate)| {
        (estimate.eta[effect] + centre - patient.eta[effect]).powi(2)
    };
    let sum: f64 = fit.patients.iter().zip(&fit.estimates).map(off).sum();
    (sum / SUBJECTS as f64).sqrt()
}

fn assert_within_booking<const N: usize>(fit: &Fit<N>, for_a_subject: u32) {
    let (dearest, ceiling) = fit.dearest;
    assert_eq!(ceiling, for_a_subject);
    assert!((1..=ceiling).contains(&dearest));
    let entries = fit.ledger.entries();
    assert!(entries.len() <= fits::BOOKED_OBJECTIVES as usize);
    for entry in entries {
        assert_eq!(entry.subjects, SUBJECTS);
        assert_eq!(entry.booked, u64::from(ceiling) * SUBJECTS as u64);
        assert!(u64::from(entry.taken) <= entry.booked);
        assert!(entry.taken <= dearest * SUBJECTS as u32);
    }
    assert!(fit.ledger.taken() > 0);
}

#[test]
fn one_effect() {
    let fit = fits::one_effect().unwrap();
    // of 40 patients a variance is known to some 22 parts of a hundred
    assert_found(&fit, [(0.03, 0.1), (0.15, 0.6), (0.1, 0.1)]);
    assert_within_booking(&fit, 82);
    assert_eq!(fit.estimates.len(), SUBJECTS);
    let centre = (fit.found.parameters[0] / fit.fitted[0].truth).ln();
    assert!(spread(&fit, 0, centre) < 0.1);
    let shrinkage = fit.shrinkage.unwrap();
    assert!((0. ..0.3).contains(&shrinkage), "shrinkage {shrinkage}");
}

#[test]
fn two_effects() {
    let fit = fits::two_effects().unwrap();
    assert_found(&fit, [(0.03, 0.15), (0.03, 0.1)]);
    assert_within_booking(&fit, 6343);
    for effect in [0, 1] {
        let centre = (fit.found.parameters[effect] / fit.fitted[effect].truth).ln();
        assert!(spread(&fit, effect, centre) < 0.12);
    }
    assert_eq!(fit.shrinkage, None);
}
