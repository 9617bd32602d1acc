//! A whole population fit: generated patients, a one-compartment model, the outer
//! search in the host's hands, and the modes and the objective from Curlewstand.
//!
//!     cargo run --offline --release --example population_fit
//!     cargo run --offline --release --example population_fit -- --two-effects

pub mod cohort;
pub mod fits;
mod model;
mod search;

use cohort::{SUBJECTS, TIMES};
use curlewstand::Refusal;
use fits::{Fit, one_effect, two_effects};

fn main() -> Result<(), Refusal> {
    let times = TIMES.len();
    println!("One compartment, dose by mouth; {SUBJECTS} patients, {times} measurements each");
    if std::env::args().any(|argument| argument == "--two-effects") {
        println!("Random effects on clearance and volume, omega and deviation known\n");
        report(&two_effects()?, &["clearance", "volume"]);
    } else {
        println!("Random effect on clearance\n");
        report(&one_effect()?, &["clearance"]);
    }
    Ok(())
}

fn report<const N: usize>(fit: &Fit<N>, effects: &[&str]) {
    parameters(fit);
    summary(fit);
    evaluations(fit);
    etas(fit, effects);
}

fn parameters<const N: usize>(fit: &Fit<N>) {
    let heads = ["true", "as drawn", "start", "estimate"];
    println!(
        "{:20}{}",
        "",
        heads.map(|head| format!("{head:>10}")).concat()
    );
    for (parameter, estimate) in fit.fitted.iter().zip(fit.found.parameters) {
        let start = parameter.coordinate.start;
        let numbers = [parameter.truth, parameter.drawn, start, estimate];
        let numbers = numbers.map(|number| format!("{number:10.4}")).concat();
        println!("{:20}{numbers}", parameter.name);
    }
}

fn summary<const N: usize>(fit: &Fit<N>) {
    println!("\n{}", fit.found);
    if let Some(shrinkage) = fit.shrinkage {
        println!("shrinkage {shrinkage:.4}");
    }
}

/// What was taken of the simulator, beside what was booked.
fn evaluations<const N: usize>(fit: &Fit<N>) {
    let (taken, ceiling) = fit.dearest;
    println!("\nevaluations");
    println!("  dearest search     {taken} taken, {ceiling} booked");
    if let Some(entry) = fit.ledger.entries().iter().max_by_key(|one| one.taken) {
        println!("  dearest objective  {entry}");
    }
    println!("  whole fit          {}", fit.ledger.total());
}

/// The first patients' effects, true and found.
fn etas<const N: usize>(fit: &Fit<N>, effects: &[&str]) {
    let head = |name: &&str| format!("{:>24}{:>10}", format!("eta {name}, true"), "found");
    println!(
        "\n{:10}{}",
        "patient",
        effects.iter().map(head).collect::<String>()
    );
    for (number, (patient, estimate)) in fit.patients.iter().zip(&fit.estimates).enumerate().take(5)
    {
        let pairs = patient.eta.iter().zip(estimate.eta).take(effects.len());
        let pairs = pairs.map(|(truth, found)| format!("{truth:24.4}{found:10.4}"));
        println!("{number:<10}{}", pairs.collect::<String>());
    }
}
