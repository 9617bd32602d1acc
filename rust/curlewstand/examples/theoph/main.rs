//! A population fit of measured data, R's Theoph: twelve subjects who took theophylline
//! by mouth. Parameters without an effect, volume and absorption rate, are fitted too;
//! a session is for one model, so that it is restarted wherever one of them has moved.
//!
//!     cargo run --offline --release --example theoph

pub mod data;
pub mod fit;
pub mod model;
#[path = "../population_fit/search.rs"]
mod search;

use curlewstand::Session;
use data::{Subject, theoph};
use fit::{FITTED, Fit, fit};
use std::error::Error;

fn main() -> Result<(), Box<dyn Error>> {
    let subjects = theoph()?;
    let measurements: usize = subjects.iter().map(|one| one.measured.len()).sum();
    println!(
        "Theophylline by mouth, one compartment; {} subjects, {measurements} measurements",
        subjects.len()
    );
    println!("Random effect on clearance\n");
    let fit = fit(&subjects, Session::restart)?;
    parameters(&fit);
    summary(&fit);
    etas(&subjects, &fit);
    Ok(())
}

fn parameters(fit: &Fit) {
    println!("{:20}{:>10}{:>10}", "", "start", "estimate");
    for ((name, coordinate), estimate) in FITTED.iter().zip(fit.found.parameters) {
        println!("{name:20}{:10.4}{estimate:10.4}", coordinate.start);
    }
}

fn summary(fit: &Fit) {
    println!("\n{}", fit.found);
    if let Some(shrinkage) = fit.shrinkage {
        println!("shrinkage {shrinkage:.4}");
    }
    println!("\nevaluations  {}", fit.ledger.total());
    println!(
        "restarts     {}, one for each move of volume or absorption rate",
        fit.restarts
    );
}

fn etas(subjects: &[Subject], fit: &Fit) {
    println!("\n{:10}{:>14}", "subject", "eta clearance");
    for (subject, estimate) in subjects.iter().zip(&fit.estimates) {
        println!("{:<10}{:14.4}", subject.id, estimate.eta[0]);
    }
}
