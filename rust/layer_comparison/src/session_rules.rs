//! Document 01's questions that are asked of every call before it does
//! anything, 19 and 1 to 5, once more in plain Rust.

use crate::floats::power;
use crate::rules_evaluation::unsound;
use crate::session_words::{Call, Lent, Parameters, Setup};
use curlewstand::Observation;
use oracle::session::{Observed, Refusal};

/// Where a session's state stands: whether a reply is awaited, and the subject
/// with the number of its first observation among all. Where an objective has
/// ended the state stays at the subject that it ended with.
#[derive(Clone, Copy, Debug, Default)]
pub struct Standing {
    pub awaits: bool,
    pub subject: usize,
    pub first: usize,
    /// The parameters of the objective that runs.
    pub parameters: Option<Parameters>,
}

pub const MOST_SUBJECTS: usize = 4_096;
pub const MOST_OBSERVATIONS: usize = 100_000;

/// The refusal of a call by 19 or by 1 to 5.
pub fn refusal(
    call: &Call,
    standing: &Standing,
    cached_rows: usize,
    lent: &Lent,
) -> Option<Refusal> {
    let own = match call {
        Call::Setup => return unfit(lent, &lent.setup),
        Call::Objective(parameters) => Some(*parameters),
        Call::Reply(_) | Call::Failure => standing.parameters,
    };
    let is_new = matches!(call, Call::Objective(_));
    if standing.awaits == is_new || !is_standing(standing, cached_rows, lent) {
        return Some(without_place(19));
    }
    unfit(lent, &with_parameters(&lent.setup, own?))
}

fn is_standing(standing: &Standing, cached_rows: usize, lent: &Lent) -> bool {
    let Some(count) = lent.counts.get(standing.subject) else {
        return false;
    };
    let count = (*count).min(MOST_OBSERVATIONS as u64) as usize;
    cached_rows as u64 <= lent.setup.k && standing.first + count <= lent.observations.len()
}

/// The setup that an objective goes by.
fn with_parameters(setup: &Setup, parameters: Parameters) -> Setup {
    let mut own = setup.clone();
    own.additive = parameters.additive;
    if setup.effects == 1 {
        own.omega[0] = parameters.omega;
    }
    own
}

/// The first no to the questions 1 to 5.
fn unfit(lent: &Lent, setup: &Setup) -> Option<Refusal> {
    if !is_cohort(lent, setup) {
        return Some(without_place(1));
    }
    if !is_omega(setup) {
        return Some(without_place(2));
    }
    if !is_shape(setup) {
        return Some(without_place(3));
    }
    let observations: Vec<Observation> = lent.observations.iter().map(observation).collect();
    if let Some(place) = unsound(&observations, setup.width as u32, &lent.counts) {
        return Some(Refusal {
            number: 4,
            subject: Some(place.subject),
            observation: Some(place.observation),
        });
    }
    (!is_roomy(lent, setup)).then_some(without_place(5))
}

fn is_cohort(lent: &Lent, setup: &Setup) -> bool {
    let total: u128 = lent.counts.iter().map(|count| *count as u128).sum();
    (1..=2).contains(&setup.effects)
        && (1..=MOST_SUBJECTS).contains(&lent.counts.len())
        && lent.counts.iter().all(|count| *count >= 1)
        && total <= MOST_OBSERVATIONS as u128
        && total == lent.observations.len() as u128
}

fn is_omega(setup: &Setup) -> bool {
    let is_variance = |omega: f64| (power(-20)..=power(20)).contains(&omega);
    let [a, b, c, d] = setup.omega;
    if setup.effects == 1 {
        return is_variance(a);
    }
    let inverse = oracle::inverse_positive([[a, b], [c, d]]);
    is_variance(a) && is_variance(d) && b == c && inverse.is_some()
}

fn is_shape(setup: &Setup) -> bool {
    let is_override = |x: f64| setup.effects == 1 && x.is_finite() && x >= 0.;
    (power(-10)..=16.).contains(&setup.eta_bound)
        && setup.gradient_tolerance.is_finite()
        && setup.gradient_tolerance > 0.
        && (1..=64).contains(&setup.width)
        && (1..=100_000).contains(&setup.k)
        && setup.additive.is_none_or(is_override)
}

fn is_roomy(lent: &Lent, setup: &Setup) -> bool {
    let largest = lent.counts.iter().max().map_or(0, |count| *count as usize);
    let (subjects, lengths) = (lent.counts.len(), lent.lengths);
    lengths.work >= 12 * largest
        && lengths.cache >= 24 * setup.k as usize
        && lengths.warm >= setup.effects as usize * subjects
        && lengths.results >= 2 * lent.observations.len() + 3 * subjects
}

fn observation(one: &Observed) -> Observation {
    Observation {
        output: one.output,
        row: one.row,
        value: one.value,
        additive: one.additive,
        proportional: one.proportional,
    }
}

fn without_place(number: u32) -> Refusal {
    Refusal {
        number,
        subject: None,
        observation: None,
    }
}
