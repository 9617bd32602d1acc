//! Our side of a session: what is lent to it, and what a host sees of it.

use crate::expected::Results;
use crate::said::Said;
use curlewstand::{Effects, Observation, OneEffect, Refusal, Session, TwoEffects};
use layer_comparison::compare::word_of;
use layer_comparison::session_words::{Lengths, Lent, Parameters, Setup};
use oracle::session::Observed;

/// All that a host sees of our side.
#[derive(Debug, PartialEq)]
pub struct Seen {
    pub tally: curlewstand::Tally,
    pub results: Results,
    pub told: Results,
    pub warm_starts: Vec<[u64; 2]>,
    pub shrinkage: Option<u64>,
}

pub fn seen(session: &Session) -> Seen {
    let warm_starts = (0..).map_while(|subject| session.warm_start(subject));
    Seen {
        tally: session.tally(),
        results: Results::of(session),
        told: Results::told(session),
        warm_starts: warm_starts.map(|warm| warm.map(word_of)).collect(),
        shrinkage: session.shrinkage().map(word_of),
    }
}

/// What our `Session` lends for a setup and observations: always enough, and nothing that
/// is only tested and never used, as omega with one effect, the tolerance with two, or an
/// override.
pub fn lent(setup: &Setup, counts: Vec<u64>, observations: Vec<Observed>) -> Lent {
    let largest = counts.iter().max().map_or(0, |count| *count as usize);
    let (omega, gradient_tolerance) = match setup.effects {
        1 => ([1., 0., 0., 0.], setup.gradient_tolerance),
        _ => (setup.omega, 1.),
    };
    Lent {
        setup: Setup {
            omega,
            gradient_tolerance,
            additive: None,
            ..setup.clone()
        },
        lengths: Lengths {
            cache: 24 * setup.k.min(100_000) as usize,
            work: 12 * largest,
            warm: (setup.effects as usize).min(2) * counts.len(),
            results: 2 * observations.len() + 3 * counts.len(),
        },
        counts,
        observations,
    }
}

/// Our session for what is lent. Nothing where it cannot be told.
pub fn open(lent: &Lent) -> Option<Result<Session, Refusal>> {
    let setup = &lent.setup;
    let [a, b, c, d] = setup.omega;
    let given = curlewstand::Setup {
        effects: match setup.effects {
            1 => Effects::One {
                gradient_tolerance: setup.gradient_tolerance,
            },
            2 => Effects::Two {
                omega: [[a, b], [c, d]],
            },
            _ => return None,
        },
        eta_bound: setup.eta_bound,
        width: u32::try_from(setup.width).ok()?,
        kept_rows: setup.k as usize,
        output_budget: u32::try_from(setup.output_budget).ok()?,
        max_evaluations: u32::try_from(setup.max_evaluations).ok()?,
    };
    let mut observations = lent.observations.iter().map(observation);
    let cohort: Vec<Vec<Observation>> = lent
        .counts
        .iter()
        .map(|count| observations.by_ref().take(*count as usize).collect())
        .collect();
    Some(Session::new(given, &cohort))
}

pub fn observation(one: &Observed) -> Observation {
    Observation {
        output: one.output,
        row: one.row,
        value: one.value,
        additive: one.additive,
        proportional: one.proportional,
    }
}

/// The parameters of an objective with so many effects. Nothing where they cannot be
/// told: with two effects there is no override.
pub fn parameters(given: &Parameters, effects: usize) -> Option<curlewstand::Parameters> {
    let Parameters {
        theta,
        omega,
        additive,
    } = *given;
    match (effects, additive) {
        (1, _) => Some(curlewstand::Parameters::One(OneEffect {
            theta: theta[0],
            omega,
            additive,
        })),
        (_, None) => Some(curlewstand::Parameters::Two(TwoEffects { theta })),
        (_, Some(_)) => None,
    }
}

pub fn opened(ours: &Option<Result<Session, Refusal>>) -> Said {
    match ours {
        Some(Err(refusal)) => Said::from(*refusal),
        _ => Said::Accepted,
    }
}
