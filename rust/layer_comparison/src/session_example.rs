//! Document 01's printed example as a session, and the worked sessions with two
//! effects.

use crate::session_plan::{AnyModel, Clock, Objective, Plan, Step, Subject};
use crate::session_words::{Lengths, Parameters, Setup};
use crate::simulators::{Kind, Model};
use crate::simulators_2d::{Kind2, Model2};
use oracle::session::Observed;

/// It needs 17 evaluations.
pub fn printed_example(max_evaluations: u64) -> Plan {
    Plan {
        setup: Setup {
            effects: 1,
            omega: [1., 0., 0., 0.],
            eta_bound: 4.,
            gradient_tolerance: 1e-4,
            width: 1,
            k: 64,
            additive: None,
            output_budget: 10_000,
            max_evaluations,
        },
        lengths: Lengths {
            cache: 24 * 64,
            work: 12,
            warm: 1,
            results: 5,
        },
        subjects: vec![subject(
            AnyModel::One(Model {
                kind: Kind::Line,
                parameters: [0.; 3],
                seed: 0,
            }),
            0.,
            1.,
        )],
        steps: vec![Step::Setup, objective([1., 0.])],
    }
}

/// The session of crates/test_marked/specs/Session2.antt, with this eta_bound and
/// simulator.
pub fn worked_example(eta_bound: f64, kind: Kind2, parameters: [f64; 3]) -> Plan {
    let model = Model2 {
        kind,
        parameters,
        seed: 0,
    };
    Plan {
        setup: Setup {
            effects: 2,
            omega: [1., 0.5, 0.5, 1.],
            eta_bound,
            gradient_tolerance: 1e-4,
            width: 1,
            k: 25,
            additive: None,
            output_budget: 3,
            max_evaluations: 25,
        },
        lengths: Lengths {
            cache: 24 * 25,
            work: 12,
            warm: 2,
            results: 5,
        },
        subjects: vec![subject(AnyModel::Two(model), 3., 0.5)],
        steps: vec![Step::Setup, objective([1., 1.])],
    }
}

fn objective(theta: [f64; 2]) -> Step {
    Step::Objective(Objective {
        parameters: Parameters {
            theta,
            omega: 1.,
            additive: None,
        },
        strays: Vec::new(),
        faults: Vec::new(),
        left_at: None,
    })
}

/// One observation, with its value and additive deviation.
fn subject(model: AnyModel, value: f64, additive: f64) -> Subject {
    Subject {
        model,
        observations: vec![Observed {
            output: 0,
            row: 0,
            value,
            additive,
            proportional: 0.,
        }],
        known: 1,
        rows: 1,
        clock: Clock::Steady,
        drift: 0.,
        filler: 0.,
    }
}
