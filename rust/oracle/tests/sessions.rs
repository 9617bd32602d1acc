//! Short runs of the original through the faces for one and two effects.
#![cfg(source_at_hand)]

use oracle::session::{Observed, Question, Refusal, SensitivitySample, Settings, Simulator};
use oracle::{OneEffect, TwoEffects};
use std::cell::RefCell;
use std::rc::Rc;

fn settings() -> Settings {
    Settings {
        eta_bound: 4.,
        gradient_tolerance: 1e-4,
        max_evaluations: 10_000,
        kept_rows: 64,
        width: 1,
        output_budget: 10_000,
    }
}

fn observed(row: usize, value: f64, additive: f64, proportional: f64) -> Observed {
    Observed {
        output: 0,
        row,
        value,
        additive,
        proportional,
    }
}

fn refusal(number: u32, subject: usize, observation: Option<usize>) -> Refusal {
    Refusal {
        number,
        subject: Some(subject),
        observation,
    }
}

fn sample(prediction: f64, derivatives: &[f64]) -> SensitivitySample {
    SensitivitySample {
        time: 0.,
        side: "pre",
        values: vec![prediction],
        derivatives: derivatives.iter().map(|one| vec![*one]).collect(),
    }
}

/// `rows` rows of base + slope·individual, as document 01's program has it.
fn line(base: f64, slope: f64, rows: usize) -> Simulator {
    Box::new(move |question: &Question| {
        let prediction = base + slope * question.individual[0];
        Some(vec![sample(prediction, &[slope]); rows])
    })
}

/// Two effects: the sum of both individual values, and their difference.
fn plane() -> Simulator {
    Box::new(|question: &Question| {
        let [first, second] = question.individual;
        Some(vec![
            sample(first + second, &[1., 1.]),
            sample(first - second, &[1., -1.]),
        ])
    })
}

#[test]
fn one_effect_gives_the_printed_example() {
    let cohort = vec![vec![observed(0, 0., 1., 0.)]];
    let mut session = OneEffect::new(settings(), cohort, line(0., 0., 1));
    let objective = session.population(1., 1., None).unwrap();
    assert_eq!(objective.value.to_bits(), 0);
    assert_eq!(session.calls(), 17);
    assert_eq!(session.cached_rows(), 17);
    assert_eq!(objective.subjects[0].eta[0].to_bits(), 0);
    assert_eq!(objective.fitted[0].pred, 0.);
    assert_eq!(objective.fitted[0].ipred, 0.);
    // A second objective finds every point kept.
    session.population(1., 2., None).unwrap();
    assert_eq!(session.calls(), 17);
}

#[test]
fn what_is_asked_for_is_counted_kept_or_not() {
    let cohort = vec![vec![observed(0, 0., 1., 0.)]; 2];
    let mut few = settings();
    few.max_evaluations = 40;
    let mut session = OneEffect::new(few, cohort, line(0., 0., 1));
    for _ in 0..2 {
        session.population(1., 1., None).unwrap();
        assert_eq!((session.calls(), oracle::asked()), (34, 34));
    }
    // six more are left, and a refusal answers the seventh
    assert_eq!(session.mode(0, 2., 1., None), Err(refusal(6, 0, None)));
    assert_eq!((session.calls(), oracle::asked()), (40, 7));
    // a 7 is asked for too
    let cohort = vec![vec![observed(0, 0., 1., 0.)]];
    let two = [[1., 0.], [0., 1.]];
    let mut session = TwoEffects::new(settings(), two, cohort, plane()).unwrap();
    assert_eq!(session.mode(0, [1., -1.]), Err(refusal(7, 0, None)));
    assert_eq!((session.calls(), oracle::asked()), (1, 1));
}

#[test]
fn one_effect_respects_evaluations_and_bounds() {
    let cohort = vec![vec![observed(0, 0., 1., 0.)]];
    let mut few = settings();
    few.max_evaluations = 16;
    let mut session = OneEffect::new(few, cohort, line(0., 0., 1));
    assert_eq!(session.population(1., 1., None), Err(refusal(6, 0, None)));
    assert_eq!(session.calls(), 16);

    let cohort = vec![vec![observed(0, 1000., 1., 0.)]];
    let mut session = OneEffect::new(settings(), cohort, line(0., 1., 1));
    assert_eq!(session.population(1., 1., None), Err(refusal(13, 0, None)));
}

#[test]
fn one_effect_finds_a_mode_and_keeps_at_most_k_rows() {
    let cohort = vec![
        vec![observed(0, 2., 0.5, 0.1), observed(1, 1.5, 0.5, 0.)],
        vec![observed(0, 1., 0.5, 0.1)],
    ];
    let mut session = OneEffect::new(settings(), cohort, line(0., 1., 2));
    let objective = session.population(1., 0.5, None).unwrap();
    assert!(objective.value.is_finite());
    assert_eq!(session.warm_etas()[0], objective.subjects[0].eta[0]);
    assert!(session.calls() > 34);
    // 64 rows are full: the first subject's entries have two rows each.
    assert!(session.cached_rows() <= 64 && session.cached_rows() > 62);
    // The prior is not in what is kept, but it is in a mode's score.
    let eta = objective.subjects[1].eta[0];
    let bare = session.subject(1, 1., eta, None).unwrap();
    let mode = session.mode(1, 1., 0.5, None).unwrap().best;
    if mode.eta[0] == eta {
        assert_eq!(mode.score[0], bare.score[0] + eta / 0.5);
    }
    assert!(mode.score[0].abs() < 1e-6);
}

#[test]
fn one_effect_tells_number_and_place() {
    let cohort = |second: Observed| {
        vec![
            vec![observed(0, 0., 1., 0.)],
            vec![observed(0, 0., 1., 0.), second],
        ]
    };
    let refused = |second: Observed, simulator: Simulator| {
        OneEffect::new(settings(), cohort(second), simulator)
            .population(1., 1., None)
            .unwrap_err()
    };
    let good = observed(0, 0., 1., 0.);
    assert_eq!(
        refused(observed(1, 0., 1., 0.), line(0., 0., 1)),
        refusal(10, 1, Some(1))
    );
    assert_eq!(
        refused(observed(0, 0., 0., 1.), line(0., 0., 1)),
        refusal(11, 1, Some(1))
    );
    assert_eq!(
        refused(observed(0, 1e200, 1., 0.), line(0., 0., 1)),
        refusal(12, 1, Some(1))
    );
    assert_eq!(refused(good, Box::new(|_| None)), refusal(8, 0, None));
    assert_eq!(refused(good, line(0., 0., 6_000)), refusal(9, 0, None));

    // Each row's terms are finite, their sum is not.
    let large = observed(0, 1.3e154, 1., 0.);
    let mut session = OneEffect::new(settings(), vec![vec![large; 3]], line(0., 0., 1));
    assert_eq!(session.subject(0, 1., 0., None), Err(refusal(12, 0, None)));

    let mut session = OneEffect::new(settings(), cohort(good), line(0., 0., 1));
    assert_eq!(session.population(-1., 1., None), Err(refusal(7, 0, None)));
    assert_eq!(session.calls(), 1);
}

#[test]
fn one_effect_compares_times_at_zero_and_at_the_mode() {
    let simulator: Simulator = Box::new(|question: &Question| {
        let mut row = sample(question.individual[0], &[1.]);
        row.time = if question.subject == 1 {
            question.eta[0]
        } else {
            0.
        };
        Some(vec![row])
    });
    let cohort = vec![vec![observed(0, 1.5, 1., 0.)]; 2];
    let mut session = OneEffect::new(settings(), cohort, simulator);
    assert_eq!(session.population(1., 1., None), Err(refusal(17, 1, None)));
    // The warm start was stored before the times were compared.
    assert!(session.warm_etas()[1] != 0.);
}

#[test]
fn questions_carry_eta_and_individual_values() {
    let asked = Rc::new(RefCell::new(Vec::new()));
    let log = Rc::clone(&asked);
    let simulator: Simulator = Box::new(move |question: &Question| {
        log.borrow_mut().push(*question);
        Some(vec![sample(0., &[0.])])
    });
    let cohort = vec![vec![observed(0, 0., 1., 0.)]];
    OneEffect::new(settings(), cohort, simulator)
        .population(2., 1., None)
        .unwrap();
    let asked = asked.borrow();
    assert_eq!(asked.len(), 17);
    assert_eq!(asked[0].eta, [-4., 0.]);
    assert_eq!(asked[8].individual, [2., 0.]);
    for question in asked.iter() {
        assert_eq!(
            question.individual[0],
            2. * oracle::libm::exp(question.eta[0])
        );
    }
}

#[test]
fn two_effects_find_a_mode() {
    let cohort = vec![
        vec![observed(0, 2.5, 0.5, 0.1), observed(1, 0.25, 0.5, 0.)],
        vec![observed(0, 1.5, 0.5, 0.), observed(1, -0.25, 0.5, 0.1)],
    ];
    let omega = [[0.5, 0.1], [0.1, 0.25]];
    let mut session = TwoEffects::new(settings(), omega, cohort, plane()).unwrap();
    let objective = session.population([1., 1.]).unwrap();
    assert!(objective.value.is_finite());
    assert_eq!(session.warm_etas()[1], objective.subjects[1].eta);
    assert_eq!(objective.fitted.len(), 4);
    assert_eq!(objective.fitted[0].pred, 2.);
    assert!(session.calls() > 14 && session.cached_rows() <= 64);
    let mode = session.mode(0, [1., 1.]).unwrap();
    assert_eq!(mode.population_rows[1].prediction, 0.);
    let candidate = session.mode_from_seed(0, [1., 1.], [1., 0.]).unwrap();
    assert!((candidate.eta[0] - mode.best.eta[0]).abs() < 1e-3);
}

#[test]
fn two_effects_tell_number_and_place() {
    let unit = [[1., 0.], [0., 1.]];
    let good = observed(0, 2., 1., 0.);
    let refused = |second: Observed, simulator: Simulator| {
        TwoEffects::new(
            settings(),
            unit,
            vec![vec![good], vec![good, second]],
            simulator,
        )
        .unwrap()
        .population([1., 1.])
        .unwrap_err()
    };
    assert_eq!(
        refused(observed(2, 0., 1., 0.), plane()),
        refusal(10, 1, Some(1))
    );
    assert_eq!(
        refused(observed(1, 0., 0., 1.), plane()),
        refusal(11, 1, Some(1))
    );
    assert_eq!(
        refused(observed(0, 1e200, 1., 0.), plane()),
        refusal(12, 1, None)
    );
    assert_eq!(refused(good, Box::new(|_| None)), refusal(8, 0, None));
    let wide: Simulator = Box::new(|_| Some(vec![sample(0., &[0., 0.]); 4_000]));
    assert_eq!(refused(good, wide), refusal(9, 0, None));
    assert_eq!(
        refused(observed(0, 1e6, 1., 0.), plane()),
        refusal(13, 1, None)
    );
    assert!(TwoEffects::new(settings(), [[1., 1.], [1., 1.]], vec![], plane()).is_none());

    let mut few = settings();
    few.max_evaluations = 3;
    let mut session = TwoEffects::new(few, unit, vec![vec![good]], plane()).unwrap();
    assert_eq!(session.population([1., 1.]), Err(refusal(6, 0, None)));
    assert_eq!(session.population([1., f64::NAN]), Err(refusal(6, 0, None)));
}

/// A row held to value 1, prediction 0 and additive 1: its score is minus the
/// eta sensitivity, so that the simulator says what the search meets.
fn scored(f_eta: fn([f64; 2]) -> [f64; 2], effects: usize) -> Simulator {
    Box::new(move |question: &Question| {
        let f_eta = f_eta(question.eta);
        let derivatives = [0, 1].map(|axis| f_eta[axis] / question.individual[axis]);
        Some(vec![sample(0., &derivatives[..effects])])
    })
}

#[test]
fn one_effect_tells_the_refusals_of_mode_and_total() {
    let cohort = || vec![vec![observed(0, 1., 1., 0.)]];
    // A fall on the grid.
    let falling = scored(|eta| if eta[0] == 2. { [9., 0.] } else { [0.; 2] }, 1);
    let mut session = OneEffect::new(settings(), cohort(), falling);
    assert_eq!(session.population(1., 1., None), Err(refusal(14, 0, None)));
    // An omega so small that its inverse is not finite.
    let flat = || scored(|_| [0.; 2], 1);
    let mut session = OneEffect::new(settings(), cohort(), flat());
    assert_eq!(
        session.population(1., 1e-310, None),
        Err(refusal(16, 0, None))
    );
    // Twice the likelihood is beyond all floats.
    let large = vec![vec![observed(0, 1.3e154, 1., 0.); 2]];
    let mut session = OneEffect::new(settings(), large, flat());
    assert_eq!(
        session.population(1., 1., None),
        Err(Refusal {
            number: 18,
            subject: None,
            observation: None
        })
    );
}

#[test]
fn two_effects_tell_the_refusals_of_mode_and_total() {
    let refused = |simulator: Simulator| {
        let cohort = vec![vec![observed(0, 1., 1., 0.)]];
        TwoEffects::new(settings(), [[1., 0.], [0., 1.]], cohort, simulator)
            .unwrap()
            .population([1., 1.])
            .unwrap_err()
    };
    // A second mode at one of the starts.
    let second = scored(|eta| if eta == [2., 0.] { eta } else { [0.; 2] }, 2);
    assert_eq!(refused(second), refusal(14, 0, None));
    // No inverse in a Newton round.
    let singular = scored(|_| [1e8; 2], 2);
    assert_eq!(refused(singular), refusal(16, 0, None));
    // No inverse at the mode, where every start goes in one Newton round.
    let singular_mode = scored(|eta| if eta == [0.; 2] { [1e8; 2] } else { [0.; 2] }, 2);
    let still = vec![vec![observed(0, 0., 1., 0.)]];
    let mut session =
        TwoEffects::new(settings(), [[1., 0.], [0., 1.]], still, singular_mode).unwrap();
    assert!(session.mode(0, [1., 1.]).is_ok());
    assert_eq!(session.population([1., 1.]), Err(refusal(16, 0, None)));
    // Twice the likelihood is beyond all floats.
    let large = vec![vec![observed(0, 1.3e154, 1., 0.); 2]];
    let flat = scored(|_| [0.; 2], 2);
    let mut session = TwoEffects::new(settings(), [[1., 0.], [0., 1.]], large, flat).unwrap();
    assert_eq!(session.population([1., 1.]).unwrap_err().number, 18);
    // Times that differ from one evaluation to another, and a mode beside zero.
    let mut clock = 0.;
    let unsteady: Simulator = Box::new(move |question: &Question| {
        clock += 1.;
        let mut row = sample(question.individual[0], &[1., 0.]);
        row.time = clock;
        Some(vec![row])
    });
    let cohort = vec![vec![observed(0, 1.5, 1., 0.)]];
    let mut session = TwoEffects::new(settings(), [[1., 0.], [0., 1.]], cohort, unsteady).unwrap();
    assert_eq!(session.population([1., 1.]), Err(refusal(17, 0, None)));
    assert_eq!(session.population([1., -1.]), Err(refusal(7, 0, None)));
}
