//! Sessions through the safe crate: document 01's printed example, two effects,
//! what is refused and when, warm starts, and what can be read at every moment.

use curlewstand::*;

mod common;
use common::*;

#[test]
fn the_printed_example() {
    let mut session = Session::new(one_effect(17), &[measured(0.)]).unwrap();
    assert_eq!(session.objective(PARAMETERS, flat), Ok(0.));
    assert_eq!(session.tally().calls, 17);
    assert_eq!(session.shrinkage(), Some(1.));
    let half_log_2pi = 0.5 * (2. * std::f64::consts::PI).ln();
    let [estimate] = session.estimates().collect::<Vec<_>>()[..] else {
        panic!("there is one subject");
    };
    assert_eq!(estimate.eta, [0., 0.]);
    assert!((estimate.negative_log_likelihood - half_log_2pi).abs() < 1e-15);
    let nothing = Fitted {
        population: 0.,
        individual: 0.,
    };
    assert_eq!(session.fitted().collect::<Vec<_>>(), [nothing]);

    // all of it is kept, and the limit is no hindrance then
    assert_eq!(session.objective(PARAMETERS, flat), Ok(0.));
    assert_eq!(session.tally().calls, 17);

    let mut short = Session::new(one_effect(16), &[measured(0.)]).unwrap();
    let refusal = refused(6, Place::Subject(0));
    assert_eq!(
        short.objective(PARAMETERS, flat),
        Err(Unfinished::Refused(refusal))
    );
    assert_eq!(short.tally().calls, 16);
}

#[test]
fn a_mode_out_of_bounds() {
    let mut session = Session::new(one_effect(1000), &[measured(1000.)]).unwrap();
    let refusal = session.objective(PARAMETERS, first_value).unwrap_err();
    assert_eq!(refusal, Unfinished::Refused(refused(13, Place::Subject(0))));
    assert_eq!(refusal.refusal().reason(), Some(Reason::NoMode));
}

#[test]
fn two_effects_of_two_subjects() {
    let omega = [[1., 0.2], [0.2, 1.]];
    let cohort = [measured(1.2), measured(0.7)];
    let mut session = Session::new(two_effects(omega, 20_000), &cohort).unwrap();
    assert_eq!(session.booked(), 2 * 6343);
    let value = session.objective(PARAMETERS_2D, both_values).unwrap();
    assert!(session.ledger().taken() <= session.booked());
    assert!(u64::from(session.tally().calls) <= session.booked());
    assert_eq!(session.shrinkage(), None);
    assert_eq!((session.estimates().len(), session.fitted().len()), (2, 2));
    for (subject, estimate) in session.estimates().enumerate() {
        assert_eq!(session.warm_start(subject), Some(estimate.eta));
    }
    assert_eq!(session.warm_start(2), None);
    // the same from where it was: nothing else is found
    let again = session.objective(PARAMETERS_2D, both_values).unwrap();
    assert!((again - value).abs() < 1e-9);

    // a start beyond what exp takes is the simulator's first question no more
    session.set_warm_start(1, [0.1, 17.]).unwrap();
    assert_eq!(session.warm_start(1), Some([0.1, 17.]));
    let refusal = session.objective(PARAMETERS_2D, both_values);
    assert_eq!(refusal, unfinished(7, Place::Subject(1)));
    assert_eq!(session.estimates().len(), 1);
}

/// The number that a setup is refused with.
fn number(setup: Setup, cohort: &[Vec<Observation>]) -> Option<u32> {
    Session::new(setup, cohort)
        .err()
        .map(|refusal| refusal.number)
}

#[test]
fn cohorts_that_are_refused() {
    let good = one_effect(10);
    assert_eq!(number(good, &[measured(1.)]), None);
    assert_eq!(number(good, &[]), Some(1));
    assert_eq!(number(good, &[vec![]]), Some(1));
    assert_eq!(number(good, &vec![measured(1.); 4096]), None);
    assert_eq!(number(good, &vec![measured(1.); 4097]), Some(1));
    assert_eq!(number(good, &[measured(1.).repeat(100_001)]), Some(1));
    let no_output = Observation {
        output: 1,
        ..measured(1.)[0]
    };
    let cohort = [measured(1.), vec![measured(1.)[0], no_output]];
    let place = Place::Observation {
        subject: 1,
        observation: 1,
    };
    assert_eq!(Session::new(good, &cohort).unwrap_err(), refused(4, place));
}

#[test]
fn omegas_that_are_refused() {
    for omega in [
        [[1., 0.5], [0.4, 1.]],
        [[1., 1.], [1., 1.]],
        [[0., 0.], [0., 1.]],
        [[f64::NAN, 0.], [0., 1.]],
    ] {
        assert_eq!(
            number(two_effects(omega, 10), &[measured(1.)]),
            Some(2),
            "{omega:?}"
        );
    }
}

#[test]
fn settings_that_are_refused() {
    let good = one_effect(10);
    let width = |width| Setup { width, ..good };
    let kept_rows = |kept_rows| Setup { kept_rows, ..good };
    let tolerance = Setup {
        effects: Effects::One {
            gradient_tolerance: f64::INFINITY,
        },
        ..good
    };
    for setup in [
        width(0),
        width(65),
        kept_rows(0),
        kept_rows(usize::MAX),
        tolerance,
    ] {
        assert_eq!(number(setup, &[measured(1.)]), Some(3), "{setup:?}");
    }
}

/// Parameters of the other number of effects are refused, and nothing is begun.
#[test]
fn parameters_of_another_number_of_effects() {
    let mut one = Session::new(one_effect(1000), &[measured(1.2)]).unwrap();
    let omega = [[1., 0.], [0., 1.]];
    let mut two = Session::new(two_effects(omega, 1000), &[measured(1.2)]).unwrap();
    let (before_one, before_two) = (seen(&one), seen(&two));
    let refusal = Err(refused(1, Place::Nowhere));
    assert_eq!(one.begin(PARAMETERS_2D), refusal);
    assert_eq!(two.begin(PARAMETERS), refusal);
    assert_eq!((seen(&one), seen(&two)), (before_one, before_two));
    // while a reply is awaited no objective is due, whatever its parameters are
    one.begin(PARAMETERS).unwrap();
    assert_eq!(one.begin(PARAMETERS_2D).unwrap_err().number, 19);
}

/// Calls that are not due are refused, and alter nothing that can be read.
#[test]
fn calls_that_are_not_due() {
    let mut session = Session::new(one_effect(1000), &[measured(1.2)]).unwrap();
    let undue = refused(19, Place::Nowhere);
    assert_eq!(session.reply_words(&[]), Err(undue));
    assert_eq!(session.fail(), undue);
    let Ok(Step::Asked(question)) = session.begin(PARAMETERS) else {
        panic!("the first point of the grid is asked for");
    };
    assert_eq!((question.subject, question.eta), (0, [-4., 0.]));
    let before = seen(&session);
    assert_eq!(session.begin(PARAMETERS), Err(undue));
    assert_eq!(
        session.objective(PARAMETERS, first_value),
        Err(Unfinished::Refused(undue))
    );
    assert_eq!(session.restart(), Err(undue));
    assert_eq!(session.set_warm_start(0, [0.; 2]), Err(NotSet::Awaiting));
    assert_eq!(seen(&session), before);
    // an empty reply is whole, and its first observation has no row
    let place = Place::Observation {
        subject: 0,
        observation: 0,
    };
    assert_eq!(session.reply_words(&[]), Err(refused(10, place)));
    assert_eq!(session.reply_words(&[]), Err(undue));
    assert_eq!(session.set_warm_start(1, [0.; 2]), Err(NotSet::NoSubject));
    assert!(session.objective(PARAMETERS, first_value).is_ok());
    let finished = seen(&session);
    assert_eq!(session.fail(), undue);
    for omega in [0., f64::NAN, -1.] {
        let parameters = OneEffect::new(1., omega);
        assert_eq!(session.begin(parameters).unwrap_err().number, 2);
    }
    let negative = OneEffect {
        additive: Some(-1.),
        ..PARAMETERS
    };
    assert_eq!(session.begin(negative).unwrap_err().number, 3);
    assert_eq!(seen(&session), finished);
}

/// A simulator that fails ends its objective alone: what comes after it is what it
/// would have been.
#[test]
fn a_simulator_that_fails() {
    let cohort = [measured(1.2), measured(0.7)];
    let mut whole = Session::new(one_effect(1000), &cohort).unwrap();
    let expected = whole.objective(PARAMETERS, first_value).unwrap();
    for fails_at in [0, 1, 16, 17, 20, 30] {
        let mut session = Session::new(one_effect(1000), &cohort).unwrap();
        let mut asked = 0;
        let mut subject = 0;
        let refusal = session.objective(PARAMETERS, |question, rows| {
            subject = question.subject;
            asked += 1;
            first_value_if(asked <= fails_at, question, rows)
        });
        assert_eq!(refusal, failed(subject));
        assert_eq!(session.tally().calls, fails_at + 1);
        assert_eq!(session.estimates().len(), subject);
        assert_eq!(session.shrinkage(), None);
        // what was kept is not asked for again: only the failed one is
        let objective = session.objective(PARAMETERS, first_value).unwrap();
        assert!((objective - expected).abs() < 1e-12);
        assert!(session.tally().calls <= whole.tally().calls + 2);
    }
}

/// A reply that is not whole rows ends with 8, one beyond the budget with 9.
#[test]
fn replies_that_are_refused() {
    let tight = Setup {
        output_budget: 2,
        ..one_effect(1000)
    };
    let mut session = Session::new(tight, &[measured(1.2)]).unwrap();
    for (words, number) in [(1, 8), (3, 8), (5, 8), (8, 9), (12, 9)] {
        session.begin(PARAMETERS).unwrap();
        let refusal = session.reply_words(&vec![0; words]).unwrap_err();
        assert_eq!(refusal, refused(number, Place::Subject(0)), "{words} words");
    }
    // a row of two effects in a session of one is refused where it is added
    let expected = session.shape();
    let refusal = session.objective(PARAMETERS, |_, rows| {
        rows.push(0., Side::Pre, &[(1., [1., 1.])])
    });
    let given = Shape {
        effects: 2,
        ..expected
    };
    let error = WrongRow { given, expected };
    let refusal_8 = refused(8, Place::Subject(0));
    let wrong = Unfinished::Simulator {
        error,
        refusal: refusal_8,
    };
    assert_eq!(refusal, Err(wrong));
    // and so is a whole reply that was made for another session
    session.begin(PARAMETERS).unwrap();
    let mut others = Rows::new(given);
    others.push(0., Side::Pre, &[(1., [1., 1.])]).unwrap();
    assert_eq!(session.reply(&others), Err(refusal_8));
}

/// Words are the bits of floats, and every NaN is one.
#[test]
fn any_nan_is_any_other() {
    let place = Place::Observation {
        subject: 0,
        observation: 0,
    };
    for bits in [0x7ff8000000000000, 0xfff8000000000001, 0x7ff0000000000001] {
        let nan = f64::from_bits(bits);
        assert!(nan.is_nan());
        let mut session = Session::new(one_effect(1000), &[measured(1.2)]).unwrap();
        session.begin(PARAMETERS).unwrap();
        assert_eq!(
            session.reply_words(&[0, 0, bits, 0]),
            Err(refused(11, place))
        );
        // no cell has it inside
        session.set_warm_start(0, [nan, 0.]).unwrap();
        let [start, _] = session.warm_start(0).unwrap();
        assert_eq!(start.to_bits(), bits);
        assert!(session.objective(PARAMETERS, first_value).is_ok());
        assert!(!session.warm_start(0).unwrap()[0].is_nan());
        // a time that is no number is unequal to itself
        let timeless = session.objective(OneEffect::new(2., 1.), |question, rows| {
            rows.push(nan, Side::Pre, &[(question.individual[0], [1.])])
        });
        assert_eq!(timeless, unfinished(17, Place::Subject(0)));
    }
}

/// Each objective says its own override, or that it has none.
#[test]
fn an_override_is_the_objectives_own() {
    let objective = |additive: Option<f64>| {
        let parameters = OneEffect {
            additive,
            ..PARAMETERS
        };
        let mut session = Session::new(one_effect(1000), &[measured(1.2)]).unwrap();
        session.objective(parameters, first_value).unwrap()
    };
    assert_eq!(objective(Some(1.)), objective(None));
    assert_ne!(objective(Some(0.5)), objective(None));
}

/// Omega and the override are each objective's own, and nothing else's.
#[test]
fn omega_and_override_are_the_objectives_own() {
    let mut session = Session::new(one_effect(1000), &[measured(1.2)]).unwrap();
    let mut objective = |omega: f64, additive: Option<f64>| {
        let parameters = OneEffect {
            theta: 1.,
            omega,
            additive,
        };
        session.objective(parameters, first_value).unwrap()
    };
    let plain = objective(1., None);
    assert_eq!(objective(1., Some(1.)), plain);
    assert_ne!(objective(1., Some(0.5)), plain);
    assert_ne!(objective(0.5, None), plain);
    assert!((objective(1., None) - plain).abs() < 1e-12);
}

#[test]
fn each_number_has_its_reason() {
    assert_eq!(Reason::all().len(), 20);
    for (number, reason) in (1..).zip(Reason::all()) {
        assert_eq!(Reason::of(number), Some(reason));
        assert_eq!(reason as u32, number);
        assert_eq!(reason.ends_objective(), (6..=18).contains(&number));
        let refusal = refused(number, Place::Nowhere);
        assert_eq!(
            refusal.to_string(),
            format!("{number}: {}", reason.sentence())
        );
        assert!(!reason.advice().is_empty() && !reason.place().is_empty());
        for other in 1..number {
            assert_ne!(Reason::of(other).unwrap().sentence(), reason.sentence());
        }
    }
    assert_eq!((Reason::of(0), Reason::of(21)), (None, None));
    assert_eq!(refused(21, Place::Nowhere).sentence(), "an unknown refusal");
}
