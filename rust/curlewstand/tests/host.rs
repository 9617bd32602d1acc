//! What a host meets: a model that changes, a simulator that fails or panics, an observer
//! that stops, what was taken and booked, and derivatives that are wrong.

use curlewstand::*;
use std::ops::ControlFlow;
use std::panic::{AssertUnwindSafe, catch_unwind};

mod common;
use common::*;

fn cohort() -> [Vec<Observation>; 2] {
    [measured(1.2), measured(0.7)]
}

fn session(max_evaluations: u32) -> Session {
    Session::new(one_effect(max_evaluations), &cohort()).unwrap()
}

/// The model predicts the individual value times a factor that is not theta.
fn scaled(factor: f64) -> impl FnMut(&Question, &mut Rows) -> Result<(), WrongRow> {
    move |question, rows| {
        let value = factor * question.individual[0];
        rows.push(0., Side::Post, &[(value, [factor])])
    }
}

/// After a restart the objective is that of the new model, as a session that is opened
/// for it gives it from the same starts; without one it is still the old model's.
#[test]
fn another_model_after_a_restart() {
    let mut session = session(1000);
    let first = session.objective(PARAMETERS, scaled(1.)).unwrap();
    let modes: Vec<[f64; 2]> = session.estimates().map(|one| one.eta).collect();
    let mut fresh = self::session(1000);
    for (subject, eta) in modes.iter().enumerate() {
        fresh.set_warm_start(subject, *eta).unwrap();
    }
    let expected = fresh.objective(PARAMETERS, scaled(1.3)).unwrap();
    assert!((expected - first).abs() > 0.01);

    let mut kept = session.clone();
    let stale = kept.objective(PARAMETERS, scaled(1.3)).unwrap();
    assert!((stale - first).abs() < 0.01, "{stale} for {first}");

    session.restart().unwrap();
    assert_eq!(session.estimates().len(), 0);
    assert_eq!(
        (session.shrinkage(), session.tally()),
        (None, Tally::default())
    );
    for (subject, eta) in modes.iter().enumerate() {
        assert_eq!(session.warm_start(subject), Some(*eta));
    }
    let restarted = session.objective(PARAMETERS, scaled(1.3));
    assert_eq!(restarted, Ok(expected));
    assert_eq!(session.tally(), fresh.tally());
}

/// What was taken before a restart still counts, in the ledger and against the limit.
#[test]
fn evaluations_over_restarts() {
    let mut ample = session(1000);
    ample.objective(PARAMETERS, first_value).unwrap();
    let first = ample.tally().calls;
    ample.restart().unwrap();
    ample.objective(PARAMETERS, first_value).unwrap();
    let second = ample.tally().calls;
    assert!(first > 0 && second > 0);
    assert_eq!(ample.ledger().taken(), u64::from(first + second));

    for (limit, ends) in [(first + second, true), (first + second - 1, false)] {
        let mut session = session(limit);
        session.objective(PARAMETERS, first_value).unwrap();
        session.restart().unwrap();
        let ended = session.objective(PARAMETERS, first_value);
        assert_eq!(ended.is_ok(), ends, "{limit}");
        if let Err(unfinished) = ended {
            assert_eq!(
                unfinished.refusal().reason(),
                Some(Reason::NoEvaluationLeft)
            );
        }
        assert_eq!(session.ledger().taken(), u64::from(limit));
    }
}

/// A panic ends its objective, and the session goes on.
#[test]
fn panics_leave_no_question() {
    let mut whole = session(1000);
    let expected = whole.objective(PARAMETERS, first_value).unwrap();
    let simulator = |session: &mut Session| {
        let mut asked = 0;
        let _ = session.objective(PARAMETERS, |question, rows| {
            asked += 1;
            assert!(asked < 20, "the simulator panics");
            first_value(question, rows)
        });
    };
    let observer = |session: &mut Session| {
        let _ = session.objective_with_progress(PARAMETERS, first_value, |progress| {
            assert!(progress.taken < 20, "the observer panics");
            ControlFlow::Continue(())
        });
    };
    for panics in [&simulator as &dyn Fn(&mut Session), &observer] {
        let mut session = session(1000);
        let caught = catch_unwind(AssertUnwindSafe(|| panics(&mut session)));
        assert!(caught.is_err());
        assert!(!session.awaits_reply());
        let End::Refused(refusal) = session.ledger().entries()[0].end else {
            panic!("the objective has ended");
        };
        assert_eq!(refusal.number, 8);
        let objective = session.objective(PARAMETERS, first_value).unwrap();
        assert!((objective - expected).abs() < 1e-12);
    }
}

/// A question that the host itself leads is not given up by a call that is refused.
#[test]
fn a_question_of_the_hosts_own_stays() {
    let mut session = session(1000);
    session.begin(PARAMETERS).unwrap();
    let refused = session.objective(PARAMETERS, first_value);
    assert_eq!(refused, unfinished(19, Place::Nowhere));
    assert!(session.awaits_reply());
}

#[test]
fn an_observer_stops_an_objective() {
    let mut session = session(1000);
    let mut ends = 0;
    let stopped =
        session.objective_with_progress(PARAMETERS, first_value, |progress| {
            match progress.subject {
                Some(1) => ControlFlow::Break(()),
                Some(_) => ControlFlow::Continue(()),
                None => {
                    ends += 1;
                    ControlFlow::Break(())
                }
            }
        });
    let refusal = refused(8, Place::Subject(1));
    assert_eq!(stopped, Err(Unfinished::Stopped(refusal)));
    assert_eq!(ends, 1);
    assert_eq!(session.estimates().len(), 1);
    assert_eq!(session.ledger().entries()[0].end, End::Refused(refusal));
    // at the end there is nothing left to stop
    let objective = session.objective_with_progress(PARAMETERS, first_value, |progress| {
        match progress.subject {
            Some(_) => ControlFlow::Continue(()),
            None => ControlFlow::Break(()),
        }
    });
    assert!(objective.is_ok());
}

/// The host's own error comes back as it was, whatever its type.
#[test]
fn the_simulators_own_error() {
    let mut session = session(1000);
    let failed = session.objective(PARAMETERS, |_, _| "x".parse::<f64>().map(|_| ()));
    let Err(Unfinished::Simulator { error, refusal }) = failed else {
        panic!("the simulator failed");
    };
    assert_eq!(error, "x".parse::<f64>().unwrap_err());
    assert_eq!(refusal, refused(8, Place::Subject(0)));
}

#[test]
fn the_ledger_of_a_session() {
    let mut session = session(1000);
    let value = session.objective(PARAMETERS, first_value).unwrap();
    let taken = session.tally().calls;
    // refused outright: no objective was begun
    assert!(session.begin(OneEffect::new(1., 0.)).is_err());
    assert!(session.begin(PARAMETERS_2D).is_err());
    session.begin(OneEffect::new(3., 1.)).unwrap();
    assert_eq!(session.ledger().entries()[1].end, End::Awaiting);
    assert_eq!(session.ledger().entries()[1].taken, 1);
    let refusal = session.fail();
    // not due: what is entered stays
    session.fail();
    let entries = [(taken, End::Finished(value)), (1, End::Refused(refusal))];
    let entries = entries.map(|(taken, end)| Entry {
        subjects: 2,
        taken,
        booked: 164,
        end,
    });
    assert_eq!(session.ledger().entries(), entries);
    assert_eq!(
        session.ledger().to_string(),
        format!(
            "objective 1: 2 subjects, {taken} taken, 164 booked, finished at {value}\n\
             objective 2: 2 subjects, 1 taken, 164 booked, refused: {refusal}\n\
             2 objectives, {} taken, 328 booked",
            taken + 1
        )
    );
}

/// Two outputs in each of two rows, whose derivatives are handed on by `given`.
fn check(
    given: impl Fn(usize, usize, usize, f64, f64) -> f64,
) -> Result<(), WrongDerivatives<WrongRow>> {
    let setup = Setup {
        width: 2,
        ..two_effects([[1., 0.], [0., 1.]], 10)
    };
    let session = Session::new(setup, &[measured(1.), measured(2.)]).unwrap();
    session.check_derivatives(TwoEffects { theta: [2., 0.5] }, |question, rows| {
        let [a, b] = question.individual;
        for row in 0..2 {
            let time = row as f64;
            let sum = (a + time * b, [1., time]);
            let product = (a * b * b, [b * b, 2. * a * b]);
            let outputs = [sum, product].into_iter().enumerate();
            let outputs = outputs.map(|(output, (value, by))| {
                let given = |effect: usize| {
                    given(row, output, effect, by[effect], question.individual[effect])
                };
                (value, [given(0), given(1)])
            });
            rows.push(time, Side::Post, &outputs.collect::<Vec<_>>())?;
        }
        Ok(())
    })
}

#[test]
fn derivatives_that_are_right() {
    assert_eq!(check(|_, _, _, by, _| by), Ok(()));
}

/// One derivative by eta in place of the individual value, and other faults, wherever
/// they stand.
#[test]
fn derivatives_that_are_wrong() {
    let places = (0..8).map(|at| (at / 4, at / 2 % 2, at % 2));
    // the first output does not depend on the second value in the first row
    for place in places.filter(|place| *place != (0, 0, 1)) {
        let faults: [fn(f64, f64) -> f64; 3] = [|by, x| by * x, |by, _| -by, |_, _| f64::NAN];
        for (fault, is_by_eta) in faults.into_iter().zip([true, false, false]) {
            let found = check(|row, output, effect, by, x| {
                let here = (row, output, effect) == place;
                if here { fault(by, x) } else { by }
            });
            let Err(WrongDerivatives::Derivative(wrong)) = found else {
                panic!("{place:?}: {found:?}");
            };
            assert_eq!((wrong.row, wrong.output, wrong.effect), place);
            assert_eq!(wrong.is_by_eta(), is_by_eta, "{wrong}");
        }
    }
}

#[test]
fn derivatives_that_cannot_be_checked() {
    let session = session(10);
    let effects = session.check_derivatives(PARAMETERS_2D, first_value);
    assert_eq!(effects, Err(WrongDerivatives::Effects));
    let failed = session.check_derivatives(PARAMETERS, |_, _| Err("no licence"));
    assert_eq!(failed, Err(WrongDerivatives::Simulator("no licence")));
    let moved = session.check_derivatives(PARAMETERS, |question, rows| {
        let x = question.individual[0];
        rows.push(x, Side::Post, &[(x, [1.])])
    });
    assert!(matches!(moved, Err(WrongDerivatives::RowsMoved { .. })));
    assert_eq!(session.tally().calls, 0);
}
