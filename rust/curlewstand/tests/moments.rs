//! What can be read of a session at every moment, what an observer is told, and the
//! ceilings.

use curlewstand::*;
use std::ops::ControlFlow;

mod common;
use common::*;

/// Three subjects with one, two and three observations.
fn cohort() -> Vec<Vec<Observation>> {
    vec![
        measured(1.2),
        measured(0.7).repeat(2),
        measured(1.5).repeat(3),
    ]
}

fn session() -> Session {
    Session::new(one_effect(1000), &cohort()).unwrap()
}

/// Replies to questions until one is of this subject, or the objective is finished.
fn lead_to(session: &mut Session, mut step: Step, subject: usize) -> Step {
    loop {
        match step {
            Step::Asked(question) if question.subject < subject => {
                let mut rows = session.rows();
                first_value(&question, &mut rows).unwrap();
                step = session.reply(&rows).unwrap();
            }
            step => return step,
        }
    }
}

/// The etas, and how many fitted rows there are.
fn shown(session: &Session) -> (Vec<f64>, usize) {
    let etas = session.estimates().map(|estimate| estimate.eta[0]);
    (etas.collect(), session.fitted().len())
}

#[test]
fn before_the_first_objective() {
    let session = session();
    assert_eq!(shown(&session), (vec![], 0));
    assert_eq!(session.shrinkage(), None);
    assert_eq!(session.tally(), Tally::default());
    let nothing = Progress {
        subject: None,
        passed: 0,
        subjects: 3,
        taken: 0,
        booked: 3 * 82,
        tally: Tally::default(),
    };
    assert_eq!(session.progress(), nothing);
}

#[test]
fn in_the_midst_and_in_the_end() {
    let mut session = session();
    let mut step = session.begin(PARAMETERS).unwrap();
    // of each subject that has its mode, and its rows, and nothing of the rest
    for (subject, rows) in [(0, 0), (1, 1), (2, 3)] {
        step = lead_to(&mut session, step, subject);
        assert!(session.awaits_reply());
        let (etas, fitted) = shown(&session);
        assert_eq!((etas.len(), fitted), (subject, rows));
        assert_eq!(session.shrinkage(), None);
        assert_eq!(session.progress().subject, Some(subject));
    }
    step = lead_to(&mut session, step, 3);
    assert!(matches!(step, Step::Finished(_)) && !session.awaits_reply());
    let (etas, fitted) = shown(&session);
    assert_eq!((etas.len(), fitted), (3, 6));
    let squares: f64 = etas.iter().map(|eta| eta * eta).sum();
    assert_eq!(session.shrinkage(), Some(1. - squares / 3.));
    assert_eq!(session.progress().subject, None);
}

/// With another omega, where the shrinkage must be by that of the objective.
#[test]
fn after_another_objective() {
    let mut session = session();
    session.objective(PARAMETERS, first_value).unwrap();
    let first = shown(&session);
    // the next objective hides what the first one found as soon as it asks
    let other = OneEffect::new(1.5, 0.25);
    let step = session.begin(other).unwrap();
    assert_eq!(shown(&session), (vec![], 0));
    assert_eq!(session.shrinkage(), None);
    lead_to(&mut session, step, 3);
    let (etas, fitted) = shown(&session);
    assert_eq!(fitted, first.1);
    assert_ne!(etas, first.0);
    let squares: f64 = etas.iter().map(|eta| eta * eta).sum();
    assert_eq!(session.shrinkage(), Some(1. - squares / 3. / 0.25));
}

#[test]
fn after_a_refusal() {
    let mut session = session();
    session.objective(PARAMETERS, first_value).unwrap();
    let first = shown(&session).0;
    let words = session.result_words().to_vec();
    let other = OneEffect::new(1.5, 1.);
    let refusal = session.objective(other, |question, rows| {
        first_value_if(question.subject < 2, question, rows)
    });
    assert_eq!(refusal, failed(2));
    // two subjects of the refused objective, and nothing of the one before it
    let (etas, fitted) = shown(&session);
    assert_eq!((etas.len(), fitted), (2, 3));
    assert!(etas[0] != first[0] && etas[1] != first[1]);
    assert_eq!(session.shrinkage(), None);
    // the third keeps its words, those of its three observations too, and its start
    assert_eq!(session.result_words()[6..9], words[6..9]);
    assert_eq!(session.result_words()[9 + 2 * 3..], words[9 + 2 * 3..]);
    assert_ne!(session.result_words()[..3], words[..3]);
    assert_eq!(session.warm_start(2), Some([first[2], 0.]));
}

/// 18 is of no subject: each has its mode, and the objective is not finite.
#[test]
fn after_an_objective_that_is_not_finite() {
    let cohort = [measured(1.2e154), measured(1.2e154)];
    let mut session = Session::new(one_effect(1000), &cohort).unwrap();
    let refusal = session.objective(PARAMETERS, flat);
    assert_eq!(refusal, unfinished(18, Place::Nowhere));
    assert_eq!(shown(&session), (vec![0., 0.], 2));
    assert_eq!(session.shrinkage(), None);
    assert_eq!(session.progress().passed, 2);
}

/// A copy made in the midst of an objective goes on as the session does.
#[test]
fn a_copy_in_the_midst() {
    let mut session = session();
    let step = session.begin(PARAMETERS).unwrap();
    let step = lead_to(&mut session, step, 1);
    let mut copy = session.clone();
    let end = lead_to(&mut session, step, 3);
    assert_eq!(lead_to(&mut copy, step, 3), end);
    assert_eq!(seen(&copy), seen(&session));
}

/// What an observer is told from question to question.
#[test]
fn progress_of_an_objective() {
    let mut session = session();
    let mut told: Vec<Progress> = Vec::new();
    let mut questions = Vec::new();
    let objective = session.objective_with_progress(
        PARAMETERS,
        |question, rows| {
            questions.push(question.subject);
            first_value(question, rows)
        },
        |progress| {
            told.push(*progress);
            ControlFlow::Continue(())
        },
    );
    assert!(objective.is_ok());
    let (last, asked) = told.split_last().unwrap();
    let subjects: Vec<usize> = asked.iter().filter_map(|p| p.subject).collect();
    assert_eq!(subjects, questions);
    for (number, progress) in asked.iter().enumerate() {
        assert_eq!(progress.taken as usize, number + 1);
        assert_eq!(progress.tally.calls, progress.taken);
        assert_eq!(Some(progress.passed), progress.subject);
        assert_eq!((progress.subjects, progress.booked), (3, 246));
    }
    assert_eq!((last.subject, last.passed), (None, 3));
    assert_eq!(
        (last.fraction(), last.unused()),
        (1., 246 - u64::from(last.taken))
    );
    assert_eq!(last.taken as usize, questions.len());
    assert_eq!(*last, session.progress());
    assert!(last.tally.cached_rows <= 64);
}

/// A later objective counts its own evaluations, and what is kept costs none; a
/// refused one is told of too.
#[test]
fn progress_of_later_objectives() {
    let mut session = session();
    session.objective(PARAMETERS, first_value).unwrap();
    let before = session.tally().calls;
    let mut told = Vec::new();
    let refusal = session.objective_with_progress(
        OneEffect::new(2., 1.),
        |question, rows| first_value_if(question.subject < 1, question, rows),
        |progress| {
            told.push(*progress);
            ControlFlow::Continue(())
        },
    );
    assert_eq!(refusal, failed(1));
    assert_eq!((told[0].taken, told[0].tally.calls), (1, before + 1));
    let last = told.last().unwrap();
    assert_eq!((last.subject, last.passed), (None, 1));
    assert_eq!(last.tally.calls, before + last.taken);

    // a call that is refused outright is one step, and what it tells of is as it was
    let standing = session.progress();
    told.clear();
    let unset = OneEffect::new(1., 0.);
    let refusal = session.objective_with_progress(unset, first_value, |progress| {
        told.push(*progress);
        ControlFlow::Continue(())
    });
    assert_eq!(refusal, unfinished(2, Place::Nowhere));
    assert_eq!(told, [standing]);
}

/// The generator of Knuth's MMIX, from 0 to below 1.
struct Draws(u64);

impl Draws {
    fn next(&mut self) -> f64 {
        let product = self.0.wrapping_mul(6364136223846793005);
        self.0 = product.wrapping_add(1442695040888963407);
        (self.0 >> 11) as f64 / (1u64 << 53) as f64
    }
}

/// An objective of one subject whose simulator is noisy, so that a repeated question
/// gets another answer: the evaluations taken, and whether it came to a mode.
fn noisy(setup: Setup, parameters: Parameters, draws: &mut Draws) -> (u32, bool) {
    let mut session = Session::new(setup, &[measured(1.)]).unwrap();
    let (effects, noise) = (session.shape().effects, 4. * draws.next() * draws.next());
    let ended = session.objective(parameters, |question, rows| {
        let [a, b] = question
            .individual
            .map(|x| x + noise * (draws.next() - 0.5));
        match effects {
            1 => rows.push(0., Side::Pre, &[(a, [1.])]),
            _ => rows.push(0., Side::Pre, &[(a * b, [b, a])]),
        }
    });
    let progress = session.progress();
    assert!(u64::from(progress.taken) <= progress.booked);
    (progress.taken, ended.is_ok())
}

/// Whatever a simulator replies, no subject's search takes more than its ceiling.
#[test]
fn ceilings() {
    let mut draws = Draws(1);
    let one = (one_effect(u32::MAX), PARAMETERS.into(), 82, 3000);
    let omega = [[1., 0.2], [0.2, 1.]];
    let two = (
        two_effects(omega, u32::MAX),
        PARAMETERS_2D.into(),
        6_343,
        300,
    );
    for (setup, parameters, ceiling, runs) in [one, two] {
        assert_eq!(setup.effects.ceiling(), ceiling);
        let ends: Vec<(u32, bool)> = (0..runs)
            .map(|_| noisy(setup, parameters, &mut draws))
            .collect();
        let most = ends.iter().map(|end| end.0).max().unwrap();
        let modes = ends.iter().filter(|end| end.1).count();
        // both ends are met, and searches longer than those of a smooth model
        assert!(0 < modes && modes < runs, "{modes} modes");
        assert!((30..=ceiling).contains(&most), "{most} evaluations");
    }
}
