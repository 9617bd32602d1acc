//! An objective from beginning to end, with the simulator as a closure.

use super::{Question, Session, Step};
use crate::{Parameters, Progress, Refusal, Rows};
use std::error::Error;
use std::fmt;
use std::ops::ControlFlow;

/// Why an objective has no value, with the refusal that it ended with.
///
///     use curlewstand::{Place, Refusal, Unfinished};
///
///     let refusal = Refusal { number: 8, place: Place::Subject(2) };
///     let failed = Unfinished::Simulator { error: "step size too small", refusal };
///     assert_eq!(failed.refusal(), refusal);
///     assert_eq!(failed.to_string(), "the simulator failed for subject 2: step size too small");
#[derive(Clone, Copy, Debug, PartialEq, Eq)]
pub enum Unfinished<E> {
    /// The core refused.
    Refused(Refusal),
    /// The simulator failed, with the host's own error; to the core that is an 8.
    Simulator {
        /// What the simulator returned.
        error: E,
        /// What the objective ended with.
        refusal: Refusal,
    },
    /// The observer stopped it; to the core that is an 8 too.
    Stopped(Refusal),
}

impl<E> Unfinished<E> {
    /// What the objective ended with.
    ///
    ///     # use curlewstand::{Place, Refusal, Unfinished};
    ///     let refusal = Refusal { number: 6, place: Place::Subject(0) };
    ///     assert_eq!(Unfinished::<()>::Refused(refusal).refusal(), refusal);
    pub fn refusal(&self) -> Refusal {
        match *self {
            Unfinished::Refused(refusal) => refusal,
            Unfinished::Simulator { refusal, .. } => refusal,
            Unfinished::Stopped(refusal) => refusal,
        }
    }
}

impl<E: fmt::Display> fmt::Display for Unfinished<E> {
    fn fmt(&self, f: &mut fmt::Formatter<'_>) -> fmt::Result {
        let subject = self.refusal().place.subject().unwrap_or(0);
        match self {
            Unfinished::Refused(refusal) => refusal.fmt(f),
            Unfinished::Simulator { error, .. } => {
                write!(f, "the simulator failed for subject {subject}: {error}")
            }
            Unfinished::Stopped(_) => write!(f, "the objective was stopped at subject {subject}"),
        }
    }
}

impl<E: fmt::Debug + fmt::Display> Error for Unfinished<E> {}

/// An objective that is under way. It leaves no question behind, also where the simulator
/// or the observer panics.
struct Answered<'a>(&'a mut Session);

impl Answered<'_> {
    /// Question and reply until there is no question.
    fn lead<E>(
        self,
        mut step: Step,
        simulate: &mut impl FnMut(&Question, &mut Rows) -> Result<(), E>,
        observe: &mut impl FnMut(&Progress) -> ControlFlow<()>,
    ) -> Result<f64, Unfinished<E>> {
        let session = &mut *self.0;
        let mut rows = session.rows();
        loop {
            let question = match step {
                Step::Finished(objective) => return Ok(objective),
                Step::Asked(question) => question,
            };
            if observe(&session.progress()).is_break() {
                return Err(Unfinished::Stopped(session.fail()));
            }
            rows.clear();
            if let Err(error) = simulate(&question, &mut rows) {
                let refusal = session.fail();
                return Err(Unfinished::Simulator { error, refusal });
            }
            step = session.reply(&rows).map_err(Unfinished::Refused)?;
        }
    }
}

impl Drop for Answered<'_> {
    fn drop(&mut self) {
        if self.0.awaits_reply() {
            self.0.fail();
        }
    }
}

impl Session {
    /// An objective from beginning to end: -2 log likelihood without the observations'
    /// log 2π, as NONMEM's OFV. The simulator is given each question and an empty reply,
    /// to which it adds its rows; an error of its own ends the objective and is handed
    /// back.
    ///
    ///     # use curlewstand::*;
    ///     # let one = Observation { output: 0, row: 0, value: 1.2, additive: 1., proportional: 0. };
    ///     # let mut session = Session::new(Setup::one_effect(100), &[vec![one]]).unwrap();
    ///     let objective = session.objective(OneEffect::new(1., 1.), |question, rows| {
    ///         rows.push(0., Side::Post, &[(question.individual[0], [1.])])
    ///     });
    ///     assert!(objective.is_ok());
    ///     let failed = session.objective(OneEffect::new(2., 1.), |_, _| Err("no licence"));
    ///     let Err(Unfinished::Simulator { error, refusal }) = failed else { panic!() };
    ///     assert_eq!((error, refusal.number), ("no licence", 8));
    pub fn objective<E>(
        &mut self,
        parameters: impl Into<Parameters>,
        simulate: impl FnMut(&Question, &mut Rows) -> Result<(), E>,
    ) -> Result<f64, Unfinished<E>> {
        self.objective_with_progress(parameters, simulate, |_| ControlFlow::Continue(()))
    }

    /// The same, with an observer that is told how far it has come: with each question,
    /// before the simulator gets it, and once in the end, whether the objective is
    /// finished or refused. It may stop the objective at a question.
    ///
    ///     use curlewstand::*;
    ///     use std::ops::ControlFlow;
    ///
    ///     # let one = Observation { output: 0, row: 0, value: 1.2, additive: 1., proportional: 0. };
    ///     # let mut session = Session::new(Setup::one_effect(100), &[vec![one]]).unwrap();
    ///     let simulate = |question: &Question, rows: &mut Rows| {
    ///         rows.push(0., Side::Post, &[(question.individual[0], [1.])])
    ///     };
    ///     let mut told = Vec::new();
    ///     let observe = |progress: &Progress| {
    ///         told.push(*progress);
    ///         if progress.taken > 5 { ControlFlow::Break(()) } else { ControlFlow::Continue(()) }
    ///     };
    ///     let stopped = session.objective_with_progress(OneEffect::new(1., 1.), simulate, observe);
    ///     assert!(matches!(stopped, Err(Unfinished::Stopped(_))));
    ///     // six questions, and the end
    ///     assert_eq!((told.len(), told[6].subject, told[6].taken), (7, None, 6));
    ///     // what was kept is not taken again
    ///     assert!(session.objective(OneEffect::new(1., 1.), simulate).is_ok());
    ///
    /// An observer that stops nothing is told of each evaluation.
    ///
    ///     # use curlewstand::*;
    ///     # use std::ops::ControlFlow;
    ///     # let one = Observation { output: 0, row: 0, value: 1.2, additive: 1., proportional: 0. };
    ///     # let mut session = Session::new(Setup::one_effect(100), &[vec![one]]).unwrap();
    ///     let mut told = Vec::new();
    ///     let objective = session.objective_with_progress(
    ///         OneEffect::new(1., 1.),
    ///         |question, rows| rows.push(0., Side::Pre, &[(question.individual[0], [1.])]),
    ///         |progress| {
    ///             told.push(*progress);
    ///             ControlFlow::Continue(())
    ///         },
    ///     );
    ///     assert!(objective.is_ok());
    ///     let (first, last) = (told[0], told[told.len() - 1]);
    ///     assert_eq!((first.subject, first.taken, first.booked), (Some(0), 1, 82));
    ///     assert_eq!((last.subject, last.passed), (None, 1));
    ///     assert_eq!(told.len(), last.taken as usize + 1);
    pub fn objective_with_progress<E>(
        &mut self,
        parameters: impl Into<Parameters>,
        mut simulate: impl FnMut(&Question, &mut Rows) -> Result<(), E>,
        mut observe: impl FnMut(&Progress) -> ControlFlow<()>,
    ) -> Result<f64, Unfinished<E>> {
        let ended = match self.begin(parameters) {
            Ok(step) => Answered(self).lead(step, &mut simulate, &mut observe),
            // a question that stood before is not this objective's, and stays
            Err(refusal) => Err(Unfinished::Refused(refusal)),
        };
        // the end is told, and there is nothing left to stop
        let _ = observe(&self.progress());
        ended
    }
}
