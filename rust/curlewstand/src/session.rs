//! Whole sessions: all that is lent to the core, and the calls over it.

mod objective;
mod results;

use crate::ffi;
use crate::{
    Effects, End, Entry, Ledger, Observation, Parameters, Place, Progress, Reason, Refusal, Rows,
    Setup, Shape, Tally,
};
use std::error::Error;
use std::fmt;

pub use objective::Unfinished;
#[cfg(test)]
pub(crate) use results::{ESTIMATE_WORDS, FITTED_WORDS};
pub use results::{Estimate, Fitted};

/// The most rows that can be kept.
const MOST_ROWS: usize = 100_000;
/// The words that are lent for each row of K.
pub(crate) const WORDS_FOR_A_ROW: usize = 24;
/// The work words that are lent for each observation of the largest subject.
pub(crate) const WORK_WORDS: usize = 12;
pub(crate) const STATE_WORDS: usize = 44;
pub(crate) const ANSWER_WORDS: usize = 5;
/// The state's word that has the subject which is searched.
pub(crate) const SUBJECT: usize = 8;
/// The state's word that has the number of that subject's first observation.
pub(crate) const FIRST: usize = 9;

/// What the simulator is asked.
///
///     # use curlewstand::*;
///     # let one = Observation { output: 0, row: 0, value: 1.2, additive: 1., proportional: 0. };
///     # let mut session = Session::new(Setup::one_effect(100), &[vec![one]]).unwrap();
///     let Ok(Step::Asked(question)) = session.begin(OneEffect::new(2., 1.)) else {
///         panic!("the first point of the grid is asked for");
///     };
///     assert_eq!((question.subject, question.eta[0]), (0, -4.));
///     assert!((question.individual[0] - 2. * (-4f64).exp()).abs() < 1e-12);
#[derive(Clone, Copy, Debug, PartialEq)]
pub struct Question {
    /// Whose rows they are, counted from 0.
    pub subject: usize,
    /// The effects. With one effect the second is 0.
    pub eta: [f64; 2],
    /// theta · exp(eta), to simulate with. With one effect the second is 0.
    pub individual: [f64; 2],
}

/// Where an objective stands.
///
///     # use curlewstand::Step;
///     let step = Step::Finished(-3.5);
///     assert!(matches!(step, Step::Finished(objective) if objective < 0.));
#[derive(Clone, Copy, Debug, PartialEq)]
pub enum Step {
    /// A reply is awaited.
    Asked(Question),
    /// The objective: -2 log likelihood without the observations' log 2π.
    Finished(f64),
}

/// Why a warm start was not set.
///
///     use curlewstand::NotSet;
///
///     assert_eq!(NotSet::NoSubject.to_string(), "there is no such subject");
#[derive(Clone, Copy, Debug, PartialEq, Eq)]
pub enum NotSet {
    /// There is no such subject.
    NoSubject,
    /// A reply is awaited: warm starts are set between objectives.
    Awaiting,
}

impl fmt::Display for NotSet {
    fn fmt(&self, f: &mut fmt::Formatter<'_>) -> fmt::Result {
        f.write_str(match self {
            NotSet::NoSubject => "there is no such subject",
            NotSet::Awaiting => "a reply is awaited: warm starts are set between objectives",
        })
    }
}

impl Error for NotSet {}

/// A session, which owns all that it lends to the core: objectives of a population fit,
/// with the simulator and the outer fit in the host's hands. [The crate's page](crate)
/// has an example, and here is a smaller one.
///
///     use curlewstand::*;
///
///     // two subjects, measured once each with deviation 1
///     let measured = |value| {
///         vec![Observation { output: 0, row: 0, value, additive: 1., proportional: 0. }]
///     };
///     let setup = Setup::one_effect(1000);
///     let mut session = Session::new(setup, &[measured(1.2), measured(0.7)]).unwrap();
///
///     // the model predicts the individual value itself, at time 0 before a dose
///     let objective = session.objective(OneEffect::new(1., 1.), |question, rows| {
///         rows.push(0., Side::Pre, &[(question.individual[0], [1.])])
///     });
///     assert!((objective.unwrap() - 1.42751).abs() < 1e-5);
///     assert!(u64::from(session.tally().calls) <= session.booked());
///     let etas: Vec<f64> = session.estimates().map(|e| e.eta[0]).collect();
///     assert!(etas[0] > 0. && etas[1] < 0.);
///
/// # One model
///
/// A session is for one model. Evaluations are kept by subject, theta, eta and the
/// override of the additive deviation; these, and omega, may change from objective to
/// objective. Where anything else that the simulator computes with changes, as a rate
/// that the outer fit moves and that is not theta, what is kept is of the old model, and
/// the fit would be wrong without a word: [`restart`](Session::restart) has to be called
/// first.
///
/// # Two ways to answer
///
/// [`objective`](Session::objective) asks a closure, and returns with the objective: it
/// takes the place of the original's `Evaluator::population`. With
/// [`begin`](Session::begin), [`reply`](Session::reply) and [`fail`](Session::fail) the
/// host leads the objective step by step, and may run the simulator wherever it likes in
/// between. A call that is not due is refused with 19 and alters nothing.
///
/// # What is to be read, and when
///
/// [`estimates`](Session::estimates), [`fitted`](Session::fitted) and
/// [`shrinkage`](Session::shrinkage) are views of the objective that was begun last: they
/// copy nothing, and the next objective overwrites what they show. They show the subjects
/// that have their mode:
///
/// | the objective that was begun last | `estimates` and `fitted` | `shrinkage` |
/// |---|---|---|
/// | there is none since the session was opened or restarted | nothing | `None` |
/// | awaits a reply | the subjects before the one that is searched | `None` |
/// | is finished | all subjects | `Some`, with one effect |
/// | was refused at a subject | the subjects before it | `None` |
/// | was refused with 18 | all subjects | `None` |
///
/// A call that was refused with 1 to 5 or 19 alters nothing, so they show what they
/// showed before it.
///
/// # Copies
///
/// A session can be cloned at any moment, in the midst of an objective too, and both go
/// their own way from there.
///
///     # use curlewstand::*;
///     # let one = Observation { output: 0, row: 0, value: 1.2, additive: 1., proportional: 0. };
///     # let mut session = Session::new(Setup::one_effect(100), &[vec![one]]).unwrap();
///     session.begin(OneEffect::new(1., 1.)).unwrap();
///     let mut copy = session.clone();
///     copy.fail();
///     assert!(session.awaits_reply() && !copy.awaits_reply());
#[derive(Clone, Debug)]
pub struct Session {
    effects: Effects,
    setup: ffi::SessionSetup,
    observations: Vec<Observation>,
    counts: Vec<u64>,
    tally: Tally,
    state: [u64; STATE_WORDS],
    answer: [u64; ANSWER_WORDS],
    cache: Vec<u64>,
    work: Vec<u64>,
    warm: Vec<u64>,
    results: Vec<u64>,
    /// Whether a question stands.
    awaiting: bool,
    /// How many subjects have their mode in the objective that was begun last.
    passed: usize,
    /// The shrinkage of that objective, taken when it is finished: the answer, which
    /// says that it is, is overwritten by a refused call.
    shrinkage: Option<f64>,
    /// The tally's calls when it was begun.
    calls_before: u32,
    ledger: Ledger,
}

impl Session {
    /// Opens a session for the observations of all subjects, in order; or
    /// refuses, with 1 to 5.
    ///
    ///     # use curlewstand::*;
    ///     let setup = Setup { eta_bound: 17., ..Setup::one_effect(1) };
    ///     let one = Observation { output: 0, row: 0, value: 1., additive: 1., proportional: 0. };
    ///     assert_eq!(Session::new(setup, &[vec![one]]).unwrap_err().number, 3);
    ///     assert_eq!(Session::new(setup, &[]).unwrap_err().number, 1);
    pub fn new(setup: Setup, cohort: &[Vec<Observation>]) -> Result<Self, Refusal> {
        ffi::require_interface();
        let observations: Vec<Observation> = cohort.iter().flatten().copied().collect();
        let largest = cohort.iter().map(Vec::len).max().unwrap_or(0);
        // more rows than these are refused before a word of them is looked at
        let kept = setup.kept_rows.min(MOST_ROWS);
        let effects = setup.effects.count() as usize;
        let mut session = Session {
            effects: setup.effects,
            setup: setup.lent(),
            counts: cohort.iter().map(|subject| subject.len() as u64).collect(),
            tally: Tally::default(),
            state: [0; STATE_WORDS],
            answer: [0; ANSWER_WORDS],
            cache: vec![0; WORDS_FOR_A_ROW * kept],
            work: vec![0; WORK_WORDS * largest],
            warm: vec![0; effects * cohort.len()],
            results: vec![0; results::words(cohort.len(), observations.len())],
            observations,
            awaiting: false,
            passed: 0,
            shrinkage: None,
            calls_before: 0,
            ledger: Ledger::default(),
        };
        session.open()?;
        Ok(session)
    }

    fn open(&mut self) -> Result<(), Refusal> {
        // the slices are the session's own, no two of them overlap, and a Vec's
        // pointer is never null
        let number = unsafe {
            ffi::curlewstand_setup(
                self.setup,
                self.observations.as_ptr(),
                self.observations.len(),
                self.counts.as_ptr(),
                self.counts.len(),
                &mut self.tally,
                self.state.as_mut_ptr(),
                STATE_WORDS,
                self.answer.as_mut_ptr(),
                ANSWER_WORDS,
                self.cache.as_mut_ptr(),
                self.cache.len(),
                self.work.as_mut_ptr(),
                self.work.len(),
                self.warm.as_mut_ptr(),
                self.warm.len(),
                self.results.as_ptr(),
                self.results.len(),
            )
        };
        match number {
            0 => Ok(()),
            _ => Err(self.refusal()),
        }
    }

    /// Opens the session anew in the same memory, for another model: whatever the
    /// simulator computes with, but for theta · exp(eta), may be another from now on.
    /// What was kept is forgotten. The modes stay as warm starts, the
    /// [`ledger`](Session::ledger) goes on, and the evaluations that were taken still
    /// count against `max_evaluations`; the tally begins at 0. Between objectives alone:
    /// while a reply is awaited this is refused with 19, and alters nothing.
    ///
    ///     # use curlewstand::*;
    ///     # let one = Observation { output: 0, row: 0, value: 1.2, additive: 1., proportional: 0. };
    ///     # let mut session = Session::new(Setup::one_effect(100), &[vec![one]]).unwrap();
    ///     // the model predicts the individual value times a factor that is not theta
    ///     let mut objective = |session: &mut Session, factor: f64| {
    ///         let simulate = |question: &Question, rows: &mut Rows| {
    ///             let x = question.individual[0];
    ///             rows.push(0., Side::Post, &[(factor * x, [factor])])
    ///         };
    ///         session.objective(OneEffect::new(1., 1.), simulate).unwrap()
    ///     };
    ///     let first = objective(&mut session, 1.);
    ///     let taken = session.tally().calls;
    ///     session.restart()?;
    ///     assert_ne!(objective(&mut session, 2.), first);
    ///     assert_eq!(session.ledger().taken(), u64::from(taken + session.tally().calls));
    ///     # Ok::<(), Refusal>(())
    pub fn restart(&mut self) -> Result<(), Refusal> {
        if self.awaiting {
            return Err(nowhere(Reason::NotDue));
        }
        let warm = self.warm.clone();
        self.setup.max_evaluations -= self.tally.calls;
        self.open()?;
        self.warm = warm;
        self.passed = 0;
        self.shrinkage = None;
        self.calls_before = 0;
        Ok(())
    }

    /// Begins an objective. While one is under way this is refused with 19, parameters
    /// of another number of effects with 1; omega and the override out of range are
    /// refused with 2 and 3. These alter nothing.
    ///
    ///     # use curlewstand::*;
    ///     # let one = Observation { output: 0, row: 0, value: 1.2, additive: 1., proportional: 0. };
    ///     # let mut session = Session::new(Setup::one_effect(100), &[vec![one]]).unwrap();
    ///     let mut step = session.begin(OneEffect::new(1., 1.)).unwrap();
    ///     let mut rows = session.rows();
    ///     let objective = loop {
    ///         match step {
    ///             Step::Finished(objective) => break objective,
    ///             Step::Asked(question) => {
    ///                 rows.clear();
    ///                 rows.push(0., Side::Post, &[(question.individual[0], [1.])]).unwrap();
    ///                 step = session.reply(&rows).unwrap();
    ///             }
    ///         }
    ///     };
    ///     assert!(objective.is_finite());
    pub fn begin(&mut self, parameters: impl Into<Parameters>) -> Result<Step, Refusal> {
        let parameters = parameters.into();
        // while a reply is awaited the core refuses whatever is given
        if !self.awaiting && parameters.effects() != self.effects.count() {
            return Err(nowhere(Reason::Counts));
        }
        let calls_before = self.tally.calls;
        let number = self.begin_lent(parameters.lent());
        if alters(number) {
            self.calls_before = calls_before;
            self.ledger.begin(Entry {
                subjects: self.counts.len(),
                taken: 0,
                booked: self.booked(),
                end: End::Awaiting,
            });
        }
        self.step(number)
    }

    fn begin_lent(&mut self, parameters: ffi::SessionParameters) -> u32 {
        unsafe {
            ffi::curlewstand_objective(
                self.setup,
                parameters,
                self.observations.as_ptr(),
                self.observations.len(),
                self.counts.as_ptr(),
                self.counts.len(),
                &mut self.tally,
                self.state.as_mut_ptr(),
                STATE_WORDS,
                self.answer.as_mut_ptr(),
                ANSWER_WORDS,
                self.cache.as_ptr(),
                self.cache.len(),
                self.work.as_mut_ptr(),
                self.work.len(),
                self.warm.as_mut_ptr(),
                self.warm.len(),
                self.results.as_mut_ptr(),
                self.results.len(),
            )
        }
    }

    /// Takes the rows that the simulator gave for the question that was asked. Where none
    /// was asked this is refused with 19. Rows of another shape than the session's end
    /// the objective with 8.
    ///
    ///     # use curlewstand::*;
    ///     # let one = Observation { output: 0, row: 0, value: 1.2, additive: 1., proportional: 0. };
    ///     # let mut session = Session::new(Setup::one_effect(100), &[vec![one]]).unwrap();
    ///     let rows = session.rows();
    ///     assert_eq!(session.reply(&rows).unwrap_err().number, 19);
    ///     session.begin(OneEffect::new(1., 1.)).unwrap();
    ///     // there is no row at all
    ///     assert_eq!(session.reply(&rows).unwrap_err().number, 10);
    pub fn reply(&mut self, rows: &Rows) -> Result<Step, Refusal> {
        if rows.shape() == self.shape() {
            self.reply_words(rows.words())
        } else {
            Err(self.fail())
        }
    }

    /// The same with the words of the rows, for a host that has them as such: each row
    /// is its time, its side (0 pre, any other post), the values of all outputs, and for
    /// each effect the derivatives of all outputs. Floats are their bits, and any NaN
    /// counts as any other. What is not whole rows ends the objective with 8.
    ///
    ///     # use curlewstand::*;
    ///     # let one = Observation { output: 0, row: 0, value: 1.2, additive: 1., proportional: 0. };
    ///     # let mut session = Session::new(Setup::one_effect(100), &[vec![one]]).unwrap();
    ///     session.begin(OneEffect::new(1., 1.)).unwrap();
    ///     // three words are no whole row of four
    ///     assert_eq!(session.reply_words(&[0; 3]).unwrap_err().number, 8);
    pub fn reply_words(&mut self, words: &[u64]) -> Result<Step, Refusal> {
        // nobody changes the counts and observations of a session that is open, so
        // those of the other subjects need not be looked at again
        let observations = self.awaited_observations();
        let (observations, n_observations) = (observations.as_ptr(), observations.len());
        let number = unsafe {
            ffi::curlewstand_subject_reply(
                self.setup,
                observations,
                n_observations,
                self.counts.as_ptr(),
                self.counts.len(),
                words.as_ptr(),
                words.len(),
                &mut self.tally,
                self.state.as_mut_ptr(),
                STATE_WORDS,
                self.answer.as_mut_ptr(),
                ANSWER_WORDS,
                self.cache.as_mut_ptr(),
                self.cache.len(),
                self.work.as_mut_ptr(),
                self.work.len(),
                self.warm.as_mut_ptr(),
                self.warm.len(),
                self.results.as_mut_ptr(),
                self.results.len(),
            )
        };
        self.step(number)
    }

    /// The observations of the subject that is searched.
    fn awaited_observations(&self) -> &[Observation] {
        let first = self.state[FIRST] as usize;
        let count = self.counts.get(self.state[SUBJECT] as usize);
        let end = first.saturating_add(count.map_or(0, |&count| count as usize));
        self.observations.get(first..end).unwrap_or_default()
    }

    /// The simulator has failed: the objective ends with 8. Where no reply is
    /// awaited this is refused with 19. It also gives up an objective that nobody
    /// wants any more.
    ///
    ///     # use curlewstand::*;
    ///     # let one = Observation { output: 0, row: 0, value: 1.2, additive: 1., proportional: 0. };
    ///     # let mut session = Session::new(Setup::one_effect(100), &[vec![one]]).unwrap();
    ///     session.begin(OneEffect::new(1., 1.)).unwrap();
    ///     assert_eq!(session.fail().number, 8);
    ///     assert_eq!(session.fail().number, 19);
    pub fn fail(&mut self) -> Refusal {
        let number = unsafe {
            ffi::curlewstand_failure(
                self.setup,
                self.observations.as_ptr(),
                self.observations.len(),
                self.counts.as_ptr(),
                self.counts.len(),
                &mut self.tally,
                self.state.as_mut_ptr(),
                STATE_WORDS,
                self.answer.as_mut_ptr(),
                ANSWER_WORDS,
                self.cache.as_ptr(),
                self.cache.len(),
                self.work.as_mut_ptr(),
                self.work.len(),
                self.warm.as_ptr(),
                self.warm.len(),
                self.results.as_ptr(),
                self.results.len(),
            )
        };
        match self.step(number) {
            Err(refusal) => refusal,
            Ok(_) => unreachable!("a failure is refused"),
        }
    }

    /// Whether a question stands, so that a reply is due and no new objective.
    ///
    ///     # use curlewstand::*;
    ///     # let one = Observation { output: 0, row: 0, value: 1.2, additive: 1., proportional: 0. };
    ///     # let mut session = Session::new(Setup::one_effect(100), &[vec![one]]).unwrap();
    ///     assert!(!session.awaits_reply());
    ///     session.begin(OneEffect::new(1., 1.)).unwrap();
    ///     assert!(session.awaits_reply());
    pub fn awaits_reply(&self) -> bool {
        self.awaiting
    }

    /// How many subjects there are.
    ///
    ///     # use curlewstand::*;
    ///     # let one = Observation { output: 0, row: 0, value: 1.2, additive: 1., proportional: 0. };
    ///     let session = Session::new(Setup::one_effect(100), &[vec![one], vec![one, one]]);
    ///     assert_eq!(session.unwrap().subjects(), 2);
    pub fn subjects(&self) -> usize {
        self.counts.len()
    }

    /// What the rows of a reply have.
    ///
    ///     # use curlewstand::*;
    ///     # let one = Observation { output: 0, row: 0, value: 1.2, additive: 1., proportional: 0. };
    ///     let session = Session::new(Setup::one_effect(100), &[vec![one]]).unwrap();
    ///     assert_eq!(session.shape(), Shape { width: 1, effects: 1 });
    pub fn shape(&self) -> Shape {
        Shape {
            width: self.setup.width as usize,
            effects: self.setup.effects as usize,
        }
    }

    /// An empty reply, to which the simulator adds its rows.
    ///
    ///     # use curlewstand::*;
    ///     # let one = Observation { output: 0, row: 0, value: 1.2, additive: 1., proportional: 0. };
    ///     let session = Session::new(Setup::one_effect(100), &[vec![one]]).unwrap();
    ///     assert!(session.rows().push(0., Side::Post, &[(2., [1.])]).is_ok());
    ///     assert!(session.rows().push(0., Side::Post, &[(2., [1., 1.])]).is_err());
    pub fn rows(&self) -> Rows {
        Rows::new(self.shape())
    }

    /// The evaluations that are booked for one objective of this session: the ceiling, 82
    /// with one effect and 6,343 with two, for each subject. No more are asked for,
    /// whatever the replies are; those that are kept are asked for and not taken.
    ///
    ///     # use curlewstand::*;
    ///     # let one = Observation { output: 0, row: 0, value: 1.2, additive: 1., proportional: 0. };
    ///     let session = Session::new(Setup::one_effect(100), &vec![vec![one]; 5]);
    ///     assert_eq!(session.unwrap().booked(), 5 * 82);
    pub fn booked(&self) -> u64 {
        u64::from(self.effects.ceiling()) * self.counts.len() as u64
    }

    /// The evaluations taken since the session was opened or restarted, and the rows
    /// that are kept.
    ///
    ///     # use curlewstand::*;
    ///     # let one = Observation { output: 0, row: 0, value: 1.2, additive: 1., proportional: 0. };
    ///     # let mut session = Session::new(Setup::one_effect(100), &[vec![one]]).unwrap();
    ///     session.begin(OneEffect::new(1., 1.)).unwrap();
    ///     assert_eq!(session.tally(), Tally { calls: 1, cached_rows: 0 });
    pub fn tally(&self) -> Tally {
        self.tally
    }

    /// What each objective took and what was booked for it, over every restart.
    ///
    ///     # use curlewstand::*;
    ///     # let one = Observation { output: 0, row: 0, value: 1.2, additive: 1., proportional: 0. };
    ///     # let mut session = Session::new(Setup::one_effect(100), &[vec![one]]).unwrap();
    ///     session.begin(OneEffect::new(1., 1.)).unwrap();
    ///     session.fail();
    ///     assert_eq!(session.ledger().total(), "1 objective, 1 taken, 82 booked");
    pub fn ledger(&self) -> &Ledger {
        &self.ledger
    }

    /// How far the objective has come that was begun last; before the first one,
    /// with no subject and no evaluation.
    ///
    ///     # use curlewstand::*;
    ///     # let one = Observation { output: 0, row: 0, value: 1.2, additive: 1., proportional: 0. };
    ///     # let mut session = Session::new(Setup::one_effect(100), &[vec![one]]).unwrap();
    ///     assert_eq!((session.progress().subject, session.progress().taken), (None, 0));
    ///     session.begin(OneEffect::new(1., 1.)).unwrap();
    ///     assert_eq!((session.progress().subject, session.progress().taken), (Some(0), 1));
    pub fn progress(&self) -> Progress {
        Progress {
            subject: self.awaits_reply().then_some(self.passed),
            passed: self.passed,
            subjects: self.counts.len(),
            taken: self.taken(),
            booked: self.booked(),
            tally: self.tally,
        }
    }

    /// What the objective that was begun last has taken.
    fn taken(&self) -> u32 {
        self.tally.calls - self.calls_before
    }

    /// Where a subject's next search starts: its latest mode that passed 16, in
    /// whichever objective, or what was set since; zero at first. With one effect
    /// the second is 0.
    ///
    ///     # use curlewstand::*;
    ///     # let one = Observation { output: 0, row: 0, value: 1.2, additive: 1., proportional: 0. };
    ///     # let session = Session::new(Setup::one_effect(100), &[vec![one]]).unwrap();
    ///     assert_eq!(session.warm_start(0), Some([0., 0.]));
    ///     assert_eq!(session.warm_start(1), None);
    pub fn warm_start(&self, subject: usize) -> Option<[f64; 2]> {
        let effects = self.setup.effects as usize;
        let words = self.warm.chunks_exact(effects).nth(subject)?;
        let second = words.get(1).copied().unwrap_or(0);
        Some([words[0], second].map(f64::from_bits))
    }

    /// Sets where a subject's next search starts, between objectives. Any floats
    /// will do: one effect tries a start that lies within its cell, and does not
    /// look at the second; with two effects a start whose individual values are not
    /// finite and above 0 ends the objective with 7.
    ///
    ///     # use curlewstand::*;
    ///     # let one = Observation { output: 0, row: 0, value: 1.2, additive: 1., proportional: 0. };
    ///     # let mut session = Session::new(Setup::one_effect(100), &[vec![one]]).unwrap();
    ///     // of a study that is resumed
    ///     assert_eq!(session.set_warm_start(0, [0.09, 0.]), Ok(()));
    ///     assert_eq!(session.warm_start(0), Some([0.09, 0.]));
    ///     assert_eq!(session.set_warm_start(1, [0.; 2]), Err(NotSet::NoSubject));
    pub fn set_warm_start(&mut self, subject: usize, eta: [f64; 2]) -> Result<(), NotSet> {
        if self.awaits_reply() {
            return Err(NotSet::Awaiting);
        }
        let effects = self.setup.effects as usize;
        let words = self.warm.chunks_exact_mut(effects).nth(subject);
        for (word, x) in words.ok_or(NotSet::NoSubject)?.iter_mut().zip(eta) {
            *word = x.to_bits();
        }
        Ok(())
    }

    /// What a call's number and the answer's words say.
    fn step(&mut self, number: u32) -> Result<Step, Refusal> {
        if number != 0 {
            let refusal = self.refusal();
            if alters(number) {
                // 18 is of no subject: all of them have passed
                let passed = refusal.place.subject().unwrap_or(self.counts.len());
                self.stands(false, passed, None, End::Refused(refusal));
            }
            return Err(refusal);
        }
        let [kind, words @ ..] = self.answer;
        let [a, b, c, d] = words.map(f64::from_bits);
        if kind == 0 {
            let subject = self.state[SUBJECT] as usize;
            self.stands(true, subject, None, End::Awaiting);
            return Ok(Step::Asked(Question {
                subject,
                eta: [a, b],
                individual: [c, d],
            }));
        }
        let shrinkage = self.shrinkage_now();
        self.stands(false, self.counts.len(), shrinkage, End::Finished(a));
        Ok(Step::Finished(a))
    }

    /// Notes where the objective that was begun last stands.
    fn stands(&mut self, awaiting: bool, passed: usize, shrinkage: Option<f64>, end: End) {
        self.awaiting = awaiting;
        self.passed = passed;
        self.shrinkage = shrinkage;
        self.ledger.note(self.taken(), end);
    }

    fn refusal(&self) -> Refusal {
        let [_, number, place, subject, observation] = self.answer;
        let subject = subject as usize;
        Refusal {
            number: number as u32,
            place: match place {
                0 => Place::Nowhere,
                1 => Place::Subject(subject),
                _ => Place::Observation {
                    subject,
                    observation: observation as usize,
                },
            },
        }
    }
}

/// Whether a call that ended with this number went into its objective. 1 to 5 and
/// 19 alter nothing.
fn alters(number: u32) -> bool {
    number == 0 || Reason::of(number).is_some_and(Reason::ends_objective)
}

fn nowhere(reason: Reason) -> Refusal {
    Refusal {
        number: reason as u32,
        place: Place::Nowhere,
    }
}
