//! Why a call was refused: document 01's number, the reason as a type, the place, a
//! sentence for a modeller, and what to do.
//!
//!     use curlewstand::{Place, Reason, Refusal};
//!
//!     let refusal = Refusal { number: 13, place: Place::Subject(4) };
//!     assert_eq!(refusal.reason(), Some(Reason::NoMode));
//!     assert_eq!(
//!         refusal.to_string(),
//!         "13, subject 4: the subject's mode is not within the bound of eta"
//!     );

use std::error::Error;
use std::fmt;

/// What a refusal is of.
///
///     use curlewstand::Place;
///
///     assert_eq!(Place::Observation { subject: 2, observation: 0 }.subject(), Some(2));
///     assert_eq!(Place::Nowhere.subject(), None);
#[derive(Clone, Copy, Debug, PartialEq, Eq)]
pub enum Place {
    /// Of no subject.
    Nowhere,
    /// Of a subject, counted from 0.
    Subject(usize),
    /// Of one observation.
    Observation {
        /// Its subject, counted from 0.
        subject: usize,
        /// Its number within its subject, counted from 0.
        observation: usize,
    },
}

impl Place {
    /// The subject that it is of, if it is of one.
    ///
    ///     # use curlewstand::Place;
    ///     assert_eq!(Place::Subject(7).subject(), Some(7));
    pub fn subject(&self) -> Option<usize> {
        match *self {
            Place::Nowhere => None,
            Place::Subject(subject) | Place::Observation { subject, .. } => Some(subject),
        }
    }
}

/// The reason of a refusal. As a number it is document 01's.
///
/// 1 to 5 are of what a session is given, and 19 is of a call that is not due: they
/// alter nothing, and an objective that is under way stays so. 20 is of a file of
/// records. The others end the objective. An outer fit commonly gives up on 6, since no
/// evaluation is left, and passes over a trial that ends with one of the rest.
///
///     use curlewstand::Reason;
///
///     assert_eq!(Reason::NoEvaluationLeft as u32, 6);
///     assert_eq!(Reason::of(6), Some(Reason::NoEvaluationLeft));
#[derive(Clone, Copy, Debug, PartialEq, Eq, Hash)]
#[non_exhaustive]
pub enum Reason {
    /// Numbers of effects, subjects or observations.
    Counts = 1,
    /// Omega.
    Omega = 2,
    /// Another setting.
    Settings = 3,
    /// An observation.
    Observation = 4,
    /// The memory that is lent. A [`Session`](crate::Session) lends enough.
    Memory = 5,
    /// `max_evaluations` is reached.
    NoEvaluationLeft = 6,
    /// An individual value.
    IndividualValue = 7,
    /// The simulator, or the length of its reply.
    Simulator = 8,
    /// The reply's size.
    OutputBudget = 9,
    /// A row that is not there.
    MissingRow = 10,
    /// A variance, a prediction or a sensitivity.
    Variance = 11,
    /// A likelihood.
    Likelihood = 12,
    /// No mode was found within the bound of eta.
    NoMode = 13,
    /// More than one mode.
    SeveralModes = 14,
    /// A search that did not come to an end in time.
    NotSettled = 15,
    /// No curvature at the mode.
    Curvature = 16,
    /// Rows that moved with eta.
    RowsMoved = 17,
    /// The objective.
    Objective = 18,
    /// A call that is not due.
    NotDue = 19,
    /// A file of records, before anything in it is fitted.
    Records = 20,
}

/// What there is to say of a number.
struct Told {
    reason: Reason,
    /// What was found.
    sentence: &'static str,
    /// What its place is.
    place: &'static str,
    /// What a modeller may do.
    advice: &'static str,
}

const fn told(
    reason: Reason,
    place: &'static str,
    sentence: &'static str,
    advice: &'static str,
) -> Told {
    Told {
        reason,
        sentence,
        place,
        advice,
    }
}

const NOWHERE: &str = "none";
const SUBJECT: &str = "the subject";
const OBSERVATION: &str = "the subject and the observation";

/// In the order of the numbers. The sentences stand in include/curlewstand.h too.
const TOLD: [Told; 20] = [
    told(
        Reason::Counts,
        NOWHERE,
        "there are 1 to 4,096 subjects, each with an observation, and at most 100,000 observations in all",
        "check the numbers of effects, subjects and observations, and that the parameters are for as many \
         effects as the session has",
    ),
    told(
        Reason::Omega,
        NOWHERE,
        "omega's diagonal is from 2^-20 to 2^20, and with two effects omega is symmetric and has an inverse",
        "keep the outer fit's variances within bounds, and correlations away from 1 and -1",
    ),
    told(
        Reason::Settings,
        NOWHERE,
        "the bound of eta, the tolerance, the width, the kept rows or the override is out of range",
        "eta_bound is from 2^-10 to 16, the tolerance finite and above 0, the width 1 to 64, the kept rows 1 to \
         100,000, an override finite and not below 0, and with two effects there is none",
    ),
    told(
        Reason::Observation,
        OBSERVATION,
        "an observation has no such output, a value that is not finite, or no valid deviation",
        "its output must be below the width, its value finite, both deviations finite and not below 0, and one of \
         them above 0",
    ),
    told(
        Reason::Memory,
        NOWHERE,
        "too little memory is lent",
        "the macros of include/curlewstand.h give the words of each buffer",
    ),
    told(
        Reason::NoEvaluationLeft,
        SUBJECT,
        "no evaluation is left of those that the session may ask for",
        "raise max_evaluations: the ceiling times subjects is enough for one objective, and kept evaluations cost none",
    ),
    told(
        Reason::IndividualValue,
        SUBJECT,
        "an individual value theta·exp(eta) is not finite and above 0",
        "theta must be finite and above 0; a warm start may be too large",
    ),
    told(
        Reason::Simulator,
        SUBJECT,
        "the simulator failed, or its reply is not whole rows",
        "look at the simulator's own error, or at the number of words of its reply",
    ),
    told(
        Reason::OutputBudget,
        SUBJECT,
        "the reply has more values and derivatives than the output budget",
        "raise output_budget, or simulate fewer rows",
    ),
    told(
        Reason::MissingRow,
        OBSERVATION,
        "the reply lacks the observation's row",
        "the simulator must give a row for each observation: the number `row` of the observation, counted from 0",
    ),
    told(
        Reason::Variance,
        OBSERVATION,
        "the variance is not finite and above 0, or the prediction or its sensitivity is not finite",
        "with a proportional error alone the prediction must not be 0; else look at the simulator's value and derivative",
    ),
    told(
        Reason::Likelihood,
        "the subject, and for a row's own terms the observation",
        "terms or sums of the likelihood are not finite",
        "a measurement is far too many deviations from its prediction, or a derivative is huge",
    ),
    told(
        Reason::NoMode,
        SUBJECT,
        "the subject's mode is not within the bound of eta",
        "with one effect the score does not rise through zero on the grid, with two a search is unresolved (norm \
         above 1e-3) or reaches the bound: look at the subject's data beside the typical prediction; raise \
         eta_bound, or let the outer fit pass over this trial",
    ),
    told(
        Reason::SeveralModes,
        SUBJECT,
        "the subject has several modes",
        "the subject's data fit two individual values equally well; let the outer fit pass over this trial, or look at the model",
    ),
    told(
        Reason::NotSettled,
        SUBJECT,
        "the search for the subject's mode has not settled",
        "the simulator's replies are too noisy for the tolerance, or the state is not this session's",
    ),
    told(
        Reason::Curvature,
        SUBJECT,
        "the curvature at the subject's mode, or on the way there, is not positive",
        "look at the derivatives: `check_derivatives` compares them with differences",
    ),
    told(
        Reason::RowsMoved,
        SUBJECT,
        "times or sides of the rows differ between eta zero and the mode",
        "give the rows at the observations' own times, whatever the individual values are",
    ),
    told(
        Reason::Objective,
        NOWHERE,
        "the objective is not finite",
        "each subject has its mode, and the sum overflows: look for values far from their predictions",
    ),
    told(
        Reason::NotDue,
        NOWHERE,
        "the call is not due: a reply is taken only where one is awaited, and an objective begun only where none is",
        "hand each call the state that the last one left; nothing was altered",
    ),
    told(
        Reason::Records,
        NOWHERE,
        "the records are not whole, are more than 256, have a reserved word that is not 0, or subjects that do not \
         count up from 0",
        "a record is 48 bytes; subjects are 0, 1, 2 and so on, all records of one together",
    ),
];

impl Reason {
    /// The reason with this number, 1 to 20.
    ///
    ///     # use curlewstand::Reason;
    ///     assert_eq!(Reason::of(19), Some(Reason::NotDue));
    ///     assert_eq!((Reason::of(0), Reason::of(21)), (None, None));
    pub fn of(number: u32) -> Option<Reason> {
        let at = number.checked_sub(1)?;
        TOLD.get(at as usize).map(|told| told.reason)
    }

    /// All of them, in the order of their numbers.
    ///
    ///     # use curlewstand::Reason;
    ///     assert_eq!(Reason::all().next(), Some(Reason::Counts));
    pub fn all() -> impl ExactSizeIterator<Item = Reason> {
        TOLD.iter().map(|told| told.reason)
    }

    fn told(self) -> &'static Told {
        &TOLD[self as usize - 1]
    }

    /// What was found, in a sentence.
    ///
    ///     # use curlewstand::Reason;
    ///     assert_eq!(Reason::SeveralModes.sentence(), "the subject has several modes");
    pub fn sentence(self) -> &'static str {
        self.told().sentence
    }

    /// What the place of such a refusal names.
    ///
    ///     # use curlewstand::Reason;
    ///     assert_eq!(Reason::MissingRow.place(), "the subject and the observation");
    pub fn place(self) -> &'static str {
        self.told().place
    }

    /// What to look at, and what to do.
    ///
    ///     # use curlewstand::Reason;
    ///     assert!(Reason::NoEvaluationLeft.advice().contains("max_evaluations"));
    pub fn advice(self) -> &'static str {
        self.told().advice
    }

    /// Whether it ends an objective. 1 to 5 and 19 do not, they alter nothing; and 20 is
    /// said before there is one.
    ///
    ///     # use curlewstand::Reason;
    ///     assert!(Reason::Simulator.ends_objective() && !Reason::NotDue.ends_objective());
    pub fn ends_objective(self) -> bool {
        use Reason::*;
        !matches!(
            self,
            Counts | Omega | Settings | Observation | Memory | NotDue | Records
        )
    }
}

/// A refusal of a session's call.
///
///     use curlewstand::{Place, Reason, Refusal};
///
///     let refusal = Refusal { number: 14, place: Place::Subject(4) };
///     assert_eq!(refusal.reason(), Some(Reason::SeveralModes));
///     assert_eq!(refusal.to_string(), "14, subject 4: the subject has several modes");
///
///     let refusal = Refusal { number: 6, place: Place::Subject(3) };
///     let text = "6, subject 3: no evaluation is left of those that the session may ask for";
///     assert_eq!(refusal.to_string(), text);
#[derive(Clone, Copy, Debug, PartialEq, Eq)]
pub struct Refusal {
    /// Document 01's number, 1 to 20.
    pub number: u32,
    /// What it is of.
    pub place: Place,
}

impl Refusal {
    /// The number as a type, to match on.
    ///
    ///     # use curlewstand::{Place, Reason, Refusal};
    ///     let refusal = Refusal { number: 10, place: Place::Subject(0) };
    ///     assert_eq!(refusal.reason(), Some(Reason::MissingRow));
    pub fn reason(&self) -> Option<Reason> {
        Reason::of(self.number)
    }

    /// What was found, in a sentence.
    ///
    ///     # use curlewstand::{Place, Refusal};
    ///     let refusal = Refusal { number: 17, place: Place::Subject(0) };
    ///     assert!(refusal.sentence().contains("times or sides"));
    pub fn sentence(&self) -> &'static str {
        self.reason().map_or("an unknown refusal", Reason::sentence)
    }
}

impl fmt::Display for Refusal {
    fn fmt(&self, f: &mut fmt::Formatter<'_>) -> fmt::Result {
        write!(f, "{}", self.number)?;
        match self.place {
            Place::Nowhere => {}
            Place::Subject(subject) => write!(f, ", subject {subject}")?,
            Place::Observation {
                subject,
                observation,
            } => write!(f, ", subject {subject}, observation {observation}")?,
        }
        write!(f, ": {}", self.sentence())
    }
}

impl Error for Refusal {}
