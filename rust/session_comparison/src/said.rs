//! What a call of a session says, the same for both sides.

use crate::shown::shown;
use curlewstand::{Place, Step};
use layer_comparison::compare::word_of;
use oracle::session::{Question, Refusal};
use std::fmt;

/// Floats are their words here, where any NaN counts as any other.
#[derive(Clone, Copy, Debug, PartialEq, Eq)]
pub enum Said {
    /// A setup is accepted.
    Accepted,
    /// A question: the eta, then the individual values.
    Asked { subject: usize, words: [u64; 4] },
    /// The objective.
    Finished(u64),
    Refused {
        number: u32,
        subject: Option<usize>,
        observation: Option<usize>,
    },
}

impl From<&Question> for Said {
    fn from(question: &Question) -> Self {
        asked(question.subject, question.eta, question.individual)
    }
}

impl From<Refusal> for Said {
    fn from(refusal: Refusal) -> Self {
        Said::Refused {
            number: refusal.number,
            subject: refusal.subject,
            observation: refusal.observation,
        }
    }
}

impl From<curlewstand::Refusal> for Said {
    fn from(refusal: curlewstand::Refusal) -> Self {
        let (subject, observation) = match refusal.place {
            Place::Nowhere => (None, None),
            Place::Subject(subject) => (Some(subject), None),
            Place::Observation {
                subject,
                observation,
            } => (Some(subject), Some(observation)),
        };
        Said::Refused {
            number: refusal.number,
            subject,
            observation,
        }
    }
}

impl From<Result<Step, curlewstand::Refusal>> for Said {
    fn from(step: Result<Step, curlewstand::Refusal>) -> Self {
        match step {
            Ok(Step::Asked(curlewstand::Question {
                subject,
                eta,
                individual,
            })) => asked(subject, eta, individual),
            Ok(Step::Finished(objective)) => Said::Finished(word_of(objective)),
            Err(refusal) => refusal.into(),
        }
    }
}

fn asked(subject: usize, [a, b]: [f64; 2], [c, d]: [f64; 2]) -> Said {
    Said::Asked {
        subject,
        words: [a, b, c, d].map(word_of),
    }
}

impl fmt::Display for Said {
    fn fmt(&self, f: &mut fmt::Formatter<'_>) -> fmt::Result {
        match self {
            Said::Accepted => write!(f, "accepted"),
            Said::Asked { subject, words } => {
                let [a, b, c, d] = words.map(shown);
                write!(
                    f,
                    "asks of subject {subject} eta {a}, {b}; individual {c}, {d}"
                )
            }
            Said::Finished(objective) => write!(f, "finished, objective {}", shown(*objective)),
            Said::Refused {
                number,
                subject,
                observation,
            } => {
                write!(f, "refused {number}")?;
                if let Some(subject) = subject {
                    write!(f, ", subject {subject}")?;
                }
                match observation {
                    Some(observation) => write!(f, ", observation {observation}"),
                    None => Ok(()),
                }
            }
        }
    }
}
