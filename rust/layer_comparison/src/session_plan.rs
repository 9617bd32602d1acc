//! What a session is made of: the host's steps, and the simulators that answer
//! its questions. All of it is plain values, so that a session can be led again
//! with a part left out.

use crate::session_words::{Call, Change, Lengths, Parameters, Setup};
use crate::simulators::{Model, Surroundings};
use crate::simulators_2d::{Model2, Surroundings2};
use oracle::session::{Observed, Question, SensitivitySample};

#[derive(Clone, Debug)]
pub struct Plan {
    pub setup: Setup,
    pub lengths: Lengths,
    pub subjects: Vec<Subject>,
    pub steps: Vec<Step>,
}

/// A subject's observations and its simulator.
#[derive(Clone, Debug)]
pub struct Subject {
    pub model: AnyModel,
    /// The observations that the simulator knows of, in front; then others of
    /// the same rows.
    pub observations: Vec<Observed>,
    pub known: usize,
    /// How many rows a reply has.
    pub rows: usize,
    pub clock: Clock,
    /// By how much a prediction grows with every question, so that a repeated
    /// one gets another answer.
    pub drift: f64,
    /// What stands where no observation looks.
    pub filler: f64,
}

#[derive(Clone, Copy, Debug)]
pub enum AnyModel {
    One(Model),
    Two(Model2),
}

/// Times and sides of a reply's rows.
#[derive(Clone, Copy, Debug, PartialEq, Eq)]
pub enum Clock {
    /// By the row alone.
    Steady,
    /// Zeros of either sign and every word but 0 for the side after the dose:
    /// unlike words that are the same times and sides.
    Equal,
    /// Other times from question to question.
    Times,
    /// Other sides from question to question.
    Sides,
    /// Times that are no numbers.
    NoTime,
}

#[derive(Clone, Debug)]
pub enum Step {
    Setup,
    Objective(Objective),
    /// The first warm words are set.
    Warm(Vec<f64>),
    Stray(Stray),
}

#[derive(Clone, Debug)]
pub struct Objective {
    pub parameters: Parameters,
    /// What is done before a question gets its reply, by the question's number.
    pub strays: Vec<(usize, Stray)>,
    /// Replies with a fault, by the question's number.
    pub faults: Vec<(usize, Fault)>,
    /// The question after which the host goes no further.
    pub left_at: Option<usize>,
}

/// A call that is refused and alters nothing, with what the host changes before
/// it and puts back after it.
#[derive(Clone, Debug)]
pub struct Stray {
    pub change: Change,
    pub call: Call,
}

#[derive(Clone, Copy, Debug, PartialEq)]
pub enum Fault {
    Failure,
    /// A word less than whole rows, or one more.
    Cut,
    Longer,
    Empty,
    /// Without the last rows.
    Short,
    /// More rows than the output budget has.
    OverBudget,
    /// One more row, whatever the budget.
    RowMore,
    Prediction(usize, f64),
    Derivative(usize, f64),
    Side(usize, u64),
    Time(usize, f64),
}

/// A question's answer.
#[derive(Clone, Debug)]
pub enum Reply {
    Words(Vec<u64>),
    Failure,
}

impl Plan {
    pub fn effects(&self) -> usize {
        self.setup.effects as usize
    }

    pub fn counts(&self) -> Vec<u64> {
        let count = |subject: &Subject| subject.observations.len() as u64;
        self.subjects.iter().map(count).collect()
    }

    pub fn row_words(&self) -> usize {
        2 + self.setup.width as usize * (1 + self.effects())
    }

    /// The answer to a question: its number within the objective and within the
    /// subject's search, and how many there were in the session before it.
    pub fn reply(
        &self,
        question: &Question,
        objective: &Objective,
        number: usize,
        in_search: usize,
        turn: usize,
    ) -> Reply {
        let subject = &self.subjects[question.subject];
        let Some(samples) = self.samples(subject, question, objective, in_search) else {
            return Reply::Failure;
        };
        let mut words = subject.rows_of(self, &samples, turn);
        let faults = objective.faults.iter().filter(|(at, _)| *at == number);
        for (_, fault) in faults {
            if *fault == Fault::Failure {
                return Reply::Failure;
            }
            self.spoil(&mut words, *fault, subject);
        }
        Reply::Words(words)
    }

    fn samples(
        &self,
        subject: &Subject,
        question: &Question,
        objective: &Objective,
        in_search: usize,
    ) -> Option<Vec<SensitivitySample>> {
        let known = &subject.observations[..subject.known];
        let values: Vec<f64> = known.iter().map(|one| one.value).collect();
        match &subject.model {
            AnyModel::One(model) => model.reply(
                question,
                Surroundings {
                    eta_bound: self.setup.eta_bound,
                    omega: objective.parameters.omega,
                    values: &values,
                },
            ),
            AnyModel::Two(model) => {
                let [a, b, c, d] = self.setup.omega;
                let (precision, _) = oracle::inverse_positive([[a, b], [c, d]])?;
                let around = Surroundings2 {
                    precision,
                    values: &values,
                    turn: in_search,
                };
                model.reply(question, around)
            }
        }
    }

    fn spoil(&self, words: &mut Vec<u64>, fault: Fault, subject: &Subject) {
        let row_words = self.row_words();
        let at = |number: usize| {
            let one = &subject.observations[number % subject.observations.len()];
            (one.row * row_words, one.output)
        };
        let mut put = |at: usize, word: u64| {
            if let Some(place) = words.get_mut(at) {
                *place = word;
            }
        };
        match fault {
            Fault::Failure => {}
            Fault::Cut => drop(words.pop()),
            Fault::Longer => words.push(0),
            Fault::Empty => words.clear(),
            Fault::Short => {
                let last = subject.observations.iter().map(|one| one.row).max();
                words.truncate(last.unwrap_or(0) * row_words);
            }
            Fault::OverBudget => {
                let rows = self.setup.output_budget as usize / (row_words - 2) + 1;
                if rows < 40 {
                    words.resize(rows * row_words, 0);
                }
            }
            Fault::RowMore => words.resize(words.len() + row_words, 0),
            Fault::Prediction(number, x) => put(at(number).0 + 2 + at(number).1, x.to_bits()),
            Fault::Derivative(number, x) => {
                let width = self.setup.width as usize;
                put(at(number).0 + 2 + width + at(number).1, x.to_bits());
            }
            Fault::Side(number, side) => put(at(number).0 + 1, side),
            Fault::Time(number, time) => put(at(number).0, time.to_bits()),
        }
    }
}

impl Subject {
    /// A reply's words: time and side of each row, then values and derivatives
    /// where the observations look for them.
    fn rows_of(&self, plan: &Plan, samples: &[SensitivitySample], turn: usize) -> Vec<u64> {
        let (width, row_words) = (plan.setup.width as usize, plan.row_words());
        let mut words = vec![self.filler.to_bits(); self.rows * row_words];
        for (row, words) in words.chunks_mut(row_words).enumerate() {
            [words[0], words[1]] = self.clock.words(row, turn);
        }
        for (one, sample) in self.observations.iter().zip(samples) {
            let at = one.row * row_words + 2 + one.output;
            let prediction = sample.values[0] + self.drift * turn as f64;
            words[at] = prediction.to_bits();
            for (axis, derivatives) in sample.derivatives.iter().enumerate() {
                words[at + width * (1 + axis)] = derivatives[0].to_bits();
            }
        }
        words
    }
}

impl Clock {
    /// Time and side of a row.
    fn words(self, row: usize, turn: usize) -> [u64; 2] {
        let (time, side) = (row as f64 / 2., (row % 2) as u64);
        let odd = turn % 2 == 1;
        match self {
            Clock::Steady => [time.to_bits(), side],
            Clock::Equal if row == 0 => [if odd { 0f64 } else { -0. }.to_bits(), 0],
            Clock::Equal => [time.to_bits(), side * (1 + turn as u64 * (1 << 40))],
            Clock::Times => [(time + turn as f64).to_bits(), side],
            Clock::Sides => [time.to_bits(), odd as u64 * 3],
            Clock::NoTime => [f64::NAN.to_bits(), side],
        }
    }
}

/// The rows of a reply as the original takes them: none where there is no
/// reply, or where it is not whole rows.
pub fn samples_of(reply: &Reply, width: usize, effects: usize) -> Option<Vec<SensitivitySample>> {
    let Reply::Words(words) = reply else {
        return None;
    };
    let row_words = 2 + width * (1 + effects);
    if words.len() % row_words != 0 {
        return None;
    }
    let floats = |words: &[u64]| words.iter().map(|word| f64::from_bits(*word)).collect();
    let rows = words.chunks(row_words).map(|row| SensitivitySample {
        time: f64::from_bits(row[0]),
        side: if row[1] == 0 { "pre" } else { "post" },
        values: floats(&row[2..2 + width]),
        derivatives: row[2 + width..].chunks(width).map(floats).collect(),
    });
    Some(rows.collect())
}
