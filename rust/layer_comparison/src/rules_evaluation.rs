//! Evaluations once more, in plain Rust: what is defined of each call over
//! words, numbers and lengths of any kind. A word beyond the end is read as 0
//! and not written.

use crate::compare::word_of;
use crate::rules_cache::{at, put};
use oracle::libm;
use test_exports::evaluation::{Observation, Place, RefusedEvaluation, REFUSED_AT};
use test_exports::ffi::Question;

const LOG_2PI: f64 = 1.8378770664093453;

/// How far a subject's evaluation came.
#[derive(Clone, Debug)]
pub struct Evaluated {
    /// Negative log likelihood, both scores, information by rows: the sums over
    /// the observations before a refusal.
    pub sums: [f64; 7],
    /// Prediction, time and side of each observation whose row is present.
    pub rows: Vec<[u64; 3]>,
    pub refusal: Option<RefusedEvaluation>,
}

/// The rows of a reply.
#[derive(Clone, Copy)]
pub struct Reply<'a> {
    words: &'a [u64],
    width: usize,
    pub row_words: usize,
    /// Whole ones.
    pub rows: usize,
}

/// What an observation is held to. With one effect the second sensitivity is
/// zero.
#[derive(Clone, Copy, Debug)]
pub struct Row {
    pub prediction: f64,
    pub f_eta: [f64; 2],
    pub variance: f64,
}

impl<'a> Reply<'a> {
    pub fn of(words: &'a [u64], question: &Question) -> Self {
        let width = question.width as usize;
        let row_words = 2 + width * (1 + question.effects as usize);
        Reply {
            words,
            width,
            row_words,
            rows: words.len() / row_words,
        }
    }

    /// How many words there are after the last whole row.
    pub fn words_left_over(&self) -> usize {
        self.words.len() % self.row_words
    }

    /// Values and derivatives in all rows.
    pub fn output_values(&self) -> usize {
        self.rows * (self.row_words - 2)
    }

    pub fn has(&self, one: &Observation) -> bool {
        one.output < self.width && one.row < self.rows
    }

    /// Time and side stand first in a row, then the outputs in blocks: values,
    /// and derivatives by each effect. Of those, the one for an observation
    /// that the reply has.
    pub fn word(&self, one: &Observation, block: usize) -> u64 {
        self.at(one, 2 + block * self.width + one.output)
    }

    pub fn time(&self, one: &Observation) -> u64 {
        self.at(one, 0)
    }

    pub fn side(&self, one: &Observation) -> u64 {
        self.at(one, 1)
    }

    fn at(&self, one: &Observation, word: usize) -> u64 {
        at(self.words, one.row * self.row_words + word)
    }

    fn kept(&self, one: &Observation) -> [u64; 3] {
        let side = (self.side(one) != 0) as u64;
        [self.word(one, 0), self.time(one), side]
    }

    /// An override takes the place of the additive deviation with one effect
    /// alone.
    pub fn row(&self, one: &Observation, question: &Question) -> Row {
        let float = |block| f64::from_bits(self.word(one, block));
        let [prediction, first] = [float(0), float(1) * question.individual];
        let (second, additive) = match question.effects {
            2 => (float(2) * question.individual_2, one.additive),
            _ if question.has_additive => (0., question.additive),
            _ => (0., one.additive),
        };
        let share = one.proportional * prediction;
        Row {
            prediction,
            f_eta: [first, second],
            variance: additive * additive + share * share,
        }
    }
}

impl Row {
    fn is_valid(&self, effects: u32) -> bool {
        let predicted = effects != 2 || self.prediction.is_finite();
        let sensitive = self.f_eta.iter().all(|f_eta| f_eta.is_finite());
        self.variance.is_finite() && self.variance > 0. && predicted && sensitive
    }

    /// The row's share in each of the sums; with one effect none in those of
    /// the second.
    pub fn terms(&self, one: &Observation, effects: u32) -> [f64; 7] {
        let Row {
            prediction,
            f_eta,
            variance,
        } = *self;
        let p = one.proportional;
        // where the square is below the normal floats the two differ
        let twice_the_square = match effects {
            2 => 2. * p * p,
            _ => 2. * (p * p),
        };
        let residual = one.value - prediction;
        let z2 = residual * residual / variance;
        let scaled = f_eta.map(|f_eta| twice_the_square * prediction * f_eta / variance);
        let score = |i: usize| -residual * f_eta[i] / variance + 0.5 * (1. - z2) * scaled[i];
        let information =
            |i: usize, j: usize| f_eta[i] * f_eta[j] / variance + 0.5 * scaled[i] * scaled[j];
        let nll = 0.5 * (z2 + libm::log(variance) + LOG_2PI);
        if effects != 2 {
            return [nll, score(0), 0., information(0, 0), 0., 0., 0.];
        }
        let [a, b] = [information(0, 0), information(0, 1)];
        let [c, d] = [information(1, 0), information(1, 1)];
        [nll, score(0), score(1), a, b, c, d]
    }
}

/// The observations that the question is about.
pub fn subject<'a>(observations: &'a [Observation], question: &Question) -> &'a [Observation] {
    let to = question.to.min(observations.len());
    observations.get(question.from..to).unwrap_or(&[])
}

pub fn evaluated(observations: &[Observation], question: &Question, reply: &[u64]) -> Evaluated {
    let mut evaluated = Evaluated {
        sums: [0.; 7],
        rows: Vec::new(),
        refusal: None,
    };
    let end = evaluated.run(subject(observations, question), question, reply);
    evaluated.refusal = end.err();
    evaluated
}

impl Evaluated {
    fn run(
        &mut self,
        observations: &[Observation],
        question: &Question,
        reply: &[u64],
    ) -> Result<(), RefusedEvaluation> {
        let reply = Reply::of(reply, question);
        if reply.words_left_over() != 0 {
            return Err(refusal(8, None));
        }
        if reply.output_values() > question.output_budget as usize {
            return Err(refusal(9, None));
        }
        for (number, one) in observations.iter().enumerate() {
            if !reply.has(one) {
                return Err(refusal(10, Some(number)));
            }
            self.rows.push(reply.kept(one));
            self.add(&reply.row(one, question), one, question.effects)
                .map_err(|refused| refusal(refused, Some(number)))?;
        }
        // only now: a sum that is not finite loses against any refusal of a row
        if !are_finite(&self.sums) {
            return Err(refusal(12, None));
        }
        Ok(())
    }

    /// With one effect each row's terms must be finite too.
    fn add(&mut self, row: &Row, one: &Observation, effects: u32) -> Result<(), u32> {
        if !row.is_valid(effects) {
            return Err(11);
        }
        let terms = row.terms(one, effects);
        if effects != 2 && !are_finite(&terms) {
            return Err(12);
        }
        for (sum, term) in self.sums.iter_mut().zip(terms) {
            *sum += term;
        }
        Ok(())
    }

    /// The words of the sums, or the refusal.
    pub fn end(&self) -> Result<[u64; 7], RefusedEvaluation> {
        match self.refusal {
            None => Ok(self.sums.map(word_of)),
            Some(refusal) => Err(refusal),
        }
    }

    /// Writes it as a call does, and gives the number.
    pub fn write(&self, block: usize, work: &mut [u64], out: &mut [u64]) -> u32 {
        for (offset, word) in self.rows.as_flattened().iter().enumerate() {
            put(work, block.saturating_add(offset), *word);
        }
        match self.end() {
            Ok(sums) => {
                for (place, sum) in sums.into_iter().enumerate() {
                    put(out, place, sum);
                }
                0
            }
            Err(refusal) => {
                let told = refusal.observation.map_or(0, |number| number as u64 + 1);
                put(out, REFUSED_AT, told);
                refusal.number
            }
        }
    }
}

fn refusal(number: u32, observation: Option<usize>) -> RefusedEvaluation {
    RefusedEvaluation {
        number,
        observation,
    }
}

pub fn are_finite(floats: &[f64]) -> bool {
    floats.iter().all(|x| x.is_finite())
}

/// Document 01's question 4.
pub fn is_sound(one: &Observation, width: u32) -> bool {
    let is_deviation = |x: f64| x.is_finite() && x >= 0.;
    one.output < width as usize
        && one.value.is_finite()
        && is_deviation(one.additive)
        && is_deviation(one.proportional)
        && !(one.additive == 0. && one.proportional == 0.)
}

/// The places of a list's observations, one after the other: a subject has as
/// many as its count says, but at least one.
pub fn places(counts: &[u64]) -> impl Iterator<Item = Place> + '_ {
    (0..).flat_map(|subject| {
        let count = at(counts, subject).max(1) as usize;
        (0..count).map(move |observation| Place {
            subject,
            observation,
        })
    })
}

/// The place of the first observation that is not sound.
pub fn unsound(observations: &[Observation], width: u32, counts: &[u64]) -> Option<Place> {
    let unsound = observations.iter().position(|one| !is_sound(one, width))?;
    places(counts).nth(unsound)
}
