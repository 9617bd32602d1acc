//! The words of a session script, as the program `test_sessions` reads them,
//! and what it is to answer. A script is a session after the other; a session
//! is its length, what is lent at first, and the host's acts.

use oracle::session::{Observed, Refusal};

/// What `setup` is given beside the words and observations lent.
#[derive(Clone, Debug, PartialEq)]
pub struct Setup {
    pub effects: u64,
    /// By rows; with one effect the first entry.
    pub omega: [f64; 4],
    pub eta_bound: f64,
    pub gradient_tolerance: f64,
    pub width: u64,
    pub k: u64,
    pub additive: Option<f64>,
    pub output_budget: u64,
    pub max_evaluations: u64,
}

/// What each objective is given.
#[derive(Clone, Copy, Debug, PartialEq)]
pub struct Parameters {
    pub theta: [f64; 2],
    pub omega: f64,
    pub additive: Option<f64>,
}

/// How many words are lent.
#[derive(Clone, Copy, Debug, PartialEq, Eq)]
pub struct Lengths {
    pub cache: usize,
    pub work: usize,
    pub warm: usize,
    pub results: usize,
}

/// All that a call is lent, but for the reply.
#[derive(Clone, Debug)]
pub struct Lent {
    pub setup: Setup,
    pub lengths: Lengths,
    pub counts: Vec<u64>,
    pub observations: Vec<Observed>,
}

/// A call of the host.
#[derive(Clone, Debug)]
pub enum Call {
    Setup,
    Objective(Parameters),
    Reply(Vec<u64>),
    Failure,
}

/// What the host changes for a call that breaks the rules.
#[derive(Clone, Debug)]
pub enum Change {
    Nothing,
    Lengths(Lengths),
    Setup(Setup),
    Counts(Vec<u64>),
    Observations(Vec<Observed>),
    /// Calls and cached rows.
    Tally([u64; 2]),
}

/// How many words an answer has.
pub const ANSWER: usize = 10;

/// The parts of an answer's last word.
pub const WORK_IS_ZERO: u64 = 1;
pub const CACHE_IS_ZERO: u64 = 2;
pub const CHANGED: u64 = 4;

/// An answer that is expected. Of the last word document 01 leaves some bits
/// free: what work and kept words hold in the midst of an objective.
#[derive(Clone, Copy, Debug)]
pub struct Expected {
    pub words: [u64; ANSWER],
    /// The bits of the last word that are said.
    pub said: u64,
}

impl Expected {
    pub fn is(&self, words: &[u64]) -> bool {
        let floats = if self.words[0] == 2 { 0..0 } else { 1..5 };
        let last = ANSWER - 1;
        words.len() == ANSWER
            && (0..last).all(|at| {
                self.words[at] == words[at]
                    || floats.contains(&at) && is_nan(self.words[at]) && is_nan(words[at])
            })
            && self.words[last] & self.said == words[last] & self.said
            && words[last] < 8
    }
}

fn is_nan(word: u64) -> bool {
    f64::from_bits(word).is_nan()
}

/// Kind and next four words of a refusal.
pub fn refused(refusal: Refusal) -> [u64; 5] {
    let place = match (refusal.subject, refusal.observation) {
        (None, _) => 0,
        (Some(_), None) => 1,
        (Some(_), Some(_)) => 2,
    };
    let [subject, observation] = [refusal.subject, refusal.observation].map(|at| at.unwrap_or(0));
    [
        2,
        refusal.number as u64,
        place,
        subject as u64,
        observation as u64,
    ]
}

impl Setup {
    fn words(&self) -> [u64; 13] {
        let [a, b, c, d] = self.omega.map(f64::to_bits);
        let [has_additive, additive] = additive_words(self.additive);
        [
            self.effects,
            a,
            b,
            c,
            d,
            self.eta_bound.to_bits(),
            self.gradient_tolerance.to_bits(),
            self.width,
            self.k,
            has_additive,
            additive,
            self.output_budget,
            self.max_evaluations,
        ]
    }
}

impl Lengths {
    fn words(&self) -> [u64; 4] {
        [self.cache, self.work, self.warm, self.results].map(|length| length as u64)
    }
}

fn additive_words(additive: Option<f64>) -> [u64; 2] {
    match additive {
        Some(additive) => [1, additive.to_bits()],
        None => [0, 0],
    }
}

/// The words of a session as they come about.
#[derive(Clone, Debug, Default)]
pub struct Script(Vec<u64>);

impl Script {
    pub fn begin(lent: &Lent) -> Self {
        let mut script = Script::default();
        script.0.extend(lent.setup.words());
        script.0.extend(lent.lengths.words());
        script.list(&lent.counts);
        script.observations(&lent.observations);
        script
    }

    /// With its length before it.
    pub fn words(&self) -> Vec<u64> {
        [&[self.0.len() as u64], &self.0[..]].concat()
    }

    pub fn call(&mut self, call: &Call) {
        match call {
            Call::Setup => self.0.push(0),
            Call::Objective(given) => {
                let [first, second] = given.theta.map(f64::to_bits);
                self.0.extend([1, first, second, given.omega.to_bits()]);
                self.0.extend(additive_words(given.additive));
            }
            Call::Reply(words) => {
                self.0.push(2);
                self.list(words);
            }
            Call::Failure => self.0.push(3),
        }
    }

    pub fn warm(&mut self, words: &[u64]) {
        self.0.push(4);
        self.list(words);
    }

    /// What is lent from now on, of that which the change is about.
    pub fn lend(&mut self, change: &Change, lent: &Lent, tally: [u64; 2]) {
        match change {
            Change::Nothing => {}
            Change::Lengths(_) => {
                self.0.push(5);
                self.0.extend(lent.lengths.words());
            }
            Change::Setup(_) => {
                self.0.push(6);
                self.0.extend(lent.setup.words());
            }
            Change::Counts(_) => {
                self.0.push(7);
                self.list(&lent.counts);
            }
            Change::Observations(_) => {
                self.0.push(8);
                self.observations(&lent.observations);
            }
            Change::Tally(_) => {
                self.0.push(9);
                self.0.extend(tally);
            }
        }
    }

    fn list(&mut self, words: &[u64]) {
        self.0.push(words.len() as u64);
        self.0.extend(words);
    }

    fn observations(&mut self, observations: &[Observed]) {
        self.0.push(observations.len() as u64);
        for one in observations {
            self.0.extend([one.output as u64, one.row as u64]);
            let floats = [one.value, one.additive, one.proportional];
            self.0.extend(floats.map(f64::to_bits));
        }
    }
}

impl Lent {
    /// With the change in it.
    pub fn changed(&self, change: &Change) -> Lent {
        let mut lent = self.clone();
        match change {
            Change::Nothing | Change::Tally(_) => {}
            Change::Lengths(lengths) => lent.lengths = *lengths,
            Change::Setup(setup) => lent.setup = setup.clone(),
            Change::Counts(counts) => lent.counts = counts.clone(),
            Change::Observations(observations) => lent.observations = observations.clone(),
        }
        lent
    }
}
