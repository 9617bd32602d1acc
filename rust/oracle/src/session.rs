//! The plain values that go into the original and come out of it.

/// What a run of the original is given for all its objectives.
#[derive(Clone, Debug)]
pub struct Settings {
    pub eta_bound: f64,
    pub gradient_tolerance: f64,
    pub max_evaluations: usize,
    /// Document 01's K: 0 keeps no evaluation of a subject with observations.
    pub kept_rows: usize,
    /// How many outputs a row of a reply has.
    pub width: usize,
    pub output_budget: usize,
}

/// One observation of a subject.
#[derive(Clone, Copy, Debug)]
pub struct Observed {
    pub output: usize,
    pub row: usize,
    pub value: f64,
    pub additive: f64,
    pub proportional: f64,
}

/// What the original asks of the simulator. With one effect the second
/// entries are zero.
#[derive(Clone, Copy, Debug, PartialEq)]
pub struct Question {
    pub subject: usize,
    pub eta: [f64; 2],
    pub individual: [f64; 2],
}

/// A row of the simulator's reply.
#[derive(Clone, Debug)]
pub struct SensitivitySample {
    pub time: f64,
    /// "pre", anything else is after the dose.
    pub side: &'static str,
    pub values: Vec<f64>,
    /// For each effect the derivatives of all outputs.
    pub derivatives: Vec<Vec<f64>>,
}

/// Gives the rows, or nothing where the simulation fails.
pub type Simulator = Box<dyn FnMut(&Question) -> Option<Vec<SensitivitySample>>>;

/// A refusal by document 01's number and place.
#[derive(Clone, Copy, Debug, PartialEq, Eq)]
pub struct Refusal {
    pub number: u32,
    pub subject: Option<usize>,
    pub observation: Option<usize>,
}

/// A row as the original keeps it with an evaluated point.
#[derive(Clone, Copy, Debug, PartialEq)]
pub struct Predicted {
    pub prediction: f64,
    pub time: f64,
    pub pre: bool,
}

/// An evaluated point. With one effect the second entries are zero.
#[derive(Clone, Debug, PartialEq)]
pub struct Point {
    pub eta: [f64; 2],
    pub nll: f64,
    pub score: [f64; 2],
    pub information: [[f64; 2]; 2],
    pub rows: Vec<Predicted>,
}

/// A subject's mode and the rows at eta zero.
#[derive(Clone, Debug, PartialEq)]
pub struct Mode {
    pub best: Point,
    pub population_rows: Vec<Predicted>,
}

/// What a finished objective gives.
#[derive(Clone, Debug, PartialEq)]
pub struct Objective {
    pub value: f64,
    pub subjects: Vec<Estimate>,
    pub fitted: Vec<Fitted>,
}

#[derive(Clone, Copy, Debug, PartialEq)]
pub struct Estimate {
    pub eta: [f64; 2],
    pub negative_log_likelihood: f64,
}

#[derive(Clone, Copy, Debug, PartialEq)]
pub struct Fitted {
    pub subject: usize,
    pub observation: usize,
    pub pred: f64,
    pub ipred: f64,
}

/// One observation of two effects together with the row it is held to.
#[derive(Clone, Copy, Debug)]
pub struct Row2 {
    pub value: f64,
    pub additive: f64,
    pub proportional: f64,
    pub prediction: f64,
    pub f_eta: [f64; 2],
}

/// A subject's sums over its observations, two effects.
#[derive(Clone, Copy, Debug, PartialEq)]
pub struct Sums2 {
    pub nll: f64,
    pub score: [f64; 2],
    pub information: [[f64; 2]; 2],
}
