//! Small stand-ins for what the cut-out items lean on. They hold just what
//! the text of the items names, and what tells a refusal's number and place.
// The items fill in some fields that nothing here reads.
#![allow(dead_code)]

use crate::session::{Observed, Question, Refusal, SensitivitySample, Settings, Simulator};
use std::cell::{Cell, RefCell};
use std::cmp::Ordering;
use std::collections::{self, BTreeMap};
use std::hash::Hash;
use std::ops::Index;
use std::panic::Location;
use std::path::Path;
use std::sync::Arc;

include!(concat!(env!("OUT_DIR"), "/refusals.rs"));

#[derive(Clone, Copy, Debug, PartialEq, Eq)]
pub enum ErrorCode {
    Domain,
    Invalid,
    Invariant,
    OutputBudget,
    Solver,
    Unsupported,
    WorkBudget,
}

/// The source's error, which also remembers where in the text it was made:
/// that is what document 01's number goes by.
pub struct Error {
    pub code: ErrorCode,
    pub message: String,
    pub expression: Option<String>,
    made_at: &'static Location<'static>,
}

impl Error {
    #[track_caller]
    pub fn new(code: ErrorCode, message: impl Into<String>) -> Self {
        Error {
            code,
            message: message.into(),
            expression: None,
            made_at: Location::caller(),
        }
    }

    pub fn number(&self) -> u32 {
        if self.code == ErrorCode::Solver {
            return 8;
        }
        let file = Path::new(self.made_at.file()).file_name().unwrap();
        REFUSALS
            .iter()
            .find(|(name, line, _)| file == *name && self.made_at.line() == *line)
            .unwrap_or_else(|| panic!("a refusal without a number: {}", self.message))
            .2
    }
}

#[track_caller]
pub fn invalid(message: impl Into<String>) -> Error {
    Error::new(ErrorCode::Invalid, message)
}

/// Stands in for the source's largest number of cached rows, so that a run
/// may set its own K.
#[derive(Clone, Copy)]
pub struct KeptRowsLimit;

pub const MAX_CACHED_OBSERVATION_ROWS: KeptRowsLimit = KeptRowsLimit;

thread_local! {
    static KEPT_ROWS_LIMIT: Cell<usize> = const { Cell::new(0) };
    static LAST_ETAS: Cell<[f64; 2]> = const { Cell::new([0.; 2]) };
    static NOTED_OBSERVATION: Cell<Option<usize>> = const { Cell::new(None) };
    static ASKED: Cell<usize> = const { Cell::new(0) };
}

/// How many evaluations were asked for in the last call of the original on
/// this thread, whether a kept one, a reply or a refusal answered.
pub fn asked() -> usize {
    ASKED.get()
}

/// The source's map, which counts how often something was looked for in it:
/// `subject` looks for a kept evaluation each time that one is asked for, and
/// nothing else in the source calls `get`.
pub struct HashMap<K, V>(collections::HashMap<K, V>);

impl<K: Eq + Hash, V> HashMap<K, V> {
    pub fn new() -> Self {
        HashMap(collections::HashMap::new())
    }

    pub fn get(&self, key: &K) -> Option<&V> {
        ASKED.set(ASKED.get() + 1);
        self.0.get(key)
    }

    pub fn contains_key(&self, key: &K) -> bool {
        self.0.contains_key(key)
    }

    pub fn insert(&mut self, key: K, value: V) -> Option<V> {
        self.0.insert(key, value)
    }

    pub fn remove(&mut self, key: &K) -> Option<V> {
        self.0.remove(key)
    }
}

impl<K: Eq + Hash, V> Default for HashMap<K, V> {
    fn default() -> Self {
        HashMap::new()
    }
}

impl<K: Eq + Hash, V> Index<&K> for HashMap<K, V> {
    type Output = V;

    fn index(&self, key: &K) -> &V {
        &self.0[key]
    }
}

impl PartialEq<KeptRowsLimit> for usize {
    fn eq(&self, _: &KeptRowsLimit) -> bool {
        *self == KEPT_ROWS_LIMIT.get()
    }
}

impl PartialOrd<KeptRowsLimit> for usize {
    fn partial_cmp(&self, _: &KeptRowsLimit) -> Option<Ordering> {
        self.partial_cmp(&KEPT_ROWS_LIMIT.get())
    }
}

/// The source names an observation at fault only in a formatted text, and
/// `population` writes another text over it. So the texts are read as they
/// are made: the second number in one is an observation.
pub fn noted(text: String) -> String {
    let observation = text
        .split(|character: char| !character.is_ascii_digit())
        .filter_map(|digits| digits.parse().ok())
        .nth(1);
    if observation.is_some() {
        NOTED_OBSERVATION.set(observation);
    }
    text
}

/// `libm` as the items see it: the source hands the simulator no eta, so the
/// arguments of `exp` are remembered for the question.
pub mod libm {
    pub use crate::libm::log;

    pub fn exp(eta: f64) -> f64 {
        super::LAST_ETAS.set([super::LAST_ETAS.get()[1], eta]);
        crate::libm::exp(eta)
    }
}

pub mod qspquest_core {
    pub mod model {
        #[derive(Clone)]
        pub struct Quantity {
            pub value: f64,
            pub unit: String,
        }
    }

    pub mod regimen {
        #[derive(Clone, Copy, PartialEq)]
        pub enum ObservationSide {
            Pre,
            Post,
        }
    }
}

use qspquest_core::model::Quantity;
use qspquest_core::regimen::ObservationSide;

/// A regimen is only the subject it belongs to.
pub struct Regimen {
    subject: usize,
}

#[derive(Clone, Copy)]
pub struct Budgets {
    pub output_values: usize,
}

#[derive(Clone, Copy)]
pub struct Solver;

pub struct Run {
    pub parameters: BTreeMap<String, Quantity>,
    pub regimen: Regimen,
    pub budgets: Budgets,
    pub initial_states: (),
    pub solver: Solver,
}

pub struct SensitivityRequest {
    pub run: Run,
    pub derivative_absolute_tolerances: (),
}

impl SensitivityRequest {
    pub fn new(subject: usize, settings: &Settings) -> Self {
        SensitivityRequest {
            run: Run {
                parameters: BTreeMap::new(),
                regimen: Regimen { subject },
                budgets: Budgets {
                    output_values: settings.output_budget,
                },
                initial_states: (),
                solver: Solver,
            },
            derivative_absolute_tolerances: (),
        }
    }
}

pub struct PopulationFitRequest {
    pub eta_bound: f64,
    pub gradient_tolerance: f64,
    pub max_evaluations: usize,
}

impl PopulationFitRequest {
    pub fn new(settings: &Settings) -> Self {
        PopulationFitRequest {
            eta_bound: settings.eta_bound,
            gradient_tolerance: settings.gradient_tolerance,
            max_evaluations: settings.max_evaluations,
        }
    }
}

pub struct PopulationSubjectEstimate {
    pub eta: Vec<f64>,
    pub negative_log_likelihood: f64,
}

pub struct PopulationFittedObservation {
    pub subject_index: usize,
    pub observation_index: usize,
    pub row: usize,
    pub output: String,
    pub time: Quantity,
    pub side: ObservationSide,
    pub value: Quantity,
    pub pred: Quantity,
    pub ipred: Quantity,
}

pub struct Primal {
    pub time_unit: String,
}

/// The model: a simulator of the test's own.
pub struct CompiledSensitivityDocument {
    pub primal: Primal,
    effects: Vec<String>,
    output_names: Vec<String>,
    output_units: Vec<String>,
    simulator: RefCell<Simulator>,
    reply_rows: Cell<usize>,
    fitted_rows: Cell<usize>,
}

impl CompiledSensitivityDocument {
    /// The items hold their model in an `Arc`, though nothing is shared here.
    #[allow(clippy::arc_with_non_send_sync)]
    pub fn new(effects: &[&str], width: usize, simulator: Simulator) -> Arc<Self> {
        Arc::new(CompiledSensitivityDocument {
            primal: Primal {
                time_unit: String::new(),
            },
            effects: effects.iter().map(|name| name.to_string()).collect(),
            output_names: vec![String::new(); width],
            output_units: vec![String::new(); width],
            simulator: RefCell::new(simulator),
            reply_rows: Cell::new(0),
            fitted_rows: Cell::new(0),
        })
    }

    pub fn output_names(&self) -> &[String] {
        &self.output_names
    }

    /// Asked once for each fitted row, which tells how far `population` came.
    pub fn output_units(&self) -> &[String] {
        self.fitted_rows.set(self.fitted_rows.get() + 1);
        &self.output_units
    }

    pub fn simulate_regimen_initial(
        &self,
        parameters: &BTreeMap<String, Quantity>,
        regimen: &Regimen,
        _derivative_absolute_tolerances: &(),
        _budgets: Budgets,
        _initial_states: &(),
        _solver: Solver,
    ) -> Result<Vec<SensitivitySample>, Error> {
        let last = LAST_ETAS.get();
        let mut question = Question {
            subject: regimen.subject,
            eta: if self.effects.len() == 1 {
                [last[1], 0.]
            } else {
                last
            },
            individual: [0.; 2],
        };
        for (value, name) in question.individual.iter_mut().zip(&self.effects) {
            *value = parameters[name].value;
        }
        let rows = (self.simulator.borrow_mut())(&question)
            .ok_or_else(|| Error::new(ErrorCode::Solver, "the simulation failed"))?;
        self.reply_rows.set(rows.len());
        Ok(rows)
    }

    /// Before each call of the original.
    pub fn begin(&self, kept_rows: usize) {
        KEPT_ROWS_LIMIT.set(kept_rows);
        NOTED_OBSERVATION.set(None);
        ASKED.set(0);
        self.fitted_rows.set(0);
    }

    /// The refusal of one subject's evaluation or search.
    pub fn refusal(&self, error: &Error, subject: usize, observed: &[Observed]) -> Refusal {
        let number = error.number();
        let observation = match number {
            10 => observed
                .iter()
                .position(|one| one.row >= self.reply_rows.get()),
            11 | 12 => NOTED_OBSERVATION.get(),
            _ => None,
        };
        Refusal {
            number,
            subject: Some(subject),
            observation,
        }
    }

    /// The refusal of an objective. Which subject it belongs to follows from
    /// the rows fitted before, since every subject has observations.
    pub fn objective_refusal(&self, error: &Error, cohort: &[Vec<Observed>]) -> Refusal {
        if error.number() == 18 {
            return Refusal {
                number: 18,
                subject: None,
                observation: None,
            };
        }
        let mut rows = self.fitted_rows.get();
        let mut subject = 0;
        while rows >= cohort[subject].len() {
            rows -= cohort[subject].len();
            subject += 1;
        }
        self.refusal(error, subject, &cohort[subject])
    }
}
