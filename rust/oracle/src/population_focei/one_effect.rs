//! A plain face for the original with one effect.

use super::*;
use crate::session::{
    Estimate, Fitted, Mode, Objective, Observed, Point, Predicted, Refusal, Settings, Simulator,
};
use std::mem::take;

const PARAMETER: &str = "first";

/// The original's terms of one row, or document 01's 11 or 12. The additive
/// deviation is the one in force, an override included.
pub fn row_terms(
    value: f64,
    proportional: f64,
    prediction: f64,
    f_eta: f64,
    additive: f64,
) -> Result<[f64; 3], u32> {
    let observation = Observation {
        output: 0,
        row: 0,
        value,
        additive,
        proportional,
    };
    match super::row_terms(&observation, prediction, f_eta, additive) {
        Ok(terms) => Ok([terms.nll, terms.score, terms.information]),
        Err(error) => Err(error.number()),
    }
}

impl Observation {
    pub(super) fn of(observed: &Observed) -> Self {
        Observation {
            output: observed.output,
            row: observed.row,
            value: observed.value,
            additive: observed.additive,
            proportional: observed.proportional,
        }
    }
}

impl Subject {
    pub(super) fn all(settings: &Settings, cohort: &[Vec<Observed>]) -> Vec<Self> {
        cohort
            .iter()
            .enumerate()
            .map(|(index, observed)| Subject::of(index, settings, observed))
            .collect()
    }

    pub(super) fn of(index: usize, settings: &Settings, observed: &[Observed]) -> Self {
        Subject {
            simulation: SensitivityRequest::new(index, settings),
            observations: observed.iter().map(Observation::of).collect(),
        }
    }
}

pub(super) fn predicted(rows: &[PredictionRow]) -> Vec<Predicted> {
    rows.iter()
        .map(|row| Predicted {
            prediction: row.prediction,
            time: row.time,
            pre: row.side == qspquest_core::regimen::ObservationSide::Pre,
        })
        .collect()
}

pub(super) fn estimate(estimate: &PopulationSubjectEstimate) -> Estimate {
    let second = estimate.eta.get(1).copied().unwrap_or(0.);
    Estimate {
        eta: [estimate.eta[0], second],
        negative_log_likelihood: estimate.negative_log_likelihood,
    }
}

pub(super) fn fitted(row: &PopulationFittedObservation) -> Fitted {
    Fitted {
        subject: row.subject_index,
        observation: row.observation_index,
        pred: row.pred.value,
        ipred: row.ipred.value,
    }
}

fn point(conditional: &Conditional) -> Point {
    Point {
        eta: [conditional.eta, 0.],
        nll: conditional.nll,
        score: [conditional.score, 0.],
        information: [[conditional.information, 0.], [0., 0.]],
        rows: predicted(&conditional.rows),
    }
}

/// The original's evaluator with what it borrows. Its parts are lent to an
/// `Evaluator` for each call and taken back after it.
pub struct OneEffect {
    settings: Settings,
    cohort: Vec<Vec<Observed>>,
    model: Arc<CompiledSensitivityDocument>,
    request: PopulationFitRequest,
    subjects: Vec<Subject>,
    simulation_groups: Vec<usize>,
    calls: usize,
    warm_etas: Vec<f64>,
    cache: HashMap<SubjectKey, Conditional>,
    cache_order: VecDeque<SubjectKey>,
    cached_rows: usize,
}

impl OneEffect {
    pub fn new(settings: Settings, cohort: Vec<Vec<Observed>>, simulator: Simulator) -> Self {
        OneEffect {
            model: CompiledSensitivityDocument::new(&[PARAMETER], settings.width, simulator),
            request: PopulationFitRequest::new(&settings),
            subjects: Subject::all(&settings, &cohort),
            simulation_groups: (0..cohort.len()).collect(),
            calls: 0,
            warm_etas: vec![0.; cohort.len()],
            cache: HashMap::new(),
            cache_order: VecDeque::new(),
            cached_rows: 0,
            settings,
            cohort,
        }
    }

    /// One evaluation; the score is without the prior, as kept.
    pub fn subject(
        &mut self,
        index: usize,
        theta: f64,
        eta: f64,
        additive_sd: Option<f64>,
    ) -> Result<Point, Refusal> {
        self.lent(|evaluator| evaluator.subject(index, theta, eta, additive_sd))
            .map(|conditional| point(&conditional))
            .map_err(|error| self.model.refusal(&error, index, &self.cohort[index]))
    }

    /// One search; the score is with the prior.
    pub fn mode(
        &mut self,
        index: usize,
        theta: f64,
        omega: f64,
        additive_sd: Option<f64>,
    ) -> Result<Mode, Refusal> {
        self.lent(|evaluator| evaluator.mode(index, theta, omega, additive_sd))
            .map(|(best, population_rows)| Mode {
                best: point(&best),
                population_rows: predicted(&population_rows),
            })
            .map_err(|error| self.model.refusal(&error, index, &self.cohort[index]))
    }

    /// One objective over all subjects.
    pub fn population(
        &mut self,
        theta: f64,
        omega: f64,
        additive_sd: Option<f64>,
    ) -> Result<Objective, Refusal> {
        self.lent(|evaluator| evaluator.population(theta, omega, additive_sd))
            .map(|evaluation| Objective {
                value: evaluation.ofv,
                subjects: evaluation.subjects.iter().map(estimate).collect(),
                fitted: evaluation.fitted_observations.iter().map(fitted).collect(),
            })
            .map_err(|error| self.model.objective_refusal(&error, &self.cohort))
    }

    /// The value alone of one objective, without the copies of all else that
    /// `population` tells: for timing.
    pub fn ofv(
        &mut self,
        theta: f64,
        omega: f64,
        additive_sd: Option<f64>,
    ) -> Result<f64, Refusal> {
        self.lent(|evaluator| evaluator.population(theta, omega, additive_sd))
            .map(|evaluation| evaluation.ofv)
            .map_err(|error| self.model.objective_refusal(&error, &self.cohort))
    }

    pub fn calls(&self) -> usize {
        self.calls
    }

    pub fn cached_rows(&self) -> usize {
        self.cached_rows
    }

    pub fn warm_etas(&self) -> &[f64] {
        &self.warm_etas
    }

    pub fn warm_etas_mut(&mut self) -> &mut [f64] {
        &mut self.warm_etas
    }

    /// Trajectories are not shared: the limit of 0 keeps only an empty one,
    /// and that is forgotten with the evaluator. Within a call it could not
    /// be asked for again, since an empty reply ends it with 10.
    fn lent<R>(&mut self, call: impl FnOnce(&mut Evaluator<'_>) -> R) -> R {
        self.model.begin(self.settings.kept_rows);
        let mut evaluator = Evaluator {
            model: &self.model,
            request: &self.request,
            subjects: take(&mut self.subjects),
            parameter: PARAMETER,
            unit: "",
            calls: self.calls,
            warm_etas: take(&mut self.warm_etas),
            simulation_groups: take(&mut self.simulation_groups),
            cache: take(&mut self.cache),
            cache_order: take(&mut self.cache_order),
            cached_rows: self.cached_rows,
            trajectory_cache: HashMap::new(),
            trajectory_order: VecDeque::new(),
            cached_trajectory_values: 0,
            trajectory_value_limit: 0,
            #[cfg(test)]
            trajectory_runs: 0,
        };
        let answer = call(&mut evaluator);
        self.subjects = evaluator.subjects;
        self.calls = evaluator.calls;
        self.warm_etas = evaluator.warm_etas;
        self.simulation_groups = evaluator.simulation_groups;
        self.cache = evaluator.cache;
        self.cache_order = evaluator.cache_order;
        self.cached_rows = evaluator.cached_rows;
        answer
    }
}
