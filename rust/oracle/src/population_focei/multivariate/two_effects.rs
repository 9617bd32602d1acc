//! A plain face for the original with two effects.

use super::one_effect::{estimate, fitted, predicted};
use super::*;
use crate::session::{Mode, Objective, Observed, Point, Refusal, Row2, Settings, Simulator, Sums2};
use std::cell::RefCell;
use std::mem::take;
use std::rc::Rc;

const PARAMETERS: [&str; 2] = ["first", "second"];

pub fn determinant(matrix: [[f64; 2]; 2]) -> f64 {
    super::determinant(matrix)
}

pub fn inverse_positive(matrix: [[f64; 2]; 2]) -> Option<([[f64; 2]; 2], f64)> {
    super::inverse_positive(matrix)
}

pub fn product(matrix: [[f64; 2]; 2], vector: [f64; 2]) -> [f64; 2] {
    super::product(matrix, vector)
}

pub fn dot(left: [f64; 2], right: [f64; 2]) -> f64 {
    super::dot(left, right)
}

fn point(conditional: &Conditional2) -> Point {
    Point {
        eta: conditional.eta,
        nll: conditional.nll,
        score: conditional.score,
        information: conditional.information,
        rows: predicted(&conditional.rows),
    }
}

/// The original's evaluator with what it borrows, as for one effect.
pub struct TwoEffects {
    settings: Settings,
    cohort: Vec<Vec<Observed>>,
    model: Arc<CompiledSensitivityDocument>,
    request: PopulationFitRequest,
    setup: Setup,
    subjects: Vec<Subject>,
    calls: usize,
    warm_etas: Vec<Vector>,
    cache: HashMap<CacheKey, Conditional2>,
    cache_order: VecDeque<CacheKey>,
    cached_rows: usize,
}

impl TwoEffects {
    /// Nothing where omega has no inverse.
    pub fn new(
        settings: Settings,
        omega: [[f64; 2]; 2],
        cohort: Vec<Vec<Observed>>,
        simulator: Simulator,
    ) -> Option<Self> {
        let (precision, det_omega) = super::inverse_positive(omega)?;
        Some(TwoEffects {
            model: CompiledSensitivityDocument::new(&PARAMETERS, settings.width, simulator),
            request: PopulationFitRequest::new(&settings),
            setup: Setup {
                names: PARAMETERS.map(String::from),
                units: [String::new(), String::new()],
                start: [0.; 2],
                lower: [0.; 2],
                upper: [0.; 2],
                precision,
                det_omega,
            },
            subjects: Subject::all(&settings, &cohort),
            calls: 0,
            warm_etas: vec![[0.; 2]; cohort.len()],
            cache: HashMap::new(),
            cache_order: VecDeque::new(),
            cached_rows: 0,
            settings,
            cohort,
        })
    }

    /// One evaluation; the score is without the prior.
    pub fn subject(
        &mut self,
        index: usize,
        theta: [f64; 2],
        eta: [f64; 2],
    ) -> Result<Point, Refusal> {
        self.lent(|evaluator| evaluator.subject(index, theta, eta))
            .map(|conditional| point(&conditional))
            .map_err(|error| self.model.refusal(&error, index, &self.cohort[index]))
    }

    /// One candidate; the score is without the prior.
    pub fn mode_from_seed(
        &mut self,
        index: usize,
        theta: [f64; 2],
        initial: [f64; 2],
    ) -> Result<Point, Refusal> {
        self.lent(|evaluator| evaluator.mode_from_seed(index, theta, initial))
            .map(|conditional| point(&conditional))
            .map_err(|error| self.model.refusal(&error, index, &self.cohort[index]))
    }

    /// One search; the score is without the prior.
    pub fn mode(&mut self, index: usize, theta: [f64; 2]) -> Result<Mode, Refusal> {
        self.lent(|evaluator| evaluator.mode(index, theta))
            .map(|(best, population_rows)| Mode {
                best: point(&best),
                population_rows: predicted(&population_rows),
            })
            .map_err(|error| self.model.refusal(&error, index, &self.cohort[index]))
    }

    /// One objective over all subjects.
    pub fn population(&mut self, theta: [f64; 2]) -> Result<Objective, Refusal> {
        self.lent(|evaluator| evaluator.population(theta))
            .map(|evaluation| Objective {
                value: evaluation.ofv,
                subjects: evaluation.subjects.iter().map(estimate).collect(),
                fitted: evaluation.rows.iter().map(fitted).collect(),
            })
            .map_err(|error| self.model.objective_refusal(&error, &self.cohort))
    }

    /// The value alone of one objective, without the copies of all else that
    /// `population` tells: for timing.
    pub fn ofv(&mut self, theta: [f64; 2]) -> Result<f64, Refusal> {
        self.lent(|evaluator| evaluator.population(theta))
            .map(|evaluation| evaluation.ofv)
            .map_err(|error| self.model.objective_refusal(&error, &self.cohort))
    }

    pub fn precision(&self) -> [[f64; 2]; 2] {
        self.setup.precision
    }

    pub fn det_omega(&self) -> f64 {
        self.setup.det_omega
    }

    pub fn calls(&self) -> usize {
        self.calls
    }

    pub fn cached_rows(&self) -> usize {
        self.cached_rows
    }

    pub fn warm_etas(&self) -> &[[f64; 2]] {
        &self.warm_etas
    }

    pub fn warm_etas_mut(&mut self) -> &mut [[f64; 2]] {
        &mut self.warm_etas
    }

    fn lent<R>(&mut self, call: impl FnOnce(&mut Evaluator2<'_>) -> R) -> R {
        self.model.begin(self.settings.kept_rows);
        let mut evaluator = Evaluator2 {
            model: &self.model,
            request: &self.request,
            setup: self.setup.clone(),
            subjects: take(&mut self.subjects),
            calls: self.calls,
            warm_etas: take(&mut self.warm_etas),
            cache: take(&mut self.cache),
            cache_order: take(&mut self.cache_order),
            cached_rows: self.cached_rows,
        };
        let answer = call(&mut evaluator);
        self.subjects = evaluator.subjects;
        self.calls = evaluator.calls;
        self.warm_etas = evaluator.warm_etas;
        self.cache = evaluator.cache;
        self.cache_order = evaluator.cache_order;
        self.cached_rows = evaluator.cached_rows;
        answer
    }
}

/// The source has no function for one row of two effects: the row stands
/// inside `subject`. So the rows given here become one subject's observations
/// and the simulator's reply. Theta 1 and eta zero make the individual values
/// 1, and so the eta sensitivities the derivatives themselves; K is 0, so that
/// nothing is kept from one call to the next.
pub struct Rows2 {
    session: TwoEffects,
    reply: Rc<RefCell<Vec<SensitivitySample>>>,
}

impl Rows2 {
    #[allow(clippy::new_without_default)]
    pub fn new() -> Self {
        let reply = Rc::new(RefCell::new(Vec::new()));
        let lent = Rc::clone(&reply);
        let settings = Settings {
            eta_bound: 1.,
            gradient_tolerance: 1.,
            max_evaluations: usize::MAX,
            kept_rows: 0,
            width: 1,
            output_budget: usize::MAX,
        };
        let session = TwoEffects::new(
            settings,
            [[1., 0.], [0., 1.]],
            vec![Vec::new()],
            Box::new(move |_| Some(take(&mut *lent.borrow_mut()))),
        );
        Rows2 {
            session: session.expect("the unit matrix has an inverse"),
            reply,
        }
    }

    /// The sums over the rows, or 11, or 12 where the sums are not finite.
    pub fn sums(&mut self, rows: &[Row2]) -> Result<Sums2, u32> {
        let mut reply = self.reply.borrow_mut();
        let observations = &mut self.session.subjects[0].observations;
        observations.clear();
        for (position, row) in rows.iter().enumerate() {
            observations.push(Observation {
                output: 0,
                row: position,
                value: row.value,
                additive: row.additive,
                proportional: row.proportional,
            });
            reply.push(sample(row.prediction, row.f_eta));
        }
        drop(reply);
        self.evaluate()
    }

    /// The sums over observations that are all held to the one row of the
    /// first: for timing, since the reply then costs next to nothing.
    pub fn sums_at_one_row(&mut self, rows: &[Row2]) -> Result<Sums2, u32> {
        let observations = &mut self.session.subjects[0].observations;
        if observations.len() != rows.len() {
            *observations = rows
                .iter()
                .map(|row| Observation {
                    output: 0,
                    row: 0,
                    value: row.value,
                    additive: row.additive,
                    proportional: row.proportional,
                })
                .collect();
        }
        self.reply
            .borrow_mut()
            .push(sample(rows[0].prediction, rows[0].f_eta));
        self.evaluate()
    }

    fn evaluate(&mut self) -> Result<Sums2, u32> {
        let evaluated = self
            .session
            .lent(|evaluator| evaluator.subject(0, [1.; 2], [0.; 2]));
        match evaluated {
            Ok(conditional) => Ok(Sums2 {
                nll: conditional.nll,
                score: conditional.score,
                information: conditional.information,
            }),
            Err(error) => Err(error.number()),
        }
    }
}

fn sample(prediction: f64, f_eta: [f64; 2]) -> SensitivitySample {
    SensitivitySample {
        time: 0.,
        side: "pre",
        values: vec![prediction],
        derivatives: vec![vec![f_eta[0]], vec![f_eta[1]]],
    }
}
