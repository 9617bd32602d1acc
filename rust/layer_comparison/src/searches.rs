//! Whole searches with one effect: the original's `mode`, and Curlewstand's
//! rules led through the same evaluations, which are the original's too.

use crate::beside::{are_in_domain, is_deviation, subject_floats, Asked, End, Met, Run};
use crate::compare::word_of;
use crate::floats::power;
use crate::rules::{self, point_words};
use crate::simulators::{Model, Surroundings};
use oracle::session::{Observed, Question, Simulator};
use oracle::OneEffect;
use test_exports::mode::{eta_tolerance, Conditional, Request, Search, Settings};

/// What both sides are given.
#[derive(Clone, Debug)]
pub struct Trial {
    pub eta_bound: f64,
    pub omega: f64,
    pub gradient_tolerance: f64,
    pub warm: f64,
    pub theta: f64,
    pub additive_sd: Option<f64>,
    pub max_evaluations: usize,
    pub observations: Vec<Observed>,
    pub model: Model,
}

/// The original with a simulator that writes down what it is asked. It keeps
/// no evaluation, so that each point asked for is put to the simulator.
struct Original {
    session: OneEffect,
    asked: Asked,
}

impl Original {
    fn new(trial: &Trial) -> Self {
        let asked = Asked::default();
        let settings = oracle::session::Settings {
            eta_bound: trial.eta_bound,
            gradient_tolerance: trial.gradient_tolerance,
            max_evaluations: trial.max_evaluations,
            kept_rows: 0,
            width: 1,
            output_budget: 1_000,
        };
        let cohort = vec![trial.observations.clone()];
        let simulator = trial.simulator(Asked::clone(&asked));
        let mut session = OneEffect::new(settings, cohort, simulator);
        session.warm_etas_mut()[0] = trial.warm;
        Original { session, asked }
    }

    /// What stands at a point, with the prior added to the score as `mode`
    /// does it.
    fn evaluate(&mut self, trial: &Trial, eta: f64) -> Result<Conditional, u32> {
        let evaluated = self.session.subject(0, trial.theta, eta, trial.additive_sd);
        match evaluated {
            Ok(point) => Ok(Conditional {
                eta: point.eta[0],
                nll: point.nll,
                score: point.score[0] + eta / trial.omega,
                information: point.information[0][0],
            }),
            Err(refusal) => Err(refusal.number),
        }
    }

    fn run(self, end: End) -> Run {
        Run {
            evaluations: self.session.calls(),
            asked: self.asked.take(),
            end,
        }
    }
}

impl Trial {
    pub fn settings(&self) -> Settings {
        Settings {
            eta_bound: self.eta_bound,
            omega: self.omega,
            tolerance: eta_tolerance(self.gradient_tolerance),
            warm: self.warm,
        }
    }

    fn simulator(&self, asked: Asked) -> Simulator {
        let (model, eta_bound, omega) = (self.model, self.eta_bound, self.omega);
        let values: Vec<f64> = self.observations.iter().map(|one| one.value).collect();
        Box::new(move |question: &Question| {
            asked.borrow_mut().push(question.eta.map(word_of));
            let surroundings = Surroundings {
                eta_bound,
                omega,
                values: &values,
            };
            model.reply(question, surroundings)
        })
    }
}

impl crate::beside::Trial for Trial {
    type State = Search;
    type Met = OneEffectMet;

    fn original(&self) -> Run {
        let mut original = Original::new(self);
        let found = original
            .session
            .mode(0, self.theta, self.omega, self.additive_sd);
        // the score of the original's mode has the prior's share
        let end = match found {
            Ok(mode) => End::Mode(
                [
                    mode.best.eta[0],
                    mode.best.nll,
                    mode.best.score[0],
                    mode.best.information[0][0],
                ]
                .map(word_of)
                .to_vec(),
            ),
            Err(refusal) => End::Refused(refusal.number),
        };
        original.run(end)
    }

    fn ours(&self, mut watch: impl FnMut(&Search)) -> Run {
        let mut evaluations = Original::new(self);
        let settings = self.settings();
        let mut search = Search::start();
        let end = loop {
            watch(&search);
            match search.request(&settings) {
                Request::Point(eta) => match evaluations.evaluate(self, eta) {
                    Ok(at) => search.advance(&settings, &at),
                    Err(number) => break End::Refused(number),
                },
                Request::Mode => break End::Mode(point_words(&search.best()).to_vec()),
                Request::Refused(refusal) => break End::Refused(refusal.0),
            }
        };
        evaluations.run(end)
    }

    fn count(&self, states: &[Search], end: &End, met: &mut OneEffectMet) {
        let read = |state: &Search| rules::Search::of_words(state.words()).unwrap();
        // The eighteenth state is the first past the grid.
        if let Some(cell) = states.get(17).map(read) {
            if cell.stage != rules::GRID {
                met.count_cell(&self.settings(), &cell);
            }
        }
        let last = read(states.last().unwrap());
        met.halving += (last.stage == rules::HALVING) as u64;
        if let End::Mode(_) = end {
            met.count_mode(&self.settings(), &last);
        }
    }

    fn in_domain(&self) -> bool {
        (power(-10)..=16.).contains(&self.eta_bound)
            && (power(-20)..=power(20)).contains(&self.omega)
            && self.gradient_tolerance.is_finite()
            && self.gradient_tolerance > 0.
            && self.additive_sd.is_none_or(is_deviation)
            && are_in_domain(&self.observations)
    }

    fn evaluated(&self, points: &[[u64; 2]]) -> Vec<String> {
        let mut evaluations = Original::new(self);
        let mut evaluate = |[eta, _]: &[u64; 2]| evaluations.evaluate(self, f64::from_bits(*eta));
        let texts = points.iter().map(|point| format!("{:?}", evaluate(point)));
        texts.collect()
    }

    fn kind(&self) -> String {
        format!(
            "{:?}, at most {} evaluations",
            self.model, self.max_evaluations
        )
    }

    fn floats_mut(&mut self) -> Vec<(&'static str, &mut f64)> {
        let mut floats = vec![
            ("eta_bound", &mut self.eta_bound),
            ("omega", &mut self.omega),
            ("gradient_tolerance", &mut self.gradient_tolerance),
            ("warm", &mut self.warm),
            ("theta", &mut self.theta),
        ];
        floats.extend(self.additive_sd.iter_mut().map(|sd| ("additive_sd", sd)));
        floats.extend(subject_floats(&mut self.model, &mut self.observations));
        floats
    }

    fn observations_mut(&mut self) -> &mut Vec<Observed> {
        &mut self.observations
    }

    fn fewest_observations(&self) -> usize {
        if self.model.kind.lays_down_the_score() {
            3
        } else {
            1
        }
    }

    fn seed_mut(&mut self) -> &mut u64 {
        &mut self.model.seed
    }

    fn bare(&self) -> Self {
        Trial {
            additive_sd: None,
            ..self.clone()
        }
    }
}

#[derive(Clone, Debug, Default)]
pub struct OneEffectMet {
    /// Searches that ended in a mode settled by its own score and information.
    pub modes_by_score: u64,
    /// Those that were settled by the bracket's width alone.
    pub modes_by_width: u64,
    /// Modes outside the last bracket.
    pub modes_outside: u64,
    /// Cells with ends of equal absolute score.
    pub ties: u64,
    pub warm_trials: u64,
    /// Warm starts tried although an end of the cell was settled.
    pub warm_though_settled: u64,
    /// Searches that came to the halvings.
    pub halving: u64,
}

impl OneEffectMet {
    fn count_cell(&mut self, settings: &Settings, cell: &rules::Search) {
        self.ties += (cell.left.score.abs() == cell.right.score.abs()) as u64;
        if cell.stage == rules::WARM {
            self.warm_trials += 1;
            self.warm_though_settled += cell.settled(settings) as u64;
        }
    }

    fn count_mode(&mut self, settings: &Settings, last: &rules::Search) {
        if last.settled_by_score(settings) {
            self.modes_by_score += 1;
        } else {
            self.modes_by_width += 1;
        }
        let inside = last.left.eta <= last.best.eta && last.best.eta <= last.right.eta;
        self.modes_outside += !inside as u64;
    }
}

impl Met for OneEffectMet {
    fn add(&mut self, other: &Self) {
        self.modes_by_score += other.modes_by_score;
        self.modes_by_width += other.modes_by_width;
        self.modes_outside += other.modes_outside;
        self.ties += other.ties;
        self.warm_trials += other.warm_trials;
        self.warm_though_settled += other.warm_though_settled;
        self.halving += other.halving;
    }

    fn text(&self) -> String {
        format!(
            "modes by score {}, by width {}, outside the last bracket {}; \
             warm starts tried {}, though settled {}; ties {}; halvings in {}",
            self.modes_by_score,
            self.modes_by_width,
            self.modes_outside,
            self.warm_trials,
            self.warm_though_settled,
            self.ties,
            self.halving,
        )
    }
}
