//! The original as it goes through a session: all subjects of an objective at
//! once, and beside it a twin that searches subject by subject with the same
//! replies. The twin has what the original does not say of an objective that
//! was refused: the modes of the subjects before.

use crate::session_plan::{samples_of, Objective, Plan, Reply};
use crate::session_words::Parameters;
use oracle::session::{self, Mode, Observed, Question, Refusal, Settings, Simulator};
use oracle::{OneEffect, TwoEffects};
use std::cell::RefCell;
use std::collections::HashMap;
use std::rc::Rc;

/// A question and what it was answered.
pub type Asked = (Question, Reply);

/// What the simulators of both share.
#[derive(Default)]
struct Shared {
    objective: Option<Objective>,
    asked: Vec<Asked>,
    /// The subject that was last asked about, and how often in a row.
    searched: (usize, usize),
    /// Questions of the session in the objectives before.
    turns_before: usize,
    /// How many of this objective's replies the twin has had.
    taken: usize,
}

pub enum Evaluator {
    One(OneEffect),
    Two(TwoEffects),
}

impl Evaluator {
    fn new(plan: &Plan, simulator: Simulator) -> Self {
        let settings = Settings {
            eta_bound: plan.setup.eta_bound,
            gradient_tolerance: plan.setup.gradient_tolerance,
            max_evaluations: plan.setup.max_evaluations as usize,
            kept_rows: plan.setup.k as usize,
            width: plan.setup.width as usize,
            output_budget: plan.setup.output_budget as usize,
        };
        let observations = plan.subjects.iter().map(|one| one.observations.clone());
        let cohort: Vec<Vec<Observed>> = observations.collect();
        if plan.effects() == 1 {
            return Evaluator::One(OneEffect::new(settings, cohort, simulator));
        }
        let [a, b, c, d] = plan.setup.omega;
        let session = TwoEffects::new(settings, [[a, b], [c, d]], cohort, simulator);
        Evaluator::Two(session.expect("an accepted omega has an inverse"))
    }

    fn population(&mut self, given: &Parameters) -> Result<session::Objective, Refusal> {
        match self {
            Evaluator::One(one) => one.population(given.theta[0], given.omega, given.additive),
            Evaluator::Two(two) => two.population(given.theta),
        }
    }

    fn mode(&mut self, subject: usize, given: &Parameters) -> Result<Mode, Refusal> {
        match self {
            Evaluator::One(one) => one.mode(subject, given.theta[0], given.omega, given.additive),
            Evaluator::Two(two) => two.mode(subject, given.theta),
        }
    }

    pub fn calls(&self) -> usize {
        match self {
            Evaluator::One(one) => one.calls(),
            Evaluator::Two(two) => two.calls(),
        }
    }

    pub fn cached_rows(&self) -> usize {
        match self {
            Evaluator::One(one) => one.cached_rows(),
            Evaluator::Two(two) => two.cached_rows(),
        }
    }

    pub fn warm(&self, subject: usize) -> [f64; 2] {
        match self {
            Evaluator::One(one) => [one.warm_etas()[subject], 0.],
            Evaluator::Two(two) => two.warm_etas()[subject],
        }
    }

    fn set_warm(&mut self, subject: usize, eta: [f64; 2]) {
        match self {
            Evaluator::One(one) => one.warm_etas_mut()[subject] = eta[0],
            Evaluator::Two(two) => two.warm_etas_mut()[subject] = eta,
        }
    }
}

/// What an objective came to.
pub struct Ran {
    pub asked: Vec<Asked>,
    pub end: Result<session::Objective, Refusal>,
    /// The modes of the subjects that came so far. The last may have been
    /// refused after it, by 16 or 17.
    pub modes: Vec<Mode>,
    /// How many subjects are past 17.
    pub passed: usize,
    /// How many evaluations each subject's search asked for, kept ones
    /// included; the last one's too where it was refused.
    pub asked_for: Vec<usize>,
}

pub struct Original {
    whole: Evaluator,
    twin: Evaluator,
    shared: Rc<RefCell<Shared>>,
}

impl Original {
    pub fn new(plan: &Rc<Plan>) -> Self {
        let shared = Rc::new(RefCell::new(Shared::default()));
        Original {
            whole: Evaluator::new(plan, asking(plan, &shared)),
            twin: Evaluator::new(plan, repeating(plan, &shared)),
            shared,
        }
    }

    pub fn now(&self) -> &Evaluator {
        &self.whole
    }

    pub fn set_warm(&mut self, subject: usize, eta: [f64; 2]) {
        self.whole.set_warm(subject, eta);
        self.twin.set_warm(subject, eta);
    }

    /// The whole objective, and then once more by the twin.
    pub fn run(&mut self, objective: &Objective, subjects: usize) -> Ran {
        {
            let mut shared = self.shared.borrow_mut();
            shared.searched = (0, 0);
            shared.taken = 0;
            shared.objective = Some(objective.clone());
        }
        let end = self.whole.population(&objective.parameters);
        let passed = match &end {
            Ok(_) => subjects,
            Err(refusal) => refusal.subject.unwrap_or(subjects),
        };
        let mut modes = Vec::new();
        let mut asked_for = Vec::new();
        for subject in 0..subjects.min(passed + 1) {
            if let Ok(mode) = self.twin.mode(subject, &objective.parameters) {
                modes.push(mode);
            }
            asked_for.push(oracle::asked());
            self.twin.set_warm(subject, self.whole.warm(subject));
        }
        let asked = std::mem::take(&mut self.shared.borrow_mut().asked);
        self.shared.borrow_mut().turns_before += asked.len();
        let ran = Ran {
            asked,
            end,
            modes,
            passed,
            asked_for,
        };
        self.hold(&ran);
        ran
    }

    /// Both have come to the same.
    fn hold(&self, ran: &Ran) {
        let [whole, twin] = [&self.whole, &self.twin];
        assert_eq!(whole.calls(), twin.calls());
        assert_eq!(whole.cached_rows(), twin.cached_rows());
        assert_eq!(self.shared.borrow().taken, ran.asked.len());
        assert!(ran.modes.len() >= ran.passed);
        for (subject, mode) in ran.modes[..ran.passed].iter().enumerate() {
            let [warm, eta] = [whole.warm(subject), mode.best.eta].map(|by| by.map(f64::to_bits));
            assert_eq!(warm, eta);
        }
        if let Ok(objective) = &ran.end {
            for (estimate, mode) in objective.subjects.iter().zip(&ran.modes) {
                assert_eq!(estimate.eta, mode.best.eta);
                assert_eq!(estimate.negative_log_likelihood, mode.best.nll);
            }
            let rows = ran.modes.iter().flat_map(|mode| {
                let individual = mode.best.rows.iter().map(|row| row.prediction);
                let population = mode.population_rows.iter().map(|row| row.prediction);
                population.zip(individual)
            });
            for (fitted, (pred, ipred)) in objective.fitted.iter().zip(rows) {
                assert_eq!([fitted.pred, fitted.ipred], [pred, ipred]);
            }
        }
    }
}

/// With two effects, in how many subjects that passed the mode is not the warm
/// start's candidate, as far as this objective's replies tell: the candidate is
/// sought once more among them.
pub fn won_later(plan: &Rc<Plan>, ran: &Ran, warm: &[[f64; 2]], theta: [f64; 2]) -> usize {
    let key = |question: &Question| (question.subject, question.eta.map(f64::to_bits));
    let replies: HashMap<_, _> = ran
        .asked
        .iter()
        .map(|(question, reply)| (key(question), reply.clone()))
        .collect();
    let mut ample = Plan::clone(plan);
    ample.setup.k = 100_000;
    ample.setup.max_evaluations = u32::MAX as u64;
    let (width, effects) = (plan.setup.width as usize, plan.effects());
    let again: Simulator = Box::new(move |question: &Question| {
        samples_of(replies.get(&key(question))?, width, effects)
    });
    let Evaluator::Two(mut session) = Evaluator::new(&ample, again) else {
        return 0;
    };
    let mut won_later = |subject: &usize| {
        let first = session.mode_from_seed(*subject, theta, warm[*subject]);
        first.is_ok_and(|first| first.eta != ran.modes[*subject].best.eta)
    };
    (0..ran.passed).filter(|subject| won_later(subject)).count()
}

/// Answers by the plan, and writes it down.
fn asking(plan: &Rc<Plan>, shared: &Rc<RefCell<Shared>>) -> Simulator {
    let (plan, shared) = (plan.clone(), shared.clone());
    Box::new(move |question: &Question| {
        let mut shared = shared.borrow_mut();
        let number = shared.asked.len();
        if shared.searched.0 != question.subject {
            shared.searched = (question.subject, 0);
        }
        let in_search = shared.searched.1;
        shared.searched.1 += 1;
        let turn = shared.turns_before + number;
        let objective = shared.objective.as_ref().expect("an objective runs");
        let reply = plan.reply(question, objective, number, in_search, turn);
        let samples = samples_of(&reply, plan.setup.width as usize, plan.effects());
        shared.asked.push((*question, reply));
        samples
    })
}

/// Answers as it was answered before.
fn repeating(plan: &Rc<Plan>, shared: &Rc<RefCell<Shared>>) -> Simulator {
    let (plan, shared) = (plan.clone(), shared.clone());
    Box::new(move |question: &Question| {
        let mut shared = shared.borrow_mut();
        let number = shared.taken;
        shared.taken += 1;
        let (before, reply) = &shared.asked[number];
        assert_eq!(before, question);
        samples_of(reply, plan.setup.width as usize, plan.effects())
    })
}
