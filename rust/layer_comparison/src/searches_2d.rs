//! Whole searches with two effects: the original's `mode`, and Curlewstand's
//! rules led through the same evaluations, which are the original's too.

use crate::beside::{are_in_domain, subject_floats, Asked, Counts, End, Met, Run, Trial};
use crate::compare::word_of;
use crate::floats::power;
use crate::rules_2d::{
    distance, joint, norm, point_words, Pass, Search2 as Plain, Step, FOUND, HALTED, REDUCTIONS,
    ROUNDS, START, TRIAL,
};
use crate::simulators_2d::{Model2, Surroundings2};
use oracle::session::{Observed, Point, Question, Simulator};
use oracle::TwoEffects;
use test_exports::mode_2d::{Conditional2, Request2, Search2, Settings2};

/// What both sides are given.
#[derive(Clone, Debug)]
pub struct Trial2 {
    pub eta_bound: f64,
    /// Both variances and, between them, the covariance.
    pub omega: [f64; 3],
    pub warm: [f64; 2],
    pub theta: [f64; 2],
    pub max_evaluations: usize,
    pub observations: Vec<Observed>,
    pub model: Model2,
}

/// The original with a simulator that writes down what it is asked. It keeps
/// no evaluation, so that each point asked for is put to the simulator.
struct Original {
    session: TwoEffects,
    asked: Asked,
}

impl Original {
    fn new(trial: &Trial2) -> Self {
        let asked = Asked::default();
        let settings = oracle::session::Settings {
            eta_bound: trial.eta_bound,
            gradient_tolerance: 1.,
            max_evaluations: trial.max_evaluations,
            kept_rows: 0,
            width: 1,
            output_budget: 1_000,
        };
        let cohort = vec![trial.observations.clone()];
        let simulator = trial.simulator(Asked::clone(&asked));
        let session = TwoEffects::new(settings, trial.omega(), cohort, simulator);
        let mut session = session.expect("omega has an inverse within the domain");
        session.warm_etas_mut()[0] = trial.warm;
        Original { session, asked }
    }

    /// What stands at a point, without the prior.
    fn evaluate(&mut self, trial: &Trial2, eta: [f64; 2]) -> Result<Conditional2, u32> {
        match self.session.subject(0, trial.theta, eta) {
            Ok(point) => Ok(conditional(&point)),
            Err(refusal) => Err(refusal.number),
        }
    }

    fn run(self, end: End) -> Run {
        Run {
            evaluations: self.session.calls(),
            asked: self.asked.take(),
            end,
        }
    }
}

fn conditional(point: &Point) -> Conditional2 {
    Conditional2 {
        eta: point.eta,
        nll: point.nll,
        score: point.score,
        information: point.information,
    }
}

fn ended(mode: &Conditional2) -> End {
    End::Mode(point_words(mode).to_vec())
}

impl Trial2 {
    fn omega(&self) -> [[f64; 2]; 2] {
        let [first, covariance, second] = self.omega;
        [[first, covariance], [covariance, second]]
    }

    fn precision(&self) -> [[f64; 2]; 2] {
        let inverse = oracle::inverse_positive(self.omega());
        inverse.expect("omega has an inverse within the domain").0
    }

    pub fn settings(&self) -> Settings2 {
        Settings2 {
            eta_bound: self.eta_bound,
            precision: self.precision(),
            warm: self.warm,
        }
    }

    fn simulator(&self, asked: Asked) -> Simulator {
        let (model, precision) = (self.model, self.precision());
        let values: Vec<f64> = self.observations.iter().map(|one| one.value).collect();
        Box::new(move |question: &Question| {
            let surroundings = Surroundings2 {
                precision,
                values: &values,
                turn: asked.borrow().len(),
            };
            asked.borrow_mut().push(question.eta.map(word_of));
            model.reply(question, surroundings)
        })
    }
}

impl Trial for Trial2 {
    type State = Search2;
    type Met = TwoEffectsMet;

    fn original(&self) -> Run {
        let mut original = Original::new(self);
        let end = match original.session.mode(0, self.theta) {
            Ok(mode) => ended(&conditional(&mode.best)),
            Err(refusal) => End::Refused(refusal.number),
        };
        original.run(end)
    }

    fn ours(&self, mut watch: impl FnMut(&Search2)) -> Run {
        let mut evaluations = Original::new(self);
        let settings = self.settings();
        let mut search = Search2::start();
        let end = loop {
            watch(&search);
            match search.request(&settings) {
                Request2::Point(eta) => match evaluations.evaluate(self, eta) {
                    Ok(at) => search.advance(&settings, &at),
                    Err(number) => break End::Refused(number),
                },
                Request2::Mode => break ended(&search.best()),
                Request2::Refused(refusal) => break End::Refused(refusal.0),
            }
        };
        evaluations.run(end)
    }

    fn count(&self, states: &[Search2], _: &End, met: &mut TwoEffectsMet) {
        let settings = self.settings();
        let read = |state: &Search2| Plain::of_words(state.words()).unwrap();
        let states: Vec<Plain> = states.iter().map(read).collect();
        let mut candidates = Vec::new();
        for pair in states.windows(2) {
            let [before, after] = [&pair[0], &pair[1]];
            met.count_step(&settings, before, after);
            if ends_a_start(before, after) {
                met.count_candidate(&settings, before, after);
                candidates.push(after.current);
            }
        }
        if states.last().unwrap().stage == FOUND {
            met.count_mode(&candidates, &states.last().unwrap().best);
        }
        if self.warm.iter().any(|eta| eta.is_nan()) {
            met.nan_warm_starts += 1;
        }
    }

    fn in_domain(&self) -> bool {
        let [first, _, second] = self.omega;
        (power(-10)..=16.).contains(&self.eta_bound)
            && [first, second]
                .iter()
                .all(|variance| (power(-20)..=power(20)).contains(variance))
            && oracle::inverse_positive(self.omega()).is_some()
            && are_in_domain(&self.observations)
    }

    fn evaluated(&self, points: &[[u64; 2]]) -> Vec<String> {
        let mut evaluations = Original::new(self);
        let mut evaluate = |eta: &[u64; 2]| evaluations.evaluate(self, eta.map(f64::from_bits));
        let texts = points.iter().map(|point| format!("{:?}", evaluate(point)));
        texts.collect()
    }

    fn kind(&self) -> String {
        format!(
            "{:?}, at most {} evaluations",
            self.model, self.max_evaluations
        )
    }

    fn floats_mut(&mut self) -> Vec<(&'static str, &mut f64)> {
        let mut floats = vec![("eta_bound", &mut self.eta_bound)];
        let named = ["first variance", "covariance", "second variance"];
        floats.extend(named.into_iter().zip(&mut self.omega));
        floats.extend(self.warm.iter_mut().map(|eta| ("warm", eta)));
        floats.extend(self.theta.iter_mut().map(|theta| ("theta", theta)));
        floats.extend(subject_floats(&mut self.model, &mut self.observations));
        floats
    }

    fn observations_mut(&mut self) -> &mut Vec<Observed> {
        &mut self.observations
    }

    fn fewest_observations(&self) -> usize {
        if self.model.kind.lays_down() {
            4
        } else {
            1
        }
    }

    fn seed_mut(&mut self) -> &mut u64 {
        &mut self.model.seed
    }
}

/// Whether the rounds of a start ended between the two states, be it with a
/// refusal of its candidate. 16 leaves no candidate.
fn ends_a_start(before: &Plain, after: &Plain) -> bool {
    [START, TRIAL].contains(&before.stage) && after.stage != TRIAL && after.stage != HALTED + 16
}

/// Whether the trial that `before` awaited was taken. A trial is never equal to
/// the point that it was asked from.
fn is_taken(before: &Plain, after: &Plain) -> bool {
    before.stage == TRIAL && before.current.eta != after.current.eta
}

#[derive(Clone, Debug, Default)]
pub struct TwoEffectsMet {
    /// By reduction: trials asked for, and those taken.
    pub asked: Counts<{ REDUCTIONS as usize }>,
    pub taken: Counts<{ REDUCTIONS as usize }>,
    /// By round: trials asked for.
    pub rounds: Counts<{ ROUNDS as usize }>,
    /// Starts that took a trial in their last round.
    pub through_all_rounds: u64,
    /// Trials passed over: equal to the current point, equal but for the sign of
    /// a zero, without a foreseen fall.
    pub passed_same: u64,
    pub passed_by_zero: u64,
    pub passed_no_fall: u64,
    /// Trials with a NaN fall that were asked for and evaluated.
    pub nan_falls: u64,
    /// Candidates refused for their norm, and those for the bound alone.
    pub large_norms: u64,
    pub at_the_bound: u64,
    /// Curvatures without an inverse, in a first round and in a later one.
    pub singular_first: u64,
    pub singular_later: u64,
    /// Candidates as good as the best, but not the same point: the best stayed.
    pub ties: u64,
    /// Modes that are not the first candidate.
    pub modes_won_later: u64,
    /// Modes although two candidates lie more than 1e-3 apart.
    pub modes_with_candidates_apart: u64,
    pub nan_warm_starts: u64,
}

impl TwoEffectsMet {
    fn count_step(&mut self, settings: &Settings2, before: &Plain, after: &Plain) {
        if before.stage == TRIAL {
            if is_taken(before, after) {
                self.taken.count(before.reduction);
            }
            self.nan_falls += before.decrease.is_nan() as u64;
        }
        if after.stage == TRIAL {
            self.asked.count(after.reduction);
            self.rounds.count(after.round);
        }
        if after.stage == HALTED + 16 {
            self.singular_first += (before.stage == START) as u64;
            self.singular_later += (before.stage == TRIAL) as u64;
        } else if [START, TRIAL].contains(&before.stage) {
            self.count_passes(settings, before, after);
        }
    }

    fn count_passes(&mut self, settings: &Settings2, before: &Plain, after: &Plain) {
        let taken = is_taken(before, after);
        if taken && before.round + 1 == ROUNDS {
            self.through_all_rounds += 1;
            return;
        }
        let heads_a_round = taken || before.stage == START;
        if heads_a_round && norm(settings, &after.current) <= 1e-5 {
            return;
        }
        let from = if heads_a_round {
            0
        } else {
            before.reduction + 1
        };
        let to = if after.stage == TRIAL {
            after.reduction
        } else {
            REDUCTIONS
        };
        if from < to {
            let step = Step::at(settings, &after.current).unwrap();
            for reduction in from..to {
                self.count_pass(&step, step.trial(settings.eta_bound, reduction));
            }
        }
    }

    fn count_pass(&mut self, step: &Step, trial: [f64; 2]) {
        match step.pass(trial).unwrap() {
            Pass::Same if trial.map(f64::to_bits) == step.eta.map(f64::to_bits) => {
                self.passed_same += 1
            }
            Pass::Same => self.passed_by_zero += 1,
            Pass::NoFall => self.passed_no_fall += 1,
        }
    }

    fn count_candidate(&mut self, settings: &Settings2, before: &Plain, after: &Plain) {
        let candidate = &after.current;
        if after.stage == HALTED + 13 {
            let large = norm(settings, candidate) > 1e-3;
            self.large_norms += large as u64;
            self.at_the_bound += !large as u64;
        } else if after.stage < HALTED && before.seed > 0 {
            let alike = joint(settings, candidate) == joint(settings, &before.best);
            let another = point_words(candidate) != point_words(&before.best);
            self.ties += (alike && another) as u64;
        }
    }

    fn count_mode(&mut self, candidates: &[Conditional2], mode: &Conditional2) {
        self.modes_won_later += (point_words(mode) != point_words(&candidates[0])) as u64;
        let apart = candidates
            .iter()
            .any(|a| candidates.iter().any(|b| distance(a, b) > 1e-3));
        self.modes_with_candidates_apart += apart as u64;
    }
}

impl Met for TwoEffectsMet {
    fn add(&mut self, other: &Self) {
        self.asked.add(&other.asked);
        self.taken.add(&other.taken);
        self.rounds.add(&other.rounds);
        self.through_all_rounds += other.through_all_rounds;
        self.passed_same += other.passed_same;
        self.passed_by_zero += other.passed_by_zero;
        self.passed_no_fall += other.passed_no_fall;
        self.nan_falls += other.nan_falls;
        self.large_norms += other.large_norms;
        self.at_the_bound += other.at_the_bound;
        self.singular_first += other.singular_first;
        self.singular_later += other.singular_later;
        self.ties += other.ties;
        self.modes_won_later += other.modes_won_later;
        self.modes_with_candidates_apart += other.modes_with_candidates_apart;
        self.nan_warm_starts += other.nan_warm_starts;
    }

    fn text(&self) -> String {
        format!(
            "modes won later {}, with candidates apart {}, ties {}; 13 for the norm {}, for the \
             bound {}; 16 in a first round {}, later {}; passed over as the same {}, but for a \
             zero's sign {}, for want of a fall {}; NaN falls {}; each reduction asked {} times \
             or more, taken {}; each round {}, starts through all {}; NaN warm starts {}",
            self.modes_won_later,
            self.modes_with_candidates_apart,
            self.ties,
            self.large_norms,
            self.at_the_bound,
            self.singular_first,
            self.singular_later,
            self.passed_same,
            self.passed_by_zero,
            self.passed_no_fall,
            self.nan_falls,
            self.asked.fewest(),
            self.taken.fewest(),
            self.rounds.fewest(),
            self.through_all_rounds,
            self.nan_warm_starts,
        )
    }
}
