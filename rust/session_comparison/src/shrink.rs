//! A session made as small as it can be while its two sides still part: fewer
//! steps, subjects and observations, plainer simulators, simpler numbers.

use crate::draws::AMPLE;
use layer_comparison::compare::{simpler_than, Simpler};
use layer_comparison::session_plan::{AnyModel, Clock, Plan, Step, Subject};
use layer_comparison::simulators::{Kind, Model};
use layer_comparison::simulators_2d::Kind2;
use std::ops::Range;
use std::time::{Duration, Instant};

/// Sessions simpler than one in some way, the simplest first.
type Stage = fn(&Plan) -> Simpler<'_, Plan>;

/// The smallest session found within the time, which differs too. `parts_after`
/// says after how many evaluations the two sides part, if they do. First there
/// is less of everything; then what stays gets simpler, where the two part no
/// later for it.
pub fn smallest(plan: &Plan, parts_after: impl Fn(&Plan) -> Option<u64>, within: Duration) -> Plan {
    let fewer: [Stage; 3] = [fewer_steps, fewer_subjects, fewer_observations];
    let simpler: [Stage; 2] = [plainer, simpler_numbers];
    let mut shrinking = Shrinking {
        plan: plan.clone(),
        parts_after,
        until: Instant::now() + within,
        found: true,
    };
    while shrinking.found {
        shrinking.found = false;
        for stage in fewer {
            shrinking.go_through(stage, false);
        }
        for stage in simpler {
            shrinking.go_through(stage, true);
        }
    }
    shrinking.plan
}

struct Shrinking<F> {
    plan: Plan,
    parts_after: F,
    until: Instant,
    /// Whether a smaller session was found since this was last reset.
    found: bool,
}

impl<F: Fn(&Plan) -> Option<u64>> Shrinking<F> {
    /// Takes what a stage has as long as the two sides part.
    fn go_through(&mut self, stage: Stage, no_later: bool) {
        let mut latest = u64::MAX;
        if no_later {
            latest = (self.parts_after)(&self.plan).unwrap_or(latest);
        }
        let mut from = 0;
        while let Some((at, evaluations, smaller)) = self.smaller(stage, from, latest) {
            if no_later {
                latest = evaluations;
            }
            (from, self.plan, self.found) = (at, smaller, true);
        }
    }

    /// The first from a place on with which the two part, no later than that.
    fn smaller(&self, stage: Stage, from: usize, latest: u64) -> Option<(usize, u64, Plan)> {
        let others = stage(&self.plan).enumerate().skip(from);
        let mut others = others.take_while(|_| Instant::now() < self.until);
        others.find_map(|(at, other)| {
            let evaluations = (self.parts_after)(&other).filter(|one| *one <= latest)?;
            Some((at, evaluations, other))
        })
    }
}

/// What may be left out of so many: all, each half, each quarter, and so on.
fn parts(length: usize) -> impl Iterator<Item = Range<usize>> {
    let halves = std::iter::successors(Some(length), |size| Some(size / 2));
    halves
        .take_while(|size| *size > 0)
        .flat_map(move |size| (0..length).step_by(size).map(move |at| at..at + size))
        .map(move |part| part.start..part.end.min(length))
}

fn with(plan: &Plan, change: impl FnOnce(&mut Plan)) -> Plan {
    let mut plan = plan.clone();
    change(&mut plan);
    plan
}

/// Fewer steps, and less that goes wrong in those that stay.
fn fewer_steps(plan: &Plan) -> Simpler<'_, Plan> {
    let steps = parts(plan.steps.len()).map(|part| {
        with(plan, |plan| {
            plan.steps.drain(part);
        })
    });
    let changes: [fn(&mut Step) -> bool; 3] = [without_strays, without_faults, not_left];
    let calmer = (0..plan.steps.len()).flat_map(move |number| {
        changes.into_iter().filter_map(move |change| {
            let mut plan = plan.clone();
            change(&mut plan.steps[number]).then_some(plan)
        })
    });
    Box::new(steps.chain(calmer))
}

fn without_strays(step: &mut Step) -> bool {
    let Step::Objective(objective) = step else {
        return false;
    };
    let had = !objective.strays.is_empty();
    objective.strays.clear();
    had
}

fn without_faults(step: &mut Step) -> bool {
    let Step::Objective(objective) = step else {
        return false;
    };
    let had = !objective.faults.is_empty();
    objective.faults.clear();
    had
}

fn not_left(step: &mut Step) -> bool {
    match step {
        Step::Objective(objective) => change(&mut objective.left_at, None),
        _ => false,
    }
}

fn fewer_subjects(plan: &Plan) -> Simpler<'_, Plan> {
    let all = plan.subjects.len();
    let parts = parts(all).filter(move |part| part.len() < all);
    Box::new(parts.map(|part| with(plan, |plan| leave_out_subjects(plan, part))))
}

/// Their warm starts too.
fn leave_out_subjects(plan: &mut Plan, part: Range<usize>) {
    let effects = plan.effects();
    for step in &mut plan.steps {
        if let Step::Warm(etas) = step {
            let end = (effects * part.end).min(etas.len());
            etas.drain((effects * part.start).min(end)..end);
        }
    }
    plan.subjects.drain(part);
}

fn fewer_observations(plan: &Plan) -> Simpler<'_, Plan> {
    let subjects = plan.subjects.iter().enumerate();
    Box::new(subjects.flat_map(move |(number, subject)| {
        let known = subject.known;
        let others = parts(subject.observations.len() - known)
            .map(move |part| known + part.start..known + part.end);
        // what is laid down wants all that are known
        let rows = if lays_down(subject) { 0 } else { known };
        let own = parts(rows).filter(move |part| part.len() < rows);
        others
            .chain(own)
            .map(move |part| with(plan, |plan| plan.subjects[number].leave_out(part)))
    }))
}

fn lays_down(subject: &Subject) -> bool {
    match subject.model {
        AnyModel::One(model) => model.kind.lays_down_the_score(),
        AnyModel::Two(model) => model.kind.lays_down(),
    }
}

trait LeaveOut {
    fn leave_out(&mut self, part: Range<usize>);
}

impl LeaveOut for Subject {
    fn leave_out(&mut self, part: Range<usize>) {
        if part.end <= self.known {
            self.known -= part.len();
        }
        self.observations.drain(part);
    }
}

/// One thing plainer than it is, of the setup or of a subject.
fn plainer(plan: &Plan) -> Simpler<'_, Plan> {
    let whole: [fn(&mut Plan) -> bool; 4] = [one_output, no_limit, no_budget, no_override];
    let whole = whole.into_iter().filter_map(|change| {
        let mut plan = plan.clone();
        change(&mut plan).then_some(plan)
    });
    let powers = std::iter::successors(Some(1), |k| Some(2 * k)).take_while(|k| *k < plan.setup.k);
    let fewer_kept = powers.map(|k| with(plan, |plan| plan.setup.k = k));
    let changes: [fn(&mut Subject) -> bool; 5] = [steady, no_drift, no_filler, few_rows, no_seed];
    let subjects = (0..plan.subjects.len()).flat_map(move |number| {
        let plainer = changes.into_iter().filter_map(move |change| {
            let mut plan = plan.clone();
            change(&mut plan.subjects[number]).then_some(plan)
        });
        let models = plainer_models(&plan.subjects[number].model).into_iter();
        plainer
            .chain(models.map(move |model| with(plan, |plan| plan.subjects[number].model = model)))
    });
    Box::new(whole.chain(fewer_kept).chain(subjects))
}

/// Changes what is not so already, and says whether it was otherwise.
fn change<T: PartialEq>(place: &mut T, to: T) -> bool {
    let otherwise = *place != to;
    *place = to;
    otherwise
}

fn one_output(plan: &mut Plan) -> bool {
    let subjects = plan.subjects.iter_mut();
    for one in subjects.flat_map(|subject| &mut subject.observations) {
        one.output = 0;
    }
    change(&mut plan.setup.width, 1)
}

fn no_limit(plan: &mut Plan) -> bool {
    change(&mut plan.setup.max_evaluations, AMPLE)
}

fn no_budget(plan: &mut Plan) -> bool {
    change(&mut plan.setup.output_budget, AMPLE)
}

fn no_override(plan: &mut Plan) -> bool {
    let mut had = change(&mut plan.setup.additive, None);
    for step in &mut plan.steps {
        if let Step::Objective(objective) = step {
            had |= change(&mut objective.parameters.additive, None);
        }
    }
    had
}

fn steady(subject: &mut Subject) -> bool {
    change(&mut subject.clock, Clock::Steady)
}

fn no_drift(subject: &mut Subject) -> bool {
    change(&mut subject.drift, 0.)
}

fn no_filler(subject: &mut Subject) -> bool {
    let otherwise = subject.filler.to_bits() != 0;
    subject.filler = 0.;
    otherwise
}

/// The rows that are looked at, in their order, and no other.
fn few_rows(subject: &mut Subject) -> bool {
    let mut rows: Vec<usize> = subject.observations.iter().map(|one| one.row).collect();
    rows.sort();
    rows.dedup();
    for one in &mut subject.observations {
        one.row = rows.partition_point(|row| *row < one.row);
    }
    change(&mut subject.rows, rows.len())
}

fn no_seed(subject: &mut Subject) -> bool {
    match &mut subject.model {
        AnyModel::One(model) => change(&mut model.seed, 0),
        AnyModel::Two(model) => change(&mut model.seed, 0),
    }
}

/// The kinds before a model's own in an order of plainness.
fn plainer_models(model: &AnyModel) -> Vec<AnyModel> {
    fn before<K: Copy + PartialEq>(model: Model<K>, kinds: &[K]) -> Vec<Model<K>> {
        let plainer = kinds.iter().take_while(|kind| **kind != model.kind);
        plainer
            .map(|kind| Model {
                kind: *kind,
                ..model
            })
            .collect()
    }
    let one = [Kind::Flat, Kind::Line, Kind::Decay, Kind::Saturating];
    let two = [Kind2::Flat, Kind2::Plane, Kind2::Decay, Kind2::Saturating];
    match model {
        AnyModel::One(model) => before(*model, &one)
            .into_iter()
            .map(AnyModel::One)
            .collect(),
        AnyModel::Two(model) => before(*model, &two)
            .into_iter()
            .map(AnyModel::Two)
            .collect(),
    }
}

fn simpler_numbers(plan: &Plan) -> Simpler<'_, Plan> {
    let values: Vec<f64> = numbers(&mut plan.clone())
        .iter()
        .map(|places| *places[0])
        .collect();
    let values = values.into_iter().enumerate();
    Box::new(values.flat_map(move |(number, value)| {
        simpler_than(value).into_iter().map(move |simpler| {
            with(plan, |plan| {
                for place in numbers(plan).swap_remove(number) {
                    *place = simpler;
                }
            })
        })
    }))
}

/// The places of every number of a session. A covariance has two.
fn numbers(plan: &mut Plan) -> Vec<Vec<&mut f64>> {
    let effects = plan.effects();
    let setup = &mut plan.setup;
    let [a, b, c, d] = &mut setup.omega;
    let mut numbers = vec![
        vec![&mut setup.eta_bound],
        vec![&mut setup.gradient_tolerance],
        vec![a],
    ];
    if effects == 2 {
        numbers.extend([vec![b, c], vec![d]]);
    }
    for step in &mut plan.steps {
        match step {
            Step::Warm(etas) => numbers.extend(etas.iter_mut().map(|eta| vec![eta])),
            Step::Objective(objective) => {
                let given = &mut objective.parameters;
                let theta = given.theta.iter_mut().take(effects);
                numbers.extend(theta.chain(&mut given.additive).map(|x| vec![x]));
                if effects == 1 {
                    numbers.push(vec![&mut given.omega]);
                }
            }
            _ => {}
        }
    }
    for subject in &mut plan.subjects {
        let parameters = match &mut subject.model {
            AnyModel::One(model) => &mut model.parameters,
            AnyModel::Two(model) => &mut model.parameters,
        };
        numbers.extend(parameters.iter_mut().map(|x| vec![x]));
        for one in &mut subject.observations {
            let floats = [&mut one.value, &mut one.additive, &mut one.proportional];
            numbers.extend(floats.map(|x| vec![x]));
        }
    }
    numbers
}

#[cfg(test)]
mod tests {
    use super::*;
    use crate::{cohorts, draws, pair, run};
    use layer_comparison::random::Random;

    const WITHIN: Duration = Duration::from_secs(20);

    #[test]
    fn parts_are_all_then_halves_down_to_single_ones() {
        let five: Vec<Range<usize>> = parts(5).collect();
        let expected = [0..5, 0..2, 2..4, 4..5, 0..1, 1..2, 2..3, 3..4, 4..5];
        assert_eq!(five, expected);
        assert_eq!(parts(0).count(), 0);
    }

    fn objectives(plan: &Plan) -> usize {
        let is_objective = |step: &&Step| matches!(step, Step::Objective(_));
        plan.steps.iter().filter(is_objective).count()
    }

    /// As if the two sides parted wherever there are so many objectives and a
    /// value above 3: only that stays.
    #[test]
    fn what_does_not_matter_is_left_out() {
        let plan = cohorts::draw(&mut Random::new(5), cohorts::MIDDLING);
        let values = |plan: &Plan| {
            let all = plan.subjects.iter().flat_map(|one| &one.observations);
            all.map(|one| one.value).collect::<Vec<f64>>()
        };
        let parts_after = |plan: &Plan| {
            let matters = objectives(plan) > 0 && values(plan).iter().any(|value| *value > 3.);
            matters.then_some(0)
        };
        assert!(plan.subjects.len() > 4 && parts_after(&plan).is_some());
        let small = smallest(&plan, parts_after, WITHIN);
        assert_eq!((small.subjects.len(), small.steps.len()), (1, 1));
        assert_eq!(objectives(&small), 1);
        assert_eq!(values(&small), [4.]);
        assert_eq!((small.setup.k, small.setup.width), (1, 1));
        assert_eq!(small.setup.max_evaluations, AMPLE);
        assert_eq!(small.subjects[0].clock, Clock::Steady);
    }

    /// Less of everything is taken though the two part later, other numbers
    /// only where they part no later.
    #[test]
    fn other_numbers_part_no_later() {
        let plan = cohorts::draw(&mut Random::new(7), cohorts::MIDDLING);
        let (bound, subjects) = (plan.setup.eta_bound, plan.subjects.len());
        assert!(subjects > 1 && bound != 1.5);
        let parts_after = |plan: &Plan| {
            let left_out = subjects - plan.subjects.len();
            Some((left_out + 9 * (plan.setup.eta_bound != bound) as usize) as u64)
        };
        let small = smallest(&plan, parts_after, WITHIN);
        assert_eq!((small.subjects.len(), small.steps.len()), (1, 0));
        assert_eq!(small.setup.eta_bound, bound);
        assert_eq!(small.setup.gradient_tolerance, 0.);
    }

    #[test]
    fn a_session_that_parts_still_does_when_it_is_small() {
        let parts_after = |plan: &Plan| {
            let outcome = pair::run(plan, Some(run::spoil));
            outcome.difference.map(|_| outcome.counts.evaluations())
        };
        let seeds = (0..).map(|seed| draws::draw(&mut Random::new(seed)));
        let parting = seeds.filter(|plan| parts_after(plan).is_some());
        for plan in parting.take(4) {
            let small = smallest(&plan, parts_after, WITHIN);
            assert!(parts_after(&small).is_some());
            assert!(pair::run(&small, None).difference.is_none());
            assert_eq!((small.subjects.len(), objectives(&small)), (1, 2));
        }
    }

    /// A warm start stays with its subject.
    #[test]
    fn subjects_are_left_out_with_their_warm_starts() {
        let mut plan = cohorts::draw(&mut Random::new(5), cohorts::MIDDLING);
        let effects = plan.effects();
        plan.subjects.truncate(4);
        let warm: Vec<f64> = (0..4 * effects).map(|word| word as f64).collect();
        plan.steps = vec![
            Step::Warm(warm.clone()),
            Step::Warm(warm[..effects].to_vec()),
        ];
        leave_out_subjects(&mut plan, 1..3);
        let [Step::Warm(first), Step::Warm(second)] = &plan.steps[..] else {
            panic!("two steps stay");
        };
        assert_eq!(*first, [&warm[..effects], &warm[3 * effects..]].concat());
        assert_eq!(*second, warm[..effects]);
        assert_eq!(plan.subjects.len(), 2);
    }
}
