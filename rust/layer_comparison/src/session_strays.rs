//! Calls that are to be refused: other lent lengths, setup words, counts or
//! observations for one call, or a call that is not awaited.

use crate::plausible::stray as stray_float;
use crate::random::Random;
use crate::session_plan::{Plan, Stray};
use crate::session_words::{Call, Change, Parameters, Setup};
use oracle::session::Observed;

/// Some are not refused after all, and then not told.
pub fn stray(random: &mut Random, plan: &Plan, given: Parameters, amid: bool) -> Stray {
    let change = change(random, plan);
    let changes_nothing = matches!(change, Change::Nothing);
    let reply = |random: &mut Random| match random.below(4) {
        0 => Call::Failure,
        _ => {
            let most = 3 * plan.row_words() as u64;
            let words = 0..random.below(most);
            Call::Reply(words.map(|_| 0).collect())
        }
    };
    let call = match random.below(8) {
        0 if !changes_nothing => Call::Setup,
        1 => Call::Objective(unfit_parameters(random, given)),
        // where it does as it should, and where not
        2 if amid => Call::Objective(given),
        3 if !amid => reply(random),
        _ if amid != changes_nothing => reply(random),
        _ => Call::Objective(given),
    };
    Stray { change, call }
}

fn change(random: &mut Random, plan: &Plan) -> Change {
    match random.below(10) {
        0 | 1 => Change::Nothing,
        2 | 3 => shorter(random, plan),
        4 | 5 => Change::Setup(setup(random, plan)),
        6 => Change::Counts(counts(random, plan)),
        7 | 8 => Change::Observations(observations(random, plan)),
        _ => {
            let over = random.pick(&[1, 2, 1 << 40]);
            Change::Tally([random.below(1 << 32), plan.setup.k + over])
        }
    }
}

/// A word too few of one kind.
fn shorter(random: &mut Random, plan: &Plan) -> Change {
    let counts = plan.counts();
    let (subjects, total) = (counts.len(), counts.iter().sum::<u64>() as usize);
    let largest = *counts.iter().max().unwrap_or(&0) as usize;
    let mut lengths = plan.lengths;
    let least = |random: &mut Random, length: usize| match random.below(4) {
        0 => random.below(length as u64) as usize,
        _ => length - 1,
    };
    match random.below(4) {
        0 => lengths.cache = least(random, 24 * plan.setup.k as usize),
        1 => lengths.work = least(random, 12 * largest),
        2 => lengths.warm = least(random, plan.effects() * subjects),
        _ => lengths.results = least(random, 2 * total + 3 * subjects),
    }
    Change::Lengths(lengths)
}

pub fn setup(random: &mut Random, plan: &Plan) -> Setup {
    let mut setup = plan.setup.clone();
    let not_finite = random.pick(&[f64::NAN, f64::INFINITY, f64::NEG_INFINITY]);
    match random.below(8) {
        0 => setup.width = random.pick(&[0, 65, u32::MAX as u64]),
        1 => setup.k = random.pick(&[0, 1, 100_000, 100_001, u64::MAX]),
        2 => setup.gradient_tolerance = random.pick(&[0., -0., -1., -5e-324]),
        3 => setup.effects = random.pick(&[0, 3, u32::MAX as u64]),
        4 => {
            let [over, under] = [16f64.next_up(), (1f64 / 1024.).next_down()];
            setup.eta_bound = random.pick(&[over, under, 0., -1., not_finite]);
        }
        5 => setup.gradient_tolerance = not_finite,
        6 => setup.additive = Some(random.pick(&[not_finite, -1., -5e-324, 1.])),
        _ => omega(random, &mut setup),
    }
    setup
}

fn omega(random: &mut Random, setup: &mut Setup) {
    let [over, under] = [1048576f64.next_up(), (1f64 / 1048576.).next_down()];
    let beyond = random.pick(&[over, under, 0., -1., f64::NAN, f64::INFINITY]);
    let entry = random.pick(&[0, 3]);
    match random.below(4) {
        0 => setup.omega[1] = stray_float(random, setup.omega[1]),
        1 => setup.omega = [1.; 4],
        _ => setup.omega[entry] = beyond,
    }
}

fn counts(random: &mut Random, plan: &Plan) -> Vec<u64> {
    let mut counts = plan.counts();
    let number = random.below(counts.len() as u64) as usize;
    match random.below(6) {
        0 => counts.clear(),
        1 => drop(counts.pop()),
        2 => counts.push(random.below(3)),
        3 => counts[number] = 0,
        4 => counts[number] = random.pick(&[100_000, 100_001, u64::MAX, 1 << 32]),
        _ => counts[number] += 1,
    }
    counts
}

pub fn observations(random: &mut Random, plan: &Plan) -> Vec<Observed> {
    let all = plan
        .subjects
        .iter()
        .flat_map(|one| one.observations.clone());
    let mut all: Vec<Observed> = all.collect();
    let number = random.below(all.len() as u64) as usize;
    let not_finite = random.pick(&[f64::NAN, f64::INFINITY, f64::NEG_INFINITY]);
    let deviation = random.pick(&[not_finite, -1., -5e-324]);
    let one = &mut all[number];
    match random.below(8) {
        0 => drop(all.pop()),
        1 => all.push(all[0]),
        2 => one.output = random.pick(&[plan.setup.width as usize, usize::MAX]),
        3 => one.value = not_finite,
        4 => one.additive = deviation,
        5 => one.proportional = deviation,
        _ => (one.additive, one.proportional) = (random.pick(&[0., -0.]), random.pick(&[0., -0.])),
    }
    all
}

/// An omega or an override that is refused, each with one effect at least; with
/// two any override is.
pub fn unfit_parameters(random: &mut Random, given: Parameters) -> Parameters {
    let mut unfit = given;
    let beyond = [1048576f64.next_up(), 0., -1., f64::NAN, f64::INFINITY];
    if random.coin() {
        unfit.omega = random.pick(&beyond);
    } else {
        unfit.additive = Some(random.pick(&[-1., f64::NAN, f64::INFINITY, -5e-324]));
    }
    unfit
}
