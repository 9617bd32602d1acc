//! What is lent to calls that must stand anything: sessions that are right, the same
//! with something altered, and words of any kind.

use crate::garbage_checks::*;
use crate::garbage_memory::*;
use crate::guarded::Guarded;
use crate::random::Random;
use curlewstand::ffi::{SessionParameters, SessionSetup};

/// A word of any kind: any bits, a small number, a float, an end of a range.
pub fn word(random: &mut Random) -> u64 {
    match random.below(6) {
        0 => random.word(),
        1 => random.below(4),
        2 => random.below(64),
        3 => any_float(random).to_bits(),
        4 => random.pick(&[
            u64::MAX,
            1 << 63,
            (1 << 63) - 1,
            u64::from(u32::MAX),
            1 << 32,
            (1 << 32) + 3,
            4096,
            100_000,
            100_001,
        ]),
        _ => 1 << random.below(64),
    }
}

fn any_float(random: &mut Random) -> f64 {
    match random.below(4) {
        0 => f64::from_bits(random.word()),
        1 => random.pick(&[
            0.,
            -0.,
            1.,
            f64::NAN,
            f64::INFINITY,
            f64::NEG_INFINITY,
            f64::MAX,
            5e-324,
            1e154,
            16.,
            16f64.next_up(),
            1e-12,
            9.5367431640625e-7,
            1_048_576f64.next_up(),
        ]),
        2 => random.uniform(-3., 3.),
        _ => {
            let magnitude = random.magnitude(-1022, 1023);
            random.signed(magnitude)
        }
    }
}

fn words(random: &mut Random, n: usize) -> Vec<u64> {
    let kind = random.below(4);
    let mut one = || match kind {
        0 => random.word(),
        1 => random.below(4),
        2 => 0,
        _ => word(random),
    };
    (0..n).map(|_| one()).collect()
}

// ---- sessions that are right

/// A setup that passes, small enough to be copied at each call.
fn setup(random: &mut Random) -> SessionSetup {
    let effects = 1 + random.below(2) as u32;
    SessionSetup {
        effects,
        omega_00: random.pick(&[0.09, 0.2, 1.]),
        omega_01: 0.01,
        omega_10: 0.01,
        omega_11: 0.06,
        eta_bound: random.pick(&[0.5, 2., 4., 16.]),
        gradient_tolerance: random.pick(&[1e-4, 1e-9, 10.]),
        width: 1 + random.below(2) as u32,
        k: 1 + random.below(10) as usize,
        has_additive: effects == 1 && random.below(4) == 0,
        additive: 0.3,
        output_budget: if random.below(12) == 0 { 5 } else { 1000 },
        max_evaluations: if random.below(6) == 0 {
            random.below(90) as u32
        } else {
            100_000
        },
    }
}

pub fn parameters(random: &mut Random, setup: &SessionSetup) -> SessionParameters {
    let odd = [0., -1., f64::NAN, f64::INFINITY, 1e308, 5e-324];
    let theta = |random: &mut Random| match random.below(60) {
        0 => random.pick(&odd),
        _ => random.pick(&[1., 1.1, 2.]),
    };
    SessionParameters {
        theta: theta(random),
        theta_2: theta(random),
        omega: if random.below(80) == 0 {
            any_float(random)
        } else {
            setup.omega_00
        },
        has_additive: setup.has_additive,
        additive: if random.below(80) == 0 {
            any_float(random)
        } else {
            setup.additive
        },
    }
}

/// A session before its setup: all that it is lent has words of any kind, and is as
/// long as it must be, or longer. Its observations are some `large`: about 2e153 a
/// subject's sums are finite, and those of several are not.
pub fn session(random: &mut Random, large: f64) -> Memory {
    let setup = setup(random);
    let subjects = 1 + random.below(4) as usize;
    let most = if large > 1. { 1 } else { 3 };
    let counts: Vec<u64> = (0..subjects).map(|_| 1 + random.below(most)).collect();
    let mut observations = Vec::new();
    for count in &counts {
        let own = random.uniform(-0.6, 0.6).exp();
        for row in 0..*count {
            let value = large * own * (1. + row as f64 / 8.) + random.uniform(-0.1, 0.1);
            let output = random.below(setup.width.into());
            let deviations = [0.2, random.pick(&[0., 0.1])].map(f64::to_bits);
            observations.extend([output, row, value.to_bits()]);
            observations.extend(deviations);
        }
    }
    let n = observations.len() / OBSERVATION_WORDS;
    let largest = counts.iter().max().copied().unwrap_or(0) as usize;
    let mut lent = |least: usize| {
        let more = if random.below(3) == 0 {
            random.below(9) as usize
        } else {
            0
        };
        Guarded::new(&words(random, least + more))
    };
    let state = lent(STATE_WORDS);
    let answer = lent(ANSWER_WORDS);
    let cache = lent(24 * setup.k);
    let work = lent(12 * largest);
    let warm = lent(setup.effects as usize * subjects);
    let results = lent(3 * subjects + 2 * n);
    let [tally, shrinkage] = [TALLY_WORDS, 1].map(|n| Guarded::new(&words(random, n)));
    let counts = Guarded::new(&counts);
    let reply = Guarded::new(&[]);
    let parameters = parameters(random, &setup);
    let observations = Guarded::new(&observations);
    Memory {
        setup,
        parameters,
        lent: [
            observations,
            counts,
            reply,
            tally,
            state,
            answer,
            cache,
            work,
            warm,
            results,
            shrinkage,
        ],
    }
}

// ---- replies

/// What a simulator predicts.
#[derive(Clone, Copy, Debug, PartialEq, Eq)]
pub enum Model {
    /// A multiple of the individual values.
    Linear,
    /// The same whatever the individual values are.
    Constant,
    /// Anything between -3 and 3.
    Noisy,
    /// Linear, at times that differ from reply to reply.
    Wandering,
    /// Linear, so steep in both effects alike that they cannot be told apart.
    Alike,
}

/// How large the observations are, and what predicts them.
pub fn model(random: &mut Random) -> (f64, Model) {
    if random.below(12) == 0 {
        return (random.pick(&[2e153, 2.5e153, 1e200]), Model::Constant);
    }
    let model = random.pick(&[
        Model::Linear,
        Model::Linear,
        Model::Linear,
        Model::Linear,
        Model::Constant,
        Model::Noisy,
        Model::Wandering,
        Model::Alike,
    ]);
    (1., model)
}

/// The rows of a reply to the question that stands in the answer, now and then with a
/// fault: cut, empty, one row too few, or any words.
pub fn reply(random: &mut Random, memory: &Memory, model: Model) -> Vec<u64> {
    let (effects, width) = (
        memory.setup.effects.min(2) as usize,
        memory.setup.width.min(64),
    );
    let word = |at: usize| memory.words(ANSWER).get(at).copied().unwrap_or(0);
    let individual = [word(3), word(4)].map(f64::from_bits);
    let n = match random.below(150) {
        0 => 0,
        1 => 1,
        2 => 40,
        _ => 3,
    };
    let mut said = Vec::new();
    for row in 0..n {
        let time = match model {
            Model::Wandering => random.below(3) as f64,
            _ => row as f64,
        };
        said.extend([time.to_bits(), row % 2]);
        let slope = match model {
            Model::Constant => 0.,
            Model::Alike => 1e9,
            _ => 1. + row as f64 / 8.,
        };
        for _ in 0..width {
            let value = match model {
                Model::Constant => 1.,
                Model::Noisy => random.uniform(-3., 3.),
                _ => slope * individual[..effects].iter().sum::<f64>(),
            };
            said.push(value.to_bits());
        }
        for effect in 0..effects {
            let own = if model == Model::Alike {
                slope
            } else {
                slope / (1. + effect as f64)
            };
            said.extend((0..width).map(|_| own.to_bits()));
        }
    }
    match random.below(300) {
        0 => said.truncate(said.len().saturating_sub(1)),
        1..=3 if !said.is_empty() => {
            let at = random.below(said.len() as u64) as usize;
            said[at] = self::word(random);
        }
        4 => {
            let n = random.below(24) as usize;
            said = words(random, n);
        }
        _ => {}
    }
    said
}

// ---- alterations

/// Alters something of what is lent, mostly one thing.
pub fn alter(random: &mut Random, memory: &mut Memory) {
    loop {
        match random.below(10) {
            0..=3 => alter_state(random, memory),
            4 => alter_setup(random, &mut memory.setup),
            5 => alter_parameters(random, memory),
            6 => alter_length(random, memory),
            7 => {
                let at = random.pick(&[CACHE, CACHE, WORK, WARM, RESULTS, ANSWER]);
                alter_word(random, memory, at);
            }
            8 => {
                let at = random.pick(&[COUNTS, COUNTS, OBSERVATIONS, TALLY]);
                alter_word(random, memory, at);
            }
            _ => {
                let n = random.below(24) as usize;
                let said = words(random, n);
                memory.put(REPLY, &said);
            }
        }
        if random.below(3) > 0 {
            return;
        }
    }
}

/// Another word: one more or less than it was, a K or a number of subjects, or any.
fn other(random: &mut Random, was: u64, memory: &Memory) -> u64 {
    match random.below(6) {
        0 => was.wrapping_add(1),
        1 => was.wrapping_sub(1),
        2 => (memory.setup.k as u64).wrapping_add(random.below(3)),
        3 => memory.subjects() as u64,
        4 => random.below(50),
        _ => word(random),
    }
}

fn alter_at(random: &mut Random, memory: &mut Memory, at: usize, place: usize) {
    let Some(was) = memory.words(at).get(place).copied() else {
        return;
    };
    let is = other(random, was, memory);
    memory.lent[at].lent()[place] = is;
}

fn alter_word(random: &mut Random, memory: &mut Memory, at: usize) {
    let n = memory.words(at).len() as u64;
    if n > 0 {
        let place = random.below(n) as usize;
        alter_at(random, memory, at, place);
    }
}

/// The positions and the stage of the search above all.
fn alter_state(random: &mut Random, memory: &mut Memory) {
    let place = match random.below(6) {
        0 => random.pick(&[AWAITS, SUBJECT, FIRST]),
        1 => POSITIONS.start + random.below(POSITIONS.len() as u64) as usize,
        2 => random.pick(&[EFFECTS, STAGE]),
        // the count, or with two effects seed, round and reduction
        3 => COUNT + random.below(3) as usize,
        _ => random.below(STATE_WORDS as u64) as usize,
    };
    alter_at(random, memory, STATE, place);
}

fn alter_setup(random: &mut Random, setup: &mut SessionSetup) {
    let any = word(random);
    let number = random.pick(&[0, 1, 2, 3, 64, 65, any as u32]);
    match random.below(12) {
        0 => setup.effects = number,
        1 => setup.omega_00 = any_float(random),
        2 => setup.omega_01 = any_float(random),
        3 => setup.omega_10 = any_float(random),
        4 => setup.omega_11 = any_float(random),
        5 => setup.eta_bound = any_float(random),
        6 => setup.gradient_tolerance = any_float(random),
        7 => setup.width = number,
        8 => {
            setup.k = random.pick(&[
                0,
                1,
                2,
                setup.k.wrapping_add(1),
                setup.k.wrapping_sub(1),
                any as usize,
            ])
        }
        9 => (setup.has_additive, setup.additive) = (random.coin(), any_float(random)),
        10 => setup.output_budget = any as u32,
        _ => setup.max_evaluations = random.pick(&[0, 1, any as u32]),
    }
}

fn alter_parameters(random: &mut Random, memory: &mut Memory) {
    let parameters = &mut memory.parameters;
    match random.below(4) {
        0 => parameters.theta = any_float(random),
        1 => parameters.theta_2 = any_float(random),
        2 => parameters.omega = any_float(random),
        _ => (parameters.has_additive, parameters.additive) = (random.coin(), any_float(random)),
    }
}

/// A slice of another length: none, one word less or some more, or anything up to twice
/// as many. A tally and a shrinkage have theirs, and of observations there is no part.
fn alter_length(random: &mut Random, memory: &mut Memory) {
    let at = random.pick(&[
        OBSERVATIONS,
        COUNTS,
        REPLY,
        STATE,
        ANSWER,
        ANSWER,
        CACHE,
        WORK,
        WARM,
        RESULTS,
    ]);
    let unit = if at == OBSERVATIONS {
        OBSERVATION_WORDS
    } else {
        1
    };
    let n = memory.words(at).len() / unit;
    let n = match random.below(4) {
        0 => 0,
        1 => n.saturating_sub(1),
        2 => n + 1 + random.below(6) as usize,
        _ => random.below(2 * n as u64 + 1) as usize,
    };
    let mut altered = memory.words(at).to_vec();
    let more = words(random, unit * n);
    altered.extend(more);
    altered.truncate(unit * n);
    memory.put(at, &altered);
}

// ---- words of any kind

/// A length near one that would do.
fn length(random: &mut Random, right: usize) -> usize {
    match random.below(5) {
        0 => 0,
        1 => right.saturating_sub(1),
        2 => random.below(2 * right as u64 + 2) as usize,
        _ => right,
    }
}

/// Everything of any kind, and of any length.
pub fn garbage(random: &mut Random) -> Memory {
    let mut memory = session(random, 1.);
    let right = memory.lent.each_ref().map(|one| one.words().len());
    for (at, right) in right.into_iter().enumerate() {
        let n = match at {
            TALLY | SHRINKAGE => right,
            OBSERVATIONS => length(random, right / OBSERVATION_WORDS) * OBSERVATION_WORDS,
            _ => length(random, right),
        };
        let any = words(random, n);
        memory.put(at, &any);
    }
    for _ in 0..random.below(14) {
        alter_setup(random, &mut memory.setup);
        alter_parameters(random, &mut memory);
    }
    if memory.words(STATE).len() >= STATE_WORDS && random.coin() {
        // a state whose flags and kinds are right, so that its words are looked at
        let flags = [random.below(2), random.below(2), 1 + random.below(2)];
        let state = memory.lent[STATE].lent();
        [state[AWAITS], state[HAS_ADDITIVE], state[EFFECTS]] = flags;
    }
    memory
}
