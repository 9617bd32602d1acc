//! Checks of the lent observations by Curlewstand beside document 01's question
//! in plain Rust: the first that is not sound, by subject and by its number
//! within it.

use crate::compare::{simplest, Simpler};
use crate::guarded::Guarded;
use crate::plausible::{stray, subnormal};
use crate::random::Random;
use crate::rules_cache::put;
use crate::rules_evaluation::{is_sound, unsound};
use std::collections::BTreeMap;
use test_exports::evaluation::{self, Observation, Place};
use test_exports::ffi::curlewstand_check_observations;

/// What is lent to a call.
#[derive(Clone, Debug)]
pub struct Lent {
    pub observations: Vec<Observation>,
    pub width: u32,
    /// The subjects' numbers of observations.
    pub counts: Vec<u64>,
    pub place: Vec<u64>,
}

/// What stands after the observations that are lent: it is not sound, but no
/// call may look at it.
const DECOY: Observation = Observation {
    output: 0,
    row: 0,
    value: f64::NAN,
    additive: 1.,
    proportional: 0.,
};

/// Subjects of few observations, with counts that mostly add up.
pub fn draw(random: &mut Random) -> Lent {
    let subjects = 1 + random.below(5);
    let counts: Vec<u64> = (0..subjects).map(|_| 1 + random.below(4)).collect();
    let any = random.word() as u32;
    let width = match random.below(16) {
        0 => random.pick(&[0, u32::MAX, any]),
        _ => 1 + random.below(64) as u32,
    };
    let observations = (0..counts.iter().sum())
        .map(|_| sound(random, width))
        .collect();
    let room = random.pick(&[0, 1, 2, 2, 2, 5]);
    let mut lent = Lent {
        observations,
        width,
        counts,
        place: (0..room).map(|_| random.word()).collect(),
    };
    for _ in 0..random.pick(&[0, 1, 1, 1, 2, 4]) {
        let number = random.below(lent.observations.len() as u64) as usize;
        spoil(random, &mut lent.observations[number], width);
    }
    for _ in 0..random.pick(&[0, 0, 0, 1, 2]) {
        disturb_counts(random, &mut lent);
    }
    lent
}

fn sound(random: &mut Random, width: u32) -> Observation {
    let size = match random.below(8) {
        0 => subnormal(random),
        1 => f64::MAX,
        _ => random.magnitude(-30, 30),
    };
    let zero = random.pick(&[0., -0.]);
    let other = random.uniform(0., 2.);
    let [additive, proportional] = random.pick(&[[size, zero], [zero, size], [size, other]]);
    Observation {
        output: random.below(width.max(1) as u64) as usize,
        row: random.word() as usize,
        value: random.signed(size),
        additive,
        proportional,
    }
}

/// Mostly what makes an observation unsound, in one place alone.
fn spoil(random: &mut Random, one: &mut Observation, width: u32) {
    let any = random.word() as usize;
    let not_finite = random.pick(&[f64::NAN, f64::INFINITY, f64::NEG_INFINITY]);
    let below = random.pick(&[-1., -5e-324, f64::MIN, f64::NEG_INFINITY]);
    let deviation = random.pick(&[not_finite, below]);
    match random.below(6) {
        0 => one.output = random.pick(&[width as usize, width as usize + 1, !0, any]),
        1 => one.value = not_finite,
        2 => one.additive = deviation,
        3 => one.proportional = deviation,
        4 => (one.additive, one.proportional) = (random.pick(&[0., -0.]), random.pick(&[0., -0.])),
        _ => one.additive = stray(random, one.additive),
    }
}

/// Another count, none, a subject more or less, or observations more or less.
fn disturb_counts(random: &mut Random, lent: &mut Lent) {
    let number = random.below(lent.counts.len().max(1) as u64) as usize;
    match random.below(8) {
        0 => lent.counts.clear(),
        1 => drop(lent.counts.pop()),
        2 => lent.counts.push(random.below(3)),
        3 => drop(lent.observations.pop()),
        4 => lent.observations.push(sound(random, lent.width)),
        5 => put(&mut lent.counts, number, 0),
        _ => {
            let any = random.word();
            let count = random.pick(&[0, 1, 2, 9, !0, 1 << 32, any]);
            put(&mut lent.counts, number, count);
        }
    }
}

/// The place of the first observation that is not sound, by definition; or
/// where ours differs.
fn compared(lent: &Lent) -> Result<Option<Place>, String> {
    let Lent {
        observations,
        width,
        counts,
        place,
    } = lent;
    let [mut ours, mut defined] = [place; 2].map(|place| Guarded::new(place));
    let with_decoy = [&observations[..], &[DECOY]].concat();
    let mut guarded_counts = Guarded::new(counts);
    let number = unsafe {
        curlewstand_check_observations(
            with_decoy.as_ptr(),
            observations.len(),
            *width,
            guarded_counts.lent().as_ptr(),
            counts.len(),
            ours.lent().as_mut_ptr(),
            place.len(),
        )
    };
    let unsound = unsound(observations, *width, counts);
    if let Some(place) = unsound {
        put(defined.lent(), 0, place.subject as u64);
        put(defined.lent(), 1, place.observation as u64);
    }
    if number != unsound.map_or(0, |_| 4) {
        return Err(format!("ours answers {number}, defined {unsound:?}"));
    }
    if let Some(unlike) = ours.first_unlike(&defined) {
        return Err(format!("place {unlike}"));
    }
    let typed = evaluation::check_observations(observations, *width, counts).err();
    if typed != unsound {
        return Err(format!(
            "the safe function gives {typed:?}, defined {unsound:?}"
        ));
    }
    Ok(unsound)
}

/// Without one of the observations or of the counts.
fn simpler(lent: &Lent) -> Simpler<'_, Lent> {
    let observations = (0..lent.observations.len()).map(|number| {
        let mut fewer = lent.clone();
        fewer.observations.remove(number);
        fewer
    });
    let counts = (0..lent.counts.len()).map(|number| {
        let mut fewer = lent.clone();
        fewer.counts.remove(number);
        fewer
    });
    Box::new(observations.chain(counts))
}

/// What was met, to see that everything occurs.
#[derive(Clone, Debug, Default)]
pub struct Met {
    pub calls: u64,
    pub sound: u64,
    /// First of a subject's observations, and later ones.
    pub unsound_at: [u64; 2],
    /// In the first subject, and in later ones.
    pub unsound_in: [u64; 2],
    /// In a subject that the counts have not, or have with none.
    pub unsound_beyond_counts: u64,
    pub unsound_after_a_count_of_zero: u64,
    /// Where the place has room for so many words, 3 for all above 2.
    pub unsound_by_room: [u64; 4],
    /// By what is wrong with the observation.
    pub causes: BTreeMap<&'static str, u64>,
    /// Counts that say less than there are observations, the same, and more.
    pub counted: [u64; 3],
    pub widths_beyond_sessions: u64,
}

/// What makes an observation unsound, if that alone does.
fn cause(one: &Observation, width: u32) -> &'static str {
    let plain = Observation {
        output: 0,
        row: 0,
        value: 0.,
        additive: 1.,
        proportional: 1.,
    };
    let Observation {
        output,
        value,
        additive,
        proportional,
        ..
    } = *one;
    let alone = [
        ("output", Observation { output, ..plain }),
        ("value", Observation { value, ..plain }),
        ("additive", Observation { additive, ..plain }),
        (
            "proportional",
            Observation {
                proportional,
                ..plain
            },
        ),
    ];
    let mut causes = alone.iter().filter(|(_, one)| !is_sound(one, width.max(1)));
    match (causes.next(), causes.next()) {
        (Some((cause, _)), None) => cause,
        (Some(_), Some(_)) => "several",
        (None, _) if width == 0 => "no output at all",
        (None, _) => "both deviations zero",
    }
}

impl Met {
    /// Compares so many checks, each drawn from a seed of its own.
    pub fn over_seeds(first_seed: u64, count: u64) -> Self {
        let mut met = Met::default();
        for seed in first_seed..first_seed + count {
            let lent = draw(&mut Random::new(seed));
            match compared(&lent) {
                Ok(place) => met.count(&lent, place),
                Err(_) => {
                    let lent = simplest(&lent, simpler, |lent| compared(lent).is_err());
                    let unlike = compared(&lent).unwrap_err();
                    panic!("check_observations differs at seed {seed}: {unlike}\n{lent:#?}");
                }
            }
        }
        met
    }

    fn count(&mut self, lent: &Lent, place: Option<Place>) {
        self.calls += 1;
        let counted: u128 = lent.counts.iter().map(|count| *count as u128).sum();
        let there = lent.observations.len() as u128;
        self.counted[(counted >= there) as usize + (counted > there) as usize] += 1;
        self.widths_beyond_sessions += !(1..=64).contains(&lent.width) as u64;
        let Some(place) = place else {
            self.sound += 1;
            return;
        };
        let first = lent
            .observations
            .iter()
            .find(|one| !is_sound(one, lent.width));
        let cause = cause(first.expect("one is unsound"), lent.width);
        *self.causes.entry(cause).or_default() += 1;
        self.unsound_at[(place.observation > 0) as usize] += 1;
        self.unsound_in[(place.subject > 0) as usize] += 1;
        self.unsound_by_room[lent.place.len().min(3)] += 1;
        let before = lent.counts.iter().take(place.subject);
        self.unsound_after_a_count_of_zero += before.filter(|count| **count == 0).count() as u64;
        let count = lent.counts.get(place.subject).copied().unwrap_or(0);
        self.unsound_beyond_counts += (count == 0) as u64;
    }
}
