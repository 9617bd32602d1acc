//! What the comparisons of whole searches share, with one effect and with two:
//! how a search ended, what is counted, and how a difference is made simpler
//! and told.

use crate::compare::{shown, simpler_than, simplest, Simpler};
use crate::random::Random;
use crate::simulators::Model;
use oracle::session::Observed;
use std::cell::RefCell;
use std::fmt::{Debug, Write};
use std::rc::Rc;
use std::time::Instant;

/// How a search ended, and what it asked on the way.
#[derive(Clone, Debug, PartialEq, Eq)]
pub struct Run {
    /// The words of the points that were put to the simulator, in order. With
    /// one effect the second word is zero.
    pub asked: Vec<[u64; 2]>,
    /// How many points were asked for, those refused before the simulator
    /// included.
    pub evaluations: usize,
    pub end: End,
}

#[derive(Clone, Debug, PartialEq, Eq)]
pub enum End {
    /// The words of the mode. With one effect its score has the prior's share.
    Mode(Vec<u64>),
    /// A refusal of the search, 13 to 16, or of an evaluation, 6 to 12.
    Refused(u32),
}

/// Where a simulator writes down what it is asked.
pub type Asked = Rc<RefCell<Vec<[u64; 2]>>>;

/// A search that both sides are put to.
pub trait Trial: Clone + Debug {
    /// A state of our search between two evaluations.
    type State;
    /// What is counted of the states.
    type Met: Met;

    /// The search by the original's `mode`.
    fn original(&self) -> Run;

    /// The search by Curlewstand's rules; at each point that they ask for
    /// stands what the original finds there. Every state between two
    /// evaluations is shown to `watch`.
    fn ours(&self, watch: impl FnMut(&Self::State)) -> Run;

    /// Counts what a search met, by its states and its end.
    fn count(&self, states: &[Self::State], end: &End, met: &mut Self::Met);

    /// Whether document 01's setup would take it.
    fn in_domain(&self) -> bool;

    /// What the original finds at the points, asked for one after the other.
    fn evaluated(&self, points: &[[u64; 2]]) -> Vec<String>;

    /// The kind of simulator, its seed and what else is no float.
    fn kind(&self) -> String;

    /// Every float in it, with its name.
    fn floats_mut(&mut self) -> Vec<(&'static str, &mut f64)>;

    fn observations_mut(&mut self) -> &mut Vec<Observed>;

    /// How many observations its simulator wants.
    fn fewest_observations(&self) -> usize;

    fn seed_mut(&mut self) -> &mut u64;

    /// Itself without what a trial need not have.
    fn bare(&self) -> Self {
        self.clone()
    }

    /// Trials simpler than this one in one place each.
    fn simpler(&self) -> Vec<Self> {
        let mut original = self.clone();
        let mut simpler = Vec::new();
        if self.bare().floats_mut().len() < original.floats_mut().len() {
            simpler.push(self.bare());
        }
        let mut with = |change: &dyn Fn(&mut Self)| {
            let mut trial = self.clone();
            change(&mut trial);
            simpler.push(trial);
        };
        if original.observations_mut().len() > self.fewest_observations() {
            with(&|trial| {
                trial.observations_mut().remove(0);
                for (row, one) in trial.observations_mut().iter_mut().enumerate() {
                    one.row = row;
                }
            });
        }
        for seed in (0..10).take_while(|seed| seed < original.seed_mut()) {
            with(&|trial| *trial.seed_mut() = seed);
        }
        let floats = original.floats_mut();
        for (place, (_, x)) in floats.into_iter().enumerate() {
            for simple in simpler_than(*x) {
                with(&|trial| *trial.floats_mut()[place].1 = simple);
            }
        }
        simpler.retain(Self::in_domain);
        simpler
    }
}

/// The floats of a simulator and of the subject's observations.
pub fn subject_floats<'a, K>(
    model: &'a mut Model<K>,
    observations: &'a mut [Observed],
) -> Vec<(&'static str, &'a mut f64)> {
    let mut floats: Vec<_> = ["a", "b", "c"]
        .into_iter()
        .zip(&mut model.parameters)
        .collect();
    for one in observations {
        floats.push(("value", &mut one.value));
        floats.push(("additive", &mut one.additive));
        floats.push(("proportional", &mut one.proportional));
    }
    floats
}

/// Whether document 01's setup would take the observations.
pub fn are_in_domain(observations: &[Observed]) -> bool {
    observations.iter().all(|one| {
        one.value.is_finite()
            && is_deviation(one.additive)
            && is_deviation(one.proportional)
            && one.additive + one.proportional > 0.
    })
}

pub fn is_deviation(x: f64) -> bool {
    x.is_finite() && x >= 0.
}

/// Where the two sides differ, a text about the simplest trial found that
/// still shows a difference.
pub fn difference<T: Trial>(trial: &T) -> Option<String> {
    let differs = |trial: &T| trial.ours(|_| {}) != trial.original();
    if !differs(trial) {
        return None;
    }
    Some(report(&mut simplest(trial, simpler, differs)))
}

fn simpler<T: Trial>(trial: &T) -> Simpler<'_, T> {
    Box::new(trial.simpler().into_iter())
}

/// How many of the points that both sides asked alike are told, the last ones.
const SHOWN: usize = 100;

fn report<T: Trial>(trial: &mut T) -> String {
    let mut text = String::from("a search differs from the original's\n");
    writeln!(text, "  {}", trial.kind()).unwrap();
    for (name, x) in trial.floats_mut() {
        writeln!(text, "  {name:18} {}", shown(x.to_bits())).unwrap();
    }
    let runs = [("ours", trial.ours(|_| {})), ("theirs", trial.original())];
    let [ours, theirs] = [&runs[0].1.asked, &runs[1].1.asked];
    let alike = ours.iter().zip(theirs).take_while(|(a, b)| a == b).count();
    let evaluated = trial.evaluated(&ours[..alike]);
    let points = ours.iter().zip(evaluated).enumerate();
    for (number, (point, at)) in points.skip(alike.saturating_sub(SHOWN)) {
        writeln!(text, "  point {number:2} {:?} {at}", point.map(shown)).unwrap();
    }
    for (side, run) in runs {
        if let Some(point) = run.asked.get(alike) {
            writeln!(text, "  {side:6} then asks {:?}", point.map(shown)).unwrap();
        }
        write!(text, "  {side:6} {} points asked for, ", run.evaluations).unwrap();
        match run.end {
            End::Mode(words) => {
                let words: Vec<String> = words.into_iter().map(shown).collect();
                writeln!(text, "mode {words:?}").unwrap();
            }
            End::Refused(number) => writeln!(text, "refused with {number}").unwrap(),
        }
    }
    text
}

/// Counts of what searches met, to see that everything occurs.
pub trait Met: Clone + Debug + Default {
    fn add(&mut self, other: &Self);

    fn text(&self) -> String;
}

#[derive(Clone, Debug, Default)]
pub struct Tally<M> {
    pub searches: u64,
    pub points: u64,
    pub longest: usize,
    pub modes: u64,
    /// By the number of the refusal.
    pub refused: Counts<17>,
    pub met: M,
}

impl<M: Met> Tally<M> {
    /// Compares one search and counts it. Gives the words of the mode, if
    /// there is one.
    pub fn compare<T: Trial<Met = M>>(&mut self, trial: &T) -> Option<Vec<u64>>
    where
        T::State: Clone,
    {
        assert!(trial.in_domain(), "{trial:?}");
        let mut states = Vec::new();
        let run = trial.ours(|state| states.push(state.clone()));
        if run != trial.original() {
            panic!("{}", difference(trial).unwrap());
        }
        self.searches += 1;
        self.points += run.evaluations as u64;
        self.longest = self.longest.max(run.evaluations);
        trial.count(&states, &run.end, &mut self.met);
        match run.end {
            End::Mode(words) => {
                self.modes += 1;
                Some(words)
            }
            End::Refused(number) => {
                self.refused.count(number as u64);
                None
            }
        }
    }

    pub fn add(&mut self, other: &Self) {
        self.searches += other.searches;
        self.points += other.points;
        self.longest = self.longest.max(other.longest);
        self.modes += other.modes;
        self.refused.add(&other.refused);
        self.met.add(&other.met);
    }

    pub fn line(&self, name: &str) -> String {
        let mut line = format!(
            "{name}: {} searches alike over {} points, the longest of {}; modes {}; refused",
            self.searches, self.points, self.longest, self.modes
        );
        for (number, count) in self.refused.0.iter().enumerate().skip(6) {
            write!(line, " {number}: {count}").unwrap();
        }
        format!("{line}; {}", self.met.text())
    }
}

/// Counts by a number below N.
#[derive(Clone, Debug)]
pub struct Counts<const N: usize>(pub [u64; N]);

impl<const N: usize> Default for Counts<N> {
    fn default() -> Self {
        Counts([0; N])
    }
}

impl<const N: usize> Counts<N> {
    pub fn count(&mut self, number: u64) {
        self.0[number as usize] += 1;
    }

    pub fn add(&mut self, other: &Self) {
        for (sum, count) in self.0.iter_mut().zip(other.0) {
            *sum += count;
        }
    }

    pub fn fewest(&self) -> u64 {
        self.0.into_iter().min().unwrap()
    }
}

/// Compares at least so many searches of each kind as stands beside it; `some`
/// compares a few. Tells of each kind, and gives the sum.
pub fn over_kinds<K: Copy + Debug, M: Met>(
    kinds: &[(K, u64)],
    first_seed: u64,
    mut some: impl FnMut(&mut Tally<M>, &mut Random, K),
) -> Tally<M> {
    let mut sum = Tally::default();
    for (number, (kind, count)) in kinds.iter().enumerate() {
        let begun = Instant::now();
        let mut random = Random::new(first_seed + number as u64);
        let mut tally = Tally::default();
        while tally.searches < *count {
            some(&mut tally, &mut random, *kind);
        }
        let line = tally.line(&format!("{kind:?}"));
        crate::say(&format!("{line}, {:.1?}", begun.elapsed()));
        sum.add(&tally);
    }
    sum
}
