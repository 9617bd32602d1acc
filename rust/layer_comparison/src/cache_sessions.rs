//! Sessions of the original with few kept rows, and Curlewstand's kept
//! evaluations in step with them. The simulator counts its questions, and its
//! answers go by that count: what is had again after it had gone is not the
//! same.

use crate::random::Random;
use crate::simulators::sample;
use oracle::session::{Observed, Point, Predicted, Question, Refusal, Settings, Simulator};
use oracle::{OneEffect, TwoEffects};
use std::cell::RefCell;
use std::rc::Rc;
use test_exports::cache::{Cache, CacheKey, CachedTerms};
use test_exports::mode::{eta_tolerance, Conditional, Request, Search};
use test_exports::mode_2d::{Conditional2, Request2, Search2, Settings2};

const ETA_BOUND: f64 = 4.;
const TOLERANCE: f64 = 1e-4;
const OMEGA: [[f64; 2]; 2] = [[0.5, 0.1], [0.1, 0.4]];
const OVERRIDES: [Option<f64>; 5] = [None, None, Some(0.), Some(-0.), Some(0.75)];

/// What was met, to see that everything occurs.
#[derive(Clone, Debug, Default)]
pub struct Met {
    pub hits: u64,
    /// Evaluations that were not found; the simulator is asked for them.
    pub misses: u64,
    /// Evaluations that were not found, and refused before the simulator or
    /// after it.
    pub refused: u64,
    pub evictions: u64,
    pub too_large: u64,
    pub modes: u64,
}

/// The questions that were put to a simulator: subject, etas and individual
/// values, the floats as their bits.
type Asked = Rc<RefCell<Vec<[u64; 5]>>>;

/// How many rows a reply has; the observations take turns at them.
const REPLY_ROWS: usize = 4;

/// No two rows of any reply are the same. Where it may fail, there is no reply
/// now and then.
fn simulator(asked: Asked, failing: bool, effects: usize) -> Simulator {
    Box::new(move |question: &Question| {
        let [[a, b], [c, d]] = [question.eta, question.individual].map(|by| by.map(f64::to_bits));
        asked
            .borrow_mut()
            .push([question.subject as u64, a, b, c, d]);
        let turn = asked.borrow().len();
        if failing && turn.is_multiple_of(17) {
            return None;
        }
        let [x, y] = question.individual;
        let row = |row: usize| {
            let number = (REPLY_ROWS * turn + row) as f64;
            let prediction = x + 0.5 * y + 1e-7 * number;
            let mut row = sample(prediction, &[1., 0.5][..effects]);
            (row.time, row.side) = (number, ["pre", "post"][turn % 2]);
            row
        };
        Some((0..REPLY_ROWS).map(row).collect())
    })
}

/// Subjects of 1 to somewhat more than K observations.
fn cohort(random: &mut Random, k: usize) -> Vec<Vec<Observed>> {
    let mut observed = |number: usize| Observed {
        output: 0,
        row: number % REPLY_ROWS,
        value: random.uniform(1., 3.),
        additive: 0.5,
        proportional: 0.1,
    };
    [1, 2, 3.min(k), k / 2 + 1, k + 1]
        .map(|count| (0..count).map(&mut observed).collect())
        .to_vec()
}

fn settings(kept_rows: usize, max_evaluations: usize) -> Settings {
    Settings {
        eta_bound: ETA_BOUND,
        gradient_tolerance: TOLERANCE,
        max_evaluations,
        kept_rows,
        width: 1,
        output_budget: 10_000,
    }
}

fn draw_k(random: &mut Random) -> usize {
    random.pick(&[1, 2, 5, 17, 40, 64, 64, 200, 300])
}

/// Subjects with few observations are more often met.
fn draw_subject(random: &mut Random) -> usize {
    random.pick(&[0, 0, 0, 0, 1, 1, 1, 2, 2, 3, 4])
}

/// One of the last few again, or one newly drawn.
fn again_or<T: Copy>(
    random: &mut Random,
    before: &mut Vec<T>,
    draw: impl Fn(&mut Random) -> T,
) -> T {
    let last = before.len().min(6);
    let drawn = match last > 0 && random.coin() {
        true => random.pick(&before[before.len() - last..]),
        false => draw(random),
    };
    before.push(drawn);
    drawn
}

/// The original with one effect or with two.
pub trait Session: Sized {
    /// What an evaluation goes by, beside its subject.
    type At: Copy;
    /// What a search goes by, beside its subject and the warm start.
    type Given: Copy;

    const EFFECTS: usize;

    fn new(settings: Settings, cohort: Vec<Vec<Observed>>, simulator: Simulator) -> Self;

    fn draw_at(random: &mut Random) -> Self::At;

    fn draw_given(random: &mut Random) -> Self::Given;

    fn key(subject: usize, at: Self::At) -> CacheKey;

    fn evaluate(&mut self, subject: usize, at: Self::At) -> Result<Point, Refusal>;

    /// A search by the original, which also stores the warm start. With one
    /// effect the second eta is zero.
    fn mode(&mut self, subject: usize, given: Self::Given) -> Option<[f64; 2]>;

    /// The same search by our rules, from the same warm start; what stands at a
    /// point is for the caller to say.
    fn searched(
        &self,
        subject: usize,
        given: Self::Given,
        terms: impl FnMut(Self::At) -> Option<CachedTerms>,
    ) -> Option<[f64; 2]>;

    fn rows(&self) -> usize;
}

impl Session for OneEffect {
    /// Theta, eta and the override.
    type At = (f64, f64, Option<f64>);
    /// Theta, omega and the override.
    type Given = (f64, f64, Option<f64>);

    const EFFECTS: usize = 1;

    fn new(settings: Settings, cohort: Vec<Vec<Observed>>, simulator: Simulator) -> Self {
        OneEffect::new(settings, cohort, simulator)
    }

    fn draw_at(random: &mut Random) -> Self::At {
        (theta(random), eta(random), random.pick(&OVERRIDES))
    }

    fn draw_given(random: &mut Random) -> Self::Given {
        let [theta, omega] = [random.pick(&[1., 1.25]), random.pick(&[0.25, 0.5, 1.])];
        (theta, omega, random.pick(&OVERRIDES))
    }

    fn key(subject: usize, (theta, eta, additive): Self::At) -> CacheKey {
        CacheKey::one_effect(subject, theta, eta, additive)
    }

    fn evaluate(&mut self, subject: usize, at: Self::At) -> Result<Point, Refusal> {
        let (theta, eta, additive) = at;
        self.subject(subject, theta, eta, additive)
    }

    fn mode(&mut self, subject: usize, given: Self::Given) -> Option<[f64; 2]> {
        let (theta, omega, additive) = given;
        let mode = OneEffect::mode(self, subject, theta, omega, additive).ok()?;
        self.warm_etas_mut()[subject] = mode.best.eta[0];
        Some(mode.best.eta)
    }

    fn searched(
        &self,
        subject: usize,
        (theta, omega, additive): Self::Given,
        mut terms: impl FnMut(Self::At) -> Option<CachedTerms>,
    ) -> Option<[f64; 2]> {
        let settings = test_exports::mode::Settings {
            eta_bound: ETA_BOUND,
            omega,
            tolerance: eta_tolerance(TOLERANCE),
            warm: self.warm_etas()[subject],
        };
        let mut search = Search::start();
        while let Request::Point(eta) = search.request(&settings) {
            let terms = terms((theta, eta, additive))?;
            let at = Conditional {
                eta,
                nll: terms.nll,
                score: terms.score[0] + eta / omega,
                information: terms.information[0][0],
            };
            search.advance(&settings, &at);
        }
        (search.request(&settings) == Request::Mode).then(|| [search.best().eta, 0.])
    }

    fn rows(&self) -> usize {
        self.cached_rows()
    }
}

impl Session for TwoEffects {
    /// Both thetas and both etas.
    type At = ([f64; 2], [f64; 2]);
    /// Both thetas.
    type Given = [f64; 2];

    const EFFECTS: usize = 2;

    fn new(settings: Settings, cohort: Vec<Vec<Observed>>, simulator: Simulator) -> Self {
        let session = TwoEffects::new(settings, OMEGA, cohort, simulator);
        session.expect("omega has an inverse")
    }

    fn draw_at(random: &mut Random) -> Self::At {
        let thetas = [theta(random), random.pick(&[1., 1.25])];
        (thetas, [eta(random), eta(random)])
    }

    fn draw_given(random: &mut Random) -> Self::Given {
        [0; 2].map(|_| random.pick(&[1., 1.25]))
    }

    fn key(subject: usize, (theta, eta): Self::At) -> CacheKey {
        CacheKey::two_effects(subject, theta, eta)
    }

    fn evaluate(&mut self, subject: usize, (theta, eta): Self::At) -> Result<Point, Refusal> {
        self.subject(subject, theta, eta)
    }

    fn mode(&mut self, subject: usize, theta: Self::Given) -> Option<[f64; 2]> {
        let mode = TwoEffects::mode(self, subject, theta).ok()?;
        self.warm_etas_mut()[subject] = mode.best.eta;
        Some(mode.best.eta)
    }

    fn searched(
        &self,
        subject: usize,
        theta: Self::Given,
        mut terms: impl FnMut(Self::At) -> Option<CachedTerms>,
    ) -> Option<[f64; 2]> {
        let settings = Settings2 {
            eta_bound: ETA_BOUND,
            precision: self.precision(),
            warm: self.warm_etas()[subject],
        };
        let mut search = Search2::start();
        while let Request2::Point(eta) = search.request(&settings) {
            let terms = terms((theta, eta))?;
            let at = Conditional2 {
                eta,
                nll: terms.nll,
                score: terms.score,
                information: terms.information,
            };
            search.advance(&settings, &at);
        }
        (search.request(&settings) == Request2::Mode).then(|| search.best().eta)
    }

    fn rows(&self) -> usize {
        self.cached_rows()
    }
}

/// Few of them, and some that are refused.
fn theta(random: &mut Random) -> f64 {
    random.pick(&[1., 1., 1., 1., 1.25, 1.25, 0., -1.])
}

/// Few of them, with zeros of either sign.
fn eta(random: &mut Random) -> f64 {
    random.pick(&[0., -0., 0.5, -0.5, 1., -2.])
}

/// What is kept of an evaluated point.
pub fn terms(point: &Point) -> CachedTerms {
    CachedTerms {
        nll: point.nll,
        score: point.score,
        information: point.information,
    }
}

/// Prediction, time and side of each observation, as words.
pub fn rows(point: &Point) -> Vec<[u64; 3]> {
    let words = |row: &Predicted| {
        let side = if row.pre { 0 } else { 1 };
        [row.prediction.to_bits(), row.time.to_bits(), side]
    };
    point.rows.iter().map(words).collect()
}

fn keep(cache: &mut Cache, key: &CacheKey, point: &Point, met: &mut Met) {
    let [oldest, next, ..] = *cache.order();
    cache.insert(key, &terms(point), &rows(point));
    met.evictions += cache.order()[0] - oldest;
    met.too_large += (cache.order()[1] == next) as u64;
}

/// Single evaluations: the original asks its simulator just where ours finds
/// nothing, and else has what ours has.
pub fn evaluations<S: Session>(seed: u64, count: usize, met: &mut Met) {
    let random = &mut Random::new(seed);
    let k = draw_k(random);
    let cohort = cohort(random, k);
    let asked = Asked::default();
    let simulator = simulator(asked.clone(), true, S::EFFECTS);
    let most = random.pick(&[count / 2, count]);
    let mut original = S::new(settings(k, most), cohort, simulator);
    let mut cache = Cache::new(k);
    let mut before = Vec::new();
    for step in 0..count {
        let (subject, at) = again_or(random, &mut before, |random| {
            (draw_subject(random), S::draw_at(random))
        });
        let key = S::key(subject, at);
        let questions = asked.borrow().len();
        let point = original.evaluate(subject, at);
        let questions = asked.borrow().len() - questions;
        let compared = evaluation(&mut cache, &key, point, questions, met);
        if let Err(what) = compared {
            panic!("seed {seed}, step {step}, key {:x?}: {what}", key.words());
        }
        assert_eq!(cache.cached_rows(), original.rows(), "{seed}, {step}");
    }
}

/// What the original came to with so many questions, beside ours.
fn evaluation(
    cache: &mut Cache,
    key: &CacheKey,
    point: Result<Point, Refusal>,
    questions: usize,
    met: &mut Met,
) -> Result<(), String> {
    let slot = cache.find(key);
    let mut wanted = slot.is_none();
    match (slot, &point) {
        (Some(slot), Ok(point)) => {
            met.hits += 1;
            let mut copy = vec![[!0; 3]; point.rows.len()];
            cache.rows(slot, &mut copy);
            if (cache.terms(slot), copy) != (terms(point), rows(point)) {
                return Err(format!("ours has other terms or rows in slot {slot}"));
            }
        }
        (None, Ok(point)) => {
            met.misses += 1;
            keep(cache, key, point, met);
        }
        (None, Err(refusal)) => {
            met.refused += 1;
            // some are refused before the simulator
            wanted = !matches!(refusal.number, 6 | 7);
        }
        (Some(slot), Err(_)) => return Err(format!("ours finds it in slot {slot}")),
    }
    if questions != wanted as usize {
        return Err(format!("{questions} questions, ours finds {slot:?}"));
    }
    Ok(())
}

/// Whole searches, one after the other: the original asks its simulator just
/// for the points that ours does not find, in the same order. What stands there
/// is found by the original without any kept rows, whose simulator is asked
/// nothing else.
pub fn searches<S: Session>(seed: u64, count: usize, met: &mut Met) {
    let random = &mut Random::new(seed);
    let k = draw_k(random);
    let cohort = cohort(random, k);
    let logs = [Asked::default(), Asked::default()];
    let [mut original, mut plain] = [(k, &logs[0]), (0, &logs[1])].map(|(kept, log)| {
        let simulator = simulator(log.clone(), seed.is_multiple_of(4), S::EFFECTS);
        S::new(settings(kept, usize::MAX), cohort.clone(), simulator)
    });
    let mut cache = Cache::new(k);
    let mut before = Vec::new();
    for step in 0..count {
        let (subject, given) = again_or(random, &mut before, |random| {
            (draw_subject(random), S::draw_given(random))
        });
        let ours = original.searched(subject, given, |at| {
            found_or_asked(&mut cache, &S::key(subject, at), met, || {
                plain.evaluate(subject, at)
            })
        });
        let theirs = original.mode(subject, given);
        let words = [ours, theirs].map(|eta| eta.map(|eta| eta.map(f64::to_bits)));
        assert_eq!(words[0], words[1], "seed {seed}, step {step}");
        assert!(logs[0] == logs[1], "seed {seed}, step {step}: questions");
        assert_eq!(cache.cached_rows(), original.rows(), "{seed}, {step}");
        met.modes += ours.is_some() as u64;
    }
}

fn found_or_asked(
    cache: &mut Cache,
    key: &CacheKey,
    met: &mut Met,
    evaluate: impl FnOnce() -> Result<Point, Refusal>,
) -> Option<CachedTerms> {
    if let Some(slot) = cache.find(key) {
        met.hits += 1;
        return Some(cache.terms(slot));
    }
    met.misses += 1;
    match evaluate() {
        Ok(point) => {
            keep(cache, key, &point, met);
            Some(terms(&point))
        }
        Err(_) => {
            met.refused += 1;
            None
        }
    }
}
