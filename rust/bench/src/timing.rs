//! Both sides timed in turn, and held to each other.

use crate::cohort::{observations, Cell, Measured, Model, THETA};
use crate::sides::{samples, Original, Ours, Side, Timed};
use crate::stopwatch::{median, nanoseconds, Reading, Stopwatch};
use layer_comparison::random::Random;
use std::rc::Rc;
use std::time::{Duration, Instant};

/// How long a cell is timed, and how often at least.
#[derive(Clone, Copy)]
pub struct Effort {
    pub time: Duration,
    pub rounds: usize,
}

/// Nanoseconds of both sides.
#[derive(Clone, Copy, Debug)]
pub struct Nanoseconds {
    pub ours: f64,
    pub original: f64,
}

/// A first objective.
#[derive(Clone, Copy, Debug)]
pub struct First {
    /// The core's, for an evaluation that is asked for.
    pub core: Nanoseconds,
    /// The simulator's, for making a reply.
    pub simulator: Nanoseconds,
    /// What the original takes to free a reply.
    pub freeing: f64,
    /// The evaluations that were asked for, kept ones included, and the
    /// questions to the simulator.
    pub asked: usize,
    pub questions: usize,
}

/// Nanoseconds of a round: of each side's objective its core and its replies,
/// and of a reply what freeing it takes.
struct Round {
    core: [f64; 2],
    simulator: [f64; 2],
    freeing: f64,
}

/// Cohorts of one shape, for every K.
pub struct Shape {
    cell: Cell,
    model: Rc<Model>,
    cohort: Vec<Vec<Measured>>,
    reading: Reading,
    /// The evaluations that a first objective asks for.
    asked: usize,
}

impl Shape {
    pub fn new(effects: usize, rows: usize, subjects: usize) -> Self {
        let cell = Cell {
            effects,
            rows,
            subjects,
            k: 0,
        };
        let random = &mut Random::new(1);
        let model = Rc::new(Model::new(&cell, random));
        let cohort = observations(&cell, &model, random);
        let reading = Reading::of_the_clock();
        // with nothing kept each evaluation that is asked for is a question
        let mut unkept = Original::new(&cell, &model, &cohort);
        unkept.objective();
        Shape {
            asked: unkept.tally().0,
            cell,
            model,
            cohort,
            reading,
        }
    }

    fn opened(&self, k: usize) -> (Ours, Original) {
        let cell = Cell { k, ..self.cell };
        (
            Ours::new(&cell, &self.model, &self.cohort),
            Original::new(&cell, &self.model, &self.cohort),
        )
    }

    /// The first objectives of new sessions, in turn, and the last two sides.
    pub fn first(&self, k: usize, effort: Effort) -> (First, Ours, Original) {
        let (mut ours, mut original) = self.opened(k);
        hold_all(&mut ours, &mut original);
        let questions = ours.tally().0;
        let mut rounds: Vec<Round> = Vec::new();
        let begun = Instant::now();
        while rounds.len() < effort.rounds || begun.elapsed() < effort.time {
            (ours, original) = self.opened(k);
            let (a, b) = in_turn(rounds.len(), &mut ours, &mut original);
            hold(&a, &b, &ours, &original);
            // in each round, since it is taken off what the same round took
            let freeing = freeing(&self.cell, &self.model, self.reading);
            rounds.push(Round {
                core: [self.core(&a, 0.), self.core(&b, freeing)],
                simulator: [self.simulator(&a), self.simulator(&b)],
                freeing,
            });
        }
        (self.told(&rounds, questions), ours, original)
    }

    fn told(&self, rounds: &[Round], questions: usize) -> First {
        let each = |of: &dyn Fn(&Round) -> f64, over: usize| {
            median(rounds.iter().map(of).collect()) / over as f64
        };
        First {
            core: Nanoseconds {
                ours: each(&|round| round.core[0], self.asked),
                original: each(&|round| round.core[1], self.asked),
            },
            simulator: Nanoseconds {
                ours: each(&|round| round.simulator[0], questions),
                original: each(&|round| round.simulator[1], questions),
            },
            freeing: each(&|round| round.freeing, 1),
            asked: self.asked,
            questions,
        }
    }

    /// An objective without the simulator, the clock, and the freeing of the
    /// replies.
    fn core(&self, timed: &Timed, freeing: f64) -> f64 {
        let for_a_question = self.reading.unseen + freeing;
        nanoseconds(timed.whole - timed.simulating) - f64::from(timed.questions) * for_a_question
    }

    /// An objective's replies, without the clock.
    fn simulator(&self, timed: &Timed) -> f64 {
        nanoseconds(timed.simulating) - f64::from(timed.questions) * self.reading.seen
    }

    /// What the clock takes for a question without seeing it.
    pub fn clock(&self) -> f64 {
        self.reading.unseen
    }

    /// The same objective again and again, once every evaluation that it asks
    /// for is kept; nothing where they are not all kept.
    pub fn again(
        &self,
        ours: &mut Ours,
        original: &mut Original,
        effort: Effort,
    ) -> Option<Nanoseconds> {
        let objectives = settled(ours, original)?;
        let asked = self.asked_after(objectives) as f64;
        let one = nanoseconds(ours.timed().whole);
        let block = (200_000. / one).ceil() as usize;
        let [mut of_ours, mut of_original] = [Vec::new(), Vec::new()];
        let begun = Instant::now();
        while of_ours.len() < effort.rounds || begun.elapsed() < effort.time {
            of_ours.push(of_a_block(block, ours) / asked);
            of_original.push(of_a_block(block, original) / asked);
        }
        hold(&ours.timed(), &original.timed(), ours, original);
        Some(Nanoseconds {
            ours: median(of_ours),
            original: median(of_original),
        })
    }

    /// The evaluations that an objective asks for after so many others.
    fn asked_after(&self, objectives: usize) -> usize {
        let mut unkept = Original::new(&self.cell, &self.model, &self.cohort);
        for _ in 0..objectives {
            unkept.objective();
        }
        let before = unkept.tally().0;
        unkept.objective();
        unkept.tally().0 - before
    }
}

/// Nanoseconds for freeing a reply of the original's form, just made.
fn freeing(cell: &Cell, model: &Model, reading: Reading) -> f64 {
    const REPLIES: usize = 15;
    let of_a_reply = |_| {
        let stopwatch = Stopwatch::default();
        let reply = samples(cell.effects, model, THETA);
        stopwatch.time(|| drop(reply));
        nanoseconds(stopwatch.taken()) - reading.seen
    };
    median((0..REPLIES).map(of_a_reply).collect())
}

/// Both sides timed, now one first and now the other.
fn in_turn(round: usize, ours: &mut Ours, original: &mut Original) -> (Timed, Timed) {
    if round.is_multiple_of(2) {
        let first = ours.timed();
        return (first, original.timed());
    }
    let first = original.timed();
    (ours.timed(), first)
}

/// Both sides came to the same, by the same questions.
fn hold(a: &Timed, b: &Timed, ours: &Ours, original: &Original) {
    assert_eq!(a.objective.to_bits(), b.objective.to_bits());
    assert_eq!(a.questions, b.questions);
    assert_eq!(ours.tally(), original.tally());
}

/// An objective of both sides, held to each other in all that they tell.
fn hold_all(ours: &mut Ours, original: &mut Original) {
    let objective = ours.objective();
    let told = original.population();
    assert_eq!(objective.to_bits(), told.value.to_bits());
    assert_eq!(ours.tally(), original.tally());
    let estimates = ours.session().estimates().map(|one| {
        let [x, y] = one.eta;
        [x, y, one.negative_log_likelihood].map(f64::to_bits)
    });
    assert!(estimates.eq(told.subjects.iter().map(|one| {
        let [x, y] = one.eta;
        [x, y, one.negative_log_likelihood].map(f64::to_bits)
    })));
    let fitted = ours.session().fitted();
    assert!(fitted
        .map(|one| [one.population, one.individual].map(f64::to_bits))
        .eq(told
            .fitted
            .iter()
            .map(|one| [one.pred, one.ipred].map(f64::to_bits))));
}

/// Runs objectives on both sides until one asks no question. How many were run
/// since the session began, that one included; nothing where each one asks.
fn settled(ours: &mut Ours, original: &mut Original) -> Option<usize> {
    const MOST: usize = 4;
    // the first was timed
    (2..=MOST).find(|_| {
        let (a, b) = (ours.timed(), original.timed());
        hold(&a, &b, ours, original);
        a.questions == 0
    })
}

/// Nanoseconds of an objective, in a block of so many without a question.
fn of_a_block(objectives: usize, side: &mut impl Side) -> f64 {
    side.stopwatch().reset();
    let begun = Instant::now();
    for _ in 0..objectives {
        std::hint::black_box(side.objective());
    }
    let whole = begun.elapsed();
    assert_eq!(side.stopwatch().runs(), 0);
    nanoseconds(whole) / objectives as f64
}

#[cfg(test)]
mod tests {
    use super::*;

    const ONCE: Effort = Effort {
        time: Duration::ZERO,
        rounds: 1,
    };

    #[test]
    fn both_sides_come_to_the_same() {
        for effects in [1, 2] {
            for (rows, subjects) in [(1, 1), (10, 3), (100, 2)] {
                let shape = Shape::new(effects, rows, subjects);
                for k in [1, 64, 100_000] {
                    let (first, mut ours, mut original) = shape.first(k, ONCE);
                    assert!(first.questions <= first.asked);
                    let again = shape.again(&mut ours, &mut original, ONCE);
                    // all that was asked is kept just where it fits in K rows
                    assert_eq!(again.is_some(), first.questions * rows <= k);
                }
            }
        }
    }

    #[test]
    fn what_is_asked_is_what_ours_asks_with_nothing_kept() {
        for effects in [1, 2] {
            // two rows are more than one that may be kept
            let shape = Shape::new(effects, 2, 3);
            let (first, ours, _) = shape.first(1, ONCE);
            assert_eq!(ours.tally(), (first.asked, 0));
        }
    }
}
