//! What the sessions came to, counted apart for one effect and for two.

use std::fmt;

/// The most evaluations that one search may ask for, with one effect and with
/// two.
pub const CEILINGS: [u64; 2] = [82, 6_343];

#[derive(Clone, Debug, Default, PartialEq, Eq)]
pub struct Counts {
    by_effects: [OfEffects; 2],
}

#[derive(Clone, Debug, Default, PartialEq, Eq)]
pub struct OfEffects {
    pub sessions: u64,
    /// By their number.
    pub setups_refused: [u64; 20],
    pub objectives: u64,
    pub finished: u64,
    /// Objectives by the number of their refusal.
    pub refused: [u64; 20],
    /// Objectives that the host left in their midst.
    pub left: u64,
    /// Calls that were not due, or that were refused and altered nothing.
    pub strays: u64,
    pub warm_starts: u64,
    /// Questions that were answered.
    pub evaluations: u64,
    /// Evaluations asked for that a kept one answered.
    pub found: u64,
    /// Rows of kept evaluations that made room for others.
    pub dropped_rows: u64,
    pub largest: Largest,
}

#[derive(Clone, Debug, Default, PartialEq, Eq)]
pub struct Largest {
    /// Evaluations asked for by one search, kept ones included.
    pub asked: u64,
    /// By how much the tally's evaluations rose in one search.
    pub rise_in_search: u64,
    /// The same in one objective.
    pub rise_in_objective: u64,
    pub subjects: u64,
    pub observations: u64,
    /// The same of an objective that was finished.
    pub finished_subjects: u64,
    pub finished_observations: u64,
    pub kept_rows: u64,
    pub objectives: u64,
}

impl Counts {
    /// Of one effect or of two.
    pub fn of(&mut self, effects: usize) -> &mut OfEffects {
        &mut self.by_effects[(effects - 1).min(1)]
    }

    pub fn add(&mut self, other: &Counts) {
        for (sum, one) in self.by_effects.iter_mut().zip(&other.by_effects) {
            sum.add(one);
        }
    }

    pub fn sessions(&self) -> u64 {
        self.by_effects.iter().map(|one| one.sessions).sum()
    }

    pub fn objectives(&self) -> u64 {
        self.by_effects.iter().map(|one| one.objectives).sum()
    }

    pub fn evaluations(&self) -> u64 {
        self.by_effects.iter().map(|one| one.evaluations).sum()
    }

    pub fn by_effects(&self) -> &[OfEffects; 2] {
        &self.by_effects
    }
}

impl OfEffects {
    /// An objective is finished over so many subjects and observations.
    pub fn finish(&mut self, subjects: usize, observations: usize) {
        self.finished += 1;
        self.largest.raise(&Largest {
            finished_subjects: subjects as u64,
            finished_observations: observations as u64,
            ..Largest::default()
        });
    }

    fn add(&mut self, other: &OfEffects) {
        self.sessions += other.sessions;
        self.objectives += other.objectives;
        self.finished += other.finished;
        self.left += other.left;
        self.strays += other.strays;
        self.warm_starts += other.warm_starts;
        self.evaluations += other.evaluations;
        self.found += other.found;
        self.dropped_rows += other.dropped_rows;
        for number in 0..20 {
            self.setups_refused[number] += other.setups_refused[number];
            self.refused[number] += other.refused[number];
        }
        self.largest.raise(&other.largest);
    }
}

impl Largest {
    fn raise(&mut self, other: &Largest) {
        let raise = |own: &mut u64, other: u64| *own = (*own).max(other);
        raise(&mut self.asked, other.asked);
        raise(&mut self.rise_in_search, other.rise_in_search);
        raise(&mut self.rise_in_objective, other.rise_in_objective);
        raise(&mut self.subjects, other.subjects);
        raise(&mut self.observations, other.observations);
        raise(&mut self.finished_subjects, other.finished_subjects);
        raise(&mut self.finished_observations, other.finished_observations);
        raise(&mut self.kept_rows, other.kept_rows);
        raise(&mut self.objectives, other.objectives);
    }
}

/// A line for each count, with one effect and with two.
impl fmt::Display for Counts {
    fn fmt(&self, f: &mut fmt::Formatter<'_>) -> fmt::Result {
        let [one, two] = &self.by_effects;
        writeln!(f, "{:44}{:>12}{:>13}", "", "one effect", "two effects")?;
        let mut line = |name: &str, of: &dyn Fn(&OfEffects) -> u64| {
            writeln!(f, "{name:44}{:>12}{:>13}", of(one), of(two))
        };
        line("sessions", &|of| of.sessions)?;
        for number in (1..20).filter(|at| one.setups_refused[*at] + two.setups_refused[*at] > 0) {
            let name = format!("  setup refused {number}");
            line(&name, &|of| of.setups_refused[number])?;
        }
        line("objectives", &|of| of.objectives)?;
        line("  finished", &|of| of.finished)?;
        for number in (1..20).filter(|at| one.refused[*at] + two.refused[*at] > 0) {
            line(&format!("  refused {number}"), &|of| of.refused[number])?;
        }
        line("  left in their midst", &|of| of.left)?;
        line("calls that altered nothing", &|of| of.strays)?;
        line("warm starts set", &|of| of.warm_starts)?;
        line("evaluations answered on both sides", &|of| of.evaluations)?;
        line("kept evaluations found", &|of| of.found)?;
        line("kept rows dropped", &|of| of.dropped_rows)?;
        for (name, of_largest) in LARGEST {
            line(name, &|of| of_largest(&of.largest))?;
        }
        Ok(())
    }
}

type OfLargest = fn(&Largest) -> u64;

const LARGEST: [(&str, OfLargest); 9] = [
    ("largest: asked by one search", |of| of.asked),
    ("  rise of the tally in one search", |of| of.rise_in_search),
    ("  rise of the tally in one objective", |of| {
        of.rise_in_objective
    }),
    ("  subjects", |of| of.subjects),
    ("  observations", |of| of.observations),
    ("  subjects of a finished objective", |of| {
        of.finished_subjects
    }),
    ("  observations of a finished objective", |of| {
        of.finished_observations
    }),
    ("  K", |of| of.kept_rows),
    ("  objectives of one session", |of| of.objectives),
];
