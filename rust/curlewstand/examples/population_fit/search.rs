//! The outer fit, as qspquest has it: a search by coordinates in a box that is
//! brought to the unit cube, with steps that are halved when a round brings nothing.

use curlewstand::{Reason, Refusal};
use std::fmt;

/// A parameter's start and the box that it stays in.
pub struct Coordinate {
    pub start: f64,
    pub lower: f64,
    pub upper: f64,
}

impl Coordinate {
    fn at(&self, x: f64) -> f64 {
        self.lower + x * (self.upper - self.lower)
    }

    fn unit_start(&self) -> f64 {
        (self.start - self.lower) / (self.upper - self.lower)
    }
}

pub struct Found<const N: usize> {
    pub parameters: [f64; N],
    pub objective: f64,
    /// Whether the steps became small, and not the evaluations few.
    pub converged: bool,
    pub rounds: u32,
}

impl<const N: usize> fmt::Display for Found<N> {
    fn fmt(&self, f: &mut fmt::Formatter<'_>) -> fmt::Result {
        let state = match self.converged {
            true => "converged",
            false => "no evaluation is left",
        };
        let (objective, rounds) = (self.objective, self.rounds);
        write!(f, "objective {objective:.4}, {state} after {rounds} rounds")
    }
}

/// Leads the parameters to the least objective that it meets. A trial that is refused
/// is passed over, unless no evaluation is left or the fault is the host's.
pub fn minimize<const N: usize>(
    coordinates: [&Coordinate; N],
    tolerance: f64,
    mut objective: impl FnMut([f64; N]) -> Result<f64, Refusal>,
) -> Result<Found<N>, Refusal> {
    let decode = |x: &[f64; N]| std::array::from_fn(|i| coordinates[i].at(x[i]));
    let mut x: [f64; N] = std::array::from_fn(|i| coordinates[i].unit_start());
    let mut best = objective(decode(&x))?;
    let (mut step, mut rounds, mut spent) = (0.2, 0, false);
    while step > tolerance && !spent {
        let mut improved = false;
        for (axis, direction) in (0..N).flat_map(|axis| [(axis, -1.), (axis, 1.)]) {
            let mut trial = x;
            trial[axis] = (trial[axis] + direction * step).clamp(0., 1.);
            if trial == x {
                continue;
            }
            match ended(objective(decode(&trial)), best)? {
                Trial::Better(value) => (x, best, improved) = (trial, value, true),
                Trial::NoBetter => {}
                Trial::Spent => {
                    spent = true;
                    break;
                }
            }
        }
        rounds += 1;
        if !improved {
            step *= 0.5;
        }
    }
    Ok(Found {
        parameters: decode(&x),
        objective: best,
        converged: !spent,
        rounds,
    })
}

enum Trial {
    Better(f64),
    NoBetter,
    /// No evaluation is left.
    Spent,
}

/// Other parameters may fare better where the simulator or the arithmetic failed, or a
/// subject has no single mode. Where the host has lent something wrong none will.
fn ended(trial: Result<f64, Refusal>, best: f64) -> Result<Trial, Refusal> {
    use Reason::*;
    let refusal = match trial {
        Ok(value) if value < best => return Ok(Trial::Better(value)),
        Ok(_) => return Ok(Trial::NoBetter),
        Err(refusal) => refusal,
    };
    match refusal.reason() {
        Some(NoEvaluationLeft) => Ok(Trial::Spent),
        Some(IndividualValue | Simulator | Variance | Likelihood) => Ok(Trial::NoBetter),
        Some(NoMode | SeveralModes | NotSettled | Curvature) => Ok(Trial::NoBetter),
        Some(RowsMoved | Objective) => Ok(Trial::NoBetter),
        _ => Err(refusal),
    }
}
