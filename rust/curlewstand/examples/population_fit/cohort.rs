//! Generated patients: known true values, a fixed seed, and nothing that differs from
//! machine to machine but the last bits of `exp`.

use super::model::concentration;
use curlewstand::Observation;

/// When blood is taken, in hours after the dose.
pub const TIMES: [f64; 8] = [0.5, 1., 2., 4., 6., 9., 14., 24.];
pub const SUBJECTS: usize = 40;

/// What patients are made with, or what was drawn for them.
pub struct Truth {
    /// Typical clearance (L/h) and volume (L).
    pub theta: [f64; 2],
    /// The variances of log clearance and log volume.
    pub omega: [f64; 2],
    /// The deviation of a measurement, in mg/L.
    pub additive: f64,
}

pub struct Patient {
    /// The true effects on clearance and volume.
    pub eta: [f64; 2],
    /// A measured concentration for each time.
    pub measured: Vec<f64>,
}

impl Patient {
    /// As a session is lent them: row i of a reply predicts measurement i.
    pub fn observations(&self, additive: f64) -> Vec<Observation> {
        let observation = |(row, &value): (usize, &f64)| Observation {
            output: 0,
            row,
            value,
            additive,
            proportional: 0.,
        };
        self.measured.iter().enumerate().map(observation).collect()
    }
}

pub fn cohort(truth: &Truth, seed: u64) -> Vec<Patient> {
    let mut draws = Draws(seed);
    (0..SUBJECTS).map(|_| patient(truth, &mut draws)).collect()
}

/// What these patients have, as an endless cohort would have the truth: the centre and
/// the spread of their effects, and the spread of their measurements' errors.
pub fn drawn(truth: &Truth, patients: &[Patient]) -> Truth {
    let mean = |f: &dyn Fn(&Patient) -> f64| patients.iter().map(f).sum::<f64>() / SUBJECTS as f64;
    let centre = [0, 1].map(|effect| mean(&|patient| patient.eta[effect]));
    let spread =
        [0, 1].map(|effect| mean(&|patient| (patient.eta[effect] - centre[effect]).powi(2)));
    let errors = |patient: &Patient| {
        let [clearance, volume] = individual(truth, patient.eta);
        let squared = |(&time, &value): (&f64, &f64)| {
            (value - concentration(clearance, volume, time).value).powi(2)
        };
        let sum: f64 = TIMES.iter().zip(&patient.measured).map(squared).sum();
        sum / TIMES.len() as f64
    };
    Truth {
        theta: individual(truth, centre),
        omega: spread,
        additive: mean(&errors).sqrt(),
    }
}

/// Clearance and volume with these effects.
fn individual(truth: &Truth, eta: [f64; 2]) -> [f64; 2] {
    [0, 1].map(|effect| truth.theta[effect] * eta[effect].exp())
}

fn patient(truth: &Truth, draws: &mut Draws) -> Patient {
    let eta = truth.omega.map(|variance| variance.sqrt() * draws.normal());
    let [clearance, volume] = individual(truth, eta);
    let measure =
        |time: f64| concentration(clearance, volume, time).value + truth.additive * draws.normal();
    Patient {
        eta,
        measured: TIMES.map(measure).to_vec(),
    }
}

/// SplitMix64.
struct Draws(u64);

impl Draws {
    fn word(&mut self) -> u64 {
        self.0 = self.0.wrapping_add(0x9e3779b97f4a7c15);
        let z = (self.0 ^ (self.0 >> 30)).wrapping_mul(0xbf58476d1ce4e5b9);
        let z = (z ^ (z >> 27)).wrapping_mul(0x94d049bb133111eb);
        z ^ (z >> 31)
    }

    /// From 0 to below 1.
    fn uniform(&mut self) -> f64 {
        (self.word() >> 11) as f64 / (1u64 << 53) as f64
    }

    /// The sum of twelve uniform draws less 6 has mean 0 and variance 1, and is near
    /// enough to a normal one.
    fn normal(&mut self) -> f64 {
        (0..12).map(|_| self.uniform()).sum::<f64>() - 6.
    }
}
