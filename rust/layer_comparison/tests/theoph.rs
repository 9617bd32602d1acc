//! Searches with two effects that the source leaves unresolved, on measured data: R's
//! data set Theoph, with effects on clearance and absorption rate. One subject is refused
//! with 13 although its mode is well within the bound: the rounds come nearer to it by
//! the same part each time, from one side and the other, and 48 are too few.

#[path = "../../curlewstand/examples/theoph/data.rs"]
mod data;
#[path = "../../curlewstand/examples/theoph/model.rs"]
mod model;

use curlewstand::{Place, Refusal, Session, Setup, Side, TwoEffects};
use data::{theoph, Subject};
use model::{concentration, Kinetics};

/// The subject that is refused, as sessions count them; the file's `ID` is 9.
const REFUSED: usize = 8;
const ETA_BOUND: f64 = 4.;

#[derive(Clone, Copy)]
struct Trial {
    /// Clearance in L/h/kg, and absorption rate in 1/h.
    theta: [f64; 2],
    /// In L/kg.
    volume: f64,
    /// The effects' variances.
    omega: [f64; 2],
    /// The measurements' deviation, in mg/L.
    additive: f64,
}

/// A search that is just not resolved, and one that is far from it.
const TRIALS: [Trial; 2] = [
    Trial {
        theta: [0.04, 1.5],
        volume: 0.4731,
        omega: [0.09, 0.2],
        additive: 1.,
    },
    Trial {
        theta: [0.04, 1.5],
        volume: 0.5,
        omega: [0.1, 0.1],
        additive: 0.7,
    },
];

/// What clearance, absorption rate, volume, variances and deviation come to where a second
/// implementation of FOCEI fits them all, and the objective there.
const ESTIMATES: (Trial, f64) = (
    Trial {
        theta: [0.04085, 1.4757],
        volume: 0.44256,
        omega: [0.12877, 0.47938],
        additive: 0.79527,
    },
    138.845,
);

impl Trial {
    fn omega(&self) -> [[f64; 2]; 2] {
        let [clearance, absorption] = self.omega;
        [[clearance, 0.], [0., absorption]]
    }

    /// A concentration, and its derivatives by both individual values.
    fn prediction(&self, subject: &Subject, individual: [f64; 2], time: f64) -> (f64, [f64; 2]) {
        let [clearance, absorption] = individual;
        let kinetics = Kinetics {
            clearance,
            volume: self.volume,
            absorption,
        };
        concentration(subject.dose, kinetics, time)
    }
}

/// A question: the subject, and the words of its etas.
type Asked = (usize, [u64; 2]);

/// The questions of our session's objective, and how it ends.
fn ours(trial: Trial) -> (Vec<Asked>, Result<f64, Refusal>) {
    let subjects = theoph().unwrap();
    let cohort: Vec<_> = subjects
        .iter()
        .map(|subject| subject.observations(trial.additive))
        .collect();
    let setup = Setup {
        eta_bound: ETA_BOUND,
        ..Setup::two_effects(trial.omega(), 10_000)
    };
    let mut session = Session::new(setup, &cohort).unwrap();
    let mut asked = Vec::new();
    let parameters = TwoEffects { theta: trial.theta };
    let ended = session.objective(parameters, |question, rows| {
        asked.push((question.subject, question.eta.map(f64::to_bits)));
        let subject = &subjects[question.subject];
        subject.times.iter().try_for_each(|&time| {
            let prediction = trial.prediction(subject, question.individual, time);
            rows.push(time, Side::Post, &[prediction])
        })
    });
    (asked, ended.map_err(|unfinished| unfinished.refusal()))
}

#[test]
fn ours_refuses_a_subject_far_from_the_bound() {
    assert_eq!(theoph().unwrap()[REFUSED].id, 9);
    for trial in TRIALS {
        let (asked, ended) = ours(trial);
        let place = Place::Subject(REFUSED);
        assert_eq!(ended, Err(Refusal { number: 13, place }));
        let of_it = asked.iter().filter(|(subject, _)| *subject == REFUSED);
        let largest = of_it.flat_map(|(_, etas)| etas.map(|eta| f64::from_bits(eta).abs()));
        assert!(largest.fold(0., f64::max) < 0.5 * ETA_BOUND);
    }
}

/// Not every trial is refused.
#[test]
fn ours_finishes_where_a_second_implementation_ends() {
    let (trial, objective) = ESTIMATES;
    let (_, ended) = ours(trial);
    assert!((ended.unwrap() - objective).abs() < 1e-3, "{ended:?}");
}

#[cfg(source_at_hand)]
mod beside_the_original {
    use super::*;
    use layer_comparison::rules_2d::{joint, norm, Step, REDUCTIONS, ROUNDS};
    use oracle::session::{Observed, Question, SensitivitySample, Settings};
    use std::cell::RefCell;
    use std::rc::Rc;
    use test_exports::mode_2d::{Conditional2, Settings2};

    /// The original with its settings, and what it asks of its simulator.
    struct Original {
        session: oracle::TwoEffects,
        trial: Trial,
        asked: Rc<RefCell<Vec<Asked>>>,
    }

    fn observed(subject: &Subject, additive: f64) -> Vec<Observed> {
        let observed = |(row, &value): (usize, &f64)| Observed {
            output: 0,
            row,
            value,
            additive,
            proportional: 0.,
        };
        subject.measured.iter().enumerate().map(observed).collect()
    }

    fn rows(trial: &Trial, subject: &Subject, question: &Question) -> Vec<SensitivitySample> {
        let row = |&time: &f64| {
            let (value, by) = trial.prediction(subject, question.individual, time);
            SensitivitySample {
                time,
                side: "post",
                values: vec![value],
                derivatives: by.map(|one| vec![one]).to_vec(),
            }
        };
        subject.times.iter().map(row).collect()
    }

    fn original(trial: Trial) -> Original {
        let subjects = theoph().unwrap();
        let cohort = subjects
            .iter()
            .map(|subject| observed(subject, trial.additive));
        let cohort = cohort.collect();
        let asked = Rc::new(RefCell::new(Vec::new()));
        let noted = Rc::clone(&asked);
        let settings = Settings {
            eta_bound: ETA_BOUND,
            gradient_tolerance: 1e-4,
            max_evaluations: 10_000,
            kept_rows: 10_000,
            width: 1,
            output_budget: usize::MAX,
        };
        let simulator = Box::new(move |question: &Question| {
            let etas = question.eta.map(f64::to_bits);
            noted.borrow_mut().push((question.subject, etas));
            Some(rows(&trial, &subjects[question.subject], question))
        });
        let session = oracle::TwoEffects::new(settings, trial.omega(), cohort, simulator);
        Original {
            session: session.expect("omega has an inverse"),
            trial,
            asked,
        }
    }

    impl Original {
        fn settings(&self) -> Settings2 {
            Settings2 {
                eta_bound: ETA_BOUND,
                precision: self.session.precision(),
                warm: [0.; 2],
            }
        }

        fn at(&mut self, subject: usize, eta: [f64; 2]) -> Conditional2 {
            let point = self.session.subject(subject, self.trial.theta, eta);
            let point = point.expect("every point is evaluated");
            Conditional2 {
                eta: point.eta,
                nll: point.nll,
                score: point.score,
                information: point.information,
            }
        }

        /// The points of a search from eta zero by the source's rounds, as many as it
        /// takes for the norm that ends them early.
        fn rounds(&mut self, subject: usize) -> Vec<Conditional2> {
            let settings = self.settings();
            let mut current = self.at(subject, [0.; 2]);
            let mut points = vec![current];
            while norm(&settings, &current) > 1e-5 {
                let step = Step::at(&settings, &current).expect("there is a curvature");
                let taken = (0..REDUCTIONS).find_map(|reduction| {
                    let trial = step.trial(ETA_BOUND, reduction);
                    let at = self.at(subject, trial);
                    let enough = joint(&settings, &current) - 1e-4 * step.fall(trial);
                    (joint(&settings, &at) <= enough).then_some(at)
                });
                current = taken.expect("a trial is taken");
                points.push(current);
            }
            points
        }
    }

    #[test]
    fn it_asks_the_same_and_refuses_the_same() {
        for trial in TRIALS {
            let mut original = original(trial);
            let refusal = original.session.population(trial.theta).unwrap_err();
            assert_eq!((refusal.number, refusal.subject), (13, Some(REFUSED)));
            assert_eq!(*original.asked.borrow(), ours(trial).0);
        }
        let (trial, _) = ESTIMATES;
        let mut original = original(trial);
        let objective = original.session.population(trial.theta).unwrap();
        let (asked, ended) = ours(trial);
        assert_eq!(ended, Ok(objective.value));
        assert_eq!(*original.asked.borrow(), asked);
    }

    /// What the rounds come to for the subject that is refused.
    struct Slow {
        /// The norm after 48 rounds.
        norm: f64,
        /// How many rounds bring it to 1e-3, which is enough.
        enough: usize,
        /// What is left of it in the end with each round.
        factor: f64,
        /// From how many of the six starts 48 rounds are too few.
        refused_starts: usize,
        /// With the modes that rounds enough find.
        objective: f64,
    }

    const SLOW: [Slow; 2] = [
        Slow {
            norm: 1.0145e-3,
            enough: 49,
            factor: 0.8494,
            refused_starts: 2,
            objective: 155.2469,
        },
        Slow {
            norm: 0.11411,
            enough: 198,
            factor: 0.9689,
            refused_starts: 6,
            objective: 193.9558,
        },
    ];

    #[test]
    fn its_rounds_are_too_slow() {
        for (trial, slow) in TRIALS.into_iter().zip(SLOW) {
            let mut original = original(trial);
            let points = original.rounds(REFUSED);
            let settings = original.settings();
            let norms: Vec<f64> = points.iter().map(|at| norm(&settings, at)).collect();
            let rounds = ROUNDS as usize;
            // the last that is asked for before it is refused
            let (asked, _) = ours(trial);
            let last = points[rounds].eta.map(f64::to_bits);
            assert_eq!(asked.last(), Some(&(REFUSED, last)));
            let is_near = |found: f64, expected: f64| (found / expected - 1.).abs() < 1e-3;
            assert!(is_near(norms[rounds], slow.norm), "{}", norms[rounds]);
            let enough = norms.iter().position(|norm| *norm <= 1e-3);
            assert_eq!(enough, Some(slow.enough));
            let end = norms.len() - 1;
            let factor = norms[end] / norms[end - 1];
            assert!(is_near(factor, slow.factor), "{factor}");
            // from one side of the mode and the other
            let mode = points[end].eta[1];
            for pair in points[rounds / 2..rounds].windows(2) {
                assert!((pair[0].eta[1] - mode) * (pair[1].eta[1] - mode) < 0.);
            }
        }
    }

    #[test]
    fn from_each_of_the_six_starts() {
        let half = 0.5 * ETA_BOUND;
        let starts = [
            [0., 0.],
            [0., 0.],
            [half, 0.],
            [-half, 0.],
            [0., half],
            [0., -half],
        ];
        for (trial, slow) in TRIALS.into_iter().zip(SLOW) {
            let session = &mut original(trial).session;
            let candidates =
                starts.map(|start| session.mode_from_seed(REFUSED, trial.theta, start));
            let refused = candidates.iter().filter_map(|one| one.as_ref().err());
            assert!(refused.clone().all(|refusal| refusal.number == 13));
            assert_eq!(refused.count(), slow.refused_starts);
        }
    }

    /// Each subject has its mode, and the cohort its objective.
    #[test]
    fn with_more_of_them_there_is_an_objective() {
        const LOG_2PI: f64 = 1.8378770664093453;
        for (trial, slow) in TRIALS.into_iter().zip(SLOW) {
            let mut original = original(trial);
            let settings = original.settings();
            let mut objective = 0.;
            for (number, subject) in theoph().unwrap().iter().enumerate() {
                let mode = *original.rounds(number).last().unwrap();
                let [[a, b], [c, d]] = settings.precision;
                let [[e, f], [g, h]] = mode.information;
                let curvature = oracle::determinant([[a + e, b + f], [c + g, d + h]]);
                objective += 2. * joint(&settings, &mode) - subject.times.len() as f64 * LOG_2PI;
                objective += (original.session.det_omega() * curvature).ln();
            }
            assert!((objective - slow.objective).abs() < 1e-3, "{objective}");
        }
    }
}
